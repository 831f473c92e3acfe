"""Scripts for replaying, each made from a seed: questions about one sheet, and
lives of a whole pile.

A script that is `small` judges only small sheets, so that a slow program can
keep up with it.
"""

import collections
import random

import families
from families import ROW_LETTERS, some_row, usable_letters

QUESTIONS_EACH = 100
CALLS_EACH = 50
LAYERS = ["city", "tariff", "strikes"]


def rows_of(text):
    """The rows of a text in good form."""
    lines = [text[start : start + 14] for start in range(14, len(text), 14)]
    return [
        (line[:1].decode(), int(line[1:5]), int(line[5:9]), int(line[9:13])) for line in lines
    ]


def without_bad_caps(rows):
    """The rows without the caps for which all judging would be refused."""
    wider = {b for letter, a, b, n in rows if letter == "P" and a != b}
    return [row for row in rows if not (row[0] == "K" and row[2] // 2 in wider)]


def typed_sheet(rng):
    """Ends with classes, some of which are apart, and counts of one class above
    the caps of another: little is empty, but arrows are apart because the things
    at their tails or at their heads are, and classes because of the counts."""
    classes, arrows = rng.randint(3, 8), rng.randint(2, 6)
    rows = [("D", rng.randrange(2 * arrows), rng.randrange(classes), 0) for _ in range(arrows)]
    for _ in range(rng.choice([0, 1, 2])):
        side, ends = rng.randrange(2), rng.sample(range(0, 2 * arrows, 2), 2)
        apart = rng.sample(range(classes), 2)
        rows.append(("X", *apart, 0))
        rows += [("D", end + side, number, 0) for end, number in zip(ends, apart)]
    for _ in range(rng.choice([0, 1, 2])):
        end, most = rng.randrange(2 * arrows), rng.randint(1, 29)
        capped, counted = rng.sample(range(classes), 2)
        rows.append(("K", capped, end, most))
        rows.append(("F", counted, end, min(most + rng.randint(1, 2), 30)))
    for letter in rng.choices("XSSPFKQ", k=rng.randint(0, 8)):
        row = some_row(rng, letter, classes, arrows, 3)
        if row[1] != row[2]:
            rows.append(row)
    rng.shuffle(rows)
    return classes, arrows, rows


def some_sheet(rng, small):
    """Counts and sound rows, mostly such as can be judged."""
    if rng.random() < 0.2:
        classes, arrows, rows = typed_sheet(rng)
        return classes, arrows, without_bad_caps(rows)
    if small or rng.random() < 0.5:
        text = families.small_text(rng)
    else:
        text = families.sized_text(rng)
    rows = rows_of(text)
    if rng.random() < 0.95:
        rows = without_bad_caps(rows)
    return int(text[1:5]), int(text[5:9]), rows


class Asker:
    """Draws rows to ask about, many of which follow from the given rows."""

    def __init__(self, rng, classes, arrows, rows):
        self.rng, self.classes, self.arrows = rng, classes, arrows
        self.rows, self.clashing = [], []
        self.letters = usable_letters(classes, arrows)
        self.onward = collections.defaultdict(list)
        self.back = collections.defaultdict(list)
        self.add(rows)

    def add(self, rows):
        """Knows of some more rows, which are sound."""
        self.rows += rows
        self.clashing += [row for row in rows if row[0] in "XKQ"]
        for row in rows:
            self.add_links(row)

    def add_links(self, row):
        letter, a, b, n = row
        links = []
        if letter == "S":
            links.append((("class", a), ("class", b)))
        elif letter == "F":
            links.append((("class", a), ("end", b)))
        elif letter == "D":
            links.append((("end", a), ("class", b)))
        elif letter == "P":
            links.append((("end", 2 * a), ("end", 2 * b)))
            links.append((("end", 2 * a + 1), ("end", 2 * b + 1)))
        for point, other in links:
            self.onward[point].append(other)
            self.back[other].append(point)

    def walk(self, links, point):
        """Some steps along the links, so that long ways are asked for as well."""
        for _ in range(self.rng.choice([0, 1, 1, 2, 3, 6])):
            if not links[point]:
                break
            point = self.rng.choice(links[point])
        return point

    def times(self):
        return self.rng.choice([1, 1, 2, 3, 29, 30, self.rng.randint(1, 30)])

    def along_links(self):
        """A row whose right side is found by walking on from its left side."""
        a = self.rng.randrange(self.classes)
        kind, start = self.rng.choice(
            [("class", a), ("class", a), ("end", self.rng.randrange(2 * self.arrows))]
        )
        other, number = self.walk(self.onward, (kind, start))
        if kind == "class":
            if other == "class":
                return "S", start, number, 0
            return "F", start, number, self.times()
        if other == "class":
            return "D", start, number, 0
        return "P", start // 2, number // 2, 0

    def against_clash(self):
        """A row found by walking back from both sides of a clash."""
        if not self.clashing:
            return self.any_row()
        letter, a, b, n = self.rng.choice(self.clashing)
        if letter == "Q":
            side = self.rng.randrange(2)
            starts = ("end", 2 * a + side), ("end", 2 * b + side)
        else:
            starts = ("class", a), ("class" if letter == "X" else "end", b)
        for _ in range(4):
            one, other = (self.walk(self.back, start) for start in starts)
            # A tail and a head that are apart make no arrows apart.
            if (one[0], other[0]) != ("end", "end") or one[1] % 2 == other[1] % 2:
                break
        return self.apart(one, other, n)

    def apart(self, one, other, n):
        """The row that says that the two points are apart, either way round."""
        if self.rng.random() < 0.5:
            one, other = other, one
        kinds = one[0], other[0]
        if kinds == ("class", "class"):
            return "X", one[1], other[1], 0
        if kinds == ("end", "end"):
            return "Q", one[1] // 2, other[1] // 2, 0
        if one[0] == "end":
            one, other = other, one
        times = self.rng.choice([self.times(), n, n - 1, n + 1])
        return "K", one[1], other[1], min(max(times, 1), 30)

    def any_row(self):
        letter = self.rng.choice(self.letters)
        letter, a, b, n = some_row(self.rng, letter, self.classes, self.arrows, 30)
        return letter, a, b, n and self.times()

    def sound(self):
        way = self.rng.random()
        if not (self.classes and self.arrows):
            return self.any_row()
        if way < 0.3:
            return self.along_links()
        if way < 0.6:
            return self.against_clash()
        if way < 0.7 and self.rows:
            return self.rng.choice(self.rows)
        return self.any_row()

    def unsound(self):
        """A row with a field out of range or at the edge of it."""
        rng, classes, arrows = self.rng, self.classes, self.arrows
        numbers = [rng.choice([0, 1, classes, arrows, 2 * arrows, rng.randrange(66)]) for _ in "ab"]
        if rng.random() < 0.1:
            numbers[rng.randrange(2)] = rng.choice([255, 256, 9999, 65535])
        times = rng.choice([0, 1, 30, 31, 256, 65535])
        letter = rng.choice(ROW_LETTERS + "FK")
        if rng.random() < 0.15:
            letter = rng.choice("sH#:!\0\r\t\x7f\xff\xa0")
        return letter, *numbers, times

    def row(self, unsound_share):
        if not self.letters or self.rng.random() < unsound_share:
            return self.unsound()
        return self.sound()


def row_words(rng, row):
    """A row, without its last number where that may be left out."""
    letter, a, b, n = row
    if n == 0 and rng.random() < 0.7:
        return f"{letter} {a} {b}"
    return f"{letter} {a} {b} {n}"


def text_lines(text):
    """The text and the line that ends it. A text that does not end in a line
    feed gets one, since it is made of lines."""
    if text and not text.endswith(b"\n"):
        text += b"\n"
    return text.decode("latin-1") + "end"


def joined(rng, lines):
    """The bytes of the script; the last line may lack its line feed."""
    script = "\n".join(lines) + rng.choice(["\n", "\n", ""])
    return script.encode("latin-1")


def questions(rng, count, small=False):
    """A script that asks so many questions about the sheet of a text."""
    classes, arrows, rows = some_sheet(rng, small)
    text = families.text(classes, arrows, rows)
    if rng.random() < 0.02:
        text = families.damage(rng, text)
    lines = ["text", text_lines(text)]
    asker = Asker(rng, classes, arrows, rows)
    unsound_share = rng.choice([0.02, 0.02, 0.1])
    for _ in range(count):
        lines.append("base ask " + row_words(rng, asker.row(unsound_share)))
    return joined(rng, lines)


# How often a life makes each call; a life has some that it favours.
CALLS = {
    "enter": 8,
    "amend": 2,
    "withdraw": 1,
    "strike": 4,
    "restore": 1.5,
    "load": 3,
    "verdict": 6,
    "ask": 10,
    "counts": 1,
    "capacity": 1,
    "rows": 1,
    "row": 2,
}
OWN_PARTS = {
    "amend": ["base"],
    "withdraw": ["city", "tariff"],
    "strike": ["strikes"],
    "restore": ["strikes"],
    "enter": ["base", "base", "city", "city", "tariff", "tariff", "strikes"],
    "load": ["base", "base", "city", "tariff", "strikes"],
}
ALL_PARTS = ["base", "city", "tariff", "strikes", "strikes"]


class Life:
    """Draws the calls of one life, with a rough idea of the rows so far."""

    def __init__(self, rng, small):
        self.rng, self.small = rng, small
        self.unsound_share = rng.choice([0, 0, 0, 0.03, 0.2])
        self.cap_share = rng.choice([0, 0.5, 1])
        self.struck = [0]
        self.lines = []
        self.weights = dict(CALLS)
        for name in rng.sample(["enter", "amend", "strike", "load", "verdict", "ask"], 2):
            self.weights[name] *= rng.choice([1, 2, 5, 20])
        # So many strikes that there may be no more.
        self.striking = rng.random() < 0.06
        if self.striking:
            self.weights["strike"] = 4 * sum(self.weights.values())
        self.judged_part = rng.choice(ALL_PARTS)
        self.filled_part = rng.choice(["base", "city", "tariff"])
        self.next_strike = 0
        self.begin()

    def begin(self):
        rng = self.rng
        classes, arrows, rows = some_sheet(rng, self.small)
        if rng.random() < 0.6 and not self.striking:
            self.begin_book(classes, arrows)
            return
        if classes and (self.striking or rng.random() < (0.02 if self.small else 0.15)):
            # Near the greatest number of rows, so that layers go beyond it.
            rows = (rows or [("S", 0, 0, 0)]) * 512
            rows = rows[: rng.choice([479, 480, 511, 512, rng.randint(450, 512)])]
        text = families.text(classes, arrows, rows)
        if rng.random() < 0.05:
            text = families.damage(rng, text)
        self.lines += ["text", text_lines(text)]
        self.asker = Asker(rng, classes, arrows, rows)

    def begin_book(self, classes, arrows):
        rng = self.rng
        if rng.random() < 0.04:
            classes, arrows = rng.choice([(65, 0), (0, 33), (64, 33), (65, 32), (65535, 65535)])
        self.lines.append(f"book {classes} {arrows}")
        if classes > 64 or arrows > 32:
            classes = arrows = 0
        self.asker = Asker(rng, classes, arrows, [])

    def part(self, name):
        rng = self.rng
        way = rng.random()
        if way < 0.02:
            return str(rng.choice([4, 5, 10, 65536, 2**32, 2**64 - 1]))
        if way < 0.05:
            part = rng.choice(ALL_PARTS)
        elif way < 0.4 and name in ("enter", "load"):
            part = self.filled_part
        elif way < 0.4 and name not in OWN_PARTS:
            part = self.judged_part
        else:
            part = rng.choice(OWN_PARTS.get(name, ALL_PARTS))
        if rng.random() < 0.2:
            part = rng.choice(["", "0", "00"]) + str(["base", *LAYERS].index(part))
        return part

    def new_row(self):
        asker = self.asker
        if not asker.letters or self.rng.random() < self.unsound_share:
            return row_words(self.rng, asker.unsound())
        row = asker.sound()
        if row[0] == "K" and self.rng.random() >= self.cap_share:
            row = asker.sound()
        asker.add([row])
        return row_words(self.rng, row)

    def number(self):
        """The number of a row that is likely to be there."""
        count = len(self.asker.rows)
        edges = [0, 31, 32, 383, 384, 65535, 2**32, 2**64 - 1]
        if self.rng.random() < 0.1:
            return self.rng.choice(edges)
        return self.rng.randrange(count + 2)

    def row_count(self):
        """How many rows a text to load has; often as many as just fit."""
        few = self.rng.randint(0, 10)
        counts = [few, few, few, 31, 32, 33]
        if not self.small or self.rng.random() < 0.1:
            counts += [self.rng.randint(0, 384), 383, 384]
        return self.rng.choice(counts)

    def fitting_text(self):
        """A text with the counts of the pile."""
        rng, asker = self.rng, self.asker
        count = self.row_count() if asker.letters else 0
        rows = [asker.sound() for _ in range(count)]
        if rng.random() < 0.7:
            rows = without_bad_caps(rows)
            rows += rng.choices(rows, k=count - len(rows)) if rows else []
        asker.add(rows)
        return families.text(asker.classes, asker.arrows, rows)

    def load_lines(self):
        rng = self.rng
        way = rng.random()
        if way < 0.06:
            return text_lines(families.broken_text(rng))
        if way < 0.12:
            return text_lines(families.unsound_text(rng))
        if way < 0.25:
            return text_lines(families.text(*some_sheet(rng, self.small)))
        return text_lines(self.fitting_text())

    def given(self, name):
        """The words after the call's name."""
        rng = self.rng
        if name in ("enter", "ask"):
            return " " + (self.new_row() if name == "enter" else self.asked())
        if name == "amend":
            return f" {self.number()} {self.new_row()}"
        if name == "strike":
            # One after the other, so that many are struck, and seldom one twice.
            k = self.next_strike if rng.random() < 0.8 else self.number()
            self.next_strike = (self.next_strike + 1) % (len(self.asker.rows) + 1)
            self.struck.append(k)
            return f" {k}"
        if name == "restore":
            return f" {rng.choice(self.struck) if rng.random() < 0.8 else self.number()}"
        if name == "row":
            return f" {self.number()}"
        if name == "verdict" and rng.random() < 0.2:
            names = self.asker.classes + self.asker.arrows
            return f" {rng.choice([names, max(names - 1, 0), names + 1, 0, 96, 65535])}"
        return ""

    def asked(self):
        return row_words(self.rng, self.asker.row(0.05))

    def call(self):
        rng = self.rng
        if rng.random() < 0.04:
            self.lines.append(rng.choice(["", "   ", "# a remark", "  #", "#end"]))
        name = rng.choices(list(self.weights), list(self.weights.values()))[0]
        words = f"{self.part(name)} {name}{self.given(name)}"
        if rng.random() < 0.05:
            words = loosened(rng, words)
        self.lines.append(words)
        if name == "load":
            self.lines.append(self.load_lines())


def loosened(rng, words):
    """The same words with more blanks and zeros."""
    some = [
        "0" * rng.randrange(3) + word if word.isdigit() and word.isascii() else word
        for word in words.split(" ")
    ]
    return " " * rng.randrange(3) + rng.choice([" ", "  "]).join(some) + " " * rng.randrange(2)


BAD_LINES = [
    "base",
    "roof rows",
    "base rows 1",
    "base row",
    "base row -1",
    "base row +1",
    "base row 1x",
    "base row 18446744073709551616",
    "18446744073709551616 rows",
    "base enter S 1",
    "base enter SS 1 1",
    "base enter S 1 1 1 1",
    "base enter S 65536 1",
    "base enter S 0 65536",
    "base ask F 0 0 65536",
    "base amend S 0 0",
    "base amend 0",
    "base verdict 65536",
    "base verdict 1 1",
    "base load now",
    "base load",
    "base withdraw all",
    "base\trows",
    "base Rows",
    "Base rows",
    "book 4 2",
    "text",
    "\r",
    "end",
]


def torn(rng, script):
    """A script cut off, or with a byte changed, taken out or put in."""
    place = rng.randrange(len(script))
    byte = bytes([rng.choice([rng.randrange(256), *b" \n\t#0end"])])
    return rng.choice(
        [
            script[:place],
            script[:place] + byte + script[place + 1 :],
            script[:place] + script[place + 1 :],
            script[:place] + byte + script[place:],
        ]
    )


def life(rng, small=False):
    """A script of calls on every part of a pile; a few cannot be run at all."""
    drawn = Life(rng, small)
    for _ in range(CALLS_EACH):
        drawn.call()
    lines = drawn.lines
    way = rng.random()
    if way < 0.03:
        lines.insert(rng.randrange(len(lines) + 1), rng.choice(BAD_LINES))
    script = joined(rng, lines)
    return torn(rng, script) if 0.03 <= way < 0.06 else script


def make_questions(seed, count=QUESTIONS_EACH, small=False):
    return questions(random.Random(f"questions {seed}"), count, small)


def make_life(seed, small=False):
    return life(random.Random(f"life {seed}"), small)
