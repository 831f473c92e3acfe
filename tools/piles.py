"""A plain model of the pile and of replaying scripts on it.

Each part is an object that looks through the one below it, as the words of the
rules go; nothing is shared with the programs that it is compared with.
"""

import re

import definitions
from definitions import Refused

LONGEST_SCRIPT = 1_048_576
PARTS = ["base", "city", "tariff", "strikes"]

WORDS = {
    1: "more than 64 classes or 32 arrows",
    2: "the part is full",
    3: "there is no such row",
    4: "there is no such row below",
    5: "the row is struck already",
    6: "32 rows are struck",
    7: "the row is not struck",
    8: "the text is shorter than a line",
    9: "line {}, column {} is out of form",
    10: "the text has more than 64 classes, 32 arrows or 512 rows",
    11: "the text is not as long as its first line says",
    12: "line {}, field {} is unsound",
    13: "the text has more classes or arrows than the part",
    14: "the rows do not fit",
    15: "more than 64 classes, 32 arrows or 512 rows",
    16: "row {}, field {} is unsound",
    17: "row {} caps an arrow that another leads to",
    18: "the table is too short",
    19: "field {} of the asked row is unsound",
    20: "an asked count on an arrow that another leads to",
}


class BadScript(Exception):
    pass


def row_words(row):
    return "{} {} {} {}".format(*row)


class Part:
    """What every part of a pile can do; a part that adds something has a method
    of the call's name."""

    def enter(self, row):
        if len(self.shown()) >= self.room():
            raise Refused(2)
        self.own.append(row)
        return "done"

    def load(self, text):
        classes, arrows, rows = definitions.read_text(text)
        if classes > self.names()[0] or arrows > self.names()[1]:
            raise Refused(13)
        if len(self.shown()) + len(rows) > self.room():
            raise Refused(14)
        for row in rows:
            self.enter(row)
        return "done"

    def sheet(self):
        return definitions.judged(*self.names(), self.shown())

    def verdict(self, table=96):
        sheet = self.sheet()
        if table < sum(self.names()):
            raise Refused(18)
        classes, arrows = sheet.verdict()
        names = [f"class {number}" for number in classes]
        names += [f"arrow {number}" for number in arrows]
        if not names:
            return "0 forced empty"
        return f"{len(names)} forced empty: {', '.join(names)}"

    def ask(self, row):
        return "yes" if self.sheet().ask(row) else "no"

    def counts(self):
        return "{} classes, {} arrows".format(*self.names())

    def capacity(self):
        return str(self.room())

    def rows(self):
        return str(len(self.shown()))

    def row(self, k):
        shown = self.shown()
        return row_words(shown[k]) if k < len(shown) else "none"


class Book(Part):
    def __init__(self, classes, arrows):
        self.own = []
        self.set_up = (classes, arrows) if classes <= 64 and arrows <= 32 else (0, 0)

    def names(self):
        return self.set_up

    def shown(self):
        return list(self.own)

    def room(self):
        return 384

    def amend(self, k, row):
        if k >= len(self.own):
            raise Refused(3)
        self.own[k] = row
        return "done"


class TextSheet(Part):
    def __init__(self, classes, arrows, rows):
        self.told = classes, arrows
        self.own = rows

    def names(self):
        return self.told

    def shown(self):
        return list(self.own)

    def room(self):
        return len(self.own)


class Trial(Part):
    def __init__(self, below):
        self.below = below
        self.own = []

    def names(self):
        return self.below.names()

    def shown(self):
        return (self.below.shown() + self.own)[:65535]

    def room(self):
        return min(len(self.below.shown()) + 32, 65535)

    def withdraw(self):
        dropped, self.own = len(self.own), []
        return f"{dropped} dropped"


class Strike(Part):
    def __init__(self, below):
        self.below = below
        self.struck = set()

    def names(self):
        return self.below.names()

    def shown(self):
        return [row for k, row in enumerate(self.below.shown()) if k not in self.struck]

    def room(self):
        return len(self.shown())

    def strike(self, k):
        if k >= len(self.below.shown()):
            raise Refused(4)
        if k in self.struck:
            raise Refused(5)
        if len(self.struck) >= 32:
            raise Refused(6)
        self.struck.add(k)
        return "done"

    def restore(self, k):
        if k not in self.struck:
            raise Refused(7)
        self.struck.remove(k)
        return "done"


# What a call's words look like; the groups are its numbers and rows.
SMALL = r"(\d+)"
ROW = r"([^ ]) +(\d+) +(\d+)(?: +(\d+))?"
CALLS = {
    "enter": f"enter +{ROW}",
    "amend": f"amend +{SMALL} +{ROW}",
    "withdraw": "withdraw",
    "strike": f"strike +{SMALL}",
    "restore": f"restore +{SMALL}",
    "load": "load",
    "verdict": f"verdict(?: +{SMALL})?",
    "ask": f"ask +{ROW}",
    "counts": "counts",
    "capacity": "capacity",
    "rows": "rows",
    "row": f"row +{SMALL}",
}
# Letters may be any byte but a blank and a line feed, and digits are only these ten.
FLAGS = re.ASCII | re.DOTALL


def bounded(word, most):
    digits = word.lstrip("0") or "0"
    if len(digits) > len(str(most)) or int(digits) > most:
        raise BadScript
    return int(digits)


def read_call(words):
    """The name of a call and what it is given."""
    for name, form in CALLS.items():
        found = re.fullmatch(form, words, FLAGS)
        if not found:
            continue
        groups = list(found.groups())
        given = []
        if name in ("strike", "restore", "row", "amend"):
            given.append(bounded(groups.pop(0), 2**64 - 1))
        if name in ("enter", "amend", "ask"):
            letter, *numbers = groups
            given.append((letter, *(bounded(number or "0", 65535) for number in numbers)))
        if name == "verdict" and groups[0]:
            given.append(bounded(groups[0], 65535))
        return name, given
    raise BadScript


def one_blank(words):
    return re.sub(" +", " ", words)


class Lines:
    """The lines of a script; a character stands for a byte."""

    def __init__(self, script):
        if len(script) > LONGEST_SCRIPT:
            raise BadScript
        self.lines = script.decode("latin-1").split("\n")
        if not self.lines[-1]:
            self.lines.pop()
        self.number = 0

    def next(self):
        """The number and the words of the next line that says something, or None."""
        while self.number < len(self.lines):
            line = self.lines[self.number]
            self.number += 1
            try:
                line.encode("latin-1").decode()
            except UnicodeDecodeError:
                raise BadScript from None
            words = line.strip(" ")
            if words and not words.startswith("#"):
                return self.number, words
        return None

    def text(self):
        text = ""
        while self.number < len(self.lines):
            line = self.lines[self.number]
            self.number += 1
            if line == "end":
                return text.encode("latin-1")
            text += line + "\n"
        raise BadScript


def read_script(script):
    """The line, words and maker of the lowest sheet, and the calls."""
    lines = Lines(script)
    first = lines.next()
    if not first:
        raise BadScript
    line, words = first
    if words == "text":
        lowest = line, "text", lines.text()
    elif found := re.fullmatch(r"book +(\d+) +(\d+)", words, FLAGS):
        counts = [bounded(number, 65535) for number in found.groups()]
        lowest = line, one_blank(words), counts
    else:
        raise BadScript
    calls = []
    while following := lines.next():
        line, words = following
        part, _, rest = words.partition(" ")
        if part in PARTS:
            part = PARTS.index(part)
        elif re.fullmatch(r"\d+", part, FLAGS):
            part = bounded(part, 2**64 - 1)
        else:
            raise BadScript
        name, given = read_call(rest.strip(" "))
        if name == "load":
            given = [lines.text()]
        calls.append((line, part, name, given, one_blank(words)))
    return lowest, calls


def refusal_words(refusal):
    number, *places = refusal.numbers
    return f"refused {number}: {WORDS[number].format(*places)}"


def lowest_sheet(made_of):
    """The lowest sheet and the answer to making it."""
    if isinstance(made_of, bytes):
        try:
            return TextSheet(*definitions.read_text(made_of)), "done"
        except Refused as refusal:
            return TextSheet(0, 0, []), refusal_words(refusal)
    base = Book(*made_of)
    refused = made_of[0] > 64 or made_of[1] > 32
    return base, refusal_words(Refused(1)) if refused else "done"


def replay(script):
    """What is written for a script, and the exit status."""
    try:
        (line, words, made_of), calls = read_script(script)
    except BadScript:
        return b"", 1
    base, answer = lowest_sheet(made_of)
    city = Trial(base)
    tariff = Trial(city)
    parts = [base, city, tariff, Strike(tariff)]
    written = [f"{line}: {words}: {answer}\n"]
    for line, part, name, given, shown in calls:
        if part >= 4:
            answer = "no such part"
        elif not hasattr(parts[part], name):
            answer = "no such call here"
        else:
            try:
                answer = getattr(parts[part], name)(*given)
            except Refused as refusal:
                answer = refusal_words(refusal)
        written.append(f"{line}: {shown}: {answer}\n")
    return "".join(written).encode("latin-1"), 0
