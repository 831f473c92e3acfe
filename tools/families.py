"""Families of schema texts, each made from a seed.

A text is line 1 (H, classes, arrows, rows) and one line per row: a letter and
three numbers, each set to the right in four columns, then a line feed. The same
family, seed and options always give the same bytes.
"""

import random

MOST_CLASSES = 64
MOST_ARROWS = 32
MOST_ROWS = 512
MOST_TIMES = 30
LINE_LENGTH = 14

ROW_LETTERS = "SXDFKPQ"


def line(letter, a, b, n):
    return b"%c%4d%4d%4d\n" % (ord(letter), a, b, n)


def text(classes, arrows, rows):
    return line("H", classes, arrows, len(rows)) + b"".join(line(*row) for row in rows)


def usable_letters(classes, arrows):
    """The letters for which a sound row exists at all."""
    letters = ""
    if classes:
        letters += "SX"
    if arrows:
        letters += "PQ"
    if classes and arrows:
        letters += "DFK"
    return letters


def some_row(rng, letter, classes, arrows, most_times):
    if letter in "SX":
        return letter, rng.randrange(classes), rng.randrange(classes), 0
    if letter in "PQ":
        return letter, rng.randrange(arrows), rng.randrange(arrows), 0
    if letter == "D":
        return letter, rng.randrange(2 * arrows), rng.randrange(classes), 0
    return letter, rng.randrange(classes), rng.randrange(2 * arrows), rng.randint(1, most_times)


def random_text(rng, classes=MOST_CLASSES, arrows=MOST_ARROWS, rows=MOST_ROWS):
    """Letters drawn at random. Caps stand only on arrows that no other arrow
    lies within, so the text is never refused for one. A seed also draws how
    common the three letters that can clash are: with all of them about, nearly
    every name is empty, and with few of them hardly any."""
    letters = usable_letters(classes, arrows)
    if not letters:
        return text(classes, arrows, [])
    clash_share = rng.choice([1, 0.3, 0.1, 0.03, 0])
    weights = [clash_share if letter in "XQK" else 1 for letter in letters]
    if not any(weights):
        weights = [1] * len(letters)
    lowest = set(rng.sample(range(arrows), max(1, arrows // 4))) if arrows else set()
    made = []
    for letter in rng.choices(letters, weights, k=rows):
        row = some_row(rng, letter, classes, arrows, MOST_TIMES)
        _, a, b, n = row
        if letter == "P" and b in lowest:
            row = letter, b, a, n
            if a in lowest:
                row = letter, b, b, n
        if letter == "K":
            row = letter, a, 2 * rng.choice(sorted(lowest)) + b % 2, n
        made.append(row)
    return text(classes, arrows, made)


def small_text(rng, classes=None, arrows=None, rows=None):
    """A few names and rows, so that every kind of outcome is common."""
    classes = rng.randint(0, 5) if classes is None else classes
    arrows = rng.randint(0, 4) if arrows is None else arrows
    rows = rng.randint(0, 14) if rows is None else rows
    letters = usable_letters(classes, arrows)
    if not letters:
        return text(classes, arrows, [])
    most_times = rng.choice([1, 2, 3, 30])
    weights = [rng.choice([1, 1, 2, 4]) for _ in letters]
    if rng.random() < 0.3:
        # Few caps over other arrows, so that caps also get to be judged.
        weights = [w / 8 if x == "P" else w for x, w in zip(letters, weights)]
    if rng.random() < 0.3:
        weights = [w / 8 if x in "XQ" else w for x, w in zip(letters, weights)]
    made = [
        some_row(rng, letter, classes, arrows, most_times)
        for letter in rng.choices(letters, weights, k=rows)
    ]
    return text(classes, arrows, made)


def sparse_text(rng, classes=MOST_CLASSES, arrows=MOST_ARROWS, rows=MOST_ROWS):
    """Like random, but with so few different rows that some of the names are
    empty and others are not; half of the seeds repeat rows until all are used."""
    most = min(rows, 200)
    data = random_text(rng, classes, arrows, rng.randint(min(most, 40), most))
    made = [data[start : start + LINE_LENGTH] for start in range(LINE_LENGTH, len(data), LINE_LENGTH)]
    if made and rng.random() < 0.5:
        made += rng.choices(made, k=rows - len(made))
        rng.shuffle(made)
    return line("H", classes, arrows, len(made)) + b"".join(made)


def numbering(rng, count):
    """The numbers below count: rising, falling or shuffled."""
    numbers = list(range(count))
    way = rng.randrange(3)
    if way == 1:
        numbers.reverse()
    elif way == 2:
        rng.shuffle(numbers)
    return numbers


def fill_with_arrow_rows(rng, made, rows, candidates):
    """Adds as many of the candidate P rows as fit, different ones first."""
    present = set(made)
    spare = [row for row in candidates if row not in present]
    rng.shuffle(spare)
    made.extend(spare[: max(0, rows - len(made))])
    while candidates and len(made) < rows:
        made.append(rng.choice(candidates))


def dense_text(rng, classes=MOST_CLASSES, arrows=MOST_ARROWS, rows=MOST_ROWS):
    """Nearly everything leads to everything: a ring of arrows, a ring of
    classes, ends joined to classes both ways with thirty times, and P rows in
    every place that is left. A seed draws whether anything clashes."""
    if not (classes and arrows):
        return text(classes, arrows, [])
    ring = numbering(rng, arrows)
    # One arrow may stay below the ring, where it can be capped.
    lowest = ring.pop() if arrows > 1 and rng.random() < 0.5 else None
    circle = numbering(rng, classes)
    made = [("P", a, b, 0) for a, b in zip(ring, ring[1:] + ring[:1])]
    made += [("S", a, b, 0) for a, b in zip(circle, circle[1:] + circle[:1])]
    for side in (0, 1):
        made.append(("F", rng.choice(circle), 2 * rng.choice(ring) + side, MOST_TIMES))
        made.append(("D", 2 * rng.choice(ring) + side, rng.choice(circle), 0))
    for arrow in ring if rng.random() < 0.5 else []:
        for end in (2 * arrow, 2 * arrow + 1):
            made.append(("F", rng.choice(circle), end, MOST_TIMES))
            made.append(("D", end, rng.choice(circle), 0))
    if lowest is not None:
        made.append(("P", lowest, rng.choice(ring), 0))
        made.append(("F", rng.choice(circle), 2 * lowest, MOST_TIMES))
        made.append(("K", rng.choice(circle), 2 * lowest, rng.choice([MOST_TIMES, MOST_TIMES, 29])))
    clash = rng.choice(["none", "none", "classes", "arrows"])
    if clash == "classes":
        made.append(("X", rng.choice(circle), rng.choice(circle), 0))
    elif clash == "arrows":
        made.append(("Q", rng.choice(ring), rng.choice(ring), 0))
    made = made[:rows]
    fill_with_arrow_rows(rng, made, rows, [("P", a, b, 0) for a in ring for b in ring if a != b])
    rng.shuffle(made)
    return text(classes, arrows, made)


def relay(rng, arrows_order, classes_order):
    """Each class needs an arrow that leads to the next class, thirty times; if
    the last class is impossible, that goes back one arrow at a time."""
    made = []
    for step, arrow in enumerate(arrows_order):
        if step + 1 >= len(classes_order):
            break
        tail = 2 * arrow + rng.choice([0, 0, 0, 1])
        here, there = classes_order[step], classes_order[step + 1]
        made.append(("F", here, tail, MOST_TIMES))
        made.append(("D", tail, here, 0))
        made.append(("D", tail ^ 1, there, 0))
    return made


def staircase(arrows_order, classes_order):
    """Arrows each within the next, classes each within the next, and thirty
    times at the bottom of both."""
    made = [("P", a, b, 0) for a, b in zip(arrows_order, arrows_order[1:])]
    made += [("S", a, b, 0) for a, b in zip(classes_order, classes_order[1:])]
    first_arrow, last_arrow = arrows_order[0], arrows_order[-1]
    middle = classes_order[len(classes_order) // 2]
    made.append(("F", classes_order[0], 2 * first_arrow, MOST_TIMES))
    made.append(("F", middle, 2 * first_arrow + 1, MOST_TIMES))
    made.append(("D", 2 * last_arrow, middle, 0))
    made.append(("D", 2 * last_arrow + 1, classes_order[0], 0))
    return made


def chain_text(rng, classes=MOST_CLASSES, arrows=MOST_ARROWS, rows=MOST_ROWS):
    """Long chains, so that a fact has many steps to go. A seed draws which kind
    of chain, the order of numbering, and whether its last name is impossible."""
    if not (classes and arrows):
        return text(classes, arrows, [])
    arrows_order = numbering(rng, arrows)
    classes_order = numbering(rng, classes)
    kind = rng.choice(["relay", "staircase", "both"])
    made = []
    if kind != "staircase":
        made += relay(rng, arrows_order, classes_order)
    if kind != "relay":
        made += staircase(arrows_order, classes_order)
    last_class = classes_order[min(len(arrows_order), len(classes_order) - 1)]
    clash = rng.choice(["none", "class", "pair", "arrows", "cap"])
    if clash == "class":
        made.append(("X", last_class, last_class, 0))
    elif clash == "pair":
        made.append(("X", last_class, classes_order[-1], 0))
    elif clash == "arrows":
        made.append(("Q", arrows_order[-1], arrows_order[-1], 0))
    elif clash == "cap":
        # The first arrow is the only one that surely has no other within it.
        cap = rng.choice([1, 29, MOST_TIMES])
        made.append(("K", classes_order[0], 2 * arrows_order[0] + rng.randrange(2), cap))
    made = made[:rows]
    if kind != "relay":
        forward = [
            ("P", a, b, 0)
            for i, a in enumerate(arrows_order)
            for b in arrows_order[i + 1 :]
        ]
        fill_with_arrow_rows(rng, made, rows, forward)
    if rng.random() < 0.5:
        rng.shuffle(made)
    elif rng.random() < 0.5:
        made.reverse()
    return text(classes, arrows, made)


def some_count(rng, most):
    """Often the most, often few, and otherwise anything."""
    return rng.choice([most, rng.randint(0, most), rng.randint(0, most // 4), rng.randint(0, 8)])


def sized_text(rng):
    """A sound text of any of the families and of any size."""
    make_text = rng.choice([random_text, random_text, sparse_text, small_text, dense_text, chain_text])
    return make_text(
        rng,
        classes=some_count(rng, MOST_CLASSES),
        arrows=some_count(rng, MOST_ARROWS),
        rows=some_count(rng, MOST_ROWS),
    )


def varied_text(rng):
    """Any text: sound, refused or no text at all."""
    way = rng.random()
    if way < 0.4:
        return small_text(rng)
    if way < 0.7:
        return sized_text(rng)
    if way < 0.8:
        return damage(rng, sized_text(rng))
    return broken_text(rng) if way < 0.9 else unsound_text(rng)


def base_text(rng):
    way = rng.random()
    if way < 0.8:
        return small_text(rng)
    return random_text(rng, rows=rng.choice([1, 20, MOST_ROWS]))


def group_places(data):
    """Where each group of four columns begins."""
    return [
        start + offset
        for start in range(0, len(data) - LINE_LENGTH + 1, LINE_LENGTH)
        for offset in (1, 5, 9)
    ]


def put(data, place, piece):
    return data[:place] + piece + data[place + len(piece) :]


TELLING_BYTES = b"HSXDFKPQVCA!hsx 0123456789\n\r\t\0-+.\xa0\xff/:"


def broken_text(rng):
    """A sound text with one to three damages done to it."""
    data = base_text(rng)
    for _ in range(rng.choice([1, 1, 1, 2, 3])):
        data = damage(rng, data)
    return data


def damage(rng, data):
    way = rng.randrange(11)
    if not data:
        return b"H"
    if way == 0:
        return put(data, rng.randrange(len(data)), bytes([rng.randrange(256)]))
    if way == 1:
        return put(data, rng.randrange(len(data)), bytes([rng.choice(TELLING_BYTES)]))
    if way == 2:
        return data[: rng.choice([rng.randrange(len(data)), rng.randrange(min(len(data), 16))])]
    if way == 3:
        extra = rng.choice([b"\n", b" ", line("S", 0, 0, 0), data[-LINE_LENGTH:], data[:5], b"\0" * 3])
        return data + extra * rng.choice([1, 1, 2, 600])
    if way == 4:
        count = rng.choice([0, 1, 32, 33, 64, 65, 512, 513, 999, 1000, 9999])
        return put(data, rng.choice([1, 5, 9]), b"%4d" % count)
    if way == 5:
        place = rng.randrange(len(data))
        return data[:place] + data[place + 1 :]
    if way == 6:
        place = rng.randrange(len(data))
        return data[:place] + bytes([rng.choice(TELLING_BYTES)]) + data[place:]
    places = group_places(data)
    if not places:
        return data[:-1]
    place = rng.choice(places)
    number = data[place : place + 4].strip() or b"0"
    if way == 7:
        return put(data, place, number.rjust(rng.randint(2, 4), b"0").rjust(4)[:4])
    if way == 8:
        return put(data, place, rng.choice([b"1  2", b" 1 2", b"12 3", b"1 23", b" 1  ", b"    ", b"1   "]))
    if way == 9:
        return put(data, place, number.ljust(4)[:4])
    return put(data, place, bytes(rng.choice(b" 0123456789") for _ in range(4)))


def unsound_text(rng):
    """A sound text in which one to three fields are out of range, or just at
    the edge of it."""
    data = base_text(rng)
    classes, arrows = int(data[1:5]), int(data[5:9])
    line_count = len(data) // LINE_LENGTH
    if line_count == 1:
        # No row to spoil: announce one and give it.
        letter = rng.choice(ROW_LETTERS)
        data = line("H", classes, arrows, 1) + line(letter, classes, 2 * arrows, 31)
        line_count = 2
    for _ in range(rng.choice([1, 1, 1, 2, 3])):
        start = LINE_LENGTH * rng.randrange(1, line_count)
        if rng.random() < 0.2:
            data = put(data, start, rng.choice(ROW_LETTERS).encode())
        offset = rng.choice([1, 5, 9])
        if rng.random() < 0.3:
            edges = [255, 256, 257, 512, 4096, 9999]
        elif offset == 9:
            edges = [0, 1, MOST_TIMES, MOST_TIMES + 1]
        else:
            edges = [arrows, 2 * arrows, classes, MOST_ARROWS, MOST_CLASSES]
            edges += [max(0, edge - 1) for edge in edges]
        data = put(data, start + offset, b"%4d" % rng.choice(edges))
    return data


FAMILIES = {
    "random": random_text,
    "sparse": sparse_text,
    "small": small_text,
    "dense": dense_text,
    "chain": chain_text,
    "broken": broken_text,
    "unsound": unsound_text,
}

# Those that take numbers of classes, arrows and rows.
SIZED = ("random", "sparse", "small", "dense", "chain")


def make(family, seed, **sizes):
    return FAMILIES[family](random.Random(f"{family} {seed}"), **sizes)
