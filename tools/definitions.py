"""The definitions of texts, verdicts and questions, taken at their word.

Nothing here is clever: every description is a point, every link is written
out, what a point leads to is searched for each point apart, and emptiness grows
from nothing until it stops. That is slow, so it is meant for small sheets: a
full one takes minutes.

A row is a letter (a string of one character for one byte) and three numbers.
"""

import collections
import functools

# A form is right just when one of these lines is the same; so a line goes wrong
# at the first column where none of them begins like it.
GROUPS = {b"%4d" % number for number in range(10000)}
GROUP_BEGINNINGS = {group[:length] for group in GROUPS for length in range(1, 5)}

ANY_TIMES = range(1, 32)


class Refused(Exception):
    def __init__(self, number, place=0, second_place=0):
        self.numbers = number, place, second_place


def begins_alike(beginning, letters):
    """Whether some well-formed line begins so."""
    if beginning[0:1] not in letters:
        return False
    groups = [beginning[1:5], beginning[5:9], beginning[9:13]]
    if any(group and group not in GROUP_BEGINNINGS for group in groups):
        return False
    return beginning[13:] in (b"", b"\n")


def read_line(line_number, line, letters):
    for column in range(1, 15):
        if not begins_alike(line[:column], letters):
            raise Refused(9, line_number, column)
    return line[0:1].decode(), int(line[1:5]), int(line[5:9]), int(line[9:13])


def unsound_field(row, classes, arrows):
    """The lowest unsound field of a row, or None."""
    letter, a, b, n = row
    class_range, arrow_range, end_range = range(classes), range(arrows), range(2 * arrows)
    ranges = {
        "S": (class_range, class_range, [0]),
        "X": (class_range, class_range, [0]),
        "D": (end_range, class_range, [0]),
        "F": (class_range, end_range, range(1, 31)),
        "K": (class_range, end_range, range(1, 31)),
        "P": (arrow_range, arrow_range, [0]),
        "Q": (arrow_range, arrow_range, [0]),
    }
    if letter not in ranges:
        return 1
    for field, number, allowed in zip((2, 3, 4), (a, b, n), ranges[letter]):
        if number not in allowed:
            return field
    return None


def read_text(text):
    if len(text) < 14:
        raise Refused(8)
    _, classes, arrows, count = read_line(1, text[:14], {b"H"})
    if classes > 64 or arrows > 32 or count > 512:
        raise Refused(10)
    if len(text) != 14 * (count + 1):
        raise Refused(11)
    rows = []
    for line_number in range(2, count + 2):
        line = text[14 * (line_number - 1) : 14 * line_number]
        row = read_line(line_number, line, {b"S", b"X", b"D", b"F", b"K", b"P", b"Q"})
        if field := unsound_field(row, classes, arrows):
            raise Refused(12, line_number, field)
        rows.append(row)
    return classes, arrows, rows


def search(links, start):
    """The points that the start leads to, itself among them."""
    found = {start}
    to_visit = [start]
    while to_visit:
        new = links[to_visit.pop()] - found
        found |= new
        to_visit.extend(new)
    return found


def clash_between(clashes, one, other):
    """Whether the one set and the other have two that clash, one from each."""
    return any(
        (x in one and y in other) or (y in one and x in other) for x, y in clashes
    )


def web_of_arrows(arrows, rows):
    """For each arrow, those that it leads to."""
    links = collections.defaultdict(set)
    for letter, a, b, n in rows:
        if letter == "P":
            links[a].add(b)
    return {arrow: search(links, arrow) for arrow in range(arrows)}


def web_of_descriptions(classes, arrows, rows):
    """For each description, those that it leads to. A class is the point
    ("class", number), and having an end at least so many times is the point
    ("has", end, times)."""
    points = [("class", number) for number in range(classes)]
    points += [("has", end, times) for end in range(2 * arrows) for times in ANY_TIMES]
    links = collections.defaultdict(set)
    for end in range(2 * arrows):
        for times in ANY_TIMES:
            for fewer in range(1, times):
                links["has", end, times].add(("has", end, fewer))
    for letter, a, b, n in rows:
        if letter == "S":
            links["class", a].add(("class", b))
        elif letter == "F":
            links["class", a].add(("has", b, n))
        elif letter == "D":
            links["has", a, 1].add(("class", b))
        elif letter == "P":
            for side in (0, 1):
                for times in ANY_TIMES:
                    links["has", 2 * a + side, times].add(("has", 2 * b + side, times))
    return {point: search(links, point) for point in points}


class Sheet:
    """Counts and rows that have passed the checks, with their two webs."""

    def __init__(self, classes, arrows, rows):
        if classes > 64 or arrows > 32 or len(rows) > 512:
            raise Refused(15)
        for row_number, row in enumerate(rows):
            if field := unsound_field(row, classes, arrows):
                raise Refused(16, row_number, field)
        self.classes, self.arrows = classes, arrows
        self.arrow_leads = web_of_arrows(arrows, rows)
        for row_number, (letter, a, b, n) in enumerate(rows):
            if letter == "K" and self.another_leads_to(b // 2):
                raise Refused(17, row_number)
        self.leads = web_of_descriptions(classes, arrows, rows)
        self.clashes, self.arrow_clashes = [], []
        for row in rows:
            self.add_clashes(row)
        self.find_empty()

    def another_leads_to(self, arrow):
        return any(
            arrow in leads for other, leads in self.arrow_leads.items() if other != arrow
        )

    def add_clashes(self, row):
        letter, a, b, n = row
        if letter == "X":
            self.clashes.append((("class", a), ("class", b)))
        elif letter == "K":
            for times in ANY_TIMES:
                if n < times:
                    self.clashes.append((("class", a), ("has", b, times)))
        elif letter == "Q":
            self.arrow_clashes.append((a, b))

    def clash(self, one, other):
        return clash_between(self.clashes, self.leads[one], self.leads[other])

    def arrows_clash(self, one, other):
        return clash_between(self.arrow_clashes, self.arrow_leads[one], self.arrow_leads[other])

    def find_empty(self):
        clashing = {point for point in self.leads if self.clash(point, point)}
        arrows_clashing = {a for a in range(self.arrows) if self.arrows_clash(a, a)}
        self.empty, self.empty_arrows = set(), set()
        while True:
            before = len(self.empty), len(self.empty_arrows)
            for point, leads in self.leads.items():
                if point in clashing or leads & self.empty:
                    self.empty.add(point)
            for arrow in range(self.arrows):
                ends = {("has", 2 * arrow, 1), ("has", 2 * arrow + 1, 1)}
                if arrow in arrows_clashing or ends & self.empty:
                    self.empty_arrows.add(arrow)
                if arrow in self.empty_arrows:
                    self.empty |= ends
            if before == (len(self.empty), len(self.empty_arrows)):
                break

    def verdict(self):
        """The numbers of the empty classes and of the empty arrows."""
        classes = [c for c in range(self.classes) if ("class", c) in self.empty]
        return classes, sorted(self.empty_arrows)

    def ask(self, asked):
        letter, a, b, n = asked
        if field := unsound_field(asked, self.classes, self.arrows):
            raise Refused(19, field)
        if letter == "F" and n >= 2 and self.another_leads_to(b // 2):
            raise Refused(20)
        if letter == "S":
            return self.is_said_of(("class", a), ("class", b))
        if letter == "F":
            return self.is_said_of(("class", a), ("has", b, n))
        if letter == "D":
            return self.is_said_of(("has", a, 1), ("class", b))
        if letter == "P":
            return a in self.empty_arrows or b in self.arrow_leads[a]
        if letter == "X":
            return self.are_apart(("class", a), ("class", b))
        if letter == "K":
            return self.are_apart(("class", a), ("has", b, n + 1))
        return (
            a in self.empty_arrows
            or b in self.empty_arrows
            or self.arrows_clash(a, b)
            or self.clash(("has", 2 * a, 1), ("has", 2 * b, 1))
            or self.clash(("has", 2 * a + 1, 1), ("has", 2 * b + 1, 1))
        )

    def is_said_of(self, point, other):
        return point in self.empty or other in self.leads[point]

    def are_apart(self, point, other):
        return point in self.empty or other in self.empty or self.clash(point, other)


@functools.lru_cache(maxsize=64)
def checked(classes, arrows, rows):
    """The sheet of these counts and this tuple of rows, or the refusal of its
    checks; kept, since many calls in a row judge the same sheet."""
    try:
        return Sheet(classes, arrows, rows)
    except Refused as refusal:
        return refusal


def judged(classes, arrows, rows):
    sheet = checked(classes, arrows, tuple(rows))
    if isinstance(sheet, Refused):
        raise Refused(*sheet.numbers)
    return sheet


def report(text):
    try:
        empty_classes, empty_arrows = judged(*read_text(text)).verdict()
    except Refused as refusal:
        return b"!%4d%4d%4d\n" % refusal.numbers
    lines = [b"V%4d%4d   0\n" % (len(empty_classes), len(empty_arrows))]
    lines += [b"C%4d   0   0\n" % number for number in empty_classes]
    lines += [b"A%4d   0   0\n" % number for number in empty_arrows]
    return b"".join(lines)
