#!/usr/bin/env python3
"""A second checker of answers, for those who trust nobody.

    tools/check.py < ANSWER               says what `bsss check` says, and ends with its status
    tools/check.py --instance < INSTANCE  says `bad instance N line L`, or writes the canonical text

It is written from docs/FORMATS.md and docs/DEFINITIONS.md alone, shares no line with the program, and is slow
and plain: whole numbers of any size, no floating point. Names are those of the two documents.
"""

import re
import sys
from collections import namedtuple
from math import isqrt

UNIT = 65536  # grid units to a length
INSTANCE_LIMIT, ANSWER_LIMIT, LINE_LIMIT = 1_048_576, 1 << 30, 4096
WORDS = ("solved", "pool_full", "budget", "floor", "empty")

Point = namedtuple("Point", "x y weight cutoff")  # lengths; the cutoff is None where there is none
Instance = namedtuple("Instance", "kind points permitted forbidden")
Square = namedtuple("Square", "x y level")  # the lower left corner, in grid units
Head = namedtuple("Head", "instance gap budget pool site cost bound word open leases line")


class Fault(Exception):
    """The first fault of a text: its number, its line, and two values where the fault has them."""

    def __init__(self, number, line, *values):
        super().__init__(number, line, *values)
        self.number, self.line, self.values = number, line, values


class TooLong(Exception):
    """More bytes came than the limit."""


# ---- instances


def lines_of(text):
    """The lines of a loose text, each without its line feed and one carriage return before it."""
    pieces = text.split(b"\n")
    if not pieces[-1]:
        pieces.pop()
    return [piece[:-1] if piece.endswith(b"\r") else piece for piece in pieces]


def fields_of(line):
    return [field for field in re.split(rb"[ \t]+", line) if field]


def numbers_in(fields, limits, line):
    """The numbers of these fields, each within its limit in size; the first fault of any decides."""
    for field in fields:
        if not re.fullmatch(rb"[-+]?[0-9]+", field):
            raise Fault(3, line)
    numbers = [int(field) for field in fields]
    for number, limit in zip(numbers, limits):
        if abs(number) > limit:
            raise Fault(4, line)
    return numbers


def side(s, t, p):
    """Above 0 where p lies to the left of the edge from s to t, all in the same unit."""
    return (t[0] - s[0]) * (p[1] - s[1]) - (t[1] - s[1]) * (p[0] - s[0])


def edges(vertices):
    return [(i, (i + 1) % len(vertices)) for i in range(len(vertices))]


def turned(vertices):
    area = sum(vertices[i][0] * vertices[j][1] - vertices[j][0] * vertices[i][1] for i, j in edges(vertices))
    return vertices if area >= 0 else vertices[:1] + vertices[:0:-1]


def is_convex(vertices):
    return all(
        side(vertices[i], vertices[j], vertices[k]) > 0
        for i, j in edges(vertices)
        for k in range(len(vertices))
        if k not in (i, j)
    )


def polygon_of(fields, before, line):
    if len(fields) % 2:
        raise Fault(2, line)
    numbers = numbers_in(fields, [1_000_000] * len(fields), line)
    vertices = list(zip(numbers[::2], numbers[1::2]))
    if len(vertices) < 3:
        raise Fault(8, line)
    if len(vertices) > 64:
        raise Fault(9, line)
    vertices = turned(vertices)
    if not is_convex(vertices):
        raise Fault(10, line)
    if before == 64:
        raise Fault(11, line)
    return vertices


def point_of(fields, version, points, line):
    if len(fields) != 3 and not (version == 2 and len(fields) == 4):
        raise Fault(2, line)
    numbers = numbers_in(fields, [1_000_000, 1_000_000, 16_000_000, 4_000_000], line)
    x, y, weight = numbers[:3]
    cutoff = numbers[3] if len(numbers) == 4 else None
    if cutoff is not None and cutoff < 1:
        raise Fault(4, line)
    if weight == 0:
        raise Fault(5, line)
    if len(points) == 4096:
        raise Fault(6, line)
    if sum(abs(p.weight) for p in points) + abs(weight) > 16_000_000:
        raise Fault(7, line)
    return Point(x, y, weight, cutoff)


def instance_of(text):
    """The instance that a loose text says."""
    if len(text) > INSTANCE_LIMIT:
        raise TooLong
    version, kind, ended = None, None, False
    points, permitted, forbidden = [], [], []
    lines = lines_of(text)
    for line, content in enumerate(lines, 1):
        fields = fields_of(content)
        if not fields or fields[0].startswith(b"#"):
            continue
        word, rest = fields[0], fields[1:]
        if version is None:
            if fields not in ([b"siting", b"1"], [b"siting", b"2"]):
                raise Fault(1, line)
            version = int(rest[0])
        elif ended:
            raise Fault(17, line)
        elif word == b"kind":
            if rest not in ([b"sum"], [b"max"]):
                raise Fault(2, line)
            if kind is not None:
                raise Fault(13, line)
            kind = rest[0].decode()
        elif word == b"point":
            points.append(point_of(rest, version, points, line))
        elif word in (b"permit", b"forbid"):
            polygons = permitted if word == b"permit" else forbidden
            polygons.append(polygon_of(rest, len(polygons), line))
        elif word == b"end":
            if rest:
                raise Fault(2, line)
            for number, missing in ((12, kind is None), (14, not points), (15, not permitted)):
                if missing:
                    raise Fault(number, line)
            ended = True
        else:
            raise Fault(2, line)
    if not ended:
        raise Fault(1 if version is None else 16, len(lines) + 1)
    return Instance(kind, points, permitted, forbidden)


def has_cutoff(instance):
    return any(point.cutoff is not None for point in instance.points)


def canonical(instance):
    """The canonical text of an instance."""
    lines = [f"siting {2 if has_cutoff(instance) else 1}", f"kind {instance.kind}"]
    for p in instance.points:
        lines.append(f"point {p.x} {p.y} {p.weight}" + ("" if p.cutoff is None else f" {p.cutoff}"))
    for word, polygons in (("permit", instance.permitted), ("forbid", instance.forbidden)):
        lines += [" ".join([word, *(f"{x} {y}" for x, y in vertices)]) for vertices in polygons]
    return "\n".join([*lines, "end", ""]).encode()


# ---- what is permitted, costs and bounds


def in_grid(place):
    return (UNIT * place[0], UNIT * place[1])


def covers(vertices, p, strictly=False):
    """Whether the polygon has a point in grid units: in it or on its border, or strictly in it."""
    least = 1 if strictly else 0
    return all(side(in_grid(vertices[i]), in_grid(vertices[j]), p) >= least for i, j in edges(vertices))


def permits(instance, p):
    return any(covers(polygon, p) for polygon in instance.permitted) and not any(
        covers(polygon, p, strictly=True) for polygon in instance.forbidden
    )


def ceil_root(m):
    return isqrt(m - 1) + 1 if m > 0 else 0


def total(instance, radius):
    """The sum, or the greatest, of weight times radius, the radii capped by the cutoffs."""
    terms = []
    for point in instance.points:
        r = radius(point)
        terms.append(point.weight * (r if point.cutoff is None else min(r, point.cutoff << 32)))
    return sum(terms) if instance.kind == "sum" else max(terms)


def distance2(point, z):
    return (z[0] - UNIT * point.x) ** 2 + (z[1] - UNIT * point.y) ** 2


def lower_cost(instance, z):
    roots = lambda p: (isqrt if p.weight > 0 else ceil_root)(distance2(p, z) << 32)
    return total(instance, roots) // UNIT


def upper_cost(instance, z):
    roots = lambda p: (ceil_root if p.weight > 0 else isqrt)(distance2(p, z) << 32)
    return -(-total(instance, roots) // UNIT)


def fine_bound(instance, square):
    """No point of the closed square costs less."""
    x0, y0, length = square.x, square.y, 1 << square.level

    def radius(p):
        a, b = UNIT * p.x, UNIT * p.y
        if p.weight > 0:
            near = max(0, x0 - a, a - x0 - length) ** 2 + max(0, y0 - b, b - y0 - length) ** 2
            return isqrt(near << 32)
        far = max(abs(x0 - a), abs(x0 + length - a)) ** 2 + max(abs(y0 - b), abs(y0 + length - b)) ** 2
        return ceil_root(far << 32)

    return total(instance, radius) // UNIT


def corners(square):
    length = 1 << square.level
    return [(square.x + dx, square.y + dy) for dy in (0, length) for dx in (0, length)]


def is_apart(vertices, square):
    xs, ys = zip(*map(in_grid, vertices))
    low, high = corners(square)[0], corners(square)[3]
    if max(xs) < low[0] or high[0] < min(xs) or max(ys) < low[1] or high[1] < min(ys):
        return True
    return any(
        all(side(in_grid(vertices[i]), in_grid(vertices[j]), corner) < 0 for corner in corners(square))
        for i, j in edges(vertices)
    )


def is_excluded(instance, square):
    return all(is_apart(polygon, square) for polygon in instance.permitted) or any(
        all(covers(polygon, corner, strictly=True) for corner in corners(square)) for polygon in instance.forbidden
    )


def root_of(instance):
    xs, ys = zip(*(vertex for polygon in instance.permitted for vertex in polygon))
    span = max(max(xs) - min(xs), max(ys) - min(ys))
    return Square(UNIT * min(xs), UNIT * min(ys), 16 + span.bit_length())


def quarters(square):
    half = Square(square.x, square.y, square.level - 1)
    return [Square(x, y, half.level) for x, y in corners(half)]


def opening_cost(instance):
    """The least upper cost of the permitted vertices, or None."""
    vertices = [in_grid(v) for polygon in instance.permitted + instance.forbidden for v in polygon]
    return min((upper_cost(instance, v) for v in vertices if permits(instance, v)), default=None)


def centre_cost(instance, square):
    """The upper cost of the centre of a square above level 0, or None where it isn't permitted."""
    centre = (square.x + (1 << square.level - 1), square.y + (1 << square.level - 1))
    return upper_cost(instance, centre) if permits(instance, centre) else None


# ---- answers

NUMBER = rb"(0|-?[1-9][0-9]*)"


class Lines:
    """The lines of an answer, one after the other."""

    def __init__(self, text):
        self.goes_on = len(text) > ANSWER_LIMIT
        self.text, self.start, self.line = text[:ANSWER_LIMIT], 0, 0

    def next(self):
        """The next line without its line feed; it is a fault of form where there is none."""
        self.line += 1
        end = self.text.find(b"\n", self.start)
        if end < 0 and self.goes_on:
            raise TooLong
        if end < 0 or end - self.start > LINE_LIMIT:
            raise Fault(1, self.line)
        content, self.start = self.text[self.start : end], end + 1
        return content

    def form(self, pattern, *ranges):
        """The groups of a line of this form, its numbers within these ranges."""
        return self.groups(self.next(), pattern, *ranges)

    def groups(self, content, pattern, *ranges):
        match = re.fullmatch(pattern, content)
        if not match:
            raise Fault(1, self.line)
        groups = [group for group in match.groups() if group is not None]
        numbers = [int(group) for group in groups]
        if not all(low <= number <= high for number, (low, high) in zip(numbers, ranges)):
            raise Fault(1, self.line)
        return numbers

    def instance_part(self):
        """The text from here to the first line that is exactly `end`."""
        found = re.compile(rb"^end\n", re.M).search(self.text, self.start)
        if not found:
            if self.goes_on:
                raise TooLong
            raise Fault(1, self.text.count(b"\n") + 1)
        part, self.start = self.text[self.start : found.end()], found.end()
        self.line += part.count(b"\n")
        return part


WIDE = (-(1 << 63), (1 << 63) - 1)
SITE = (-(1 << 38), 1 << 38)


def head_of(lines):
    version = lines.next()
    if version not in (b"siting answer 1", b"siting answer 2"):
        raise Fault(1, 1)
    part = lines.instance_part()
    try:
        instance = instance_of(part)
    except (Fault, TooLong):
        raise Fault(2, 2) from None
    if canonical(instance) != part or version.split()[2] != part.split()[1]:
        raise Fault(2, 2)
    (gap,) = lines.form(rb"gap " + NUMBER, (0, 1 << 62))
    (budget,) = lines.form(rb"budget " + NUMBER, (0, 1_000_000))
    (pool,) = lines.form(rb"pool " + NUMBER, (1, 1_000_000))
    site = lines.form(rb"site (?:none|" + NUMBER + b" " + NUMBER + b")", SITE, SITE)
    cost = lines.form(rb"cost (?:none|" + NUMBER + b" " + NUMBER + b")", WIDE, WIDE)
    if bool(site) != bool(cost):
        raise Fault(1, lines.line)
    bound = lines.form(rb"bound (?:none|" + NUMBER + b")", WIDE)
    word = lines.next().decode("latin-1")
    if word not in ["answer " + w for w in WORDS]:
        raise Fault(1, lines.line)
    (opened,) = lines.form(rb"open " + NUMBER, (0, 1_000_000))
    (leases,) = lines.form(rb"leases " + NUMBER, (0, 1_000_000))
    if lines.next() != "root {} {} {}".format(*root_of(instance)).encode():
        raise Fault(1, lines.line)
    return Head(
        instance, gap, budget, pool, site, cost, bound[0] if bound else None, word.split()[1], opened, leases, lines.line
    )


def check_head(head):
    """The opening's upper cost, where the head has no fault."""
    if head.site:
        if not permits(head.instance, head.site):
            raise Fault(3, head.line - 6)
        for has, of in zip(head.cost, (lower_cost, upper_cost)):
            wants = of(head.instance, head.site)
            if has != wants:
                raise Fault(4, head.line - 5, has, wants)
    opening = opening_cost(head.instance)
    if opening is not None and (not head.cost or head.cost[1] > opening):
        raise Fault(14, head.line - 5, head.cost[1] if head.cost else None, opening)
    return opening


def is_called_for(head, opening, square, seen):
    """Whether the split was called for, after this number of the incumbent was seen, or none."""
    if square.level == 0:
        return False
    centre = centre_cost(head.instance, square)
    if seen is None:
        return opening is None and centre is None
    return (
        bool(head.cost)
        and seen >= head.cost[1]
        and seen > fine_bound(head.instance, square) + head.gap
        and all(cost is None or seen <= cost for cost in (opening, centre))
    )


def check_mark(head, opening, square, letter, number, line):
    if is_excluded(head.instance, square) != (letter == "X"):
        raise Fault(7 if letter == "X" else 9, line)
    if letter == "S" and not is_called_for(head, opening, square, number):
        raise Fault(10, line)
    if letter in "BFO":
        bound = fine_bound(head.instance, square)
        if number != bound:
            raise Fault(8, line, number, bound)
        settled = bool(head.cost) and bound + head.gap >= head.cost[1]
        if letter != ("B" if settled else "F" if square.level == 0 else "O"):
            raise Fault(9, line)


def check_end(head, letters, least, line):
    if head.bound != least:
        raise Fault(11, line, head.bound, least)
    left = letters["O"] > 0
    ends = ("pool_full", "budget") if left else ("floor",) if letters["F"] else ("solved",)
    if letters["B"] + letters["F"] + letters["O"] == 0:
        ends = ("empty",)
    if head.word not in ends:
        raise Fault(12, line)
    nodes = sum(letters.values())
    fits = letters["S"] <= head.leases <= min(head.budget, 2 * nodes)
    if head.word == "budget":
        fits = fits and head.leases == head.budget
    if head.word == "pool_full":
        fits = fits and 1 <= head.open <= head.pool < head.open + 3 and head.open <= nodes - letters["S"]
    else:
        fits = fits and head.open == 0
    if not fits:
        raise Fault(13, line)


def check(text):
    """Returns where the text is that of a valid answer, and else raises its first fault."""
    lines = Lines(text)
    head = head_of(lines)
    opening = check_head(head)
    to_come, least, letters = [root_of(head.instance)], None, dict.fromkeys("SXBFO", 0)
    while True:
        content = lines.next()
        if content == b"end":
            break
        match = re.fullmatch(rb"X|S -|([SBFO]) " + NUMBER, content)
        if not match or (match[2] and not WIDE[0] <= int(match[2]) <= WIDE[1]):
            raise Fault(1, lines.line)
        letter, number = chr(content[0]), int(match[2]) if match[2] else None
        if not to_come:
            raise Fault(6, lines.line)
        square = to_come.pop()
        check_mark(head, opening, square, letter, number, lines.line)
        letters[letter] += 1
        if letter == "S":
            to_come += reversed(quarters(square))
        elif number is not None and (least is None or number < least):
            least = number
    if to_come:
        raise Fault(5, lines.line)
    check_end(head, letters, least, lines.line)
    if lines.start < len(text):
        raise Fault(1, lines.line + 1)


def said_of_answer(text):
    """The text and the status of `check`."""
    try:
        check(text)
    except TooLong:
        return "too long\n", 9
    except Fault as fault:
        values = "".join(f" {w} {'none' if v is None else v}" for w, v in zip(("has", "wants"), fault.values))
        return f"rejected {fault.number} line {fault.line}{values}\n", 5
    return "accepted\n", 0


def said_of_instance(text):
    """The canonical text, or how `solve` refuses the text, with the status of that."""
    try:
        return canonical(instance_of(text)).decode(), 0
    except TooLong:
        return "too long\n", 9
    except Fault as fault:
        return f"bad instance {fault.number} line {fault.line}\n", 3


def main():
    said_of = said_of_instance if sys.argv[1:] == ["--instance"] else said_of_answer
    said, status = said_of(sys.stdin.buffer.read())
    sys.stdout.write(said)
    return status


if __name__ == "__main__":
    sys.exit(main())
