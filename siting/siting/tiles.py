"""Solves tile by tile: the tile with the least bound is looked at more closely, until the gap is reached."""

import time
from collections import deque
from collections.abc import Callable
from dataclasses import dataclass, field
from fractions import Fraction
from heapq import heappop, heappush, nsmallest
from math import ceil, floor
from typing import NamedTuple

import numpy as np

from .exact.answers import Answer, Square, instance_text, read_answer, read_polished
from .exact.bound import Box, Least, least, value_of, within
from .exact.chains import permitted
from .exact.charges import Charges, Group
from .exact.cover import first_failure
from .exact.frame import GRID
from .planes import Plane, planes_of
from .problem import Problem
from .program import ANSWERS, NEAR, OutOfTime, Program
from .proposals.joining import POINTS, Focus, Numbers, first_choice, join, to_groups
from .proposals.outer import Outer, propose
from .proposals.sites import Permitted, descend, inside

BUDGET = 8_000  # leases of a solve
STEPS = 1_500  # squares whose charge is computed, for a bound
FEW_STEPS = 100  # the same, for one that is good enough already
ROUNDS = 12  # solves of one tile, of the kind max
LISTED = 20_000  # squares that `near` is to list, about
SLACK, DEPTH = 2**60, 16  # at most, of `near`
WEAKEST = 300  # leaves where missed towns are looked for, of the kind max


class TestFailed(Exception):
    """A proposal didn't pass its exact test, and none is left. Status 3."""


@dataclass(frozen=True)
class Limits:
    """When to stop: the gap in per cent of the cost, the time of time.monotonic, the tiles."""

    within: Fraction
    until: float | None
    tiles: int
    workers: int


@dataclass(frozen=True)
class Site:
    """A permitted place of the layers, its cost over all towns, from below and from above, and about the size of
    all weight times distance."""

    x: float
    y: float
    low: Fraction
    high: Fraction
    size: float


class Solved(NamedTuple):
    """Groups and their instance, the program's answer to it, the bound that it polished, and the groups' charges."""

    groups: list[Group]
    instance: str
    text: str
    answer: Answer
    polished: int | None
    charges: Charges


@dataclass
class Run:
    """A tile and its plane, what was solved for it, and the least bound of what its parts don't hold; the tile's box
    is in the units that all planes share.

    The parts' tiles hold every leaf that isn't counted; where they cut the tile, no leaf is counted.
    """

    tile: Box
    plane: Plane
    outer: Outer
    solved: Solved | None = None
    least: Least | None = None
    parts: list["Run"] = field(default_factory=list)
    cut: bool = False


class Search:
    """The work on one problem: its tiles, and the best site so far."""

    def __init__(self, problem: Problem, program: Program, limits: Limits, say: Callable[[str], None]):
        self.problem, self.program, self.limits, self.say = problem, program, limits, say
        self.kind = problem.question.kind
        self.planes = planes_of(problem)
        self.frame, self.landscape = self.planes.frame, self.planes.landscape
        self.bits = self.frame.shift - GRID  # a grid unit is 2^bits fine units
        self.permitted = Permitted(problem.region, problem.forbidden)
        self.unit = self.frame.grid_unit() / problem.towns.share  # of bounds: plane's units times weight
        self.site: Site | None = None
        self.runs: list[Run] = []

    # where the work goes

    def go(self) -> None:
        """Runs until the gap is reached, or a limit."""
        if self.problem.ground is not None and self.kind == "sum":
            self.begin()
        first = self.run(self.planes.whole, None)
        waiting: list[tuple[int, int, Run]] = []
        self.wait(waiting, first)
        try:
            while waiting and not self.reached(waiting[0][0]) and self.may_go_on():
                _, _, run = heappop(waiting)
                if not self.take_apart(run):
                    break
                for part in run.parts:
                    self.wait(waiting, part)
        except OutOfTime:
            pass

    def begin(self) -> None:
        """Offers a site before any is solved for: planes show best what is near to their middle."""
        west, south, east, north = self.planes.doubles(self.planes.whole)
        step = (east - west + north - south) / 16
        start = descend(self.landscape, lambda x, y: True, ((west + east) / 2, (south + north) / 2), step, step / 512)
        if not self.offer(*start):
            any(self.offer(*place) for place in self.permitted.near(*start, step / 4096))

    def wait(self, waiting: list[tuple[int, int, Run]], run: Run) -> None:
        if run.least is not None:
            heappush(waiting, (run.least.value, len(self.runs) + len(waiting), run))
            self.say(f"{len(self.runs)} tiles, gap {self.gap_text()}")

    def may_go_on(self) -> bool:
        until = self.limits.until
        return len(self.runs) < self.limits.tiles and (until is None or time.monotonic() < until)

    def bound(self) -> Fraction | None:
        """No permitted point costs less, in the plane's units times weight; None where there is none."""
        values = [run.least.value for run in self.runs if run.least is not None and not run.cut]
        return min(values) * self.unit if values else None

    def goal(self, part: Fraction = Fraction(1)) -> int | None:
        """The bound that is wanted, in shares times grid units: this part of the gap allowed."""
        if self.site is None:
            return None
        return ceil((self.site.high - self.allowed() * part) / self.unit)

    def allowed(self) -> Fraction:
        """The gap allowed: by the cost, and a millionth of all weight times distance, where weights cancel."""
        assert self.site is not None
        allowed = max(abs(self.site.high) * self.limits.within / 100, Fraction(self.site.size) / 10**6)
        return max(allowed / 100, allowed - 2 * self.problem.off - self.problem.borders)

    def reached(self, value: int) -> bool:
        goal = self.goal()
        return goal is not None and value >= goal

    def gap_text(self) -> str:
        bound = self.bound()
        if self.site is None or bound is None or self.site.high == 0:
            return "unknown"
        return f"{float((self.site.high - bound) / abs(self.site.high)) * 100:.4f} %"

    # one tile

    def run(self, tile: Box, focus: Box | None) -> Run:
        """Solves a tile."""
        plane = self.planes.about(tile, (self.site.x, self.site.y) if self.site else None)
        box, shift = plane.box(tile), self.frame.shift
        outer = propose(plane.regions(), box, shift)
        pieces = outer.permits, outer.forbids, outer.triangles
        failure = first_failure(*pieces, plane.region, plane.forbidden, box, shift)
        if failure is not None:
            raise TestFailed(f"a tile's pieces: {failure}")
        run = Run(tile, plane, outer)
        if outer.permits:
            if self.kind == "max":
                self.solve_max(run)
            else:
                joined = join(plane.towns, self.in_grid_units(plane.box(focus or tile)), POINTS)
                self.solve(run, *to_groups(plane.towns, joined))
        self.runs.append(run)
        return run

    def in_grid_units(self, box: Box) -> Focus:
        a, b, c, d = (value / 2 ** (self.frame.shift - GRID) for value in box)
        return a, b, c, d

    def solve(self, run: Run, groups: list[Group], scale: int) -> bool:
        """Solves with these groups: coarsely, and finer where that isn't enough; whether time allowed it."""
        instance = instance_text(self.kind, groups, run.outer.permits, run.outer.forbids)
        charges = Charges(self.kind, run.plane.towns, groups, scale, run.plane.ground)
        for part in (1, 4):
            until = self.limits.until if self.runs or run.solved else None  # so that there is one answer at least
            try:
                solved = self.ask(groups, instance, charges, part, until)
            except OutOfTime:
                if run.solved is None:
                    raise
                return False
            run.solved = solved
            if solved.answer.site is not None:
                x, y = (float(value) for value in self.frame.plane(*solved.answer.site))
                self.offer_near(run, x, y)
            run.least = self.rest(run, [])
            if run.least is None or self.reached(run.least.value) or self.searched(run):
                break
        return True

    def ask(self, groups: list[Group], instance: str, charges: Charges, part: int, until: float | None) -> Solved:
        """One call of the program, for this part of the gap allowed, and one that polishes its answer."""
        gap = "ppm=" + str(max(1, floor(self.limits.within * 10_000 / part)))
        if self.site is not None:
            gap = "gap=" + str(floor(self.allowed() / part / self.unit / charges.scale))
        words = ["solve", gap, f"budget={BUDGET}", f"workers={self.limits.workers}"]
        text = self.program.run(words, instance, ANSWERS, until)
        polished_text = self.program.run(["polish"], text, until=until)
        answer = read_answer(text, instance)
        return Solved(groups, instance, text, answer, read_polished(polished_text, answer), charges)

    def searched(self, run: Run) -> bool:
        """Whether a finer search can't help: the charge alone takes what is left of the gap."""
        if run.least is None or self.site is None:
            return False
        return run.least.value + sum(run.least.charge) >= self.site.high / self.unit

    def solve_max(self, run: Run) -> None:
        """Solves with a few towns, and again with those that are missed where the bound is least."""
        towns = run.plane.towns
        chosen = first_choice(towns)
        for _ in range(ROUNDS):
            if not self.solve(run, *to_groups(towns, chosen)):
                return
            assert run.solved is not None
            missed = self.missed(run, run.solved.answer, np.concatenate(chosen))
            if run.solved.answer.site is None or not missed or len(chosen) + len(missed) > POINTS:
                return
            chosen += [np.array([number]) for number in missed]

    def missed(self, run: Run, answer: Answer, known: Numbers) -> list[int]:
        """The towns left out that are the worst at the site, or at a leaf of the least bounds."""
        middles = [(s.x + s.side // 2, s.y + s.side // 2) for s in lowest(answer.root, WEAKEST)]
        missed = set()
        for place in ([answer.site] if answer.site else []) + middles:
            terms = run.plane.landscape.terms(*(float(value) for value in self.frame.plane(*place)))
            worst = int(terms.argmax())
            if terms[worst] > terms[known].max():
                missed.add(worst)
        return sorted(missed)

    def rest(self, run: Run, boxes: list[Box]) -> Least | None:
        """The least bound of the leaves that don't lie in the boxes."""
        assert run.solved is not None
        *_, answer, polished, charges = run.solved
        fine = self.goal(Fraction(1, 10))
        tile, left_out = run.plane.box(run.tile), [run.plane.box(box) for box in boxes]
        for steps in (FEW_STEPS, STEPS):
            found = least(answer, polished, charges, tile, left_out, self.bits, fine, steps)
            if found is None or self.reached(found.value):
                break
        return found

    # taking a tile apart

    def take_apart(self, run: Run) -> bool:
        """Looks at what is weak in a tile more closely; whether there was anything to do."""
        boxes = self.weak_boxes(run)
        run.cut = not boxes
        if run.cut:
            boxes = halves(run.tile)
            if any(box == run.tile for box in boxes):
                return False
        try:
            run.parts = [self.run(box, box) for box in boxes]
        except OutOfTime:
            run.cut, run.parts = False, []
            raise
        if not run.cut:
            run.least = self.rest(run, boxes)
        return True

    def weak_boxes(self, run: Run) -> list[Box]:
        """One or two boxes that hold all leaves below the goal, if they are much less than the tile."""
        goal = self.goal()
        squares = [] if goal is None else self.weak_squares(run, goal)
        if not squares:
            return []
        one = self.hull(run, squares)
        if area(one) <= 0.5 * area(run.tile):
            return [one]
        wide = run.plane.box(one)
        axis = 0 if wide[2] - wide[0] > wide[3] - wide[1] else 1
        squares.sort(key=lambda square: (square.x, square.y)[axis] * 2 + square.side)
        middle = len(squares) // 2
        two = [self.hull(run, part) for part in (squares[:middle], squares[middle:]) if part]
        return two if sum(map(area, two)) <= 0.8 * area(run.tile) else []

    def weak_squares(self, run: Run, goal: int, most: int = STEPS) -> list[Square]:
        """The leaves whose bound is below the goal, or squares that hold them."""
        assert run.solved is not None
        found, steps = [], 0
        tile = run.plane.box(run.tile)
        waiting = deque([run.solved.answer.root])
        while waiting:
            square = waiting.popleft()
            if square.least is None:
                continue
            if within(square, tile, [], self.bits):
                continue
            steps += 1
            if value_of(square, run.solved.polished, run.solved.charges) >= goal:
                continue
            if square.quarters and steps < most:
                waiting.extend(square.quarters)
            else:
                found.append(square)
        return found

    def hull(self, run: Run, squares: list[Square]) -> Box:
        """A box that holds what the tile has of the squares, within the tile."""
        found = run.plane.shared(
            (
                min(s.x for s in squares) << self.bits,
                min(s.y for s in squares) << self.bits,
                max(s.x + s.side for s in squares) << self.bits,
                max(s.y + s.side for s in squares) << self.bits,
            )
        )
        (a, b, c, d), (x0, y0, x1, y1) = run.tile, found
        return max(a, x0), max(b, y0), min(c, x1), min(d, y1)

    # how free the choice is

    def near(self, run: Run, percent: Fraction, listed: bool = True) -> list[Square]:
        """Squares that hold every permitted point of a tile, its parts left out, which costs at most so many per cent
        more than the site: those that `near` lists of its answer, or leaves, where it isn't asked or lists too many."""
        if self.site is None or run.solved is None or run.cut:
            return []
        most = floor((self.site.high + abs(self.site.high) * percent / 100) / self.unit) + 1
        squares = self.weak_squares(run, most, FEW_STEPS)
        if squares and listed and run.solved.answer.site is not None:
            found = self.listed(run.solved, squares, most)
            if found and sum(s.side**2 for s in found) < sum(s.side**2 for s in squares):
                squares = found
        tile, parts = run.plane.box(run.tile), [run.plane.box(part.tile) for part in run.parts]
        return [square for square in squares if not within(square, tile, parts, self.bits)]

    def listed(self, solved: Solved, weak: list[Square], most: int) -> list[Square]:
        """What `near` lists of an answer, where all that costs less than `most` is in the weak squares: so finely that
        these would be some thousand squares; nothing where it is too much."""
        _, instance, text, answer, _, charges = solved
        charge = max(sum(charges.of(s.x, s.y, s.side)) for s in weak)
        cost = int(text[len(instance) :].partition("\ncost ")[2].split()[1])
        slack = max(0, ceil(Fraction(most + charge, charges.scale)) - cost)
        side = answer.root.side
        depth = (LISTED * side**2 // sum(s.side**2 for s in weak)).bit_length() // 2
        if slack > SLACK:
            return []
        words = ["near", f"slack={slack}", f"depth={min(DEPTH, depth, side.bit_length() - 2)}"]
        head, *lines = (line.split() for line in self.program.run(words, text, NEAR).splitlines())
        side = 1 << int(head[2]) if head[0] == "near" else 0
        return [Square(int(line[1]), int(line[2]), side, None) for line in lines if line[0] == "square"]

    # sites

    def offer(self, x: float, y: float) -> bool:
        """Takes a site where it is permitted and costs less than the best one so far."""
        if not permitted(*self.planes.spot(x, y)):
            return False
        if self.site is not None and self.landscape.cost(x, y) > self.site.high + abs(self.site.high) / 10**9:
            return True
        low, high = self.planes.cost(x, y)
        if self.site is None or high < self.site.high:
            self.site = Site(x, y, low, high, self.landscape.size(x, y))
        return True

    def offer_near(self, run: Run, x: float, y: float) -> None:
        """Offers the solver's site, or a permitted place near it, and what is better near that."""
        length, plane = float(self.frame.grid_unit() * 2**GRID), run.plane
        if not self.offer(*plane.place(x, y)) and self.site is None:
            (a, b), (c, _) = plane.place(x, y), plane.place(x + 1.5 * length, y)
            for place in self.permitted.near(a, b, abs(c - a)):
                if self.offer(*place):
                    break
        permits, forbids = (
            [[self.to_doubles(a << bits, b << bits) for a, b in ring] for ring in rings]
            for bits in [self.frame.shift]
            for rings in (run.outer.permits, run.outer.forbids)
        )

        def allowed(a: float, b: float) -> bool:
            return inside(permits, a, b) and not inside(forbids, a, b)

        better = descend(plane.landscape, allowed, (x, y), length * 4096, length / 64)
        if better != (x, y):
            self.offer(*plane.place(*better))

    def to_doubles(self, x: float, y: float) -> tuple[float, float]:
        """A place in fine units, in a plane's units."""
        unit = Fraction(2) ** -self.frame.fine_bits
        shift = self.frame.shift
        a, b = Fraction(x) + (self.frame.x << shift), Fraction(y) + (self.frame.y << shift)
        return float(a * unit), float(b * unit)


def lowest(root: Square, most: int) -> list[Square]:
    """The leaves of the least bounds."""
    leaves, waiting = [], [root]
    while waiting:
        square = waiting.pop()
        waiting += square.quarters
        if not square.quarters and square.least is not None:
            leaves.append((square.least, len(leaves), square))
    return [square for *_, square in nsmallest(most, leaves)]


def area(box: Box) -> float:
    """In fine units squared, and never 0."""
    return (float(box[2] - box[0]) + 1) * (float(box[3] - box[1]) + 1)


def halves(box: Box) -> list[Box]:
    """A box cut in two across its longer side."""
    a, b, c, d = box
    x, y = (a + c) // 2, (b + d) // 2
    return [(a, b, x, d), (x, b, c, d)] if c - a > d - b else [(a, b, c, y), (a, y, c, d)]
