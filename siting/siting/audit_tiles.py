"""Tests the tiles of a folder again: their pieces, their answers, and what bound these give with the charges."""

from fractions import Fraction
from math import ceil
from typing import NamedTuple

from .cover_text import Cover, cover_text
from .exact.answers import Answer, Square, instance_text, read_answer, read_polished
from .exact.bound import Box, least, value_of
from .exact.charges import Charge, Charges
from .exact.cover import first_failure
from .exact.frame import GRID
from .folder import Folder, Tile
from .planes import Plane, planes_of
from .problem import Problem, exact_bits
from .program import COVERED, Program

STEPS = 3_000  # squares whose charge is computed, for a bound: no fewer than a search takes


class Unsound(Exception):
    """What the folder says doesn't follow from the layers."""


def demand(holds: bool, what: str) -> None:
    if not holds:
        raise Unsound(what)


def fault_of(fault: Exception) -> str:
    """What doesn't hold, in words, whatever a file may hold."""
    return str(fault) if isinstance(fault, Unsound) else f"it can't be read: {type(fault).__name__}: {fault}"


class Weakest(NamedTuple):
    """The bound that a folder's charges are of, and these, in shares times grid units."""

    value: int
    charge: Charge


class Tiles:
    """The tiles of a folder, in its frame; a tile's plane is made again of what the folder says of it."""

    def __init__(self, folder: Folder, problem: Problem):
        self.folder, self.problem, self.frame = folder, problem, folder.frame()
        rings = [*problem.region, *problem.forbidden]
        exact = problem.ground is not None or exact_bits(rings) <= self.frame.fine_bits
        demand(exact and self.frame.shift >= GRID, "the frame isn't exact")
        self.planes = planes_of(problem, self.frame)
        self.unit = self.frame.grid_unit() / problem.towns.share * problem.unit  # of bounds, in weight times metres
        self.boxes: list[Box] = []
        self.faults: dict[str, str] = {}  # the first ones of pieces, answers and bounds
        self.weakest: Weakest | None = None
        self.judged = self.covered = 0  # the tiles that bsss_cover was asked of, and those that it found covered

    def cover(self) -> None:
        """Tests that each point of the region is in a tile whose bound counts."""
        rows = self.folder.rows
        demand([row["tile"] for row in rows] == list(range(1, len(rows) + 1)) != [], "a tile is missing or doubled")
        self.boxes = [self.folder.tile(row["tile"]).box for row in rows]
        (a, b, c, d), (west, south, east, north) = self.boxes[0], self.planes.whole
        demand(a <= west and b <= south and c >= east and d >= north, "the first tile isn't the region's")
        for number, (row, box) in enumerate(zip(rows, self.boxes), 1):
            parts = self.folder.parts(number)
            demand(all(number < part <= len(rows) for part in parts), f"tile {number} has parts that aren't there")
            if row.get("cut"):
                cut = len(parts) == 2 and is_cut(box, *(self.boxes[part - 1] for part in parts))
                demand(cut, f"tile {number} isn't cut in two")
            demand(row["box"] == self.planes.doubles(box), f"the box of tile {number} isn't the one that was solved")

    def look(self, program: Program, covers: Program | None) -> None:
        """Looks at each tile, and keeps the first fault of each sort."""
        for number in range(1, len(self.folder.rows) + 1):
            sort = "pieces"
            try:
                tile = self.folder.tile(number)
                plane = self.planes.again(tile.plane, tile.box)
                self.pieces(tile, plane)
                row = self.folder.rows[number - 1]
                if tile.permits:
                    instance = instance_text(self.problem.question.kind, tile.groups, tile.permits, tile.forbids)
                    sort = "answers"
                    text = self.answer(number, instance, program)
                    self.cover_of(number, tile, plane, instance, covers)
                    sort = "bounds"
                    answer = read_answer(text, instance)
                    self.bound(number, tile, plane, answer, read_polished(program.run(["polish"], text), answer))
                else:
                    sort = "answers"
                    demand("answer" not in row and row["bound"] is None, "it has no permitted point, and an answer")
            except Exception as fault:
                self.faults.setdefault(sort, f"tile {number}: {fault_of(fault)}")

    def pieces(self, tile: Tile, plane: Plane) -> None:
        """Tests that they hold each permitted point of the tile."""
        pieces = tile.permits, tile.forbids, tile.triangles
        failure = first_failure(*pieces, plane.region, plane.forbidden, plane.box(tile.box), self.frame.shift)
        if failure is not None:
            raise Unsound(f"{failure.what}, number {failure.index + 1}")

    def cover_of(self, number: int, tile: Tile, plane: Plane, instance: str, covers: Program | None) -> None:
        """Tests that the folder's text for `bsss_cover` is that of the tile, and asks it, where it is there. Vertices are
        rounded in that text, so that it may not find covered what is."""
        rings = Cover(plane.region, plane.forbidden, tile.triangles, plane.box(tile.box), self.frame.shift)
        text = cover_text(rings, tile.permits, instance)
        if text is None:
            return
        demand(self.folder.text(f"{number}.cover") == text, "its cover is another's")
        if covers is not None:
            self.judged += 1
            self.covered += covers.run([], text, COVERED).strip() == "covered"

    def answer(self, number: int, instance: str, program: Program) -> str:
        """The answer of a tile to its instance, which the program has to accept."""
        row = self.folder.rows[number - 1]
        demand([row["instance"], row["answer"]] == [f"{number}.siting", f"{number}.answer"], "its texts are another's")
        demand(self.folder.text(row["instance"]) == instance, "its instance isn't that of its pieces and towns")
        text = self.folder.text(row["answer"])
        demand(text.startswith(f"siting answer {instance[7]}\n{instance}"), "its answer is to another instance")
        verdict = program.run(["check"], text, (0, 5, 9)).strip()
        demand(verdict == "accepted", f"bsss says of its answer: {verdict}")
        return text

    def bound(self, number: int, tile: Tile, plane: Plane, answer: Answer, polished: int | None) -> None:
        """Tests that no permitted point of a tile, those of its parts left out, costs less than is said."""
        row, charged = self.folder.rows[number - 1], self.folder.figures["charged"]
        charges = Charges(self.problem.question.kind, plane.towns, tile.groups, tile.scale, plane.ground)
        left_out = [] if row.get("cut") else [plane.box(self.boxes[part - 1]) for part in self.folder.parts(number)]
        box, bits = plane.box(tile.box), self.frame.shift - GRID
        said, off = row["bound"], (self.problem.off + self.problem.borders) * self.problem.unit
        enough = None if said is None else ceil((Fraction(said) + off) / self.unit)
        found = least(answer, polished, charges, box, left_out, bits, enough, STEPS)
        if said is None or found is None:
            demand(said is None and found is None, "it has permitted points, and no bound, or none and a bound")
            return
        demand(Fraction(said) <= found.value * self.unit - off, "its bound doesn't follow")
        if charged["tile"] == number and not row.get("cut"):
            square = square_of(answer.root, *charged["square"])
            self.weakest = Weakest(value_of(square, polished, charges), charges.of(square.x, square.y, square.side))


def square_of(root: Square, x: int, y: int, side: int) -> Square:
    """The square of a tree with this corner and side."""
    square = root
    while (square.x, square.y, square.side) != (x, y, side):
        inside = [q for q in square.quarters if q.x <= x < q.x + q.side and q.y <= y < q.y + q.side]
        demand(len(inside) == 1, "the bound's square isn't one of its answer")
        square = inside[0]
    demand(square.least is not None, "the bound's square has no permitted point")
    return square


def is_cut(box: Box, first: Box, second: Box) -> bool:
    """Whether two boxes are one cut in two, across."""
    a, b, c, d = box
    across = first[:2] == (a, b) and first[3] == d and second[1:] == (b, c, d) and first[2] == second[0]
    upward = first[:3] == (a, b, c) and second[0] == a and second[2:] == (c, d) and first[3] == second[1]
    return across or upward
