"""Near sets: areas that hold every permitted point which costs at most so many per cent more than the site.

Each is made of cells of one size, and holds those of fewer per cent. `docs/GUARANTEE.md` proves them.
"""

from collections.abc import Iterable, Iterator, Sequence
from concurrent.futures import ThreadPoolExecutor
from dataclasses import dataclass
from fractions import Fraction
from functools import cached_property
from itertools import product
from os import cpu_count

import numpy as np
import numpy.typing as npt

from . import geos
from .exact.answers import Square
from .exact.bound import Box
from .layers import turned
from .planes import Planes
from .tiles import Run, Search, TestFailed

PERCENTS = (1, 2, 5, 10, 20)
DOUBLE = 53  # bits of a double
ACROSS = 512  # cells, at most, that a near set is wide or high
LISTED = 30  # tiles and per cents, at most, whose squares the program lists
THREADS = 4

Cells = npt.NDArray[np.bool_]  # rows from below, columns from the left
Ring = list[tuple[float, float]]


@dataclass(frozen=True)
class NearSet:
    """The closed cells that are true: the first lies `x` and `y` cells from the layers' origin, `side` is a cell's in
    the layers' units, a power of two."""

    percent: int
    cells: Cells
    x: int
    y: int
    side: Fraction

    def square_metres(self, planes: Planes) -> Fraction:
        """The area of all cells."""
        rows = [(Fraction(self.y + j), int(count)) for j, count in enumerate(self.cells.sum(axis=1)) if count]
        return sum(
            (planes.square_metres(y * self.side, (y + 1) * self.side, count * self.side) for y, count in rows),
            Fraction(0),
        )

    @cached_property
    def polygons(self) -> list[list[Ring]]:
        """The same set as polygons, each an outer ring and its holes, in the layers' units: exactly."""
        return [
            [[self.place(*corner) for corner in ring] for ring in rings]
            for rings in checked(outlines(self.cells), self.cells)
        ]

    def place(self, i: int, j: int) -> tuple[float, float]:
        """A cell's lower left corner, in the layers' units."""
        return float((self.x + i) * self.side), float((self.y + j) * self.side)


def near_sets(search: Search) -> list[NearSet]:
    """The near sets of all per cents, the least first; none where there is no site."""
    if search.site is None:
        return []
    jobs = list(product(PERCENTS, search.runs))
    weak = [bool(search.near(run, Fraction(percent), listed=False)) for percent, run in jobs]
    rank = np.cumsum(weak).tolist()
    with ThreadPoolExecutor(min(THREADS, cpu_count() or 1)) as pool:
        words = ((run, Fraction(percent), number <= LISTED) for (percent, run), number in zip(jobs, rank))
        found = list(pool.map(lambda given: search.near(*given), words))
    boxes: list[Box] = []
    sets = []
    for percent in PERCENTS:
        for (given, run), squares in zip(jobs, found):
            if given == percent:
                boxes += clipped(search, run, squares)
        if boxes:
            sets.append(in_cells(percent, boxes, search.planes.unit))
    return sets


def clipped(search: Search, run: Run, squares: Iterable[Square]) -> Iterator[Box]:
    """Boxes that hold what the tile has of each square, in shared units from the layers' origin."""
    x, y = search.planes.origin
    for square in squares:
        x0, y0, x1, y1 = search.hull(run, [square])
        yield x + x0, y + y0, x + max(x0, x1), y + max(y0, y1)


def in_cells(percent: int, boxes: Sequence[Box], unit: Fraction) -> NearSet:
    """The set of all cells that the boxes reach into, or touch where a box has no inside. Cells are multiples of their
    side, which is so many units, a power of two, that the set is at most ACROSS cells and one wide and high, and
    that doubles hold their corners."""
    low = min(b[0] for b in boxes), min(b[1] for b in boxes)
    high = max(b[2] for b in boxes), max(b[3] for b in boxes)
    extent = max(high[0] - low[0], high[1] - low[1], 1)
    farthest = max(abs(value) for value in low + high)
    bits = max(0, ((extent - 1) // ACROSS).bit_length(), farthest.bit_length() - DOUBLE)
    x, y = low[0] >> bits, low[1] >> bits
    at = np.array([cell_range(b, bits, x, y) for b in boxes], dtype=np.int64)
    count = np.zeros((at[:, 3].max() + 1, at[:, 2].max() + 1), dtype=np.int64)
    for columns, rows, sign in ((0, 1, 1), (2, 3, 1), (0, 3, -1), (2, 1, -1)):
        np.add.at(count, (at[:, rows], at[:, columns]), sign)
    cells = count.cumsum(axis=0).cumsum(axis=1)[:-1, :-1] > 0
    return NearSet(percent, cells, x, y, unit * 2**bits)


def cell_range(b: Box, bits: int, x: int, y: int) -> Box:
    """The first column and row of cells that a box reaches into, and the ones after its last."""
    x0, y0 = (b[0] >> bits) - x, (b[1] >> bits) - y
    return x0, y0, max(x0 + 1, -(-b[2] >> bits) - x), max(y0 + 1, -(-b[3] >> bits) - y)


# as polygons


def outlines(cells: Cells) -> list[list[list[tuple[int, int]]]]:
    """The polygons of cells, by GEOS: outer rings counter-clockwise, holes clockwise, not closed."""
    strips = []
    for row, line in enumerate(np.pad(cells, ((0, 0), (1, 1))).astype(np.int8)):
        steps = np.diff(line)
        for a, b in zip(np.flatnonzero(steps == 1).tolist(), np.flatnonzero(steps == -1).tolist()):
            strips.append(geos.box(a, row, b, row + 1))
    parts = geos.parts(geos.joined(strips))
    return [[[(round(x), round(y)) for x, y in ring] for ring in turned(part)] for part in parts]


def checked(polygons: list[list[list[tuple[int, int]]]], cells: Cells) -> list[list[list[tuple[int, int]]]]:
    """The polygons, where they are the cells exactly: where their edges, cut to unit lengths, are the edges that have
    a cell on the left and none on the right. Then they wind once round each cell, and round nothing else."""
    upward, rightward = np.zeros((2, cells.shape[0] + 1, cells.shape[1] + 1), dtype=np.int64)
    for ring in (ring for rings in polygons for ring in rings):
        for (x, y), (a, b) in zip(ring, [*ring[1:], ring[0]]):
            if x != a and y != b:
                raise TestFailed("a near set's outline isn't of cells")
            upward[min(y, b) : max(y, b), x] += np.sign(b - y)
            rightward[y, min(x, a) : max(x, a)] += np.sign(a - x)
    inside = np.pad(cells, 1).astype(np.int64)
    wanted_up = (inside[:, :-1] - inside[:, 1:])[1:]
    wanted_right = (inside[1:, :] - inside[:-1, :])[:, 1:]
    if not (np.array_equal(upward, wanted_up) and np.array_equal(rightward, wanted_right)):
        raise TestFailed("a near set's outline isn't that of its cells")
    return polygons
