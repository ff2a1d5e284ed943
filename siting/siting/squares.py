"""The squares that the bound comes from: each with a bound that holds for its permitted points."""

from collections.abc import Iterator
from heapq import heappop, heappush
from typing import NamedTuple

from .exact.answers import Square
from .exact.bound import within
from .exact.charges import Charges
from .tiles import Run, Search

MOST = 20_000  # squares of all tiles, about
CHARGED = 300  # squares of all tiles whose charge is computed anew, about; those in them have no greater one


class Bounded(NamedTuple):
    """A square of a tile's answer: no permitted point of the tile in it costs less than `value`, in shares times grid
    units."""

    tile: int
    square: Square
    value: int


def bounded_squares(search: Search) -> list[Bounded]:
    """Squares of every tile's answer, its parts left out, those of the least bounds as small as the answer has them."""
    runs = [(number, run) for number, run in enumerate(search.runs, 1) if run.solved and not run.cut]
    return [found for number, run in runs for found in of_run(search, number, run, len(runs))]


def of_run(search: Search, number: int, run: Run, runs: int) -> Iterator[Bounded]:
    """The squares of a tile, one of so many."""
    assert run.solved is not None
    solved = run.solved
    tile, parts = run.plane.box(run.tile), [run.plane.box(part.tile) for part in run.parts]
    left, done = CHARGED // runs, 0
    waiting: list[tuple[int, int, int, Square]] = []
    some = [(0, solved.answer.root)]
    while True:
        for charge, square in some:
            if square.least is None or within(square, tile, parts, search.bits):
                continue
            if left > 0 or is_known(solved.charges, square):
                left -= not is_known(solved.charges, square)
                charge = sum(solved.charges.of(square.x, square.y, square.side))
            least = max(square.least, square.least if solved.polished is None else solved.polished)
            done += 1
            heappush(waiting, (solved.charges.scale * least - charge, done, charge, square))
        if len(waiting) >= MOST // runs or not waiting:
            break
        value, _, charge, square = heappop(waiting)
        if square.quarters:
            some = [(charge, quarter) for quarter in square.quarters]
        else:
            some = []
            yield Bounded(number, square, value)
    for value, _, _, square in waiting:
        yield Bounded(number, square, value)


def is_known(charges: Charges, square: Square) -> bool:
    """Whether the charge of a square was computed before."""
    return (square.x, square.y, square.side) in charges.known
