"""The bound of a tile: the least, over the squares of an answer, of what its instance says less the charge."""

from collections.abc import Sequence
from heapq import heappop, heappush
from typing import NamedTuple

from .answers import Answer, Square
from .charges import Charge, Charges

Box = tuple[int, int, int, int]  # two corners, in fine units


class Least(NamedTuple):
    """No permitted point of a tile, some boxes left out, costs less than `value`, in shares times grid units; the
    charge and the square are those of it."""

    value: int
    charge: Charge
    square: Square


def within(square: Square, tile: Box, boxes: Sequence[Box], bits: int) -> bool:
    """Whether what a tile has of a square is nothing, or lies in a box; a grid unit is 2^bits fine units."""
    x0, y0 = max(square.x << bits, tile[0]), max(square.y << bits, tile[1])
    x1, y1 = min(square.x + square.side << bits, tile[2]), min(square.y + square.side << bits, tile[3])
    return x0 > x1 or y0 > y1 or any(a <= x0 and b <= y0 and x1 <= c and y1 <= d for a, b, c, d in boxes)


def value_of(square: Square, polished: int | None, charges: Charges) -> int:
    """No permitted point of a square that has one costs less."""
    bounds = [bound for bound in (square.least, polished) if bound is not None]
    return charges.scale * max(bounds) - sum(charges.of(square.x, square.y, square.side))


def least(
    answer: Answer,
    polished: int | None,
    charges: Charges,
    tile: Box,
    left_out: Sequence[Box],
    bits: int,
    enough: int | None = None,
    steps: int = 4000,
) -> Least | None:
    """The square of least value is taken apart until it is a leaf, or its value is `enough`, or the steps are used
    up. None where no point is permitted outside the boxes left out."""
    waiting: list[tuple[int, int, Square]] = []
    taken, some = 0, [answer.root]
    while True:
        for square in some:
            if square.least is not None and not within(square, tile, left_out, bits):
                taken += 1
                heappush(waiting, (value_of(square, polished, charges), taken, square))
        if not waiting:
            return None
        value, _, square = waiting[0]
        if not square.quarters or taken >= steps or (enough is not None and value >= enough):
            return Least(value, charges.of(square.x, square.y, square.side), square)
        some = list(heappop(waiting)[2].quarters)
