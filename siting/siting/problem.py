"""A planner's question over layers as they were read."""

from collections.abc import Sequence
from dataclasses import dataclass
from fractions import Fraction
from math import floor, log2

from .exact.cost import Towns
from .exact.frame import GRID, Frame, nearest
from .exact.ground import Ellipsoid
from .exact.plane import Box, Rings
from .questions import Question

Place = tuple[float, float]
Places = Sequence[Place]
Made = tuple[int, int, int, int] | None  # of a plane of degrees: its middle in shared units, and its factors
Spot = tuple[Rings, Rings, int, int, int]  # region, forbidden areas, and a place as `permitted` wants them
FARTHEST = 990_000  # of the origin, lengths: within an instance's limit of a million, with room to round outward


@dataclass(frozen=True)
class Problem:
    """The towns and rings in one plane, in units of `unit` metres each; or, with distances on the ground, in degrees
    on an ellipsoid. All are doubles."""

    question: Question
    towns: Towns
    names: Sequence[str]
    region: Sequence[Places]
    forbidden: Sequence[Places]
    unit: Fraction
    ground: Ellipsoid | None = None
    off: Fraction = Fraction(0)  # unit times weight: how far costs may be off, as towns were brought from elsewhere
    borders: Fraction = Fraction(0)  # the same of the bound, as areas were


def exact_bits(rings: Sequence[Places]) -> int:
    """The least number of bits after the point that all coordinates of the rings have room in."""
    return max(v.as_integer_ratio()[1].bit_length() - 1 for ring in rings for p in ring for v in p)


def choose_frame(problem: Problem) -> Frame:
    """A frame with lengths as short as all towns and the region allow, and fine units in which
    every vertex of the rings is whole."""
    places = [*problem.towns.places, *(place for ring in problem.region for place in ring)]
    middle, half = [], 0.0
    for values in zip(*places):
        middle.append((min(values) + max(values)) / 2)
        half = max(half, (max(values) - min(values)) / 2)
    bits = floor(log2(FARTHEST / half)) if half > 0 else 20
    fine_bits = max(exact_bits([*problem.region, *problem.forbidden]), bits + GRID)
    return Frame(fine_bits, fine_bits - bits, *(nearest(value, bits) for value in middle))


def box_of(rings: Rings) -> Box:
    """The box of rings."""
    xs, ys = zip(*(place for ring in rings for place in ring))
    return min(xs), min(ys), max(xs), max(ys)


def doubles_of(box: Box, origin: tuple[int, int], unit: Fraction) -> list[float]:
    """The layers' coordinates of a box in units of them, counted from an origin."""
    return [float((value + at) * unit) for value, at in zip(box, origin * 2)]


def spot_of(place: Place, origin: tuple[int, int], unit: Fraction) -> tuple[int, int, int]:
    """A place of the layers in whole units, counted from an origin, over the last number: exactly."""
    ways = [Fraction(value) / unit - at for value, at in zip(place, origin)]
    q = max(way.denominator for way in ways)
    return int(ways[0] * q), int(ways[1] * q), q
