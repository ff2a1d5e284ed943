"""Distances on an ellipsoid, and by how much those of a tile's plane can differ from them.

Doubles stand here for angles and for places in metres, with margins; what is added up is whole or a fraction.
"""

from bisect import bisect_left
from collections.abc import Sequence
from fractions import Fraction
from itertools import accumulate
from math import atan2, ceil, cos, floor, hypot, pi, radians, remainder, sin, sqrt
from typing import NamedTuple

from .cost import Towns, root_up, total
from .frame import Town

MISS = 0.001  # metres: the most by which a way, as computed, may end beside its town
MARGIN = Fraction(1, 100)  # metres: what that is at most on the ground, doubles and series included
SLACK = Fraction(1, 1 << 19)  # of a distance: that a plane's degrees are rounded
FARTHEST = Fraction(157, 100)  # of the shorter half axis: from a place to a plane's middle to a town, at most
FINE = 24  # ways are whole in 2^-24 metres

Place = tuple[float, float]  # longitude and latitude, in degrees; or metres to the east and to the north


class Ellipsoid(NamedTuple):
    """The longer half axis in metres, and the flattening: from 0 to 1/150."""

    a: float
    f: float

    @property
    def b(self) -> float:
        """The shorter half axis, in metres."""
        return self.a * (1 - self.f)

    def reduced(self, latitude: float) -> tuple[float, float]:
        """Sine and cosine of the reduced latitude."""
        s, c = (1 - self.f) * sin(radians(latitude)), cos(radians(latitude))
        return s / hypot(s, c), c / hypot(s, c)


class Middle(NamedTuple):
    """A plane's middle in degrees, and exactly how many metres it has to a degree of longitude and of latitude."""

    longitude: Fraction
    latitude: Fraction
    east: Fraction
    north: Fraction


# distances


def series(start: float, end: float, k: float) -> list[float]:
    """The integrals of (k sin^2)^m from start to end, for m from 0 to 4."""
    found = [end - start]
    for m in range(1, 5):
        ends = sin(end) ** (2 * m - 1) * cos(end) - sin(start) ** (2 * m - 1) * cos(start)
        found.append(k * (2 * m - 1) / (2 * m) * found[-1] - k**m * ends / (2 * m))
    return found


def beside(shape: Ellipsoid, start: Place, end: Place, way: Place) -> float:
    """How far from `end`, in metres, the geodesic ends that leaves `start` by so many metres to the east and north."""
    length = hypot(*way)
    s1, c1 = shape.reduced(start[1])
    s2, c2 = shape.reduced(end[1])
    turn, s, c = 0.0, s1, c1
    if length > 0:
        east, north = way[0] / length, way[1] / length
        s0, c0 = east * c1, hypot(north, east * s1)
        k, r = shape.f * (2 - shape.f) / (1 - shape.f) ** 2 * c0**2, (1 - shape.f) / (2 - shape.f)
        at = begin = atan2(s1, c1 * north)
        for _ in range(3):
            j = series(begin, at, k)
            arc = j[0] + j[1] / 2 - j[2] / 8 + j[3] / 16 - j[4] * 5 / 128
            at -= (arc - length / shape.b) / sqrt(1 + k * sin(at) ** 2)
        j = series(begin, at, k)
        less = j[0] - j[1] * r / 2 + j[2] * (r / 8 + r**2 / 4) - j[3] * (r / 16 + r**2 / 8 + r**3 / 8)
        turn = atan2(s0 * sin(at), cos(at)) - atan2(s0 * sin(begin), cos(begin)) - shape.f * s0 * less
        s, c = c0 * sin(at), hypot(c0 * cos(at), s0)
    around = remainder(turn - radians(end[0] - start[0]), 2 * pi)
    return shape.a * (abs(atan2(s, c) - atan2(s2, c2)) + max(c, c2) * abs(around))


def ground_cost(
    kind: str, towns: Towns, shape: Ellipsoid, site: Place, ways: Sequence[Place]
) -> tuple[Fraction, Fraction]:
    """The cost of the site on the ground lies between these two, in weight times metres; the ways to the towns
    are tested."""
    check_ways(shape, site, towns, ways)
    lengths = [Fraction(hypot(*way)) for way in ways]
    bands = [(max(0, floor((length - MARGIN) * 2**FINE)), ceil((length + MARGIN) * 2**FINE)) for length in lengths]
    return total(kind, towns, bands, FINE)


def check_ways(shape: Ellipsoid, start: Place, towns: Towns, ways: Sequence[Place]) -> None:
    """Raises ValueError where a way doesn't end at its town."""
    for town, way in zip(towns.places, ways, strict=True):
        if not (hypot(*way) < FARTHEST * shape.b and beside(shape, start, town, way) <= MISS):
            raise ValueError(f"the way from {start} to {town} isn't the shortest")


# planes


def bend(shape: Ellipsoid, middle: Middle, box: Sequence[float]) -> float:
    """How fast a plane's straight lines leave the geodesics: a place of the box (degrees: west, south, east, north)
    r metres from the middle in the plane is at most this times r^2, and SLACK times r, from where it is taken to be."""
    west, east = box[0], box[2]
    south, north = min(box[1], float(middle.latitude)), max(box[3], float(middle.latitude))
    lowest, highest = min(abs(south), abs(north)) if south * north > 0 else 0.0, max(abs(south), abs(north))
    ways = [abs(value - float(middle.longitude)) for value in (west, east)]
    e = shape.f * (2 - shape.f)
    n0, m0 = radii(shape, float(middle.latitude))
    n, m = radii(shape, highest)
    g0, g, s = n0 * cos(radians(float(middle.latitude))), n * cos(radians(lowest)), sin(radians(highest))
    if not (highest <= 85 and hypot(m * radians(north - south), g * radians(max(ways))) <= 3 * shape.b):
        raise ValueError("the tile is too large, or too near to a pole")
    if not 0 <= shape.f <= 1 / 150:
        raise ValueError("the ellipsoid isn't the Earth's")
    for metres, radius in ((middle.east, g0), (middle.north, m0)):
        if abs(float(metres) / radians(radius) - 1) > 2**-21:
            raise ValueError("the plane isn't that of its middle")
    along = 1.5 * e * m / (1 - e * s * s) / m0**2
    across = max(g * s / g0**2, m * s / (m0 * g0))
    return (along + 1.1548 * across) / 2 * 1.001


def radii(shape: Ellipsoid, latitude: float) -> tuple[float, float]:
    """The radii of curvature across the meridian and along it, in metres."""
    e = shape.f * (2 - shape.f)
    w = 1 - e * sin(radians(latitude)) ** 2
    return shape.a / sqrt(w), shape.a * (1 - e) / (w * sqrt(w))


class Ground:
    """By how much towns can be nearer on the ground than in a plane, or farther where they push; a grid unit of the
    plane is so many metres, and its origin is its middle."""

    def __init__(self, shape: Ellipsoid, bent: float, towns: Sequence[Town], metres: Fraction):
        self.bent, self.margin = Fraction(bent) * metres, MARGIN / metres
        self.far, self.near = (Fraction(part / shape.b**2) * metres**2 for part in (0.41, 0.67))
        self.size = sum(abs(town.weight) for town in towns)
        pulls = sorted((root_up(town.x**2 + town.y**2), town.weight) for town in towns if town.weight > 0)
        self.ways, self.sums = [way for way, _ in pulls], [0, *accumulate(weight for _, weight in pulls)]
        self.moments = [0, *accumulate(way * weight for way, weight in pulls)]
        farthest = max((root_up(town.x**2 + town.y**2) for town in towns), default=0)
        self.most = floor(FARTHEST * Fraction(shape.b) / metres) - farthest
        self.all = ceil(4 * Fraction(shape.a) / metres) + farthest

    def both(self, reach: int) -> Fraction:
        """Of each unit of weight, in grid units, at places at most `reach` grid units from the middle."""
        if reach > self.most:  # no more than the distances themselves
            return Fraction(self.all + reach)
        return self.bent * reach**2 + SLACK * reach + self.margin

    def of(self, reach: int) -> int:
        """Of all towns together, in shares times grid units."""
        at = bisect_left(self.ways, 2 * reach)
        far, near = self.moments[-1] - self.moments[at], self.moments[at] + reach * self.sums[at]
        return ceil(self.size * self.both(reach) + reach**2 * (self.far * far + self.near * near))

    def of_one(self, weight: int, x: int, y: int, radius: int, reach: int) -> int:
        """Of one town that is within a radius of a place, in grid units."""
        way = root_up(x * x + y * y)
        near = way - radius - 1 < 2 * reach
        pull = self.near * (way + radius + reach) if near else self.far * (way + radius)
        return ceil(abs(weight) * (self.both(reach) + (reach**2 * pull if weight > 0 else 0)))


def reach_of(x: int, y: int, side: int) -> int:
    """How far from the origin the points of a square are, at most."""
    return root_up(max(abs(x), abs(x + side)) ** 2 + max(abs(y), abs(y + side)) ** 2)
