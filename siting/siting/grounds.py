"""Planes of scaled degrees, each about a middle of its own, where distances are those on the ground.

Nothing rests on the ways to towns that are proposed here: `exact.ground` tests them.
"""

from fractions import Fraction
from math import atanh, cos, floor, log2, radians, sin, sqrt

import numpy as np
import numpy.typing as npt
import pyproj

from .exact.charges import to_grid
from .exact.frame import GRID, Frame, nearest
from .exact.ground import Ellipsoid, Ground, Middle, bend, check_ways, ground_cost, radii
from .exact.plane import Box, Rings
from .problem import FARTHEST, Made, Place, Problem, Spot, box_of, doubles_of, exact_bits, spot_of
from .proposals.outer import Regions, prepared
from .proposals.sites import Landscape
from .questions import Refused

Floats = npt.NDArray[np.float64]
PRECISE = 27  # bits of the fewest fine units that a grid has to one of degrees, at 85 degrees


class GroundLandscape(Landscape):
    """The cost on an ellipsoid, over degrees, in doubles."""

    def __init__(self, problem: Problem, shape: Ellipsoid):
        super().__init__(problem.question.kind, problem.towns)
        self.shape, self.geodesics = shape, pyproj.Geod(a=shape.a, f=shape.f)

    def inverse(self, x: float, y: float) -> tuple[Floats, Floats]:
        """The azimuth in degrees and the distance in metres of each town."""
        turns, _, ways = self.geodesics.inv(np.full(len(self.x), x), np.full(len(self.y), y), self.x, self.y)
        return turns, ways

    def ways(self, x: float, y: float) -> Floats:
        return self.inverse(x, y)[1]

    def between(self, x: Floats, y: Floats, a: Floats, b: Floats) -> Floats:
        """By Lambert's formula: to some ten metres."""
        low, high = (np.arctan((1 - self.shape.f) * np.tan(np.radians(values))) for values in (y, b))
        mean, half, turn = (low + high) / 2, (high - low) / 2, np.radians(a - x) / 2
        h = np.clip(np.sin(half) ** 2 + np.cos(low) * np.cos(high) * np.sin(turn) ** 2, 1e-18, 1 - 1e-12)
        way = 2 * np.arcsin(np.sqrt(h))
        less = (way - np.sin(way)) * (np.sin(mean) * np.cos(half)) ** 2 / (1 - h)
        more = (way + np.sin(way)) * (np.cos(mean) * np.sin(half)) ** 2 / h
        return np.asarray(self.shape.a * (way - self.shape.f / 2 * (less + more)), dtype=np.float64)


class Grounds:
    """Planes about middles on an ellipsoid, each with its towns where the geodesics from its middle lead. Shared
    units are 2^-bits degrees, those of frames metres."""

    origin = (0, 0)

    def __init__(self, problem: Problem, shape: Ellipsoid, frame: Frame | None):
        self.problem, self.shape = problem, shape
        land = GroundLandscape(problem, shape)
        self.landscape: Landscape = land
        self.inverse, self.geodesics = land.inverse, land.geodesics
        self.bits = bits = max(20, exact_bits([*problem.region, *problem.forbidden]))
        self.unit = Fraction(1, 1 << bits)
        self.frame = frame or self.choose_frame()
        self.region, self.forbidden = (
            tuple(tuple((nearest(x, bits), nearest(y, bits)) for x, y in ring) for ring in rings)
            for rings in (problem.region, problem.forbidden)
        )
        self.whole = box_of(self.region)

    def choose_frame(self) -> Frame:
        """Lengths as short as all ways allow, and fine units of which there are many to a shared one."""
        length_bits = floor(log2(FARTHEST / self.farthest()))
        shift = max(GRID, self.bits - length_bits - 13 + PRECISE)
        return Frame(shift + length_bits, shift, 0, 0)

    def farthest(self) -> float:
        """More than the way from a place of the region to another one, or to a town, in metres."""
        places = np.array([place for ring in self.problem.region for place in ring])
        (west, south), (east, north) = places.min(axis=0), places.max(axis=0)
        xs, ys = np.linspace(west, east, 9), np.linspace(south, north, 9)
        grid = [(x, y) for x in xs for y in ys]
        most = max(float(self.landscape.ways(x, y).max()) for x, y in grid)
        across = max(self.geodesics.inv(*a, *b)[2] for a in grid for b in (grid[0], grid[8], grid[-9], grid[-1]))
        step = self.geodesics.inv(west, 0, west + (east - west) / 8, (north - south) / 8)[2]
        return 1.2 * (max(most, across) + step) + 1000

    def about(self, box: Box, site: Place | None) -> "GroundPlane":
        middle = (box[0] + box[2]) // 2, (box[1] + box[3]) // 2
        if site is not None:
            x, y = (nearest(value, self.bits) for value in site)
            if box[0] <= x <= box[2] and box[1] <= y <= box[3]:
                middle = x, y
        try:
            return GroundPlane(self, middle, self.factors_at(middle[1] / 2**self.bits), box)
        except ValueError as fault:
            raise Refused(f"distances on the ground can't be bounded: {fault}") from fault

    def again(self, made: Made, box: Box) -> "GroundPlane":
        if made is None:
            raise ValueError("a tile has no plane")
        return GroundPlane(self, (made[0], made[1]), (made[2], made[3]), box)

    def factors_at(self, latitude: float) -> tuple[int, int]:
        """A plane's fine units for a shared unit of longitude, and of latitude."""
        unit = self.unit * 2**self.frame.fine_bits
        east, north = (round(Fraction(metres) * unit) for metres in self.metres(latitude))
        return max(1, east), max(1, north)

    def doubles(self, box: Box) -> list[float]:
        return doubles_of(box, self.origin, self.unit)

    def spot(self, x: float, y: float) -> Spot:
        return self.region, self.forbidden, *spot_of((x, y), self.origin, self.unit)

    def towns_from(self, place: Place) -> list[Place]:
        """The ways to all towns, in metres to the east and to the north."""
        turns, ways = self.inverse(*place)
        turns = np.radians(turns)
        return list(zip((ways * np.sin(turns)).tolist(), (ways * np.cos(turns)).tolist()))

    def cost(self, x: float, y: float) -> tuple[Fraction, Fraction]:
        kind, towns, ways = self.problem.question.kind, self.problem.towns, self.towns_from((x, y))
        try:
            return ground_cost(kind, towns, self.shape, (x, y), ways)
        except ValueError as fault:
            raise Refused(f"distances on the ground can't be bounded: {fault}") from fault

    def metres(self, y: float) -> tuple[float, float]:
        across, along = radii(self.shape, y)
        return radians(across * cos(radians(y))), radians(along)

    def square_metres(self, low: Fraction, high: Fraction, width: Fraction) -> Fraction:
        """In doubles, and a little more."""
        e = sqrt(self.shape.f * (2 - self.shape.f))
        sines = [sin(radians(float(value))) for value in (low, high)]
        zones = [s / (1 - (e * s) ** 2) + (atanh(e * s) / e if e else s) for s in sines]
        area = radians(float(width)) * self.shape.b**2 / 2 * (zones[1] - zones[0])
        return Fraction(area) * (1 + Fraction(1, 10**9))


class GroundPlane:
    """A plane about a middle: metres to the east and to the north, in proportion to degrees. A place is `factors`
    fine units for each shared unit that it is from the middle."""

    def __init__(self, planes: Grounds, middle: tuple[int, int], factors: tuple[int, int], box: Box):
        self.middle, self.factors, self.frame = middle, factors, planes.frame
        self.made: Made = (*middle, *factors)
        longitude, latitude = (value * planes.unit for value in middle)
        metres = [factor / planes.unit / 2**self.frame.fine_bits for factor in factors]
        self.about = Middle(longitude, latitude, *metres)
        bent = bend(planes.shape, self.about, planes.doubles(box))
        start = float(longitude), float(latitude)
        ways = planes.towns_from(start)
        check_ways(planes.shape, start, planes.problem.towns, ways)
        towns = planes.problem.towns._replace(places=ways)
        self.towns = to_grid(self.frame, towns)
        self.landscape = Landscape(planes.problem.question.kind, towns)
        self.ground: Ground | None = Ground(planes.shape, bent, self.towns, self.frame.grid_unit())
        self.region, self.forbidden = self.rings(planes.region), self.rings(planes.forbidden)

    def rings(self, rings: Rings) -> Rings:
        """Rings of shared units in the plane's fine units, exactly."""
        (x, y), (a, b) = self.middle, self.factors
        return tuple(tuple(((p - x) * a, (q - y) * b) for p, q in ring) for ring in rings)

    def regions(self) -> Regions:
        return prepared(self.region, self.forbidden)

    def box(self, box: Box) -> Box:
        (x, y), (a, b) = self.middle, self.factors
        return (box[0] - x) * a, (box[1] - y) * b, (box[2] - x) * a, (box[3] - y) * b

    def shared(self, box: Box) -> Box:
        (x, y), (a, b) = self.middle, self.factors
        return box[0] // a + x, box[1] // b + y, -(-box[2] // a) + x, -(-box[3] // b) + y

    def place(self, x: float | Fraction, y: float | Fraction) -> Place:
        return (
            float(self.about.longitude + Fraction(x) / self.about.east),
            float(self.about.latitude + Fraction(y) / self.about.north),
        )

    def here(self, x: float, y: float) -> Place:
        return (
            float((Fraction(x) - self.about.longitude) * self.about.east),
            float((Fraction(y) - self.about.latitude) * self.about.north),
        )
