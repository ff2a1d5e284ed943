"""Proposes sites: the solver's own, and better ones near it. Each is tested and its cost counted elsewhere."""

from collections.abc import Callable, Sequence
from functools import cached_property

import numpy as np
import numpy.typing as npt
from osgeo import ogr

from .. import geos
from ..exact.cost import Towns
from ..layers import is_counter_clockwise

Floats = npt.NDArray[np.float64]
Place = tuple[float, float]


class Landscape:
    """The cost over all towns, in doubles."""

    def __init__(self, kind: str, towns: Towns):
        self.kind = kind
        self.x, self.y = np.array(towns.places, dtype=np.float64).reshape(-1, 2).T
        self.weights = np.array([float(w) / towns.share for w in towns.weights])
        ends = [np.inf if cutoff is None else float(cutoff) for cutoff in towns.cutoffs]
        self.cutoffs = np.array(ends)

    def ways(self, x: float, y: float) -> Floats:
        """The distance of each town."""
        return np.hypot(self.x - x, self.y - y)

    def between(self, x: Floats, y: Floats, a: Floats, b: Floats) -> Floats:
        """The distances of places (x, y) and (a, b), about."""
        return np.asarray(np.hypot(a - x, b - y), dtype=np.float64)

    def terms(self, x: float, y: float) -> Floats:
        """Weight times distance of each town."""
        return np.asarray(self.weights * np.minimum(self.ways(x, y), self.cutoffs), dtype=np.float64)

    def cost(self, x: float, y: float) -> float:
        """The sum or the greatest of the terms."""
        terms = self.terms(x, y)
        return float(terms.max() if self.kind == "max" else terms.sum())

    def size(self, x: float, y: float) -> float:
        """The sum, or the greatest, of the sizes of the terms: a gap is a share of it where weights cancel."""
        return abs(self.cost(x, y)) if self.kind == "max" else float(np.abs(self.terms(x, y)).sum())


def descend(
    landscape: Landscape,
    allowed: Callable[[float, float], bool],
    start: Place,
    step: float,
    least_step: float,
) -> Place:
    """Goes from the start to better allowed places, in eight directions and ever shorter steps."""
    turns = np.arange(8) * (np.pi / 4)
    ways = list(zip(np.cos(turns).tolist(), np.sin(turns).tolist()))
    (x, y), best = start, landscape.cost(*start)
    while step > least_step:
        for dx, dy in ways:
            place = (x + step * dx, y + step * dy)
            cost = landscape.cost(*place)
            if cost < best and allowed(*place):
                (x, y), best = place, cost
                break
        else:
            step /= 2
    return x, y


def inside(pieces: Sequence[Sequence[Place]], x: float, y: float) -> bool:
    """Whether a place lies in one of the convex pieces, by doubles."""
    for ring in pieces:
        edges = zip(ring, [*ring[1:], ring[0]])
        if all((bx - ax) * (y - ay) >= (by - ay) * (x - ax) for (ax, ay), (bx, by) in edges):
            return True
    return False


class Permitted:
    """What is permitted, by doubles: rings are taken by their size, outer ones joined, holes taken off."""

    def __init__(self, region: Sequence[Sequence[Place]], forbidden: Sequence[Sequence[Place]]):
        self.region, self.forbidden = region, forbidden

    @cached_property
    def area(self) -> ogr.Geometry:
        """The region less the forbidden areas."""
        return geos.less(filled(self.region), filled(self.forbidden))

    def near(self, x: float, y: float, margin: float) -> list[Place]:
        """Places within the area by a margin, where it has room, the one nearest to (x, y) first; else some within."""
        places = []
        for inner in (geos.grown(self.area, -margin), geos.grown(self.area, -margin / 1000)):
            if geos.parts(inner):
                places.append(geos.nearest(inner, x, y))
        parts = sorted(geos.parts(self.area), key=lambda part: -part.Area())
        return places + [geos.inner_place(part) for part in parts[:20]]


def filled(rings: Sequence[Sequence[Place]]) -> ogr.Geometry:
    """The area of rings: outer ones counter-clockwise, holes clockwise, islands in holes."""
    area, outer = geos.areas([]), []
    for ring in sorted(rings, key=lambda ring: -geos.areas([[ring]]).Area()):
        valid = geos.grown(geos.areas([[ring]]), 0)
        if is_counter_clockwise(ring):
            outer.append(valid)
        else:
            area, outer = geos.less(geos.joined([area, *outer]), valid), []
    return geos.joined([area, *outer])
