"""OUTER: convex pieces that hold every permitted point of a tile. `exact.cover` tests it."""

from dataclasses import dataclass
from math import ceil, floor

from ..exact.chains import edges_of
from ..exact.plane import Box, Edge, Point, Ring, Rings
from .cuts import Outline, Triangle, dissolve, doubled_area, within
from .forbids import bounds_of, chain_of, forbids_in
from .permits import merged, whole_hull
from .triangles import flipped, polygons_of, triangulate

DETAIL = 1500  # vertices of the simplified rings of a tile
ASIDE = 6  # cuts and tips are 2^-6 lengths outside of their edges, so that rounding leaves them there
REACH, LEAST_REACH = 0.02, 16.0  # how far forbids reach beyond the permits: of their extent, in lengths


@dataclass(frozen=True)
class Outer:
    """Permits and forbids are convex, of whole lengths from the frame's origin; triangles are
    in units, with an owner from 1, or 0 where they are beyond the tile or clockwise."""

    permits: Rings
    forbids: Rings
    triangles: tuple[tuple[Point, Point, Point, int], ...]


@dataclass(frozen=True)
class Barrier:
    """A chain that a forbid may not meet inside, with its rings as they are to be simplified,
    and the sign of its windings where a forbid may be: 1 above 0, -1 at most 0."""

    edges: list[Edge]
    rings: list[Ring]
    sign: int


@dataclass(frozen=True)
class Regions:
    """A region's rings without the edges that parts share, and what forbids may not meet."""

    outlines: list[Ring]
    barriers: list[Barrier]


def prepared(region: Rings, forbidden: Rings) -> Regions:
    """What all tiles of a region and its forbidden areas, in units, have in common."""
    outlines = dissolve(region)
    barriers = [Barrier(edges_of(tuple(outlines)), outlines, -1)]
    if forbidden:
        holes = tuple(ring[::-1] for ring in forbidden)
        barriers.append(Barrier(edges_of(forbidden), dissolve(holes), 1))
        both = dissolve(region + holes)
        if sum(map(len, both)) < sum(map(len, region + forbidden)):
            barriers.insert(0, Barrier(edges_of(tuple(both)), both, -1))
    return Regions(outlines, barriers)


def propose(regions: Regions, tile: Box, shift: int, plain: bool = False) -> Outer:
    """Pieces for a tile; a length has 2^shift units."""
    aside = 1 << shift >> ASIDE
    rings, beyond, slivers = within(regions.outlines, tile, max(1, 1 << shift >> 2), aside)
    size = (tile[2] - tile[0]) * float(tile[3] - tile[1])
    kept, removed = outlined(rings, size, aside, plain)
    polygons, alone = polygons_of(kept)
    found = slivers + removed + [t for polygon in polygons for t in triangulate(polygon, plain)]
    found += [t for hole in alone for t in reverses(hole, plain)]
    owned = flipped([t for t in found if doubled_area(t) > 0])
    free = beyond + [t for t in found if doubled_area(t) <= 0]
    groups = merged(owned, shift)
    permits = tuple(whole_hull([p for i in group for p in owned[i]], shift) for group in groups)
    triangles = [(*owned[i], k) for k, group in enumerate(groups, 1) for i in group]
    triangles += [(*t, 0) for t in free]
    forbids = forbids_of(permits, regions, shift) if permits else ()
    return Outer(permits, forbids, tuple(triangles))


def forbids_of(permits: Rings, regions: Regions, shift: int) -> Rings:
    """Forbids for the permits of a tile; they may reach beyond it."""
    x0, y0, x1, y1 = bounds_of([p for permit in permits for p in permit])
    reach = max(LEAST_REACH, REACH * max(x1 - x0, y1 - y0))
    box = (floor(x0 - reach), floor(y0 - reach), ceil(x1 + reach), ceil(y1 + reach))
    left, low, right, high = (value << shift for value in box)
    size = (right - left) * float(high - low)
    chains = []
    for barrier in regions.barriers:
        rings = within(barrier.rings, (left, low, right, high))[0]
        outline = edges_of(tuple(Outline(rings).simplify(2 * DETAIL, 1e-9 * size)))
        chain = chain_of(barrier.edges, shift)
        chains.append((chain, chain_of(outline, shift).places, barrier.sign))
    return forbids_in(permits, shift, box, chains)


def outlined(rings: list[Ring], size: float, aside: int, plain: bool) -> tuple[list[Ring], list[Triangle]]:
    """Rings round the rings, with few vertices, and what they add, clockwise."""
    small = [r for r in rings if -2e-8 * size < doubled_area(r) <= 0]
    large = [r for r in rings if not -2e-8 * size < doubled_area(r) <= 0]
    outline = Outline(large, aside)
    kept = outline.simplify(DETAIL, 2e-9 * size)
    return kept, outline.removed + [t for hole in small for t in reverses(hole, plain)]


def reverses(hole: Ring, plain: bool) -> list[Triangle]:
    """Triangles of a clockwise ring, clockwise."""
    return [(a, c, b) for a, b, c in triangulate([hole[::-1]], plain)]
