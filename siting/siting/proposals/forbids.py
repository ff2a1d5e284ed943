"""At most 64 convex pieces where nothing is permitted. Nothing here is trusted.

A piece grows from a place deep in what isn't permitted: the nearest edge of a chain gives a
line, what is beyond the line is left out, and so on until no edge is left. Pieces overlap.
"""

from collections.abc import Sequence
from dataclasses import dataclass

import numpy
from numpy.typing import NDArray

from ..exact.chains import winding
from ..exact.cover import MOST_PIECES, is_clear
from ..exact.plane import MOST_VERTICES, Edge, Ring, Rings, in_units
from .permits import Place, clipped, hull

Doubles = NDArray[numpy.float64]
Bounds = tuple[float, float, float, float]
Mask = NDArray[numpy.bool_]
ROWS = 240  # of the raster of cells that says what isn't permitted
MOST_LINES = 40  # of a piece
MOST_FAILURES = 20
NOTHING = 1e-4  # the share of the permits that may stay wasted
SHRINK = (0.0, 0.75, 4.0, 64.0)  # lengths inward, tried in turn


class Raster:
    """Cells over a box, in lengths: what a chain winds round at their middles."""

    def __init__(self, box: Bounds) -> None:
        x0, y0, x1, y1 = box
        self.step = max(x1 - x0, y1 - y0) / ROWS or 1.0
        self.x = numpy.arange(x0 + self.step / 2, x1, self.step)
        self.y = numpy.arange(y0 + self.step / 2, y1, self.step)

    def winding(self, edges: Doubles) -> NDArray[numpy.int64]:
        """Windings at the cells' middles, of edges (ax, ay, bx, by)."""
        count = numpy.zeros((len(self.y), len(self.x) + 1), dtype=numpy.int64)
        ax, ay, bx, by = edges.T
        low = numpy.searchsorted(self.y, numpy.minimum(ay, by))
        high = numpy.searchsorted(self.y, numpy.maximum(ay, by))
        spans = high - low
        which = numpy.repeat(numpy.arange(len(edges)), spans)
        rows = numpy.arange(len(which)) - numpy.repeat(numpy.cumsum(spans) - spans, spans)
        rows += numpy.repeat(low, spans)
        slope = (bx[which] - ax[which]) / (by[which] - ay[which])
        at = ax[which] + (self.y[rows] - ay[which]) * slope
        columns = numpy.searchsorted(self.x, at)
        numpy.add.at(count, (rows, columns), numpy.where(by[which] > ay[which], -1, 1))
        # what is left of all edges of a row is outside: sums run from the left
        return numpy.cumsum(count, axis=1)[:, :-1]

    def within(self, lines: Doubles) -> Mask:
        """Cells whose middles are on or inside all lines (nx, ny, c): nx x + ny y <= c."""
        held = numpy.ones((len(self.y), len(self.x)), dtype=bool)
        for nx, ny, c in lines:
            held &= nx * self.x[None, :] + ny * self.y[:, None] <= c
        return held


def lines_of(ring: Sequence[Place]) -> Doubles:
    """The lines of a convex ring, (nx, ny, c) with the outward normal of length 1."""
    a = numpy.array(ring, dtype=float)
    along = numpy.roll(a, -1, axis=0) - a
    size = numpy.hypot(along[:, 0], along[:, 1])
    normal = numpy.column_stack([along[:, 1], -along[:, 0]])[size > 0] / size[size > 0, None]
    return numpy.column_stack([normal, (normal * a[size > 0]).sum(axis=1)])


@dataclass(frozen=True)
class Chain:
    """A chain of edges in units, and in lengths beside."""

    edges: list[Edge]
    places: Doubles

    def passing(self, box: Bounds) -> list[Edge]:
        """The edges at a box's heights and not left of it: all that its inside can tell of."""
        x0, y0, _, y1 = box
        ax, ay, bx, by = self.places.T
        level = (numpy.maximum(ay, by) >= y0) & (numpy.minimum(ay, by) <= y1)
        level &= numpy.maximum(ax, bx) >= x0
        return [self.edges[i] for i in numpy.flatnonzero(level).tolist()]


def chain_of(edges: list[Edge], shift: int) -> Chain:
    """A chain with its places in lengths."""
    scale = float(1 << shift)
    rows = [(a[0] / scale, a[1] / scale, b[0] / scale, b[1] / scale) for a, b in edges]
    return Chain(edges, numpy.array(rows, dtype=float).reshape(-1, 4))


def forbids_in(permits: Rings, shift: int, box: Bounds, chains: Sequence[tuple[Chain, Doubles, int]]) -> Rings:
    """Convex pieces of whole lengths in a box that take what isn't permitted out of the permits.

    Each chain comes with its outline and the sign of the windings where a piece may be: 1
    above 0, -1 at most 0.
    """
    raster = Raster(bounds_of([p for permit in permits for p in permit]))
    free = [raster.winding(chain.places) * sign > min(sign, 0) for chain, _, sign in chains]
    wasted = numpy.zeros((len(raster.y), len(raster.x)), dtype=bool)
    for permit in permits:
        wasted |= raster.within(lines_of(permit))
    least, failures = NOTHING * wasted.sum(), 0
    wasted &= numpy.logical_or.reduce(free)
    near = [nearby(outline, box) for _, outline, _ in chains]
    pieces: list[Ring] = []
    while len(pieces) < MOST_PIECES and wasted.sum() > least and failures < MOST_FAILURES:
        at = deepest(wasted)
        seed = (float(raster.x[at[1]]), float(raster.y[at[0]]))
        grown = [
            (grow_best(seed, near[i], box, raster, wasted), chain, sign)
            for i, (chain, _, sign) in enumerate(chains)
            if free[i][at]
        ]
        ring, chain, sign = max(grown, key=lambda found: gain(raster, found[0], wasted))
        wasted[at] = False
        piece = proved(ring, chain, sign, shift)
        if piece is None:
            failures += 1
            continue
        pieces.append(piece)
        wasted &= ~raster.within(lines_of(piece))
    return tuple(pieces)


def bounds_of(ring: Sequence[Place]) -> Bounds:
    """The least box that holds a ring."""
    xs, ys = [x for x, _ in ring], [y for _, y in ring]
    return float(min(xs)), float(min(ys)), float(max(xs)), float(max(ys))


def nearby(chain: Doubles, box: Bounds) -> Doubles:
    """The chain's edges that reach into a box."""
    x0, y0, x1, y1 = box
    ax, ay, bx, by = chain.T
    return chain[
        (numpy.maximum(ax, bx) >= x0)
        & (numpy.minimum(ax, bx) <= x1)
        & (numpy.maximum(ay, by) >= y0)
        & (numpy.minimum(ay, by) <= y1)
    ]


def deepest(mask: Mask) -> tuple[int, int]:
    """A cell of the mask that is farthest from what isn't in it."""
    left = mask
    while True:
        inner = left.copy()
        inner[1:] &= left[:-1]
        inner[:-1] &= left[1:]
        inner[:, 1:] &= left[:, :-1]
        inner[:, :-1] &= left[:, 1:]
        inner[0] = inner[-1] = False
        inner[:, 0] = inner[:, -1] = False
        if not inner.any():
            row, column = numpy.argwhere(left)[0]
            return int(row), int(column)
        left = inner


def gain(raster: Raster, ring: list[Place], wasted: Mask) -> int:
    """How many wasted cells a ring holds."""
    return int((raster.within(lines_of(ring)) & wasted).sum()) if len(ring) > 2 else 0


def grow_best(
    seed: Place,
    chain: Doubles,
    box: Bounds,
    raster: Raster,
    wasted: Mask,
) -> list[Place]:
    """The best of pieces grown from a seed, in the metric of the piece before."""
    metric = numpy.eye(2)
    best: list[Place] = []
    for _ in range(3):
        ring = grow(seed, chain, box, metric)
        if len(ring) < 3:
            break
        if gain(raster, ring, wasted) > gain(raster, best, wasted):
            best = ring
        places = numpy.array(ring)
        middle = places.mean(axis=0)
        spread = (places - middle).T @ (places - middle) / len(places)
        spread += numpy.eye(2) * (1e-4 * numpy.trace(spread))
        metric = numpy.linalg.inv(spread)
        seed = (float(middle[0]), float(middle[1]))
    return best


def grow(seed: Place, chain: Doubles, box: Bounds, metric: Doubles) -> list[Place]:
    """A convex ring round a seed that no edge of the chain enters, within a box."""
    x0, y0, x1, y1 = box
    ring: list[Place] = [(x0, y0), (x1, y0), (x1, y1), (x0, y1)]
    p = numpy.array(seed)
    a, along = chain[:, :2] - p, chain[:, 2:] - chain[:, :2]
    bent = along @ metric
    size = (bent * along).sum(axis=1)
    t = numpy.clip(-(bent * a).sum(axis=1) / numpy.where(size > 0, size, 1.0), 0.0, 1.0)
    nearest = a + along * t[:, None]
    normal = nearest @ metric
    far = (normal * nearest).sum(axis=1)
    order = numpy.argsort(far)
    a, b, normal, far = a[order], (chain[:, 2:] - p)[order], normal[order], far[order]
    left = numpy.arange(len(order))
    for _ in range(MOST_LINES):
        if not len(left):
            return ring
        first = left[0]
        n, c = normal[first], far[first]
        if c <= 0:
            return []
        ring = clipped(ring, n[0], n[1], float(c + n @ p))
        beyond = (a[left] @ n >= c * (1 - 1e-12)) & (b[left] @ n >= c * (1 - 1e-12))
        beyond[0] = True
        left = left[~beyond]
    return []


def proved(ring: list[Place], chain: Chain, sign: int, shift: int) -> Ring | None:
    """The ring moved inward to whole lengths, where the chain allows it by its exact test."""
    for inward in SHRINK:
        if len(ring) < 3:
            return None
        smaller = ring
        for nx, ny, c in lines_of(hull(ring)):
            smaller = clipped(smaller, nx, ny, c - inward)
        whole = hull([(round(x), round(y)) for x, y in smaller])
        if 3 <= len(whole) <= MOST_VERTICES:
            piece: Ring = tuple(whole)  # type: ignore[arg-type]
            if allows(in_units(piece, shift), chain.passing(bounds_of(piece)), sign):
                return piece
    return None


def allows(piece: Ring, edges: list[Edge], sign: int) -> bool:
    """Whether no edge meets the piece inside, and it is on the side of the chain that the sign says."""
    x, y = sum(x for x, _ in piece), sum(y for _, y in piece)
    return is_clear(piece, edges) and (winding(edges, x, y, len(piece)) > 0) == (sign > 0)
