"""Triangles merged into at most 64 convex pieces of whole lengths. Nothing here is trusted."""

import heapq
from collections import defaultdict
from dataclasses import dataclass

import numpy

from ..exact.cover import MOST_PIECES
from ..exact.plane import MOST_VERTICES, Edge, Point, Ring, ring_edges
from .cuts import Triangle, tip, tip_area

Place = tuple[float, float]
Pairs = set[tuple[int, int]]


@dataclass
class Piece:
    """A convex hull of triangles, in lengths: its area, and that of the pieces it came from."""

    hull: list[Place]
    area: float
    members: list[int]


def hull(points: list[Place]) -> list[Place]:
    """The convex hull, counter-clockwise, without vertices on a straight edge."""
    points = sorted(set(points))
    if len(points) < 3:
        return points
    sides = []
    for order in (points, points[::-1]):
        chain: list[Place] = []
        for p in order:
            while len(chain) > 1 and turn(chain[-2], chain[-1], p) <= 0:
                chain.pop()
            chain.append(p)
        sides.append(chain[:-1])
    return sides[0] + sides[1]


def turn(a: Place, b: Place, c: Place) -> float:
    """Above 0 where c is to the left of a to b."""
    return (b[0] - a[0]) * (c[1] - a[1]) - (b[1] - a[1]) * (c[0] - a[0])


def area_of(ring: list[Place]) -> float:
    """The area of a counter-clockwise ring."""
    return sum(turn(ring[0], ring[i], ring[i + 1]) for i in range(1, len(ring) - 1)) / 2


def clipped(ring: list[Place], nx: float, ny: float, c: float) -> list[Place]:
    """A convex ring's part at nx x + ny y <= c."""
    kept: list[Place] = []
    over = [nx * x + ny * y - c for x, y in ring]
    for i, (x, y) in enumerate(ring):
        j = (i + 1) % len(ring)
        if over[i] <= 0:
            kept.append((x, y))
        if (over[i] < 0 < over[j]) or (over[j] < 0 < over[i]):
            t = over[i] / (over[i] - over[j])
            kept.append((x + t * (ring[j][0] - x), y + t * (ring[j][1] - y)))
    return kept


def shared(one: list[Place], other: list[Place]) -> float:
    """The area of what two convex rings have in common."""
    for (ax, ay), (bx, by) in zip(other, other[1:] + other[:1]):
        nx, ny = by - ay, ax - bx
        one = clipped(one, nx, ny, nx * ax + ny * ay)
        if len(one) < 3:
            return 0.0
    return area_of(one)


def merged(triangles: list[Triangle], shift: int) -> list[list[int]]:
    """At most 64 groups of triangles whose hulls waste little, neighbours first."""
    scale = float(1 << shift)
    pieces = {}
    for i, corners in enumerate(triangles):
        places = [(x / scale, y / scale) for x, y in corners]
        pieces[i] = Piece(places, area_of(places), [i])
    pieces, pairs = join(pieces, by_edges(triangles), 4 * MOST_PIECES)
    while len(pieces) > MOST_PIECES:
        pairs |= by_nearness(pieces)
        pieces, pairs = join(pieces, pairs, max(MOST_PIECES, len(pieces) // 4))
    return [piece.members for piece in pieces.values()]


def by_edges(triangles: list[Triangle]) -> Pairs:
    """Pairs of triangles that share an edge."""
    having: dict[Edge, list[int]] = defaultdict(list)
    for i, corners in enumerate(triangles):
        for a, b in ring_edges(corners):
            having[(a, b) if a < b else (b, a)].append(i)
    return {(i, j) for at in having.values() for i in at for j in at if i < j}


def by_nearness(pieces: dict[int, Piece]) -> Pairs:
    """Pairs of pieces, each with its eight nearest by their middles."""
    names = list(pieces)
    middles = numpy.array([numpy.mean(pieces[k].hull, axis=0) for k in names])
    pairs = set()
    for i, k in enumerate(names):
        far = numpy.abs(middles - middles[i]).sum(axis=1)
        for j in numpy.argsort(far)[1:9].tolist():
            pairs.add((min(k, names[j]), max(k, names[j])))
    return pairs


def join(pieces: dict[int, Piece], pairs: Pairs, most: int) -> tuple[dict[int, Piece], Pairs]:
    """Pieces joined along pairs, least waste first, down to `most`, beyond that only for
    nothing; and the pairs that are left."""
    near: dict[int, set[int]] = defaultdict(set)
    heap: list[tuple[float, int, int]] = []
    whole = sum(piece.area for piece in pieces.values())

    def offer(i: int, j: int) -> None:
        a, b = pieces[i], pieces[j]
        both = hull(a.hull + b.hull)
        waste = area_of(both) - a.area - b.area + shared(a.hull, b.hull)
        if len(both) > MOST_VERTICES // 2:
            waste += whole
        heapq.heappush(heap, (waste, i, j))

    for i, j in pairs:
        near[i].add(j)
        near[j].add(i)
        offer(i, j)
    fresh = max(pieces) + 1 if pieces else 0
    while heap:
        waste, i, j = heapq.heappop(heap)
        if i not in pieces or j not in pieces:
            continue
        if len(pieces) <= most and waste > 1e-9 * whole:
            break
        a, b = pieces.pop(i), pieces.pop(j)
        both = hull(a.hull + b.hull)
        pieces[fresh] = Piece(both, area_of(both), a.members + b.members)
        for k in (near.pop(i) | near.pop(j)) - {i, j}:
            near[k] -= {i, j}
            near[k].add(fresh)
            near[fresh].add(k)
            offer(k, fresh)
        fresh += 1
    return pieces, {(i, j) for i in pieces for j in near[i] if i < j}


def whole_hull(points: list[Point], shift: int) -> Ring:
    """A convex ring of whole lengths, of at most 64 vertices, that holds points in units."""
    mask = (1 << shift) - 1
    wide: set[Point] = set()
    for x, y in hull(points):  # type: ignore[arg-type]
        for right in {x >> shift, (x + mask) >> shift}:
            for top in {y >> shift, (y + mask) >> shift}:
                wide.add((right, top))
    ring = hull(sorted(wide))  # type: ignore[arg-type]
    if len(ring) < 3:
        ring = hull([(x + u, y + v) for x, y in ring for u in (-1, 1) for v in (-1, 1)])
    return tuple(ring) if len(ring) <= MOST_VERTICES else fewer(ring)  # type: ignore[arg-type]


def fewer(ring: list[Point]) -> Ring:
    """A convex ring of at most 64 vertices round a convex ring: edges drawn out to tips."""
    while len(ring) > MOST_VERTICES:
        doubled = ring + ring[:3]
        i = min(range(len(ring)), key=lambda i: tip_area(*doubled[i : i + 4]))
        q = tip(*doubled[i : i + 4], 0)
        if q is None:
            break
        ring = hull([q] + [p for p in ring if p not in doubled[i + 1 : i + 3]])  # type: ignore[list-item, assignment]
    return tuple(ring)
