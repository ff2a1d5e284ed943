"""Triangulation of polygons with holes: by earcut where it is installed, else by ears in Python.

Whatever the rings, the triangles' chain is the rings' chain: an ear takes two edges of a ring
and leaves their third, and what a triangulator leaves over is closed and gets fans.
"""

from collections import defaultdict
from fractions import Fraction
from math import floor

from ..exact.chains import edges_of, remainder, winding
from ..exact.plane import Edge, Point, Ring, ring_edges, side
from .cuts import Triangle, doubled_area, fan, follow

try:
    import mapbox_earcut
    import numpy
except ImportError:
    mapbox_earcut = None

Polygon = list[Ring]  # an outer ring, then its holes


def polygons_of(rings: list[Ring]) -> tuple[list[Polygon], list[Ring]]:
    """Outer rings with the holes in them, and holes and rings without area that are in none."""
    outers = sorted((r for r in rings if doubled_area(r) > 0), key=doubled_area)
    boxes = [box_of(ring) for ring in outers]
    polygons: list[Polygon] = [[ring] for ring in outers]
    alone = []
    for hole in (r for r in rings if doubled_area(r) <= 0):
        (x, y), (bx, by) = hole[0], hole[1]
        for polygon, (x0, y0, x1, y1) in zip(polygons, boxes):
            if x0 <= x <= x1 and y0 <= y <= y1:
                if winding(ring_edges(polygon[0]), x, y, 1, (bx - x, by - y)) > 0:
                    polygon.append(hole)
                    break
        else:
            alone.append(hole)
    return polygons, alone


def box_of(ring: Ring) -> tuple[int, int, int, int]:
    """The least box that holds a ring."""
    xs, ys = [x for x, _ in ring], [y for _, y in ring]
    return min(xs), min(ys), max(xs), max(ys)


def triangulate(polygon: Polygon, plain: bool = False) -> list[Triangle]:
    """Triangles whose chain is the chain of the polygon's rings."""
    if len(polygon) == 1 and len(polygon[0]) == 3:
        return [polygon[0]]  # type: ignore[list-item]
    if plain or mapbox_earcut is None:
        triangles = by_ears(bridged(polygon))
    else:
        triangles = by_earcut(polygon)
    return triangles + fans_of(left_over(polygon, triangles))


def by_earcut(polygon: Polygon) -> list[Triangle]:
    """Earcut's triangles, on doubles from the first vertex, turned counter-clockwise."""
    x, y = polygon[0][0]
    points = [p for ring in polygon for p in ring]
    places = numpy.array([(float(px - x), float(py - y)) for px, py in points])
    ends = numpy.cumsum([len(ring) for ring in polygon]).astype(numpy.uint32)
    found = mapbox_earcut.triangulate_float64(places, ends).reshape(-1, 3)
    a, b, c = (places[found[:, i]] for i in range(3))
    turn = (b[:, 0] - a[:, 0]) * (c[:, 1] - a[:, 1]) - (b[:, 1] - a[:, 1]) * (c[:, 0] - a[:, 0])
    found[turn < 0] = found[turn < 0][:, ::-1]
    return [(points[i], points[j], points[k]) for i, j, k in found.tolist()]


def left_over(polygon: Polygon, triangles: list[Triangle]) -> list[Edge]:
    """Edges of the polygon's rings that the triangles don't have, less those they have beside."""
    return remainder(edges_of(tuple(polygon)), [edge for t in triangles for edge in ring_edges(t)])


def fans_of(chain: list[Edge]) -> list[Triangle]:
    """Triangles whose chain is this closed chain."""
    leaving: dict[Point, list[Point]] = defaultdict(list)
    for a, b in chain:
        leaving[a].append(b)
    triangles = []
    for start in list(leaving):
        while leaving[start]:
            triangles += fan(follow(start, leaving))
    return triangles


def bridged(polygon: Polygon) -> list[Point]:
    """One ring through the outer ring and the holes, joined by bridges there and back."""
    ring = list(polygon[0])
    for hole in sorted(polygon[1:], key=lambda h: max(h), reverse=True):
        start = max(range(len(hole)), key=lambda i: hole[i])
        turned = hole[start:] + hole[:start]
        at = bridge_end(ring, turned[0])
        ring = ring[: at + 1] + list(turned) + [turned[0]] + ring[at:]
    return ring


def bridge_end(ring: list[Point], p: Point) -> int:
    """The number of the ring's vertex that a bridge from p, the rightmost place of a hole, may end at: the right end of
    the edge that the ray to the right meets first, or of the vertices that hide it the one nearest to the ray."""
    best, edge = None, 0
    for i, (a, b) in enumerate(zip(ring, ring[1:] + ring[:1])):
        if a[1] <= p[1] <= b[1] and a[1] < b[1] and side(a, b, p) >= 0:
            x = Fraction((b[0] - a[0]) * (p[1] - a[1]), b[1] - a[1]) + a[0]
            if best is None or x < best:
                best, edge = x, i
    if best is None:
        return max(range(len(ring)), key=lambda i: ring[i])
    far = edge if ring[edge][0] > ring[(edge + 1) % len(ring)][0] else (edge + 1) % len(ring)
    hit = (floor(best), p[1])
    corner = (p, hit, ring[far]) if ring[far][1] >= p[1] else (p, ring[far], hit)
    hiding = [i for i, q in enumerate(ring) if q[0] > p[0] and in_triangle(corner, q) and sees(ring, i, p)]
    return min(hiding or [far], key=lambda i: (steepness(p, ring[i]), ring[i][0]))


def steepness(p: Point, q: Point) -> Fraction:
    """How steep the way from p to q is, which lies to its right."""
    return Fraction(abs(q[1] - p[1]), max(1, q[0] - p[0]))


def sees(ring: list[Point], i: int, p: Point) -> bool:
    """Whether p lies between the edges of the ring's vertex, inside what the ring goes round."""
    before, here, after = ring[i - 1], ring[i], ring[(i + 1) % len(ring)]
    if side(before, here, after) > 0:
        return side(before, here, p) >= 0 and side(here, after, p) >= 0
    return side(before, here, p) > 0 or side(here, after, p) > 0


def in_triangle(triangle: Triangle, p: Point) -> bool:
    """Whether a counter-clockwise triangle holds p, closed."""
    a, b, c = triangle
    return side(a, b, p) >= 0 and side(b, c, p) >= 0 and side(c, a, p) >= 0


def by_ears(ring: list[Point]) -> list[Triangle]:
    """Cuts ears off a ring: where none is free of vertices, the least one all the same."""
    count = len(ring)
    after = list(range(1, count)) + [0]
    before = [count - 1] + list(range(count - 1))
    reflex = {i for i in range(count) if side(ring[before[i]], ring[i], ring[after[i]]) <= 0}
    triangles: list[Triangle] = []
    here, missed = 0, 0
    while count > 3:
        i, j = before[here], after[here]
        ear = (ring[i], ring[here], ring[j])
        if missed <= count and not is_ear(ear, here, reflex, ring):
            here, missed = j, missed + 1
            continue
        triangles.append(ear)
        after[i], before[j] = j, i
        reflex.discard(here)
        for k in (i, j):
            (reflex.discard if side(ring[before[k]], ring[k], ring[after[k]]) > 0 else reflex.add)(k)
        count, missed, here = count - 1, 0, after[j]
    triangles.append((ring[before[here]], ring[here], ring[after[here]]))
    return [t for t in triangles if t[0] != t[1] != t[2] != t[0]]


def is_ear(ear: Triangle, tip: int, reflex: set[int], ring: list[Point]) -> bool:
    """Whether no reflex vertex is in the ear, but at its corners."""
    if tip in reflex:
        return side(*ear) == 0
    x0, y0, x1, y1 = box_of(ear)
    for k in reflex:
        x, y = p = ring[k]
        if x0 <= x <= x1 and y0 <= y <= y1 and p not in ear and in_triangle(ear, p):
            return False
    return True


def flipped(triangles: list[Triangle]) -> list[Triangle]:
    """Counter-clockwise triangles with edges flipped towards Delaunay's: the chain stays."""
    at: dict[Edge, int] = {}
    found = list(triangles)
    for i, corners in enumerate(found):
        for edge in ring_edges(corners):
            at[edge] = i
    waiting = list(at)
    for _ in range(20 * len(found)):
        if not waiting:
            break
        a, b = waiting.pop()
        i, j = at.get((a, b)), at.get((b, a))
        if i is None or j is None or i == j:
            continue
        (c,), (d,) = set(found[i]) - {a, b}, set(found[j]) - {a, b}
        if side(c, d, b) <= 0 or side(d, c, a) <= 0 or not encircled((a, b, c), d):
            continue
        found[i], found[j] = (c, d, b), (d, c, a)
        del at[a, b], at[b, a]
        for k in (i, j):
            for edge in ring_edges(found[k]):
                at[edge] = k
        waiting += [(a, d), (d, b), (b, c), (c, a)]
    return found


def encircled(triangle: Triangle, p: Point) -> bool:
    """Whether the circle of a counter-clockwise triangle holds p inside, in doubles."""
    (a, b), (c, d), (e, f) = ((float(x - p[0]), float(y - p[1])) for x, y in triangle)
    first, second, third = a * a + b * b, c * c + d * d, e * e + f * f
    found = first * (c * f - d * e) - second * (a * f - b * e) + third * (a * d - b * c)
    return found > 1e-9 * max(first, second, third) ** 2
