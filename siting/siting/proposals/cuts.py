"""Rings cut along lines, dissolved where they share edges, and simplified outward.

Each step returns rings and triangles whose chains together are the chain of the rings that
went in, edge by edge. Nothing here is trusted: `exact.cover` tests what comes of it.
"""

from collections import defaultdict
from math import hypot, inf

from ..exact.chains import edges_of, remainder
from ..exact.plane import Box, Point, Ring, Rings, ring_edges, side

Triangle = tuple[Point, Point, Point]
STEEPEST = 64.0  # how far along a line a cut goes aside, in times of its distance


def doubled_area(ring: Ring) -> int:
    """Twice the area that a ring goes round, above 0 where it is counter-clockwise."""
    return sum(a[0] * b[1] - a[1] * b[0] for a, b in ring_edges(ring))


def dissolve(rings: Rings) -> list[Ring]:
    """Rings of the edges that are left where edges and their reverses cancel."""
    edges = edges_of(rings)
    left = remainder(edges)
    if len(left) == len(edges):
        return list(rings)
    leaving: dict[Point, list[Point]] = defaultdict(list)
    for a, b in left:
        leaving[a].append(b)
    found = []
    for start in list(leaving):
        while leaving[start]:
            found.append(follow(start, leaving))
    return found


def follow(start: Point, leaving: dict[Point, list[Point]]) -> Ring:
    """A ring from this vertex, leftmost at each, its edges taken out."""
    ring, before = [start], None
    here = leaving[start].pop()
    previous = start
    while here != start:
        ring.append(here)
        ahead = leaving[here]
        if len(ahead) > 1:
            ahead.sort(key=lambda to: left_turn(previous, here, to))
        previous, here = here, ahead.pop()
    return tuple(ring)


def left_turn(a: Point, b: Point, c: Point) -> tuple[int, float]:
    """Grows with the turn to the left at b."""
    across = float(side(a, b, c))
    along = float((b[0] - a[0]) * (c[0] - b[0]) + (b[1] - a[1]) * (c[1] - b[1]))
    size = hypot(across, along) or 1.0
    if along >= 0:
        return 0, across / size
    return (1, -across / size) if across >= 0 else (-1, -across / size)


def within(
    rings: list[Ring], tile: Box, reach: int = 1, aside: int = 0
) -> tuple[list[Ring], list[Triangle], list[Triangle]]:
    """Rings within a tile grown by a reach, triangles beyond it, and slivers of the cuts.

    Where an edge is cut, the cut is aside of it by so many units, outside what the edge bounds.
    """
    x0, y0, x1, y1 = tile
    beyond: list[Triangle] = []
    slivers: list[Triangle] = []
    for turn, limit in enumerate((x0 - reach, y0 - reach, -x1 - reach, -y1 - reach)):
        rings, outer, thin = right_of(rings, limit, aside)
        beyond += [turned_back(triangle, turn) for triangle in outer]
        slivers += [turned_back(triangle, turn) for triangle in thin]
        rings = [tuple((y, -x) for x, y in ring) for ring in rings]
    return rings, beyond, slivers


def turned_back(triangle: Triangle, times: int) -> Triangle:
    """A triangle turned left by so many right angles."""
    for _ in range(times):
        a, b, c = triangle
        triangle = ((-a[1], a[0]), (-b[1], b[0]), (-c[1], c[0]))
    return triangle


def right_of(rings: list[Ring], limit: int, aside: int) -> tuple[list[Ring], list[Triangle], list[Triangle]]:
    """Rings of the part at x >= limit, triangles of the rest, slivers at rounded points."""
    kept: list[Ring] = []
    beyond: list[Triangle] = []
    slivers: list[Triangle] = []
    inner: list[list[Point]] = []
    outer: list[list[Point]] = []
    for ring in rings:
        least = min(x for x, _ in ring)
        if least >= limit:
            kept.append(ring)
        elif max(x for x, _ in ring) < limit:
            beyond += fan(ring)
        else:
            split(ring, limit, aside, inner, outer, slivers)
    exits = pairs_along(inner)
    kept += joined(inner, exits)
    back = {entry: leave for leave, entry in exits.items()}
    for ring in joined_outer(inner, outer, back):
        beyond += fan(ring)
    return kept, beyond, slivers


def fan(ring: Ring) -> list[Triangle]:
    """Triangles from the first vertex of a ring, whose chain is the ring's."""
    return [(ring[0], ring[i], ring[i + 1]) for i in range(1, len(ring) - 1)]


def split(
    ring: Ring,
    limit: int,
    aside: int,
    inner: list[list[Point]],
    outer: list[list[Point]],
    slivers: list[Triangle],
) -> None:
    """Adds the ring's paths on both sides of a line: path i beyond follows path i within."""
    start = next(i for i, (x, _) in enumerate(ring) if x < limit <= ring[(i + 1) % len(ring)][0])
    ring = ring[start + 1 :] + ring[: start + 1]
    first = len(inner)
    for a, b in zip(ring[-1:] + ring[:-1], ring):
        if (a[0] < limit) == (b[0] < limit):
            (inner if b[0] >= limit else outer)[-1].append(b)
            continue
        m = crossing_place(a, b, limit, aside)
        slivers.append((a, b, m))
        if b[0] >= limit:
            if len(inner) > first:
                outer[-1].append(m)
            else:
                closing = m
            inner.append([m, b])
        else:
            inner[-1].append(m)
            outer.append([m, b])
    outer[-1].append(closing)


def crossing_place(a: Point, b: Point, limit: int, aside: int) -> Point:
    """Where an edge passes x = limit, moved to its right: the region's outside."""
    dx, dy = b[0] - a[0], b[1] - a[1]
    away = round(aside * min(hypot(dx, dy) / abs(dx), STEEPEST))
    if dx > 0:
        return limit, a[1] + dy * (limit - a[0]) // dx - away
    return limit, a[1] - dy * (limit - a[0]) // -dx + away


def pairs_along(inner: list[list[Point]]) -> dict[int, int]:
    """For each path within, the path that follows where its end goes down the line."""
    marks = [(path[0][1], 0, i) for i, path in enumerate(inner)]
    marks += [(path[-1][1], 1, i) for i, path in enumerate(inner)]
    entries: list[int] = []
    waiting: list[int] = []
    follows: dict[int, int] = {}
    for _, leaves, i in sorted(marks):
        if not leaves:
            entries.append(i)
        elif entries:
            follows[i] = entries.pop()
        else:
            waiting.append(i)
    follows.update(zip(waiting, entries))
    return follows


def joined(paths: list[list[Point]], follows: dict[int, int]) -> list[Ring]:
    """Rings of paths, each followed by the one that is named."""
    rings = []
    left = dict(follows)
    while left:
        first, here = left.popitem()
        points = list(paths[first])
        while here != first:
            points += paths[here]
            here = left.pop(here)
        rings.append(cleaned(points))
    return [ring for ring in rings if len(ring) > 2]


def joined_outer(inner: list[list[Point]], outer: list[list[Point]], back: dict[int, int]) -> list[Ring]:
    """Rings of the paths beyond: each ends where a path within starts."""
    starts: dict[Point, list[int]] = defaultdict(list)
    for i, path in enumerate(inner):
        starts[path[0]].append(i)
    return joined(outer, {i: back[starts[path[-1]].pop()] for i, path in enumerate(outer)})


def cleaned(points: list[Point]) -> Ring:
    """A ring without points that repeat the one before."""
    return tuple(p for p, q in zip(points, points[-1:] + points[:-1]) if p != q)


class Outline:
    """Rings that are simplified together, outward: none of what they go round is lost.

    Reflex vertices are cut off, and edges between convex ones drawn out to a tip. `removed` has what that adds, as clockwise triangles: with the rings left they are
    the chain of the rings that went in.
    """

    def __init__(self, rings: list[Ring], aside: int = 0) -> None:
        self.aside = aside  # how far tips are beyond their edges, in units
        self.points = [p for ring in rings for p in ring]
        self.home = [i for i, ring in enumerate(rings) for _ in ring]
        self.sizes = [len(ring) for ring in rings]
        self.after = list(range(1, len(self.points) + 1))
        self.before = list(range(-1, len(self.points) - 1))
        end = 0
        for size in self.sizes:
            self.before[end], self.after[end + size - 1] = end + size - 1, end
            end += size
        self.gone = [False] * end
        self.removed: list[Triangle] = []

    def simplify(self, most: int, tolerance: float) -> list[Ring]:
        """Rings of at most so many vertices: sweeps with twice the tolerance each (twice an
        area), until there are few enough."""
        alive = list(range(len(self.points)))
        for _ in range(200):
            resting = -1
            for i in alive:
                if i != resting and not self.gone[i] and self.sizes[self.home[i]] > 4:
                    if self.area(i) <= tolerance and self.cut(i):
                        resting = self.after[i]
            alive = [i for i in alive if not self.gone[i]]
            if len(alive) <= most or len(alive) <= 4 * len(self.sizes):
                break
            tolerance *= 2
        return self.rings()

    def area(self, i: int) -> float:
        """Twice the area that the cut at a vertex adds."""
        j = self.after[i]
        a, b, c = self.points[self.before[i]], self.points[i], self.points[j]
        turn = side(a, b, c)
        return -float(turn) if turn <= 0 else tip_area(a, b, c, self.points[self.after[j]])

    def cut(self, i: int) -> bool:
        """Cuts a vertex off or draws its edge out; whether that could be done."""
        j, points = self.after[i], self.points
        a, b, c, d = points[self.before[i]], points[i], points[j], points[self.after[j]]
        if side(a, b, c) <= 0:
            self.removed.append((a, b, c))
            out = i
        else:
            q = tip(a, b, c, d, self.aside)
            if q is None:
                return False
            self.removed += [(a, b, q), (b, c, q), (q, c, d)]
            points[i], out = q, j
        self.gone[out] = True
        self.sizes[self.home[out]] -= 1
        left, right = self.before[out], self.after[out]
        self.after[left], self.before[right] = right, left
        return True

    def rings(self) -> list[Ring]:
        """The rings that are left."""
        seen = list(self.gone)
        found = []
        for start in range(len(seen)):
            ring = []
            while not seen[start]:
                seen[start] = True
                ring.append(self.points[start])
                start = self.after[start]
            if ring:
                found.append(tuple(ring))
        return found


def tip_area(a: Point, b: Point, c: Point, d: Point) -> float:
    """Twice the area added where the edge b to c is drawn out to a tip."""
    ux, uy, vx, vy = float(b[0] - a[0]), float(b[1] - a[1]), float(d[0] - c[0]), float(d[1] - c[1])
    ex, ey = float(c[0] - b[0]), float(c[1] - b[1])
    turn = ux * vy - uy * vx
    if ex * vy <= ey * vx or turn <= 1e-3 * hypot(ux, uy) * hypot(vx, vy):
        return inf
    return (ux * ey - uy * ex) * (ex * vy - ey * vx) / turn


def tip(a: Point, b: Point, c: Point, d: Point, aside: int) -> Point | None:
    """Where a to b and d to c meet, rounded to the right of both and of b to c."""
    ux, uy, vx, vy = b[0] - a[0], b[1] - a[1], d[0] - c[0], d[1] - c[1]
    turn, along = ux * vy - uy * vx, (c[0] - b[0]) * vy - (c[1] - b[1]) * vx
    if turn <= 0:
        return None
    u, v = hypot(ux, uy), hypot(vx, vy)
    ox, oy = ux / u - vx / v, uy / u - vy / v
    for push in (aside, aside + 4, 4 * aside + 16, 16 * aside + 256):
        q = (
            b[0] + ux * along // turn + round(push * ox),
            b[1] + uy * along // turn + round(push * oy),
        )
        if side(a, b, q) <= 0 and side(b, c, q) <= 0 and side(c, d, q) <= 0:
            return q
    return None
