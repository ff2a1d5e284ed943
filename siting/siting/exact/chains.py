"""Chains of directed edges: what they wind round, and what is left where edges cancel."""

from collections import Counter
from collections.abc import Iterable

from .plane import Edge, Rings, ring_edges

Direction = tuple[int, int]


def edges_of(rings: Rings) -> list[Edge]:
    """The directed edges of rings, each as often as it stands."""
    return [edge for ring in rings for edge in ring_edges(ring)]


def remainder(chain: Iterable[Edge], less: Iterable[Edge] = ()) -> list[Edge]:
    """The chain less another, where each edge cancels against its reverse.

    What it winds round a point is the difference of what the two wind round it.
    """
    count: Counter[Edge] = Counter()
    for sign, edges in ((1, chain), (-1, less)):
        for a, b in edges:
            if a < b:
                count[a, b] += sign
            else:
                count[b, a] -= sign
    left: list[Edge] = []
    for (a, b), times in count.items():
        if a != b:
            left += [(a, b)] * times + [(b, a)] * -times
    return left


def crossing(edge: Edge, x: int, y: int, q: int, u: Direction = (0, 0)) -> int:
    """How the edge passes the ray from (x/q, y/q) to the right: 1 up, -1 down, else 0.

    An edge passes where one end is at the point's height or below, the other above,
    and the point is strictly left of the upward edge. A direction u moves the point
    by an infinitesimal along u, and by one of second order to the left of u.
    """
    (ax, ay), (bx, by) = edge
    height = (y, u[1], u[0])
    up = (by * q, 0, 0) > height
    if up == ((ay * q, 0, 0) > height):
        return 0
    dx, dy = bx - ax, by - ay
    turn = (dx * (y - ay * q) - dy * (x - ax * q), dx * u[1] - dy * u[0], dx * u[0] + dy * u[1])
    if up:
        return 1 if turn > (0, 0, 0) else 0
    return -1 if turn < (0, 0, 0) else 0


def winding(chain: Iterable[Edge], x: int, y: int, q: int = 1, u: Direction = (0, 0)) -> int:
    """How often a closed chain winds round (x/q, y/q), moved as `crossing` says."""
    low, high = -(-y // q), y // q
    near = [e for e in chain if (e[0][1] >= low or e[1][1] >= low) and (e[0][1] <= high or e[1][1] <= high)]
    return sum(crossing(edge, x, y, q, u) for edge in near)


def permitted(region: Rings, forbidden: Rings, x: int, y: int, q: int) -> bool:
    """Whether (x/q, y/q) is a limit of points inside the region and in no forbidden area.

    Edges through the point cut its neighbourhood into sectors, each of which lies to the
    left of one of their directions; no sector but the whole where no edge passes.
    """
    inside, outside = edges_of(region), edges_of(forbidden)
    through = [edge for edge in inside + outside if passes(edge, x, y, q)]
    directions = {(b[0] - a[0], b[1] - a[1]) for a, b in through}
    directions |= {(-dx, -dy) for dx, dy in directions}
    return any(winding(inside, x, y, q, u) > 0 and winding(outside, x, y, q, u) <= 0 for u in directions or {(0, 0)})


def passes(edge: Edge, x: int, y: int, q: int) -> bool:
    """Whether the closed edge holds (x/q, y/q); an edge without length never."""
    (ax, ay), (bx, by) = edge
    within = min(ax, bx) * q <= x <= max(ax, bx) * q and min(ay, by) * q <= y <= max(ay, by) * q
    level = (bx - ax) * (y - ay * q) == (by - ay) * (x - ax * q)
    return within and level and edge[0] != edge[1]
