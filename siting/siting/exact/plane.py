"""Points, rings and convex pieces in whole units: exact."""

Point = tuple[int, int]
Ring = tuple[Point, ...]  # not closed: the first vertex stands once
Rings = tuple[Ring, ...]  # outer rings counter-clockwise, holes clockwise
Box = tuple[int, int, int, int]  # x0, y0, x1, y1, closed
Edge = tuple[Point, Point]

MOST_VERTICES = 64


def side(a: Point, b: Point, p: Point) -> int:
    """Twice the area of the triangle a, b, p: above 0 where p is strictly left of a to b."""
    return (b[0] - a[0]) * (p[1] - a[1]) - (b[1] - a[1]) * (p[0] - a[0])


def ring_edges(ring: Ring) -> list[Edge]:
    """The directed edges of a ring, from its last vertex to its first included."""
    return list(zip(ring, ring[1:] + ring[:1]))


def is_convex(ring: Ring) -> bool:
    """Whether each vertex is strictly left of each edge that it doesn't end."""
    return len(ring) >= 3 and all(side(a, b, p) > 0 for a, b in ring_edges(ring) for p in ring if p not in (a, b))


def holds(piece: list[Edge], p: Point) -> bool:
    """Whether p is in the closed convex piece with these edges."""
    x, y = p
    return all((bx - ax) * (y - ay) >= (by - ay) * (x - ax) for (ax, ay), (bx, by) in piece)


def in_units(ring: Ring, shift: int) -> Ring:
    """A ring of whole lengths in units, of which a length has 2^shift."""
    return tuple((x << shift, y << shift) for x, y in ring)
