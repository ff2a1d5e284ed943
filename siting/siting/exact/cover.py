"""The tests of an OUTER: that its pieces hold every permitted point of a tile."""

from collections.abc import Iterable, Sequence
from dataclasses import dataclass

from .chains import edges_of, remainder, winding
from .plane import MOST_VERTICES, Box, Edge, Point, Ring, Rings
from .plane import holds, in_units, is_convex, ring_edges, side

MOST_PIECES = 64
Triangle = tuple[Point, Point, Point, int]  # its corners and its owner: a permit from 1, 0: beyond the tile


@dataclass(frozen=True)
class Failure:
    """The first test that fails: what is wrong, of which piece or triangle (from 0)."""

    what: str
    index: int


def first_failure(
    permits: Rings,
    forbids: Rings,
    triangles: Sequence[Triangle],
    region: Rings,
    forbidden: Rings,
    tile: Box,
    shift: int,
) -> Failure | None:
    """None where each point of the tile that is a limit of points inside the region and in no
    forbidden area is in a permit, and inside no forbid.

    Permits and forbids in whole lengths, all else in units, of which a length has 2^shift.
    """
    return (
        wrong_piece(permits, "permit")
        or wrong_piece(forbids, "forbid")
        or uncancelled(triangles, region)
        or unowned(triangles, [ring_edges(in_units(p, shift)) for p in permits], tile)
        or unclear([in_units(p, shift) for p in forbids], region, forbidden)
    )


def wrong_piece(pieces: Rings, word: str) -> Failure | None:
    """The first piece that isn't convex, or that is too long or too much."""
    for i, piece in enumerate(pieces):
        if i >= MOST_PIECES:
            return Failure(f"too many {word}s", i)
        if len(piece) > MOST_VERTICES or not is_convex(piece):
            return Failure(f"the {word} isn't a convex ring of 3 to 64 vertices", i)
    return None


def uncancelled(triangles: Sequence[Triangle], region: Rings) -> Failure | None:
    """An edge that is left where the triangles' edges and the reversed region's cancel."""
    corners = (triangle[:3] for triangle in triangles)
    left = remainder((edge for ring in corners for edge in ring_edges(ring)), edges_of(region))
    return Failure(f"the edge {left[0][0]} to {left[0][1]} doesn't cancel", 0) if left else None


def unowned(triangles: Sequence[Triangle], permits: Sequence[list[Edge]], tile: Box) -> Failure | None:
    """The first counter-clockwise triangle that its owner doesn't hold, or that isn't beyond."""
    x0, y0, x1, y1 = tile
    held: set[tuple[int, Point]] = set()
    for i, (a, b, c, owner) in enumerate(triangles):
        if side(a, b, c) <= 0:
            continue
        if not 0 <= owner <= len(permits):
            return Failure("the triangle's owner isn't a permit", i)
        if owner:
            for p in (a, b, c):
                if (owner, p) not in held:
                    if not holds(permits[owner - 1], p):
                        return Failure("the triangle's owner doesn't hold it", i)
                    held.add((owner, p))
            continue
        xs, ys = (a[0], b[0], c[0]), (a[1], b[1], c[1])
        if not (max(xs) < x0 or min(xs) > x1 or max(ys) < y0 or min(ys) > y1):
            return Failure("the triangle has no owner and isn't beyond the tile", i)
    return None


def unclear(forbids: Sequence[Ring], region: Rings, forbidden: Rings) -> Failure | None:
    """The first forbid that may hold a permitted point inside it."""
    inside, outside = edges_of(region), edges_of(forbidden)
    both = remainder(inside, outside)
    for i, piece in enumerate(forbids):
        if not may_forbid(piece, inside, outside, both):
            return Failure("the forbid may hold a permitted point", i)
    return None


def may_forbid(piece: Ring, inside: list[Edge], outside: list[Edge], both: list[Edge]) -> bool:
    """Whether no point inside the piece is permitted: one of three chains doesn't meet it
    inside, so it winds round each point there alike, and one point tells how often.

    The forbidden area's chain winds round it, or the region's doesn't, or the region's less
    the forbidden area's (`both`) doesn't.
    """
    x, y, q = sum(x for x, _ in piece), sum(y for _, y in piece), len(piece)
    return (
        (is_clear(piece, outside) and winding(outside, x, y, q) > 0)
        or (is_clear(piece, inside) and winding(inside, x, y, q) <= 0)
        or (is_clear(piece, both) and winding(both, x, y, q) <= 0)
    )


def is_clear(piece: Ring, chain: Iterable[Edge]) -> bool:
    """Whether no edge of the chain meets the inside of a convex piece."""
    xs, ys = [x for x, _ in piece], [y for _, y in piece]
    x0, y0, x1, y1 = min(xs), min(ys), max(xs), max(ys)
    near = [
        (a, b)
        for a, b in chain
        if (a[0] > x0 or b[0] > x0) and (a[0] < x1 or b[0] < x1)
        if (a[1] > y0 or b[1] > y0) and (a[1] < y1 or b[1] < y1)
    ]
    lines = ring_edges(piece)
    return all(is_parted(piece, lines, a, b) for a, b in near)


def is_parted(piece: Ring, lines: list[Edge], a: Point, b: Point) -> bool:
    """Whether an edge is on or outside one line of the piece, or the piece on one side of it."""
    if any(side(s, t, a) <= 0 and side(s, t, b) <= 0 for s, t in lines):
        return True
    sides = [side(a, b, p) for p in piece]
    return a != b and (min(sides) >= 0 or max(sides) <= 0)
