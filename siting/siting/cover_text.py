"""The text of a tile's tests, for a program that makes them again: `cover 1`."""

from collections.abc import Sequence
from dataclasses import dataclass

from .exact.cover import Triangle
from .exact.plane import Box, Point, Ring, Rings, holds, in_units, ring_edges, side

LARGEST = 1 << 31  # of a coordinate in size
MOST_SHIFT = 20


@dataclass(frozen=True)
class Cover:
    """What the tests of a tile are made on, in units of which a length has 2^shift."""

    region: Rings
    forbidden: Rings
    triangles: Sequence[Triangle]
    tile: Box
    shift: int


def coarser(cover: Cover, permits: Rings) -> Cover | None:
    """The same in units so coarse that its coordinates are at most 2^31, each vertex rounded to the nearest; None where
    no unit is, a length at the most.

    Edges that cancel still do. The tile is rounded inward. A flat triangle that rounding turns gets an owner.
    """
    vertices = [p for ring in cover.region + cover.forbidden for p in ring] + [
        p for t in cover.triangles for p in t[:3]
    ]
    largest = max((max(abs(x), abs(y)) for x, y in vertices), default=0)
    drop = max(0, cover.shift - MOST_SHIFT, (largest // LARGEST).bit_length())
    if drop > cover.shift:
        return None
    half, mask = 1 << drop >> 1, (1 << drop) - 1

    def near(x: int, y: int) -> tuple[int, int]:
        return (x + half) >> drop, (y + half) >> drop

    def rounded(rings: Rings) -> Rings:
        return tuple(tuple(near(*p) for p in ring) for ring in rings)

    pieces = [ring_edges(in_units(ring, cover.shift - drop)) for ring in permits]

    def owned(a: Point, b: Point, c: Point, owner: int) -> Triangle:
        if owner == 0 and side(a, b, c) > 0:
            owner = next((k for k, piece in enumerate(pieces, 1) if all(holds(piece, p) for p in (a, b, c))), 0)
        return a, b, c, owner

    x0, y0, x1, y1 = cover.tile
    return Cover(
        rounded(cover.region),
        rounded(cover.forbidden),
        [owned(near(*a), near(*b), near(*c), owner) for a, b, c, owner in cover.triangles],
        ((x0 + mask) >> drop, (y0 + mask) >> drop, x1 >> drop, y1 >> drop),
        cover.shift - drop,
    )


def cover_text(exact: Cover, permits: Rings, instance: str) -> str | None:
    """The tests of a tile's pieces, of which the permitted ones are given, before the instance that has them; None
    where the tile is too large."""
    cover = coarser(exact, permits)
    if cover is None:
        return None
    lines = ["cover 1", f"shift {cover.shift}", "tile " + numbers((cover.tile[:2], cover.tile[2:]))]
    lines += ["region " + numbers(ring) for ring in cover.region]
    lines += ["forbidden " + numbers(ring) for ring in cover.forbidden]
    lines += [f"triangle {numbers((a, b, c))} {owner}" for a, b, c, owner in cover.triangles]
    return "\n".join(lines + ["end", instance])


def numbers(points: Ring) -> str:
    """Coordinates with a space between."""
    return " ".join(f"{x} {y}" for x, y in points)
