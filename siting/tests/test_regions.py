"""The exact tests of regions against fractions, and what is proposed against them."""

from dataclasses import replace
from fractions import Fraction
from math import cos, pi, sin
from random import Random

import pytest
from hypothesis import given, settings
from hypothesis import strategies as some
from shapes import district, islands, parcels

from siting.cover_text import Cover, cover_text
from siting.exact.chains import edges_of, permitted, remainder, winding
from siting.exact.cover import first_failure, is_clear, may_forbid
from siting.exact.plane import Ring, Rings, holds, in_units, is_convex, ring_edges, side
from siting.proposals.cuts import dissolve, doubled_area, within
from siting.proposals.outer import Outer, prepared, propose
from siting.proposals.permits import hull, whole_hull
from siting.proposals.triangles import polygons_of, triangulate

SMALL = some.integers(0, 6)
POINT = some.tuples(SMALL, SMALL)
RING = some.lists(POINT, min_size=3, max_size=7).map(tuple)
RINGS = some.lists(RING, min_size=1, max_size=2).map(tuple)
SHIFT = 4


def quadrant(x: Fraction, y: Fraction) -> int:
    """The quadrant of a vector that isn't 0, half-open."""
    if x > 0 and y >= 0:
        return 0
    if x <= 0 and y > 0:
        return 1
    return 2 if x < 0 else 3


def turns(rings: Rings, x: Fraction, y: Fraction) -> int | None:
    """How often rings go round a point, by quadrants; None where an edge holds it."""
    quarters = 0
    for ring in rings:
        for (ax, ay), (bx, by) in zip(ring, ring[1:] + ring[:1]):
            a, b = (ax - x, ay - y), (bx - x, by - y)
            cross, dot = a[0] * b[1] - a[1] * b[0], a[0] * b[0] + a[1] * b[1]
            if cross == 0 and dot <= 0:
                return None
            step = (quadrant(*b) - quadrant(*a)) % 4
            quarters += (0, 1, 2 if cross > 0 else -2, -1)[step]
    assert quarters % 4 == 0
    return quarters // 4


@given(RINGS, some.integers(-2, 26), some.integers(-2, 26))
def test_winding_is_the_number_of_turns(rings: Rings, x: int, y: int) -> None:
    expected = turns(rings, Fraction(x, 4), Fraction(y, 4))
    if expected is not None:
        assert winding(edges_of(rings), x, y, 4) == expected


@given(RINGS, RINGS, some.integers(-2, 26), some.integers(-2, 26))
def test_remainder_winds_round_what_is_left(rings: Rings, less: Rings, x: int, y: int) -> None:
    one, other = edges_of(rings), edges_of(less)
    assert winding(remainder(one, other), x, y, 4) == winding(one, x, y, 4) - winding(other, x, y, 4)


@settings(max_examples=15, deadline=None)
@given(RINGS, RINGS, some.integers(0, 12), some.integers(0, 12))
def test_permitted_is_a_limit_of_permitted_points(region: Rings, forbidden: Rings, x: int, y: int) -> None:
    near = []
    for i in range(-13, 14):
        for j in range(-13, 14):
            place = Fraction(x, 2) + Fraction(i, 2000), Fraction(y, 2) + Fraction(j, 2000)
            inside, outside = turns(region, *place), turns(forbidden, *place)
            near.append(inside is not None and outside is not None and inside > 0 and outside <= 0)
    assert permitted(region, forbidden, x, y, 2) == any(near)


def meets_inside(piece: Ring, a: tuple[int, int], b: tuple[int, int]) -> bool:
    """Whether a closed edge has a point strictly inside a convex ring: the interval of it, in fractions."""
    low, high, open_low, open_high = Fraction(0), Fraction(1), False, False
    for s, t in ring_edges(piece):
        at, to = side(s, t, a), side(s, t, b)
        if at == to:
            if at <= 0:
                return False
            continue
        cut = Fraction(at, at - to)
        if to > at and cut >= low:
            low, open_low = cut, True
        if to < at and cut <= high:
            high, open_high = cut, True
    return low < high or (low == high and not open_low and not open_high)


CONVEX = some.lists(POINT, min_size=3, max_size=8).map(lambda p: tuple(hull(p))).filter(lambda r: len(r) > 2)


@given(CONVEX, POINT, POINT)
def test_an_edge_is_clear_that_has_no_point_inside(piece: Ring, a: tuple[int, int], b: tuple[int, int]) -> None:
    assert is_convex(piece)
    if a != b:
        assert is_clear(piece, [(a, b)]) == (not meets_inside(piece, a, b))


@settings(deadline=None)
@given(CONVEX, RINGS, RINGS)
def test_a_forbid_holds_no_permitted_point_inside(piece: Ring, region: Rings, forbidden: Rings) -> None:
    inside, outside = edges_of(region), edges_of(forbidden)
    if may_forbid(piece, inside, outside, remainder(inside, outside)):
        for x in range(0, 25):
            for y in range(0, 25):
                if all(
                    side((4 * ax, 4 * ay), (4 * bx, 4 * by), (x, y)) > 0 for (ax, ay), (bx, by) in ring_edges(piece)
                ):
                    assert winding(inside, x, y, 4) <= 0 or winding(outside, x, y, 4) > 0


@given(some.lists(some.tuples(some.integers(-999, 999), some.integers(-999, 999)), min_size=1, max_size=40))
def test_a_whole_hull_holds_its_points(points: list[tuple[int, int]]) -> None:
    ring = whole_hull(points, SHIFT)
    assert is_convex(ring) and len(ring) <= 64
    assert all(holds(ring_edges(in_units(ring, SHIFT)), p) for p in points)


def test_a_whole_hull_has_at_most_64_vertices() -> None:
    """A ring of 200 vertices becomes one of 64, with at most a hundredth more area."""
    circle = [(round(90_000 * cos(i * pi / 100)), round(90_000 * sin(i * pi / 100))) for i in range(200)]
    ring = whole_hull(circle, 0)
    assert is_convex(ring) and len(ring) <= 64
    assert all(holds(ring_edges(ring), p) for p in circle)
    assert doubled_area(ring) < 1.01 * doubled_area(tuple(circle))


def made(name: str) -> tuple[Rings, Rings]:
    kind, _, size = name.partition(" ")
    if kind == "parcels":
        return parcels(1, int(size)), ()
    if kind == "islands":
        return islands(1, int(size)), ()
    return district(7, int(size))


def box_of(rings: Rings) -> tuple[int, int, int, int]:
    xs, ys = zip(*(p for ring in rings for p in ring))
    return min(xs), min(ys), max(xs), max(ys)


def failure(outer: Outer, region: Rings, forbidden: Rings, tile: tuple[int, int, int, int]) -> object:
    return first_failure(outer.permits, outer.forbids, outer.triangles, region, forbidden, tile, SHIFT)


def tiles_of(box: tuple[int, int, int, int]) -> list[tuple[int, int, int, int]]:
    """The box, its lower left quarter, and a small tile off its middle."""
    x0, y0, x1, y1 = box
    x, y = (x0 + x1) // 2, (y0 + y1) // 2
    return [box, (x0, y0, x, y), (x - (x1 - x0) // 5, y - (y1 - y0) // 7, x + 1, y + (y1 - y0) // 3)]


CASES = [
    "district 40",
    "district 300",
    pytest.param("district 1200", marks=pytest.mark.long),
    "islands 70",
    "parcels 12",
]


@pytest.mark.parametrize("plain", [False, True])
@pytest.mark.parametrize("name", CASES)
def test_pieces_hold_what_is_permitted(name: str, plain: bool) -> None:
    region, forbidden = made(name)
    regions = prepared(region, forbidden)
    random = Random(name)
    for tile in tiles_of(box_of(region)):
        outer = propose(regions, tile, SHIFT, plain)
        assert failure(outer, region, forbidden, tile) is None
        permits = [ring_edges(in_units(ring, SHIFT)) for ring in outer.permits]
        forbids = [ring_edges(in_units(ring, SHIFT)) for ring in outer.forbids]
        held = 0
        for x, y in places(random, region + forbidden, tile):
            if permitted(region, forbidden, x, y, 1):
                held += 1
                assert any(holds(piece, (x, y)) for piece in permits)
                assert not any(all(side(a, b, (x, y)) > 0 for a, b in piece) for piece in forbids)
        assert held > 20


def places(random: Random, rings: Rings, tile: tuple[int, int, int, int]) -> list[tuple[int, int]]:
    """Places of a tile: anywhere, at vertices and a unit off, on and near edges."""
    x0, y0, x1, y1 = tile
    found = [(random.randint(x0, x1), random.randint(y0, y1)) for _ in range(120)]
    edges = edges_of(rings)
    for (ax, ay), (bx, by) in random.sample(edges, min(len(edges), 60)):
        found += [(ax, ay), (ax + 1, ay), (ax, ay - 1), ((ax + bx) // 2, (ay + by) // 2)]
    return [(x, y) for x, y in found if x0 <= x <= x1 and y0 <= y <= y1]


@pytest.mark.parametrize("name", ["district 40", "parcels 12"])
def test_planted_mistakes_are_refused(name: str) -> None:
    region, forbidden = made(name)
    tile = box_of(region)
    outer = propose(prepared(region, forbidden), tile, SHIFT)
    owned = next(i for i, t in enumerate(outer.triangles) if t[3])
    a, b, c, owner = outer.triangles[owned]
    (x, y), *others = outer.permits[owner - 1]
    rest = outer.triangles[:owned] + outer.triangles[owned + 1 :]
    (bx, by) = region[0][0]
    length = 1 << SHIFT
    border = tuple((bx // length + dx, by // length + dy) for dx, dy in ((-9, -9), (9, -9), (9, 9), (-9, 9)))
    planted = {
        "a missing triangle": replace(outer, triangles=rest),
        "a doubled triangle": replace(outer, triangles=outer.triangles + (outer.triangles[owned],)),
        "a moved corner": replace(outer, triangles=rest + (((a[0] + 1, a[1]), b, c, owner),)),
        "no owner": replace(outer, triangles=rest + ((a, b, c, 0),)),
        "an owner that isn't there": replace(outer, triangles=rest + ((a, b, c, 65),)),
        "a missing permit": replace(outer, permits=outer.permits[:-1]),
        "a shrunk permit": replace(outer, permits=tuple(shrunk(ring) for ring in outer.permits)),
        "a clockwise permit": replace(outer, permits=(outer.permits[0][::-1],) + outer.permits[1:]),
        "a forbid over a border": replace(outer, forbids=outer.forbids[:63] + (border,)),
        "a forbid on permitted ground": replace(outer, forbids=(outer.permits[0],)),
        "too many forbids": replace(outer, forbids=(border,) * 65),
    }
    assert failure(outer, region, forbidden, tile) is None
    for word, other in planted.items():
        assert failure(other, region, forbidden, tile) is not None, word


def shrunk(ring: Ring) -> Ring:
    """A ring moved towards its middle by about a tenth."""
    x, y = sum(x for x, _ in ring) // len(ring), sum(y for _, y in ring) // len(ring)
    return tuple((x + (px - x) * 9 // 10, y + (py - y) * 9 // 10) for px, py in ring)


@pytest.mark.parametrize("plain", [False, True])
@pytest.mark.parametrize("seed", range(6))
def test_triangles_are_the_polygon(seed: int, plain: bool) -> None:
    region, _ = district(seed, 60 + 40 * seed, holes=seed)
    polygons, alone = polygons_of(list(region))
    assert not alone
    for polygon in polygons:
        triangles = triangulate(polygon, plain)
        edges = [edge for t in triangles for edge in ring_edges(t)]
        assert not remainder(edges, edges_of(tuple(polygon)))
        assert all(doubled_area(t) >= 0 for t in triangles)
        assert sum(doubled_area(t) for t in triangles) == sum(doubled_area(r) for r in polygon)


@pytest.mark.parametrize("name", ["district 40", "district 300", "parcels 12", "parcels 30", "islands 70"])
def test_triangles_without_earcut_are_as_good(name: str) -> None:
    """None lies over another, also where holes touch each other and the border, and the pieces waste as little."""
    region, _ = made(name)
    polygons, alone = polygons_of(dissolve(region))
    triangles = [triangle for polygon in polygons for triangle in triangulate(polygon, True)]
    assert not alone and all(doubled_area(triangle) >= 0 for triangle in triangles)
    assert sum(map(doubled_area, triangles)) == sum(map(doubled_area, region))
    regions, tile = prepared(region, ()), box_of(region)
    plain, other = (sum(map(doubled_area, propose(regions, tile, SHIFT, way).permits)) for way in (True, False))
    assert plain < 1.03 * other


@settings(max_examples=15, deadline=None)
@given(RINGS, some.integers(0, 5), some.integers(0, 5), some.integers(1, 4), some.integers(1, 4), some.booleans())
def test_any_rings_are_held_or_refused(region: Rings, x: int, y: int, w: int, h: int, plain: bool) -> None:
    """Rings that cross themselves, turn back and go round twice: their chain is kept all the same."""
    large = tuple(tuple((px << 8, py << 8) for px, py in ring) for ring in region)
    tile = (x << 8, y << 8, (x + w) << 8, (y + h) << 8)
    rings, beyond, slivers = within(list(large), tile)
    chain = [edge for t in beyond + slivers for edge in ring_edges(t)] + edges_of(tuple(rings))
    assert not remainder(chain, edges_of(large))
    outer = propose(prepared(large, ()), tile, SHIFT, plain)
    assert failure(outer, large, (), tile) is None


def test_an_empty_tile_has_no_permit() -> None:
    region, forbidden = made("district 40")
    tile = (5_000_000, 5_000_000, 5_000_100, 5_000_100)
    outer = propose(prepared(region, forbidden), tile, SHIFT)
    assert outer.permits == () and failure(outer, region, forbidden, tile) is None


@pytest.mark.parametrize("name", CASES)
def test_a_cover_text_passes_in_coarser_units(name: str) -> None:
    """Its pieces pass on what the text has: rings as read with 20 bits more, rounded to 2^31."""
    region, forbidden = (finer(rings, 20) for rings in made(name))
    x0, y0, x1, y1 = box_of(region)
    for tile in ((x0, y0, x1, y1), (x0, y0, (x0 + x1) // 2, (y0 + 2 * y1) // 3)):
        outer = propose(prepared(region, forbidden), tile, SHIFT + 20)
        text = cover_text(Cover(region, forbidden, outer.triangles, tile, SHIFT + 20), outer.permits, "siting 1\nend\n")
        read = [line.split() for line in text.split("\n")]
        shift = int(read[1][1])
        rings = {word: tuple(points(line) for line in read if line[:1] == [word]) for word in ("region", "forbidden")}
        triangles = [(*points(line[:7]), int(line[7])) for line in read if line[:1] == ["triangle"]]
        box = tuple(int(word) for word in read[2][1:])
        assert read[0] == ["cover", "1"] and text.endswith("end\nsiting 1\nend\n")
        assert all(abs(int(word)) <= 1 << 31 for line in read for word in line[1:])
        pieces = outer.permits, outer.forbids, triangles
        assert first_failure(*pieces, rings["region"], rings["forbidden"], box, shift) is None


def finer(rings: Rings, bits: int) -> Rings:
    """Rings in smaller units, moved by less than one of theirs, so that rounding moves them."""
    random = Random(bits)
    return tuple(tuple(((x << bits) + random.randint(0, 9999), (y << bits) - 77) for x, y in ring) for ring in rings)


def points(line: list[str]) -> Ring:
    """The points of a line, after its first word."""
    values = [int(word) for word in line[1:]]
    return tuple(zip(values[::2], values[1::2]))
