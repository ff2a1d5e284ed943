"""Distances on the ground: tested against PROJ's geodesics, and no permitted point costs less than a bound."""

from fractions import Fraction
from math import cos, hypot, radians, sin
from random import Random

import pyproj
import pytest
from siting.exact.cost import to_towns
from siting.exact.frame import ENDLESS, Town
from siting.exact.ground import (
    MISS,
    Ellipsoid,
    Ground,
    Middle,
    beside,
    bend,
    check_ways,
    ground_cost,
    radii,
)
from siting.grounds import Grounds
from siting.problem import Problem
from siting.program import BUILT, Program
from siting.questions import QUESTIONS
from siting.tiles import Limits, Search

from test_tiles import PROGRAM, is_inside

WGS84 = Ellipsoid(6378137.0, 1 / 298.257223563)
SHAPES = ["WGS84", "GRS80", "bessel", "clrk66", "airy", "sphere"]


def way_of(geod: pyproj.Geod, start: tuple[float, float], end: tuple[float, float]) -> tuple[float, float]:
    """By PROJ: the way in metres to the east and to the north."""
    turn, _, length = geod.inv(*start, *end)
    return length * sin(radians(turn)), length * cos(radians(turn))


def pairs(random: Random, count: int) -> list[tuple[tuple[float, float], tuple[float, float]]]:
    """Pairs of places near to each other and far apart, along meridians, on the equator and over the poles."""
    found = []
    for number in range(count):
        start = random.uniform(-180, 180), random.choice([random.uniform(-89, 89), 0.0])
        if number % 3 == 0:
            end = start[0] + random.gauss(0, 1), max(-90.0, min(90.0, start[1] + random.gauss(0, 1)))
        elif number % 3 == 1:
            end = random.uniform(-180, 180), random.uniform(-89.9, 89.9)
        else:
            end = start[0] + random.choice([0, 180, 90]), random.choice([start[1], 0.0, 60.0])
        found.append((start, end))
    return found


@pytest.mark.parametrize("name", SHAPES)
def test_ways_are_those_of_proj(name: str) -> None:
    geod = pyproj.Geod(ellps=name)
    shape = Ellipsoid(geod.a, geod.f)
    for start, end in pairs(Random(name), 1500):
        way = way_of(geod, start, end)
        if hypot(*way) < 9.9e6:
            assert beside(shape, start, end, way) < 5e-6


def test_a_wrong_way_is_found() -> None:
    geod = pyproj.Geod(ellps="WGS84")
    start, end = (8.0, 50.0), (11.0, 52.0)
    east, north = way_of(geod, start, end)
    towns = to_towns([end], [Fraction(1)], [None])
    check_ways(WGS84, start, towns, [(east, north)])
    for wrong in ((east + 2 * MISS, north), (east, north - 2 * MISS), (-east, north), (0.0, 0.0)):
        assert beside(WGS84, start, end, wrong) > MISS
        with pytest.raises(ValueError, match="isn't the shortest"):
            check_ways(WGS84, start, towns, [wrong])
    around = 40_007_862.9  # a meridian: the way round leads to its start, and isn't the shortest
    with pytest.raises(ValueError, match="isn't the shortest"):
        check_ways(WGS84, start, to_towns([start], [Fraction(1)], [None]), [(0.0, around)])


def test_the_cost_is_that_of_geodesics() -> None:
    random, geod = Random(5), pyproj.Geod(ellps="WGS84")
    places = [(random.uniform(5, 15), random.uniform(45, 55)) for _ in range(200)]
    weights = [Fraction(random.randint(-9, 99), 7) for _ in places]
    cutoffs = [random.choice([None, Fraction(300_000)]) for _ in places]
    towns, site = to_towns(places, weights, cutoffs), (9.5, 50.25)
    ways = [way_of(geod, site, place) for place in places]
    for kind, total in (("sum", sum), ("max", max)):
        terms = [float(w) * min(hypot(*way), float(c or 1e12)) for way, w, c in zip(ways, weights, cutoffs)]
        low, high = ground_cost(kind, towns, WGS84, site, ways)
        assert low < total(terms) < high and high - low < Fraction(3, 100) * sum(map(abs, weights))


def middle_of(longitude: float, latitude: float) -> Middle:
    across, along = radii(WGS84, latitude)
    degree = Fraction(radians(across * cos(radians(latitude)))), Fraction(radians(along))
    return Middle(Fraction(longitude), Fraction(latitude), *degree)


@pytest.mark.parametrize("latitude", [0.0, 3.0, -25.0, 47.5, 65.0, 80.0])
@pytest.mark.parametrize("size", [0.05, 0.8, 4.0])
def test_planes_differ_by_no_more_than_is_charged(latitude: float, size: float) -> None:
    """Of a town that pulls, and of one that pushes, at places of a tile and towns near and far."""
    random, geod = Random(f"{latitude} {size}"), pyproj.Geod(ellps="WGS84")
    middle = middle_of(10.0, latitude)
    bent = bend(WGS84, middle, (10 - size, latitude - size, 10 + size, latitude + size))
    tightest = 0.0
    for _ in range(400):
        place = 10 + random.uniform(-size, size), latitude + random.choice([-1, 1, random.uniform(-1, 1)]) * size
        x, y = (place[0] - 10) * float(middle.east), (place[1] - latitude) * float(middle.north)
        spread = random.choice([size, 10 * size, 60])
        town = random.gauss(10, spread), max(-89.0, min(89.0, random.gauss(latitude, spread / 2)))
        a, b = way_of(geod, (10.0, latitude), town)
        reach = hypot(x, y)
        if hypot(a, b) + reach > 9.9e6:
            continue
        flat, ground = hypot(a - x, b - y), geod.inv(*place, *town)[2]
        for weight, excess in ((1, flat - ground), (-1, ground - flat)):
            charged = Ground(WGS84, bent, [Town(round(a), round(b), weight, ENDLESS)], Fraction(1)).of(int(reach) + 1)
            assert excess <= charged
            tightest = max(tightest, excess / charged)
    assert tightest > (0.2 if size < 4 and abs(latitude) > 20 else 0.0)  # no more than some times too much


def test_one_towns_charge_is_that_of_all_where_there_is_no_other() -> None:
    towns = [Town(300_000, 40_000, 7, ENDLESS)]
    ground = Ground(WGS84, 1e-7, towns, Fraction(1))
    for reach in (0, 1000, 100_000, 200_000):
        assert abs(ground.of_one(7, 300_000, 40_000, 0, reach) - ground.of(reach)) <= 1
    assert ground.of(10_000_000) > 7 * 10_000_000  # beyond what is proved: no less than the distances themselves


def test_planes_that_are_refused() -> None:
    middle = middle_of(10.0, 50.0)
    for box in ((10.0, 50.0, 11.0, 85.5), (-175.0, 0.0, 175.0, 51.0), (10.0, -80.0, 100.0, 80.0)):
        with pytest.raises(ValueError, match="too large, or too near to a pole"):
            bend(WGS84, middle, box)
    with pytest.raises(ValueError, match="isn't the Earth's"):
        bend(Ellipsoid(6378137.0, 0.01), middle, (9.0, 49.0, 11.0, 51.0))
    with pytest.raises(ValueError, match="isn't that of its middle"):
        bend(WGS84, middle._replace(east=middle.east * Fraction(100_001, 100_000)), (9.0, 49.0, 11.0, 51.0))


# whole questions

RING = ((8.0, 50.0), (10.0, 50.2), (10.5, 51.0), (9.0, 50.6), (8.2, 51.1))
FOREST = ((9.1, 50.1), (9.8, 50.3), (9.6, 50.9), (9.2, 50.5))


def ground_problem(question: str, count: int, reach: int | None, seed: int) -> Problem:
    random = Random(seed)
    places = [(random.uniform(7.5, 11), random.uniform(49.5, 51.5)) for _ in range(count)]
    sign = QUESTIONS[question].sign
    weights = [Fraction((sign or random.choice([1, 1, -1])) * random.randint(1, 999)) for _ in places]
    towns = to_towns(places, weights, [None if reach is None else Fraction(reach)] * count)
    return Problem(QUESTIONS[question], towns, [""] * count, [RING], [FOREST], Fraction(1), WGS84)


def permitted_places(random: Random, search: Search, trials: int) -> list[tuple[float, float]]:
    """In the middle, near the site, at vertices and along borders; half of them by a hair aside."""
    site, found = search.site, []
    assert site is not None
    while len(found) < trials:
        a, b = random.choice(list(zip(RING, RING[1:] + RING[:1])) + list(zip(FOREST, FOREST[1:] + FOREST[:1])))
        along = random.choice([0.0, random.random()])
        border = a[0] + along * (b[0] - a[0]), a[1] + along * (b[1] - a[1])
        hair = random.choice([0.0, 1e-12, 1e-7])
        near = random.gauss(site.x, 0.02), random.gauss(site.y, 0.02)
        wide = random.uniform(8, 10.5), random.uniform(50, 51.1)
        x, y = random.choice([(border[0] + hair, border[1] - hair), near, wide])
        if is_inside(list(RING), x, y) and not is_inside(list(FOREST), x, y):
            found.append((x, y))
    return found


CASES = [("near", None), ("near", 60_000), ("near-all", None), ("far", None), ("far", 90_000), ("far-all", None)]
CASES += [("mixed", None), ("mixed", 50_000)]


def ended(question: str, count: int, reach: int | None, seed: int) -> Search:
    """A search that has ended."""
    problem = ground_problem(question, count, reach, seed)
    tiles = 40 if BUILT.exists() else 5
    search = Search(problem, Program(PROGRAM), Limits(Fraction(1, 10), None, tiles, 1), lambda text: None)
    search.go()
    return search


@pytest.mark.parametrize("question, reach", CASES)
def test_no_permitted_point_costs_less_on_the_ground(question: str, reach: int | None) -> None:
    count = 40 if BUILT.exists() else 12
    search = ended(question, count, reach, seed=count)
    bound, site = search.bound(), search.site
    assert bound is not None and site is not None and bound <= site.high
    assert search.planes.cost(site.x, site.y) == (site.low, site.high)
    if BUILT.exists():
        assert site.high - bound <= abs(site.high) / 1000
    for place in permitted_places(Random(question), search, 500):
        assert search.landscape.cost(*place) >= bound


def test_without_a_charge_planes_are_too_long() -> None:
    """What a plane shows of the cost is more than it is on the ground, and no more than is charged."""
    problem = ground_problem("near", 12, None, 3)
    planes = Grounds(problem, WGS84, None)
    plane = planes.about(planes.whole, None)
    random, excess = Random(1), 0.0
    for _ in range(300):
        place = random.uniform(8, 10.5), random.uniform(50, 51)
        x, y = plane.here(*place)
        flat, ground = plane.landscape.cost(x, y), planes.landscape.cost(*place)
        reach = int(hypot(x, y) / float(plane.frame.grid_unit())) + 1
        assert flat - ground <= plane.ground.of(reach) * plane.frame.grid_unit() / problem.towns.share
        excess = max(excess, flat - ground)
    assert excess > 1000
