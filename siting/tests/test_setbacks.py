"""Areas kept off: they hold all that is nearer than asked, and little more."""

from math import hypot
from pathlib import Path
from random import Random

import pytest
from shapely.geometry import Point, Polygon
from siting.layers import by_area, read_rings
from siting.make import Wanted, make
from siting.setbacks import EXCESS, around, grown

FOOT = 0.3048
SQUARE = ((0.0, 0.0), (9000.0, 0.0), (9000.0, 9000.0), (0.0, 9000.0))


def held(rings: list[tuple[tuple[float, float], ...]], x: float, y: float) -> bool:
    """By the crossings of a ray with the rings, apart from the code under test."""
    crossings = 0
    for ring in rings:
        for (ax, ay), (bx, by) in zip(ring, ring[1:] + ring[:1]):
            if (ay > y) != (by > y) and x < ax + (y - ay) * (bx - ax) / (by - ay):
                crossings += 1
    return crossings % 2 == 1


@pytest.mark.parametrize("unit", [1.0, FOOT])
def test_around_towns(unit: float) -> None:
    random = Random(2)
    towns = [(random.uniform(-2000, 11000), random.uniform(-2000, 11000)) for _ in range(60)]
    discs = around(towns, 700, unit, [SQUARE])
    for _ in range(3000):
        x, y = random.uniform(0, 9000), random.uniform(0, 9000)
        way = min(hypot(x - a, y - b) for a, b in towns) * unit
        assert held(discs, x, y) or way > 700
        assert not held(discs, x, y) or way < 704


def test_around_far_towns_is_nothing() -> None:
    assert around([(-5000.0, 0.0), (1e7, 1e7)], 700, 1.0, [SQUARE]) == []


@pytest.mark.parametrize("seed, metres", [(1, 30), (2, 400), (3, 2500)])
def test_grown_areas(tmp_path: Path, seed: int, metres: float) -> None:
    make(Wanted(seed, towns=1, vertices=300, lakes=3, forests=5), tmp_path)
    rings = read_rings(str(tmp_path / "district.geojson")).rings  # its lakes have islands
    areas = [Polygon(outer, holes) for outer, *holes in by_area(rings)]
    around_all = grown(rings, metres, 1.0)
    random = Random(seed)
    corners = [corner for ring in rings for corner in ring]
    inside = 0
    for _ in range(2000):
        x, y = (value + random.gauss(0, 1.2 * metres) for value in random.choice(corners))
        way = min(area.distance(Point(x, y)) for area in areas)
        inside += held(around_all, x, y)
        assert held(around_all, x, y) or way > metres
        assert not held(around_all, x, y) or way < metres * EXCESS + 0.01
    assert 0 < inside < 2000
