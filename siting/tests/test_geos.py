"""Areas by GDAL's GEOS, against shapely's."""

from random import Random

import pytest
from shapely.geometry import MultiPolygon, Point, Polygon
from shapely.ops import nearest_points, unary_union
from siting import geos
from siting.layers import is_counter_clockwise, turned

RING = [(0.0, 0.0), (9.0, 0.0), (9.0, 9.0), (0.0, 9.0)]
HOLE = [(2.0, 2.0), (2.0, 4.0), (4.0, 4.0), (4.0, 2.0)]
ALONE = [(20.0, 0.0), (25.0, 0.0), (22.0, 5.0)]


def test_sums_of_areas_are_shapelys() -> None:
    random = Random(6)
    discs = [Point(random.uniform(0, 9), random.uniform(0, 9)).buffer(random.uniform(0.5, 2)) for _ in range(12)]
    ours = [geos.areas([[list(disc.exterior.coords)[:-1]]]) for disc in discs]
    union, region = unary_union(discs), Polygon(RING, [HOLE])
    assert geos.joined(ours).Area() == pytest.approx(union.area, rel=1e-12)
    assert geos.less(geos.areas([[RING, HOLE]]), geos.joined(ours)).Area() == pytest.approx(
        region.difference(union).area
    )
    assert geos.grown(geos.areas([[RING, HOLE]]), -0.5).Area() == pytest.approx(region.buffer(-0.5).area, rel=1e-12)
    assert geos.parts(geos.joined([])) == []


def test_rings_turn_outer_ones_left() -> None:
    rings = list(turned(geos.areas([[RING[::-1], HOLE[::-1]], [ALONE]])))
    assert [is_counter_clockwise(ring) for ring in rings] == [True, False, True]
    assert [set(ring) for ring in rings] == [set(RING), set(HOLE), set(ALONE)]


def test_nearest_places() -> None:
    area, random = geos.areas([[RING, HOLE], [ALONE]]), Random(8)
    shape = MultiPolygon([(RING, [HOLE]), (ALONE, [])])
    for _ in range(200):
        x, y = random.uniform(-5, 30), random.uniform(-5, 14)
        wanted = nearest_points(shape, Point(x, y))[0]
        assert geos.nearest(area, x, y) == pytest.approx((wanted.x, wanted.y), abs=1e-12)
    assert shape.contains(Point(geos.inner_place(area)))


def test_faults_are_told_and_nothing_is_written(capfd: pytest.CaptureFixture[str]) -> None:
    assert geos.fault_of(geos.areas([[RING, HOLE]])) is None
    assert (
        geos.fault_of(geos.areas([[[(0.0, 0.0), (4.0, 4.0), (4.0, 0.0), (0.0, 4.0)]]])) == "self-intersection at 2, 2"
    )
    with pytest.raises(geos.GeosFault, match="Corrupt data"):
        geos.read("POLYGON ((0 0, 1 x")
    assert capfd.readouterr() == ("", "")
