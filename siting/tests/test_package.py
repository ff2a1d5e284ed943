"""siting.gpkg: layer by layer as GDAL reads it, its styles, and its bytes."""

from fractions import Fraction
from math import hypot
from pathlib import Path
from random import Random
from typing import Any
from xml.etree import ElementTree

import numpy as np
import pyproj
import pytest
from osgeo import ogr
from shapely import wkb
from shapely.geometry import Point
from siting.exact.cost import cost
from siting.geopackage import Layer, write_package
from siting.near import NearSet
from siting.package import below, layers_of
from siting.squares import bounded_squares
from siting.tiles import Search

GRID = pyproj.CRS.from_epsg(25832)


@pytest.fixture(scope="module")
def layers(search: Search, near: list[NearSet]) -> list[Layer]:
    row = {"question": "mixed", "cost": 7.0, "bound": 6.5, "gap_percent": 7.7}
    return layers_of(search, near, bounded_squares(search), row)


@pytest.fixture(scope="module")
def package(layers: list[Layer], tmp_path_factory: pytest.TempPathFactory) -> Path:
    folder = tmp_path_factory.mktemp("package")
    write_package(folder / "siting.gpkg", layers, GRID)
    assert [path.name for path in folder.iterdir()] == ["siting.gpkg"]  # it is closed
    return folder / "siting.gpkg"


def features(package: Path, name: str) -> list[tuple[dict[str, Any], Any]]:
    """The fields and the shape of each feature."""
    source = ogr.Open(str(package))
    shapes = ((feature, feature.GetGeometryRef()) for feature in source.GetLayerByName(name))
    return [
        (feature.items(), None if shape is None else wkb.loads(bytes(shape.ExportToWkb()))) for feature, shape in shapes
    ]


def test_layers_and_their_system(package: Path, layers: list[Layer]) -> None:
    source = ogr.Open(str(package))
    names = [source.GetLayer(number).GetName() for number in range(source.GetLayerCount())]
    assert names[:6] == ["site", "near_sets", "not_permitted", "towns", "squares", "pieces"]
    for layer in layers:
        found = source.GetLayerByName(layer.name)
        assert found.GetSpatialRef().GetAuthorityCode(None) == "25832"
        assert found.GetMetadataItem("DESCRIPTION") == layer.description
        assert found.GetFeatureCount() == len(layer.rows) > 0
        shapes = [shape for _, shape in features(package, layer.name)]
        assert all(shape.is_valid for shape in shapes)
        x0, x1, y0, y1 = found.GetExtent()
        boxes = np.array([shape.bounds for shape in shapes])
        assert [x0, y0, x1, y1] == pytest.approx([*boxes.min(axis=0)[:2], *boxes.max(axis=0)[2:]], rel=1e-12)


def test_site_and_towns(package: Path, search: Search) -> None:
    ((fields, shape),) = features(package, "site")
    x, y = shape.x, shape.y
    assert search.site is not None and (x, y) == (search.site.x, search.site.y)
    assert fields == {"question": "mixed", "cost": 7.0, "bound": 6.5, "gap_percent": 7.7}
    rows = features(package, "towns")
    assert sum(row["share_percent"] for row, _ in rows) == pytest.approx(100)
    for at, (row, shape) in enumerate(rows):
        place = search.problem.towns.places[at]
        assert (shape.x, shape.y) == place
        assert row["name"] == f"<town {at}>" and row["weight"] == search.problem.towns.weights[at]
        assert row["metres"] == pytest.approx(hypot(place[0] - x, place[1] - y))


def test_near_sets_are_nested_and_hold_permitted_places(package: Path, search: Search, near: list[NearSet]) -> None:
    rows = features(package, "near_sets")
    assert [row["percent"] for row, _ in rows] == [20, 10, 5, 2, 1]
    for (_, large), (_, small) in zip(rows, rows[1:]):
        assert small.difference(large).area == 0
    for (row, shape), found in zip(rows, reversed(near)):
        assert row["square_metres"] == float(found.square_metres(search.planes)) == pytest.approx(shape.area, rel=1e-12)
    ((_, barred),), random = features(package, "not_permitted"), Random(3)
    assert search.site is not None
    inside = [0, 0, 0, 0, 0]
    for _ in range(400):
        place = random.uniform(0, 8000), random.uniform(0, 8000)
        point = Point(place)
        more = (cost("sum", search.problem.towns, *place)[1] - search.site.high) / abs(search.site.high) * 100
        for at, (row, shape) in enumerate(rows):
            if more <= row["percent"] and not barred.intersects(point):
                inside[at] += 1
                assert shape.intersects(point)
    assert inside[0] > 0


def test_squares_have_bounds_that_hold(package: Path, search: Search) -> None:
    bound, rows, random = search.bound(), features(package, "squares"), Random(5)
    assert bound is not None and min(row["bound"] for row, _ in rows) <= bound
    assert min(found.value for found in bounded_squares(search)) * search.unit <= bound
    tried = 0
    for row, shape in random.sample(rows, min(300, len(rows))):
        x0, y0, x1, y1 = shape.bounds
        for _ in range(3):
            x, y = random.uniform(x0, x1), random.uniform(y0, y1)
            if 0 < x < 8000 and 0 < y < 5000 and not (1000 <= x <= 3000 and y <= 2000):
                tried += 1
                assert cost("sum", search.problem.towns, x, y)[1] >= row["bound"]
    assert tried > 50


def test_styles_are_whole(package: Path) -> None:
    rows = [row for row, _ in features(package, "layer_styles")]
    assert {row["f_table_name"] for row in rows} == {"site", "near_sets", "not_permitted", "towns", "squares", "pieces"}
    kinds = {row["f_table_name"]: ElementTree.fromstring(row["styleQML"]) for row in rows if row["useAsDefault"]}
    assert len(kinds) == 6
    renderers = {name: style.find("renderer-v2") for name, style in kinds.items()}
    assert all(renderer is not None for renderer in renderers.values())
    types = {name: renderer.get("type") for name, renderer in renderers.items() if renderer is not None}
    assert types["near_sets"] == "categorizedSymbol" and types["squares"] == "graduatedSymbol"
    assert types["pieces"] == "nullSymbol" and types["site"] == "singleSymbol"
    star = kinds["site"].find(".//layer/Option/Option[@name='name']")
    assert star is not None and star.get("value") == "star"
    near = kinds["near_sets"]
    assert [entry.get("value") for entry in near.iter("category")] == ["20", "10", "5", "2", "1"]
    assert len(list(near.iter("symbol"))) == 5


def test_the_same_layers_give_the_same_bytes(layers: list[Layer], package: Path, tmp_path: Path) -> None:
    write_package(tmp_path / "again.gpkg", layers, GRID)
    assert (tmp_path / "again.gpkg").read_bytes() == package.read_bytes()


def test_a_plane_without_a_system_and_without_a_site(search: Search, tmp_path: Path) -> None:
    found = layers_of(search, [], bounded_squares(search), None)
    write_package(tmp_path / "bare.gpkg", found, None)
    assert [len(layer.rows) > 0 for layer in found] == [False, False, True, True, True, True]
    assert features(tmp_path / "bare.gpkg", "site") == []
    source = ogr.Open(str(tmp_path / "bare.gpkg"))
    assert source.GetLayerByName("towns").GetSpatialRef().GetAuthorityCode(None) is None


@pytest.mark.parametrize("value", [Fraction(1, 3), Fraction(-1, 3), Fraction(5), Fraction(10**30 + 1)])
def test_numbers_are_rounded_down(value: Fraction) -> None:
    assert below(value) <= value
