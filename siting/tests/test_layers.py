"""Layers as they stand in files: the very doubles, what is left out, and what is refused."""

import json
from fractions import Fraction
from math import hypot, pi
from pathlib import Path
from random import Random

import pytest
from osgeo import ogr, osr
from siting.layers import read_points, read_rings
from siting.questions import Refused

SQUARE = "((0 0, 9 0, 9 9, 0 9, 0 0))"
DRIVERS = {"gpkg": "GPKG", "shp": "ESRI Shapefile", "geojson": "GeoJSON"}


def write(path: Path, shapes: list[str | None], epsg: int | None = 25832, layer: str = "layer") -> str:
    """Writes texts of geometries as a layer, with their number and a name as fields."""
    name = DRIVERS[path.suffix[1:]]
    source = ogr.Open(str(path), 1) if path.exists() else ogr.GetDriverByName(name).CreateDataSource(str(path))
    system = osr.SpatialReference() if epsg else None
    if system:
        system.ImportFromEPSG(epsg)
    written = source.CreateLayer(layer, system, ogr.wkbUnknown)
    fill(written, shapes)
    return str(path)


def fill(layer: ogr.Layer, shapes: list[str | None]) -> None:
    layer.CreateField(ogr.FieldDefn("number", ogr.OFTInteger64))
    layer.CreateField(ogr.FieldDefn("name", ogr.OFTString))
    for number, shape in enumerate(shapes, 1):
        feature = ogr.Feature(layer.GetLayerDefn())
        if number != 2:
            feature["number"] = number
        feature["name"] = f"Straße {number}"
        if shape is not None:
            feature.SetGeometry(ogr.CreateGeometryFromWkt(shape))
        layer.CreateFeature(feature)


@pytest.mark.parametrize("suffix", ["gpkg", "geojson"])
def test_points_are_the_very_doubles(tmp_path: Path, suffix: str) -> None:
    random = Random(suffix)
    places = [(random.uniform(4e5, 6e5), random.uniform(5e6, 6e6)) for _ in range(300)]
    if suffix == "gpkg":
        source = write(tmp_path / "towns.gpkg", [f"POINT ({x!r} {y!r})" for x, y in places])
    else:
        features = [{"type": "Feature", "properties": {"number": 1}, "geometry": point(*place)} for place in places]
        source = str(tmp_path / "towns.geojson")
        Path(source).write_text(json.dumps({"type": "FeatureCollection", "features": features}))
    points = read_points(source, ["number"])
    assert list(zip(points.x, points.y)) == places and len(points.fields["number"]) == 300


def point(x: float, y: float) -> dict[str, object]:
    return {"type": "Point", "coordinates": [x, y]}


def test_points_with_heights_and_without_a_place(tmp_path: Path) -> None:
    shapes = ["POINT Z (1.5 2.25 7)", "POINT (3 4)", None, "POINT EMPTY", "MULTIPOINT ((5 6))", "POINT M (7 8 1)"]
    points = read_points(write(tmp_path / "towns.gpkg", shapes), ["number", "name"])
    assert (points.x, points.y) == ([1.5, 3.0, 5.0, 7.0], [2.25, 4.0, 6.0, 8.0])
    assert points.fields == {"number": [1, None, 5, 6], "name": [f"Straße {n}" for n in (1, 2, 5, 6)]}
    assert points.skipped == {"no geometry": 2} and points.unit == 1


def test_table_with_semicolons(tmp_path: Path) -> None:
    path = tmp_path / "towns.csv"
    path.write_text("\ufeffName;People;X;Y\n\nÄ;1/3;0.1;1e3\nB;;;\n", encoding="utf-8")
    points = read_points(str(path), ["People"], "EPSG:25832")
    assert (points.x, points.y) == ([0.1], [1000.0]) and points.fields == {"People": ["1/3"]}
    assert points.skipped == {"no geometry": 1} and points.crs is not None and points.crs.to_epsg() == 25832


def test_table_in_degrees_and_in_text(tmp_path: Path) -> None:
    (tmp_path / "a.csv").write_text("lon,lat\n8.5,50.25\n")
    (tmp_path / "b.csv").write_text('id,wkt\n1,"POLYGON ((0 0, 0 9, 9 9, 9 0, 0 0), (1 1, 2 1, 2 2, 1 1))"\n')
    points = read_points(str(tmp_path / "a.csv"))
    assert (points.x, points.y, points.unit) == ([8.5], [50.25], None)
    outer, hole = read_rings(str(tmp_path / "b.csv")).rings
    assert set(outer) == {(0, 0), (9, 0), (9, 9), (0, 9)} and doubled(outer) == 162
    assert set(hole) == {(1, 1), (2, 1), (2, 2)} and doubled(hole) == -1


def doubled(ring: tuple[tuple[float, float], ...]) -> float:
    return sum(a[0] * b[1] - a[1] * b[0] for a, b in zip(ring, ring[1:] + ring[:1]))


@pytest.mark.parametrize("suffix", DRIVERS)
def test_areas_with_islands(tmp_path: Path, suffix: str) -> None:
    hole = "(1 1, 8 1, 8 8, 1 8, 1 1)"
    shapes = [f"MULTIPOLYGON (((0 0, 9 0, 9 9, 0 9, 0 0), {hole}), ((2 2, 3 2, 3 3, 2 2)))", f"POLYGON {SQUARE}"]
    layer = read_rings(write(tmp_path / f"region.{suffix}", shapes, 2263))
    assert sorted(map(doubled, layer.rings)) == [-98, 1, 162, 162]
    assert layer.crs is not None and layer.crs.to_epsg() == 2263 and layer.unit == Fraction(1200, 3937)


def test_repeated_vertices_stand_once(tmp_path: Path) -> None:
    layer = read_rings(write(tmp_path / "a.gpkg", ["POLYGON ((0 0, 9 0, 9 0, 9 9, 0 0, 0 0))"]))
    assert sorted(layer.rings[0]) == [(0, 0), (9, 0), (9, 9)]


BROKEN = [
    ("POLYGON ((0 0, 9 9, 9 0, 0 9, 0 0))", "self-intersection at 4.5, 4.5"),
    ("POLYGON ((0 0, 9 0, 9 9, 20 20, 9 9, 0 9, 0 0))", "self-intersection at 9, 9"),
    (f"POLYGON ({SQUARE[1:-1]}, (20 20, 21 20, 21 21, 20 20))", "hole lies outside shell at 20, 20"),
    (f"MULTIPOLYGON ({SQUARE}, ((5 5, 20 5, 20 20, 5 5)))", "self-intersection at"),
    ("POLYGON ((0 0, 9 0, 9 9, 0 9))", "is invalid"),
    ("POLYGON ((0 0, 9 0, 0 0))", "is invalid"),
    ("POLYGON ((0 0, 9 0, 1e999 9, 0 9, 0 0))", "no number"),
    ("POLYGON EMPTY", "is empty"),
    (None, "is empty"),
    ("LINESTRING (0 0, 9 9)", "is a LINESTRING"),
]


@pytest.mark.parametrize("shape, said", BROKEN)
def test_broken_areas_are_refused(tmp_path: Path, shape: str | None, said: str) -> None:
    source = write(tmp_path / "a.gpkg", [f"POLYGON {SQUARE}", shape])
    with pytest.raises(Refused, match=f"feature 2.*{said}"):
        read_rings(source)


def test_arcs_are_made_straight(tmp_path: Path) -> None:
    arcs = "CURVEPOLYGON (COMPOUNDCURVE (CIRCULARSTRING (0 100, 100 0, 0 -100), (0 -100, -500 0, 0 100)))"
    layer = read_rings(write(tmp_path / "a.gpkg", [f"POLYGON {SQUARE}", arcs]))
    assert 0 < layer.off < 0.01 and "has arcs" in layer.notes[0]
    half = [place for place in layer.features[1][0] if place[0] > 1]
    assert len(half) > 300 and all(abs(hypot(x, y) - 100) < 1e-9 for x, y in half)
    area = doubled(layer.features[1][0]) / 2
    assert 0 < 100**2 * pi / 2 + 500 * 100 - area < layer.off * 100 * pi
    assert read_rings(write(tmp_path / "b.gpkg", [f"POLYGON {SQUARE}"])).off == 0


def test_encodings(tmp_path: Path) -> None:
    texts = {"utf-8": (), "utf-8-sig": (), "latin-1": ("read as Latin-1",)}
    for encoding, said in texts.items():
        (tmp_path / "a.csv").write_bytes("x,y,name\n1,2,Köln\n".encode(encoding))
        points = read_points(str(tmp_path / "a.csv"), ["name"])
        assert points.fields == {"name": ["Köln"]} and [note[-15:] for note in points.notes] == list(said)
    for encoding, name in (("CP1251", "Москва"), ("ISO-8859-1", "Köln"), ("UTF-8", "東京")):
        path = tmp_path / f"{encoding}.shp"
        source = ogr.GetDriverByName("ESRI Shapefile").CreateDataSource(str(path))
        layer = source.CreateLayer(encoding, None, ogr.wkbPoint, [f"ENCODING={encoding}"])
        layer.CreateField(ogr.FieldDefn("name", ogr.OFTString))
        feature = ogr.Feature(layer.GetLayerDefn())
        feature["name"] = name
        feature.SetGeometry(ogr.CreateGeometryFromWkt("POINT (1 2)"))
        layer.CreateFeature(feature)
        del feature, layer, source
        assert path.with_suffix(".cpg").exists() and read_points(str(path), ["name"]).fields == {"name": [name]}


COLUMNS = [
    ("x,y\n1,2\n", None),
    ("Y;id;X\n2;7;1\n", None),
    ("Easting,Northing\n1,2\n", None),
    ("lat\tlon\n2\t1\n", 4326),
    ("longitude,latitude\n1,2\n", 4326),
    ("lng,lat\n1,2\n", 4326),
    ("id,WKT\n7,POINT (1 2)\n", None),
    ('geom\n"POINT Z (1 2 3)"\n', None),
]


@pytest.mark.parametrize("text, epsg", COLUMNS)
def test_columns_are_guessed(tmp_path: Path, text: str, epsg: int | None) -> None:
    (tmp_path / "a.csv").write_text(text)
    points = read_points(str(tmp_path / "a.csv"))
    assert (points.x, points.y) == ([1.0], [2.0])
    assert (None if points.crs is None else points.crs.to_epsg()) == epsg
    given = read_points(str(tmp_path / "a.csv"), crs="EPSG:4258").crs
    assert given is not None and given.to_epsg() == 4258


def test_other_refusals(tmp_path: Path) -> None:
    both = write(tmp_path / "both.gpkg", ["POINT (1 2)"], layer="towns")
    write(tmp_path / "both.gpkg", ["LINESTRING (1 2, 3 4)"], layer="roads")
    with pytest.raises(Refused, match="both.gpkg:towns, of towns, roads"):
        read_points(both)
    with pytest.raises(Refused, match="feature 1 is a LINESTRING"):
        read_points(f"{both}:roads")
    with pytest.raises(Refused, match="no layer rivers"):
        read_points(f"{both}:rivers")
    with pytest.raises(Refused, match="no field people; it has number, name"):
        read_points(f"{both}:towns", ["people"])
    assert read_points(f"{both}:towns").x == [1.0]
    with pytest.raises(Refused, match="isn't there"):
        read_points(str(tmp_path / "none.gpkg"))
    with pytest.raises(Refused, match="no reference system"):
        read_points(f"{both}:towns", crs="EPSG:1")


TABLES = [
    ("name\nA\n", "no columns x and y"),
    ("x,y\n1,2\n3\n", "line 3 has 1 columns"),
    ("x,y\n1,two\n", "line 2 has no place"),
    ("x,y\n1,inf\n", "feature 1 has a coordinate that is no number"),
    ("wkt\nPOINT (1\n", "line 2 has no place"),
    ("", "no columns x and y"),
]


@pytest.mark.parametrize("text, said", TABLES)
def test_broken_tables_are_refused(tmp_path: Path, text: str, said: str) -> None:
    (tmp_path / "a.csv").write_text(text)
    with pytest.raises(Refused, match=said):
        read_points(str(tmp_path / "a.csv"))
