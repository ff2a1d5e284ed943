"""Best site, headless: its numbers are the command line's, its layers those of the folder."""

import json
import subprocess
from fractions import Fraction
from pathlib import Path
from typing import Any

import pytest
from conftest import PROGRAM, ROOT, Told, best, processed
from layers import SQUARE, TOWNS, memory, small
from qgis.core import (
    QgsGeometry,
    QgsProcessingException,
    QgsProcessingFeatureSourceDefinition,
    QgsProject,
    QgsVectorFileWriter,
    QgsVectorLayer,
)

OF_PLACES = ("asked", "digests", "from")  # keys of report.json that name files
QUESTIONS = ["near", "near-all", "far", "far-all", "mixed"]


def command(folder: Path, out: Path, *words: str) -> subprocess.CompletedProcess[str]:
    """The command line, of the same repository."""
    return subprocess.run(
        [ROOT / "siting" / "run", *words, "--out", out, "--bsss", PROGRAM], cwd=folder, capture_output=True, text=True
    )


def figures(folder: Path) -> dict[str, Any]:
    """report.json but for the names of files."""
    found = json.loads((folder / "report.json").read_text())
    for layer in found.get("brought", []):
        del layer["layer"]
    return {name: value for name, value in found.items() if name not in OF_PLACES}


@pytest.mark.parametrize("number, question", list(enumerate(QUESTIONS)))
def test_numbers_are_the_command_lines(
    number: int, question: str, made: Path, layers: dict[str, QgsVectorLayer], tmp_path: Path
) -> None:
    """From a GeoPackage here, from CSV and GeoJSON there."""
    words = ["--towns", "towns.csv", "--weight", "people", "--name", "name", "--region", "district.geojson"]
    words += ["--crs", "EPSG:25832"]
    more = ["--forbid", "forests.geojson", "--within", "2", "--reach", "30km"]
    done = command(made, tmp_path / "line", question, *words, *more)
    assert done.returncode in (0, 1), done.stderr
    told = Told()
    given = {"TOWNS": layers["towns"], "WEIGHT": "people", "NAME_FIELD": "name", "REGION": layers["district"]}
    more_given = {"FORBIDDEN": layers["forests"], "WITHIN": 2, "REACH": 30_000, "QUESTION": number, "SECONDS": None}
    found = best(given | more_given | {"FOLDER": str(tmp_path / "qgis"), "MAPS": False}, told)
    line, here = figures(tmp_path / "line"), figures(tmp_path / "qgis" / "answer")
    assert here == line
    for tile in line["tiles"]:
        for name in (tile["instance"], tile["answer"]):
            assert (tmp_path / "qgis" / "answer" / name).read_bytes() == (tmp_path / "line" / name).read_bytes()
    assert [found["X"], found["Y"]] == [float(line["site"]["x"]), float(line["site"]["y"])]
    cost, bound = Fraction(line["cost"][1]), Fraction(line["bound"])
    assert cost <= Fraction(found["COST"]) < cost + abs(cost) / 2**50
    assert bound - abs(bound) / 2**50 < Fraction(found["BOUND"]) <= bound
    assert [found["WORD"], found["GAP_PERCENT"]] == [line["answer"], line["gap_percent"]]
    assert all(f"progress: {step}" in told.lines for step in ("reading", "searching", "writing"))
    assert told.steps == sorted(told.steps) and told.steps[-1] >= 90
    assert processed("siting:audit", {"FOLDER": str(tmp_path / "qgis")})["WORD"] == "holds"


def test_layers_of_the_answer(tmp_path: Path) -> None:
    names = ("SITE", "NEAR_SETS", "SQUARES", "PIECES")
    forest = memory("Polygon", ["Polygon ((600 -50, 950 -50, 950 200, 600 200, 600 -50))"])
    found = best(small(FORBIDDEN=forest, FOLDER=str(tmp_path / "a"), **{name: "memory:" for name in names}))
    report = figures(tmp_path / "a" / "answer")
    (site,) = found["SITE"].getFeatures()
    place = site.geometry().asPoint()
    assert (place.x(), place.y()) == (found["X"], found["Y"]) == (float(site["x"]), float(site["y"]))
    assert site["cost"] >= float(report["cost"][0]) and site["bound"] <= site["cost"]
    assert site["label"].startswith("at most ") and site["answer"] == found["WORD"] and site["question"] == "near"
    assert float(site["label"].split()[2]) >= report["gap_percent"]
    near = {feature["percent"]: feature for feature in found["NEAR_SETS"].getFeatures()}
    assert list(near) == [20, 10, 5, 2, 1]
    for large, less in ((20, 10), (10, 5), (5, 2), (2, 1)):
        assert near[less].geometry().difference(near[large].geometry()).area() < 1e-6
    allowed = QgsGeometry.fromWkt(SQUARE).difference(
        QgsGeometry.fromWkt(next(iter(forest.getFeatures())).geometry().asWkt())
    )
    assert near[20].geometry().difference(allowed).area() < 1e-6 < near[20].geometry().area()
    assert near[20]["square_metres_at_most"] >= near[20].geometry().area()
    assert min(square["bound"] for square in found["SQUARES"].getFeatures()) <= found["BOUND"] + 1e-6
    assert {piece["kind"] for piece in found["PIECES"].getFeatures()} == {"permit", "forbid"}
    assert {found[name].crs().authid() for name in names} == {"EPSG:25832"}
    assert "PAGE" not in found or found["PAGE"] is None


@pytest.mark.parametrize(
    "value, said", [(0.0006, "0.0006"), (0.00060001, "0.0007"), (12.34561, "12.3457"), (0, "0.0000")]
)
def test_a_gap_is_rounded_up(value: float, said: str) -> None:
    from siting_qgis.results import rounded_up

    assert rounded_up(value) == said


def test_a_page_where_maps_are_asked_for(tmp_path: Path) -> None:
    found = best(small(MAPS=True, FOLDER=str(tmp_path / "a")))
    assert Path(found["PAGE"]).read_text().startswith("<!")
    assert {path.suffix for path in Path(found["PAGE"]).parent.glob("map.*")} == {".png", ".svg"}


def test_selected_features_only(tmp_path: Path) -> None:
    given = small(FOLDER=str(tmp_path / "a"))
    towns = given["TOWNS"]
    towns.selectByExpression("people > 5")
    QgsProject.instance().addMapLayer(towns, False)
    found = best(given | {"TOWNS": QgsProcessingFeatureSourceDefinition(towns.id(), True)})
    QgsProject.instance().takeMapLayer(towns)
    assert figures(tmp_path / "a" / "answer")["towns"] == {"read": 2, "used": 2, "left_out": {}}
    alone = memory("Point", TOWNS[:2], people=[10, 20])
    assert best(small(TOWNS=alone))["COST"] == found["COST"]


def test_towns_that_do_not_count_are_told(tmp_path: Path) -> None:
    places = [*TOWNS, "Point (1 1)", "Point (2 2)", None]
    towns = memory("Point", places, people=[10.5, 20.25, 5.0, None, 0.0, 7.0])
    told = Told()
    best(small(TOWNS=towns, FOLDER=str(tmp_path / "a")), told)
    left = {"no weight": 1, "weight 0": 1, "no geometry": 1}
    assert figures(tmp_path / "a" / "answer")["towns"] == {"read": 6, "used": 3, "left_out": left}
    for reason in left:
        assert f"warning: 1 towns were left out: {reason}" in told.lines


@pytest.mark.parametrize("name", ["fid", "FID", "Einwohner (2020)", 'a "name", with: all', "geom", "ogc_fid", "rowid"])
def test_fields_of_any_name(name: str, tmp_path: Path) -> None:
    """Also those that a GeoPackage has of its own."""
    towns = memory("Point", TOWNS, **{name: [10, 20, 5]})
    found = best(small(TOWNS=towns, WEIGHT=name, NAME_FIELD=name, FOLDER=str(tmp_path / "a")))
    assert found["COST"] == best(small())["COST"]
    assert [town["name"] for town in figures(tmp_path / "a" / "answer")["nearest"]] == ["20", "10", "5"]


def test_each_point_of_a_multipoint_counts() -> None:
    told = Told()
    together = memory(
        "MultiPoint", ["MultiPoint ((100.5 100), (900 150))", "MultiPoint ((450 1900.25))"], people=[10, 5]
    )
    apart = memory("Point", TOWNS, people=[10, 10, 5])
    assert best(small(TOWNS=together), told)["COST"] == best(small(TOWNS=apart))["COST"]
    assert any(line.startswith("warning: my multipoints has features of several points") for line in told.lines)


def test_arcs_become_straight_and_it_is_told() -> None:
    told = Told()
    disc = memory("CurvePolygon", ["CurvePolygon (CircularString (0 500, 500 1000, 1000 500, 500 0, 0 500))"])
    found = best(small(REGION=disc), told)
    assert found["WORD"] in ("within", "wider")
    assert any(line.startswith("warning: my curvepolygons has arcs") for line in told.lines)


@pytest.mark.parametrize("crs", ["EPSG:4326", "EPSG:25833"])
def test_towns_in_another_reference_system(crs: str, tmp_path: Path) -> None:
    """They are brought to the region's plane as on the command line: by PROJ."""
    places = (
        ["Point (9.01 0.004)", "Point (9.006 0.001)"]
        if crs == "EPSG:4326"
        else ["Point (-168000 500)", "Point (-168500 90)"]
    )
    region = memory("Polygon", ["Polygon ((500000 0, 501000 0, 501000 1000, 500000 1000, 500000 0))"])
    found = best(small(TOWNS=memory("Point", places, crs, people=[3, 4]), REGION=region, FOLDER=str(tmp_path / "a")))
    files = tmp_path / "a" / "layers"
    words = ["--towns", "towns.gpkg", "--weight", "people", "--region", "region.gpkg", "--within", "5"]
    assert command(files, tmp_path / "b", "near", *words).returncode in (0, 1)
    assert figures(tmp_path / "b") == figures(tmp_path / "a" / "answer")
    assert 500_000 <= found["X"] <= 501_000


PLACES = {  # a region, a forbidden area and towns, of degrees and of a grid, in which they are about the same
    "EPSG:4326": (
        "9 50, 9.2 50, 9.2 50.1, 9 50.1, 9 50",
        "9.04 50.02, 9.06 50.02, 9.06 50.04, 9.04 50.02",
        ["9.05 50.03", "9.15 50.01"],
    ),
    "EPSG:25832": (
        "5e5 5538630, 514000 5538630, 514000 555e4, 5e5 555e4, 5e5 5538630",
        "503e3 5541e3, 504e3 5541e3, 504e3 5543e3, 503e3 5541e3",
        ["503583 5541967", "510752 5539749"],
    ),
}


@pytest.mark.parametrize(
    "region, forbidden, towns",
    [("EPSG:4326",) * 3, ("EPSG:4326", "EPSG:4326", "EPSG:25832"), ("EPSG:25832", "EPSG:4326", "EPSG:4326")],
)
def test_systems_are_taken_as_the_command_line_takes_them(
    region: str, forbidden: str, towns: str, tmp_path: Path
) -> None:
    """Answered alike, or refused in the same words."""
    layers = {
        "region": memory("Polygon", [f"Polygon (({PLACES[region][0]}))"], region),
        "forbidden": memory("Polygon", [f"Polygon (({PLACES[forbidden][1]}))"], forbidden),
        "towns": memory("Point", [f"Point ({place})" for place in PLACES[towns][2]], towns, people=[3, 4]),
    }
    for name, layer in layers.items():
        layer.setName(f"{name}.gpkg")
        options = QgsVectorFileWriter.SaveVectorOptions()
        options.layerName = name
        path = str(tmp_path / f"{name}.gpkg")
        QgsVectorFileWriter.writeAsVectorFormatV3(layer, path, QgsProject.instance().transformContext(), options)
    files = ["--towns", "towns.gpkg", "--region", "region.gpkg", "--forbid", "forbidden.gpkg"]
    done = command(tmp_path, tmp_path / "line", "near", *files, "--weight", "people", "--within", "5")
    given = {"TOWNS": layers["towns"], "REGION": layers["region"], "FORBIDDEN": layers["forbidden"]}
    if done.returncode == 2:
        with pytest.raises(QgsProcessingException) as refused:
            best(small(**given))
        assert done.stderr.strip().removeprefix("siting: ") in str(refused.value)
    else:
        assert done.returncode in (0, 1), done.stderr
        told = Told()
        found = best(small(**given, MAPS=True, SITE="memory:", NEAR_SETS="memory:", FOLDER=str(tmp_path / "q")), told)
        assert figures(tmp_path / "q" / "answer") == figures(tmp_path / "line")
        assert found["SITE"].crs().authid() == region and found["NEAR_SETS"].featureCount() > 0
        assert ("PAGE" in found and found["PAGE"] is not None) == (region != "EPSG:4326")
        sites = memory("Point", [f"Point ({found['X']!r} {found['Y']!r})"], region)
        asked = {"FOLDER": str(tmp_path / "q"), "SITES": sites, "COMPARED": "memory:"}
        (row,) = processed("siting:comparesites", asked)["COMPARED"].getFeatures()
        assert row["permitted"] == "yes" and row["cost"] == pytest.approx(found["COST"], rel=1e-12)
        assert processed("siting:audit", {"FOLDER": str(tmp_path / "q")})["WORD"] == "holds"


def test_no_permitted_place_is_an_answer(tmp_path: Path) -> None:
    found = best(
        small(FORBIDDEN=memory("Polygon", [SQUARE]), FOLDER=str(tmp_path / "a"), SITE="memory:", NEAR_SETS="memory:")
    )
    assert found["WORD"] == "no site" and found["X"] is found["COST"] is found["BOUND"] is None
    assert found["SITE"].featureCount() == found["NEAR_SETS"].featureCount() == 0
    assert figures(tmp_path / "a" / "answer")["answer"] == "no site"
