"""Compare sites and Audit, on a folder that Best site has written."""

import csv
import json
import re
import subprocess
from pathlib import Path

import pytest
from conftest import PROGRAM, ROOT, Told, best, processed
from layers import memory, small
from qgis.core import QgsCoordinateReferenceSystem, QgsCoordinateTransform, QgsPointXY, QgsProject


@pytest.fixture(scope="module")
def answer(tmp_path_factory: pytest.TempPathFactory) -> Path:
    folder = tmp_path_factory.mktemp("folder") / "a"
    forest = memory("Polygon", ["Polygon ((200 200, 400 200, 400 400, 200 400, 200 200))"])
    best(small(FOLDER=str(folder), FORBIDDEN=forest, NAME_FIELD="name"))
    return folder


def test_candidates_cost_what_the_command_line_says(answer: Path, tmp_path: Path) -> None:
    places = [(300.0, 300.0), (-5.5, 20.0), (900.0, 150.0)]
    sites = memory("Point", [f"Point ({x} {y})" for x, y in places], named=["forest", "outside", "B itself"])
    found = processed(
        "siting:comparesites", {"FOLDER": str(answer), "SITES": sites, "NAME_FIELD": "named", "COMPARED": "memory:"}
    )
    words = [f"--site={x},{y}" for x, y in places]
    table = tmp_path / "sites.csv"
    subprocess.run([ROOT / "siting" / "run", "compare", answer / "answer", *words, "--csv", table], check=True)
    rows = list(csv.DictReader(open(table, newline="")))[1:]
    features = list(found["COMPARED"].getFeatures())
    assert [feature["site"] for feature in features] == ["forest", "outside", "B itself"]
    assert [found["COUNT"], found["PERMITTED"]] == [3, 1]
    for feature, row, (x, y) in zip(features, rows, places, strict=True):
        assert [feature["permitted"], feature["why_not"]] == [row["permitted"], row["why not"].replace("gpkg", "gpkg")]
        assert [feature["cost"], feature["above_bound_percent"]] == [
            float(row["cost"]),
            float(row["% above the bound"]),
        ]
        assert [feature["nearest_town"], feature["farthest_metres"]] == [
            row["nearest town"],
            float(row["its metres away"]),
        ]
        assert feature.geometry().asPoint() == QgsPointXY(x, y)
    assert features[1]["why_not"] == "outside the region" and features[0]["why_not"].startswith("inside feature 1")


def test_candidates_in_another_reference_system(answer: Path) -> None:
    system, grid = (QgsCoordinateReferenceSystem(name) for name in ("EPSG:4326", "EPSG:25832"))
    place = QgsCoordinateTransform(grid, system, QgsProject.instance()).transform(QgsPointXY(500, 600))
    sites = memory("Point", [f"Point ({place.x()!r} {place.y()!r})"], "EPSG:4326")
    found = processed("siting:comparesites", {"FOLDER": str(answer), "SITES": sites, "COMPARED": "memory:"})
    (feature,) = found["COMPARED"].getFeatures()
    assert feature.geometry().asPoint().distance(QgsPointXY(500, 600)) < 1e-3
    assert feature["permitted"] == "yes" and found["COMPARED"].crs().authid() == "EPSG:25832"


def without_covers(said: str) -> list[str]:
    """An audit's sentences; the plugin's has no bsss_cover to ask."""
    return [re.sub(", and bsss_cover finds .*", "", line) for line in said.splitlines()[:-1]]


def test_an_audit_says_each_sentence(answer: Path) -> None:
    told = Told()
    found = processed("siting:audit", {"FOLDER": str(answer), "SENTENCES": "memory:"}, told)
    line = subprocess.run(
        [ROOT / "siting" / "run", "audit", answer / "answer", "--bsss", PROGRAM],
        capture_output=True,
        text=True,
        check=True,
    )
    assert [found["WORD"], found["FAILED"]] == ["holds", 0]
    assert "holds" in told.lines and without_covers(line.stdout) == [t for t in told.lines if t.startswith("holds: ")]
    assert found["SENTENCES"].featureCount() == len(line.stdout.splitlines()) - 1 > 10


def test_a_folder_may_be_moved(tmp_path: Path) -> None:
    best(small(FOLDER=str(tmp_path / "a")))
    (tmp_path / "a").rename(tmp_path / "b")
    assert processed("siting:audit", {"FOLDER": str(tmp_path / "b")})["WORD"] == "holds"


@pytest.mark.parametrize("planted", ["bound", "layer"])
def test_an_audit_finds_what_does_not_hold(planted: str, tmp_path: Path) -> None:
    folder = tmp_path / "a"
    best(small(FOLDER=str(folder)))
    report = folder / "answer" / "report.json"
    if planted == "bound":
        figures = json.loads(report.read_text())
        report.write_text(report.read_text().replace(figures["bound"], f"{float(figures['bound']) + 5:.6f}"))
    else:
        towns = folder / "layers" / "towns.gpkg"
        towns.chmod(0o644)
        towns.write_bytes(towns.read_bytes() + b"\0")
    told = Told()
    found = processed("siting:audit", {"FOLDER": str(folder)}, told)
    assert found["WORD"] == "fails" and found["FAILED"] >= 1
    assert any(line.startswith("error: fails: ") for line in told.lines)
