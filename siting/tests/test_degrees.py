"""Areas in degrees from layers to a folder: what is written of them, its audit, near sets, maps, page, other sites."""

import csv
import json
import shutil
from collections.abc import Callable
from math import cos, radians
from pathlib import Path
from random import Random
from typing import Any
from xml.etree import ElementTree

import numpy as np
import pyproj
import pytest
from osgeo import ogr
from shapely import wkb
from shapely.geometry import Point, Polygon
from siting.audit import SENTENCES, Audit
from siting.command import main
from siting.compare import digest
from siting.layers import write_areas
from siting.near import near_sets
from siting.program import BUILT, Program
from siting.tiles import Search

from test_ground import FOREST, RING, ended

PROGRAM = str(BUILT if BUILT.exists() else Path(__file__).parent / "stand_in")
GEOD = pyproj.Geod(ellps="WGS84")
WORDS = ["--towns", "towns.csv", "--weight", "people", "--region", "region.geojson", "--forbid", "forest.geojson"]
ROUTES = [(9.0, 50.3), (9.5, 50.5), (7.0, 50.0)]  # permitted, in the forest, outside
PERMITTED = Polygon(RING).difference(Polygon(FOREST))


@pytest.fixture(scope="module")
def answered(tmp_path_factory: pytest.TempPathFactory) -> Path:
    """A region and a forest in degrees, 12 towns, and an answer with maps."""
    folder = tmp_path_factory.mktemp("degrees")
    write_layers(folder)
    with pytest.MonkeyPatch.context() as patch:
        patch.chdir(folder)
        assert main(["near", *WORDS, "--within", "0.5", "--maps", "--bsss", PROGRAM, "--out", "out"]) == 0
    return folder


def write_layers(folder: Path, ring: tuple[tuple[float, float], ...] = RING, crs: str | None = None) -> None:
    write_areas(folder / "region.geojson", [[ring]], crs)
    write_areas(folder / "forest.geojson", [[FOREST]], None)
    random = Random(1)
    rows = [f"{random.uniform(8, 10.5):.4f},{random.uniform(50, 51):.4f},{random.randint(1, 99)}\n" for _ in range(12)]
    (folder / "towns.csv").write_text("lon,lat,people\n" + "".join(rows))


def towns_of(folder: Path) -> list[tuple[float, float, float]]:
    rows = csv.DictReader((folder / "towns.csv").open())
    return [(float(row["lon"]), float(row["lat"]), float(row["people"])) for row in rows]


def by_hand(folder: Path, x: float, y: float) -> float:
    return sum(people * GEOD.inv(x, y, a, b)[2] for a, b, people in towns_of(folder))


def figures_of(folder: Path) -> dict[str, Any]:
    return dict(json.loads((folder / "out" / "report.json").read_text()))


@pytest.fixture
def copy(answered: Path, tmp_path: Path) -> Path:
    """The same elsewhere."""
    shutil.copytree(answered, tmp_path / "copy")
    change(tmp_path / "copy", "report.json", lambda said: said.update({"from": str(tmp_path / "copy")}))
    return tmp_path / "copy"


def change(folder: Path, file: str, edit: Callable[[dict[str, Any]], object]) -> None:
    path = folder / "out" / file
    said = json.loads(path.read_text())
    edit(said)
    path.write_text(json.dumps(said))


def failing(folder: Path) -> dict[str, str]:
    """The sentences that fail, by their tests, and what is said of them."""
    sentences = Audit(folder / "out", Program(PROGRAM)).sentences()
    return {row[0]: found.fault for row, found in zip(SENTENCES, sentences, strict=True) if found.fault is not None}


def test_what_a_folder_says(answered: Path) -> None:
    said = figures_of(answered)
    assert said["distance"] == "ground" and said["charges"]["ground"] > 0 and said["charges"]["borders"] == 0
    assert "ground distance" in (answered / "out" / "report.txt").read_text()
    x, y = float(said["site"]["x"]), float(said["site"]["y"])
    assert (said["site"]["lon"], said["site"]["lat"]) == (round(x, 8), round(y, 8))
    cost = by_hand(answered, x, y)
    assert float(said["cost"][0]) < cost < float(said["cost"][1]) and float(said["bound"]) < cost
    assert said["tiles"][0]["box"] == [8.0, 50.0, 10.5, 51.1]
    ways = sorted(GEOD.inv(x, y, a, b)[2] for a, b, _ in towns_of(answered))
    assert [row["metres"] for row in said["nearest"]] == [pytest.approx(way, abs=0.001) for way in ways[:5]]


def test_an_audit_of_a_folder_that_was_left_alone(copy: Path) -> None:
    assert failing(copy) == {}


def town_moved(folder: Path) -> None:
    path = folder / "towns.csv"
    head, first, *rest = path.read_text().splitlines()
    path.write_text("\n".join([head, "9" + first[1:], *rest]) + "\n")
    change(folder, "report.json", lambda said: said["digests"].update({"towns.csv": digest(str(path))}))


def plane(at: int, more: int) -> Callable[[Path], None]:
    def edit(proof: dict[str, Any]) -> None:
        proof["plane"][at] += more if at < 2 else proof["plane"][at] >> more

    return lambda folder: change(folder, "1.proof.json", edit)


def report(**values: object) -> Callable[[Path], None]:
    return lambda folder: change(folder, "report.json", lambda said: said.update(values))


def in_report(name: str, **values: object) -> Callable[[Path], None]:
    return lambda folder: change(folder, "report.json", lambda said: said[name].update(values))


EDITS: dict[str, tuple[Callable[[Path], None], str, str]] = {
    "a town moved, and the digest": (town_moved, "cost", "it is from"),
    "distances of the grid": (report(distance="grid"), "problem", "distances are those of the ground"),
    "distances asked for on a grid": (in_report("asked", distance="grid"), "problem", "aren't lengths"),
    "the site in the forest": (in_report("site", x="9.5", y="50.5"), "site", "it isn't"),
    "the bound raised": (report(bound="1e9"), "bound", "isn't the least"),
    "the ground for nothing": (in_report("charges", ground=0.0), "charges", "ground is"),
    "a layer brought from elsewhere": (report(brought=[{"layer": "a"}]), "problem", "brought in another way"),
    "no plane": (lambda folder: change(folder, "1.proof.json", lambda p: p.update(plane=None)), "pieces", "no plane"),
    "a plane of three numbers": (
        lambda folder: change(folder, "1.proof.json", lambda p: p["plane"].pop()),
        "cover",
        "whole numbers",
    ),
    "a plane that is too wide": (plane(2, 18), "pieces", "the plane isn't that of its middle"),
    "a plane that is too high": (plane(3, 18), "pieces", "the plane isn't that of its middle"),
    "a plane elsewhere": (plane(0, 1 << 44), "pieces", "doesn't cancel"),
    "a nearer neighbour": (
        lambda folder: change(folder, "report.json", lambda said: said["nearest"][0].update(metres=1.0)),
        "places",
        "isn't among",
    ),
}


@pytest.mark.parametrize("name", EDITS)
def test_an_edit_is_found(copy: Path, name: str) -> None:
    edit, sentence, says = EDITS[name]
    edit(copy)
    failed = failing(copy)
    assert sentence in failed and says in failed[sentence], failed


# other sites, maps and page


def test_other_sites(answered: Path, tmp_path: Path, capsys: pytest.CaptureFixture[str]) -> None:
    files = ["--csv", str(tmp_path / "sites.csv"), "--page", str(tmp_path / "sites.html")]
    assert main(["compare", str(answered / "out"), *files, "--site", *(f"{x},{y}" for x, y in ROUTES)]) == 0
    rows = list(csv.DictReader((tmp_path / "sites.csv").open()))
    assert [row["why not"] for row in rows] == ["", "", "inside feature 1 of forest.geojson", "outside the region"]
    for row, place in zip(rows[1:], ROUTES):
        assert 0 < float(row["cost"]) - by_hand(answered, *place) < 0.03 * sum(row[2] for row in towns_of(answered))
        ways = [GEOD.inv(*place, a, b)[2] for a, b, _ in towns_of(answered)]
        assert float(row["its metres"]) == pytest.approx(min(ways), abs=0.06)
    page = (tmp_path / "sites.html").read_text()
    head = page.partition('id="map"')[2].partition(">")[0]
    x0, y1, across, down = (float(head.partition(f'data-{name}="')[2].partition('"')[0]) for name in NAMES)
    assert across / down == pytest.approx(cos(radians(50.55)), rel=0.01)
    for x, y in ROUTES:
        assert f"M{(x - x0) * across:.2f} {(y1 - y) * down - 9:.2f}l9 9" in page


NAMES = ("x", "y", "across", "down")


def test_maps_are_as_wide_as_the_ground(answered: Path) -> None:
    root = ElementTree.parse(answered / "out" / "map.svg").getroot()
    (region,) = (group for group in root.iter() if group.get("id") == "region")
    path = next(child.get("d") for child in region.iter() if child.get("d"))
    assert path is not None
    words = path.replace("M", " ").replace("L", " ").replace("z", " ").split()
    places = np.array(list(map(float, words))).reshape(-1, 2)
    wide, tall = np.ptp(places, axis=0)
    metres = GEOD.inv(8.0, 50.55, 10.5, 50.55)[2], GEOD.inv(9.0, 50.0, 9.0, 51.1)[2]
    assert wide / tall == pytest.approx(metres[0] / metres[1], rel=0.01)
    assert "20 km" in "".join(root.itertext())


def test_layers_of_the_package(answered: Path) -> None:
    source = ogr.Open(str(answered / "out" / "siting.gpkg"))
    said = figures_of(answered)
    assert source.GetLayerByName("site").GetSpatialRef().GetAuthorityCode(None) == "4326"
    for feature in source.GetLayerByName("near_sets"):
        area = wkb.loads(bytes(feature.GetGeometryRef().ExportToWkb()))
        metres = sum(abs(GEOD.geometry_area_perimeter(part)[0]) for part in area.geoms)
        assert feature["square_metres"] == pytest.approx(metres, rel=1e-3)  # cells are between parallels
    random, tried = Random(2), 0
    for feature in list(source.GetLayerByName("squares")):
        x0, x1, y0, y1 = feature.GetGeometryRef().GetEnvelope()
        for x, y in ((random.uniform(x0, x1), random.uniform(y0, y1)) for _ in range(20)):
            if PERMITTED.contains(Point(x, y)):
                tried += 1
                assert by_hand(answered, x, y) >= feature["bound"] >= float(said["bound"]) * (1 - 1e-12)
    assert tried > 20
    towns = [(feature["metres"], feature["share_percent"]) for feature in source.GetLayerByName("towns")]
    assert sum(share for _, share in towns) == pytest.approx(100)
    site = float(said["site"]["x"]), float(said["site"]["y"])
    assert towns[0][0] == pytest.approx(GEOD.inv(*site, *towns_of(answered)[0][:2])[2])


def test_near_sets_hold_what_costs_little_more() -> None:
    search: Search = ended("near", 12, None, 12)
    random, site, sets = Random(4), search.site, near_sets(search)
    assert site is not None and [found.percent for found in sets] == [1, 2, 5, 10, 20]
    shapes = [[Polygon(*rings[:1], rings[1:]) for rings in found.polygons] for found in sets]
    inside = [0] * 5
    for _ in range(1500):
        spread = random.choice([0.02, 0.1, 0.4])
        x, y = random.gauss(site.x, spread), random.gauss(site.y, spread)
        if not PERMITTED.contains(Point(x, y)):
            continue
        more = (search.landscape.cost(x, y) / float(site.high) - 1) * 100
        for at, found in enumerate(sets):
            if more <= found.percent:
                inside[at] += 1
                assert any(shape.intersects(Point(x, y)) for shape in shapes[at]), (found.percent, x, y)
    assert inside[0] > 0 and inside[-1] > 100


def test_lines_of_equal_cost_are_of_the_ground() -> None:
    land = ended("near", 12, None, 12).landscape
    random = np.random.default_rng(1)
    x, y, a, b = random.uniform(-60, 60, (4, 500))
    ways = GEOD.inv(x, y, a, b)[2]
    assert np.abs(land.between(x, y, a, b) - ways).max() < 60 and land.between(x, y, x, y).max() < 0.1


# refusals

SWAPPED = ((5.0, 100.0), (5.0, 101.0), (6.0, 101.0))
DATELINE = ((-179.0, 50.0), (179.0, 50.0), (179.0, 51.0), (-179.0, 51.0))
POLE = ((10.0, 84.0), (11.0, 84.0), (11.0, 86.0))
WIDE = ((-85.0, -60.0), (85.0, -60.0), (85.0, 60.0), (-85.0, 60.0))
STRANGE = [
    (SWAPPED, [], "latitudes beyond 90 degrees: are its axes swapped?"),
    (DATELINE, [], "both sides of the antimeridian"),
    (POLE, [], "nearer than 5 degrees to a pole"),
    (WIDE, [], "distances on the ground can't be bounded"),
    (RING, ["--distance", "grid"], "is in degrees, which aren't lengths"),
    (RING, ["--keep-off", "1km"], "--grow and --keep-off want a metric grid"),
]


@pytest.mark.parametrize("ring, words, said", STRANGE)
def test_strange_degrees_are_refused(
    tmp_path: Path,
    monkeypatch: pytest.MonkeyPatch,
    ring: tuple[tuple[float, float], ...],
    words: list[str],
    said: str,
    capsys: pytest.CaptureFixture[str],
) -> None:
    write_layers(tmp_path, ring)
    monkeypatch.chdir(tmp_path)
    assert main(["near", *WORDS[:6], *words, "--bsss", PROGRAM, "--out", "out"]) == 2
    assert said in capsys.readouterr().err and not (tmp_path / "out").exists()
