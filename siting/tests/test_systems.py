"""Reference systems: pairs of points against PROJ's geodesics, layers in several systems, and what is refused."""

import json
from math import hypot
from pathlib import Path
from random import Random

import numpy as np
import pyproj
import pytest
from siting.command import main
from siting.exact.ground import Ellipsoid
from siting.layers import write_areas
from siting.program import BUILT
from siting.refusals import zone_of
from siting.systems import BEND, bring, bring_rings

PROGRAM = str(BUILT if BUILT.exists() else Path(__file__).parent / "stand_in")
GEOD = pyproj.Geod(ellps="GRS80")
UTM = pyproj.CRS.from_epsg(25832)
DEGREES = pyproj.CRS.from_epsg(4258)
SQUARE = [(500_000.0, 5_600_000.0), (560_000.0, 5_600_000.0), (560_000.0, 5_640_000.0), (500_000.0, 5_640_000.0)]
FOREST = [(9.2, 50.6), (9.4, 50.6), (9.4, 50.8), (9.2, 50.8)]  # degrees, within the square
TOWNS = [(9.1, 50.6, 5), (9.7, 50.62, 7), (9.3, 50.83, 6), (9.5, 50.7, 1)]


def write_layers(folder: Path, crs: str | None = "EPSG:25832", region: list[tuple[float, float]] | None = None) -> None:
    write_areas(folder / "region.geojson", [[region or SQUARE]], crs)
    write_areas(folder / "forest.geojson", [[FOREST]], "EPSG:4258")
    rows = [f"{x},{y},{people}\n" for x, y, people in TOWNS]
    (folder / "towns.csv").write_text("lon,lat,people\n" + "".join(rows))


def ask(folder: Path, monkeypatch: pytest.MonkeyPatch, *words: str) -> int:
    monkeypatch.chdir(folder)
    layers = ["--towns", "towns.csv", "--weight", "people", "--region", "region.geojson"]
    return main(["near", *layers, "--bsss", PROGRAM, "--out", "out", *words])


@pytest.mark.parametrize("epsg, scale, most", [(25832, 1.0, 4.1e-4), (3035, 1.0, 0.02), (2263, 1200 / 3937, 1e-4)])
def test_distances_of_grids_are_nearly_those_of_geodesics(epsg: int, scale: float, most: float) -> None:
    crs, random = pyproj.CRS.from_epsg(epsg), Random(epsg)
    x, y = (-73.9, 40.7) if epsg == 2263 else (9.0, 50.0)
    spread = 0.3 if epsg == 2263 else 1.0
    places = [(x + random.uniform(-spread, spread), y + random.uniform(-spread, spread)) for _ in range(60)]
    assert crs.geodetic_crs is not None
    xs, ys, how = bring("towns", *map(list, zip(*places)), crs.geodetic_crs, crs)  # type: ignore[arg-type]
    assert how.accuracy == 0
    for a, b, start, end in zip(list(zip(xs, ys)), list(zip(xs, ys))[1:], places, places[1:]):
        ground = GEOD.inv(*start, *end)[2]
        assert abs(hypot(a[0] - b[0], a[1] - b[1]) * scale / ground - 1) < most


def test_edges_are_cut_so_that_they_bend_little() -> None:
    other = [SQUARE[1], (620_000.0, 5_620_000.0), SQUARE[2]]
    (first, second), how = bring_rings("region", [[tuple(SQUARE)], [tuple(other)]], UTM, DEGREES)
    assert how.accuracy == 0 and len(first[0]) > 20
    shared = set(first[0]) & set(second[0])  # the edge that both have, one upward, one downward
    assert len(shared) > 5
    back = pyproj.Transformer.from_crs(DEGREES, UTM, always_xy=True)
    for a, b in zip(first[0], first[0][1:] + first[0][:1]):
        for share in (0.25, 0.5, 0.75):
            x, y = back.transform(a[0] + share * (b[0] - a[0]), a[1] + share * (b[1] - a[1]))
            assert min(abs(x - 500_000), abs(x - 560_000), abs(y - 5_600_000), abs(y - 5_640_000)) < 2 * BEND


def test_layers_in_several_systems(tmp_path: Path, monkeypatch: pytest.MonkeyPatch, capsys: object) -> None:
    write_layers(tmp_path)
    assert ask(tmp_path, monkeypatch, "--forbid", "forest.geojson") in (0, 1)
    said = json.loads((tmp_path / "out" / "report.json").read_text())
    assert said["distance"] == "grid" and [row["layer"] for row in said["brought"]] == ["forest.geojson", "towns.csv"]
    assert [row["accuracy"] for row in said["brought"]] == [0.0, 1.0]  # WGS 84 is known to a metre here
    people = sum(row[2] for row in TOWNS)
    assert said["charges"]["systems"] == 2 * people and said["charges"]["borders"] == pytest.approx(2 * BEND * people)
    text = (tmp_path / "out" / "report.txt").read_text()
    assert "towns.csv was brought from WGS 84 by" in text and "accurate to 1 m" in text
    site = float(said["site"]["x"]), float(said["site"]["y"])
    towns = pyproj.Transformer.from_crs(4326, UTM, always_xy=True).transform(*np.array(TOWNS).T[:2])
    cost = sum(hypot(x - site[0], y - site[1]) * row[2] for x, y, row in zip(*towns, TOWNS))
    assert float(said["cost"][0]) <= cost - people + 1 and cost + people - 1 <= float(said["cost"][1])
    assert main(["audit", "out", "--bsss", PROGRAM]) == 0
    inside = pyproj.Transformer.from_crs(DEGREES, UTM, always_xy=True).transform(9.3, 50.7)
    assert main(["compare", "out", "--site", f"{inside[0]},{inside[1]}", "--csv", "sites.csv"]) == 0
    assert "inside feature 1 of forest.geojson" in (tmp_path / "sites.csv").read_text()


def test_distances_on_the_ground_of_a_grid(tmp_path: Path, monkeypatch: pytest.MonkeyPatch) -> None:
    write_layers(tmp_path)
    assert ask(tmp_path, monkeypatch, "--distance", "ground", "--forbid", "forest.geojson", "--within", "1") == 0
    said = json.loads((tmp_path / "out" / "report.json").read_text())
    assert said["distance"] == "ground" and said["site"]["crs"] == "EPSG:4258"
    assert [row["layer"] for row in said["brought"]] == ["region.geojson", "towns.csv"]
    assert said["charges"]["ground"] > 0 and said["charges"]["borders"] == pytest.approx(2 * BEND * 19)
    x, y = float(said["site"]["x"]), float(said["site"]["y"])
    cost = sum(GEOD.inv(x, y, a, b)[2] * people for a, b, people in TOWNS)
    assert float(said["cost"][0]) < cost < float(said["cost"][1])
    assert main(["audit", "out", "--bsss", PROGRAM]) == 0


def test_towns_without_a_system_are_taken_to_be_in_the_regions(tmp_path: Path, monkeypatch: pytest.MonkeyPatch) -> None:
    write_layers(tmp_path)
    (tmp_path / "towns.csv").write_text("x,y,people\n510000,5610000,3\n550000,5630000,2\n")
    assert ask(tmp_path, monkeypatch, "--within", "1") in (0, 1)
    assert "towns.csv says no reference system: it was taken" in (tmp_path / "out" / "report.txt").read_text()


WEST = [(-170.0, 60.0), (170.0, 60.0), (170.0, 61.0), (-170.0, 61.0)]
CASES: dict[str, tuple[str | None, list[tuple[float, float]], str, list[str], str]] = {
    "web Mercator": ("EPSG:3857", [(1e6, 6e6), (1.1e6, 6e6), (1.1e6, 6.1e6)], "", [], "bring all layers to EPSG:32632"),
    "degrees on a grid": (
        "EPSG:4326",
        FOREST,
        "",
        ["--distance", "grid"],
        "bring it to a metric grid, EPSG:32632, say",
    ),
    "grown degrees": ("EPSG:4326", FOREST, "", ["--grow", "1km"], "--grow and --keep-off want a metric grid"),
    "kept off on the ground": (
        "EPSG:25832",
        SQUARE,
        "",
        ["--distance", "ground", "--keep-off", "1km"],
        "--grow and --keep-off want a metric grid",
    ),
    "over the antimeridian": ("EPSG:4326", WEST, "", [], "both sides of the antimeridian"),
    "swapped axes of towns": ("EPSG:4326", FOREST, "lon,lat,people\n50.7,9.3,1\n50.65,9.25,1\n", [], "axes swapped"),
    "swapped axes in a grid": ("EPSG:25832", SQUARE, "x,y,people\n5610000,510000,1\n", [], "axes swapped"),
    "latitudes beyond a pole": ("EPSG:4326", FOREST, "lon,lat,people\n9,95,1\n", [], "latitudes beyond 90 degrees"),
    "a town that can't be shown": (
        "EPSG:25832",
        SQUARE,
        "lon,lat,people\n-81,1,1\n9,50,1\n",
        [],
        "lies outside of what",
    ),
    "towns too far away": ("EPSG:4326", FOREST, "lon,lat,people\n-171,-50,1\n", [], "can't be bounded"),
    "a region without a system": (None, SQUARE, "", [], "region.csv says no reference system, and towns.csv does"),
    "ground without a system": (None, SQUARE, "", ["--distance", "ground"], "which distances on the ground want"),
    "an unknown system": ("EPSG:25832", SQUARE, "", ["--crs", "EPSG:0"], "is no reference system"),
}


@pytest.mark.parametrize("name", CASES)
def test_refusals(
    tmp_path: Path, monkeypatch: pytest.MonkeyPatch, name: str, capsys: pytest.CaptureFixture[str]
) -> None:
    crs, region, towns, words, said = CASES[name]
    write_layers(tmp_path, crs, region)
    if towns:
        (tmp_path / "towns.csv").write_text(towns)
    if crs is None:  # GeoJSON always has one
        places = ", ".join(f"{x} {y}" for x, y in [*region, region[0]])
        (tmp_path / "region.csv").write_text(f'wkt\n"POLYGON (({places}))"\n')
        words = [*words, "--region", "region.csv"]
    assert ask(tmp_path, monkeypatch, *words) == 2
    told = capsys.readouterr().err
    assert said in told and not (tmp_path / "out").exists(), told


@pytest.mark.parametrize(
    "place, grid",
    [((9.0, 50.0), "32632"), ((-74.0, 40.0), "32618"), ((151.0, -33.0), "32756"), ((180.0, 1.0), "32601")],
)
def test_zones(place: tuple[float, float], grid: str) -> None:
    assert zone_of(*place) == f"EPSG:{grid}"


def test_an_ellipsoid_has_its_shorter_half_axis() -> None:
    assert Ellipsoid(6378137.0, 1 / 298.257222101).b == pytest.approx(6356752.3141, abs=1e-3)
