"""Made layers: the same from the same seed, and what their names say."""

import subprocess
from pathlib import Path
from random import Random

import pytest
from shapely.geometry import Polygon
from shapely.ops import unary_union
from siting.layers import read_points, read_rings
from siting.make import PACKAGE, Wanted, make, town_names

EXAMPLE = Path(__file__).parents[2] / "examples" / "district"


@pytest.mark.parametrize("seed", range(12))
def test_district(tmp_path: Path, seed: int) -> None:
    make(Wanted(seed, towns=50, vertices=60 * (seed + 1), lakes=seed, forests=4), tmp_path)
    district = [Polygon(ring) for ring in read_rings(str(tmp_path / "district.geojson")).rings]
    outer = [ring for ring in district if ring.exterior.is_ccw]
    assert len(outer) == 1 + seed and len(district) == 1 + 2 * seed  # a lake and an island each
    shore = max(district, key=lambda ring: ring.area)
    woods = [Polygon(ring) for ring in read_rings(str(tmp_path / "forests.geojson")).rings]
    assert (
        len(woods) == 7 and sum(wood.crosses(shore.exterior) or wood.intersects(shore.exterior) for wood in woods) >= 3
    )
    towns = read_points(str(tmp_path / "towns.csv"), ["people"])
    assert len(towns.x) == 50 and all(int(str(people)) > 0 for people in towns.fields["people"])


def test_parcels_share_borders(tmp_path: Path) -> None:
    make(Wanted(1, towns=1, vertices=20, lakes=0, forests=0, parcels=200), tmp_path)
    rings = read_rings(str(tmp_path / "parcels.geojson")).rings
    edges = [edge for ring in rings for edge in zip(ring, ring[1:] + ring[:1])]
    shared = sum((b, a) in set(edges) for a, b in edges)
    assert len(rings) == 200 and shared > len(edges) / 2
    whole = unary_union([Polygon(ring) for ring in rings])
    assert whole.area == pytest.approx(sum(Polygon(ring).area for ring in rings))


def test_package_has_the_same(tmp_path: Path) -> None:
    wanted = Wanted(5, towns=20, vertices=40, lakes=1, forests=1, parcels=4, package=True)
    make(wanted, tmp_path)
    make(wanted, tmp_path / "again")
    for name in ("towns.csv", "district.geojson", "forests.geojson", "parcels.geojson"):
        assert (tmp_path / name).read_bytes() == (tmp_path / "again" / name).read_bytes()
    table = read_points(str(tmp_path / "towns.csv"), ["people"])
    packed = read_points(f"{tmp_path / PACKAGE}:towns", ["people"])
    assert (packed.x, packed.y) == (table.x, table.y) and packed.crs is not None and packed.crs.to_epsg() == 25832
    assert list(map(str, packed.fields["people"])) == table.fields["people"]
    for name in ("district", "forests", "parcels"):
        layers = read_rings(str(tmp_path / f"{name}.geojson")), read_rings(f"{tmp_path / PACKAGE}:{name}")
        assert set(map(frozenset, layers[0].rings)) == set(map(frozenset, layers[1].rings))


def test_the_example_is_what_its_script_makes(tmp_path: Path) -> None:
    subprocess.run([EXAMPLE / "make", tmp_path], check=True)
    names = ["district.geojson", "forests.geojson", "towns.csv"]
    assert sorted(path.name for path in tmp_path.iterdir()) == names
    for name in names:
        assert (tmp_path / name).read_bytes() == (EXAMPLE / name).read_bytes()
    people = read_points(str(EXAMPLE / "towns.csv"), ["name", "people"])
    assert len(set(people.fields["name"])) == len(people.x) == 300


def test_names_are_no_two_alike() -> None:
    names = town_names(Random(1), 3000)
    assert len(set(names)) == 3000 and sum(name[-1].isdigit() for name in names) > 2000
