"""Makes layers for trials, from a seed: a district with bays, lakes, islands and forests; parcels; and towns."""

import csv
from dataclasses import dataclass
from itertools import product
from math import ceil, cos, pi, sin, sqrt
from pathlib import Path
from random import Random

from osgeo import gdal

from . import geos
from .layers import write_areas

Place = tuple[float, float]
Ring = list[Place]
Area = list[Ring]  # an outer ring, counter-clockwise, and its holes, clockwise
Town = tuple[str, int, float, float]

GRID = "EPSG:25832"
MIDDLE = (550_000.0, 5_800_000.0)  # of the district, in that grid
RADIUS = 30_000.0  # of the district, metres
PACKAGE = "layers.gpkg"
BAY = (0.55, 0.28)  # how far a bay goes in, of the district's radius, and half how wide it is, in radians
STEMS = (
    "Ahorn Birken Buchen Dorn Eichen Erlen Eschen Falken Fichten Ginster Hasel Heide Hirsch Holz Ilmen Kiefern Klee "
    "Kranich Lärchen Linden Moos Neu Nuss Otter Pappel Reiher Rohr Rosen Schilf Schlehen Stein Tannen Ulmen Wald "
    "Weiden Wiesen Wolfs Ziegel"
).split()
ENDINGS = (
    "au bach berg born brunn bruck dorf feld furt hain hausen heim hof holm ried see stedt tal wald werder".split()
)


@dataclass(frozen=True)
class Wanted:
    """How many of each; the parcels only where there are any, and all in one GeoPackage besides, if so wanted."""

    seed: int
    towns: int
    vertices: int
    lakes: int
    forests: int
    parcels: int = 0
    package: bool = False


def make(wanted: Wanted, folder: Path) -> None:
    """Writes towns.csv, district.geojson, forests.geojson and parcels.geojson into the folder."""
    random = Random(wanted.seed)
    folder.mkdir(parents=True, exist_ok=True)
    layers = areas(random, wanted)
    if wanted.parcels:
        layers["parcels"] = parcels(random, wanted.parcels)
    for name, layer in layers.items():
        write_areas(folder / f"{name}.geojson", layer, GRID)
    write_towns(folder / "towns.csv", towns(random, wanted.towns))
    if wanted.package:
        write_package(folder, ["towns.csv", *(f"{name}.geojson" for name in layers)])


# shapes


def areas(random: Random, wanted: Wanted) -> dict[str, list[Area]]:
    """The district, with an island in each of its lakes, and the forests, three of which cross its border."""
    shore = outline(random, *MIDDLE, RADIUS, max(8, wanted.vertices // 2), bay=random.uniform(0, 2 * pi))
    places = spots(random, shore, wanted.lakes + wanted.forests)
    lakes, forests = places[: wanted.lakes], places[wanted.lakes :]
    each = max(8, wanted.vertices // (2 + wanted.lakes + wanted.forests))
    waters = [outline(random, *spot, each) for spot in lakes]
    islands = [outline(random, x, y, radius / 4, 8) for x, y, radius in lakes]
    across = [(*shore[n * len(shore) // 3], RADIUS * 0.1) for n in range(3)] if wanted.forests else []
    woods = [outline(random, *spot, each) for spot in [*forests, *across]]
    district = [[shore, *(water[::-1] for water in waters)], *([island] for island in islands)]
    return {"district": district, "forests": [[wood] for wood in woods]}


def outline(random: Random, x: float, y: float, radius: float, count: int, bay: float | None = None) -> Ring:
    """A ring round a middle, counter-clockwise: its distance from the middle goes in waves, and less in the direction
    of a bay, in radians."""
    waves = [(k, random.uniform(0, 2 * pi), random.uniform(0.02, 0.3) / k) for k in (2, 3, 5, 9, 17)]
    ring = []
    for step in range(count):
        turn = 2 * pi * step / count
        way = radius * (0.65 + sum(size * sin(k * turn + at) for k, at, size in waves))
        if bay is not None:
            off = abs((turn - bay + pi) % (2 * pi) - pi) / BAY[1]
            way *= 1 - BAY[0] * max(0.0, 1 - off**2) ** 2
        ring.append((round(x + way * cos(turn), 2), round(y + way * sin(turn), 2)))
    return ring


def spots(random: Random, shore: Ring, count: int) -> list[tuple[float, float, float]]:
    """Middles and radii of discs inside the shore that don't meet, of this number or as many as there is room for."""
    district = geos.areas([[shore]])
    found: list[tuple[float, float, float]] = []
    largest = 0.08 if count <= 20 else 0.36 / sqrt(count)
    for _ in range(400 * count):
        if len(found) == count:
            break
        x, y = (value + random.uniform(-0.8, 0.8) * RADIUS for value in MIDDLE)
        radius = RADIUS * random.uniform(0.2, 1) * largest
        alone = all((x - a) ** 2 + (y - b) ** 2 > (1.1 * (radius + r)) ** 2 for a, b, r in found)
        if alone and district.Contains(geos.grown(geos.point(x, y), 1.1 * radius)):
            found.append((x, y, radius))
    return found


def parcels(random: Random, count: int) -> list[Area]:
    """Quarters of a town, four fifths of those in a lattice with moved corners, so that neighbours share their borders."""
    side = ceil(sqrt(count / 0.8))
    step = 0.8 * RADIUS / side

    def corner(i: int, j: int) -> Place:
        x, y = (value - 0.4 * RADIUS + step * at for value, at in zip(MIDDLE, (i, j)))
        return round(x + random.uniform(-0.2, 0.2) * step, 2), round(y + random.uniform(-0.2, 0.2) * step, 2)

    corners = {(i, j): corner(i, j) for i, j in product(range(side + 1), repeat=2)}
    chosen = random.sample(list(product(range(side), repeat=2)), count)
    return [[[corners[i + a, j + b] for a, b in ((0, 0), (1, 0), (1, 1), (0, 1))]] for i, j in chosen]


def towns(random: Random, count: int) -> list[Town]:
    """Towns about some middles, few of them with many people."""
    places = [tuple(value + random.uniform(-1.2, 1.2) * RADIUS for value in MIDDLE) for _ in range(12)]
    widths = [random.uniform(0.03, 0.4) * RADIUS for _ in places]
    found, names = [], town_names(random, count)
    for number in range(count):
        at = random.randrange(len(places))
        x, y = (round(random.gauss(value, widths[at]), 2) for value in places[at])
        people = min(int(random.paretovariate(1.1) * 100), 1_000_000)
        found.append((names[number], people, x, y))
    return found


def town_names(random: Random, count: int) -> list[str]:
    """Names of towns, no two alike: those of a stem and an ending first, then with a number behind them."""
    names = [stem + ending for stem, ending in product(STEMS, ENDINGS)]
    random.shuffle(names)
    return [names[n % len(names)] + (f" {n // len(names) + 1}" if n >= len(names) else "") for n in range(count)]


# files


def write_towns(path: Path, rows: list[Town]) -> None:
    """Writes towns as a table."""
    with open(path, "w", newline="", encoding="utf-8") as file:
        csv.writer(file).writerows([("name", "people", "x", "y"), *rows])


def write_package(folder: Path, names: list[str]) -> None:
    """Writes the layers once more, into one GeoPackage."""
    columns = ["X_POSSIBLE_NAMES=x", "Y_POSSIBLE_NAMES=y", "AUTODETECT_TYPE=YES"]
    for at, name in enumerate(names):
        source = gdal.OpenEx(str(folder / name), open_options=columns if name.endswith(".csv") else [])
        words = ["-of", "GPKG", "-nln", Path(name).stem, "-a_srs", GRID, *(["-update"] if at else [])]
        gdal.VectorTranslate(str(folder / PACKAGE), source, options=words)
