"""Soundness from outside: over made layers, no permitted place costs less than the bound that the command says, and the
site is permitted. What is permitted is told by shapely here, and beside a border by fractions."""

import csv
import json
from collections.abc import Iterator, Sequence
from fractions import Fraction
from math import nextafter
from pathlib import Path
from random import Random

import numpy as np
import pyproj
import pytest
from shapely.geometry import Point, Polygon
from shapely.ops import unary_union
from shapely.prepared import prep
from siting.command import main
from siting.exact.cost import Towns, cost, to_towns
from siting.layers import Ring, read_points, read_rings
from siting.make import Wanted, make
from siting.program import BUILT

PROGRAM = str(BUILT if BUILT.exists() else Path(__file__).parent / "stand_in")
QUESTIONS = ("near", "near-all", "far", "far-all", "mixed")
PLACES = 120  # of each problem
FAST, ALL = 25, 100
GEOD = pyproj.Geod(ellps="GRS80")
DEGREE = 111_000.0  # metres, or nearly

Place = tuple[float, float]


class Layers:
    """Made layers, and what of the plane they permit: by shapely, away from borders."""

    def __init__(self, folder: Path, seed: int):
        random = Random(seed)
        fast = seed < FAST
        counts = [100, 400] if fast else [100, 1000, 5000, 50_000]
        vertices = [50, 150] if fast else [50, 300, 2000]
        parcels = 0 if seed % 4 else random.choice([30, 200])  # as a region, whose parts share borders
        wanted = Wanted(seed, random.choice(counts), random.choice(vertices), seed % 6, seed % 5 + 1, parcels)
        make(wanted, folder)
        self.degrees = seed % 3 == 1
        self.unit = 1 / DEGREE if self.degrees else 1.0  # of a metre
        if self.degrees:
            to_degrees(folder)
        self.folder, self.random = folder, random
        self.region = folder / ("parcels.geojson" if parcels else "district.geojson")
        self.question, self.reach = QUESTIONS[seed % 5], random.choice([None, 5000, 20_000])
        self.rings = read_rings(str(self.region)).rings
        self.forests = read_rings(str(folder / "forests.geojson")).rings
        outer = [Polygon(ring) for ring in self.rings if Polygon(ring).exterior.is_ccw]
        holes = [Polygon(ring) for ring in self.rings if not Polygon(ring).exterior.is_ccw]
        islands = [area for area in outer if any(hole.contains(area) for hole in holes)]
        land = unary_union([area for area in outer if area not in islands]).difference(unary_union(holes))
        woods = unary_union([Polygon(ring) for ring in self.forests])
        self.permitted = unary_union([land, *islands]).difference(woods)

    def ask(self) -> dict[str, object]:
        """What siting answers."""
        words = [self.question, f"--towns={self.folder / 'towns.csv'}", "--weight=people", f"--region={self.region}"]
        crs = "EPSG:4258" if self.degrees else "EPSG:25832"
        words += [f"--forbid={self.folder / 'forests.geojson'}", f"--crs={crs}", f"--out={self.folder / 'out'}"]
        words += [f"--reach={self.reach}"] * (self.reach is not None)
        assert main([*words, "--tiles", "6", "--bsss", PROGRAM]) in (0, 1)
        return dict(json.loads((self.folder / "out" / "report.json").read_text()))

    def towns(self) -> Towns:
        """With the question's sign."""
        points = read_points(str(self.folder / "towns.csv"), ["people"])
        sign = -1 if self.question.startswith("far") else 1
        weights = [sign * Fraction(str(people)) for people in points.fields["people"]]
        ends = [None if self.reach is None else Fraction(self.reach)] * len(weights)
        return to_towns(list(zip(points.x, points.y)), weights, ends)

    def places(self, site: Place) -> Iterator[Place]:
        """Permitted places: in the middle, near the site, at vertices, on borders, and a little off these."""
        inside, spread = prep(self.permitted.buffer(-1e-6 * self.unit)), 300 * self.unit
        x0, y0, x1, y1 = self.permitted.bounds
        borders = [(a, b) for ring in [*self.rings, *self.forests] for a, b in zip(ring, ring[1:] + ring[:1])]
        while True:
            kind = self.random.randrange(4)
            (ax, ay), (bx, by) = self.random.choice(borders)
            if kind == 0:
                place = self.random.uniform(x0, x1), self.random.uniform(y0, y1)
            elif kind == 1:
                place = self.random.gauss(site[0], spread), self.random.gauss(site[1], spread)
            elif kind == 2:
                place = ax, ay
            else:
                way = self.random.random()
                place = ax + way * (bx - ax), ay + way * (by - ay)
            if kind > 1:
                place = self.off(*place)
            if inside.contains(Point(place)) or (kind > 1 and self.is_permitted(*place)):
                yield place

    def off(self, x: float, y: float) -> Place:
        """The place itself, or one beside it: a step of a double, or a thousandth of a millimetre away."""
        a, b = self.random.choice([(0.0, 0.0), (-1.0, 1.0), (1.0, 1.0), (1.0, -1.0), (-1.0, -1.0)])
        if self.random.random() < 0.5:
            return x + a * 1e-6 * self.unit, y + b * 1e-6 * self.unit
        return nextafter(x, x + a), nextafter(y, y + b)

    def cost(self, kind: str, towns: Towns, x: float, y: float) -> tuple[Fraction, Fraction]:
        """Of a place: exactly on a grid, and by PROJ on the ground, from below and from above."""
        if not self.degrees:
            return cost(kind, towns, x, y)
        count, places = len(towns.places), np.array(towns.places)
        ways = GEOD.inv(np.full(count, x), np.full(count, y), places[:, 0], places[:, 1])[2]
        ends = np.array([np.inf if cutoff is None else float(cutoff) for cutoff in towns.cutoffs])
        terms = np.array([float(weight) for weight in towns.weights]) / towns.share * np.minimum(ways, ends)
        found = Fraction(float(terms.max() if kind == "max" else terms.sum()))
        return found, found

    def is_permitted(self, x: float, y: float) -> bool:
        """By the crossings of a ray, in fractions; not where it is on an edge."""
        place = Fraction(x), Fraction(y)
        return (turns_of(self.rings, *place) or 0) > 0 and turns_of(self.forests, *place) == 0


def to_degrees(folder: Path) -> None:
    """Brings made layers from their grid to degrees: vertices and towns; edges are straight between."""
    turn = pyproj.Transformer.from_crs(25832, 4258, always_xy=True)
    for path in folder.glob("*.geojson"):
        layer = json.loads(path.read_text())
        for feature in layer["features"]:
            rings = feature["geometry"]["coordinates"]
            feature["geometry"]["coordinates"] = [[list(turn.transform(*place)) for place in ring] for ring in rings]
        path.write_text(json.dumps(layer | {"crs": {"type": "name", "properties": {"name": "EPSG:4258"}}}))
    with open(folder / "towns.csv", newline="") as file:
        head, *rows = csv.reader(file)
    at = head.index("x"), head.index("y")
    for row in rows:
        row[at[0]], row[at[1]] = map(repr, turn.transform(float(row[at[0]]), float(row[at[1]])))
    with open(folder / "towns.csv", "w", newline="") as file:
        csv.writer(file).writerows([head, *rows])


def turns_of(rings: Sequence[Ring], x: Fraction, y: Fraction) -> int | None:
    """How often rings go round a place, counter-clockwise; None where it is on one of their edges."""
    turns = 0
    for ring in rings:
        for (ax, ay), (bx, by) in zip(ring, ring[1:] + ring[:1]):
            if max(ay, by) < y or min(ay, by) > y:
                continue
            side = (Fraction(bx) - Fraction(ax)) * (y - Fraction(ay)) - (Fraction(by) - Fraction(ay)) * (
                x - Fraction(ax)
            )
            if side == 0 and min(ax, bx) <= x <= max(ax, bx):
                return None
            if (ay > y) != (by > y):
                turns += (1 if side > 0 else 0) if by > ay else (-1 if side < 0 else 0)
    return turns


@pytest.mark.parametrize(
    "seed", [pytest.param(seed, marks=[] if seed < FAST else pytest.mark.long) for seed in range(ALL)]
)
def test_no_permitted_place_costs_less(tmp_path: Path, seed: int) -> None:
    layers = Layers(tmp_path, seed)
    said = layers.ask()
    bound, site, kind = Fraction(str(said["bound"])), said["site"], str(said["kind"])
    assert isinstance(site, dict)
    x, y = float(site["x"]), float(site["y"])
    assert layers.permitted.distance(Point(x, y)) < 1e-6 * layers.unit
    assert said["distance"] == ("ground" if layers.degrees else "grid")
    towns = layers.towns()
    low, high = layers.cost(kind, towns, x, y)
    assert bound <= high and low <= Fraction(said["cost"][1])  # type: ignore[index]
    tried = list(zip(range(PLACES), layers.places((x, y))))
    near = np.array([place for _, place in tried])
    assert len(set(map(tuple, near.tolist()))) > PLACES / 2
    for _, place in tried:
        assert layers.cost(kind, towns, *place)[1] >= bound, place
