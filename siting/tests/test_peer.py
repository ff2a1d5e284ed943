"""The same questions answered by another way, scipy and shapely: no better than the bound, and no better than the site
but for the gap. Nothing of `siting` is used but its command."""

import json
from itertools import product
from pathlib import Path
from random import Random

import numpy as np
import numpy.typing as npt
import pytest
from scipy.optimize import minimize
from shapely.geometry import MultiPolygon, Point, Polygon
from shapely.geometry.base import BaseGeometry
from shapely.ops import unary_union
from siting.command import main
from siting.layers import write_areas
from siting.program import BUILT

PROGRAM = str(BUILT if BUILT.exists() else Path(__file__).parent / "stand_in")
QUESTIONS = ("near", "near-all", "far", "far-all", "mixed")
GRID = 60  # points of a side
FAST, ALL = 5, 50

Floats = npt.NDArray[np.float64]


class Trial:
    """A seeded question: towns with weights and a region with a bay and a lake, less two forests."""

    def __init__(self, seed: int):
        random = Random(seed)
        self.question, self.reach = QUESTIONS[seed % 5], random.choice([None, None, 6000])
        count = random.choice([1, 3, 20, 100])
        self.places = np.array([[round(random.uniform(-5e3, 25e3), 1) for _ in "xy"] for _ in range(count)])
        signs = [random.choice([1, 1, -1]) if self.question == "mixed" else 1 for _ in range(count)]
        self.weights = np.array([random.randint(1, 500) * sign for sign in signs], dtype=float)
        bay = (round(random.uniform(5e3, 15e3), 1), round(random.uniform(4e3, 16e3), 1))
        shore = [(0.0, 0.0), (20e3, 0.0), (20e3, 20e3), bay, (0.0, 20e3)]
        x, y = round(random.uniform(2e3, 6e3), 1), round(random.uniform(1e3, 3e3), 1)
        lake = [(x, y), (x, y + 2e3), (x + 3e3, y + 1e3)]
        self.region = [[shore, lake]]
        self.forests = [[self.forest(random)] for _ in range(2)]
        woods = unary_union([Polygon(*rings) for rings in self.forests])
        self.permitted = Polygon(shore, [lake]).difference(woods)

    def forest(self, random: Random) -> list[tuple[float, float]]:
        x, y = random.uniform(-2e3, 20e3), random.uniform(-2e3, 20e3)
        return [(round(x + a, 1), round(y + b, 1)) for a, b in ((0, 0), (3e3, -1e3), (4e3, 3e3), (1e3, 4e3))]

    def ask(self, folder: Path) -> dict[str, object]:
        """What siting answers."""
        rows = [f"{x!r},{y!r},{int(w)}" for (x, y), w in zip(self.places.tolist(), self.weights)]
        (folder / "towns.csv").write_text("\n".join(["x,y,weight", *rows]) + "\n")
        write_areas(folder / "region.geojson", self.region, "EPSG:25832")
        write_areas(folder / "forests.geojson", self.forests, "EPSG:25832")
        words = [f"--{name}={folder / file}" for name, file in (("towns", "towns.csv"), ("region", "region.geojson"))]
        words += [f"--forbid={folder / 'forests.geojson'}", "--weight=weight", f"--out={folder / 'out'}"]
        words += [f"--reach={self.reach}"] * (self.reach is not None)
        assert main([self.question, *words, "--tiles", "8", "--bsss", PROGRAM]) in (0, 1)
        return dict(json.loads((folder / "out" / "report.json").read_text()))

    def cost(self, places: Floats) -> Floats:
        """The costs of places, in doubles."""
        ways = np.hypot(*(places[:, None, :] - self.places[None, :, :]).transpose(2, 0, 1))
        terms = np.minimum(ways, self.reach or np.inf) * self.weights * (-1 if self.question.startswith("far") else 1)
        return np.asarray(terms.max(1) if self.question.endswith("all") else terms.sum(1), dtype=float)

    def best(self) -> float:
        """The least cost of a permitted place that was found: on a grid, on the borders, and by descent from these."""
        x0, y0, x1, y1 = self.permitted.bounds
        grid = [(x, y) for x, y in product(np.linspace(x0, x1, GRID), np.linspace(y0, y1, GRID))]
        inside = [place for place in grid if self.permitted.contains(Point(place))]
        places = np.array(inside + self.border())
        costs = self.cost(places)
        found = float(costs.min())
        for start in places[np.argsort(costs)[:4]]:
            done = minimize(self.penalised, start, method="Nelder-Mead", options={"xatol": 1e-4, "fatol": 1e-9})
            if self.permitted.covers(Point(done.x)):
                found = min(found, float(done.fun))
        return min(found, self.weiszfeld())

    def penalised(self, place: Floats) -> float:
        return float(self.cost(place[None, :])[0]) if self.permitted.covers(Point(place)) else float("inf")

    def border(self) -> list[tuple[float, float]]:
        """Places close together on the borders."""
        parts: list[BaseGeometry] = list(getattr(self.permitted, "geoms", [self.permitted]))
        rings = [ring for part in parts for ring in (part.exterior, *part.interiors)]
        return [tuple(ring.interpolate(way).coords[0]) for ring in rings for way in np.arange(0, ring.length, 50)]

    def weiszfeld(self) -> float:
        """Of the question near without reaches, the least cost anywhere, where its place is permitted."""
        if self.question != "near" or self.reach is not None:
            return float("inf")
        place = np.average(self.places, axis=0, weights=self.weights)
        for _ in range(3000):
            pulls = self.weights / np.maximum(np.hypot(*(self.places - place).T), 1e-9)
            place = np.average(self.places, axis=0, weights=pulls)
        return self.penalised(place)


@pytest.mark.parametrize(
    "seed", [pytest.param(seed, marks=[] if seed < FAST else pytest.mark.long) for seed in range(ALL)]
)
def test_a_peer_finds_nothing_below_the_bound(tmp_path: Path, seed: int) -> None:
    trial = Trial(seed)
    assert isinstance(trial.permitted, (Polygon, MultiPolygon))
    said, best = trial.ask(tmp_path), trial.best()
    bound, (low, high) = float(str(said["bound"])), map(float, said["cost"])  # type: ignore[call-overload]
    rounding = 1e-9 * abs(best) + 1e-6
    assert best >= bound - rounding
    site = said["site"]
    assert isinstance(site, dict)
    x, y = float(site["x"]), float(site["y"])
    assert low - rounding <= trial.cost(np.array([[x, y]]))[0] <= high + rounding
    assert trial.permitted.distance(Point(x, y)) < 1e-6
    if BUILT.exists():  # the stand-in stops early
        assert high <= best + max(1e-3 * abs(high), 1e-6 * 20e3 * float(np.abs(trial.weights).sum()))
