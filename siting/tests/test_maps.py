"""Maps: what each picture has, at both extremes, and that it can be read in grey."""

from fractions import Fraction
from math import cos, pi, sin
from pathlib import Path
from random import Random
from xml.etree import ElementTree

import numpy as np
import pytest
from matplotlib.colors import to_rgb
from matplotlib.image import imread
from siting.drawing import HIGH, LOW, TOWNS, equal_costs, heaviest, joined, round_length, thinned, town_words, view_of
from siting.exact.cost import to_towns
from siting.maps import write_maps
from siting.near import NearSet
from siting.palette import BOUNDS, NEAR
from siting.problem import Problem
from siting.questions import QUESTIONS
from siting.squares import bounded_squares
from siting.tiles import Limits, Search, Site

NAMES = {f"near-{percent}" for percent in NEAR} | {"site", "scale-bar", "north", "legend", "region", "forbidden"}


class Unneeded:
    """In the place of a program that isn't called."""


def made(question: str, towns: int, vertices: int, high: float = 1.0, cutoff: Fraction | None = None) -> Search:
    """A problem with a site and no answer."""
    random = Random(towns)
    places = [(random.gauss(5e5, 2e4), random.gauss(5e6, 2e4)) for _ in range(towns)]
    turns = [2 * pi * n / vertices for n in range(vertices)]
    ring = [(5e5 + 3e4 * cos(t), 5e6 + high * 3e4 * (1 + 0.05 * sin(40 * t)) * sin(t)) for t in turns]
    weights = [Fraction(random.randint(1, 10**6)) * (QUESTIONS[question].sign or 1) for _ in places]
    known = to_towns(places, weights, [cutoff] * towns)
    problem = Problem(QUESTIONS[question], known, [f"town {n}" for n in range(towns)], [ring], [], Fraction(1))
    search = Search(problem, Unneeded(), Limits(Fraction(1), None, 1, 1), lambda text: None)  # type: ignore[arg-type]
    cost = Fraction(search.landscape.cost(5e5, 5e6))
    search.site = Site(5e5, 5e6, cost, cost, float(abs(cost)))
    return search


def test_pictures(search: Search, near: list[NearSet], tmp_path: Path) -> None:
    write_maps(search, near, bounded_squares(search), "so & <so>; at most 1 % from the best", tmp_path)
    assert {path.name for path in tmp_path.iterdir()} == {"map.png", "map.svg", "squares.png", "squares.svg"}
    for name, wanted in (("map", NAMES | {"towns", "towns-far", "cost-lines"}), ("squares", {"site", "forbidden"})):
        root = ElementTree.parse(tmp_path / f"{name}.svg").getroot()
        assert wanted | {"scale-bar", "north", "legend"} <= {element.get("id") for element in root.iter()}
        picture = imread(tmp_path / f"{name}.png")
        assert picture.shape[1] == 1125 and 900 < picture.shape[0] < 1600 and picture[..., :3].std() > 0.05
    words = "".join(ElementTree.parse(tmp_path / "map.svg").getroot().itertext())
    assert "so & <so>; at most 1 % from the best" in words and "2 km" in words and "computed, not proved" in words
    assert all(f"holds all within {percent} %" in words for percent in NEAR)
    assert (tmp_path / "map.svg").stat().st_size < 400_000


def test_the_same_answer_gives_the_same_pictures(search: Search, near: list[NearSet], tmp_path: Path) -> None:
    for folder in (tmp_path / "one", tmp_path / "two"):
        folder.mkdir()
        write_maps(search, near[:1], [], "title", folder)
    for name in ("map.png", "map.svg"):
        assert (tmp_path / "one" / name).read_bytes() == (tmp_path / "two" / name).read_bytes()


def test_extremes(tmp_path: Path) -> None:
    for towns, vertices in ((5, 50), (50_000, 16_000)):
        search = made("near", towns, vertices)
        folder = tmp_path / str(towns)
        folder.mkdir()
        write_maps(search, [], [], "title", folder)
        words = "".join(ElementTree.parse(folder / "map.svg").getroot().itertext())
        assert ("the 3000 heaviest of 50000 towns" in words) == (towns == 50_000)
        assert (folder / "map.svg").stat().st_size < 2_000_000


def test_shades_differ_in_grey() -> None:
    for colours in (list(NEAR.values()), [colour for *_, colour in BOUNDS][::-1]):
        greys = [float(np.dot(to_rgb(colour), (0.299, 0.587, 0.114))) for colour in colours]
        assert all(light - dark >= 0.07 for light, dark in zip(greys, greys[1:]))


@pytest.mark.parametrize("high", [0.01, 1.0, 40.0])
def test_views_hold_the_region_and_are_no_strips(high: float) -> None:
    search = made("near", 5, 50, high)
    view = view_of(search)
    assert LOW - 1e-9 <= view.ratio <= HIGH + 1e-9
    for x, y in search.problem.region[0]:
        assert view.x0 < x < view.x1 and view.y0 < y < view.y1


def test_towns_drawn_are_the_heaviest_in_view() -> None:
    search = made("near", 9_000, 50)
    view, weights = view_of(search), search.landscape.weights
    drawn = heaviest(search, view)
    assert len(drawn) == TOWNS and list(weights[drawn]) == sorted(weights[drawn], reverse=True)
    inside = (abs(search.landscape.x - 5e5) < view.width / 2) & (abs(search.landscape.y - 5e6) < view.height / 2)
    assert (weights[inside] > weights[drawn[-1]]).sum() < TOWNS
    assert town_words(search, 9_000) == "all 9000 towns" and "12 of 9000" in town_words(search, 12)


@pytest.mark.parametrize(
    "question, cutoff", [("near", None), ("near", Fraction(9000)), ("far", None), ("near-all", None)]
)
def test_lines_of_equal_cost(question: str, cutoff: Fraction | None) -> None:
    search = made(question, 4_000, 50, cutoff=cutoff)
    if question == "far":
        search.site = Site(5.3e5, 5e6, Fraction(0), Fraction(0), 0.0)
    assert search.site is not None
    view, land = view_of(search), search.landscape
    assert len(joined(search, view.width / 64)[0]) < 4_000
    lines = equal_costs(search, view)
    assert lines
    best = land.cost(search.site.x, search.site.y)
    for line in lines:
        for x, y in line.places[:: max(1, len(line.places) // 5)]:
            more = (land.cost(x, y) - best) / abs(best) * 100
            assert more == pytest.approx(line.percent, abs=0.5 + 0.05 * line.percent)


def test_rings_thinned_stay_near_and_keep_three_vertices() -> None:
    ring = [(float(n % 100), float(n // 100)) for n in range(500)]
    (few,), (small,) = thinned([ring], 10.0), thinned([ring], 1e6)
    assert 3 <= len(few) < 100 and len(small) == 3
    assert all(min(np.hypot(*(few - place).T)) <= 10 for place in ring)


@pytest.mark.parametrize("most, length", [(9999.0, 5000.0), (5000.0, 5000.0), (1.5, 1.0), (0.03, 0.02)])
def test_scale_bars(most: float, length: float) -> None:
    assert round_length(most) == pytest.approx(length)
