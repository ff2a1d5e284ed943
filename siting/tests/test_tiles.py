"""From towns and rings to a site and a bound: no permitted point costs less, whatever is asked."""

import time
from fractions import Fraction
from pathlib import Path
from random import Random

import numpy as np
import pytest
from siting.exact.answers import read_answer
from siting.exact.cost import Towns, cost, to_towns
from siting.problem import Problem
from siting.program import BUILT, Program
from siting.proposals.joining import join, to_groups
from siting.questions import QUESTIONS
from siting.exact.frame import ENDLESS, Town
from siting.tiles import Limits, Search

HERE = Path(__file__).parent
PROGRAM = str(BUILT if BUILT.exists() else HERE / "stand_in")
SIZE = 40_000.0  # metres


def towns_about(random: Random, count: int, question: str, reach: Fraction | None) -> Towns:
    """Towns about some middles, in centimetres, with weights of the question's sign."""
    middles = [(random.uniform(0, SIZE), random.uniform(0, SIZE)) for _ in range(8)]
    places, weights = [], []
    for _ in range(count):
        middle = random.choice(middles)
        places.append(tuple(round(random.gauss(v, SIZE / 12), 2) for v in middle))
        sign = QUESTIONS[question].sign or random.choice([1, 1, -1])
        weights.append(sign * random.choice([Fraction(random.randint(1, 9999)), Fraction(1, 3)]))
    return to_towns(places, weights, [reach] * count)


def district(random: Random) -> tuple[list[tuple[float, float]], list[tuple[float, float]]]:
    """A region that isn't convex, counter-clockwise, and a forest over its border."""
    region = [
        (0.0, 0.0),
        (SIZE, 0.0),
        (SIZE, SIZE),
        (SIZE / 2, random.uniform(0.3, 0.6) * SIZE),
        (0.0, SIZE),
    ]
    x, y = random.uniform(0.1, 0.7) * SIZE, random.uniform(-0.1, 0.2) * SIZE
    forest = [(x, y), (x + SIZE / 4, y), (x + SIZE / 5, y + SIZE / 3), (x, y + SIZE / 4)]
    return region, [(round(a, 2), round(b, 2)) for a, b in forest]


def is_inside(ring: list[tuple[float, float]], x: float, y: float) -> bool:
    """By the crossings of a ray, apart from the code under test; random points lie on no edge."""
    crossings = 0
    for (ax, ay), (bx, by) in zip(ring, ring[1:] + ring[:1]):
        if (ay > y) != (by > y) and x < ax + (y - ay) * (bx - ax) / (by - ay):
            crossings += 1
    return crossings % 2 == 1


def check(question: str, count: int, reach: int | None, seed: int, trials: int) -> Search:
    random = Random(seed)
    towns = towns_about(random, count, question, None if reach is None else Fraction(reach))
    region, forest = district(random)
    problem = Problem(QUESTIONS[question], towns, [""] * count, [tuple(region)], [tuple(forest)], Fraction(1))
    search = Search(problem, Program(PROGRAM), Limits(Fraction(1, 10), None, 8, 1), lambda text: None)
    search.go()
    bound, site = search.bound(), search.site
    assert site is not None and bound is not None and bound <= site.high
    assert is_inside(region, site.x, site.y) or site.x in (0, SIZE) or site.y in (0, SIZE)
    tried = 0
    while tried < trials:
        x, y = random.uniform(0, SIZE), random.uniform(0, SIZE)
        if tried % 2:  # half of them near the site
            x, y = random.gauss(site.x, SIZE / 500), random.gauss(site.y, SIZE / 500)
        if is_inside(region, x, y) and not is_inside(forest, x, y):
            assert cost(problem.question.kind, towns, x, y)[1] >= bound
            tried += 1
        elif tried % 2:
            tried += random.random() < 0.01
    return search


CASES = [
    ("near", 300, None),
    ("near", 300, 6000),
    ("near-all", 500, None),
    ("far", 300, None),
    ("far", 300, 9000),
    ("far-all", 200, None),
    ("mixed", 300, None),
    ("mixed", 200, 5000),
]
BUILT_CASES = [
    ("near", 10_000, None),
    ("far", 10_000, None),
    ("near-all", 20_000, None),
    ("far", 6_000, 8000),
]


@pytest.mark.parametrize("question, count, reach", CASES)
def test_no_permitted_point_costs_less(question: str, count: int, reach: int | None) -> None:
    check(question, count, reach, seed=count, trials=200)


@pytest.mark.skipif(not BUILT.exists(), reason="bsss isn't built")
@pytest.mark.parametrize("question, count, reach", BUILT_CASES)
def test_with_joined_towns(question: str, count: int, reach: int | None) -> None:
    check(question, count, reach, seed=count, trials=100)


@pytest.mark.long
@pytest.mark.skipif(not BUILT.exists(), reason="bsss isn't built")
@pytest.mark.parametrize("seed", range(100))
def test_many_problems(seed: int) -> None:
    question, _, reach = CASES[seed % len(CASES)]
    check(question, Random(seed).choice([100, 1000, 5000, 50_000]), reach, seed, trials=120)


def test_joining_keeps_signs_and_cutoffs_apart() -> None:
    random = Random(1)
    towns = [
        Town(
            random.randrange(1 << 30),
            random.randrange(1 << 30),
            random.choice([3, -2]),
            random.choice([ENDLESS, 9]),
        )
        for _ in range(500)
    ]
    joined = join(towns, (0.0, 0.0, 1e9, 1e9), 40)
    assert len(joined) == 40 and sorted(n for part in joined for n in part) == list(range(500))
    for part in joined:
        assert len({(towns[n].weight > 0, towns[n].cutoff) for n in part}) == 1
    groups, scale = to_groups(towns, joined)
    assert scale == 1 and sum(group.weight for group in groups) == sum(town.weight for town in towns)


@pytest.mark.parametrize("question, within", [("near-all", 100), ("near", 0)])
def test_time_that_runs_out_in_a_second_round(
    question: str, within: int, tmp_path: Path, monkeypatch: pytest.MonkeyPatch
) -> None:
    """The first answer stays whole: its instance, its charges and its bound are those of one question."""
    once = tmp_path / "once"
    once.write_text(
        f'#!/bin/sh\n[ "$1" = solve ] && {{ [ -e {tmp_path}/solved ] && exec sleep 600; touch {tmp_path}/solved; }}\n'
        f'exec {PROGRAM} "$@"\n'
    )
    once.chmod(0o755)
    monkeypatch.setattr("siting.tiles.first_choice", lambda towns: [np.array([0])])
    towns = towns_about(Random(2), 40, question, None)
    region, _ = district(Random(2))
    problem = Problem(QUESTIONS[question], towns, [""] * 40, [tuple(region)], [], Fraction(1))
    limits = Limits(Fraction(within), time.monotonic() + 5, 8, 1)
    search = Search(problem, Program(str(once)), limits, lambda text: None)
    search.go()
    (run,) = search.runs
    assert run.solved is not None and (tmp_path / "solved").exists() and time.monotonic() > (limits.until or 0)
    assert read_answer(run.solved.text, run.solved.instance) == run.solved.answer
    points = [line for line in run.solved.instance.splitlines() if line.startswith("point ")]
    assert len(points) == (1 if question == "near-all" else 40)
    assert len(run.solved.charges.groups) == (1 if question == "near-all" else 0)
    assert search.bound() is not None and search.site is not None and search.bound() <= search.site.high
