"""Where the package is, which tests are long, and a search that many look at."""

import sys
from fractions import Fraction
from pathlib import Path
from random import Random

import pytest
from hypothesis import settings

sys.path.insert(0, str(Path(__file__).parent.parent))

from siting.exact.cost import to_towns
from siting.near import NearSet, near_sets
from siting.problem import Problem
from siting.program import BUILT, Program
from siting.questions import QUESTIONS
from siting.tiles import Limits, Search

settings.register_profile("siting", deadline=None)  # a machine may be busy
settings.load_profile("siting")

PROGRAM = str(BUILT if BUILT.exists() else Path(__file__).parent / "stand_in")
REGION = ((0.0, 0.0), (8000.0, 0.0), (8000.0, 8000.0), (4000.0, 5000.0), (0.0, 8000.0))
FOREST = ((1000.0, -100.0), (3000.0, -100.0), (3000.0, 2000.0), (1000.0, 2000.0))


@pytest.fixture(scope="session")
def search() -> Search:
    """A search that has ended: 80 towns, some of which push, and a region with a bay and a forest."""
    random = Random(4)
    places = [(random.uniform(-2000, 10000), random.uniform(-2000, 10000)) for _ in range(80)]
    weights = [Fraction(random.choice([-1, 2, 3]) * random.randint(1, 99)) for _ in places]
    towns = to_towns(places, weights, [None] * len(places))
    names = [f"<town {number}>" for number in range(len(places))]
    problem = Problem(QUESTIONS["mixed"], towns, names, [REGION], [FOREST], Fraction(1))
    found = Search(problem, Program(PROGRAM), Limits(Fraction(1), None, 4, 1), lambda text: None)
    found.go()
    return found


@pytest.fixture(scope="session")
def near(search: Search) -> list[NearSet]:
    """The near sets of that search."""
    return near_sets(search)


def pytest_addoption(parser: pytest.Parser) -> None:
    parser.addoption("--long", action="store_true", help="run the long tests too")


def pytest_configure(config: pytest.Config) -> None:
    config.addinivalue_line("markers", "long: only with --long")


def pytest_collection_modifyitems(config: pytest.Config, items: list[pytest.Item]) -> None:
    if not config.getoption("--long"):
        for item in items:
            if "long" in item.keywords:
                item.add_marker(pytest.mark.skip(reason="only with --long"))
