"""Near sets: nested, holding all that costs so little more, of cells whose polygons are the same set exactly."""

from fractions import Fraction
from random import Random

import numpy as np
import pytest
from hypothesis import given
from hypothesis import strategies as st
from siting.exact.cost import cost
from siting.near import ACROSS, PERCENTS, NearSet, checked, in_cells, near_sets, outlines
from siting import tiles

BOXES = st.lists(
    st.tuples(*[st.integers(-(10**6), 10**6)] * 2, *[st.integers(0, 10**5)] * 2), min_size=1, max_size=9
)
GRIDS = st.lists(st.lists(st.booleans(), min_size=7, max_size=7), min_size=1, max_size=7).map(np.array)


def held(near: NearSet, x: float, y: float) -> bool:
    """Whether a closed cell holds the place, exactly."""
    ways = [Fraction(v) / near.side - at for v, at in ((x, near.x), (y, near.y))]
    columns, rows = ({int(way // 1), int(-(-way // 1)) - 1} for way in ways)
    height, width = near.cells.shape
    return any(
        near.cells[row, column] for row in rows for column in columns if 0 <= row < height and 0 <= column < width
    )


def is_within(small: NearSet, large: NearSet) -> bool:
    """Whether each cell of one is in a cell of the other."""
    times = large.side / small.side
    rows, columns = np.nonzero(small.cells)
    if times.denominator != 1:
        return False
    return bool(
        large.cells[(rows + small.y) // int(times) - large.y, (columns + small.x) // int(times) - large.x].all()
    )


def test_they_hold_what_costs_little_more(search: tiles.Search, near: list[NearSet]) -> None:
    site = search.site
    assert site is not None and [found.percent for found in near] == list(PERCENTS)
    random, counts = Random(7), {percent: 0 for percent in PERCENTS}
    places = [(random.uniform(0, 8000), random.uniform(0, 6500)) for _ in range(1500)]
    places += [(site.x + random.gauss(0, 150), site.y + random.gauss(0, 150)) for _ in range(300)]
    for x, y in [(site.x, site.y), *places]:
        inside = 0 <= y <= 5000 + abs(x - 4000) * 0.75 and 0 <= x <= 8000  # a little less than the region
        if inside and not (1000 < x < 3000 and y < 2000):
            more = (cost("sum", search.problem.towns, x, y)[1] - site.high) / abs(site.high) * 100
            for found in near:
                if more <= found.percent:
                    counts[found.percent] += 1
                    assert held(found, x, y), (found.percent, x, y)
    assert all(count > 0 for count in counts.values())


def test_they_are_nested_and_polygons_have_their_area(search: tiles.Search, near: list[NearSet]) -> None:
    for small, large in zip(near, near[1:]):
        assert is_within(small, large)
        assert small.square_metres(search.planes) <= large.square_metres(search.planes)
    for found in near:
        rings = [[(Fraction(x), Fraction(y)) for x, y in ring] for rings in found.polygons for ring in rings]
        twice = (x * b - a * y for ring in rings for (x, y), (a, b) in zip(ring, [*ring[1:], ring[0]]))
        assert sum(twice) / 2 == found.square_metres(search.planes)


def test_without_a_site_there_are_none(search: tiles.Search, monkeypatch: pytest.MonkeyPatch) -> None:
    monkeypatch.setattr(search, "site", None)
    assert near_sets(search) == []


@given(BOXES, st.integers(0, 3))
def test_cells_hold_the_boxes_and_grow_with_them(sized: list[tuple[int, int, int, int]], less: int) -> None:
    boxes = [(x, y, x + width, y + height) for x, y, width, height in sized]
    near = in_cells(1, boxes, Fraction(1, 4))
    assert max(near.cells.shape) <= ACROSS + 1
    for b in boxes:
        for x, y in ((b[0], b[1]), (b[2], b[3]), (b[0], b[3])):
            assert held(near, x / 4, y / 4)
    fewer = in_cells(1, boxes[less:] or boxes, Fraction(1, 4))
    assert is_within(fewer, near)


def test_cells_are_so_large_that_doubles_hold_them() -> None:
    at = 2**60 + 1
    near = in_cells(1, [(at, at, at + 3, at + 3)], Fraction(1))
    assert near.side == 2**8 and set(map(int, sum(near.polygons[0][0], ()))) == {2**60, 2**60 + 2**8}


@given(GRIDS)
def test_polygons_are_the_cells(cells: "np.ndarray[tuple[int, int], np.dtype[np.bool_]]") -> None:
    polygons = checked(outlines(cells), cells) if cells.any() else []
    assert sum(len(rings) > 0 for rings in polygons) == len(polygons)
    if polygons:
        moved = [[(x + 1, y) for x, y in ring] for ring in polygons[0]]
        for wrong in (polygons[1:], [*polygons, polygons[0]], [moved, *polygons[1:]]):
            with pytest.raises((tiles.TestFailed, IndexError)):
                checked(wrong, cells)
