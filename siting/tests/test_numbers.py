"""The trusted numbers (frames, costs, charges, bounds) against fractions, on places chosen by hypothesis."""

from fractions import Fraction
from math import isqrt, sqrt

import pytest
from hypothesis import given, settings
from hypothesis import strategies as st

from siting.exact.answers import Answer, Square, instance_text, read_answer, read_polished
from siting.exact.bound import least
from siting.exact.charges import Charge, Charges, Group, to_grid
from siting.exact.cost import cost, to_towns
from siting.exact.frame import ENDLESS, Frame, Town, nearest

GRID = 65536
doubles = st.floats(-1e7, 1e7)
frames = st.builds(
    Frame,
    st.integers(-4, 24),
    st.integers(0, 20),
    st.integers(-(2**30), 2**30),
    st.integers(-(2**30), 2**30),
)


@given(doubles, st.integers(-40, 60))
def test_nearest_is_half_a_unit_off_at_most(value: float, bits: int) -> None:
    off = nearest(value, bits) - Fraction(value) * Fraction(2) ** bits
    assert abs(off) <= Fraction(1, 2)


@given(frames, doubles, doubles)
def test_frame_units(frame: Frame, x: float, y: float) -> None:
    unit = Fraction(2) ** -frame.fine_bits
    fine = frame.fine(x, y)
    for got, lengths, value in zip(fine, (frame.x, frame.y), (x, y)):
        assert abs(((lengths << frame.shift) + got) * unit - Fraction(value)) <= unit / 2
    back = frame.plane(*frame.grid(x, y))
    assert frame.grid_unit() == unit * 2**frame.shift / GRID
    for got_back, value in zip(back, (x, y)):
        assert abs(got_back - Fraction(value)) <= frame.grid_unit() / 2
    assert frame.grid(*back) == frame.grid(x, y)


def test_frame_by_hand() -> None:
    frame = Frame(3, 4, 1, -2)  # a fine unit is 1/8, a length 2, the origin (2, -4)
    assert frame.fine(2.5, -4.0) == (4, 0)
    assert frame.grid(4.0, -2.0) == (GRID, GRID)
    assert frame.plane(GRID, GRID // 2) == (4, -3)


def root_between(square: Fraction, bits: int = 80) -> tuple[Fraction, Fraction]:
    """A root from below and from above, to 2^-bits."""
    low = isqrt((square.numerator << 2 * bits) // square.denominator)
    return Fraction(low, 2**bits), Fraction(low + 1, 2**bits)


def reach(way2: Fraction, cutoff: Fraction | None, above: bool) -> Fraction:
    root = root_between(way2)[above]
    return root if cutoff is None else min(root, cutoff)


def total(kind: str, terms: list[Fraction]) -> Fraction:
    return max(terms) if kind == "max" else sum(terms, Fraction(0))


towns_read = st.lists(
    st.tuples(
        doubles,
        doubles,
        st.fractions(-100, 100, max_denominator=50).filter(bool),
        st.none() | st.fractions(0, 10**7, max_denominator=7),
    ),
    min_size=1,
    max_size=6,
)


@given(st.sampled_from(["sum", "max"]), towns_read, doubles, doubles)
def test_cost_lies_between_its_two_numbers(
    kind: str,
    rows: list[tuple[float, float, Fraction, Fraction | None]],
    x: float,
    y: float,
) -> None:
    towns = to_towns([(a, b) for a, b, _, _ in rows], [w for *_, w, _ in rows], [c for *_, c in rows])
    low, high = cost(kind, towns, x, y)
    ways = [(Fraction(a) - Fraction(x)) ** 2 + (Fraction(b) - Fraction(y)) ** 2 for a, b, _, _ in rows]
    from_below = [w * reach(q, c, w < 0) for q, (_, _, w, c) in zip(ways, rows)]
    from_above = [w * reach(q, c, w > 0) for q, (_, _, w, c) in zip(ways, rows)]
    assert low <= total(kind, from_above) and total(kind, from_below) <= high
    assert high - low <= sum(abs(w) for *_, w, _ in rows) * Fraction(1, 2**23)


def test_cost_by_hand() -> None:
    towns = to_towns([(3.0, 4.0), (0.0, -2.0)], [Fraction(1, 2), Fraction(-3)], [None, Fraction(1)])
    assert cost("sum", towns, 0.0, 0.0) == (Fraction(5, 2) - 3, Fraction(5, 2) - 3)
    assert cost("max", towns, 0.0, 0.0) == (Fraction(5, 2), Fraction(5, 2))


@st.composite
def joined_towns(draw: st.DrawFn) -> tuple[str, list[Town], list[Group], int]:
    """Towns about a few places, and groups of them with other places, weights and cutoffs."""
    kind = draw(st.sampled_from(["sum", "max"]))
    scale = draw(st.integers(1, 9))
    towns: list[Town] = []
    groups: list[Group] = []
    for _ in range(draw(st.integers(1, 4))):
        x, y = draw(st.integers(-40, 40)), draw(st.integers(-40, 40))
        sign = draw(st.sampled_from([1, -1]))
        cutoff = draw(st.just(ENDLESS) | st.integers(1, 60 * GRID))
        count = draw(st.integers(1, 4 if kind == "sum" else 1))
        members = tuple(range(len(towns), len(towns) + count))
        for _ in members:
            dx = draw(st.integers(-6 * GRID, 6 * GRID))
            dy = draw(st.integers(-6 * GRID, 6 * GRID))
            towns.append(Town(x * GRID + dx, y * GRID + dy, sign * draw(st.integers(1, 50)), cutoff))
        weight = draw(st.integers(-20, 20))
        limit = draw(st.none() | st.integers(1, 60))
        groups.append(Group(x, y, weight, limit, members))
    return kind, towns, groups, scale


@settings(max_examples=300, deadline=None)
@given(joined_towns(), st.integers(0, 21), st.data())
def test_charges_hold_in_the_whole_square(
    problem: tuple[str, list[Town], list[Group], int], level: int, data: st.DataObject
) -> None:
    kind, towns, groups, scale = problem
    side = 1 << level
    x = data.draw(st.integers(-40 * GRID, 40 * GRID))
    y = data.draw(st.integers(-40 * GRID, 40 * GRID))
    charge = sum(Charges(kind, towns, groups, scale).of(x, y, side))
    for _ in range(4):
        px = x + data.draw(st.fractions(0, side, max_denominator=99))
        py = y + data.draw(st.fractions(0, side, max_denominator=99))
        # towns lie anywhere within half a grid unit of where they are rounded to
        terms = []
        for town in towns:
            dx = data.draw(st.fractions(Fraction(-1, 2), Fraction(1, 2), max_denominator=9))
            way2 = (town.x + dx - px) ** 2 + (town.y - dx - py) ** 2
            cutoff = None if town.cutoff == ENDLESS else town.cutoff + dx
            terms.append(town.weight * reach(way2, cutoff, town.weight > 0))
        said = []
        for group in groups:
            way2 = (group.x * GRID - px) ** 2 + (group.y * GRID - py) ** 2
            limit = None if group.cutoff is None else Fraction(group.cutoff * GRID)
            said.append(scale * group.weight * reach(way2, limit, group.weight < 0))
        assert total(kind, terms) >= total(kind, said) - charge


def test_charges_by_hand() -> None:
    towns = [Town(3 * GRID, 0, 2, ENDLESS), Town(-3 * GRID, 0, 2, ENDLESS)]
    pulls = Charges("sum", towns, [Group(0, 0, 4, None, (0, 1))], 1)
    assert pulls.of(100 * GRID, 0, GRID) == Charge(4, 0, 0, 0)  # one grid unit each; nothing for joining
    push = [town._replace(weight=-2) for town in towns]
    pushes = Charges("sum", push, [Group(0, 0, -4, None, (0, 1))], 1)
    charge = pushes.of(100 * GRID, 0, 2)
    # sum of squares 36, over twice the least distance 100 - 3: 0.1856 lengths
    assert 0.1855 * GRID < charge.joined < 0.1857 * GRID and charge.cutoffs == charge.weights == 0
    assert pushes.of(0, 0, GRID).joined == 12 * GRID  # no more than the towns' own ways
    near = [town._replace(cutoff=20 * GRID) for town in push]
    reached = Charges("sum", near, [Group(0, 0, -4, 20, (0, 1))], 1)
    assert reached.of(100 * GRID, 0, GRID) == Charge(8, 0, 0, 0)  # beyond the cutoff all is constant
    light = Charges("sum", towns, [Group(0, 0, 1, None, (0, 1))], 3)  # 3 in place of 4: a gain
    assert sqrt(2) * GRID * -101.1 < light.of(100 * GRID, 100 * GRID, GRID).weights < -140 * GRID


def test_groups_that_are_refused() -> None:
    towns = [Town(0, 0, 1, ENDLESS), Town(9, 9, -1, ENDLESS), Town(9, 9, 1, 7)]
    single = [Group(0, 0, 1, None, (n,)) for n in range(3)]
    Charges("sum", towns, single, 1)
    for kind, groups in (
        ("sum", single[:2]),  # a town left out
        ("sum", [*single, single[0]]),  # a town twice
        ("sum", [single[0]._replace(members=(0, 1)), single[2]]),  # two signs
        ("sum", [single[0]._replace(members=(0, 2)), single[1]]),  # two cutoffs
        ("sum", [*single[:2], single[0]._replace(members=(-3,))]),  # a town twice, counted from the end
        ("max", [single[0]._replace(members=(0, 0))]),
    ):
        with pytest.raises(ValueError):
            Charges(kind, towns, groups, 1)
    for scale in (0, -1):  # what is at least a bound, times this, is at most it
        with pytest.raises(ValueError):
            Charges("sum", towns, single, scale)
    assert len(Charges("max", towns, single[:2], 1).groups) == 2  # of the kind max one may be left out


def test_towns_in_grid_units() -> None:
    towns = to_towns([(4.0, -2.0)], [Fraction(3, 2)], [Fraction(1, 3)])
    assert to_grid(Frame(3, 4, 1, -2), towns) == [Town(GRID, GRID, 3, round(GRID / 6))]


ONE_TOWN = "siting 1\nkind sum\npoint 2 2 1\npermit 0 0 4 0 4 4 0 4\nend\n"
ANSWER = (
    f"siting answer 1\n{ONE_TOWN}gap 185\nbudget 100000\npool 100000\nsite 131072 131072\ncost 0 0\n"
    "bound 0\nanswer solved\nopen 0\nleases 5\nroot 0 0 19\nS 185364\nB 0\nB 131072\nB 131072\nX\nend\n"
)


def test_instance_text_and_its_answer() -> None:
    groups = [Group(2, 2, 1, None, (0,)), Group(9, 9, 0, 5, (1,))]
    text = instance_text("sum", groups, [[(0, 0), (4, 0), (4, 4), (0, 4)]], [])
    assert text == ONE_TOWN
    answer = read_answer(ANSWER, text)
    assert answer.site == (131072, 131072) and answer.root.least == 0
    assert [(s.x, s.y, s.side, s.least) for s in answer.root.quarters] == [
        (0, 0, 1 << 18, 0),
        (1 << 18, 0, 1 << 18, 131072),
        (0, 1 << 18, 1 << 18, 131072),
        (1 << 18, 1 << 18, 1 << 18, None),
    ]
    assert read_polished("bound 0\npolished 7\n", answer) == 7
    with_cutoff = [Group(2, 2, 1, 9, (0,))]
    assert instance_text("max", with_cutoff, [], [[(0, 0), (1, 0), (0, 1)]]) == (
        "siting 2\nkind max\npoint 2 2 1 9\nforbid 0 0 1 0 0 1\nend\n"
    )


@pytest.mark.parametrize(
    "old, new",
    [
        ("point 2 2 1", "point 2 2 2"),  # an answer to another instance
        ("B 0\n", ""),  # a leaf left out
        ("B 0\n", "B 0\nB 0\n"),  # a leaf too many
        ("B 0\n", "B 5\n"),  # a bound that isn't the least
        ("X\nend\n", "X\n"),
        ("siting answer 1", "siting answer 2"),
        ("S 185364", "T 185364"),
    ],
)
def test_answers_that_are_refused(old: str, new: str) -> None:
    assert old in ANSWER
    with pytest.raises(ValueError):
        read_answer(ANSWER.replace(old, new, 1), ONE_TOWN)


def test_polished_of_another_answer_is_refused() -> None:
    answer = Answer(None, Square(0, 0, 2, 5))
    for text in ("bound 4\npolished 9\n", "bound none\npolished none\n"):
        with pytest.raises(ValueError):
            read_polished(text, answer)


@st.composite
def trees(draw: st.DrawFn, x: int = 0, y: int = 0, level: int = 3) -> Square:
    side = GRID << level
    if level and draw(st.booleans()):
        half = side // 2
        corners = (x, y), (x + half, y), (x, y + half), (x + half, y + half)
        quarters = tuple(draw(trees(*corner, level - 1)) for corner in corners)
        bounds = [q.least for q in quarters if q.least is not None]
        return Square(x, y, side, min(bounds, default=None), quarters)
    return Square(x, y, side, draw(st.none() | st.integers(0, 50 * GRID)))


def leaves(square: Square) -> list[Square]:
    if square.quarters:
        return [leaf for quarter in square.quarters for leaf in leaves(quarter)]
    return [] if square.least is None else [square]


@settings(deadline=None)
@given(joined_towns(), trees(), st.none() | st.integers(0, 50 * GRID), st.integers(1, 30))
def test_least_of_all_leaves(
    problem: tuple[str, list[Town], list[Group], int],
    root: Square,
    polished: int | None,
    steps: int,
) -> None:
    charges = Charges(*problem)
    answer = Answer(None, root)
    everywhere = -(1 << 60), -(1 << 60), 1 << 60, 1 << 60
    by_hand = [
        charges.scale * max(leaf.least or 0, polished or 0) - sum(charges.of(leaf.x, leaf.y, leaf.side))
        for leaf in leaves(root)
    ]
    found = least(answer, polished, charges, everywhere, [], 3)
    assert (found.value if found else None) == min(by_hand, default=None)
    if found:
        early = least(answer, polished, charges, everywhere, [], 3, steps=steps)
        assert early and early.value <= found.value
    west = 0, 0, 4 * GRID << 3, 8 * GRID << 3
    rest = [v for v, leaf in zip(by_hand, leaves(root)) if leaf.x + leaf.side > 4 * GRID]
    beside = least(answer, polished, charges, everywhere, [west], 3)
    assert (beside.value if beside else None) == min(rest, default=None)
