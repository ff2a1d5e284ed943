"""What joining, rounding and scaling towns can cost, at most, in a square.

Distances are in grid units, weights of towns in shares; a unit of the instance's weights is `scale` shares.
In a square, cost >= scale * (cost of the instance) - charge.
"""

from collections.abc import Sequence
from math import isqrt
from typing import NamedTuple

from .cost import Towns, root_up
from .frame import ENDLESS, GRID, Frame, Town
from .ground import Ground, reach_of


class Group(NamedTuple):
    """A point of the instance, in lengths, and the numbers of the towns that it stands for."""

    x: int
    y: int
    weight: int
    cutoff: int | None
    members: tuple[int, ...]


class Charge(NamedTuple):
    """The parts of a charge, in shares times grid units."""

    rounded: int
    joined: int
    cutoffs: int
    weights: int
    ground: int = 0


class Measure(NamedTuple):
    """Of a group: its place, its weight in shares and its cutoff; and of its towns: their weight and cutoff and, by
    size of weight, |sum of ways|, sum of |ways|, sum of squares about their mean, and the longest way."""

    x: int
    y: int
    weight: int
    limit: int
    total: int
    cutoff: int
    moment: int
    spread: int
    squares: int
    radius: int


def to_grid(frame: Frame, towns: Towns) -> list[Town]:
    """The towns in a frame's grid units."""
    unit = frame.grid_unit()
    ends = [ENDLESS if cutoff is None else round(cutoff / unit) for cutoff in towns.cutoffs]
    return [Town(*frame.grid(*p), w, c) for p, w, c in zip(towns.places, towns.weights, ends, strict=True)]


def measure(group: Group, towns: Sequence[Town], scale: int) -> Measure:
    """What the charges of a group need of its towns, each number rounded up."""
    x, y = group.x << GRID, group.y << GRID
    members = [towns[number] for number in group.members]
    if len({(town.weight > 0, town.cutoff) for town in members}) != 1:
        raise ValueError("a group has towns of two signs or two cutoffs")
    ways = [(abs(town.weight), town.x - x, town.y - y) for town in members]
    total = sum(town.weight for town in members)
    moment2 = sum(w * dx for w, dx, _ in ways) ** 2 + sum(w * dy for w, _, dy in ways) ** 2
    spread = sum(w * root_up(dx * dx + dy * dy) for w, dx, dy in ways)
    squares = sum(w * (dx * dx + dy * dy) for w, dx, dy in ways) - moment2 // abs(total)
    radius = root_up(max(dx * dx + dy * dy for _, dx, dy in ways))
    mine = x, y, group.weight * scale, ENDLESS if group.cutoff is None else group.cutoff << GRID
    return Measure(*mine, total, members[0].cutoff, root_up(moment2), spread, squares, radius)


def joined(group: Measure, low: int, high: int) -> int:
    """The charge for the places of the towns, at distances from low to high of the group's."""
    if low - group.radius >= group.cutoff:
        return 0
    if group.total > 0:
        return group.moment if high + group.radius <= group.cutoff else group.spread
    if low <= group.radius:
        return group.spread
    return min(group.spread, group.moment - -group.squares // (2 * (low - group.radius)))


def charge(group: Measure, low: int, high: int) -> Charge:
    """The charge of one group, at distances from low to high of its place."""
    size, excess = abs(group.total), group.weight - group.total
    less, more = min(group.cutoff, group.limit), max(group.cutoff, group.limit)
    rounded = size if group.cutoff == ENDLESS else 2 * size
    cutoffs = size * max(0, min(high, more) - less)
    weights = excess * min(high if excess > 0 else low, group.limit)  # below 0 it is a gain
    return Charge(rounded, joined(group, low, high), cutoffs, weights)


def unvarying(group: Measure) -> bool:
    """Whether the charge of a group is the same in every square: its moment."""
    return 0 < group.total == group.weight and group.cutoff == group.limit == ENDLESS


def greatest(bands: list[tuple[Measure, int, int]]) -> list[tuple[Measure, int, int]]:
    """Those whose weighted distance can be the greatest of all somewhere in the square."""
    ends = [(g.weight * min(low, g.limit), g.weight * min(high, g.limit)) for g, low, high in bands]
    reached = max(min(a, b) for a, b in ends)
    return [band for band, (a, b) in zip(bands, ends) if max(a, b) >= reached]


class Charges:
    """The charges of all groups, square by square."""

    def __init__(
        self, kind: str, towns: Sequence[Town], groups: Sequence[Group], scale: int, ground: Ground | None = None
    ):
        members = [number for group in groups for number in group.members]
        wrong = len(members) < len(towns) if kind == "sum" else len(members) > len(groups)
        numbers = set(members)
        if wrong or len(numbers) < len(members) or not numbers <= set(range(len(towns))) or scale < 1:
            raise ValueError("each town is in one group, and of the kind max alone, or in none; the scale is above 0")
        self.kind, self.scale, self.ground = kind, scale, ground
        measures = [measure(group, towns, scale) for group in groups]
        same = [group for group in measures if kind == "sum" and unvarying(group)]
        self.constant = Charge(sum(g.total for g in same), sum(g.moment for g in same), 0, 0)
        self.groups = [group for group in measures if kind == "max" or not unvarying(group)]
        self.known: dict[tuple[int, int, int], Charge] = {}

    def of(self, x: int, y: int, side: int) -> Charge:
        """The charge of the closed square with this lower left corner."""
        if (x, y, side) not in self.known:
            self.known[x, y, side] = self.compute(x, y, side)
        return self.known[x, y, side]

    def compute(self, x: int, y: int, side: int) -> Charge:
        """The charge, computed anew: by one distance a group, and how far the square's points are from there."""
        half, most = side - side // 2, reach_of(x, y, side)
        x, y, reach = x + side // 2, y + side // 2, root_up(2 * half * half)
        ways = [isqrt((group.x - x) ** 2 + (group.y - y) ** 2) for group in self.groups]
        bands = [(group, max(0, way - reach), way + 1 + reach) for group, way in zip(self.groups, ways)]
        if self.kind == "max":
            return max((self.on_ground(charge(*band), band[0], most) for band in greatest(bands)), key=sum)
        found = Charge(*map(sum, zip(self.constant, *(charge(*band) for band in bands))))
        return found._replace(ground=self.ground.of(most)) if self.ground else found

    def on_ground(self, found: Charge, group: Measure, most: int) -> Charge:
        """The charge of a group of one town, with what it can differ on the ground."""
        place = group.x, group.y, group.radius
        return found._replace(ground=self.ground.of_one(group.total, *place, most)) if self.ground else found
