"""Joins towns to at most as many groups as an instance may have points.

Nothing rests on it: what a group costs is charged, by the towns that are in it.
"""

from collections.abc import Sequence
from heapq import heapify, heappop, heappush
from math import gcd

import numpy as np
import numpy.typing as npt

from ..exact.charges import Group
from ..exact.frame import ENDLESS, GRID, Town

POINTS = 4096  # of an instance
WEIGHTS = 16_000_000  # sum of sizes, of an instance
LONGEST = 4_000_000  # cutoff of an instance, lengths

Floats = npt.NDArray[np.float64]
Numbers = npt.NDArray[np.int64]
Focus = tuple[float, float, float, float]  # a box in grid units


class Field:
    """Towns as arrays, and where the sites are that matter."""

    def __init__(self, towns: Sequence[Town], focus: Focus):
        self.places = np.array([(town.x, town.y) for town in towns], dtype=np.float64)
        self.sizes = np.array([abs(town.weight) for town in towns], dtype=np.float64)
        self.focus = focus

    def loss(self, members: Numbers, cutoff: int) -> float:
        """About what it costs to join these towns, at the focus's nearest point."""
        if len(members) == 1:
            return 0.0
        places, sizes = self.places[members], self.sizes[members]
        total = sizes.sum()
        mean = sizes @ places / total
        squares = ((places - mean) ** 2).sum(axis=1)
        x0, y0, x1, y1 = self.focus
        way = np.hypot(max(x0 - mean[0], mean[0] - x1, 0.0), max(y0 - mean[1], mean[1] - y1, 0.0))
        radius = np.sqrt(squares.max())
        if way - radius > cutoff:
            return float(total * radius * 1e-9)
        spread = float(sizes @ np.sqrt(squares))
        if abs(way - cutoff) < radius or way < 2 * radius:
            return spread
        return min(spread, float(sizes @ squares) / (2 * way))

    def halves(self, members: Numbers) -> tuple[Numbers, Numbers]:
        """Parts towns along their longest axis, at their mean."""
        places, sizes = self.places[members], self.sizes[members]
        ways = places - sizes @ places / sizes.sum()
        axis = np.linalg.eigh((ways * sizes[:, None]).T @ ways)[1][:, -1]
        along = ways @ axis
        left = along < 0
        if not left.any() or left.all():
            left = np.isin(np.arange(len(along)), np.argsort(along)[: len(along) // 2])
        return members[left], members[~left]


def join(towns: Sequence[Town], focus: Focus, most: int = POINTS) -> list[Numbers]:
    """Groups of towns, each of one sign and one cutoff, the costliest parted first."""
    kinds: dict[tuple[bool, int], list[int]] = {}
    for number, town in enumerate(towns):
        kinds.setdefault((town.weight > 0, town.cutoff), []).append(number)
    if len(towns) <= most:
        return [np.array([number]) for number in range(len(towns))]
    if len(kinds) > most:
        raise ValueError(f"more than {most} different reaches")
    field = Field(towns, focus)
    waiting = []
    for (_, cutoff), numbers in kinds.items():
        members = np.array(numbers)
        waiting.append((-field.loss(members, cutoff), numbers[0], cutoff, members))
    heapify(waiting)
    while len(waiting) < most and waiting[0][0] < 0:
        _, _, cutoff, members = heappop(waiting)
        for half in field.halves(members):
            heappush(waiting, (-field.loss(half, cutoff), int(half[0]), cutoff, half))
    return [members for *_, members in waiting]


def scale_of(weights: Sequence[int], groups: int) -> int:
    """Shares for one unit of an instance's weights: few enough that all of them are whole, or
    as few as its sum of weights allows."""
    exact = gcd(*weights)
    total = sum(map(abs, weights))
    return exact if total <= exact * WEIGHTS else -(-total // (WEIGHTS - groups))


def to_groups(towns: Sequence[Town], joined: Sequence[Numbers]) -> tuple[list[Group], int]:
    """The groups with the places, weights and cutoffs of an instance, and its scale."""
    sums = [sum(towns[n].weight for n in members) for members in joined]
    scale = scale_of(sums, len(sums))
    groups = []
    for members, total in zip(joined, sums):
        size = sum(abs(towns[n].weight) for n in members)
        x = sum(abs(towns[n].weight) * towns[n].x for n in members)
        y = sum(abs(towns[n].weight) * towns[n].y for n in members)
        cutoff = towns[members[0]].cutoff
        limit = None if cutoff == ENDLESS else min(max(1, rounded(cutoff, 1 << GRID)), LONGEST)
        place = rounded(x, size << GRID), rounded(y, size << GRID)
        numbers = tuple(int(n) for n in members)
        groups.append(Group(*place, rounded(total, scale), limit, numbers))
    return groups, scale


def rounded(top: int, bottom: int) -> int:
    """The whole number nearest to a fraction."""
    return (2 * top + bottom) // (2 * bottom)


def first_choice(towns: Sequence[Town]) -> list[Numbers]:
    """Of the kind max: where towns pull, the hull of them and the heaviest ones, where they push, the
    heaviest all over; the others come as they are missed."""
    places = np.array([(town.x, town.y) for town in towns], dtype=np.float64)
    weights = np.array([town.weight for town in towns], dtype=np.float64)
    most = 200 if (weights > 0).all() else 2000
    if len(towns) <= most:
        return [np.array([number]) for number in range(len(towns))]
    chosen: set[int] = set(np.argsort(-weights, kind="stable")[: most // 4].tolist())
    if (weights > 0).any():
        chosen |= set(extremes(places))
    chosen |= set(spread_out(places, weights, most - len(chosen)))
    return [np.array([number]) for number in sorted(chosen)[:POINTS]]


def extremes(places: Floats) -> list[int]:
    """The towns that are farthest in each of 720 directions."""
    turns = np.arange(720) * (np.pi / 360)
    ways = np.stack([np.cos(turns), np.sin(turns)])
    return sorted({int(number) for number in (places @ ways).argmax(axis=0)})


def spread_out(places: Floats, weights: Floats, count: int) -> list[int]:
    """The heaviest town of each cell of a grid over the towns."""
    if count <= 0:
        return []
    side = max(1, int(np.sqrt(count)))
    low, high = places.min(axis=0), places.max(axis=0)
    cells = np.minimum(((places - low) / np.maximum(high - low, 1.0) * side).astype(int), side - 1)
    keys = cells[:, 0] * side + cells[:, 1]
    order = np.lexsort((-np.abs(weights), keys))
    first = np.r_[True, keys[order][1:] != keys[order][:-1]]
    return [int(number) for number in order[first]]
