"""Towns as they were read, and the cost of a site over all of them."""

from collections.abc import Sequence
from fractions import Fraction
from math import ceil, floor, isqrt, lcm
from typing import NamedTuple

from .frame import nearest

FINEST = 24  # roots are whole in 2^-24 units of the plane, or finer


def root_up(number: int) -> int:
    """The least whole number whose square is at least `number`."""
    return isqrt(number - 1) + 1 if number > 0 else 0


class Towns(NamedTuple):
    """Places in the plane, weights as whole numbers over `share`, cutoffs in the plane's units or None."""

    places: Sequence[tuple[float, float]]
    weights: Sequence[int]
    share: int
    cutoffs: Sequence[Fraction | None]


def to_towns(
    places: Sequence[tuple[float, float]], weights: Sequence[Fraction], cutoffs: Sequence[Fraction | None]
) -> Towns:
    """Brings the weights to their least common denominator."""
    share = lcm(*{weight.denominator for weight in weights})
    return Towns(places, [int(weight * share) for weight in weights], share, cutoffs)


def cost(kind: str, towns: Towns, x: float, y: float) -> tuple[Fraction, Fraction]:
    """The cost of the site (x, y) lies between these two, in weight times units of the plane."""
    values = [x, y, *(value for place in towns.places for value in place)]
    bits = max(FINEST, *(value.as_integer_ratio()[1].bit_length() - 1 for value in values))
    x0, y0, *whole = (nearest(value, bits) for value in values)  # exactly
    squares = [(a - x0) ** 2 + (b - y0) ** 2 for a, b in zip(whole[::2], whole[1::2])]
    return total(kind, towns, [(isqrt(square), root_up(square)) for square in squares], bits)


def total(kind: str, towns: Towns, ways: Sequence[tuple[int, int]], bits: int) -> tuple[Fraction, Fraction]:
    """Between what the cost is of towns whose distances lie between these, in 2^-bits units."""
    below, above = [], []
    for (less, more), weight, cutoff in zip(ways, towns.weights, towns.cutoffs, strict=True):
        if cutoff is not None:
            less, more = min(less, floor(cutoff * 2**bits)), min(more, ceil(cutoff * 2**bits))
        below.append(weight * (less if weight > 0 else more))
        above.append(weight * (more if weight > 0 else less))
    if kind == "max":
        below, above = [max(below)], [max(above)]
    return Fraction(sum(below), towns.share << bits), Fraction(sum(above), towns.share << bits)
