"""Frame of a tile: doubles of the layers' plane, fine units, lengths and grid units, one into the other."""

from fractions import Fraction
from typing import NamedTuple

GRID = 16  # a length has 2^16 grid units
ENDLESS = 1 << 62  # beyond every distance


class Town(NamedTuple):
    """A town, at most one grid unit from where it is; its cutoff, likewise, or ENDLESS."""

    x: int
    y: int
    weight: int
    cutoff: int


def nearest(value: float | Fraction, bits: int) -> int:
    """The whole number nearest to value * 2^bits: at most 1/2 off, and exact where it is whole."""
    top, bottom = value.as_integer_ratio()
    top, bottom = (top << bits, bottom) if bits >= 0 else (top, bottom << -bits)
    return (2 * top + bottom) // (2 * bottom)


class Frame(NamedTuple):
    """A fine unit is 2^-fine_bits units of the plane, a length 2^shift fine units; (x, y) is the origin, in lengths."""

    fine_bits: int
    shift: int
    x: int
    y: int

    def fine(self, x: float | Fraction, y: float | Fraction) -> tuple[int, int]:
        """The nearest point in fine units from the origin: at most 1/2 off in x and in y."""
        bits = self.fine_bits
        return nearest(x, bits) - (self.x << self.shift), nearest(y, bits) - (self.y << self.shift)

    def grid(self, x: float | Fraction, y: float | Fraction) -> tuple[int, int]:
        """The nearest point in grid units from the origin: at most 1/2 off in x and in y."""
        bits = self.fine_bits - self.shift + GRID
        return nearest(x, bits) - (self.x << GRID), nearest(y, bits) - (self.y << GRID)

    def grid_unit(self) -> Fraction:
        """A grid unit, in units of the plane."""
        return Fraction(2) ** (self.shift - GRID - self.fine_bits)

    def plane(self, x: int, y: int) -> tuple[Fraction, Fraction]:
        """A point in grid units, in the layers' plane."""
        return ((self.x << GRID) + x) * self.grid_unit(), ((self.y << GRID) + y) * self.grid_unit()
