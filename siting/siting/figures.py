"""Exact numbers as text."""

from fractions import Fraction
from math import ceil, floor


def decimal(value: Fraction, places: int, up: bool = False) -> str:
    """A number with so many places, rounded down, or up."""
    scaled = value * 10**places
    whole = ceil(scaled) if up else floor(scaled)
    sign, digits = "-" if whole < 0 else "", str(abs(whole)).rjust(places + 1, "0")
    return f"{sign}{digits[:-places]}.{digits[-places:]}"


def thousands(value: Fraction | int) -> str:
    """A large number for readers: rounded, with its thousands set apart."""
    return f"{round(value):,}".replace(",", " ")
