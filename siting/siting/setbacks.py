"""Forbidden areas made before anything is tested: forbidden ones grown, and discs round towns.

They are made in doubles, a little too large, so that they hold all that is nearer than asked. What is
tested and proved is for the areas as they are written.
"""

from collections.abc import Sequence
from math import cos, pi, sin

from . import geos
from .layers import Ring, by_area, turned

CORNERS = 32  # of a disc
QUARTER = 16  # edges round a quarter of a turn, where areas are grown
EXCESS = 1 / cos(pi / (4 * QUARTER)) + 0.01  # of a distance grown: for the arcs, and for GEOS's simplifying
MARGIN = 0.001  # for the rounding of a union, metres

Places = Sequence[tuple[float, float]]


def grown(rings: Sequence[Ring], metres: float, unit: float) -> list[Ring]:
    """Areas that hold all that is nearer than so many metres to these; `unit` is in metres."""
    distance = (metres * EXCESS + MARGIN) / unit
    wide = [geos.grown(geos.areas([area]), distance, QUARTER) for area in by_area(rings)]
    return list(turned(geos.joined(wide)))


def around(places: Places, metres: float, unit: float, region: Sequence[Ring]) -> list[Ring]:
    """Areas that hold all that is nearer than so many metres to a place, as far as it may lie in the region."""
    radius = (metres + MARGIN) / cos(pi / CORNERS) / unit
    xs, ys = ([place[axis] for ring in region for place in ring] for axis in (0, 1))
    x0, y0, x1, y1 = min(xs) - radius, min(ys) - radius, max(xs) + radius, max(ys) + radius
    near = {(x, y) for x, y in places if x0 <= x <= x1 and y0 <= y <= y1}
    turns = [2 * pi * step / CORNERS for step in range(CORNERS)]
    spokes = [(radius * cos(turn), radius * sin(turn)) for turn in turns]
    discs = geos.areas([[(x + a, y + b) for a, b in spokes]] for x, y in sorted(near))
    return list(turned(geos.joined([discs])))
