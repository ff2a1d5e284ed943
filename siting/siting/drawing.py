"""What maps and page draw, made few enough to draw: rings without detail that can't be seen, the heaviest towns,
lines of equal cost. All of it is computed in doubles; nothing rests on it."""

from collections.abc import Sequence
from dataclasses import dataclass
from math import floor, hypot, log10

import numpy as np
import numpy.typing as npt

from . import geos
from .layers import turned
from .proposals.sites import filled
from .tiles import Search

Floats = npt.NDArray[np.float64]
Places = Sequence[tuple[float, float]]

MARGIN = 0.05  # of the region's extent
LOW, HIGH = 0.5, 1.25  # of a map's height to its width
TOWNS = 3_000  # drawn, at most
JOINED = 64  # of the map's width: how near towns are joined for lines of equal cost
LINES = 72  # places across, where the cost is computed for these
HIGHER = (1, 2, 5, 10, 20, 50, 100, 200, 500)  # per cent, of lines of equal cost


@dataclass(frozen=True)
class View:
    """The box of the layers' coordinates that is drawn, and metres of a unit of them, across and up."""

    x0: float
    y0: float
    x1: float
    y1: float
    across: float
    up: float

    @property
    def width(self) -> float:
        return self.x1 - self.x0

    @property
    def height(self) -> float:
        return self.y1 - self.y0

    @property
    def ratio(self) -> float:
        """Of the height to the width, in metres."""
        return self.height * self.up / (self.width * self.across)

    def detail(self, share: float) -> float:
        """What is shorter than this share of the width, across and up, in the layers' units."""
        return share * self.width * min(1.0, self.across / self.up)


def view_of(search: Search) -> View:
    """The region with a margin, made wider or higher where it is very narrow."""
    places = np.array([place for ring in search.problem.region for place in ring])
    low, high = places.min(axis=0), places.max(axis=0)
    middle = (low + high) / 2
    metres = np.array(search.planes.metres(float(middle[1])))
    width, height = (high - low) * metres + 2 * MARGIN * ((high - low) * metres).max()
    wide = max(width, height / HIGH)
    half = np.array([wide, max(height, wide * LOW)]) / 2 / metres
    return View(*(middle - half).tolist(), *(middle + half).tolist(), *metres.tolist())


def thinned(rings: Sequence[Places], tolerance: float) -> list[Floats]:
    """The rings without vertices that lie nearer than the tolerance to the one before; rings that are smaller than it
    have three vertices left."""
    found = []
    for ring in rings:
        kept = [ring[0]]
        for x, y in ring[1:]:
            if hypot(x - kept[-1][0], y - kept[-1][1]) >= tolerance:
                kept.append((x, y))
        third = max(1, len(ring) // 3)
        found.append(np.array(kept if len(kept) >= 3 else ring[::third][:3]))
    return found


def outside(search: Search, view: View) -> list[Places]:
    """The rings of what is in view and not in the region, to be drawn over what reaches beyond it; none where GEOS
    can't tell."""
    try:
        rest = geos.less(geos.box(view.x0, view.y0, view.x1, view.y1), filled(search.problem.region))
    except geos.GeosFault:
        return []
    return list(turned(rest))


def heaviest(search: Search, view: View) -> npt.NDArray[np.int64]:
    """The numbers of the towns in view that are drawn, those of the greatest weight, heavy ones first."""
    land = search.landscape
    seen = (land.x >= view.x0) & (land.x <= view.x1) & (land.y >= view.y0) & (land.y <= view.y1)
    numbers = np.flatnonzero(seen)
    order = np.argsort(-np.abs(land.weights[numbers]), kind="stable")
    return np.asarray(numbers[order[:TOWNS]], dtype=np.int64)


def town_words(search: Search, drawn: int) -> str:
    """How many of the towns are drawn."""
    count = len(search.landscape.x)
    if drawn == count:
        return f"all {count} towns"
    return f"the {drawn} heaviest of {count} towns" if drawn == TOWNS else f"{drawn} of {count} towns lie here"


@dataclass(frozen=True)
class Line:
    """A line of equal cost, so many per cent above the site's."""

    percent: int
    places: Floats


def equal_costs(search: Search, view: View) -> list[Line]:
    """Lines of equal cost."""
    import contourpy  # of matplotlib's company: only maps need it

    site = search.site
    if site is None:
        return []
    xs, ys = np.linspace(view.x0, view.x1, LINES), np.linspace(view.y0, view.y1, LINES)
    x, y, weights, cutoffs = joined(search, view.width / JOINED)
    parts = np.array_split(np.arange(len(x)), len(x) // 500 + 1)
    taken = [part_cost(search, xs, ys, x[n], y[n], weights[n], cutoffs[n]) for n in parts if len(n)]
    costs = np.max(taken, axis=0) if search.kind == "max" else np.sum(taken, axis=0)
    best = search.landscape.cost(site.x, site.y)
    traced = contourpy.contour_generator(xs, ys, (costs - best) / (abs(best) or 1.0) * 100)
    return [Line(percent, places) for percent in HIGHER for places in traced.lines(float(percent))]


def labels(lines: Sequence[Line]) -> list[tuple[str, float, float]]:
    """What is written at the longest line of each cost, and where."""
    found = {}
    for line in sorted(lines, key=lambda line: len(line.places)):
        if len(line.places) > 5:
            at = 0.2 + 0.17 * HIGHER.index(line.percent)  # turned a little from line to line, so that they stay apart
            found[line.percent] = line.places[int(len(line.places) * (at % 1))]
    return [(f"+{percent} %", float(x), float(y)) for percent, (x, y) in found.items()]


def part_cost(search: Search, xs: Floats, ys: Floats, x: Floats, y: Floats, weights: Floats, cutoffs: Floats) -> Floats:
    """The cost over some towns at every place of a grid."""
    ways = search.landscape.between(xs[None, :, None], ys[:, None, None], x, y)
    np.minimum(ways, cutoffs, out=ways)
    return np.asarray((ways * weights).max(axis=2) if search.kind == "max" else ways @ weights)


def joined(search: Search, step: float) -> tuple[Floats, Floats, Floats, Floats]:
    """Places, weights and cutoffs of towns, those of one square of a grid and one cutoff joined where they are many."""
    land = search.landscape
    if len(land.x) <= 2_000:
        return land.x, land.y, land.weights, land.cutoffs
    keys = np.column_stack([land.x // step, land.y // step, land.weights > 0, land.cutoffs])
    _, first, group = np.unique(keys, axis=0, return_index=True, return_inverse=True)
    if search.kind == "max":
        order = np.lexsort((-land.weights, group))
        heavy = order[np.unique(group[order], return_index=True)[1]]
        return land.x[heavy], land.y[heavy], land.weights[heavy], land.cutoffs[heavy]
    weights = np.asarray(np.bincount(group, land.weights), dtype=np.float64)
    x, y = (np.bincount(group, land.weights * values) / weights for values in (land.x, land.y))
    return x, y, weights, land.cutoffs[first]


def round_length(most: float) -> float:
    """The greatest of 1, 2 and 5 times a power of ten that isn't more."""
    power = 10.0 ** floor(log10(most))
    return max(step * power for step in (1, 2, 5) if step * power <= most)


def length_words(metres: float) -> str:
    return f"{metres / 1000:g} km" if metres >= 1000 else f"{metres:g} m"
