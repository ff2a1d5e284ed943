"""The layers of siting.gpkg: site, near sets, what isn't permitted, towns, squares and pieces."""

from collections.abc import Sequence
from fractions import Fraction
from math import floor, inf, nextafter
from typing import Any

import numpy as np

from . import geos, styles
from .drawing import MARGIN
from .exact.answers import Square
from .exact.frame import GRID
from .geopackage import Area, Layer, Place
from .layers import turned
from .near import NearSet
from .palette import BOUNDS, NEAR
from .squares import Bounded
from .tiles import Search


def below(value: Fraction) -> float:
    """The greatest double that isn't more, or one near it."""
    near = float(value)
    return near if near <= value else nextafter(near, -inf)


def layers_of(
    search: Search, near: Sequence[NearSet], found: Sequence[Bounded], site: dict[str, Any] | None
) -> list[Layer]:
    """All layers; `site` is the row of its table, None where there is no site: then towns have no distances."""
    first = site_layer(search, site), near_layer(search, near), barred(search), towns(search)
    return [*first, squares(search, found), pieces(search)]


def site_layer(search: Search, row: dict[str, Any] | None) -> Layer:
    """One point, with its cost and bound."""
    kinds = {"question": "TEXT", "cost": "REAL", "bound": "REAL", "gap_percent": "REAL"}
    shapes = [] if row is None or search.site is None else [(search.site.x, search.site.y)]
    rows = [tuple(row[name] for name in kinds)] if row is not None and shapes else []
    words = "The site. Its cost over all towns, rounded up, and the bound, rounded down, in weight times metres"
    drawn = {"site": styles.single(styles.marker("star", 7, "230,159,0,255"))}
    return Layer("site", words, kinds, shapes, rows, drawn, points=True)


def near_layer(search: Search, near: Sequence[NearSet]) -> Layer:
    """The near sets, the largest first, so that the smaller ones are drawn over it."""
    rows = [(found.percent, float(found.square_metres(search.planes))) for found in reversed(near)]
    words = "Each area holds every permitted place that costs at most so many per cent more than the site: proved"
    entries = [(percent, f"within {percent} %", styles.area(rgb(NEAR[percent]), "solid")) for percent in NEAR]
    drawn = {"near sets": styles.by_value("percent", entries)}
    shapes = [found.polygons for found in reversed(near)]
    return Layer("near_sets", words, {"percent": "INTEGER", "square_metres": "REAL"}, shapes, rows, drawn)


def rgb(colour: str) -> str:
    """A colour #rrggbb as QGIS has it."""
    return ",".join(str(int(colour[at : at + 2], 16)) for at in (1, 3, 5)) + ",255"


def barred(search: Search) -> Layer:
    """What isn't permitted, to be drawn over the near sets."""
    words = "What isn't permitted, round the region: drawn over the near sets; by GEOS, so not proved"
    drawn = {"not permitted": styles.single(styles.area("255,255,255,255", "solid"))}
    places = np.array([place for ring in search.problem.region for place in ring])
    low, high = places.min(axis=0), places.max(axis=0)
    margin = 2 * MARGIN * float((high - low).max())
    try:
        area = geos.less(geos.box(*(low - margin).tolist(), *(high + margin).tolist()), search.permitted.area)
        shapes: list[Area] = [[list(turned(part)) for part in geos.parts(area)]]
    except geos.GeosFault:
        shapes = []
    return Layer("not_permitted", words, {}, shapes, [()] * len(shapes), drawn)


def towns(search: Search) -> Layer:
    """All towns that count, with their distance from the site and what they have of the cost."""
    land, site, metres = search.landscape, search.site, float(search.problem.unit)
    kinds = {"name": "TEXT", "weight": "REAL", "metres": "REAL", "share_percent": "REAL"}
    count = len(land.x)
    ways: list[float | None] = [None] * count
    shares: list[float | None] = [None] * count
    if site is not None:
        ways = (land.ways(site.x, site.y) * metres).tolist()
        size = land.size(site.x, site.y)
        shares = (np.abs(land.terms(site.x, site.y)) / size * 100).tolist() if size else [0.0] * count
    rows = list(zip(search.problem.names, land.weights.tolist(), ways, shares))
    words = "The towns that count: signed weight, distance from the site, share of all weight times distance; computed"
    drawn = {"towns": styles.single(styles.marker("circle", 1.6, styles.grey(1)))}
    return Layer("towns", words, kinds, list(search.problem.towns.places), rows, drawn, points=True)


def squares(search: Search, found: Sequence[Bounded]) -> Layer:
    """The squares by their bounds."""
    unit = search.unit * search.problem.unit
    top = None if search.site is None else search.site.high / search.unit
    rows = []
    for tile, _, value in found:
        above = None if not top else floor((value - top) / abs(top) * 10**8) / 10**6
        rows.append((tile, below(value * unit), above))
    shapes = [[[corners(search, tile, s)]] for tile, s, _ in found]
    words = "No permitted place of the tile in a square costs less than its bound, in weight times metres: proved"
    ranges = [(low, high, label, styles.area(rgb(colour), "solid")) for low, high, label, colour in BOUNDS]
    drawn = {"bounds": styles.by_range("above_site_percent", ranges), "nothing": styles.nothing()}
    return Layer(
        "squares", words, {"tile": "INTEGER", "bound": "REAL", "above_site_percent": "REAL"}, shapes, rows, drawn
    )


def pieces(search: Search) -> Layer:
    """Every tile's pieces."""
    rows: list[tuple[int, str]] = []
    shapes: list[Area] = []
    for number, run in enumerate(search.runs, 1):
        for kind, rings in (("permit", run.outer.permits), ("forbid", run.outer.forbids)):
            for ring in rings:
                rows.append((number, kind))
                shapes.append([[[corner(search, number, x << GRID, y << GRID) for x, y in ring]]])
    words = "Each permitted place of a tile is in one of its permits and inside none of its forbids: proved"
    kinds = [("permit", "permit", "horizontal"), ("forbid", "forbid", "b_diagonal")]
    entries = [(kind, label, styles.area(styles.grey(0.4), "solid", brush)) for kind, label, brush in kinds]
    drawn = {"nothing": styles.nothing(), "pieces": styles.by_value("kind", entries)}
    return Layer("pieces", words, {"tile": "INTEGER", "kind": "TEXT"}, shapes, rows, drawn)


def corners(search: Search, tile: int, square: Square) -> list[Place]:
    """The corners of a square of a tile's answer, in the layers' coordinates."""
    x, y, side = square[:3]
    return [corner(search, tile, *place) for place in ((x, y), (x + side, y), (x + side, y + side), (x, y + side))]


def corner(search: Search, tile: int, x: int, y: int) -> Place:
    """A place in grid units of a tile's plane as the nearest doubles of the layers' coordinates."""
    return search.runs[tile - 1].plane.place(*search.frame.plane(x, y))
