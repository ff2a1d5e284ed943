"""Two maps of an answer, each as PNG and SVG: what is near the best, and the squares that the bound comes from.

Near sets and squares are proved; the drawing of them is to half a point.
"""

import textwrap
from collections.abc import Sequence
from dataclasses import dataclass
from pathlib import Path

import matplotlib
import numpy as np
from matplotlib.axes import Axes
from matplotlib.collections import LineCollection, PolyCollection
from matplotlib.figure import Figure
from matplotlib.lines import Line2D
from matplotlib.patches import Patch, PathPatch
from matplotlib.path import Path as Outline
from matplotlib.patheffects import withStroke

from .drawing import (
    View,
    equal_costs,
    heaviest,
    labels,
    length_words,
    outside,
    round_length,
    thinned,
    town_words,
    view_of,
)
from .near import NearSet
from .package import corners
from .palette import BOUNDS, NEAR, SITE
from .squares import Bounded
from .tiles import Search

WIDTH, SIDE, TOP, BOTTOM = 7.5, 0.15, 0.62, 1.25  # inches: a page's width, and margins for title and legend
DPI = 150
DETAIL = 0.25 / 72  # inches that can't be seen; the border's line is wider
LARGEST, COVERED = 12, 0.05  # of a town, points across; of the map by towns
BEYOND = "0.96"  # grey, outside the region
AS_PICTURE = 1_500  # squares, above which the SVG has them as a picture
STYLE = {"svg.fonttype": "none", "svg.hashsalt": "siting", "font.size": 8, "hatch.linewidth": 0.4}
NEAR_NOTE = "Each shade, with the darker ones in it, holds every permitted place that costs so little: proved. It may hold others."
SQUARES_NOTE = (
    "No permitted place in a square costs less than its shade says: proved. A large dark square has a weak bound."
)
NO_DATE = {"png": {"Software": None}, "svg": {"Date": None, "Creator": None}}

Entries = list[Patch | Line2D]


@dataclass(frozen=True)
class Sheet:
    """An empty map of a view."""

    search: Search
    view: View
    figure: Figure
    axes: Axes

    def rings(self, rings: Sequence[Sequence[tuple[float, float]]], name: str, **style: object) -> PathPatch:
        """The area of rings, without detail that can't be seen: holes go the other way round."""
        closed = [np.vstack([ring, ring[:1]]) for ring in thinned(rings, self.view.detail(DETAIL / WIDTH))]
        path = Outline.make_compound_path(*(Outline(ring, closed=True) for ring in closed))
        patch = PathPatch(path if closed else Outline(np.empty((0, 2))), gid=name, **style)
        self.axes.add_artist(patch)
        return patch


def write_maps(search: Search, near: Sequence[NearSet], squares: Sequence[Bounded], title: str, folder: Path) -> None:
    """Writes map.png, map.svg, squares.png and squares.svg into a folder, where there is a site."""
    if search.site is None:
        return
    with matplotlib.rc_context(STYLE):
        save(near_map(search, near, title), folder / "map")
        save(squares_map(search, squares, "Where the bound comes from"), folder / "squares")


def save(figure: Figure, path: Path) -> None:
    """Both files of a map."""
    for kind, metadata in NO_DATE.items():
        figure.savefig(path.with_suffix(f".{kind}"), dpi=DPI, metadata=metadata)


def near_map(search: Search, near: Sequence[NearSet], title: str) -> Figure:
    """The nested near sets, which are proved; lines of equal cost, which are not; the towns and the site."""
    sheet = empty(search, title)
    entries: Entries = []
    sheet.rings(search.problem.region, "land", facecolor="white", linewidth=0, zorder=1)
    for found in reversed(near):
        rings = [ring for rings in found.polygons for ring in rings]
        colour = NEAR[found.percent]
        style = {"facecolor": colour, "edgecolor": "0.25", "linewidth": 0.25, "zorder": 2}
        sheet.rings(rings, f"near-{found.percent}", **style)
        label = f"holds all within {found.percent} % of the site's cost"
        entries.append(Patch(facecolor=colour, edgecolor="0.25", linewidth=0.25, label=label))
    entries += banned(sheet) + cost_lines(sheet) + towns(sheet) + star(sheet)
    return finished(sheet, entries, NEAR_NOTE)


def squares_map(search: Search, found: Sequence[Bounded], title: str) -> Figure:
    """The squares of every tile by their bounds."""
    sheet = empty(search, title)
    assert search.site is not None
    top = search.site.high / search.unit
    above = np.array([float((value - top) / (abs(top) or 1)) * 100 for *_, value in found])
    kind = np.searchsorted([low for low, *_ in BOUNDS], above, side="right") - 1
    colours = np.array([colour for *_, colour in BOUNDS])[kind]
    drawn = np.array([corners(search, tile, square) for tile, square, _ in found]).reshape(-1, 4, 2)
    shades = PolyCollection(drawn, facecolors=colours, edgecolors="0.45", linewidths=0.1, zorder=2)
    shades.set_gid("squares")
    shades.set_rasterized(len(found) > AS_PICTURE)
    sheet.axes.add_collection(shades, autolim=False)
    entries: Entries = [Patch(facecolor=colour, edgecolor="0.45", label=label) for *_, label, colour in BOUNDS]
    return finished(sheet, entries + banned(sheet, "none") + star(sheet), SQUARES_NOTE)


# parts of a map


def empty(search: Search, title: str) -> Sheet:
    """A figure as wide as a page, with room for title and legend."""
    view = view_of(search)
    width = WIDTH - 2 * SIDE
    height = width * view.ratio
    figure = Figure(figsize=(WIDTH, height + TOP + BOTTOM))
    tall = height + TOP + BOTTOM
    axes = figure.add_axes((SIDE / WIDTH, BOTTOM / tall, width / WIDTH, height / tall), xticks=[], yticks=[])
    axes.set_xlim(view.x0, view.x1)
    axes.set_ylim(view.y0, view.y1)
    axes.set_facecolor(BEYOND)
    words = figure.text(0.5, 1 - 0.12 / tall, textwrap.fill(title, 88), ha="center", va="top", fontsize=10)
    words.set_gid("title")
    return Sheet(search, view, figure, axes)


def banned(sheet: Sheet, face: str = "white") -> Entries:
    """The forbidden areas, and the border of the region."""
    problem = sheet.search.problem
    style = {"facecolor": face, "edgecolor": "0.35", "hatch": "/////", "linewidth": 0.5}
    if problem.forbidden:
        sheet.rings(problem.forbidden, "forbidden", zorder=3, **style)
    if face != "none":
        sheet.rings(outside(sheet.search, sheet.view), "outside", facecolor=BEYOND, linewidth=0, zorder=3)
    sheet.rings(problem.region, "region", facecolor="none", edgecolor="black", linewidth=1, zorder=3)
    border = Line2D([], [], color="black", linewidth=1, label="region")
    return [border, *([Patch(label="forbidden", **style)] if problem.forbidden else [])]


def cost_lines(sheet: Sheet) -> Entries:
    """Lines of equal cost, in per cent more than the site's."""
    lines = equal_costs(sheet.search, sheet.view)
    style = {"linewidths": 0.5, "linestyles": (0, (4, 3)), "colors": "0.2", "zorder": 4}
    drawn = LineCollection([line.places for line in lines], **style)
    drawn.set_gid("cost-lines")
    drawn.set_path_effects([withStroke(linewidth=1.3, foreground="white")])
    sheet.axes.add_collection(drawn, autolim=False)
    for words, x, y in labels(lines):
        white = {"facecolor": "white", "edgecolor": "none", "pad": 0.6, "alpha": 0.8}
        style = {"fontsize": 6, "ha": "center", "va": "center", "bbox": white, "clip_on": True, "zorder": 5.5}
        sheet.axes.text(x, y, words, **style)
    words = "so much dearer: computed, not proved"
    return [Line2D([], [], color="0.2", linewidth=0.5, linestyle=(0, (4, 3)), label=words)]


def towns(sheet: Sheet) -> Entries:
    """Towns by the size of their weight: discs where they pull, triangles where they push."""
    search, entries = sheet.search, []
    land, drawn = search.landscape, heaviest(search, sheet.view)
    weights = np.abs(land.weights[drawn])
    most = weights.max(initial=0)
    room = COVERED * (72 * WIDTH) ** 2 * sheet.view.ratio
    largest = min(LARGEST, (room / max(1, (weights / most).sum())) ** 0.5) if most else 0
    shape = {"markerfacecolor": "white", "markeredgecolor": "black", "linestyle": "none"}
    for marker, sign, label in (("o", 1, "town"), ("v", -1, "town to be far from")):
        chosen = drawn[land.weights[drawn] * sign > 0]
        sizes = np.ceil(2 * largest * (np.abs(land.weights[chosen]) / most) ** 0.5) / 2
        for number, size in enumerate(np.unique(sizes)[::-1].tolist()):  # a mark a size, so that files are small
            style = {"marker": marker, "markersize": size, "markeredgewidth": 0.4, "alpha": 0.85, "zorder": 5}
            some = chosen[sizes == size]
            (marks,) = sheet.axes.plot(land.x[some], land.y[some], **shape, **style)
            marks.set_gid(("towns" if sign > 0 else "towns-far") + (f"-{number}" if number else ""))
        if len(chosen):
            entries.append(Line2D([], [], marker=marker, markersize=5, label=f"{label}, by weight", **shape))
    if len(drawn) < len(land.x) and entries:
        entries[-1].set_label(f"{entries[-1].get_label()}\n({town_words(search, len(drawn))})")
    return entries


def star(sheet: Sheet) -> Entries:
    """The site."""
    site = sheet.search.site
    assert site is not None
    style = {"marker": "*", "color": SITE, "markeredgecolor": "black", "markeredgewidth": 0.7, "linestyle": "none"}
    (drawn,) = sheet.axes.plot([site.x], [site.y], zorder=6, markersize=14, **style)
    drawn.set_gid("site")
    return [Line2D([], [], label="site", markersize=9, **style)]


def finished(sheet: Sheet, entries: Entries, note: str) -> Figure:
    """With a scale bar, north, a legend, and a note below."""
    view, axes = sheet.view, sheet.axes
    metres = round_length(view.width * view.across / 4)
    left, base, long = view.x0 + 0.03 * view.width, view.y0 + 0.025 * view.height / view.ratio, metres / view.across
    places = [left, left + long], [base, base]
    (bar,) = axes.plot(*places, color="black", linewidth=2.5, solid_capstyle="butt", zorder=7)
    bar.set_gid("scale-bar")
    words = {"textcoords": "offset points", "ha": "center", "zorder": 7}
    axes.annotate(length_words(metres), (left + long / 2, base), (0, 3), **words)
    arrow = {"arrowstyle": "-|>", "color": "black"}
    axes.annotate("", (0.97, 0.98), (0.97, 0.92), xycoords="axes fraction", arrowprops=arrow, zorder=7)
    north = axes.annotate("N", (0.97, 0.90), xycoords="axes fraction", ha="center", va="center", zorder=7)
    north.set_gid("north")
    tall = sheet.figure.get_figheight()
    place = {"loc": "upper center", "bbox_to_anchor": (0.5, (BOTTOM - 0.05) / tall), "frameon": False}
    legend = sheet.figure.legend(handles=entries, ncol=3, fontsize=7, columnspacing=1.2, **place)
    legend.set_gid("legend")
    sheet.figure.text(0.5, 0.08 / tall, note, ha="center", va="bottom", fontsize=7.5)
    return sheet.figure
