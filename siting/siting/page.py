"""report.html: one file with the map, whose layers can be switched, the numbers and the promise; it loads nothing.

The map has its own drawing of the near sets, which are proved; what is drawn is to a hundredth of its units.
"""

import re
from collections.abc import Callable, Iterable, Sequence
from dataclasses import dataclass
from hashlib import sha256
from html import escape
from pathlib import Path

import numpy as np

from .drawing import View, equal_costs, heaviest, labels, length_words, round_length, thinned, town_words, view_of
from .near import NearSet
from .package import corners
from .page_frame import FRAME, IN_TEXT, ON_MAP
from .palette import BOUNDS, NEAR
from .squares import Bounded
from .tiles import Search

WIDTH = 1000  # of the map, in its own units
LARGEST, SMALLEST, COVERED = 14.0, 1.5, 0.05  # radius of a town; of the map by towns

Places = Iterable[tuple[float, float]]


@dataclass(frozen=True)
class Page:
    """What the page shows: sentences of the promise, the report's text, and the answers of tiles by their numbers."""

    search: Search
    near: Sequence[NearSet]
    squares: Sequence[Bounded]
    headline: str
    promise: Sequence[str]
    text: str
    answers: Sequence[tuple[int, str]]


@dataclass(frozen=True)
class Paper:
    """How the plane lies on the map."""

    view: View

    @property
    def height(self) -> float:
        return round(WIDTH * self.view.ratio, 2)

    @property
    def scale(self) -> tuple[float, float]:
        """The map's units for one of the layers, across and down."""
        across = WIDTH / self.view.width
        return across, across * self.view.up / self.view.across

    def at(self, x: float, y: float) -> tuple[float, float]:
        across, down = self.scale
        return round((x - self.view.x0) * across, 2), round((self.view.y1 - y) * down, 2)

    def path(self, rings: Iterable[Places], close: str = "Z") -> str:
        """The words of a path."""
        parts = []
        for ring in rings:
            places = [f"{x:g} {y:g}" for x, y in (self.at(*map(float, place)) for place in ring)]
            parts.append(f"M{'L'.join(places)}{close}")
        return "".join(parts)


def write_page(page: Page, path: Path) -> None:
    """Writes the page."""
    digests = [(number, sha256(answer.encode()).hexdigest()) for number, answer in page.answers]
    whole = sha256("".join(answer for _, answer in page.answers).encode()).hexdigest()
    rows = "".join(f"<tr><td>{number}.answer</td><td><code>{digest}</code></td></tr>" for number, digest in digests)
    drawn = drawing(page) if page.search.site is not None else {"map": "", "switches": ""}
    words = {
        "headline": escape(page.headline),
        "promise": "".join(f"<li>{escape(sentence)}</li>" for sentence in page.promise),
        "text": escape(page.text),
        "digests": rows,
        "digest": whole,
        "other": IN_TEXT,
        **drawn,
    }
    path.write_text(re.sub("@([a-z]+)@", lambda match: words[match[1]], FRAME))


def drawing(page: Page) -> dict[str, str]:
    """The map and the switches of its layers."""
    search, paper = page.search, Paper(view_of(page.search))
    detail = paper.view.detail(0.5 / WIDTH)
    land = paper.path(thinned(search.problem.region, detail))
    layers: list[tuple[str, str, str, bool]] = []  # name, words, drawing, whether it is on
    for found in reversed(page.near):
        path = paper.path(ring for rings in found.polygons for ring in rings)
        drawn = f'<path d="{path}" fill="{NEAR[found.percent]}" stroke="#444" stroke-width=".4"/>'
        layers.append((f"near-{found.percent}", f"holds all within {found.percent} % of the site's cost", drawn, True))
    layers.append(("squares", "squares by their bounds: the darker, the weaker", squares(page, paper), False))
    barred = f'<path d="{paper.path(thinned(search.problem.forbidden, detail))}" fill="url(#hatch)" stroke="#555"/>'
    layers.append(("forbidden", "forbidden", barred, True))
    layers.append(("cost-lines", "so much dearer (computed, not proved)", lines(search, paper), True))
    marks, words = towns(search, paper)
    layers.append(("towns", words, marks, True))
    clipped = {"forbidden", "squares", *(f"near-{found.percent}" for found in page.near)}
    groups = ""
    for name, _, drawn, on in layers:
        words = (' clip-path="url(#land)"' if name in clipped else "") + ("" if on else ' hidden="hidden"')
        groups += f'<g id="{name}"{words}>{drawn}</g>\n'
    border = f'<path id="region" d="{land}" fill="none" stroke="#000" stroke-width="1.6"/>'
    clip = f'<defs><clipPath id="land"><path d="{land}"/></clipPath></defs>'
    ground = f'<path d="{land}" fill="#fff"/>'
    inner = clip + ground + groups.replace('<g id="cost-lines"', f'{border}<g id="cost-lines"', 1)
    return {
        "map": whole(search, paper, inner),
        "switches": "".join(switch(name, words, on) for name, words, _, on in layers),
    }


def whole(search: Search, paper: Paper, inner: str) -> str:
    """The map: its layers, other sites, the site, a scale bar and north. Its words say how the plane lies on it."""
    view = paper.view
    assert search.site is not None
    x, y = paper.at(search.site.x, search.site.y)
    turns = np.arange(10) * np.pi / 5 - np.pi / 2
    tips = zip(x + np.array([15, 6] * 5) * np.cos(turns), y + np.array([15, 6] * 5) * np.sin(turns))
    star = " ".join(f"{a:.2f},{b:.2f}" for a, b in tips)
    metres = round_length(view.width * view.across / 4)
    long, base = metres / view.across * WIDTH / view.width, paper.height - 18
    bar = f'<path d="M30 {base}h{long:.2f}" stroke="#000" stroke-width="5"/>'
    words = f'<text x="{30 + long / 2:.2f}" y="{base - 8}" text-anchor="middle">{length_words(metres)}</text>'
    north = '<path d="M970 45V18M964 27l6 -12l6 12z" stroke="#000"/><text x="970" y="62" text-anchor="middle">N</text>'
    across, down = paper.scale
    lies = f'data-x="{view.x0!r}" data-y="{view.y1!r}" data-across="{across!r}" data-down="{down!r}"'
    return (
        f'<svg xmlns="http://www.w3.org/2000/svg" id="map" viewBox="0 0 {WIDTH} {paper.height:g}" {lies} '
        f'role="group" aria-label="map of the region, with the site">\n{inner}<g id="others">{ON_MAP}</g>\n'
        f'<g id="site"><title>site</title><polygon points="{star}"/></g>\n'
        f'<g id="scale-bar">{bar}{words}</g><g id="north">{north}</g></svg>'
    )


def switch(name: str, words: str, on: bool) -> str:
    """A box that switches a layer."""
    checked = " checked" if on else ""
    return (
        f'<label class="{name}"><input type="checkbox" data-layer="{name}"{checked}> <i></i>{escape(words)}</label>\n'
    )


def lines(search: Search, paper: Paper) -> str:
    """Lines of equal cost, each with a name that shows where one points at it."""
    found = equal_costs(search, paper.view)
    drawn = "".join(
        f'<path d="{paper.path([line.places], "")}"><title>+{line.percent} %</title></path>' for line in found
    )
    for words, *place in labels(found):
        x, y = paper.at(*place)
        drawn += f'<text x="{x:g}" y="{y + 5:g}" text-anchor="middle">{words}</text>'
    return drawn


def towns(search: Search, paper: Paper) -> tuple[str, str]:
    """The towns' marks, each with its name, weight and distance in words; and what they are."""
    land, site, unit = search.landscape, search.site, float(search.problem.unit)
    assert site is not None
    drawn = heaviest(search, paper.view)
    terms, size = land.terms(site.x, site.y), land.size(site.x, site.y) or 1.0
    ways = land.ways(site.x, site.y) * unit / 1000
    weights = np.abs(land.weights[drawn])
    most = float(weights.max(initial=0)) or 1.0
    largest = min(LARGEST, (COVERED * WIDTH * paper.height / max(1, (weights / most).sum()) / 4) ** 0.5)
    marks = []
    for number in drawn.tolist():
        weight, way = float(land.weights[number]), float(ways[number])
        share = abs(float(terms[number])) / size * 100
        told = f"{search.problem.names[number]}: weight {weight:.12g}, {way:.3f} km from the site, "
        told += f"{share:.3g} % of all weight times distance"
        radius = max(SMALLEST, largest * (abs(weight) / most) ** 0.5)
        marks.append(mark(*paper.at(float(land.x[number]), float(land.y[number])), radius, weight > 0, told))
    words = f"towns by their weight: {town_words(search, len(drawn))}"
    return "".join(marks), words + ("; triangles push" if (land.weights < 0).any() else "")


def mark(x: float, y: float, radius: float, pulls: bool, told: str) -> str:
    """A disc, or a triangle, that tells something where one points at it."""
    if pulls:
        shape = f'circle cx="{x:g}" cy="{y:g}" r="{radius:.3g}"', "circle"
    else:
        shape = f'path d="M{x:g} {y + radius:g}l{radius:g} {-1.7 * radius:g}h{-2 * radius:g}z"', "path"
    return f"<{shape[0]}><title>{escape(told)}</title></{shape[1]}>\n"


def squares(page: Page, paper: Paper) -> str:
    """The squares by their bounds, a path for each shade."""
    search = page.search
    assert search.site is not None
    top = search.site.high / search.unit
    parts: list[list[str]] = [[] for _ in BOUNDS]
    shade: Callable[[float], int] = lambda above: sum(low <= above for low, *_ in BOUNDS) - 1
    for tile, square, value in page.squares:
        low, _, high, _ = corners(search, tile, square)
        (x, bottom), (right, y) = paper.at(*low), paper.at(*high)
        wide, tall = round(right - x, 2), round(bottom - y, 2)
        above = float((value - top) / (abs(top) or 1)) * 100
        parts[shade(above)].append(f"M{x:g} {y:g}h{wide:g}v{tall:g}h{-wide:g}z")
    return "".join(
        f'<path d="{"".join(part)}" fill="{colour}" stroke="#777" stroke-width=".3"><title>{label}</title></path>'
        for part, (*_, label, colour) in zip(parts, BOUNDS)
        if part
    )
