"""What was found, in words and in figures: report.txt, report.json, and the texts of every tile."""

import json
import os
from collections import Counter
from dataclasses import asdict
from fractions import Fraction
from functools import cached_property
from math import floor
from pathlib import Path
from typing import Any

import numpy as np
import pyproj

from .compare import digests
from .cover_text import Cover, cover_text
from .exact.bound import Least
from .figures import decimal, thousands
from .layers import by_area, write_areas
from .geopackage import write_package
from .near import NearSet, near_sets
from .package import below, layers_of
from .page import Page, write_page
from .problem import Problem
from .reading import Read
from .squares import Bounded, bounded_squares
from .tiles import Run, Search

WITHIN, WIDER, NO_SITE = "within", "wider", "no site"
STATUS = {WITHIN: 0, WIDER: 1, NO_SITE: 4}


class Report:
    """All that is said of a search that has ended."""

    def __init__(self, read: Read, search: Search, within: Fraction):
        self.read, self.search, self.within = read, search, within
        self.problem: Problem = read.problem
        self.metres = self.problem.unit
        site, bound = search.site, search.bound()
        off = self.problem.off
        self.bound = None if bound is None else (bound - off - self.problem.borders) * self.metres
        self.cost = None if site is None else ((site.low - off) * self.metres, (site.high + off) * self.metres)
        self.answer = NO_SITE if self.bound is None else WIDER
        self.gap: Fraction | None = None
        if self.cost is not None and self.bound is not None:
            size = abs(self.cost[1])
            self.gap = (self.cost[1] - self.bound) / size * 100 if size else None
            if self.cost[1] - self.bound <= size * within / 100:
                self.answer = WITHIN

    @cached_property
    def near(self) -> list[NearSet]:
        """The near sets, the least first."""
        return near_sets(self.search)

    @cached_property
    def squares(self) -> list[Bounded]:
        """The squares that the bound comes from."""
        return bounded_squares(self.search)

    @property
    def status(self) -> int:
        return STATUS[self.answer]

    # the figures

    def weakest(self) -> tuple[int, Least] | None:
        """The number of the tile with the least bound, and the square that has it."""
        found = [(n, run.least) for n, run in enumerate(self.search.runs, 1) if run.least is not None and not run.cut]
        return min(found, key=lambda row: row[1].value, default=None)

    def charged(self) -> dict[str, Any] | None:
        """The tile that the bound and its charges come from, and its square, in grid units."""
        weakest = self.weakest()
        if weakest is None:
            return None
        number, least = weakest
        return {"tile": number, "square": least.square[:3]}

    def charges(self) -> dict[str, Fraction]:
        """Where the difference between cost and bound comes from, in weight times metres."""
        weakest = self.weakest()
        if weakest is None or self.cost is None or self.bound is None:
            return {}
        _, least = weakest
        unit = self.search.unit * self.metres
        named = {
            "positions": least.charge.rounded * unit,
            "joined": least.charge.joined * unit,
            "cutoffs": least.charge.cutoffs * unit,
            "weights": least.charge.weights * unit,
            "borders": self.problem.borders * self.metres,
            "ground": least.charge.ground * unit,
            "systems": 2 * self.problem.off * self.metres,
        }
        return {"search": self.cost[1] - self.bound - sum(named.values()), **named}

    def place(self) -> dict[str, Any] | None:
        """The site, in the layers' own coordinates and in WGS 84."""
        site, crs = self.search.site, self.read.crs
        if site is None:
            return None
        found = {
            "crs": crs_name(crs),
            "x": repr(site.x),
            "y": repr(site.y),
            "lon": None,
            "lat": None,
        }
        if crs is not None:
            to_degrees = pyproj.Transformer.from_crs(crs, "EPSG:4326", always_xy=True)
            found["lon"], found["lat"] = (round(float(value), 8) for value in to_degrees.transform(site.x, site.y))
        return found

    def neighbours(self, count: int = 5) -> dict[str, list[dict[str, Any]]]:
        """The nearest and the farthest towns, with their distances in metres."""
        site, land = self.search.site, self.search.landscape
        if site is None:
            return {}
        ways = land.ways(site.x, site.y)
        order = np.argsort(ways, kind="stable")

        def town(number: int) -> dict[str, Any]:
            metres = float(ways[number]) * float(self.metres)
            return {"name": self.problem.names[number], "metres": round(metres, 3)}

        return {
            "nearest": [town(int(n)) for n in order[:count]],
            "farthest": [town(int(n)) for n in order[::-1][:count]],
        }

    def tiles(self) -> list[dict[str, Any]]:
        """The tiles in the order of their solving, with the names of their texts."""
        numbers = {id(run): number for number, run in enumerate(self.search.runs, 1)}
        unit, off = self.search.unit * self.metres, (self.problem.off + self.problem.borders) * self.metres
        rows = []
        for number, run in enumerate(self.search.runs, 1):
            row: dict[str, Any] = {"tile": number, "box": self.box(run)}
            if run.solved:
                row |= {"instance": f"{number}.siting", "answer": f"{number}.answer"}
            row["bound"] = None if run.least is None else decimal(run.least.value * unit - off, 6)
            if run.parts:
                row["parts"] = [numbers[id(part)] for part in run.parts]
                row["cut"] = run.cut
            rows.append(row)
        return rows

    def box(self, run: Run) -> list[float]:
        """A tile's box in the layers' plane."""
        return self.search.planes.doubles(run.tile)

    def share(self) -> Fraction | None:
        """The gap as a share of the sum of all weights times distances, in per cent."""
        site = self.search.site
        if site is None or self.cost is None or self.bound is None:
            return None
        size = Fraction(site.size) * self.metres
        return (self.cost[1] - self.bound) / size * 100 if size else None

    def figures(self) -> dict[str, Any]:
        """report.json."""
        left_out: Counter[str] = self.read.left_out
        gap, share = self.gap, self.share()
        near = {near.percent: float(near.square_metres(self.search.planes)) for near in self.near}
        return {
            "question": self.problem.question.word,
            "kind": self.problem.question.kind,
            "answer": self.answer,
            "site": self.place(),
            "distance": "grid" if self.problem.ground is None else "ground",
            "cost": self.cost and [decimal(self.cost[0], 6), decimal(self.cost[1], 6, up=True)],
            "bound": None if self.bound is None else decimal(self.bound, 6),
            "gap_percent": None if gap is None else float(decimal(gap, 6, up=True)),
            "gap_share_percent": None if share is None else float(decimal(share, 6, up=True)),
            "within_percent": str(self.within),
            "charged": self.charged(),
            "charges": {name: round(float(value), 6) for name, value in self.charges().items()},
            "towns": {
                "read": self.read.read,
                "used": len(self.problem.towns.weights),
                "left_out": dict(left_out),
            },
            "near_sets": [{"percent": p, "square_metres_at_most": area} for p, area in near.items()],
            **self.neighbours(),
            "from": os.getcwd(),
            "asked": self.read.asked.figures(),
            "brought": [asdict(moved) for moved in self.read.moved],
            "notes": self.read.notes,
            "digests": digests(self.read.asked),
            "frame": self.search.frame,
            "tiles": self.tiles(),
        }

    # the words

    def headline(self) -> str:
        """The question, and how good the site is."""
        title = self.problem.question.title
        known = "no site" if self.answer == NO_SITE else "no site found within the limits"
        if self.gap is not None:
            known = f"at most {decimal(self.gap, 4, up=True)} % from the best possible site"
        return f"{title}; {known}"

    def text(self, figures: dict[str, Any]) -> str:
        """report.txt."""
        lines = [self.problem.question.title, ""]
        read = [*(moved.text() for moved in self.read.moved), *self.read.notes]
        if self.answer == NO_SITE:
            return "\n".join([*lines, "No point is permitted: no site.", *read, ""])
        lines += [*self.site_lines(figures), *read, "", *self.difference_lines(), *self.town_lines(figures)]
        return "\n".join([*lines, ""])

    def site_lines(self, figures: dict[str, Any]) -> list[str]:
        site = figures["site"]
        if site is None or self.cost is None or self.bound is None:
            return ["No permitted site was found within the limits; the bound stands in report.json."]
        lines = [f"Site: {site['x']}, {site['y']} ({site['crs']})"]
        if site["lon"] is not None:
            lines.append(f"  longitude {site['lon']:.6f}, latitude {site['lat']:.6f} (WGS 84)")
        low, high = (thousands(value) for value in self.cost)
        lines += [
            "",
            f"Cost: {high if low == high else f'{low} to {high}'} weight times metres, {figures['distance']} distance",
            f"No permitted point costs less than {thousands(floor(self.bound))}",
        ]
        if self.gap is not None:
            lines.append(f"So the site is at most {decimal(self.gap, 4, up=True)} % from the best")
        if self.problem.question.sign == 0:
            share = decimal(self.share() or Fraction(0), 6, up=True)
            lines.append(f"  and {share} % of all weight times distance, which counts where weights cancel")
        if figures["near_sets"]:
            percents = ", ".join(str(near["percent"]) for near in figures["near_sets"])
            areas = ", ".join(f"{near['square_metres_at_most'] / 1e6:.3f}" for near in figures["near_sets"])
            lines.append(f"Sites within {percents} % of its cost cover at most {areas} square kilometres")
        names = " and ".join(f"{name}.geojson" for name in self.read.made)
        if names:
            lines.append(f"All of this is for places outside the areas in {names}, as written")
        return lines

    def difference_lines(self) -> list[str]:
        if self.cost is None:
            return []
        size = abs(self.cost[1]) or Fraction(1)
        lines = ["Where the difference comes from, in per cent of the cost:"]
        for name, value in self.charges().items():
            lines.append(f"  {name:<10} {float(value / size) * 100:10.6f}")
        return [*lines, ""]

    def town_lines(self, figures: dict[str, Any]) -> list[str]:
        towns = figures["towns"]
        lines = [f"Towns: {towns['read']} read, {towns['used']} used"]
        lines += [f"  left out, {reason}: {count}" for reason, count in towns["left_out"].items()]
        for word in ("nearest", "farthest"):
            for town in figures.get(word, []):
                lines.append(f"  {word}: {town['name']}, {town['metres'] / 1000:.3f} km")
        return lines

    def write(self, folder: Path, maps: bool) -> None:
        """Writes the reports, with maps or without, and the texts of every tile into a folder that is there."""
        figures = self.figures()
        text = self.text(figures)
        (folder / "report.json").write_text(json.dumps(figures, indent=1) + "\n")
        (folder / "report.txt").write_text(text)
        layers = layers_of(self.search, self.near, self.squares, self.site_row())
        write_package(folder / "siting.gpkg", layers, self.read.crs)
        if maps:
            from .maps import write_maps  # matplotlib, which nothing else needs

            write_maps(self.search, self.near, self.squares, self.headline(), folder)
            write_page(self.page(figures, text), folder / "report.html")
        for name, rings in self.read.made.items():
            write_areas(folder / f"{name}.geojson", by_area(rings), crs_name(self.read.crs))
        for number, run in enumerate(self.search.runs, 1):
            (folder / f"{number}.proof.json").write_text(json.dumps(proof_of(run)) + "\n")
            if run.solved:
                (folder / f"{number}.siting").write_text(run.solved.instance)
                (folder / f"{number}.answer").write_text(run.solved.text)
                cover = self.cover(run, run.solved.instance)
                if cover is not None:
                    (folder / f"{number}.cover").write_text(cover)

    def cover(self, run: Run, instance: str) -> str | None:
        """What `bsss_cover` reads of a tile; None where the tile is too large for it."""
        plane, shift = run.plane, self.search.frame.shift
        rings = Cover(plane.region, plane.forbidden, run.outer.triangles, plane.box(run.tile), shift)
        return cover_text(rings, run.outer.permits, instance)

    def site_row(self) -> dict[str, Any] | None:
        """The row of the layer `site`."""
        if self.cost is None:
            return None
        question, bound = self.problem.question.word, None if self.bound is None else below(self.bound)
        gap = None if self.gap is None else -below(-self.gap)
        return {"question": question, "cost": -below(-self.cost[1]), "bound": bound, "gap_percent": gap}

    def page(self, figures: dict[str, Any], text: str) -> Page:
        """What report.html has."""
        answers = [(n, run.solved.text) for n, run in enumerate(self.search.runs, 1) if run.solved]
        return Page(self.search, self.near, self.squares, self.headline(), self.promise(figures), text, answers)

    def promise(self, figures: dict[str, Any]) -> list[str]:
        """What holds, in sentences."""
        if self.bound is None:
            return ["No point is permitted."]
        said = [f"No permitted point costs less than {figures['bound']}, over all towns that count."]
        if self.cost is not None:
            low, high = figures["cost"]
            said = [
                "The site, as its coordinates are written, is permitted: tested exactly against the layers.",
                f"Its cost over all {figures['towns']['used']} towns that count lies between {low} and {high}.",
                *said,
                "Each near set holds every permitted point that costs at most so many per cent more than the site.",
            ]
        return said


def proof_of(run: Run) -> dict[str, Any]:
    """What an audit needs of a tile beside its answer: its box, pieces and triangles in fine units, its groups."""
    pieces = {"permits": run.outer.permits, "forbids": run.outer.forbids}
    triangles = [[*a, *b, *c, owner] for a, b, c, owner in run.outer.triangles]
    proof: dict[str, Any] = {"box": run.tile, "plane": run.plane.made, **pieces, "triangles": triangles}
    if run.solved:
        proof |= {"groups": run.solved.groups, "scale": run.solved.charges.scale}
    return proof


def crs_name(crs: pyproj.CRS | None) -> str | None:
    """The authority's name of a reference system, such as EPSG:25832, or its own."""
    if crs is None:
        return None
    authority = crs.to_authority()
    return ":".join(authority) if authority else str(crs.name)
