"""What other sites cost, beside an answer that was written: exactly, over the same layers; as a table, as CSV, and on
the answer's page."""

import csv
import json
from collections.abc import Iterator, Sequence
from dataclasses import dataclass
from fractions import Fraction
from hashlib import sha256
from html import escape
from pathlib import Path
from typing import Any

from .exact.chains import permitted
from .exact.frame import nearest
from .figures import decimal
from .layers import Ring
from .page_frame import IN_TEXT, ON_MAP
from .planes import planes_of
from .problem import Places, Problem, exact_bits
from .questions import Refused
from .reading import Asked, Read, read_problem
from .tables import file_of

Place = tuple[float, float]
HEAD = ("site", "x", "y", "permitted", "why not", "cost", "% above the bound", "% above the answer")
TOWNS = ("nearest town", "its metres", "farthest town", "its metres away")
RIGHT = ("cost", "% above the bound", "% above the answer", "its metres", "its metres away")


def digests(asked: Asked) -> dict[str, str]:
    """The digests of the layers, by their names."""
    return {source: digest(source) for source in [asked.towns, *asked.region, *asked.forbid]}


def digest(source: str) -> str:
    """The digest of a layer's file, of a Shapefile that of all its files."""
    path = Path(file_of(source)[0])
    parts = sorted(path.parent.glob(f"{path.stem}.*")) if path.suffix.lower() == ".shp" else [path]
    total = sha256()
    for part in parts:
        total.update(part.read_bytes())
    return total.hexdigest()


def base_of(folder: Path, figures: dict[str, Any]) -> Path:
    """What the names of the layers are from: as the folder says, or what the folder is in, where they moved with it."""
    asked, said, beside = figures["asked"], Path(figures["from"]), folder.resolve().parent
    sources = [asked["towns"], *asked["region"], *asked["forbid"]]

    def all_in(base: Path) -> bool:
        return all(Path(file_of(str(base / source))[0]).exists() for source in sources)

    return beside if all_in(beside) and not all_in(said) else said


def asked_again(folder: Path) -> tuple[Asked, dict[str, Any]]:
    """What was asked of the answer in the folder, with whole paths, and its figures; the layers must be as they were."""
    try:
        figures = json.loads((folder / "report.json").read_text())
        words, known, base = figures["asked"], figures["digests"], base_of(folder, figures)
    except (OSError, ValueError, KeyError) as fault:
        raise Refused(f"{folder} holds no answer") from fault
    for source, said in known.items():
        if not Path(file_of(str(base / source))[0]).exists() or digest(str(base / source)) != said:
            raise Refused(f"{source} isn't as it was when {folder} was written: ask the question again")
    words["towns"] = str(base / words["towns"])
    for name in ("region", "forbid"):
        words[name] = [str(base / source) for source in words[name]]
    for name in ("grow", "keep_off"):
        words[name] = words[name] and Fraction(words[name])
    return Asked(**words), figures


def is_permitted(region: Sequence[Places], forbidden: Sequence[Places], x: float, y: float) -> bool:
    """Exactly, of the rings as they were read."""
    bits = exact_bits([*region, *forbidden, [(x, y)]])
    inside, outside = (
        tuple(tuple((nearest(a, bits), nearest(b, bits)) for a, b in ring) for ring in rings)
        for rings in (region, forbidden)
    )
    return permitted(inside, outside, nearest(x, bits), nearest(y, bits), 1)


@dataclass(frozen=True)
class Area:
    """A forbidden area, and what is said of a site inside it."""

    words: str
    rings: list[Ring]


class Comparison:
    """The layers of an answer, and what it says of its site and bound."""

    def __init__(self, folder: Path):
        self.asked, self.figures = asked_again(folder)
        self.read: Read = read_problem(self.asked)
        self.problem: Problem = self.read.problem
        self.planes = planes_of(self.problem)
        self.areas = list(self.forbidden_areas())

    def forbidden_areas(self) -> Iterator[Area]:
        """Each forbidden feature, and what was made of them and of towns."""
        for source, features in zip(self.asked.forbid, self.read.forbidden):
            for row, rings in enumerate(features, 1):
                yield Area(f"inside feature {row} of {Path(source).name}", list(rings))
        for name, words, length in (
            ("grown", "a forbidden area", self.asked.grow),
            ("kept-off", "a town", self.asked.keep_off),
        ):
            if name in self.read.made and length is not None:
                yield Area(f"nearer than {float(length):g} m to {words}, in {name}.geojson", self.read.made[name])

    def why_not(self, x: float, y: float) -> str:
        """Why a site isn't permitted; nothing where it is."""
        region = self.problem.region
        if is_permitted(region, self.problem.forbidden, x, y):
            return ""
        if not is_permitted(region, [], x, y):
            return "outside the region"
        words = (area.words for area in self.areas if not is_permitted(region, area.rings, x, y))
        return next(words, "between forbidden areas, with no room")

    def row(self, name: str, x: float, y: float) -> dict[str, str]:
        """What is said of a site: its cost in weight times metres, rounded up, and how much more that is than the bound
        and than the answer's cost, in per cent of the answer's."""
        high = (self.planes.cost(x, y)[1] + self.problem.off) * self.problem.unit
        said = [self.figures["bound"], self.figures["cost"] and self.figures["cost"][1]]
        answer = None if said[1] is None else abs(Fraction(said[1]))
        more = ["" if not answer or v is None else percent((high - Fraction(v)) / answer * 100) for v in said]
        ways = self.planes.landscape.ways(x, y)
        towns: list[str] = []
        for number in (int(ways.argmin()), int(ways.argmax())):
            towns += [self.problem.names[number], f"{ways[number] * float(self.problem.unit):.1f}"]
        reason = self.why_not(x, y)
        words = [name, repr(x), repr(y), "no" if reason else "yes", reason, decimal(high, 6, up=True), *more, *towns]
        return dict(zip(HEAD + TOWNS, words, strict=True))

    def rows(self, sites: Sequence[Place]) -> list[dict[str, str]]:
        """The answer's own site, where it has one, and the others by their numbers."""
        own, rows = self.figures["site"], []
        if own is not None:
            rows.append(self.row("answer", float(own["x"]), float(own["y"])))
        return rows + [self.row(str(number), x, y) for number, (x, y) in enumerate(sites, 1)]


def percent(value: Fraction) -> str:
    """With a sign, rounded to the nearest."""
    return f"{round(float(value), 4) + 0.0:+.4f}"


def table(rows: Sequence[dict[str, str]]) -> Iterator[str]:
    """Lines whose columns line up; those that are empty are left out."""
    names = [name for name in HEAD + TOWNS if any(row[name] for row in rows)]
    wide = {name: max(len(name), *(len(row[name]) for row in rows)) for name in names}
    for line in ({name: name for name in names}, *rows):
        cells = (line[n].rjust(wide[n]) if n in RIGHT else line[n].ljust(wide[n]) for n in names)
        yield "  ".join(cells).rstrip()


def write_csv(rows: Sequence[dict[str, str]], path: Path) -> None:
    with open(path, "w", newline="") as file:
        writer = csv.DictWriter(file, HEAD + TOWNS)
        writer.writeheader()
        writer.writerows(rows)


def write_page(folder: Path, rows: Sequence[dict[str, str]], path: Path) -> None:
    """Writes the answer's page once more, with these sites on its map and in a table."""
    source = folder / "report.html"
    if not source.exists():
        raise Refused(f"{folder} has no report.html: ask the question with --maps")
    text = source.read_text()
    svg = text.partition('<svg xmlns="http://www.w3.org/2000/svg" id="map"')[2].partition(">")[0]
    if svg:
        words = dict(part.split("=") for part in svg.split() if part.startswith("data-"))
        x0, y1, across, down = (float(words[f"data-{name}"].strip('"')) for name in ("x", "y", "across", "down"))
        marks = "".join(mark(row, (float(row["x"]) - x0) * across, (y1 - float(row["y"])) * down) for row in rows[1:])
        text = text.replace(ON_MAP, marks)
    names = [name for name in HEAD + TOWNS if any(row[name] for row in rows)]
    head = "".join(f"<th>{escape(name)}</th>" for name in names)
    body = "".join("<tr>" + "".join(f"<td>{escape(row[name])}</td>" for name in names) + "</tr>\n" for row in rows)
    path.write_text(
        text.replace(IN_TEXT, f'<h2>Other sites</h2>\n<table id="other-sites"><tr>{head}</tr>\n{body}</table>')
    )


def mark(row: dict[str, str], x: float, y: float) -> str:
    """A numbered diamond, which tells what is said of its site."""
    told = (
        f"site {row['site']}: {row['why not'] or 'permitted'}; {row['% above the answer']} % against the answer's cost"
    )
    shape = f'<path d="M{x:.2f} {y - 9:.2f}l9 9l-9 9l-9 -9z"><title>{escape(told)}</title></path>'
    return f'{shape}<text x="{x + 12:.2f}" y="{y + 6:.2f}">{row["site"]}</text>'
