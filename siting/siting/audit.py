"""Tests a folder again, by the trusted functions and the program alone: nothing of the search is used.

The layers are read anew; of every tile the pieces, triangles and groups are those that were written. What the
folder promises is said sentence by sentence, each with what doesn't hold of it.
"""

from collections.abc import Callable, Iterator
from dataclasses import asdict
from fractions import Fraction
from pathlib import Path
from typing import Any, NamedTuple

import pyproj

from .audit_tiles import Tiles, demand, fault_of
from .exact.chains import permitted
from .folder import Folder
from .layers import by_area, read_rings
from .program import Program, for_covers
from .questions import QUESTIONS
from .reading import read_problem

LAST = Fraction(1, 10**6)  # a unit of the last digit that is written
NEIGHBOURS = 5
SENTENCES = (  # a test, what it says, and which tests have to hold before
    ("report", "the folder says what was asked, of which layers, and what was found", ()),
    ("layers", "the layers are as they were when it was written", ("report",)),
    ("problem", "they give the question and the towns that it says", ("report",)),
    ("frame", "each vertex of them is whole in the folder's units", ("problem",)),
    ("cover", "the tiles hold the whole region, and each of its points is in one that counts", ("frame",)),
    ("pieces", "the pieces of each tile hold each permitted point of it{covers}", ("cover",)),
    ("answers", "each answer is to its tile's pieces and towns, and bsss accepts it", ("pieces",)),
    ("bounds", "each tile's bound follows from its answer, with its charges taken anew", ("answers",)),
    ("bound", "no permitted point costs less than {bound}", ("bounds",)),
    ("site", "the site {site} is permitted", ("frame",)),
    ("cost", "its cost over all towns is from {low} to {high}", ("frame",)),
    ("gap", "it is at most {gap} % from the best, and the answer is {answer}", ("bound", "cost")),
    ("charges", "the difference comes from where it is said to come from", ("bound", "cost")),
    ("places", "its longitude and latitude, and the nearest and farthest towns, are those that are said", ("frame",)),
    ("words", "report.txt says the same", ("problem",)),
)
OF_A_SITE = ("site", "cost", "gap", "charges", "places")


class Sentence(NamedTuple):
    """A sentence of the promise, and what doesn't hold of it, or None."""

    says: str
    fault: str | None


def is_down(said: str, value: Fraction) -> bool:
    """Whether a decimal is the value rounded down."""
    return 0 <= value - Fraction(said) < LAST


class Audit:
    """The sentences on a folder, in the order of what they rest on."""

    def __init__(self, folder: Path, program: Program):
        self.path, self.program = folder, program
        self.names = {word: f"what is said ({word})" for word in ("bound", "site", "low", "high", "gap", "answer")}
        self.names["covers"] = ""
        self.said: dict[str, Any] = {}

    def sentences(self) -> Iterator[Sentence]:
        """Tests one sentence after another."""
        failed: set[str] = set()
        for name, says, needs in SENTENCES:
            if name in OF_A_SITE and self.said.get("site", ()) is None:
                continue
            fault: str | None = None
            if failed.intersection(needs):
                fault = "not tested, since what it rests on fails"
            else:
                fault = tried(getattr(self, name))
            if fault is not None:
                failed.add(name)
            yield Sentence(says.format_map(self.names), fault)

    # what was asked

    def report(self) -> None:
        """That the figures are there, and fit together."""
        self.folder = Folder(self.path)
        self.said = said = self.folder.figures
        question = QUESTIONS[said["asked"]["question"]]
        demand([said["question"], said["kind"]] == [question.word, question.kind], "the question is another")
        if said["site"] is None:
            empty = said["cost"], said["gap_percent"], said["gap_share_percent"], said["charges"] or None
            demand(empty == (None, None, None, None), "without a site there is no cost and no gap")
        else:
            names = said["bound"], f"{said['site']['x']}, {said['site']['y']}", *said["cost"], said["gap_percent"]
            self.names |= dict(zip(("bound", "site", "low", "high", "gap"), names)) | {"answer": said["answer"]}

    def layers(self) -> None:
        changed = self.folder.changed()
        demand(not changed, f"{', '.join(changed)} isn't as it was")

    def problem(self) -> None:
        self.read = read = read_problem(self.folder.asked())
        used = len(read.problem.towns.weights)
        counts = {"read": read.read, "used": used, "left_out": dict(read.left_out)}
        demand(self.said["towns"] == counts, f"the layers have {read.read} towns, of which {used} count")
        distance = "grid" if read.problem.ground is None else "ground"
        demand(self.said["distance"] == distance, f"distances are those of the {distance}")
        demand(self.said["brought"] == [asdict(moved) for moved in read.moved], "layers were brought in another way")
        demand(self.said["notes"] == read.notes, "the notes on how layers were read are others")
        for name, rings in read.made.items():
            written = read_rings(str(self.path / f"{name}.geojson")).rings
            demand(by_area(written) == by_area(rings), f"{name}.geojson isn't what the layers give")

    # the tiles

    def frame(self) -> None:
        self.tiles = Tiles(self.folder, self.read.problem)

    def cover(self) -> None:
        self.tiles.cover()
        self.tiles.look(self.program, for_covers())

    def pieces(self) -> None:
        self.of_tiles("pieces")
        if self.tiles.judged:
            self.names["covers"] = f", and bsss_cover finds {self.tiles.covered} of {self.tiles.judged} covered"

    def answers(self) -> None:
        self.of_tiles("answers")

    def bounds(self) -> None:
        self.of_tiles("bounds")

    def of_tiles(self, sort: str) -> None:
        demand(sort not in self.tiles.faults, self.tiles.faults.get(sort, ""))

    # the promise

    def bound(self) -> None:
        """The least of the tiles' bounds, of those that count."""
        counted = [row["bound"] for row in self.folder.rows if row["bound"] is not None and not row.get("cut")]
        if not counted:
            demand(self.said["bound"] is None and self.said["answer"] == "no site", "no point is permitted")
            return
        demand(self.said["bound"] is not None, "there are permitted points")
        demand(Fraction(self.said["bound"]) == min(map(Fraction, counted)), "it isn't the least of the tiles' bounds")
        demand(self.tiles.weakest is not None, "it isn't of a tile that counts")
        demand(is_down(self.said["bound"], self.least()), f"its square gives {float(self.least())!r}")

    def least(self) -> Fraction:
        """The bound, not rounded, in weight times metres."""
        assert self.tiles.weakest is not None
        return self.tiles.weakest.value * self.tiles.unit - self.off() - self.borders()

    def off(self) -> Fraction:
        """How far costs may be off, as towns were brought from another system, in weight times metres."""
        return self.read.problem.off * self.read.problem.unit

    def borders(self) -> Fraction:
        """How far the bound may be off, as areas were, in weight times metres."""
        return self.read.problem.borders * self.read.problem.unit

    def place(self) -> tuple[float, float]:
        """The site, as it is written."""
        site = self.said["site"]
        x, y = float(site["x"]), float(site["y"])
        demand(
            [repr(x), repr(y)] == [site["x"], site["y"]], "its coordinates aren't the shortest that read back to them"
        )
        return x, y

    def site(self) -> None:
        demand(permitted(*self.tiles.planes.spot(*self.place())), "it isn't")

    def cost(self) -> None:
        low, high = self.costs()
        said_low, said_high = self.said["cost"]
        right = is_down(said_low, low) and 0 <= Fraction(said_high) - high < LAST
        demand(right, f"it is from {float(low)!r} to {float(high)!r}")

    def costs(self) -> tuple[Fraction, Fraction]:
        """The cost of the site, in weight times metres."""
        low, high = self.tiles.planes.cost(*self.place())
        return low * self.read.problem.unit - self.off(), high * self.read.problem.unit + self.off()

    def gap(self) -> None:
        high = self.costs()[1]
        gap, size = high - self.least(), abs(high)
        self.percent("gap_percent", gap, size)
        enough = gap <= size * Fraction(self.said["within_percent"]) / 100
        demand(self.said["answer"] == ("within" if enough else "wider"), "the answer isn't what the gap says")
        whole = Fraction(self.tiles.planes.landscape.size(*self.place())) * self.read.problem.unit
        self.percent("gap_share_percent", gap, whole)

    def percent(self, name: str, part: Fraction, size: Fraction) -> None:
        """That a share is what is said, rounded up."""
        if not size:
            demand(self.said[name] is None, f"{name} is no number")
            return
        exact = part / size * 100
        near = 2 * LAST + abs(exact) / 10**9
        demand(-near < Fraction(str(self.said[name])) - exact < near, f"{name} is {float(exact):.6f}")

    def charges(self) -> None:
        assert self.tiles.weakest is not None
        names = ("positions", "joined", "cutoffs", "weights", "ground")
        parts = {name: part * self.tiles.unit for name, part in zip(names, self.tiles.weakest.charge, strict=True)}
        parts["systems"], parts["borders"] = 2 * self.off(), self.borders()
        parts["search"] = self.costs()[1] - self.least() - sum(parts.values())
        for name, said in self.said["charges"].items():
            part = parts.get(name, Fraction(0))
            demand(abs(Fraction(str(said)) - part) <= LAST + abs(part) / 10**9, f"{name} is {float(part):.6f}")
        demand(set(parts) <= set(self.said["charges"]), "a part is missing")

    # the rest of the report

    def places(self) -> None:
        (x, y), site, crs = self.place(), self.said["site"], self.read.crs
        if crs is not None:
            turned = pyproj.Transformer.from_crs(crs, "EPSG:4326", always_xy=True).transform(x, y)
            near = all(abs(float(a) - b) < 2e-8 for a, b in zip(turned, (site["lon"], site["lat"])))
            demand(near, "its longitude and latitude are others")
            authority = crs.to_authority()
            demand(site["crs"] == (":".join(authority) if authority else crs.name), "its reference system is another")
        problem = self.read.problem
        ways = [way * float(problem.unit) for way in self.tiles.planes.landscape.ways(x, y).tolist()]
        for word, order in (("nearest", sorted(ways)), ("farthest", sorted(ways, reverse=True))):
            demand(len(self.said[word]) == min(NEIGHBOURS, len(ways)), f"there are others {word}")
            for row, way in zip(self.said[word], order):
                names = [name for name, other in zip(problem.names, ways) if abs(other - way) < 0.002]
                right = abs(row["metres"] - way) < 0.001 and row["name"] in names
                demand(right, f"{row['name']} at {row['metres']} m isn't among the {word}")

    def words(self) -> None:
        """That report.txt has the site, the bound and the gap of the figures."""
        lines, said = (self.path / "report.txt").read_text().splitlines(), self.said
        wanted = [QUESTIONS[said["question"]].title]
        if said["site"] is not None:
            wanted.append(f"Site: {said['site']['x']}, {said['site']['y']} ({said['site']['crs']})")
            wanted.append(f"No permitted point costs less than {Fraction(said['bound']) // 1:,}".replace(",", " "))
        wanted += [*(moved.text() for moved in self.read.moved), *self.read.notes]
        for line in wanted:
            demand(line in lines, f"it doesn't say: {line}")
        demand(said["site"] is not None or not any(line.startswith("Site: ") for line in lines), "it says a site")
        if said["gap_percent"] is not None:
            start, end = "So the site is at most ", " % from the best"
            told = [line[len(start) : -len(end)] for line in lines if line.startswith(start) and line.endswith(end)]
            gap = Fraction(str(said["gap_percent"]))
            right = len(told) == 1 and 0 <= Fraction(told[0]) - gap < Fraction(1, 10**4)
            demand(right, f"it doesn't say: {start}{float(gap)}{end}")


def tried(test: Callable[[], None]) -> str | None:
    """What doesn't hold of a test, whatever a file may hold; or None."""
    try:
        test()
    except Exception as fault:
        return fault_of(fault)
    return None
