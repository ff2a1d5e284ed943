"""Audits: a folder that was left alone holds, and of one that was changed the right sentence fails."""

import json
import re
import shutil
from collections.abc import Callable
from fractions import Fraction
from pathlib import Path
from random import Random
from typing import Any

import pytest
from siting.audit import SENTENCES, Audit
from siting.command import main
from siting.compare import digest
from siting.layers import write_areas
from siting.program import BUILT, COVERS, Program

PROGRAM = str(BUILT if BUILT.exists() else Path(__file__).parent / "stand_in")
TOWNS = [("A", 10, 100.5, 100.0), ("B", 20, 900.0, 150.0), ("C", 5, 450.0, 1900.25), ("D", 0, 1.0, 1.0)]
SHORE = [(0.0, 0.0), (1000.0, 0.0), (1000.0, 1000.0), (500.0, 600.0), (0.0, 1000.0)]
LAKE = [(200.0, 200.0), (200.0, 400.0), (400.0, 400.0), (400.0, 200.0)]
FOREST = [(850.0, 50.0), (950.0, 50.0), (950.0, 250.0), (850.0, 250.0)]
GRID = "EPSG:25832"

Edit = Callable[[Path], None]


def write_layers(folder: Path) -> None:
    rows = ["name,people,x,y", *(",".join(map(str, row)) for row in TOWNS)]
    (folder / "towns.csv").write_text("\n".join(rows) + "\n")
    write_areas(folder / "region.geojson", [[SHORE, LAKE]], GRID)
    write_areas(folder / "forest.geojson", [[FOREST]], GRID)


def ask(folder: Path, *words: str) -> None:
    """Asks a question of the layers in a folder, and writes the answer's folder `out` into it."""
    question, *others = words
    layers = [f"{name}={folder / file}" for name, file in (("--towns", "towns.csv"), ("--region", "region.geojson"))]
    given = [word for layer in layers for word in layer.split("=")]
    asked = [question, *given, "--weight", "people", "--name", "name", "--bsss", PROGRAM, "--out", str(folder / "out")]
    assert main([*asked, *others]) in (0, 1, 4)


def failing(folder: Path) -> dict[str, str]:
    """The sentences of `out` that fail, by their tests, and what is said of them."""
    sentences = Audit(folder / "out", Program(PROGRAM)).sentences()
    says = {says.partition("{")[0]: name for name, says, _ in SENTENCES}
    known = [(next(says[start] for start in says if said.startswith(start)), fault) for said, fault in sentences]
    return {name: fault for name, fault in known if fault is not None}


@pytest.fixture(scope="module")
def answered(tmp_path_factory: pytest.TempPathFactory) -> Path:
    """Layers, and an answer of several tiles."""
    folder = tmp_path_factory.mktemp("audit")
    write_layers(folder)
    hasty = folder / "hasty"  # gives up early, so that there are several tiles
    hasty.write_text(f'#!/bin/bash\nexec {PROGRAM} "${{@/#budget=*/budget=30}}"\n')
    hasty.chmod(0o755)
    forbid = ["--forbid", str(folder / "forest.geojson"), "--grow", "5", "--keep-off", "40"]
    ask(folder, "near", *forbid, "--within", "0", "--tiles", "3", "--bsss", str(hasty))
    return folder


@pytest.fixture
def copy(answered: Path, tmp_path: Path) -> Path:
    """The same elsewhere: its layers' paths are those of the copy."""
    folder = tmp_path / "copy"
    shutil.copytree(answered, folder)
    report = folder / "out" / "report.json"
    report.write_text(report.read_text().replace(str(answered), str(folder)))
    return folder


# edits


def figures(change: Callable[[dict[str, Any]], object], file: str = "report.json") -> Edit:
    """Changes what a file of figures says."""

    def edit(folder: Path) -> None:
        path = folder / "out" / file
        said = json.loads(path.read_text())
        change(said)
        path.write_text(json.dumps(said))

    return edit


def proof(change: Callable[[dict[str, Any]], object]) -> Edit:
    return figures(change, "1.proof.json")


def text(file: str, old: str, new: str) -> Edit:
    """Changes the first of these words in a file of the answer, or beside it."""

    def edit(folder: Path) -> None:
        path = folder / file if (folder / file).exists() else folder / "out" / file
        assert old in path.read_text()
        path.write_text(path.read_text().replace(old, new, 1))

    return edit


def vertex(file: str) -> Edit:
    """Moves the second vertex of a layer's first area by a metre, to the west."""

    def edit(folder: Path) -> None:
        path = folder / file if (folder / file).exists() else folder / "out" / file
        layer = json.loads(path.read_text())
        layer["features"][0]["geometry"]["coordinates"][0][1][0] -= 1
        path.write_text(json.dumps(layer))

    return edit


def known(*edits: Edit) -> Edit:
    """Edits of layers, and their new digests in the report."""

    def edit(folder: Path) -> None:
        for each in edits:
            each(folder)
        report = folder / "out" / "report.json"
        said = json.loads(report.read_text())
        said["digests"] = {source: digest(source) for source in said["digests"]}
        report.write_text(json.dumps(said))

    return edit


def copied(source: str, target: str) -> Edit:
    return lambda folder: [None, shutil.copy(folder / "out" / source, folder / "out" / target)][0]


def lake(folder: Path) -> None:
    """A region with another lake."""
    more = [(600.0, 300.0), (600.0, 310.0), (610.0, 310.0)]
    write_areas(folder / "region.geojson", [[SHORE, LAKE, more]], GRID)


def told(old: str, new: str) -> Edit:
    """Changes what a pattern finds in report.txt."""

    def edit(folder: Path) -> None:
        path = folder / "out" / "report.txt"
        changed = re.sub(old, new, path.read_text())
        assert changed != path.read_text()
        path.write_text(changed)

    return edit


def raised(number: str, by: str = "1") -> str:
    return str(Fraction(number) + Fraction(by))


def set_in(said: dict[str, Any], **values: object) -> None:
    said.update(values)


def all_bounds(said: dict[str, Any]) -> None:
    """All bounds one more, so that they fit together."""
    said["bound"] = raised(said["bound"])
    for row in said["tiles"]:
        row["bound"] = row["bound"] and raised(row["bound"])


def moved_charge(said: dict[str, Any]) -> None:
    """Less for positions, and as much more for the search."""
    said["charges"]["positions"] -= 0.001
    said["charges"]["search"] += 0.001


def far(said: dict[str, Any]) -> None:
    said["question"] = said["asked"]["question"] = "far"


def first(said: dict[str, Any], name: str, change: Callable[[list[Any]], list[Any]]) -> None:
    said[name][0] = change(said[name][0])


def grow_piece(ring: list[list[int]]) -> list[list[int]]:
    """A piece twice as large, about its first corner."""
    (a, b), *_ = ring
    return [[2 * x - a, 2 * y - b] for x, y in ring]


def shrink_piece(ring: list[list[int]]) -> list[list[int]]:
    """A piece without its first corner, or half of it."""
    (a, b), *_ = ring
    return ring[1:] if len(ring) > 3 else [[(x + a) // 2, (y + b) // 2] for x, y in ring]


def forgotten(tiles: list[dict[str, Any]]) -> None:
    """The first tile has no parts any more, and its bound stays."""
    del tiles[0]["parts"], tiles[0]["cut"]


def swapped(groups: list[list[Any]]) -> None:
    """The towns of two groups, one for the other."""
    groups[0][4], groups[1][4] = groups[1][4], groups[0][4]


EDITS: dict[str, tuple[Edit, str, str]] = {  # an edit, the sentence that fails, and what is said of it
    "a town's weight": (text("towns.csv", "A,10", "A,11"), "layers", "towns.csv isn't as it was"),
    "a town's weight, and the digest": (known(text("towns.csv", "A,10", "A,11")), "cost", "it is from"),
    "a town moved, and the digest": (known(text("towns.csv", "1900.25", "1900.5")), "cost", "it is from"),
    "a town more, and the digest": (
        known(text("towns.csv", "A,10", "E,9,5,5\nA,10")),
        "problem",
        "5 towns, of which 4",
    ),
    "a vertex moved": (vertex("region.geojson"), "layers", "region.geojson isn't as it was"),
    "a vertex moved, and the digest": (known(vertex("region.geojson")), "pieces", "doesn't cancel"),
    "a lake more, and the digest": (known(lake), "pieces", "doesn't cancel"),
    "a forest's border moved, and the digest": (known(vertex("forest.geojson")), "problem", "grown.geojson"),
    "a layer that isn't there": (lambda folder: (folder / "towns.csv").unlink(), "layers", "isn't as it was"),
    "a grown forest": (vertex("grown.geojson"), "problem", "grown.geojson isn't what the layers give"),
    "a digit of the bound": (figures(lambda f: set_in(f, bound=raised(f["bound"]))), "bound", "isn't the least"),
    "a digit of the bound, lower": (figures(lambda f: set_in(f, bound=raised(f["bound"], "-1"))), "bound", "the least"),
    "a digit of each bound": (figures(all_bounds), "bounds", "its bound doesn't follow"),
    "the cost": (figures(lambda f: set_in(f, cost=[raised(c, "-1") for c in f["cost"]])), "cost", "it is from"),
    "the cost, wider": (figures(lambda f: set_in(f, cost=[f["cost"][0], raised(f["cost"][1])])), "cost", "it is from"),
    "a digit of a cover": (text("1.cover", "shift ", "shift 1"), "answers", "its cover is another's"),
    "the site in the lake": (figures(lambda f: set_in(f["site"], x="300.0", y="300.0")), "site", "it isn't"),
    "the site in the forest": (figures(lambda f: set_in(f["site"], x="900.0", y="200.0")), "site", "it isn't"),
    "the site outside": (figures(lambda f: set_in(f["site"], x="500.0", y="700.0")), "site", "it isn't"),
    "the site no number": (figures(lambda f: set_in(f["site"], x="nan")), "site", "can't be read"),
    "no site": (figures(lambda f: set_in(f, site=None)), "report", "without a site"),
    "the gap": (figures(lambda f: set_in(f, gap_percent=f["gap_percent"] / 2)), "gap", "gap_percent is"),
    "its share": (figures(lambda f: set_in(f, gap_share_percent=0.0)), "gap", "gap_share_percent is"),
    "the answer": (figures(lambda f: set_in(f, answer="within")), "gap", "isn't what the gap says"),
    "a charge lowered": (figures(lambda f: set_in(f["charges"], positions=0.0, search=9.9)), "charges", " is "),
    "a charge moved": (figures(moved_charge), "charges", "search is"),
    "a charge left out": (figures(lambda f: f["charges"].pop("joined")), "charges", "a part is missing"),
    "the question": (figures(far), "bounds", "its bound doesn't follow"),
    "the kind": (figures(lambda f: set_in(f, kind="max")), "report", "the question is another"),
    "the reach": (figures(lambda f: set_in(f["asked"], reach="500m")), "cost", "it is from"),
    "the weights' field": (figures(lambda f: set_in(f["asked"], weight=None)), "problem", "of which 4 count"),
    "no forest asked for": (
        figures(lambda f: set_in(f["asked"], forbid=[], grow=None)),
        "pieces",
        "may hold a permitted",
    ),
    "less to keep off": (figures(lambda f: set_in(f["asked"], keep_off="30")), "problem", "kept-off.geojson"),
    "the number of towns": (figures(lambda f: set_in(f["towns"], used=4)), "problem", "of which 3 count"),
    "the longitude": (figures(lambda f: set_in(f["site"], lon=f["site"]["lon"] + 1e-6)), "places", "longitude"),
    "the grid": (figures(lambda f: set_in(f["site"], crs="EPSG:25833")), "places", "reference system"),
    "a neighbour": (figures(lambda f: set_in(f["nearest"][0], name="C")), "places", "C at"),
    "a distance": (figures(lambda f: set_in(f["farthest"][0], metres=1.0)), "places", "at 1.0 m isn't among"),
    "a coarser frame": (figures(lambda f: set_in(f, frame=[-4, *f["frame"][1:]])), "frame", "the frame isn't exact"),
    "a missing tile": (figures(lambda f: f["tiles"].pop()), "cover", "parts that aren't there"),
    "a missing first tile": (figures(lambda f: f["tiles"].pop(0)), "cover", "missing or doubled"),
    "a doubled tile": (figures(lambda f: f["tiles"].append(f["tiles"][-1])), "cover", "missing or doubled"),
    "no tiles": (figures(lambda f: set_in(f, tiles=[])), "cover", "missing or doubled"),
    "parts that are forgotten": (figures(lambda f: forgotten(f["tiles"])), "bounds", "its bound doesn't follow"),
    "parts of itself": (figures(lambda f: set_in(f["tiles"][0], parts=[1, 2])), "cover", "parts that aren't there"),
    "another tile's bound": (figures(lambda f: set_in(f["charged"], tile=1)), "bound", ""),
    "a tile's box": (proof(lambda f: first(f, "box", lambda v: v + 1)), "cover", "isn't the region's"),
    "a permit shrunk": (proof(lambda f: first(f, "permits", shrink_piece)), "pieces", "doesn't hold it"),
    "a permit dropped": (proof(lambda f: f["permits"].pop()), "pieces", "tile 1: the triangle's owner"),
    "a forbid dropped": (proof(lambda f: f["forbids"].pop()), "answers", "instance isn't that of its pieces"),
    "a forbid grown": (proof(lambda f: first(f, "forbids", grow_piece)), "pieces", "may hold a permitted point"),
    "a triangle dropped": (proof(lambda f: f["triangles"].pop()), "pieces", "doesn't cancel"),
    "a triangle doubled": (proof(lambda f: f["triangles"].append(f["triangles"][0])), "pieces", "doesn't cancel"),
    "a double for a number": (
        proof(lambda f: first(f, "triangles", lambda t: [float(t[0]), *t[1:]])),
        "cover",
        "what should be whole numbers isn't",
    ),
    "a group dropped": (proof(lambda f: f["groups"].pop()), "answers", "instance isn't that of its pieces"),
    "a group without a line": (proof(lambda f: f["groups"].append([1, 1, 0, None, [-1]])), "bounds", "in one group"),
    "two groups' towns": (proof(lambda f: swapped(f["groups"])), "bounds", "its bound doesn't follow"),
    "the scale": (proof(lambda f: set_in(f, scale=3 * f["scale"])), "bounds", "its bound doesn't follow"),
    "the scale below 0": (proof(lambda f: set_in(f, scale=-f["scale"])), "bounds", "scale is above 0"),
    "an instance": (text("1.siting", "\npoint ", "\npoint 1"), "answers", "instance isn't that of its pieces"),
    "an answer of another tile": (
        copied("2.answer", "1.answer"),
        "answers",
        "tile 1: its answer is to another instance",
    ),
    "a missing answer": (lambda folder: (folder / "out" / "2.answer").unlink(), "answers", "tile 2: it can't be read"),
    "a truncated answer": (text("1.answer", "\nend\n", "\n"), "answers", "tile 1: "),
    "an answer cut short": (text("2.answer", "\nX\n", "\n"), "answers", "tile 2: bsss says of its answer: rejected"),
    "a leaf's bound": (text("3.answer", "\nO ", "\nO 1"), "answers", "tile 3: bsss says of its answer: rejected"),
    "a leaf left out": (text("1.answer", "\nO ", "\nX\nO "), "answers", "tile 1: bsss says of its answer: rejected"),
    "a bound in words": (text("report.txt", "costs less than ", "costs less than 1"), "words", "it doesn't say: No"),
    "a gap in words": (
        told("at most .* % from the best\n", "at most 0.0000 % from the best\n"),
        "words",
        "it doesn't say: So the site",
    ),
    "a site in words": (text("report.txt", "Site: ", "Site: 1"), "words", "it doesn't say: Site"),
    "no words": (lambda folder: (folder / "out" / "report.txt").unlink(), "words", "it can't be read"),
    "no figures": (lambda folder: (folder / "out" / "report.json").unlink(), "report", "it can't be read"),
    "half of the figures": (text("report.json", '"tiles"', ""), "report", "it can't be read"),
}


def test_a_folder_that_was_left_alone_holds(copy: Path) -> None:
    assert failing(copy) == {}


@pytest.mark.parametrize("name", EDITS)
def test_an_edit_is_found(copy: Path, name: str) -> None:
    edit, sentence, says = EDITS[name]
    edit(copy)
    failed = failing(copy)
    assert sentence in failed and says in failed[sentence], failed


@pytest.mark.parametrize("seed", range(12))
def test_whatever_digit_is_changed(copy: Path, seed: int) -> None:
    """No sentence fails otherwise than in words, and where all hold, the promise is the same."""
    random = Random(seed)
    path = random.choice(sorted((copy / "out").glob("*.[jpas]*")))
    old = path.read_text()
    at = random.choice([n for n, letter in enumerate(old) if letter.isdigit()])
    path.write_text(old[:at] + str((int(old[at]) + random.randint(1, 9)) % 10) + old[at + 1 :])
    if path.name == "report.json":
        promised = [
            [json.loads(text)[word] for word in ("bound", "cost", "answer")] for text in (old, path.read_text())
        ]
        assert failing(copy) or promised[0] == promised[1]
    else:
        assert failing(copy) or path.suffix == ".answer"  # of an answer the gap and the budget may be others


@pytest.mark.parametrize(
    "words",
    [
        ["near-all", "--reach", "0.9km"],
        ["far", "--reach", "0.5km", "--within", "0", "--tiles", "3"],
        ["far-all", "--within", "0", "--tiles", "2"],
        ["mixed", "--reach", "0.2km", "--keep-off", "50"],
        ["near", "--seconds", "0"],
        ["near", "--keep-off", "1500"],
    ],
)
def test_other_answers_hold(tmp_path: Path, words: list[str], capsys: pytest.CaptureFixture[str]) -> None:
    write_layers(tmp_path)
    ask(tmp_path, *words)
    said = json.loads((tmp_path / "out" / "report.json").read_text())
    assert (said["site"] is None) == ("1500" in words)
    capsys.readouterr()
    assert main(["audit", str(tmp_path / "out"), "--bsss", PROGRAM]) == 0
    lines = capsys.readouterr().out.splitlines()
    assert len(lines) == (16 if said["site"] else 11) and lines.pop() == "holds"
    assert all(line.startswith("holds: ") for line in lines)
    if said["site"]:
        assert f"holds: no permitted point costs less than {said['bound']}" in lines


def test_a_site_is_as_said_where_no_point_is_permitted(tmp_path: Path) -> None:
    write_layers(tmp_path)
    ask(tmp_path, "near", "--keep-off", "1500")
    text("report.txt", "No point", "Site: 1, 1\nNo point")(tmp_path)
    assert failing(tmp_path) == {"words": "it says a site"}
    figures(lambda f: set_in(f, answer="wider"))(tmp_path)
    assert "no point is permitted" in failing(tmp_path)["bound"]


@pytest.mark.skipif(not COVERS.exists(), reason="bsss_cover isn't built")
def test_tiles_are_found_covered(answered: Path, capsys: pytest.CaptureFixture[str]) -> None:
    main(["audit", str(answered / "out"), "--bsss", PROGRAM])
    said = re.search(r"and bsss_cover finds (\d+) of (\d+) covered", capsys.readouterr().out)
    assert said is not None and said[1] == said[2] != "0"


def test_statuses(copy: Path, capsys: pytest.CaptureFixture[str]) -> None:
    figures(lambda f: set_in(f["charges"], joined=1.0))(copy)
    assert main(["audit", str(copy / "out"), "--bsss", PROGRAM]) == 3
    done = capsys.readouterr()
    assert "fails: the difference comes from where it is said to come from: " in done.out
    assert "the folder doesn't hold: 1 of its sentences fail" in done.err
    assert main(["audit", str(copy / "none"), "--bsss", PROGRAM]) == 3
    assert "15 of its sentences fail" in capsys.readouterr().err
