"""Other sites beside an answer: their costs by hand, what is permitted, and layers that have changed."""

import csv
import json
from fractions import Fraction
from math import hypot
from pathlib import Path
from shutil import copy, copytree

import pytest
from siting.command import main
from siting.exact.cost import cost, to_towns
from siting.program import BUILT

PROGRAM = str(BUILT if BUILT.exists() else Path(__file__).parent / "stand_in")
TOWNS = [("A", 10, 100.5, 100.0), ("B", 20, 900.0, 150.0), ("C", 5, 450.0, 1900.25)]
SQUARE = "POLYGON ((0 0, 1000 0, 1000 1000, 0 1000, 0 0))"
FOREST = "POLYGON ((600 -50, 800 -50, 800 200, 600 200, 600 -50))"


@pytest.fixture
def answer(tmp_path: Path, monkeypatch: pytest.MonkeyPatch, capsys: pytest.CaptureFixture[str]) -> Path:
    """Asked with paths that are relative to its folder."""
    monkeypatch.chdir(tmp_path)
    rows = ["name,people,x,y", *(",".join(map(str, row)) for row in TOWNS)]
    Path("towns.csv").write_text("\n".join(rows) + "\n")
    Path("region.csv").write_text(f'wkt\n"{SQUARE}"\n')
    Path("forest.csv").write_text(f'wkt\n"{FOREST}"\n')
    given = ["--towns", "towns.csv", "--weight", "people", "--region", "region.csv", "--forbid", "forest.csv"]
    given += ["--name", "name", "--maps"]
    words = ["--keep-off", "50", "--crs", "EPSG:25832", "--bsss", PROGRAM, "--out", "out"]
    assert main(["near", *given, *words]) in (0, 1)
    monkeypatch.chdir("/")
    capsys.readouterr()
    return tmp_path / "out"


def by_hand(x: float, y: float) -> float:
    return sum(weight * hypot(x - a, y - b) for _, weight, a, b in TOWNS)


PLACES = [(500.0, 500.0), (700.0, 0.0), (700.0, 200.0), (900.0, 150.5), (100.5, 160.0), (-1.0, 5.0)]
WHY = [
    "",
    "inside feature 1 of forest.csv",
    "",
    "nearer than 50 m to a town, in kept-off.geojson",
    "",
    "outside the region",
]


def test_compare(answer: Path, tmp_path: Path, capsys: pytest.CaptureFixture[str]) -> None:
    figures = json.loads((answer / "report.json").read_text())
    own = tuple(float(figures["site"][axis]) for axis in "xy")
    words = ["--csv", str(tmp_path / "sites.csv"), "--site", *(f" {a!r},{b!r}" for a, b in PLACES)]
    assert main(["compare", str(answer), *words]) == 0
    lines = capsys.readouterr().out.splitlines()
    rows = list(csv.DictReader((tmp_path / "sites.csv").open()))
    assert [row["site"] for row in rows] == ["answer", "1", "2", "3", "4", "5", "6"]
    towns = to_towns([town[2:] for town in TOWNS], [Fraction(town[1]) for town in TOWNS], [None] * 3)
    for (x, y), reason, row, line in zip([own, *PLACES], ["", *WHY], rows, lines[1:], strict=True):
        assert (row["x"], row["y"]) == (repr(x), repr(y))
        assert (row["permitted"], row["why not"]) == ("no" if reason else "yes", reason)
        high = cost("sum", towns, x, y)[1]
        assert 0 <= Fraction(row["cost"]) - high < Fraction(1, 10**6)
        assert float(row["cost"]) == pytest.approx(by_hand(x, y), abs=0.002)
        answers = Fraction(figures["cost"][1])
        for name, than in (("bound", Fraction(figures["bound"])), ("answer", answers)):
            assert float(row[f"% above the {name}"]) == pytest.approx(float((high - than) / answers * 100), abs=6e-5)
        by_way = sorted(TOWNS, key=lambda town: hypot(x - town[2], y - town[3]))
        assert (row["nearest town"], row["farthest town"]) == (by_way[0][0], by_way[-1][0])
        assert float(row["its metres"]) == pytest.approx(hypot(x - by_way[0][2], y - by_way[0][3]), abs=0.06)
        assert line.split()[:4] == [row["site"], row["x"], row["y"], row["permitted"]]
        at = lines[0].index("cost") + len("cost")
        assert line[:at].endswith(row["cost"])  # columns line up


def test_sites_one_by_one(answer: Path, capsys: pytest.CaptureFixture[str]) -> None:
    """Also those whose x is below 0."""
    assert main(["compare", str(answer), "--site=-1.0,5.0", "--site", "500,500", "700,0", "--site=-2,-3"]) == 0
    lines = [line.split() for line in capsys.readouterr().out.splitlines()[2:]]
    assert [line[:3] for line in lines] == [
        ["1", "-1.0", "5.0"],
        ["2", "500.0", "500.0"],
        ["3", "700.0", "0.0"],
        ["4", "-2.0", "-3.0"],
    ]


def test_a_page_with_the_sites(answer: Path, tmp_path: Path, capsys: pytest.CaptureFixture[str]) -> None:
    words = ["compare", str(answer), "--site", "500,500", "700,0", "--page", str(tmp_path / "sites.html")]
    assert main(words) == 0
    page, before = (tmp_path / "sites.html").read_text(), (answer / "report.html").read_text()
    assert "inside feature 1 of forest.csv" in page and page.count("<path d=") == before.count("<path d=") + 2
    assert "<td>500.0</td>" in page and "<td>500.0</td>" not in before
    (answer / "report.html").unlink()
    assert main(words) == 2 and "--maps" in capsys.readouterr().err


def test_changed_layers_are_refused(answer: Path, capsys: pytest.CaptureFixture[str]) -> None:
    towns = answer.parent / "towns.csv"
    towns.write_text(towns.read_text().replace("900.0", "901.0"))
    assert main(["compare", str(answer), "--site", "1,2"]) == 2
    assert "towns.csv isn't as it was" in capsys.readouterr().err


def test_a_folder_that_moved_with_its_layers(answer: Path, tmp_path: Path, capsys: pytest.CaptureFixture[str]) -> None:
    """Its layers are found beside it; where they are at their old place, these count."""
    other = tmp_path.with_name("moved")
    copytree(tmp_path, other)
    (other / "towns.csv").write_text("x,y\n1,1\n")
    words = ["--site", "500,500"]
    assert main(["compare", str(other / "out"), *words]) == 0
    (tmp_path / "towns.csv").rename(tmp_path / "other.csv")
    assert main(["compare", str(other / "out"), *words]) == 2
    copy(tmp_path / "other.csv", other / "towns.csv")
    assert main(["compare", str(other / "out"), *words]) == 0
    assert main(["audit", str(other / "out"), "--bsss", PROGRAM]) == 0


def test_what_is_no_answer_is_refused(tmp_path: Path, capsys: pytest.CaptureFixture[str]) -> None:
    assert main(["compare", str(tmp_path), "--site", "1,2"]) == 2
    assert "holds no answer" in capsys.readouterr().err
