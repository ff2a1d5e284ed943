"""Tables of questions: refusals are rows, what was answered is taken, and an interrupt leaves a table that is whole."""

import csv
import json
import os
import signal
import subprocess
import time
from pathlib import Path

import pytest
from siting.batch import HEAD, read_rows
from siting.command import main
from siting.layers import write_areas
from siting.program import BUILT
from siting.questions import Refused

SITING = Path(__file__).parent.parent
PROGRAM = str(BUILT if BUILT.exists() else SITING / "tests" / "stand_in")
SHORE = [(0.0, 0.0), (1000.0, 0.0), (1000.0, 1000.0), (0.0, 1000.0)]
TABLE = """name,question,towns,weight,names,region,forbid,keep-off,within
near all over,near,towns.csv,people,name,region.geojson,,,5
two forests,far-all,towns.csv,,,region.geojson,forest.geojson 'the other.geojson',,5
none,near,towns.csv,,,region.geojson,,2km,5
wrong,nearest,towns.csv,,,region.geojson,,,5
lost,near,nowhere.csv,,,region.geojson,,,5
"""


@pytest.fixture
def table(tmp_path: Path) -> Path:
    (tmp_path / "towns.csv").write_text("name,people,x,y\nA,10,100.5,100\nB,20,900,150\nC,5,450,1900.25\n")
    write_areas(tmp_path / "region.geojson", [[SHORE]], "EPSG:25832")
    write_areas(tmp_path / "forest.geojson", [[[(600.0, -50.0), (800.0, -50.0), (800.0, 200.0)]]], "EPSG:25832")
    write_areas(tmp_path / "the other.geojson", [[[(10.0, 10.0), (80.0, 10.0), (80.0, 20.0)]]], "EPSG:25832")
    (tmp_path / "table.csv").write_text(TABLE)
    return tmp_path / "table.csv"


def ask(table: Path, *words: str) -> int:
    return main(["batch", str(table), "--out", str(table.parent / "out"), "--bsss", PROGRAM, *words])


def answers(table: Path) -> dict[str, dict[str, str]]:
    with open(table.parent / "out" / "table.csv", newline="", encoding="utf-8") as file:
        reader = csv.DictReader(file)
        rows = {row["name"]: row for row in reader}
    assert tuple(reader.fieldnames or ()) == HEAD
    return rows


def test_a_table(table: Path, monkeypatch: pytest.MonkeyPatch) -> None:
    assert ask(table, "--jobs", "2") == 1  # since two rows are refused
    rows = answers(table)
    assert list(rows) == ["near all over", "two forests", "none", "wrong", "lost"]
    assert [row["status"] for row in rows.values()] == ["0", "0", "4", "2", "2"]
    assert "invalid choice: 'nearest'" in rows["wrong"]["message"]
    assert rows["lost"]["message"] == "nowhere.csv isn't there"
    assert rows["none"]["message"] == "no site" and rows["none"]["x"] == rows["none"]["cost"] == ""
    for name in ("near all over", "two forests"):
        said = json.loads((table.parent / "out" / name / "report.json").read_text())
        row = rows[name]
        assert [row["x"], row["y"]] == [said["site"]["x"], said["site"]["y"]]
        assert [row["cost"], row["bound"], row["message"]] == [said["cost"][1], said["bound"], said["answer"]]
        assert float(row["percent"]) == said["gap_percent"] and float(row["seconds"]) > 0
    assert len(json.loads((table.parent / "out" / "two forests" / "report.json").read_text())["asked"]["forbid"]) == 2

    # once more: what was answered is taken, with its seconds, and only what was refused is asked again
    write_areas(table.parent / "nowhere.csv", [[SHORE]], None)
    kept = {name: (table.parent / "out" / name / "report.json").stat().st_mtime_ns for name in list(rows)[:3]}
    assert ask(table) == 1
    again = answers(table)
    assert all(again[name] == rows[name] for name in kept)
    assert kept == {name: (table.parent / "out" / name / "report.json").stat().st_mtime_ns for name in kept}
    assert again["lost"]["status"] == "2" and again["lost"]["message"] != rows["lost"]["message"]

    # another question under the same name, and layers that have changed, aren't taken for answers
    table.write_text(TABLE.replace("near all over,near,", "near all over,far,").replace(",2km,5", ",2km,4"))
    (table.parent / "the other.geojson").unlink()
    assert ask(table) == 1
    changed = answers(table)
    for name in ("near all over", "two forests", "none"):
        assert changed[name]["status"] == "2" and "remove it, or name another" in changed[name]["message"]


@pytest.mark.parametrize(
    "text, says",
    [
        ("question,towns\nnear,a\n", "no column name"),
        ("name,towns\nnear,a\n", "no column question"),
        ("name,question\na,near\na,far\n", "line 3 has the name 'a'"),
        ("name,question\n../a,near\n", "line 2 has the name '../a'"),
        ("name,question\n,near\n", "line 2 has the name ''"),
        ("name,question\nb,near,c\n", "line 2 has 3 columns"),
    ],
)
def test_tables_that_are_refused(tmp_path: Path, text: str, says: str) -> None:
    (tmp_path / "table.csv").write_text(text)
    with pytest.raises(Refused, match=says.replace("(", r"\(")):
        read_rows(tmp_path / "table.csv")
    assert ask(tmp_path / "table.csv") == 2 and not (tmp_path / "out").exists()


def test_words_of_a_row(tmp_path: Path) -> None:
    table = tmp_path / "table.csv"
    table.write_text("name;question;region;seconds;maps;names\na;near;'a b.gpkg:c' d.shp;;yes;NAME\nb;far;e;5;no;\n")
    one, other = read_rows(table)
    assert one.words == ["near", "--region", "a b.gpkg:c", "d.shp", "--maps", "--name", "NAME"]
    assert other.words == ["far", "--region", "e", "--seconds", "5"]
    table.write_text("name,question,colour\na,near,blue\n")
    assert ask(table) == 1 and "--towns" in answers(table)["a"]["message"]
    table.write_text("name,question,towns,region,colour\na,near,b,c,blue\nb,make,,,\n")
    assert ask(table) == 1 and answers(table)["a"]["message"] == "unrecognized arguments: --colour blue"
    assert answers(table)["b"]["message"] == "make is no question"


@pytest.mark.parametrize("number", [signal.SIGINT, signal.SIGTERM])
def test_an_interrupt_leaves_no_child_and_a_table_that_is_whole(table: Path, number: int) -> None:
    """The first run is over by then, and two others wait for a program that never ends."""
    slow = table.parent / "slow"
    slow.write_text(
        f"#!/bin/sh\ncd {table.parent}\nmkdir first 2> /dev/null && echo $PPID > first/run\n"
        f'[ "$(cat first/run)" = $PPID ] && exec {PROGRAM} "$@"\necho $$ >> children\nexec sleep 600\n'
    )
    slow.chmod(0o755)
    head, row, *_ = TABLE.splitlines()
    table.write_text("\n".join([head, *(f"{name}{row.removeprefix('near all over')}" for name in "abcd")]) + "\n")
    words = ["batch", str(table), "--out", str(table.parent / "out"), "--bsss", str(slow), "--jobs", "2"]
    work = subprocess.Popen([SITING / "run", *words], stderr=subprocess.PIPE, text=True)
    children, until = table.parent / "children", time.monotonic() + 120
    while not children.exists() or len(children.read_text().split()) < 2:
        assert time.monotonic() < until
        time.sleep(0.05)
    work.send_signal(number)
    assert work.wait(60) == 130 and "has what was answered" in (work.stderr.read() if work.stderr else "")
    for child in children.read_text().split():
        with pytest.raises(ProcessLookupError):
            os.kill(int(child), 0)
    rows = answers(table)
    told = sorted(row["message"] for row in rows.values())
    assert list(rows) == list("abcd") and told == ["not answered yet"] * 3 + ["within"]
    done = [name for name, row in rows.items() if row["message"] == "within"]
    assert sorted(os.listdir(table.parent / "out")) == sorted([*done, "table.csv"])

    # it goes on from there
    seconds = rows[done[0]]["seconds"]
    assert ask(table, "--jobs", "3") == 0
    again = answers(table)
    assert again[done[0]]["seconds"] == seconds and {row["status"] for row in again.values()} == {"0"}
