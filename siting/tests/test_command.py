"""The command from outside: its statuses, what it writes, and what it refuses."""

import functools
import json
import os
import signal
import subprocess
import time
from fractions import Fraction
from pathlib import Path

import pytest
from siting.exact.cost import cost, to_towns
from siting.program import BUILT

SITING = Path(__file__).parent.parent
PROGRAM = BUILT if BUILT.exists() else SITING / "tests" / "stand_in"
TOWNS = [("A", 10, 100.5, 100.0), ("B", 20, 900.0, 150.0), ("C", 5, 450.0, 1900.25), ("D", 0, 1.0, 1.0)]
REGION = [(0.0, 0.0), (1000.0, 0.0), (1000.0, 1000.0), (500.0, 600.0), (0.0, 1000.0)]
FOREST = [(600.0, -50.0), (800.0, -50.0), (800.0, 200.0), (600.0, 200.0)]


def area(path: Path, *rings: list[tuple[float, float]]) -> Path:
    """A GeoJSON layer in a grid, a feature a ring."""
    features = [
        {"type": "Feature", "properties": {}, "geometry": {"type": "Polygon", "coordinates": [[*ring, ring[0]]]}}
        for ring in rings
    ]
    system = {"type": "name", "properties": {"name": "urn:ogc:def:crs:EPSG::25832"}}
    path.write_text(json.dumps({"type": "FeatureCollection", "crs": system, "features": features}))
    return path


@pytest.fixture
def layers(tmp_path: Path) -> Path:
    rows = ["name,people,x,y", *(",".join(map(str, row)) for row in TOWNS)]
    (tmp_path / "towns.csv").write_text("\n".join(rows) + "\n")
    area(tmp_path / "region.geojson", REGION)
    area(tmp_path / "forest.geojson", FOREST)
    return tmp_path


def siting(folder: Path, *words: str) -> subprocess.CompletedProcess[str]:
    return subprocess.run([SITING / "run", *words], cwd=folder, capture_output=True, text=True)


def ask(folder: Path, question: str, *words: str) -> subprocess.CompletedProcess[str]:
    given = ["--towns", "towns.csv", "--weight", "people", "--name", "name", "--region", "region.geojson"]
    return siting(folder, question, *given, "--out", "out", "--bsss", str(PROGRAM), *words)


def left_behind(folder: Path) -> list[str]:
    return [name for name in os.listdir(folder) if "out" in name]


def test_near(layers: Path) -> None:
    done = ask(layers, "near", "--forbid", "forest.geojson")
    assert done.returncode in (0, 1), done.stderr
    report = json.loads((layers / "out" / "report.json").read_text())
    assert report["question"] == "near" and report["kind"] == "sum" and report["distance"] == "grid"
    assert report["towns"] == {"read": 4, "used": 3, "left_out": {"weight 0": 1}}
    assert report["site"]["crs"] == "EPSG:25832"
    x, y = float(report["site"]["x"]), float(report["site"]["y"])
    towns = to_towns([row[2:] for row in TOWNS[:3]], [Fraction(row[1]) for row in TOWNS[:3]], [None] * 3)
    low, high = cost("sum", towns, x, y)
    assert Fraction(report["cost"][0]) <= low <= high <= Fraction(report["cost"][1])
    # B has the most weight: the best permitted point is near it, and no worse than B itself
    assert Fraction(report["bound"]) <= cost("sum", towns, 900.0, 150.0)[1]
    assert set(report["charges"]) >= {"positions", "joined", "cutoffs", "weights", "borders", "ground"}
    gap = (Fraction(report["cost"][1]) - Fraction(report["bound"])) / Fraction(report["cost"][1]) * 100
    assert report["gap_percent"] >= float(gap) - 1e-6
    assert (done.returncode == 0) == (report["answer"] == "within")
    for tile in report["tiles"]:
        assert (layers / "out" / tile["instance"]).read_text().startswith("siting ")
        assert (layers / "out" / tile["answer"]).read_text().startswith("siting answer ")
    assert "EPSG:25832" in (layers / "out" / "report.txt").read_text() == done.stdout
    assert left_behind(layers) == ["out"]


@pytest.mark.parametrize("question", ["near-all", "far", "far-all", "mixed"])
def test_other_questions(layers: Path, question: str) -> None:
    assert ask(layers, question, "--reach", "0.9km").returncode in (0, 1)
    report = json.loads((layers / "out" / "report.json").read_text())
    assert Fraction(report["bound"]) <= Fraction(report["cost"][1])


def test_progress_in_lines(layers: Path) -> None:
    assert ask(layers, "near", "--within", "50").stderr == ""
    (layers / "out").rename(layers / "first")
    lines = ask(layers, "near", "--within", "50", "--progress").stderr.splitlines()
    assert [lines[0], lines[1], lines[-1]] == ["progress: reading", "progress: searching", "progress: writing"]
    assert lines[2].startswith("progress: 1 tiles, gap ") and lines[2].endswith(" %")


def test_reach_by_field_and_feet(layers: Path) -> None:
    rows = ["x,y,reach", "100,100,50", "900,150,0.2"]
    (layers / "towns.csv").write_text("\n".join(rows) + "\n")
    words = ["--towns", "towns.csv", "--reach", "reach", "--region", "region.geojson", "--out", "out"]
    assert siting(layers, "near", *words, "--bsss", str(PROGRAM)).returncode in (0, 1)
    report = json.loads((layers / "out" / "report.json").read_text())
    assert Fraction(report["cost"][1]) <= Fraction("50.2") + Fraction(1, 1000)


def test_no_permitted_point(layers: Path) -> None:
    area(layers / "forest.geojson", [(-10.0, -10.0), (1010.0, -10.0), (1010.0, 1010.0), (-10.0, 1010.0)])
    assert ask(layers, "near", "--forbid", "forest.geojson").returncode == 4
    report = json.loads((layers / "out" / "report.json").read_text())
    assert report["answer"] == "no site" and report["site"] is None and report["bound"] is None


@pytest.mark.parametrize(
    "rows, words, says",
    [
        (["name,people,x,y", "A,-1,5,5"], [], "`mixed` takes both signs"),
        (["name,people,x,y", "A,0,5,5"], [], "no town with a weight"),
        (["name,x,y", "A,5,5"], [], "no field people"),
        (["name,people,x,y", "A,1,five,5"], [], "line 2"),
        (["name,people,east,north", "A,1,5,5"], [], "no columns x and y"),
        (["name,people,x,y", "A,1,5,5"], ["--forbid", "none.geojson"], "isn't there"),
        (["name,people,x,y", "A,1,5,5"], ["--bsss", "/dev/null"], "no program that runs"),
        (["name,people,x,y", "A,1,5,5"], ["--reach", "name"], "has no reach"),
    ],
)
def test_refusals(layers: Path, rows: list[str], words: list[str], says: str) -> None:
    (layers / "towns.csv").write_text("\n".join(rows) + "\n")
    done = ask(layers, "near", *words)
    assert done.returncode == 2 and says in done.stderr and done.stdout == ""
    assert left_behind(layers) == []


def test_an_invalid_area_and_degrees_are_refused(layers: Path) -> None:
    area(layers / "forest.geojson", FOREST, [(0.0, 0.0), (9.0, 9.0), (9.0, 0.0), (0.0, 9.0)])
    done = ask(layers, "near", "--forbid", "forest.geojson")
    assert done.returncode == 2 and "feature 2" in done.stderr and "4.5, 4.5" in done.stderr
    degrees = json.loads((layers / "region.geojson").read_text())
    del degrees["crs"]
    (layers / "region.geojson").write_text(json.dumps(degrees))
    assert ask(layers, "near").returncode == 2


def test_a_folder_that_is_there_is_kept(layers: Path) -> None:
    (layers / "out").mkdir()
    assert ask(layers, "near").returncode == 2
    assert os.listdir(layers / "out") == []


def test_a_program_that_fails_or_lies_is_no_answer(layers: Path) -> None:
    lie = layers / "lie"
    lie.write_text(f"#!/bin/sh\n{PROGRAM} \"$@\" | sed 's/^kind sum/kind max/'\n")
    fail = layers / "fail"
    fail.write_text("#!/bin/sh\nexit 8\n")
    for program in (lie, fail):
        program.chmod(0o755)
        done = ask(layers, "near", "--bsss", str(program))
        assert done.returncode == 3 and "nothing was written" in done.stderr
        assert left_behind(layers) == []


def test_an_interrupt_leaves_no_child_and_no_folder(layers: Path) -> None:
    slow = layers / "slow"
    slow.write_text(f"#!/bin/sh\necho $$ > {layers}/child\nexec sleep 600\n")
    slow.chmod(0o755)
    words = ["near", "--towns", "towns.csv", "--region", "region.geojson", "--out", "out", "--bsss", str(slow)]
    heard = functools.partial(
        signal.signal, signal.SIGINT, signal.SIG_DFL
    )  # also where a shell in the background ignores it
    work = subprocess.Popen([SITING / "run", *words], cwd=layers, stderr=subprocess.DEVNULL, preexec_fn=heard)
    until = time.monotonic() + 30
    while not (layers / "child").exists() or not (layers / "child").read_text():
        assert time.monotonic() < until
        time.sleep(0.05)
    work.send_signal(signal.SIGINT)
    assert work.wait(30) == 130
    with pytest.raises(ProcessLookupError):
        os.kill(int((layers / "child").read_text()), 0)
    assert left_behind(layers) == []


def test_seconds_keep_the_best_so_far(layers: Path) -> None:
    assert ask(layers, "near", "--seconds", "0", "--within", "0").returncode == 1
    report = json.loads((layers / "out" / "report.json").read_text())
    assert report["answer"] == "wider" and report["site"] and report["bound"]
