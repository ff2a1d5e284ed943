"""Without shapely, earcut, scipy, matplotlib and a cluster's packages: the same promise, by pieces of its own."""

import json
import subprocess
from pathlib import Path

import pytest
from conftest import PROGRAM

HERE = Path(__file__).parent
ABSENT = ("shapely", "mapbox_earcut", "scipy", "matplotlib", "contourpy", "distributed", "dask")


@pytest.mark.parametrize("absent", [(), ABSENT])
def test_command_and_audit(absent: tuple[str, ...], tmp_path: Path, monkeypatch: pytest.MonkeyPatch) -> None:
    for name in absent:
        (tmp_path / f"{name}.py").write_text(f"raise ImportError('no {name}')\n")
    monkeypatch.setenv("PYTHONPATH", str(tmp_path))
    run, program = HERE.parent / "run", ["--bsss", PROGRAM]
    sizes = ["--towns", "30", "--vertices", "120", "--lakes", "2", "--forests", "2"]
    subprocess.run([run, "make", "--seed", "3", *sizes, "--out", tmp_path], check=True)
    words = [
        "--towns",
        "towns.csv",
        "--weight",
        "people",
        "--region",
        "district.geojson",
        "--forbid",
        "forests.geojson",
    ]
    more = ["--grow", "200", "--keep-off", "500", "--within", "5", "--tiles", "2", "--out", "out"]
    done = subprocess.run([run, "near", *words, *more, *program], cwd=tmp_path, capture_output=True, text=True)
    assert done.returncode in (0, 1), done.stderr
    report = json.loads((tmp_path / "out" / "report.json").read_text())
    assert report["gap_percent"] < 5
    audit = subprocess.run([run, "audit", tmp_path / "out", *program], capture_output=True, text=True)
    assert audit.returncode == 0 and audit.stdout.endswith("\nholds\n"), audit.stdout
