"""Canceling: within a second, no process and no file is left."""

import os
import time
from pathlib import Path
from random import Random

import pytest
from conftest import Told, best
from layers import TOWNS, memory, small


def processes_in(folder: Path) -> list[str]:
    """The command lines of the processes that work in this folder."""
    found = []
    for process in Path("/proc").glob("[0-9]*"):
        try:
            if os.readlink(process / "cwd").startswith(str(folder)):
                found.append((process / "cmdline").read_text().replace("\0", " "))
        except OSError:  # it has ended meanwhile, or is another one's
            continue
    return found


@pytest.mark.parametrize("step", ["solve", "near"])
def test_cancel(step: str, tmp_path: Path, monkeypatch: pytest.MonkeyPatch) -> None:
    """By a program that hangs where it solves, and where it lists near sets: then half a folder is written, here into
    a folder that is there before."""
    program, folder = tmp_path / "hangs", tmp_path / "new" / "a"
    program.write_text(f'#!/bin/sh\n[ "$1" = {step} ] && exec sleep 60\nexec {os.environ["BSSS"]} "$@"\n')
    program.chmod(0o755)
    if step == "near":
        folder.mkdir(parents=True)
    before = sorted(tmp_path.rglob("*"))
    monkeypatch.setenv("BSSS", str(program))
    seen: list[list[str]] = []
    halves: list[bool] = []
    asked: list[float] = []

    def when() -> bool:
        """Once it hangs."""
        running = processes_in(folder)
        if not any(line.startswith("sleep 60") for line in running):
            return False
        seen.append(running)
        halves.append(any(folder.glob(".answer.*")))
        asked.append(time.monotonic())
        return True

    found = best(small(FOLDER=str(folder)), Told(when))
    assert time.monotonic() - asked[0] < 1
    assert processes_in(tmp_path) == [] and sorted(tmp_path.rglob("*")) == before
    assert "COST" not in found and halves == [step == "near"]
    (command,) = (line for line in seen[0] if not line.startswith("sleep"))
    assert "-m siting near" in command and "--seconds 60" in command  # as where it isn't named


def test_a_limit_of_seconds_keeps_the_best(tmp_path: Path) -> None:
    random = Random(2)
    places = [f"Point ({random.uniform(0, 1000)} {random.uniform(0, 1000)})" for _ in range(20)]
    towns = memory("Point", [*places, *TOWNS], people=[random.randint(1, 99) for _ in range(23)])
    found = best(small(TOWNS=towns, QUESTION=2, WITHIN=0, SECONDS=1, FOLDER=str(tmp_path / "a")))
    assert found["WORD"] in ("wider", "within") and found["BOUND"] <= found["COST"]
    assert processes_in(tmp_path) == []
