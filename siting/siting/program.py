"""Finds `bsss` and `bsss_cover`, and runs them."""

import os
import shutil
import subprocess
import tempfile
import time
from collections.abc import Sequence
from pathlib import Path

from .questions import Refused

BUILT = Path(__file__).resolve().parents[2] / "crates" / "bsss" / "out" / "bsss"
COVERS = BUILT.parents[2] / "bsss_cover" / "out" / "bsss_cover"
ANSWERS = (0, 10, 11, 12, 13)  # the statuses of a solve that writes an answer
NEAR = (0, 17)  # those of a near set that is written, or too large to be
COVERED = (0, 3, 5, 9)  # those of a cover that was judged


class OutOfTime(Exception):
    """The program was stopped at the end of the time allowed."""


class Program:
    """A program, at its path: `bsss`, where none is named."""

    def __init__(self, path: str | None = None):
        self.path = find(path)

    def run(
        self,
        words: Sequence[str],
        text: str,
        statuses: Sequence[int] = (0,),
        until: float | None = None,
    ) -> str:
        """What the program writes, given these words and this input. It reads and writes files, so
        that nothing waits for a full pipe; it is killed at `until` (of time.monotonic) and where
        this run is interrupted."""
        with tempfile.TemporaryFile() as source, tempfile.TemporaryFile() as sink:
            source.write(text.encode())
            source.seek(0)
            child = subprocess.Popen([self.path, *words], stdin=source, stdout=sink, stderr=subprocess.DEVNULL)
            try:
                while child.poll() is None:
                    if until is not None and time.monotonic() > until:
                        raise OutOfTime
                    pause(child)
            finally:
                if child.poll() is None:
                    child.kill()
                child.wait()
            if child.returncode not in statuses:
                raise RuntimeError(f"{self.path} {' '.join(words)} ended with {child.returncode}")
            sink.seek(0)
            return sink.read().decode("ascii")


def for_covers() -> Program | None:
    """`bsss_cover`, where the repository has built it, or it is on the path."""
    found = str(COVERS) if COVERS.is_file() else shutil.which("bsss_cover")
    return Program(found) if found else None


def pause(child: "subprocess.Popen[bytes]") -> None:
    """Waits a little, or until the program ends."""
    try:
        child.wait(0.1)
    except subprocess.TimeoutExpired:
        pass


def find(path: str | None) -> str:
    """The program that is named, or $BSSS, or the repository's, or the one on the path."""
    named = path or os.environ.get("BSSS")
    for candidate in [named] if named else [str(BUILT), shutil.which("bsss")]:
        if candidate and os.access(candidate, os.X_OK) and Path(candidate).is_file():
            return candidate
    if named:
        raise Refused(f"{named} is no program that runs")
    raise Refused("bsss isn't built: run ./bsss in the repository once, or say where it is: --bsss PATH")
