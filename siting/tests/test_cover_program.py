"""The texts of covers, given to the program that makes their tests again, proved. Not run where it isn't built."""

import subprocess
from pathlib import Path

import pytest
from test_regions import CASES, SHIFT, box_of, made

from siting.cover_text import Cover, cover_text, numbers
from siting.exact.plane import Box, Rings
from siting.proposals.outer import Outer, prepared, propose

HERE = Path(__file__).resolve().parents[2]
PROGRAM = HERE / "crates" / "bsss_cover" / "out" / "bsss_cover"
pytestmark = pytest.mark.skipif(not PROGRAM.exists(), reason="bsss_cover isn't built")


def told(text: str) -> str:
    """What the program writes of a text."""
    return subprocess.run([PROGRAM], input=text, capture_output=True, text=True, timeout=60).stdout.strip()


def instance_of(outer: Outer) -> str:
    """An instance with one town and the pieces of a tile."""
    permits = [f"permit {numbers(piece)}" for piece in outer.permits]
    forbids = [f"forbid {numbers(piece)}" for piece in outer.forbids]
    return "\n".join(["siting 1", "kind sum", "point 0 0 1", *permits, *forbids, "end", ""])


def texts(name: str) -> list[str]:
    """Of a made region: the cover of the whole, and that of a part of it."""
    region, forbidden = made(name)
    x0, y0, x1, y1 = box_of(region)
    return [
        text_of(region, forbidden, tile) for tile in ((x0, y0, x1, y1), (x0, y0, (x0 + x1) // 2, (y0 + 2 * y1) // 3))
    ]


def text_of(region: Rings, forbidden: Rings, tile: Box) -> str:
    outer = propose(prepared(region, forbidden), tile, SHIFT)
    return cover_text(Cover(region, forbidden, outer.triangles, tile, SHIFT), outer.permits, instance_of(outer))


@pytest.mark.parametrize("name", CASES)
def test_what_is_proposed_is_covered(name: str) -> None:
    for text in texts(name):
        assert told(text) == "covered"


def changed(text: str, word: str, at: int, by: int) -> str:
    """A text in which the first line of a word has another number."""
    lines = text.split("\n")
    i = next(i for i, line in enumerate(lines) if line.startswith(f"{word} "))
    fields = lines[i].split()
    fields[at] = str(int(fields[at]) + by)
    return "\n".join([*lines[:i], " ".join(fields), *lines[i + 1 :]])


@pytest.mark.parametrize("name", CASES)
def test_what_is_changed_is_not(name: str) -> None:
    text = texts(name)[0]
    line = next(line for line in text.split("\n") if line.startswith("triangle "))
    assert told(text.replace(line + "\n", "", 1)) == "uncovered edges"
    assert told(text.replace(line, f"{line}\n{line}", 1)) == "uncovered edges"
    assert told(changed(text, "triangle", 1, 1)) == "uncovered edges"
    assert told(changed(text, "region", 1, 1)) == "uncovered edges"
    assert told(changed(text, "shift", 1, 1)).startswith("uncovered triangle line ")
    assert told(text.replace("end", "", 1)).startswith("bad cover ")


def test_the_example() -> None:
    assert told((HERE / "examples" / "lake.cover").read_text()) == "covered"
