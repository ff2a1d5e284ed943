"""A folder that a question wrote, as it is read again: every number of it is of the sort that it should be, or refused."""

import json
from collections.abc import Iterable
from dataclasses import dataclass
from fractions import Fraction
from pathlib import Path
from typing import Any

from .compare import base_of, digest
from .exact.bound import Box
from .exact.charges import Group
from .exact.cover import Triangle
from .exact.frame import Frame
from .exact.plane import Rings
from .problem import Made
from .reading import Asked
from .tables import file_of


@dataclass(frozen=True)
class Tile:
    """What was written of a tile: its box in shared units; its plane, where it has one of its own; its triangles in fine
    units and its pieces in lengths; its groups and their scale."""

    box: Box
    plane: Made
    permits: Rings
    forbids: Rings
    triangles: list[Triangle]
    groups: list[Group]
    scale: int


class Folder:
    """The figures of report.json, and the texts beside it."""

    def __init__(self, path: Path):
        self.path = path
        self.figures: dict[str, Any] = json.loads((path / "report.json").read_text())
        self.rows: list[dict[str, Any]] = self.figures["tiles"]

    def asked(self) -> Asked:
        """What was asked, with the whole paths of its layers."""
        words = dict(self.figures["asked"])
        words["towns"] = self.whole(words["towns"])
        for name in ("region", "forbid"):
            words[name] = [self.whole(source) for source in words[name]]
        for name in ("grow", "keep_off"):
            words[name] = words[name] and Fraction(words[name])
        return Asked(**words)

    def whole(self, source: str) -> str:
        return str(base_of(self.path, self.figures) / source)

    def changed(self) -> list[str]:
        """The layers that aren't there, or whose digest isn't that of the folder."""
        asked, known = self.figures["asked"], self.figures["digests"]
        sources = [asked["towns"], *asked["region"], *asked["forbid"]]
        there = {source: Path(file_of(self.whole(source))[0]).exists() for source in sources}
        return [source for source in sources if not there[source] or digest(self.whole(source)) != known.get(source)]

    def frame(self) -> Frame:
        return Frame(*whole_numbers(self.figures["frame"], 4))

    def tile(self, number: int) -> Tile:
        """What was written of a tile beside its answer."""
        proof = json.loads(self.text(f"{number}.proof.json"))
        a, b, c, d = whole_numbers(proof["box"], 4)
        made: Made = None
        if proof.get("plane") is not None:
            x, y, east, north = whole_numbers(proof["plane"], 4)
            made = x, y, east, north
        permits, forbids = (
            tuple(tuple((x, y) for x, y in (whole_numbers(place, 2) for place in ring)) for ring in proof[word])
            for word in ("permits", "forbids")
        )
        rows = (whole_numbers(row, 7) for row in proof["triangles"])
        triangles = [((t[0], t[1]), (t[2], t[3]), (t[4], t[5]), t[6]) for t in rows]
        groups = [group_of(row) for row in proof.get("groups", [])]
        (scale,) = whole_numbers([proof.get("scale", 1)], 1)
        return Tile((a, b, c, d), made, permits, forbids, triangles, groups, scale)

    def parts(self, number: int) -> list[int]:
        """The numbers of the tiles that a tile's parts are."""
        return list(whole_numbers(self.rows[number - 1].get("parts", [])))

    def text(self, name: str) -> str:
        """A file of the folder."""
        return (self.path / name).read_bytes().decode("ascii")


def group_of(row: list[Any]) -> Group:
    x, y, weight, cutoff, members = row
    x, y, weight = whole_numbers([x, y, weight], 3)
    if cutoff is not None:
        (cutoff,) = whole_numbers([cutoff], 1)
    return Group(x, y, weight, cutoff, whole_numbers(members))


def whole_numbers(values: Iterable[Any], count: int | None = None) -> tuple[int, ...]:
    """The values, which have to be whole numbers, and so many; a double of the same size isn't one."""
    found = tuple(values)
    if any(type(value) is not int for value in found) or count not in (None, len(found)):
        raise ValueError("what should be whole numbers isn't")
    return found
