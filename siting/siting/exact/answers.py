"""Instance texts, and the answers of `bsss` to them: its site, and the squares of its tree with their bounds."""

from collections.abc import Iterable, Iterator, Sequence
from typing import NamedTuple

from .charges import Group

Rings = Iterable[Sequence[tuple[int, int]]]


class Square(NamedTuple):
    """A closed square of an answer's tree, in grid units; `least` is the least bound of its leaves, in cost units, or
    None where no point of it is permitted."""

    x: int
    y: int
    side: int
    least: int | None
    quarters: tuple["Square", ...] = ()


class Answer(NamedTuple):
    """The site in grid units, or None; and the tree."""

    site: tuple[int, int] | None
    root: Square


def instance_text(kind: str, groups: Sequence[Group], permits: Rings, forbids: Rings) -> str:
    """The canonical text of an instance; groups whose weight is 0 have no line."""
    points = [group[: 3 if group.cutoff is None else 4] for group in groups if group.weight]
    rows = [("point", *point) for point in points]
    rows += [("permit", *(v for place in ring for v in place)) for ring in permits]
    rows += [("forbid", *(v for place in ring for v in place)) for ring in forbids]
    version = 2 if any(len(point) == 4 for point in points) else 1
    lines = [f"siting {version}", f"kind {kind}", *(" ".join(map(str, row)) for row in rows), "end", ""]
    return "\n".join(lines)


def read_answer(text: str, instance: str) -> Answer:
    """Reads an answer to this very instance; another one's is refused."""
    head = f"siting answer {instance[7]}\n{instance}"
    if not text.startswith(head):
        raise ValueError("the answer is to another instance")
    lines = iter(text[len(head) :].splitlines())
    words: dict[str, list[str]] = {}
    while "root" not in words:
        name, *words[name] = next(lines, "root").split(" ")
    x, y, level = map(int, words["root"])
    root = read_square(lines, x, y, 1 << level)
    if list(lines) != ["end"] or words["bound"] != [str(root.least).lower()]:
        raise ValueError("the answer isn't whole")
    return Answer(None if words["site"] == ["none"] else (int(words["site"][0]), int(words["site"][1])), root)


def read_square(lines: Iterator[str], x: int, y: int, side: int) -> Square:
    """Reads a square and all of its tree, in preorder."""
    mark, *rest = next(lines, "").split(" ")
    if mark == "S":
        half = side // 2
        corners = (x, y), (x + half, y), (x, y + half), (x + half, y + half)
        quarters = tuple(read_square(lines, *corner, half) for corner in corners)
        bounds = [quarter.least for quarter in quarters if quarter.least is not None]
        return Square(x, y, side, min(bounds, default=None), quarters)
    if mark not in ("X", "B", "O", "F"):
        raise ValueError("the answer isn't whole")
    return Square(x, y, side, None if mark == "X" else int(rest[0]))


def read_polished(text: str, answer: Answer) -> int | None:
    """The bound that `polish` says of this answer."""
    first, second = text.splitlines()
    if first != f"bound {answer.root.least}".lower() or not second.startswith("polished "):
        raise ValueError("what was polished is another answer")
    return None if second == "polished none" else int(second.split(" ")[1])
