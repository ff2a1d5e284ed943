"""A table of questions, a row each: asked several at a time, gone on with where it was stopped, and answered in one table."""

import csv
import os
import shlex
import shutil
import signal
import subprocess
import sys
import tempfile
import time
from collections.abc import Callable, Iterator
from dataclasses import dataclass, field
from pathlib import Path
from typing import IO, Any

from .folder import Folder
from .questions import Refused
from .tables import csv_rows

TABLE = "table.csv"
HEAD = ("name", "status", "x", "y", "cost", "bound", "percent", "seconds", "message")
SEVERAL = ("region", "forbid")  # columns of several words, as a shell has them
SWITCHES = ("maps",)
NAMES = "names"  # the column that is the word --name: `name` is the folder's
STATUS = {"within": 0, "wider": 1, "no site": 4}
PATIENCE = 10.0  # seconds that an interrupted run may take to end
PACKAGE = Path(__file__).resolve().parents[1]


Known = Callable[[list[str]], dict[str, Any]]


@dataclass
class Row:
    """A question: its folder's name, its words, and what came of it, by the names of the head."""

    name: str
    words: list[str]
    answer: dict[str, Any] = field(default_factory=dict)


@dataclass
class Child:
    """A run that isn't over: its row, when it began (of time.monotonic), and its standard error."""

    row: Row
    process: "subprocess.Popen[bytes]"
    began: float
    complaint: IO[bytes]


def read_rows(table: Path) -> list[Row]:
    """The questions of a table. Empty fields are words that aren't given."""
    if not table.is_file():
        raise Refused(f"{table} isn't there")
    head, lines, texts = csv_rows(str(table))
    for column in ("name", "question"):
        if column not in head:
            raise Refused(f"{table} has no column {column}; it has {', '.join(head)}")
    rows: dict[str, Row] = {}
    for line, values in zip(lines, texts):
        given = {column.strip(): value.strip() for column, value in zip(head, values)}
        name = given.pop("name")
        if not name or name.startswith(".") or "/" in name or name == TABLE or name in rows:
            raise Refused(f"{table}: line {line} has the name {name!r}: each wants one of its own, without a slash")
        rows[name] = Row(name, list(words_of(given)))
    return list(rows.values())


def words_of(given: dict[str, str]) -> Iterator[str]:
    """The words of a command."""
    yield given["question"] or "none"
    for column, value in given.items():
        if column == "question" or not value:
            continue
        if column in SWITCHES:
            yield from [f"--{column}"] * (value.lower() in ("yes", "1", "true"))
        else:
            yield "--name" if column == NAMES else f"--{column}"
            yield from shlex.split(value) if column in SEVERAL else [value]


class Batch:
    """The rows of a table, and the folder that their folders and the table of answers are written into. `known` says
    of a row's words what a folder that answers them has in its figures, or refuses them."""

    def __init__(self, table: Path, out: Path, jobs: int, program: str | None, known: Known):
        self.rows, self.base, self.out = read_rows(table), table.resolve().parent, out.resolve()
        self.jobs, self.known = jobs, known
        self.program = [] if program is None else ["--bsss", str(Path(program).resolve())]
        self.children: list[Child] = []
        self.stopped = False

    def run(self, say: Callable[[str], None]) -> None:
        """Asks what isn't answered yet, until all is, or SIGINT or SIGTERM comes."""
        before = {number: signal.signal(number, self.stop) for number in (signal.SIGINT, signal.SIGTERM)}
        try:
            self.go(say)
        finally:
            self.end()
            for number, handler in before.items():
                signal.signal(number, handler)

    def stop(self, *_: object) -> None:
        self.stopped = True

    def status(self) -> int:
        """0 where each row has a site within its gap, or provably none; else 1."""
        return int(any(row.answer.get("status") not in (0, 4) for row in self.rows))

    def go(self, say: Callable[[str], None]) -> None:
        self.out.mkdir(parents=True, exist_ok=True)
        earlier = self.earlier()
        for row in self.rows:
            row.answer = self.taken(row, earlier.get(row.name, ""))
        waiting = [row for row in self.rows if not row.answer]
        self.write()
        while (waiting or self.children) and not self.stopped:
            while waiting and len(self.children) < self.jobs:
                self.start(waiting.pop(0))
            self.look()
            say(f"{sum(bool(row.answer) for row in self.rows)} of {len(self.rows)} rows")
            time.sleep(0.05)

    # what is there already

    def earlier(self) -> dict[str, str]:
        """The seconds that an earlier table says of its rows."""
        path = self.out / TABLE
        if not path.is_file():
            return {}
        head, _, rows = csv_rows(str(path))
        return {row[head.index("name")]: row[head.index("seconds")] for row in rows}

    def taken(self, row: Row, seconds: str) -> dict[str, Any]:
        """The answer of a row whose folder is there; nothing where it has to be asked."""
        try:
            wanted = self.known([*row.words, "--out", str(self.out / row.name)]) | {"from": str(self.base)}
        except Refused as refusal:
            return {"status": 2, "message": str(refusal)}
        if not (self.out / row.name).exists():
            return {}
        try:
            folder = Folder(self.out / row.name)
            same = all(folder.figures[name] == value for name, value in wanted.items()) and not folder.changed()
            answer = answer_of(folder.figures)
        except (OSError, ValueError, LookupError, TypeError):
            same = False
        if not same:
            told = f"{row.name} answers another question, or its layers have changed since: remove it, or name another"
            return {"status": 2, "message": told}
        return answer | {"seconds": seconds}

    # runs

    def start(self, row: Row) -> None:
        complaint = tempfile.TemporaryFile()
        words = [*row.words, "--out", str(self.out / row.name), *self.program]
        path = os.pathsep.join(filter(None, [str(PACKAGE), os.environ.get("PYTHONPATH")]))
        process = subprocess.Popen(
            [sys.executable, "-m", "siting", *words],
            cwd=self.base,
            env=os.environ | {"PYTHONPATH": path},
            stdin=subprocess.DEVNULL,
            stdout=subprocess.DEVNULL,
            stderr=complaint,
            start_new_session=True,  # so that Ctrl-C reaches this process alone, which then ends them
        )
        self.children.append(Child(row, process, time.monotonic(), complaint))

    def look(self) -> None:
        """Takes the answers of the runs that are over."""
        over = [child for child in self.children if child.process.poll() is not None]
        for child in over:
            self.children.remove(child)
            child.row.answer = self.answer(child) | {"seconds": f"{time.monotonic() - child.began:.1f}"}
        if over:
            self.write()

    def answer(self, child: Child) -> dict[str, Any]:
        """What came of a run that is over."""
        child.complaint.seek(0)
        lines = child.complaint.read().decode(errors="replace").strip().splitlines()
        child.complaint.close()
        if child.process.returncode in STATUS.values():
            return answer_of(Folder(self.out / child.row.name).figures)
        return {"status": child.process.returncode, "message": lines[-1].removeprefix("siting: ") if lines else ""}

    def end(self) -> None:
        """Ends what still runs, with all that it began, and leaves a table that is whole."""
        for child in self.children:
            child.process.send_signal(signal.SIGINT)
        until = time.monotonic() + PATIENCE
        for child in self.children:
            try:
                child.process.wait(max(0.0, until - time.monotonic()))
            except subprocess.TimeoutExpired:
                os.killpg(child.process.pid, signal.SIGKILL)
                child.process.wait()
            child.complaint.close()
            shutil.rmtree(self.out / f".{child.row.name}.{child.process.pid}", ignore_errors=True)
        self.children.clear()
        self.write()

    def write(self) -> None:
        """Writes the table under another name, and gives it its own once it is whole."""
        half = self.out / f".{TABLE}.{os.getpid()}"
        with open(half, "w", newline="", encoding="utf-8") as file:
            writer = csv.DictWriter(file, HEAD, restval="")
            writer.writeheader()
            writer.writerows({"name": row.name, "message": "not answered yet"} | row.answer for row in self.rows)
        half.rename(self.out / TABLE)


def answer_of(figures: dict[str, Any]) -> dict[str, Any]:
    """What the table says of a folder."""
    site, cost = figures["site"], figures["cost"]
    return {
        "status": STATUS[figures["answer"]],
        "x": site and site["x"],
        "y": site and site["y"],
        "cost": cost and cost[1],
        "bound": figures["bound"],
        "percent": figures["gap_percent"],
        "message": figures["answer"],
    }
