"""From the words of a command to its status."""

import argparse
import io
import os
import shutil
import sys
import time
from collections.abc import Callable, Sequence
from contextlib import redirect_stderr
from fractions import Fraction
from math import isfinite
from pathlib import Path
from typing import Any

from .audit import Audit
from .audit_tiles import Unsound
from .batch import Batch
from .compare import Comparison, table, write_csv, write_page
from .make import Wanted, make
from .program import Program
from .questions import QUESTIONS, Refused, length, number
from .reading import Asked, read_problem
from .report import Report
from .tiles import Limits, Search, TestFailed

REFUSED, FAILED, INTERRUPTED = 2, 3, 130


def main(words: Sequence[str]) -> int:
    """Carries out the command that the words give, and returns its status."""
    options = parser().parse_args(words)
    try:
        return int(options.run(options))
    except Refused as refusal:
        return complain(str(refusal), REFUSED)
    except TestFailed as failure:
        return complain(f"a test failed, and nothing was written: {failure}", FAILED)
    except Unsound as failure:
        return complain(f"the folder doesn't hold: {failure}", FAILED)
    except KeyboardInterrupt:
        return complain("interrupted; nothing was written", INTERRUPTED)
    except Exception as fault:  # status 1 would say "sound, but wider"
        return complain(f"failed, and nothing was written: {type(fault).__name__}: {fault}", FAILED)


def complain(text: str, status: int) -> int:
    print(f"siting: {text}", file=sys.stderr)
    return status


def parser() -> argparse.ArgumentParser:
    """The words of each command."""
    top = argparse.ArgumentParser(prog="siting", description=__doc__)
    commands = top.add_subparsers(required=True, metavar="COMMAND")
    for question in QUESTIONS.values():
        command = commands.add_parser(question.word, help=question.title)
        command.set_defaults(run=solve, question=question.word)
        add_words(command)
    command = commands.add_parser("audit", help="tests an answer's folder again, from the layers")
    command.set_defaults(run=audit)
    command.add_argument("folder", type=Path, metavar="FOLDER", help="what a question has written")
    command.add_argument("--bsss", metavar="PATH", help="the program; $BSSS, or the repository's")
    command = commands.add_parser("compare", help="says what other sites cost, beside an answer")
    command.set_defaults(run=compare_sites)
    command.add_argument("folder", type=Path, metavar="FOLDER", help="that a question wrote")
    sites = {"action": "extend", "nargs": "+", "type": place, "metavar": "X,Y"}
    command.add_argument("--site", required=True, help="in the region's plane; --site=X,Y where X is below 0", **sites)
    command.add_argument("--csv", type=Path, metavar="FILE", help="writes the table there as well")
    command.add_argument("--page", type=Path, metavar="FILE", help="writes the answer's page there, with these sites")
    command = commands.add_parser("batch", help="asks a table of questions, and writes a table of answers")
    command.set_defaults(run=ask_all)
    command.add_argument("table", type=Path, metavar="TABLE", help="a CSV with a question a row")
    command.add_argument("--out", required=True, type=Path, metavar="FOLDER", help="of the answers and their table")
    command.add_argument("--jobs", type=int, default=1, metavar="N", help="questions asked at a time; 1")
    command.add_argument("--bsss", metavar="PATH", help="the program; $BSSS, or the repository's")
    command = commands.add_parser("make", help="makes layers for trials, from a seed")
    command.set_defaults(run=make_layers)
    for name, default in (
        ("seed", 1),
        ("towns", 1000),
        ("vertices", 100),
        ("lakes", 3),
        ("forests", 4),
        ("parcels", 0),
    ):
        command.add_argument(f"--{name}", type=int, default=default, metavar="N", help=str(default))
    command.add_argument("--package", action="store_true", help="one GeoPackage with all of them besides")
    command.add_argument("--out", required=True, type=Path, metavar="FOLDER", help="where to write them")
    return top


def add_words(command: argparse.ArgumentParser) -> None:
    """The words of a question."""
    add = command.add_argument
    add("--towns", required=True, metavar="FILE[:LAYER]", help="points")
    add("--weight", metavar="FIELD", help="the towns' weights; 1 where it isn't given")
    add("--reach", metavar="LENGTH|FIELD", help="beyond it a distance counts as this length")
    add("--name", metavar="FIELD", help="the towns' names, for the report")
    add("--region", required=True, nargs="+", metavar="FILE[:LAYER]", help="where the site may be")
    add(
        "--forbid",
        nargs="+",
        default=[],
        metavar="FILE[:LAYER]",
        help="inside of which it may not be",
    )
    add("--grow", type=metres, metavar="LENGTH", help="forbids what is nearer than this to a forbidden area")
    add("--keep-off", type=metres, metavar="LENGTH", help="forbids what is nearer than this to a town")
    add("--out", required=True, type=Path, metavar="FOLDER", help="a folder to be made")
    add("--progress", action="store_true", help="says in lines on standard error how far it is, also to no terminal")
    add("--maps", action="store_true", help="draws maps as well, and a page with them, report.html")
    add("--within", type=percent, default=Fraction(1, 10), metavar="PERCENT", help="0.1")
    add("--seconds", type=float, metavar="N", help="ends with the best so far, and its bound")
    add("--tiles", type=int, default=200, metavar="N", help="at most so many tiles; 200")
    add("--workers", type=int, default=1, metavar="N", help="of each solve; 1")
    add("--distance", choices=("grid", "ground"), help="on the layers' grid, or on the ground: of degrees")
    add("--crs", metavar="EPSG:N", help="of layers that don't say theirs")
    add("--bsss", metavar="PATH", help="the program; $BSSS, or the repository's")


def percent(text: str) -> Fraction:
    """A decimal of at least 0."""
    value = number(text)
    if value is None or value < 0:
        raise argparse.ArgumentTypeError(f"{text} is no percentage")
    return value


def metres(text: str) -> Fraction:
    """A length above 0."""
    value = length(text)
    if not value:
        raise argparse.ArgumentTypeError(f"{text} is no length, such as 800, 800m or 2.5km")
    return value


def place(text: str) -> tuple[float, float]:
    """Two coordinates."""
    try:
        x, y = map(float, text.split(","))
    except ValueError:
        raise argparse.ArgumentTypeError(f"{text} is no X,Y") from None
    if not (isfinite(x) and isfinite(y)):
        raise argparse.ArgumentTypeError(f"{text} is no X,Y")
    return x, y


def solve(options: argparse.Namespace) -> int:
    """Reads the layers, finds a site and a bound, and writes the folder."""
    if options.out.exists():
        raise Refused(f"{options.out} is there already: name another folder, or remove it")
    program = Program(options.bsss)
    until = None if options.seconds is None else time.monotonic() + options.seconds
    say = teller(options.progress)
    say("reading")
    read = read_problem(asked(options))
    limits = Limits(options.within, until, options.tiles, options.workers)
    say("searching")
    search = Search(read.problem, program, limits, say)
    search.go()
    say("writing")
    report = Report(read, search, options.within)
    write_folder(options.out, lambda folder: report.write(folder, options.maps))
    print((options.out / "report.txt").read_text(), end="")
    return report.status


def audit(options: argparse.Namespace) -> int:
    """Tests a folder by what is trusted alone, and says what holds of it and what doesn't."""
    failed = 0
    for says, fault in Audit(options.folder, Program(options.bsss)).sentences():
        print(f"holds: {says}" if fault is None else f"fails: {says}: {fault}", flush=True)
        failed += fault is not None
    if failed:
        raise Unsound(f"{failed} of its sentences fail")
    print("holds")
    return 0


def ask_all(options: argparse.Namespace) -> int:
    """Asks the questions of a table."""
    if options.jobs < 1:
        raise Refused("--jobs is at least 1")
    work = Batch(options.table, options.out, options.jobs, options.bsss, figures_of)
    work.run(teller())
    if work.stopped:
        return complain(f"interrupted; {options.out} has what was answered", INTERRUPTED)
    return work.status()


def figures_of(words: list[str]) -> dict[str, Any]:
    """What the figures of a folder say of the question that these words ask; refuses words that ask none."""
    said = io.StringIO()
    try:
        with redirect_stderr(said):
            options = parser().parse_args(words)
    except SystemExit:
        raise Refused(said.getvalue().strip().splitlines()[-1].partition("error: ")[2]) from None
    if options.run is not solve:
        raise Refused(f"{words[0]} is no question")
    return {"asked": asked(options).figures(), "within_percent": str(options.within)}


def compare_sites(options: argparse.Namespace) -> int:
    """Says what other sites cost."""
    rows = Comparison(options.folder).rows(options.site)
    for line in table(rows):
        print(line)
    if options.csv is not None:
        write_csv(rows, options.csv)
    if options.page is not None:
        write_page(options.folder, rows, options.page)
    return 0


def make_layers(options: argparse.Namespace) -> int:
    """Writes made layers into a folder."""
    areas = options.vertices, options.lakes, options.forests, options.parcels
    make(Wanted(options.seed, options.towns, *areas, options.package), options.out)
    return 0


def asked(options: argparse.Namespace) -> Asked:
    return Asked(
        question=options.question,
        towns=options.towns,
        weight=options.weight,
        reach=options.reach,
        name=options.name,
        region=options.region,
        forbid=options.forbid,
        crs=options.crs,
        grow=options.grow,
        keep_off=options.keep_off,
        distance=options.distance,
    )


def teller(lines: bool = False) -> Callable[[str], None]:
    """Says how far the work is: in lines, where these are asked, or in one line of a terminal; else nothing."""
    if lines:
        return lambda text: print(f"progress: {text}", file=sys.stderr, flush=True)
    if not sys.stderr.isatty():
        return lambda text: None
    return lambda text: print(f"\r\033[Ksiting: {text}", end="", file=sys.stderr, flush=True)


def write_folder(folder: Path, write: Callable[[Path], None]) -> None:
    """Writes a folder under another name, and gives it its name once it is whole."""
    half = folder.with_name(f".{folder.name}.{os.getpid()}")
    half.mkdir(parents=True)
    try:
        write(half)
        half.rename(folder)
    except BaseException:
        shutil.rmtree(half, ignore_errors=True)
        raise
