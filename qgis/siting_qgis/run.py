"""Runs the library's own command in a process of its own: the same code as on the command line.

So nothing that it does is done to QGIS's interpreter, which all plugins share, and at cancel it is gone at once.
"""

import os
import shutil
import signal
import subprocess
import sys
import tempfile
from collections.abc import Callable, Sequence
from dataclasses import dataclass
from pathlib import Path
from typing import IO

from processing.core.ProcessingConfig import ProcessingConfig
from qgis.core import QgsProcessingException, QgsProcessingFeedback

BSSS = "SITING_BSSS"  # the setting
HERE = Path(__file__).resolve().parent  # the library is the folder `siting` in it
SYSTEM = Path("/usr/bin/python3")  # which a distribution's QGIS is built for
POLL = 0.05  # seconds
PROGRESS, OWN = "progress: ", "siting: "
MISSING = (
    "The program bsss isn't found. Build it as its page says, by ./bsss in the repository, and say where it is: "
    "Settings > Options > Processing > Providers > Siting. Or put it on the path, or its name into $BSSS."
)


@dataclass(frozen=True)
class Ended:
    """How the command ended: its status, and what it wrote to standard output and standard error."""

    status: int
    out: str
    error: str


class Canceled(Exception):
    """The user has canceled; the command and the program are gone."""


def program() -> str:
    """The program, by the setting, or $BSSS, or the path."""
    setting = str(ProcessingConfig.getSetting(BSSS) or "").strip()
    named = setting or os.environ.get("BSSS")
    found = named or shutil.which("bsss")
    if not found:
        raise QgsProcessingException(MISSING)
    if not (os.path.isfile(found) and os.access(found, os.X_OK)):
        where = "the setting of the provider" if setting else "$BSSS"
        raise QgsProcessingException(f"{found}, which {where} names, is no program that runs. {MISSING}")
    return found


def interpreter() -> str:
    """The Python that QGIS is built for: `sys.executable` may be another one that stands first on the path."""
    if SYSTEM.exists():
        return str(SYSTEM)
    return str(Path(sys.base_prefix) / "bin" / f"python{sys.version_info.major}.{sys.version_info.minor}")


def run(
    words: Sequence[str], folder: Path, feedback: QgsProcessingFeedback, tell: Callable[[str], None] | None = None
) -> Ended:
    """Runs the command with these words in a folder. Each line of its progress and of its output is told meanwhile.
    It reads nothing and writes to files, so that no pipe can fill."""
    environment = dict(os.environ)
    environment["PYTHONPATH"] = os.pathsep.join(filter(None, [str(HERE), environment.get("PYTHONPATH")]))
    environment["PYTHONDONTWRITEBYTECODE"] = "1"
    environment["PYTHONIOENCODING"] = "utf-8"
    with tempfile.TemporaryFile() as out, tempfile.TemporaryFile() as error:
        child = subprocess.Popen(
            [interpreter(), "-m", "siting", *words],
            stdin=subprocess.DEVNULL,
            stdout=out,
            stderr=error,
            cwd=folder,
            env=environment,
            start_new_session=True,  # so that it ends with all that it has started
        )
        lines = [Lines(out), Lines(error)]
        try:
            while not has_ended(child):
                if feedback.isCanceled():
                    raise Canceled
                for source in lines:
                    source.tell(tell)
        finally:
            if child.poll() is None:
                os.killpg(child.pid, signal.SIGKILL)
            child.wait()
        for source in lines:
            source.tell(tell)
        said = lines[1].text.splitlines()
    return Ended(
        child.returncode, lines[0].text, "\n".join(line for line in said if not line.startswith(PROGRESS)).strip()
    )


def has_ended(child: "subprocess.Popen[bytes]") -> bool:
    """Whether the child has ended, after a little while."""
    try:
        child.wait(POLL)
    except subprocess.TimeoutExpired:
        return False
    return True


class Lines:
    """A file that another process writes, read line by line as they come; `text` is what was read."""

    def __init__(self, file: IO[bytes]):
        self.file, self.text, self.at = file, "", 0

    def tell(self, tell: Callable[[str], None] | None) -> None:
        """Reads on, as far as lines are whole, and tells them. The place that the writer writes at stays."""
        found = os.pread(self.file.fileno(), 1 << 24, self.at)
        whole = found[: found.rfind(b"\n") + 1]
        self.at += len(whole)
        new = whole.decode(errors="replace")
        self.text += new
        for line in new.splitlines():
            if tell is not None:
                tell(line)


def refusal(ended: Ended) -> str:
    """Why a command gave nothing, in its own words."""
    lines = [line.removeprefix(OWN) for line in ended.error.splitlines() if line.startswith(OWN)]
    return lines[-1] if lines else ended.error or f"siting ended with {ended.status}, and said nothing"
