"""The programs that the tools run."""

import subprocess
from pathlib import Path

ROOT = Path(__file__).resolve().parent.parent
PROGRAM = str(ROOT / "crates/bsss/out/bsss")
COVERS = str(ROOT / "crates/bsss_cover/out/bsss_cover")  # which takes no words


def run(words, text):
    """The status and the output of the program with these words over this text, within a minute."""
    ended = subprocess.run([PROGRAM, *words], input=text, capture_output=True, timeout=60, check=False)
    return ended.returncode, ended.stdout
