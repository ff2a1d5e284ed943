"""Runs the command: `python3 -m siting`."""

import sys

from .command import main

sys.exit(main(sys.argv[1:]))
