"""Lets `python3 -m mill_desk` stand for the launcher."""

import sys

from mill_desk.cli import main

sys.exit(main(sys.argv[1:]))
