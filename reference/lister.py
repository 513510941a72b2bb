#!/usr/bin/env python3
"""Reads a log from standard input and prints what the rules say of it: see `tools.lister`."""

import sys
from pathlib import Path

sys.path.insert(0, str(Path(__file__).resolve().parent.parent))

from reference import tools  # noqa: E402

tools.main(tools.lister)
