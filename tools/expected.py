#!/usr/bin/env python3
"""Starts the second calculation, which needs Python alone: see tools/expected.py --help."""

import sys

from waplay_tools.expecting.__main__ import main

if __name__ == "__main__":
    sys.exit(main())
