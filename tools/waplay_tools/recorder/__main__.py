"""Runs the recorder: see tools/record --help."""

import sys

from waplay_tools.recorder.command import main

sys.exit(main(sys.argv[1:]))
