"""The recorder's JavaScript as one script, which runs before those of a page."""

import functools
import subprocess

from waplay_tools.places import PACKAGED, TOP

FOLDER = TOP / "recorder"


class NoBundle(Exception):
    """Why there is no script, in one sentence."""


@functools.cache
def recorder_text() -> str:
    """The recorder as one script, as recorder/build bundles it; an installed package has it."""
    if (PACKAGED / "recorder.js").is_file():
        return (PACKAGED / "recorder.js").read_text(encoding="utf-8")
    try:
        run = subprocess.run([FOLDER / "build", "-"], capture_output=True, text=True, check=False)
    except OSError as fault:
        raise NoBundle(f"recorder/build cannot be run: {fault.strerror}.") from None
    if run.returncode:
        raise NoBundle(run.stderr.strip().removeprefix("recorder/build: "))
    return run.stdout
