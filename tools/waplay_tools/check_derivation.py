"""Checks a derivation of a script: whether each of its facts follows from those above it.

It stands on the second calculation, apart from the program. Assets are the files of the folder that
it runs in. What stands in a line and what it needs is said in docs/FORMATS.md.

It prints `valid` and the last line; or else `invalid` and the number of the first line that is no
fact, needs one that does not stand above it, or has another value than follows; or `invalid empty`
for a text without a byte, `invalid missing` where there is no TEXT, and `invalid long` where it has
more than 67,108,864 bytes.

The status is 0 for a valid text and 12 for another one. It is 3 for a session that does not
complete, and 4 for a script with a fault: the line that says so is printed. It is 5 for a script of
more than 16,777,216 bytes, 6 for one that cannot be read, 7 where an asset or TEXT cannot be read,
and 8 where the line cannot be printed.
"""

import argparse
import os
import sys
from pathlib import Path

from waplay_tools.expecting.nodes import AssetFault
from waplay_tools.explaining.deriving import MOST_BYTES
from waplay_tools.script_tools import NoScript, bytes_of, is_told, path
from waplay_tools.waexplain import Answer, answered, checked


def arguments() -> argparse.Namespace:
    """The words of the command line."""
    words = argparse.ArgumentParser(
        prog="tools/check-derivation",
        description=__doc__,
        formatter_class=argparse.RawDescriptionHelpFormatter,
    )
    words.add_argument("script", type=path, metavar="SCRIPT", help="the script, a JSON file")
    words.add_argument("text", type=path, metavar="TEXT", help="the derivation")
    return words.parse_args()


def text_at(place: Path) -> bytes | None:
    """The text of a file, so much of it that it tells whether it is too long; None where there is
    no file. One that is there and cannot be read is a fault as an asset is."""
    try:
        with open(place, "rb") as file:
            return file.read(MOST_BYTES + 1)
    except (FileNotFoundError, NotADirectoryError):
        return None
    except OSError:
        raise AssetFault from None


def main() -> int:
    """Checks the derivation that is named."""
    asked = arguments()
    try:
        data = bytes_of(asked.script)
        answer = answered(data, os.curdir, lambda tape: checked(tape, text_at(asked.text)))
    except NoScript as fault:
        answer = Answer(fault.status, "")
    return answer.status if is_told(answer.text) else 8


if __name__ == "__main__":
    sys.exit(main())
