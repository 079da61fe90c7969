"""Derives a sample of a script: the facts that it hangs on, one a line, each behind those that it
needs.

It stands on the second calculation, apart from the program. Assets are the files of the folder that
it runs in. The lines are those of docs/FORMATS.md. Without OUT they are printed; with it they are
written to OUT, and how many there are is printed.

The status is 0 where there is a derivation. Else OUT is not touched, but for 9. It is 3 for a
session that does not complete, and 4 for a script with a fault: the line that says so is printed.
It is 5 for a script of more than 16,777,216 bytes, 6 for one that cannot be read, 7 where an asset
cannot be read, 8 where what is printed does not go out, and 9 where OUT cannot be written. It is 11
with the line `too long` where the derivation has more than 1,048,576 facts or 67,108,864 bytes, and
13 with `out of range` where the sample is not rendered.
"""

import argparse
import os
import sys

from waplay_tools.explaining.words import place
from waplay_tools.script_tools import NoScript, bytes_of, is_told, path
from waplay_tools.waexplain import Answer, answered, derived


def arguments() -> argparse.Namespace:
    """The words of the command line."""
    words = argparse.ArgumentParser(
        prog="tools/derive",
        description=__doc__,
        formatter_class=argparse.RawDescriptionHelpFormatter,
    )
    words.add_argument("script", type=path, metavar="SCRIPT", help="the script, a JSON file")
    words.add_argument("frame", type=place, metavar="FRAME", help="the frame of the sample")
    words.add_argument("channel", type=place, metavar="CHANNEL", help="its channel")
    words.add_argument("out", type=path, nargs="?", metavar="OUT", help="the file for the lines")
    return words.parse_args()


def answer_to(asked: argparse.Namespace) -> Answer:
    """The answer to what the command line asks for."""
    try:
        data = bytes_of(asked.script)
    except NoScript as fault:
        return Answer(fault.status, "")
    return answered(data, os.curdir, lambda tape: derived(tape, asked.frame, asked.channel))


def main() -> int:
    """Derives the sample that is asked for."""
    asked = arguments()
    answer = answer_to(asked)
    lines = answer.derivation
    if lines is None or asked.out is None:
        return answer.status if is_told(lines or answer.text) else 8
    if not is_told(answer.text):
        return 8
    try:
        asked.out.write_text(lines, encoding="ascii")
    except OSError:
        return 9
    return 0


if __name__ == "__main__":
    sys.exit(main())
