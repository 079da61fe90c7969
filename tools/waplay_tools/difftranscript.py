"""Shows two transcripts side by side, call by call, and where they part first.

With --script each call stands beside its answers, and the lines of both transcripts have to answer
calls of the script. Around each difference 3 lines that are alike are shown, or N, or all of them.

    |  the answers differ        <  only A has the line        >  only B has it
    ~  both have the line, at another place

The status is 0 where the transcripts are equal, 1 where they differ, and 2, with a sentence on
standard error, where the input can't be used.
"""

import argparse
import os
import sys

from waplay_tools.reporting import difference, script_reading, transcript_reading
from waplay_tools.reporting.text import BadInput, visible


def compared(words: argparse.Namespace) -> tuple[str, int]:
    """The text that is printed, and the status."""
    names = visible(words.a), visible(words.b)
    left, right = (
        transcript_reading.lines_of(script_reading.bytes_of(path), name)
        for path, name in zip((words.a, words.b), names)
    )
    script = None
    if words.script is not None:
        script = script_reading.script_of(script_reading.bytes_of(words.script))
        for lines, name in (left, names[0]), (right, names[1]):
            difference.check(script, lines, (visible(words.script), name))
    if difference.parting(left, right) is None:
        return f"The transcripts are equal: {len(left)} lines.\n", 0
    return (
        difference.differences(left, right, names, script, None if words.all else words.context),
        1,
    )


def main() -> int:
    """Prints where the transcripts differ."""
    parser = argparse.ArgumentParser(
        prog="tools/difftranscript",
        description=__doc__,
        formatter_class=argparse.RawDescriptionHelpFormatter,
    )
    parser.add_argument("a", metavar="A", help="a transcript")
    parser.add_argument("b", metavar="B", help="another one")
    parser.add_argument(
        "--script", metavar="SCRIPT", help="the script of both: show the calls beside their answers"
    )
    shown = parser.add_mutually_exclusive_group()
    shown.add_argument(
        "--context",
        metavar="N",
        type=int,
        default=3,
        help="how many equal lines are shown around a difference, 3 by default",
    )
    shown.add_argument("--all", action="store_true", help="show all equal lines")
    words = parser.parse_args()
    try:
        if words.context < 0:
            raise BadInput("--context wants 0 or more")
        text, status = compared(words)
        sys.stdout.buffer.write(text.encode())
        sys.stdout.flush()
    except BadInput as bad:
        print(f"difftranscript: {bad}", file=sys.stderr)
        return 2
    except OSError as error:
        os.dup2(os.open(os.devnull, os.O_WRONLY), 1)
        print(f"difftranscript: the lines can't be written: {error.strerror}", file=sys.stderr)
        return 2
    return status


if __name__ == "__main__":
    sys.exit(main())
