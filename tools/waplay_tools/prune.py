"""Prunes a script as waprune does, by the second calculation: leaves out the calls that are not
heard. The same samples come of the rest.

Left out is each call that was refused, with the calls that it holds; each call that only reads;
each that creates or names a node which was never connected to the destination, not by way of other
nodes or of their parameters either; and the list of startRendering. The script that is left is
written to OUT, in version 2, as the program's mode `migrate` writes scripts. What is printed is
`pruned KEPT of CALLS`.

Assets are the files of the folder that it runs in. An asset that is not there is no fault: its
call was refused.

The status is 0 where the script is pruned. Else OUT is not touched, but for 9. It is 3 for a
session that does not complete, and 4 for a script with a fault: the line that says so is printed.
It is 5 for a script of more than 16,777,216 bytes, 6 for one that cannot be read, 7 where an asset
cannot be read, 8 where the line cannot be printed, and 9 where OUT cannot be written.
"""

import argparse
import os
import sys

from waplay_tools.expecting.writing import script_text
from waplay_tools.pruning.pruned import NotPruned, pruned
from waplay_tools.script_tools import NoScript, bytes_of, is_told, path


def arguments() -> argparse.Namespace:
    """The words of the command line."""
    words = argparse.ArgumentParser(
        prog="tools/prune",
        description=__doc__,
        formatter_class=argparse.RawDescriptionHelpFormatter,
    )
    words.add_argument("script", type=path, metavar="SCRIPT", help="the script, a JSON file")
    words.add_argument("out", type=path, metavar="OUT", help="the file for the pruned script")
    return words.parse_args()


def main() -> int:
    """Prunes the script that is named, and gives the status."""
    asked = arguments()
    try:
        it = pruned(bytes_of(asked.script), os.curdir)
    except NoScript as fault:
        return fault.status
    except NotPruned as fault:
        return 8 if fault.line and not is_told(f"{fault.line}\n") else fault.status
    if not is_told(f"pruned {it.kept} of {it.of}\n"):
        return 8
    try:
        asked.out.write_bytes(script_text(it.script))
    except OSError:
        return 9
    return 0


if __name__ == "__main__":
    sys.exit(main())
