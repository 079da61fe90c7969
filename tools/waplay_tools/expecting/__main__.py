"""Works out what waplay gives for a script: a second calculation, apart from the program's.

It follows the rules of docs/PROFILE.md and docs/FORMATS.md in the plainest way, so that its answers
can be compared with those of the program. It needs Python 3 and nothing else. Assets are the files
of the folder that it runs in, as they are for the program.

A session in mode migrate is run as one that is only checked, and its file is the script itself, in
version 2.

A summary is a line with numbers, and the transcript's last line: how many calls were run, quanta
rendered, sources ended and calls refused, and of all rendered values, in units of 2^-24, the
greatest one without its sign and the sum. A session that is only checked has neither of the last
two.

The sums are of samples as the WAV file has them: whole numbers of 24 bits, in units of 2^-23, or of
16 bits, in units of 2^-15. They are not sums of rendered values, which are in units of 2^-24 and
are rounded for the file.

The operations are those of docs/FORMATS.md, those that are left out too. Of a script with a fault
of reading, the transcript is the fault's line. Where an asset cannot be read there is no
transcript, and nothing is printed. Only a script that is too long is not told.

Its parts are the modules beside this one, each of one subject.
"""

import argparse
import hashlib
import os
import sys
from pathlib import Path

from waplay_tools.expecting.sessions import Session, file_of, replayed, samples_of, summary_of


def arguments() -> argparse.Namespace:
    """The words of the command line."""
    words = argparse.ArgumentParser(
        prog="expected.py",
        description=__doc__,
        formatter_class=argparse.RawDescriptionHelpFormatter,
    )
    words.add_argument("script", type=Path, metavar="SCRIPT", help="the script, a JSON file")
    words.add_argument("--lines", action="store_true", help="print the transcript alone")
    words.add_argument("--summary", action="store_true", help="print a summary in its place")
    words.add_argument(
        "--mode",
        choices=["render", "check", "migrate"],
        default="render",
        help="check: run the session without samples; migrate: then write the script of version 2",
    )
    words.add_argument(
        "--bits",
        type=int,
        choices=[16, 24],
        default=24,
        help="the bits of a sample in sums and files, 24 by default",
    )
    words.add_argument(
        "--wav",
        "--out",
        type=Path,
        metavar="OUT",
        help="write the WAV file, or the script in mode migrate",
    )
    words.add_argument("--check", type=Path, metavar="OUT", help="compare this file with it")
    asked = words.parse_args()
    if asked.mode == "check" and (asked.check or asked.wav):
        words.error("a session that is only checked has no file")
    return asked


def differs(path: Path, file: bytes) -> bool:
    """Whether a file is another than this one. What differs is printed."""
    found = path.read_bytes()
    place = len(os.path.commonprefix([found, file]))
    if found != file:
        sizes = f"{len(found)} bytes, expected {len(file)}"
        print(f"{path}: {sizes}; the first difference is at byte {place}")
    return found != file


def tell_sums(session: Session, file: bytes, bits: int) -> None:
    """Prints of each channel the sum of its samples, and the digest of the WAV file."""
    for channel, samples in enumerate(zip(*samples_of(session.values or [], bits))):
        print(f"channel {channel} sum {sum(samples)}")
    print(f"wav sha256 {hashlib.sha256(file).hexdigest()}")


def main() -> int:
    """Works a script out, and prints what is asked for."""
    asked = arguments()
    data, is_rendered = asked.script.read_bytes(), asked.mode == "render"
    status, text, session = replayed(data, is_checked=not is_rendered)
    if asked.summary and session:
        print(summary_of(session), session.last, sep="\n")
    file = file_of(session, asked.mode, asked.bits) if session else None
    if asked.check:
        return 1 if differs(asked.check, file or b"") else 0
    if not asked.summary or not session:
        print(text, end="")
    if asked.wav and file:
        asked.wav.write_bytes(file)
    elif is_rendered and session and file and not (asked.lines or asked.summary):
        tell_sums(session, file, asked.bits)
    return 0


if __name__ == "__main__":
    sys.exit(main())
