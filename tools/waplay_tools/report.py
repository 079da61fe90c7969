"""Writes a page about a session or a take: its sound, its waveform, what was lost and refused, its
graph, and its transcript beside the script's calls.

TAKE is a folder that tools/record left with --replay; the page has all of its contexts, each with
the browser's sound drawn over waplay's. SCRIPT, TRANSCRIPT and WAV are those of one session; WAV
may be left out where it wrote none. With --against the page tells where WAV and WAV2 differ.

The text of the page needs no JavaScript. The status is 0, or 2 with a sentence on standard error
where the input can't be used: a file that can't be read, a transcript that does not belong to the
script, or a WAV file that is none.
"""

import argparse
import os
import sys
from pathlib import Path

from waplay_tools.explaining.words import place
from waplay_tools.places import as_called_here
from waplay_tools.reporting import page, script_reading, takes, transcript_reading, wav_samples
from waplay_tools.reporting.content import MOST_WHOLE, Content, File, Room
from waplay_tools.reporting.explained import explained
from waplay_tools.reporting.following import Session
from waplay_tools.reporting.page import Heading
from waplay_tools.reporting.script_reading import Script
from waplay_tools.reporting.text import BadInput, visible
from waplay_tools.reporting.tolerances import tolerance
from waplay_tools.reporting.wav_samples import TOLERANCE, Differences


def sound_of(path: str | None, script: Script) -> File:
    """The session's WAV file, which has to be of the shape of its context."""
    if path is None:
        raise BadInput("the session was rendered, so its WAV file is wanted as a third word")
    data = script_reading.bytes_of(path)
    sound = wav_samples.sound_of(data, visible(path))
    for what, found in (
        ("channels", len(sound.channels)),
        ("length", sound.frames),
        ("rate", sound.rate),
    ):
        if found != script.context(what):
            raise BadInput(
                "%s does not belong to the script: its %s is %d, and the context's is %d"
                % (visible(path), what, found, script.context(what))
            )
    return File(path, data, sound)


def content_of(words: argparse.Namespace) -> Content:
    """The session of these files."""
    names = visible(words.script), visible(words.transcript)
    script = script_reading.script_of(script_reading.bytes_of(words.script))
    lines = transcript_reading.lines_of(script_reading.bytes_of(words.transcript), names[1])
    lengths = takes.lengths_of(Path(words.script).parent, script)
    content = Content(Session(script, lines, names, lengths), wav_name=words.wav)
    if content.session.end().word != "completed":
        if words.against:
            raise BadInput("the session wrote no WAV file that could be held against another one")
        if words.explain:
            raise BadInput("the session was not rendered, so it has no sample to explain")
        return content
    content.sound = sound_of(words.wav, script)
    content.paths = [words.script, words.transcript, words.wav]
    if words.explain:
        content.explained = explained(words.script, *words.explain)
    if words.against:
        data = script_reading.bytes_of(words.against)
        other = wav_samples.sound_of(data, visible(words.against))
        content.other = File(words.against, data, other, visible(words.against))
        content.differences = Differences(content.sound.sound, other, words.tolerance)
    return content


def report(words: argparse.Namespace) -> str:
    """The text of the page."""
    folder = os.path.dirname(words.output) if words.output else "."
    room = Room(folder or ".", MOST_WHOLE if words.whole else None)
    if words.transcript is None:
        if words.explain:
            raise BadInput("a sample is explained of one session, as 1.json 1.txt 1.wav of a take")
        if not takes.is_take(words.script):
            raise BadInput(f"{visible(words.script)} is no folder of a take; with a script its"
                           " transcript is wanted as a second word")
        heading, contents = takes.take_of(words.script, words.tolerance)
        return page.page(heading, contents, room)
    return page.page(Heading(os.path.basename(words.script)), [content_of(words)], room)


def write_take(folder: str, path: str, most: float = TOLERANCE) -> None:
    """Writes the page of a take to a file: what a tool calls that has made the take. The last word
    is what samples may differ by. It raises BadInput, with a sentence, where the take can't be
    used."""
    heading, contents = takes.take_of(folder, most)
    write(page.page(heading, contents, Room(os.path.dirname(path) or ".")), path)


def write(text: str, path: str | None) -> None:
    """Writes a page to a file, or to standard output."""
    if path:
        Path(path).write_text(text, encoding="utf-8")
    else:
        sys.stdout.buffer.write(text.encode())
        sys.stdout.flush()


def parser() -> argparse.ArgumentParser:
    """The words of the command line."""
    made = argparse.ArgumentParser(
        prog=as_called_here("tools/report"),
        description=as_called_here(__doc__),
        formatter_class=argparse.RawDescriptionHelpFormatter,
        usage="%(prog)s TAKE | SCRIPT TRANSCRIPT [WAV] [options]",
    )
    made.add_argument("script", metavar="TAKE|SCRIPT", help="the folder of a take, or a script")
    made.add_argument(
        "transcript", metavar="TRANSCRIPT", nargs="?", help="what the program printed for a script"
    )
    made.add_argument(
        "wav", metavar="WAV", nargs="?", help="the file that the session wrote, if any"
    )
    made.add_argument(
        "--against", metavar="WAV2", help="tell where this other file differs from WAV"
    )
    made.add_argument(
        "--tolerance", metavar="VALUE", type=tolerance, default=TOLERANCE,
        help="what two samples may differ by, 2^-16 where nothing is said",
    )
    made.add_argument(
        "--explain", metavar=("FRAME", "CHANNEL"), nargs=2, type=place,
        help="say why this sample of a session is what it is",
    )
    made.add_argument(
        "-o", "--output", metavar="FILE", help="write the page there, and not to standard output"
    )
    made.add_argument(
        "--whole", action="store_true",
        help="put sounds into the page that are longer than 3 MiB together, up to 64 MiB",
    )
    return made


def main() -> int:
    """Writes the page."""
    words = parser().parse_args()
    try:
        write(report(words), words.output)
    except BadInput as bad:
        print(f"report: {bad}", file=sys.stderr)
        return 2
    except OSError as error:
        if not words.output:
            os.dup2(os.open(os.devnull, os.O_WRONLY), 1)
        print(f"report: the page can't be written: {error.strerror}", file=sys.stderr)
        return 2
    return 0


if __name__ == "__main__":
    sys.exit(main())
