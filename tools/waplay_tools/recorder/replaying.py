"""Replays a recorded script with the built program, and compares it with what the browser rendered.
"""

import array
import dataclasses
import io
import itertools
import json
import operator
import re
import shutil
import subprocess
import sys
import wave
from collections.abc import Sequence
from pathlib import Path
from typing import Any

from waplay_tools.expecting.reading import in_frames, rate_of
from waplay_tools.places import TOP, newest_of
from waplay_tools.recorder.departures import all_calls, known_departures
from waplay_tools.recorder.results import Recorded
from waplay_tools.reporting.wav_samples import TOLERANCE

FULL = 2**23  # the samples of a file of 24 bits are whole numbers of 2^-23
BLOCK = 65536  # frames that are compared at once
SHOWN = 8  # calls that ended otherwise, in a line


def find_program(wanted: str | None) -> tuple[Path | None, str]:
    """The program that replays, or why there is none. The launcher ./waplay would build the program
    where it is not built; here the program itself is taken, and no build is started."""
    if wanted:
        path = shutil.which(wanted) or wanted
        if not Path(path).is_file():
            return None, f"there is no program {wanted}"
        if is_launcher(Path(path)):
            return find_built(Path(path).absolute().parent)
        return Path(path).absolute(), ""
    return find_built(TOP)


def is_launcher(path: Path) -> bool:
    """Whether a file is a shell script that stands for the program in a checkout."""
    with path.open("rb") as file:
        return file.read(2) == b"#!" and (path.absolute().parent / "crates" / "waplay").is_dir()


def find_built(top: Path) -> tuple[Path | None, str]:
    """The program that a checkout has, or an installed package."""
    found = newest_of("waplay", top)
    if found is None:
        return None, "waplay is not built, and no build is started; --waplay names a program"
    return found, ""


@dataclasses.dataclass
class Replay:
    """What came of a replay."""

    lines: list[str]
    outcome: str  # agrees, differs, fails
    difference: float | None = None
    is_silent: bool = False


SIGNS = bytes(255 if byte >= 128 else 0 for byte in range(256))  # the byte above the uppermost one


def channels_of(data: bytes) -> list[array.array]:
    """The channels of a WAV file of 24 bits, as the program writes it."""
    try:
        with wave.open(io.BytesIO(data)) as file:
            channels, width = file.getnchannels(), file.getsampwidth()
            body = file.readframes(file.getnframes())
    except (wave.Error, EOFError) as fault:
        raise ValueError(f"its WAV file cannot be read: {fault}") from None
    if width != 3:
        raise ValueError("its WAV file has not 24 bits a sample")
    wide = bytearray(len(body) // 3 * 4)
    for at in range(3):
        wide[at::4] = body[at::3]
    wide[3::4] = body[2::3].translate(SIGNS)
    words = array.array("i", bytes(wide))
    if sys.byteorder == "big":
        words.byteswap()
    return [words[channel::channels] for channel in range(channels)]


def greatest_difference(ours: Sequence[Sequence[int]],
                        browser: Sequence[array.array]) -> tuple[float, int, int]:
    """The greatest difference of two lists of channels, its channel and its frame. A file of 24
    bits holds values from -1 to below 1, so what the browser has outside counts as what is next to
    it."""
    scaled = []
    for other in browser:
        is_wide = len(other) > 0 and (max(other) >= 1.0 or min(other) < -1.0)
        kept = [min(max(theirs, -1.0), 1.0 - 1.0 / FULL) for theirs in other] if is_wide else other
        scaled.append(array.array("d", map(operator.mul, kept, itertools.repeat(float(FULL)))))
    return greatest_between(ours, scaled)


def greatest_between(one: Sequence[Sequence[int]],
                     other: Sequence[Sequence[float]]) -> tuple[float, int, int]:
    """The same of two lists of channels, whose numbers are of 2^-23."""
    best = (0.0, 0, 0)
    for channel, (ours, its) in enumerate(zip(one, other)):
        for first in range(0, min(len(ours), len(its)), BLOCK):
            last = first + BLOCK
            apart = array.array("d", map(abs, map(operator.sub, ours[first:last],
                                                  its[first:last])))
            most = max(apart)
            if most / FULL > best[0]:
                best = (most / FULL, channel, first + apart.index(most))
    return best


def outcome_lines(transcript: str, outcomes: dict[int, str]) -> list[str]:
    """A line on the calls that ended otherwise in the program than in the browser."""
    told = {}
    for line in transcript.splitlines():
        match = re.match(r"(\d+) (?:throw|rejected) (.*)", line)
        if match:
            told[int(match.group(1))] = match.group(2)
    names = {number: text.split()[0] for number, text in told.items()}
    differing = sorted(number for number in names.keys() | outcomes.keys()
                       if names.get(number) != outcomes.get(number))
    if not differing:
        return []
    shown = [f"{number} ({told.get(number, 'ok')} for {outcomes.get(number, 'ok')})"
             for number in differing[:SHOWN]]
    more = f" and {len(differing) - SHOWN} more" if len(differing) > SHOWN else ""
    return [f"replay: {len(differing)} calls ended otherwise than in the browser: "
            f"{', '.join(shown)}{more}"]


def why_it_failed(status: int, transcript: str, script: dict) -> str:
    """A line on a run that did not end with status 0."""
    fault = re.match(r"script: (\d+) op UnknownOp", transcript)
    if fault:
        number = int(fault.group(1))
        op = list(all_calls(script["calls"]))[number - 1]["op"]
        return f"replay: failed, the program does not build {op} (call {number})"
    last = transcript.splitlines()[-1:] or ["no transcript"]
    return f"replay: the program ended with status {status}: {last[0]}"


def compare(replayed: bytes, transcript: str, recorded: Recorded, script: dict,
            tolerance: float) -> Replay:
    """What a run that ended well gave, beside what the browser gave."""
    lines = outcome_lines(transcript, recorded.outcomes)
    try:
        ours = channels_of(replayed)
    except ValueError as fault:
        return Replay([f"replay: failed, {fault}"], "fails")
    if not recorded.rendered:
        return Replay([*lines, "replay: the browser rendered nothing to compare with"], "differs")
    if list(map(len, ours)) != list(map(len, recorded.rendered)):
        return Replay([*lines, "replay: channels or frames are not as many as in the browser"],
                      "differs")
    difference, channel, frame = greatest_difference(ours, recorded.rendered)
    where = f" at frame {frame} of channel {channel}" if difference else ""
    is_silent = not any(map(any, ours))
    if is_silent:
        lines.append("silent: every sample of the replay is 0")
    lines.append(f"replay: greatest difference from the browser {difference:.3g}{where}")
    if difference > tolerance:
        losses = {loss["kind"] for loss in recorded.kinds}
        channels = {asset.path: asset.channels for asset in recorded.assets}
        lines += [f"known departure: {text}"
                  for text in known_departures(script, losses, channels, recorded.outcomes)]
    outcome = "differs" if difference > tolerance or recorded_otherwise(lines) else "agrees"
    return Replay(lines, outcome, difference, is_silent)


def recorded_otherwise(lines: list[str]) -> bool:
    """Whether a line tells of calls that ended otherwise."""
    return any("ended otherwise" in line for line in lines)


def script_in_frames(text: str) -> dict[str, Any]:
    """A recorded script, whose times are frames whatever its version."""
    script = json.loads(text)
    rate = rate_of(script)
    if rate is not None:
        script["calls"] = [in_frames(call, rate) for call in script["calls"]]
    return script


def replay(program: Path, folder: Path, recorded: Recorded, tolerance: float = TOLERANCE,
           timeout: float = 600) -> Replay:
    """Runs the program over a recorded script. Its WAV file and its transcript come to the folder
    of the take."""
    script = script_in_frames(recorded.script)
    path = folder / f"{recorded.number}.wav"
    limit = timeout + 10 * recorded.seconds
    try:
        with (folder / f"{recorded.number}.json").open("rb") as given:
            run = subprocess.run([program, path.absolute()], stdin=given, capture_output=True,
                                 cwd=folder, timeout=limit, check=False)
    except subprocess.TimeoutExpired:
        return Replay([f"replay: failed, the program took more than {limit:.0f} seconds"], "fails")
    except OSError as fault:
        return Replay([f"replay: failed, {program} cannot be run: {fault.strerror}"], "fails")
    transcript = run.stdout.decode(errors="replace")
    (folder / f"{recorded.number}.txt").write_bytes(run.stdout)
    if run.returncode != 0:
        return Replay([why_it_failed(run.returncode, transcript, script)], "fails")
    try:
        replayed = path.read_bytes()
    except OSError:
        return Replay(["replay: failed, the program wrote no WAV file"], "fails")
    return compare(replayed, transcript, recorded, script, tolerance)
