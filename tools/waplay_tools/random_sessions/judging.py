"""Judges a random session: how far its replay is from its page, and whether the take says so.

The browser also plays the script. Where that sounds like the page, the script is right, and what
differs is how the program and the browser perform it. Where that sounds like the replay, the script
is not what the page did. So a line of the take tells of a difference only where it is about the
side on which the two part.
"""

import array
import dataclasses
from collections.abc import Iterator, Sequence

from waplay_tools.recorder.departures import BY_LOSS, BY_OPERATION, EARLY_EVENT, LATE_CHANGE
from waplay_tools.recorder.playing import difference
from waplay_tools.recorder.replaying import FULL, Replay, greatest_difference
from waplay_tools.recorder.results import Recorded, greatest

TOLERANCE = 1e-4
APART = 1e-6  # how far a script that is not lowered may be from its page where the browser plays it
WITHOUT_ERROR = ("delay-fraction", "frozen-mixed", "loop-longer")  # losses that are always heard
LOUDER = 16.0  # how much louder than a filter what is heard of it may be, by several connections

EXACT, NEAR = "exact", "within 0.0001"
TOLD, NOT_TOLD = "off and told", "off and not told"
SILENT, SILENT_NOT_TOLD = "silent and told", "silent and not told"
FAILED = "failed"
CLASSES = (EXACT, NEAR, TOLD, NOT_TOLD, SILENT, SILENT_NOT_TOLD, FAILED)
BAD = (NOT_TOLD, SILENT_NOT_TOLD, FAILED)

DEPARTURE = "known departure: "
# Departures whose error a loss tells.
MEASURED = {BY_LOSS[kind]: kind for kind in ("browser-rounded", "browser-target")}
# What sets a page apart from its script, which has no targets and no biquads any more.
OF_PAGES = {*BY_LOSS.values(), *BY_OPERATION.values(), EARLY_EVENT}
# What both may have: a script has cancels, holds and curves of its own.
OF_BOTH = {*BY_OPERATION.values(), EARLY_EVENT}
# Sessions let what has a history hear a hum all the time, so no biquad comes to its end.
NEVER = {BY_LOSS["lowered-biquad"]}


@dataclasses.dataclass
class Run:
    """A session that was recorded once, and what its script sounds like."""

    recorded: Recorded
    played: list[array.array]  # by the browser
    replay: Replay  # by the program
    replayed: Sequence[Sequence[int]]  # whole numbers of 2^-23

    @property
    def rendered(self) -> Sequence[array.array]:
        """What the browser rendered of the page."""
        return self.recorded.rendered or []


@dataclasses.dataclass
class Judgement:
    """What came of a session."""

    kind: str  # one of CLASSES
    words: str


class Distances:
    """How far the runs of one session are apart. What Chromium renders may change from run to run
    by a quantum, so the least distance of any two runs counts."""

    def __init__(self, runs: Sequence[Run]) -> None:
        pairs = [(one, other) for one in runs for other in runs]
        self.replay, self.channel, self.frame = min(
            greatest_difference(one.replayed, other.rendered) for one, other in pairs)
        self.page = min(difference(one.played, other.rendered) for one, other in pairs)
        self.script = min(greatest_difference(one.replayed, other.played)[0]
                          for one, other in pairs)
        self.changes = max(difference(one.rendered, other.rendered) for one, other in pairs)

    def is_off(self, lower: bool) -> bool:
        """Whether a line of the take has to tell of it. What the browser makes of a lowered script
        has faults of its own, as where curves touch, so that is not asked by itself."""
        return self.replay > TOLERANCE or (self.page > APART and not lower)

    def greatest(self) -> float:
        """The greater one of what a line has to tell of."""
        return max(self.replay, self.page)

    def part(self, distance: float) -> bool:
        """Whether one of the two sides has so much of the difference that its cause may lie there.
        One of them has at least a half of it."""
        return distance >= self.greatest() / 4


def is_large(run: Run, kind: str, apart: float) -> bool:
    """Whether the error that a loss tells is large enough for a difference."""
    error = next((loss["error"] for loss in run.recorded.kinds if loss["kind"] == kind), 0.0)
    # What is infinite in the page is null here.
    return error is None or error * LOUDER * max(1.0, greatest(list(run.rendered))) >= apart


def may_be_heard(run: Run, kind: str, distances: Distances) -> bool:
    """Whether a number that is rounded so far that it may be heard may be the cause. What is fed
    back is rounded by the program alone, and other numbers are rounded in the script."""
    side = distances.script if kind == "feedback-rounded" else distances.page
    is_enough = kind in WITHOUT_ERROR or is_large(run, kind, distances.greatest())
    return distances.part(side) and is_enough


def losses_that_tell(run: Run, distances: Distances) -> Iterator[str]:
    """Losses that may be the cause."""
    for loss in run.recorded.kinds:
        kind, grade = loss["kind"], loss["grade"]
        if grade == "refused" or (grade == "heard" and may_be_heard(run, kind, distances)):
            yield f"{grade} {kind}"


def departures_that_tell(run: Run, distances: Distances) -> Iterator[str]:
    """Departures of the browser that may be the cause."""
    for line in run.replay.lines:
        text = line.removeprefix(DEPARTURE)
        if text == line or text in NEVER:
            continue
        if text == LATE_CHANGE and distances.changes <= TOLERANCE:
            continue
        if text in MEASURED and not is_large(run, MEASURED[text], distances.greatest()):
            continue
        is_of_page = text in OF_PAGES and distances.part(distances.page)
        is_of_script = (text not in OF_PAGES or text in OF_BOTH) and distances.part(
            distances.script)
        if is_of_page or is_of_script:
            yield f"departure: {text}"


def tells(run: Run, distances: Distances) -> list[str]:
    """What the take says of a difference."""
    found = list(losses_that_tell(run, distances))
    found += [line for line in run.replay.lines if "ended otherwise" in line]
    return found + list(departures_that_tell(run, distances))


def is_silence_told(run: Run) -> bool:
    """Whether a line names each silence."""
    lines = [*run.recorded.lines, *run.replay.lines]
    of_page = any(line.startswith("silent silent:") for line in lines)
    of_replay = any(line.startswith("silent: every sample of the replay") for line in lines)
    return (of_page or not run.recorded.is_silent) and (of_replay or not run.replay.is_silent)


def judge(runs: Sequence[Run], lower: bool) -> Judgement:
    """Judges a session by its runs, the last of which is the one that is spoken of."""
    run = runs[-1]
    if run.replay.outcome == "fails" or not run.replayed:
        return Judgement(FAILED, run.replay.lines[0])
    distances = Distances(runs)
    words = f"{distances.replay:.3g} at frame {distances.frame} of channel {distances.channel}"
    if run.recorded.is_silent or run.replay.is_silent:
        return Judgement(SILENT if is_silence_told(run) else SILENT_NOT_TOLD, words)
    words += f", {distances.page:.3g} when it is played again"
    if distances.is_off(lower):
        told = tells(run, distances)
        return Judgement(TOLD if told else NOT_TOLD, "; ".join([words, *told]))
    return Judgement(EXACT if distances.replay < 1 / FULL else NEAR, words)
