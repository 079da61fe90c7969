"""What is said at the top of a report: whether a session is what it should be, worst first."""

import dataclasses
from collections.abc import Iterator

from waplay_tools.reporting import following, refusals
from waplay_tools.reporting.content import Content, File, level
from waplay_tools.reporting.following import Session
from waplay_tools.reporting.sources import Thing
from waplay_tools.reporting.tables import ordinals
from waplay_tools.reporting.text import counted, grouped
from waplay_tools.reporting.waveform import decibels

GRADES = ("bad", "doubtful", "good")
SIGNS = {"bad": "\u2715", "doubtful": "!", "good": "\u2713"}


@dataclasses.dataclass
class Finding:
    """A sentence on a session, and how grave it is."""

    grade: str
    text: str


def findings(content: Content) -> list[Finding]:
    """All that is to be said at once, worst first."""
    found = [*_of_end(content.session), *_of_silence(content), *_of_refusals(content.session),
             *_of_sounds(content), *_of_recording(content)]
    return sorted(found, key=lambda it: GRADES.index(it.grade))


def worst(found: list[Finding]) -> str:
    """The gravest grade."""
    return min((it.grade for it in found), key=GRADES.index, default="good")


def _of_end(session: Session) -> Iterator[Finding]:
    """How the session ended."""
    if not _is_complete(session):
        yield Finding("bad", following.summary(session))
    elif not refusals.causes_of(session):
        yield Finding("good", following.summary(session))


def _is_complete(session: Session) -> bool:
    return session.end().word == "completed"


def _of_silence(content: Content) -> Iterator[Finding]:
    """That nothing is heard, and why."""
    for file in (content.sound, content.other):
        if file is not None and file.sound.is_silent():
            samples = grouped(sum(map(len, file.sound.channels)))
            yield Finding("bad", f"Silent: each of {samples} samples of {file.label} is 0.")
    if _is_complete(content.session) and not reaches_destination(content.session):
        yield Finding("bad", "Nothing reaches the destination: no source that was started is"
                             " connected with it.")


def _of_refusals(session: Session) -> Iterator[Finding]:
    """Which calls were refused in a session that came to its end."""
    causes = refusals.causes_of(session) if _is_complete(session) else []
    for cause in causes[:8]:
        call = cause.row.call
        text = f"Refused: {call.op if call else ''} ({cause.answer()}), "
        text += f"call{'s' if len(cause.calls) > 1 else ''} {ordinals(cause.calls, 4)}"
        if cause.following:
            text += f", so {counted(len(cause.following), 'call has', 'calls have')} no object"
        yield Finding("bad" if cause.following else "doubtful", f"{text}.")
    if len(causes) > 8:
        more = counted(len(causes) - 8, "more cause of refusals", "more causes of refusals")
        yield Finding("doubtful", f"There {'is' if len(causes) == 9 else 'are'} {more}.")


def reaches_destination(session: Session) -> bool:
    """Whether connections lead from a source that was started to the destination, be it through
    parameters, at any time."""
    following_of: dict[int, list[Thing]] = {}
    for link in session.book.links:
        following_of.setdefault(id(link.start), []).append(link.end)
    seen = {id(it): it for it in session.book.nodes if it.start is not None}
    left = list(seen.values())
    while left:
        for it in following_of.get(id(left.pop()), []):
            if it.number == 0:
                return True
            if id(it) not in seen:
                seen[id(it)] = it
                left.append(it)
    return False


def _of_sounds(content: Content) -> Iterator[Finding]:
    """What is to be said of the sounds."""
    for file in (content.sound, content.other):
        if file is not None:
            yield from _of_file(file)
    differences = content.differences
    if differences is None or content.other is None:
        return
    greatest = abs(differences.greatest.less) if differences.greatest else 0.0
    allowed = level(differences.tolerance)
    if differences.agree():
        said = f"by {level(greatest)} at most" if greatest else "nowhere"
        yield Finding("good", f"It differs from {content.other.label} {said}, where {allowed} is"
                              " allowed.")
    elif differences.first:
        first = differences.first
        yield Finding("bad", f"It differs from {content.other.label} by {level(greatest)}"
                             f" ({decibels(greatest):.0f} dB), where {allowed} is allowed; first"
                             f" at frame {grouped(first.frame)}.".replace("(-", "(\u2212"))
    else:
        yield Finding("bad", f"It has another shape than {content.other.label}.")


def _of_file(file: File) -> Iterator[Finding]:
    """What is to be said of one sound."""
    name = file.label[0].upper() + file.label[1:]
    if clipped := file.sound.clipped():
        how = "outside -1 to 1" if file.sound.is_float else "at the end of their range"
        told = counted(clipped, "sample is", "samples are")
        yield Finding("doubtful", f"{name}: {told} {how.replace('-', chr(0x2212))}, so it clips.")


def _of_recording(content: Content) -> Iterator[Finding]:
    """What the recorder told of the page."""
    grades = {"refused": "bad", "silent": "bad", "heard": "doubtful"}
    is_told = content.other is not None and content.other.sound.is_silent()
    for loss in content.losses:
        if loss.grade in grades and not (loss.grade == "silent" and is_told):
            yield Finding(grades[loss.grade], f"The recorder: {loss.grade} {loss.kind},"
                                              f" {loss.told}.")
    for line in content.lines:
        if line.startswith(("the page ", "replay: failed", "replay: the program")):
            yield Finding("doubtful", f"{line}.")
        elif line.startswith("live: "):
            yield Finding("doubtful", f"Frozen: {line[len('live: '):]}.")
        elif "ended otherwise" in line:
            yield Finding("bad", f"{line}.")
