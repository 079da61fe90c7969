"""What a run gave otherwise than its case wants, in words."""

import hashlib
import itertools
import json
import os

from waplay_tools import wav
from waplay_tools.cases.case import Case
from waplay_tools.cases.expansion import runs_in
from waplay_tools.cases.performers import Outcome
from waplay_tools.cases.words import words_of


def differences(case: Case, found: Outcome, second: Outcome | None) -> list[str]:
    """What a run gave otherwise than the case wants. Where the case does not tell the whole file,
    it is also held to that of the second calculation."""
    told = []
    if found.status != case.status:
        told.append(f"status: wanted {case.status}, found {found.status}")
    told += _of_text(case.text(), found.text.decode(errors="replace"))
    told += _of_file(case, found)
    if second is not None and second is not found and case.samples is None:
        told += [
            f"{line} (wanted by the second calculation)"
            for line in _of_bytes(second.file, found.file)
        ]
    return told + found.faults


def _of_text(wanted: str, found: str) -> list[str]:
    if wanted == found:
        return []
    pairs = itertools.zip_longest(wanted.splitlines(), found.splitlines())
    for number, (one, other) in enumerate(pairs, 1):
        if one != other:
            return [
                f"{_place_of(number, one or other)}: wanted {_quoted(one)}, found {_quoted(other)}"
            ]
    return ["the last line's end: wanted a line break, or none was wanted"]


def _place_of(number: int, line: str) -> str:
    first = line.split(" ", 1)[0]
    return f"line {number}, of call {first}" if first.isdigit() else f"line {number}"


def _quoted(line: str | None) -> str:
    return "no line" if line is None else f"“{line[:200]}”"


def _of_file(case: Case, found: Outcome) -> list[str]:
    if case.migrated is not None:
        return _of_scripts(case.migrated_bytes(), found.file)
    if case.samples is not None:
        return _of_bytes(wanted_file(case), found.file)
    if case.samples_at is not None:
        return _of_frames(case, found.file)
    if not case.leaves_a_file() and found.file is not None:
        return [f"OUT: wanted no file, found {_present(found.file)}"]
    if case.wav_sha256 is not None:
        digest = hashlib.sha256(found.file).hexdigest() if found.file is not None else "no file"
        return (
            []
            if digest == case.wav_sha256
            else [f"digest of the file: wanted {case.wav_sha256}, found {digest}"]
        )
    return []


def form_of(case: Case) -> wav.Form:
    """The form of the file that a case wants whose script has a context."""
    context = json.loads(case.input_bytes() or b"{}")["context"]
    words = words_of(case.words)
    return wav.Form(context["channels"], context["rate"], words.bits if words else 24)


def wanted_file(case: Case) -> bytes:
    """The bytes of the WAV file of a case that tells its samples."""
    form = form_of(case)
    channels = [runs_in(runs) for runs in case.samples or []]
    return wav.wav_bytes(wav.Form(len(channels), form.rate, form.bits), channels)


def _of_scripts(wanted: bytes | None, found: bytes | None) -> list[str]:
    """Where two scripts part, with what stands there."""
    if wanted == found:
        return []
    if wanted is None or found is None:
        return [f"OUT: wanted {_present(wanted)}, found {_present(found)}"]
    place = len(os.path.commonprefix([wanted, found]))
    ends = [_quoted(it[place : place + 40].decode(errors="replace")) for it in (wanted, found)]
    return [f"OUT from byte {place} on: wanted {ends[0]}, found {ends[1]}"]


def _of_bytes(wanted: bytes | None, found: bytes | None) -> list[str]:
    if wanted == found:
        return []
    if wanted is not None and wanted[:1] == b"{":
        return _of_scripts(wanted, found)
    if wanted is None or found is None:
        return [f"WAV file: wanted {_present(wanted)}, found {_present(found)}"]
    one, other = wav.form_of(wanted), wav.form_of(found)
    if one is None or one != other:
        return [f"WAV file: wanted {one}, found {other or 'another header'}"]
    samples = wav.samples_of(wanted, one), wav.samples_of(found, one)
    if len(samples[0]) != len(samples[1]):
        frames = [len(some) // one.channels for some in samples]
        return [f"WAV file: wanted {frames[0]} frames, found {frames[1]}"]
    return _of_samples(*samples, one.channels) or ["WAV file: the same samples in other bytes"]


def _present(file: bytes | None) -> str:
    return "no file" if file is None else f"one of {len(file)} bytes"


def _of_samples(wanted: list[int], found: list[int], channels: int) -> list[str]:
    at = [
        place for place, (one, other) in enumerate(zip(wanted, found, strict=True)) if one != other
    ]
    if not at:
        return []
    frame, channel = divmod(at[0], channels)
    more = f"; {len(at)} samples differ" if len(at) > 1 else ""
    return [f"frame {frame}, channel {channel}: wanted {wanted[at[0]]}, found {found[at[0]]}{more}"]


def _of_frames(case: Case, found: bytes | None) -> list[str]:
    if found is None:
        return ["WAV file: wanted one, found no file"]
    form = wav.form_of(found)
    if form is None or form != form_of(case):
        return [f"WAV file: wanted {form_of(case)}, found {form or 'another header'}"]
    samples = wav.samples_of(found, form)
    if len(samples) != (case.frames or 0) * form.channels:
        return [f"WAV file: wanted {case.frames} frames, found {len(samples) // form.channels}"]
    for frame, wanted in sorted(
        (int(frame), row) for frame, row in (case.samples_at or {}).items()
    ):
        row = samples[frame * form.channels : (frame + 1) * form.channels]
        told = _of_samples(wanted, row, form.channels)
        if told:
            return [told[0].replace("frame 0", f"frame {frame}", 1)]
    return []
