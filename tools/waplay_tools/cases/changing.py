"""Cases with one wanted value changed, each of which must be told from what a run gave."""

import dataclasses
from collections.abc import Iterator

from waplay_tools.cases.case import Case
from waplay_tools.cases.expansion import runs_in, runs_of


def changed(case: Case) -> Iterator[tuple[str, Case]]:
    """The case with each kind of wanted value changed in turn: what was changed, and the case."""
    yield "status", dataclasses.replace(case, status=case.status + 1)
    yield "a line more", dataclasses.replace(case, transcript=[*case.transcript, "0 ok"])
    if case.transcript:
        last = case.transcript[-1] + "x"
        yield "the last line", dataclasses.replace(case, transcript=[*case.transcript[:-1], last])
        yield "a line less", dataclasses.replace(case, transcript=case.transcript[:-1])
    if case.samples:
        yield "a sample", dataclasses.replace(case, samples=_with_other_sample(case.samples))
        yield "a frame more", dataclasses.replace(
            case, samples=[[*runs, [1, 0, 0]] for runs in case.samples]
        )
    if case.samples_at:
        frame = next(iter(case.samples_at))
        row = [sample ^ 1 for sample in case.samples_at[frame]]
        yield "a sample", dataclasses.replace(case, samples_at={**case.samples_at, frame: row})
        yield "the frames", dataclasses.replace(case, frames=(case.frames or 0) + 1)
    if case.migrated is not None:
        text = "".join(case.migrated)
        place = len(text) // 2
        other = text[:place] + ("0" if text[place] == "1" else "1") + text[place + 1 :]
        yield "a byte of the script", dataclasses.replace(case, migrated=other)
    if case.wav_sha256:
        digest = ("1" if case.wav_sha256[0] == "0" else "0") + case.wav_sha256[1:]
        yield "the digest", dataclasses.replace(case, wav_sha256=digest)


def _with_other_sample(samples: list[list[list[int]]]) -> list[list[list[int]]]:
    """The samples, where the last one of the last channel is another."""
    *channels, runs = samples
    *before, last = runs_in(runs[-1:])
    return [*channels, [*runs[:-1], *runs_of(before), [1, last ^ 1, 0]]]
