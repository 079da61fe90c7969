"""Two runs beside each other: two takes of a page, or one script with two versions of the program.
"""

import dataclasses
from pathlib import Path

from waplay_tools.reporting import call_changes, difference, takes
from waplay_tools.reporting.call_changes import Change
from waplay_tools.reporting.checks import Check
from waplay_tools.reporting.content import Content, level
from waplay_tools.reporting.text import counted, grouped
from waplay_tools.reporting.wav_samples import Differences


@dataclasses.dataclass
class Answer:
    """A call whose answers differ in two runs, or the end of the session where there is none."""

    change: Change | None
    old: str
    new: str


@dataclasses.dataclass
class Runs:
    """A context in two runs. One of them is None where only the other one has it."""

    number: int
    old: Content | None
    new: Content | None
    changes: list[Change] = dataclasses.field(default_factory=list)
    answers: list[Answer] = dataclasses.field(default_factory=list)
    sounds: Differences | None = None

    def checks(self) -> list[Check]:
        """Whether its calls, answers and samples are the same."""
        name = f"context {self.number}"
        if self.old is None or self.new is None:
            return [Check(name, f"{name} is {'new' if self.old is None else 'gone'}.")]
        return [
            Check(f"{name}: calls", self._calls_told()),
            Check(f"{name}: answers", self._answers_told()),
            Check(f"{name}: samples", self._sounds_told()),
        ]

    def _calls_told(self) -> str:
        """In one sentence, how the calls differ; nothing where they do not."""
        assert self.old and self.new
        heads = [call_changes.head_of(it.session.script) for it in (self.old, self.new)]
        if heads[0] != heads[1]:
            return f"Context {self.number} has another shape: {heads[0]} before, {heads[1]} now."
        other = [it for it in self.changes if it.kind != "same"]
        if not other:
            return ""
        counts = [
            f"{grouped(count)} {kind}"
            for kind in call_changes.SIGNS
            if kind != "same" and (count := sum(it.kind == kind for it in other))
        ]
        first = other[0].new or other[0].old
        ordinal = first.ordinal if first else 0
        return (f"Context {self.number}: calls are other ones ({', '.join(counts)}), first call"
                f" {ordinal}: {other[0].kind} {other[0].text()}.")

    def _answers_told(self) -> str:
        """In one sentence, how the answers differ; nothing where they do not."""
        if not self.answers:
            return ""
        first = self.answers[0]
        call = first.change.new or first.change.old if first.change else None
        where = f"call {call.ordinal}, {call.op}," if call else "a line of the transcript"
        count = counted(len(self.answers), "answer differs", "answers differ")
        was, now = first.old or "nothing", first.new or "nothing"
        return f"Context {self.number}: {count}, first {where} was {was} and is {now}."

    def _sounds_told(self) -> str:
        """In one sentence, how the samples differ; nothing where they do not."""
        assert self.old and self.new
        if (self.old.sound is None) != (self.new.sound is None):
            which = "new" if self.old.sound is None else "old"
            return f"Context {self.number}: only the {which} run has a sound."
        if self.sounds is None or self.sounds.agree():
            return ""
        if self.sounds.first is None:
            return f"Context {self.number}: the sounds have other shapes."
        first, greatest = self.sounds.first, self.sounds.greatest
        most = level(abs(greatest.less)) if greatest else "0"
        count = counted(self.sounds.beyond, "sample differs", "samples differ")
        return (f"Context {self.number}: {count}, first at frame {grouped(first.frame)} of channel"
                f" {first.channel}, by {most} at most.")


def _answers(runs: Runs, old: Content, new: Content) -> list[Answer]:
    """The answers that differ. Where the scripts are the same, lines are compared one by one."""
    if all(it.kind == "same" and it.old and it.new and it.old.value == it.new.value
           for it in runs.changes):
        by_ordinal = {it.new.ordinal: it for it in runs.changes if it.new}
        return [
            Answer(
                by_ordinal.get(pair.line().ordinal or 0),
                pair.left.text if pair.left else "",
                pair.right.text if pair.right else "",
            )
            for pair in difference.pairs_of(old.session.lines, new.session.lines)
            if pair.kind != "same"
        ]
    told = [_by_call(content) for content in (old, new)]
    found = []
    for change in runs.changes:
        if change.old and change.new:
            one = told[0].get(change.old.ordinal, "")
            two = told[1].get(change.new.ordinal, "")
            if one != two:
                found.append(Answer(change, one, two))
    ends = [content.session.end().text for content in (old, new)]
    return found + ([Answer(None, *ends)] if ends[0] != ends[1] else [])


def _by_call(content: Content) -> dict[int, str]:
    """The answers of each call, one behind the other."""
    found: dict[int, list[str]] = {}
    for line in content.session.lines:
        if line.ordinal is not None:
            found.setdefault(line.ordinal, []).append(line.answer())
    return {ordinal: ", ".join(answers) for ordinal, answers in found.items()}


def runs_of(number: int, old: Content | None, new: Content | None, tolerance: float) -> Runs:
    """A context in two runs."""
    made = Runs(number, old, new)
    if old is None or new is None:
        return made
    made.changes = call_changes.changes_of(old.session.script, new.session.script)
    made.answers = _answers(made, old, new)
    if old.sound and new.sound:
        made.sounds = Differences(new.sound.sound, old.sound.sound, tolerance)
    return made


def compare(old: str | Path, new: str | Path, tolerance: float = 0.0) -> list[Runs]:
    """The contexts of two takes beside each other, by their numbers. The tolerance is what samples
    of the two replays may differ by. It raises BadInput, with a sentence, where one is no take."""
    folders = Path(old), Path(new)
    numbers = [takes.numbers_of(folder) for folder in folders]
    found = []
    for number in sorted(set(numbers[0]) | set(numbers[1])):
        before, now = (
            takes.replay_of(folder, number) if number in its else None
            for folder, its in zip(folders, numbers)
        )
        found.append(runs_of(number, before, now, tolerance))
    return found


def checks_of(old: str | Path, new: str | Path, tolerance: float = 0.0) -> list[Check]:
    """Whether two takes have the same calls, answers and samples: three checks for each context.
    This is what a test suite asks of a kept take; `checks` writes them as JUnit XML or TAP."""
    return [check for runs in compare(old, new, tolerance) for check in runs.checks()]
