"""Follows a transcript along its script: which call each line answers, when it came, and the marks
of the time line. It raises BadInput, with a sentence, where the transcript does not belong to the
script.
"""

from collections.abc import Mapping
from typing import Any, NoReturn

from waplay_tools.reporting import entries, programs
from waplay_tools.reporting.script_reading import Call, Script
from waplay_tools.reporting.sources import Book
from waplay_tools.reporting.text import BadInput, as_it_is, counted, grouped, quoted
from waplay_tools.reporting.transcript_reading import Line

NO_END = 2**62  # a frame behind all that a session may have


class Row:
    """A line of the transcript beside its call, if it has one. The detail is what is known
    besides."""

    def __init__(self, line: Line, call: Call | None = None, detail: str = "") -> None:
        self.line, self.call, self.detail = line, call, detail


class Part:
    """Rows that came one after the other: the title of their list or of what was rendered."""

    def __init__(self, title: str) -> None:
        self.title = title
        self.rows: list[Row] = []


class Mark:
    """A mark of the time line. What it marks lies from its first to its last frame, mostly at
    one."""

    def __init__(
        self, kind: str, low: int, high: int, text: str, told: Line | None = None
    ) -> None:
        self.kind, self.low, self.high, self.text, self.told = kind, low, high, text, told


class Session:
    """A transcript along its script: its parts, its marks, and the calls that were never run. The
    lengths are those of the files that it decodes, in frames, by their paths."""

    def __init__(
        self,
        script: Script,
        lines: list[Line],
        names: tuple[str, str],
        lengths: Mapping[str, int] | None = None,
    ) -> None:
        self.script, self.lines = script, lines
        self.script_name, self.transcript_name = names
        self.parts: list[Part] = []
        self.marks: list[Mark] = []
        self.answered: set[int] = set()
        self.book, self.now, self.at = Book(lengths), 0, 0
        self.rendering: int | None = None
        self.suspensions: dict[int, int] = {}  # of ordinals, the frames at which they are due
        self.length, self.quantum = script.context("length"), script.quantum()
        self._follow()
        self._settle_marks()
        self.not_run = [call for call in script.calls if call.ordinal not in self.answered]

    def _quantum_end(self, frame: int) -> int:
        """The first end of a quantum that is not before the frame."""
        return -(-frame // self.quantum) * self.quantum

    # The lines one after the other.

    def _wrong(self, why: str) -> NoReturn:
        """Refuses the transcript."""
        raise BadInput(f"{self.transcript_name} does not belong to {self.script_name}: {why}")

    def _unfit(self, line: Line) -> NoReturn:
        """Refuses the transcript for a line that can't come there."""
        self._wrong(f"line {line.place}, {quoted(line.text)}, does not fit there")

    def _next(self) -> Line:
        """The next line. A transcript has a last line, which is refused wherever it comes too
        early."""
        line = self.lines[self.at]
        self.at += 1
        return line

    def _add(self, row: Row) -> None:
        """Appends a row to the part that was begun last."""
        self.parts[-1].rows.append(row)

    def _begin(self, title: str) -> None:
        """Begins a part."""
        self.parts.append(Part(title))

    def _follow(self) -> None:
        """All lines, by the kind of the first or the last one."""
        first, last = self.lines[0], self.lines[-1]
        fault = first.text[len("script: ") :] if first.kind == "script" else None
        if fault != self.script.fault and not self._is_not_built(first):
            self._wrong(_faults_told(fault, self.script.fault))
        if fault is not None:
            self._begin("The script's fault")
            self._add(Row(first, self.script.by_ordinal.get(first.ordinal)))
        elif last.word == "refused":
            if len(self.lines) > 1:
                self._unfit(first)
            self._begin("The context")
            self._add(Row(self._next()))
        else:
            self._follow_calls()

    def _is_not_built(self, first: Line) -> bool:
        """Whether the line is the fault of an operation that the program does not read yet, before
        any other fault of the script."""
        call = self.script.by_ordinal.get(first.ordinal)
        if (
            first.kind != "script"
            or first.word != "UnknownOp"
            or not call
            or not entries.fields_of(call.op)
        ):
            return False
        own = self.script.fault
        return own is None or own != "BadJson" and int(own.split()[0]) >= call.ordinal

    def _follow_calls(self) -> None:
        """The lines of a session whose calls were run."""
        self._begin("The main list, at frame 0")
        self._run([call.ordinal for call in self.script.calls if call.holder == 0])
        if self.rendering is not None:
            self._begin("Rendering, from frame 0 on")
            while self._follow_rendering():
                pass
        else:
            self._begin("The end")
        line = self._next()
        if line.kind != "end" or (line.word == "idle") != (self.rendering is None):
            self._unfit(line)
        self._add(Row(line))

    def _run(self, ordinals: list[int]) -> None:
        """The lines of a list of calls, one for each."""
        for ordinal in ordinals:
            line, call = self._next(), self.script.by_ordinal[ordinal]
            if line.ordinal != ordinal:
                self._wrong(
                    f"line {line.place} is {quoted(line.text)}, where call {ordinal} is to be"
                    " answered"
                )
            if line.kind not in answers(call.op):
                self._wrong(f"line {line.place} is {quoted(line.text)}, and no answer of {call.op}")
            self.answered.add(ordinal)
            self._add(Row(line, call, self._detail(line, call)))
            if line.kind in ("ok", "resolved"):
                self.book.apply(call, self.now)
            elif line.kind == "pending" and call.op == "startRendering":
                self.rendering = ordinal
            elif line.kind == "pending":
                self.suspensions[ordinal] = self._quantum_end(call.field("time"))

    def _detail(self, line: Line, call: Call) -> str:
        """Of a TypeError, what the names of the call stand for at that moment; of a program, why it
        is not accepted."""
        if line.feature == "program":
            return programs.why(call.field("code"))
        if line.exception != "TypeError":
            return ""
        names = [
            call.field(field)
            for field, kind, *_ in entries.fields_of(call.op)
            if kind.startswith("name")
        ]
        told = [
            f"{as_it_is(quoted(name))} {self.book.what(name)}"
            for name in names
            if isinstance(name, str)
        ]
        return ", ".join(told) + "." if told else ""

    def _follow_rendering(self) -> bool:
        """One event while rendering, with the list of a promise that resolves. The answer is
        whether there may be more."""
        line = self.lines[self.at]
        due = min(self.suspensions, key=self.suspensions.__getitem__, default=None)
        if line.kind == "ended":
            self._ended(self._next())
        elif line.kind == "resolved" and due is not None and line.ordinal == due:
            self._suspended(self._next(), due)
            return self.lines[self.at].kind != "end"
        elif line.kind == "resolved" and line.ordinal == self.rendering and due is None:
            self._finished(self._next())
            return False
        else:
            self._unfit(line)
        return True

    def _ended(self, line: Line) -> None:
        """The end of a source, which has to be there and started."""
        it = next((it for it in self.book.nodes if it.number == line.number), None)
        has_started = it and it.name == line.word and it.start is not None and not it.has_ended
        if it is None or it.call is None or not has_started:
            self._wrong(f"line {line.place} is {quoted(line.text)}, and no such source was started")
        it.has_ended = True
        low, high = it.ends()
        text = f"{quoted(it.name)}, the {it.kind} of call {it.call.ordinal}"
        self.marks.append(Mark("ended", low, NO_END if high is None else high, text, line))
        self._add(Row(line, None, f"{it.kind[0].upper() + it.kind[1:]} of call {it.call.ordinal}."))

    def _suspended(self, line: Line, ordinal: int) -> None:
        """A suspension that is due, with its list."""
        call, self.now = self.script.by_ordinal[ordinal], self.suspensions.pop(ordinal)
        self._begin(f"Suspended at frame {grouped(self.now)}: the list of call {call.ordinal}")
        self._add(Row(line, call))
        self._run(call.held)
        is_stalled = self.lines[self.at].word == "stalled"
        if is_stalled and self.lines[self.at].number != self.now:
            self._unfit(self.lines[self.at])
        kind = "stalled" if is_stalled else "suspended"
        self.marks.append(Mark(kind, self.now, self.now, f"by call {call.ordinal}", line))
        self._begin("The end" if is_stalled else f"Rendering, from frame {grouped(self.now)} on")

    def _finished(self, line: Line) -> None:
        """The end of rendering, with the list of startRendering."""
        call, self.now = self.script.by_ordinal[line.ordinal], self._quantum_end(self.length)
        self._begin(
            f"Rendered to the end, at frame {grouped(self.now)}: the list of call {call.ordinal}"
        )
        self._add(Row(line, call))
        self._run(call.held)
        self._begin("The end")
        line = self._next()
        if (
            line.kind != "complete"
            or line.number != self.length
            or self.lines[self.at].word != "completed"
        ):
            self._unfit(line)
        self._add(Row(line))

    # The marks.

    def _settle_marks(self) -> None:
        """Narrows the frames of a mark by those of the marks before and after it: what is told
        earlier lies in no later quantum. Parts without rows are left out."""
        self.parts = [part for part in self.parts if part.rows]
        told = 0
        for mark in self.marks:
            told = max(told, self._quantum_end(mark.low))
            if mark.low != mark.high:
                mark.low = max(mark.low, told - self.quantum + 1, 0)
        told = self._quantum_end(self.length)
        for mark in reversed(self.marks):
            told = min(told, self._quantum_end(mark.high))
            if mark.low != mark.high:
                mark.high = min(mark.high, told)
            mark.low = min(mark.low, mark.high)

    def count(self, *kinds: str) -> int:
        """How many lines have one of these kinds."""
        return sum(line.kind in kinds for line in self.lines)

    def end(self) -> Line:
        """The last line."""
        return self.lines[-1]


def answers(op: Any) -> tuple[str, ...]:
    """The kinds of lines that a call of the operation may get in its list."""
    if op in entries.LEFT_OUT:
        return ("throw",)
    if op in entries.PROMISES:
        return ("pending" if op in entries.PENDING else "resolved", "rejected")
    if op in entries.READS:
        return (entries.READS[op], "throw") if op == "readValue" else (entries.READS[op],)
    return ("ok", "throw")


def _faults_told(told: str | None, own: str | None) -> str:
    """In words, that the transcript tells another fault than the script has."""
    has = "the script has no fault" if own is None else f"the script's first fault is {quoted(own)}"
    return f"{has}, and the transcript tells {'none' if told is None else quoted(told)}"


def summary(session: Session) -> str:
    """One sentence on what became of the session."""
    end = session.end()
    if end.kind == "script":
        return "The script has a fault, so no call was run."
    if end.word == "refused":
        return "The context was refused, so no call was run."
    if end.word == "idle":
        return "Rendering was not started, so there is no sound."
    refused = session.count("throw", "rejected")
    told = (
        f"{counted(refused, 'call was', 'calls were')} refused"
        if refused
        else "no call was refused"
    )
    if end.word == "stalled":
        frame = grouped(end.number or 0)
        return f"The session stalled at frame {frame}, so there is no sound; {told}."
    return f"The session was rendered to its length; {told}."
