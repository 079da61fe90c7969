"""Reads transcripts, line by line, by the grammar of docs/FORMATS.md."""

import re

from waplay_tools.reporting.text import BadInput, quoted

EXCEPTIONS = (
    "NotSupportedError",
    "InvalidStateError",
    "InvalidAccessError",
    "IndexSizeError",
    "RangeError",
    "TypeError",
    "NotFoundError",
    "EncodingError",
)
CAUSES = ("MissingField", "WrongKind", "OutOfRange")

_NUMBER = r"(?:0|[1-9]\d{0,19})"
_EXCEPTION = (
    r"(?P<exception>NotSupportedError(?: profile:(?P<feature>[a-z]+(?:-[a-z]+)*))?|%s)"
    % "|".join(EXCEPTIONS)
)
_FORMS = [
    re.compile(form)
    for form in (
        f"(?P<ordinal>{_NUMBER}) (?P<kind>ok|pending|resolved)",
        f"(?P<ordinal>{_NUMBER}) (?P<kind>throw|rejected) {_EXCEPTION}",
        f"(?P<ordinal>{_NUMBER}) (?P<kind>value) (?P<number>-?{_NUMBER})",
        f"(?P<ordinal>{_NUMBER}) (?P<kind>state) (?P<word>suspended|running|closed)",
        f"(?P<ordinal>{_NUMBER}) (?P<kind>time) (?P<number>{_NUMBER})",
        f"(?P<kind>ended) (?P<number>{_NUMBER}) (?P<word>[A-Za-z0-9_-]{{1,64}})",
        f"(?P<kind>complete) (?P<number>{_NUMBER})",
        r"(?P<kind>end) (?P<word>completed|idle)",
        f"(?P<kind>end) (?P<word>stalled) (?P<number>{_NUMBER})",
        f"(?P<kind>end) (?P<word>refused) {_EXCEPTION}",
        r"(?P<kind>script): (?P<word>BadJson)",
        f"(?P<kind>script): (?P<ordinal>{_NUMBER}) (?P<field>op) (?P<word>UnknownOp)",
        r"(?P<kind>script): (?P<ordinal>%s) (?P<field>[A-Za-z]{1,32}) (?P<word>%s)"
        % (_NUMBER, "|".join(CAUSES)),
    )
]


def _whole(text: str | None) -> int | None:
    """The number that a part of a line is, where the line has that part."""
    return int(text) if text else None


class Line:
    """A line of a transcript, and what its words are. What its form does not have is None."""

    def __init__(self, place: int, text: str, words: dict[str, str | None]) -> None:
        self.place, self.text = place, text
        self.kind = words["kind"] or ""
        self.ordinal, self.number = _whole(words.get("ordinal")), _whole(words.get("number"))
        self.word, self.field = words.get("word"), words.get("field")
        self.exception, self.feature = words.get("exception"), words.get("feature")
        if self.exception:
            self.exception = self.exception.split()[0]

    def is_refusal(self) -> bool:
        """Whether the line refuses a call, the context or the script."""
        return (
            self.kind in ("throw", "rejected", "script")
            or self.kind == "end"
            and self.word == "refused"
        )

    def answer(self) -> str:
        """The line without the ordinal that it begins with."""
        return (
            self.text
            if self.ordinal is None or self.kind == "script"
            else self.text.split(" ", 1)[1]
        )


def lines_of(data: bytes, name: str) -> list[Line]:
    """The lines of a transcript's bytes. The name is that of its file, for a sentence on what is
    wrong."""
    try:
        text = data.decode("ascii")
    except UnicodeDecodeError as error:
        raise BadInput(f"{name} is no transcript: byte {error.start} is not ASCII") from None
    if not text.endswith("\n"):
        raise BadInput(f"{name} is no whole transcript: its last line does not end")
    lines = []
    for place, written in enumerate(text[:-1].split("\n"), 1):
        found = next(filter(None, (form.fullmatch(written) for form in _FORMS)), None)
        if not found:
            raise BadInput(f"{name} is no transcript: line {place} is {quoted(written)}")
        lines.append(Line(place, written, found.groupdict()))
    last = lines[-1]
    if last.kind not in ("end", "script"):
        raise BadInput(f"{name} is no whole transcript: the line `end` is missing")
    for line in lines[:-1]:
        if line.kind in ("end", "script"):
            raise BadInput(
                f"{name} is no transcript: line {line.place}, {quoted(line.text)}, is not the last"
            )
    if last.kind == "script" and len(lines) > 1:
        raise BadInput(f"{name} is no transcript: a fault of the script is its only line")
    return lines
