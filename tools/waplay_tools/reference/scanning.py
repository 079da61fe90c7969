"""Going through source text: blanks, comments, strings and brackets."""

import dataclasses
import re
from pathlib import Path

CLOSERS = {"(": ")", "[": "]", "{": "}"}
# A comment to the end of its line, a string, a raw string, or a character. No lifetime is one.
OPAQUE = re.compile(
    r"//[^\n]*"
    r"|\"(?:\\.|[^\"\\])*\""
    r"|(?<![A-Za-z0-9_])r(?P<marks>#*)\".*?\"(?P=marks)"
    r"|'(?:\\(?:u\{[^}]*\}|x..|.)|[^'\\\n])'",
    re.S,
)
# What is none of these, and no bracket. An `r` may begin a raw string.
PLAIN = re.compile(r"[^()\[\]{}\"'/r]+")
BLANKS = re.compile(r"\s*")


class Unreadable(Exception):
    """Source text that cannot be read: where it stands, and what is wrong with it."""


@dataclasses.dataclass(frozen=True)
class Source:
    """A source file. Its path is shown as it stands here."""

    path: Path
    text: str

    def line_at(self, at: int) -> int:
        """The number of the line that a place is in, counted from 1."""
        return self.text.count("\n", 0, at) + 1

    def fault(self, at: int, what: str) -> Unreadable:
        """The fault that something is wrong at a place."""
        return Unreadable(f"{self.path}:{self.line_at(at)}: {what}")

    def past_blanks(self, at: int) -> int:
        """The first place from `at` on that is no blank."""
        blanks = BLANKS.match(self.text, at)
        return blanks.end() if blanks else at

    def past_token(self, at: int) -> int:
        """The place behind a comment, a string, a character, or brackets with what they hold."""
        opaque = OPAQUE.match(self.text, at)
        if opaque:
            return opaque.end()
        if self.text[at] in CLOSERS:
            return self.past_brackets(at)
        return at + 1

    def past_brackets(self, at: int) -> int:
        """The place behind the bracket that closes the one at `at`."""
        closer, place = CLOSERS[self.text[at]], at + 1
        while place < len(self.text):
            plain = PLAIN.match(self.text, place)
            if plain:
                place = plain.end()
                continue
            if self.text[place] == closer:
                return place + 1
            if self.text[place] in ")]}":
                raise self.fault(place, f"{self.text[place]!r} where {closer!r} is wanted")
            place = self.past_token(place)
        raise self.fault(at, f"{self.text[at]!r} is never closed")

    def find(self, stops: re.Pattern[str], at: int) -> int:
        """The first place from `at` on, outside all brackets, at which the pattern is found."""
        place = at
        while place < len(self.text):
            if stops.match(self.text, place):
                return place
            place = self.past_token(place)
        raise self.fault(at, f"nothing ends what begins here; {stops.pattern} is wanted")


def dedented(text: str, indent: int) -> str:
    """A text, with so many blanks less before its second line and those behind it."""
    return re.sub(rf"\n {{0,{indent}}}", "\n", text).strip()
