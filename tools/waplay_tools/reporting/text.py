"""Text for people: what is shown of values, names and numbers."""

import json
import unicodedata
from typing import Any

MANY = 12  # items of a list that are shown whole
LONG = 200  # letters of a string that are shown whole


class BadInput(Exception):
    """Input that a tool can do nothing with, with a sentence that says so."""


class Written:
    """A number that is not whole, as it is written."""

    def __init__(self, text: str) -> None:
        self.text = text


def is_seen(letter: str) -> bool:
    """Whether a letter shows as itself: no control, no mark of direction, and no other invisible
    one."""
    return letter == " " or unicodedata.category(letter) not in (
        "Cc",
        "Cf",
        "Cs",
        "Co",
        "Cn",
        "Zl",
        "Zp",
        "Zs",
    )


def visible(text: str) -> str:
    """The text with every letter that cannot be seen in the form that JSON has for it."""
    if text.isascii() and text.isprintable():
        return text
    shown = []
    for letter in text:
        if is_seen(letter):
            shown.append(letter)
        else:
            units = letter.encode("utf-16-be", "surrogatepass")
            shown += ["\\u%02x%02x" % tuple(units[at : at + 2]) for at in range(0, len(units), 2)]
    return "".join(shown)


def quoted(text: str) -> str:
    """A string as JSON writes it, cut where it is long."""
    if len(text) > LONG:
        return "%s\u2026 (%s letters)" % (quoted(text[:LONG])[:-1], grouped(len(text)))
    return visible(json.dumps(text, ensure_ascii=False))


def shown(value: Any) -> str:
    """A value of a script in one line: JSON, but for long lists, which say how much they leave
    out."""
    if isinstance(value, Written):
        return value.text if len(value.text) <= 40 else value.text[:40] + "\u2026"
    if isinstance(value, str):
        return quoted(value)
    if isinstance(value, list):
        some = [shown(item) for item in (value if len(value) <= MANY else value[: MANY - 4])]
        more = "" if len(value) <= MANY else ", \u2026 %s more" % grouped(len(value) - (MANY - 4))
        return f"[{', '.join(some)}{more}]"
    if isinstance(value, dict):
        return f"an object of {counted(len(value), 'member')}"
    return json.dumps(value)


def grouped(number: int) -> str:
    """A whole number with its digits in groups of three, and a true minus."""
    return "{:,}".format(number).replace("-", "\u2212")


def counted(number: int, what: str, several: str | None = None) -> str:
    """So many of a thing."""
    return f"{grouped(number)} {what if number == 1 else several or what + 's'}"


def decimal(numerator: float, denominator: int) -> str:
    """A quotient, with six digits after its point."""
    return "{:.6f}".format(numerator / denominator).replace("-", "\u2212")


def fix_text(value: int) -> str:
    """A value in units of 2^-24 as a decimal, with a sign in front where it is not quite that."""
    text = f"{value / 2**24:.6f}".rstrip("0").rstrip(".").replace("-", "\u2212")
    about = "" if value * 10**6 % 2**24 == 0 else "\u2248"
    return about + ("0" if text == "\u22120" else text)


# What stands for a backquote that makes no code; visible text does not have it.
BACKQUOTE = "\ue000"


def as_it_is(text: str) -> str:
    """Visible text that someone else chose, for a place in a sentence: its backquotes make no
    code."""
    return text.replace("`", BACKQUOTE)
