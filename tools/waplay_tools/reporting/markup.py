"""HTML by templates. What is put into one is escaped, unless it is HTML already."""

import html
import string
from collections.abc import Iterable
from typing import Any

from waplay_tools.reporting.text import BACKQUOTE, visible


class Html(str):
    """Text that is HTML: what a template gives, and what is known to have no letter that HTML would
    take for markup."""


class _Escaping(string.Formatter):
    """Fills templates."""

    def format_field(self, value: Any, format_spec: str) -> str:
        """What stands at a place for a value."""
        text = format(value, format_spec)
        return text if isinstance(value, Html) else escaped(text)


_ESCAPING = _Escaping()


def filled(template: str, /, **values: Any) -> Html:
    """The template with these values at its places, which are told as `str.format` has them. Values
    that are no Html are escaped."""
    return Html(_ESCAPING.vformat(template, (), values))


def joined(parts: Iterable[Html], between: str = "") -> Html:
    """Pieces of HTML one behind the other, with this between them."""
    return Html(between.join(parts))


def escaped(text: str) -> Html:
    """Text for HTML: nothing of it is markup, and nothing of it is unseen."""
    return Html(html.escape(visible(text), quote=True))


def isolated(text: str) -> Html:
    """Text for HTML that someone else chose: its direction does not spread."""
    return filled("<bdi>{text}</bdi>", text=text)


def sentence(text: str) -> Html:
    """A plain text for HTML, whose parts between backquotes are code."""
    parts = [escaped(part.replace(BACKQUOTE, "`")) for part in text.split("`")]
    parts[1::2] = [filled("<code>{it}</code>", it=it) for it in parts[1::2]]
    return joined(parts)


def seconds(frame: int, rate: int) -> Html:
    """The time of a frame, whose number and unit stay on one line."""
    if rate <= 0:
        return Html("\u2013")
    return Html("{:,.6f}".format(frame / rate).rstrip("0").rstrip(".") + "\u00a0s")
