"""What waprune answers, by the second calculation."""

from typing import NamedTuple

from waplay_tools.expecting.writing import script_text
from waplay_tools.pruning.pruned import NotPruned, pruned
from waplay_tools.script_tools import are_texts

USAGE = "words: waprune OUT\n"


class Answer(NamedTuple):
    """A status, the text that is printed, and the pruned script where there is one."""

    status: int
    text: str
    script: bytes | None = None


def out_of(words: list[str]) -> str | None:
    """The path OUT of a command line: its one word. None where it has no reading."""
    if len(words) != 1 or not words[0] or words[0].startswith("-") or not are_texts(words):
        return None
    return words[0]


def answer_to(words: list[str], data: bytes, folder: str) -> Answer:
    """The answer to these words and a script of these bytes, whose assets are in the folder."""
    if out_of(words) is None:
        return Answer(2, USAGE)
    try:
        it = pruned(data, folder)
    except NotPruned as fault:
        return Answer(fault.status, f"{fault.line}\n" if fault.line else "")
    return Answer(0, f"pruned {it.kept} of {it.of}\n", script_text(it.script))
