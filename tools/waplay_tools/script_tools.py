"""What the tools share that read one script and print what comes of it."""

import argparse
import os
from pathlib import Path

MOST_BYTES = 2**24  # of a script


class NoScript(Exception):
    """A script that is too long or cannot be read: the status."""

    def __init__(self, status: int) -> None:
        super().__init__(status)
        self.status = status


def are_texts(words: list[str]) -> bool:
    """Whether each of these words is UTF-8."""
    return not any("\ud800" <= character <= "\udfff" for word in words for character in word)


def path(word: str) -> Path:
    """The path that a word is."""
    if not word:
        raise argparse.ArgumentTypeError("an empty word is no path")
    return Path(word)


def bytes_of(script: Path) -> bytes:
    """The bytes of a script, which may be neither unreadable nor too long."""
    try:
        with open(script, "rb") as file:
            data = file.read(MOST_BYTES + 1)
    except OSError:
        raise NoScript(6) from None
    if len(data) > MOST_BYTES:
        raise NoScript(5)
    return data


def is_told(text: str) -> bool:
    """Prints a text, and says whether it went out."""
    try:
        print(text, end="", flush=True)
    except OSError:
        os.dup2(os.open(os.devnull, os.O_WRONLY), 1)  # where the rest goes when Python ends
        return False
    return True
