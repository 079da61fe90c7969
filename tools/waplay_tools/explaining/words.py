"""The words of a command line that name a sample."""

import argparse
import re


def is_place(word: str) -> bool:
    """Whether a word is a frame or a channel: 1 to 10 digits, and no sign."""
    return re.fullmatch("[0-9]{1,10}", word) is not None


def place(word: str) -> int:
    """The frame or the channel that a word is."""
    if not is_place(word):
        raise argparse.ArgumentTypeError(f"{word!r} is no number of 1 to 10 digits")
    return int(word)
