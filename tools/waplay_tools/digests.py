"""What the second calculations of tools/timelines, tools/filters and tools/delays share:
the random numbers and the digest, both made as the tests make them, what they print, and the
rounding of docs/PROFILE.md."""

import argparse
import collections
from typing import Any

MASK = 2**64 - 1
LEAST, GREATEST = -(2**31), 2**31 - 1

Cases = collections.Counter[Any]  # how often each case came up

# The digest of nothing.
EMPTY = 14695981039346656037


class Random:
    """A linear congruential generator, whose upper bits are taken."""

    def __init__(self, seed: int) -> None:
        self.state = seed

    def below(self, bound: int) -> int:
        """The next number, from 0 to one less than the bound."""
        self.state = (self.state * 6364136223846793005 + 1442695040888963407) & MASK
        return (self.state >> 33) % bound


def mixed(digest: int, item: int) -> int:
    """The digest with one more item, which may have 64 bits."""
    return ((digest ^ item) * 1099511628211) & MASK


def rounded(num: int, den: int) -> int:
    """The whole number nearest to num / den, for a positive den; a half goes up."""
    return (2 * num + den) // (2 * den)


def is_counted(name: str, what: str) -> bool:
    """Whether the command line of the tool of this name has --count."""
    words = argparse.ArgumentParser(
        prog=name, description=what, formatter_class=argparse.RawDescriptionHelpFormatter
    )
    words.add_argument(
        "--count", action="store_true", help="print how often each case came up, and not the digest"
    )
    return words.parse_args().count


def tell(digest: int, counts: Cases, is_counted: bool) -> None:
    """Prints the digest, or how often each case came up."""
    if is_counted:
        for name, count in sorted(counts.items(), key=str):
            print(count, name)
    else:
        print(digest)
