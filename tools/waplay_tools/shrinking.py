"""Makes a sequence shorter as long as something holds of it."""

from collections.abc import Callable
from typing import TypeVar

Items = TypeVar("Items", list, bytes)


def shortened(items: Items, holds: Callable[[Items], bool]) -> Items:
    """The items without those on which nothing hangs: first many at a time, then fewer."""
    size = len(items)
    while size:
        at = 0
        while at < len(items):
            less = items[:at] + items[at + size :]
            if holds(less):
                items = less
            else:
                at += size
        size //= 2
    return items
