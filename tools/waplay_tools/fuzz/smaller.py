"""Makes a trial that shows a fault smaller: values of its script go, or bytes of what is no JSON,
and files that nothing hangs on, as far as time goes."""

import dataclasses
import re
import time
from collections.abc import Callable
from pathlib import Path
from typing import Any

from waplay_tools.fuzz import trees
from waplay_tools.fuzz.trials import Trial, judged
from waplay_tools.random_scripts.kinds import Asset
from waplay_tools.shrinking import shortened

SECONDS = 60.0


class Shrinking:
    """A trial that gets smaller, and the faults that it shows."""

    def __init__(self, program: Path, trial: Trial, faults: list[str]) -> None:
        self.program, self.trial, self.faults = program, trial, faults
        self.end = time.time() + SECONDS

    def holds(self, **members: Any) -> bool:
        """Whether the trial shows the same fault with these members, which it then keeps."""
        if time.time() > self.end:
            return False
        less = dataclasses.replace(self.trial, **members)
        faults = judged(self.program, less).faults
        is_same = any(kind_of(it) == kind_of(self.faults[0]) for it in faults[:1])
        if is_same:
            self.trial, self.faults = less, faults
        return is_same

    def holds_with(self, name: str) -> Callable[[bytes], bool]:
        """The same for the bytes of an asset."""
        return lambda data: self.holds(assets={**self.trial.assets, name: data})

    def shorten_script(self) -> None:
        """Takes values out of a script, or bytes of what is no JSON."""
        try:
            tree = trees.tree_of(self.trial.given.decode("utf-8", "surrogatepass"))
        except (ValueError, RecursionError):
            shortened(self.trial.given, lambda given: self.holds(given=given))
            return
        number = 0
        while number < len(lists_in(tree)):
            holder = lists_in(tree)[number]
            holder[:] = shortened(list(holder), lambda items: self._holds_tree(tree, holder, items))
            number += 1

    def _holds_tree(self, tree: Any, holder: list, items: list) -> bool:
        before, holder[:] = list(holder), items
        given = trees.text_of(tree)
        holder[:] = before
        return self.holds(given=given)

    def shorten_assets(self) -> None:
        """Takes assets away, and bytes of those that stay."""
        for name in list(self.trial.assets):
            fewer = {it: asset for it, asset in self.trial.assets.items() if it != name}
            data: Asset = self.trial.assets[name]
            if not self.holds(assets=fewer) and isinstance(data, bytes):
                shortened(data, self.holds_with(name))


def kind_of(fault: str) -> str:
    """What a fault is, without its numbers and names."""
    return re.sub(r"\d+|'.*'", "", fault)


def lists_in(tree: Any) -> list[list]:
    """The arrays and objects of a tree, in the order of the text."""
    below = [trees.value_at(place) for place in trees.places_in(tree)]
    return [it for it in [tree, *below] if isinstance(it, list)]


def smaller(program: Path, trial: Trial, faults: list[str]) -> tuple[Trial, list[str]]:
    """The trial, as small as it still shows a fault and as time goes, and its faults."""
    shrinking = Shrinking(program, trial, faults)
    shrinking.shorten_script()
    shrinking.shorten_assets()
    return shrinking.trial, shrinking.faults
