"""Rounds: some trials of one kind, drawn by hypothesis, and the least one that shows a fault."""

import collections
import dataclasses
import tempfile
import time
import warnings
from pathlib import Path

import hypothesis
from hypothesis import HealthCheck, Phase, Verbosity

from waplay_tools.fuzz.smaller import smaller
from waplay_tools.fuzz.strategies import KINDS
from waplay_tools.fuzz.trials import Judged, Trial, judged

EXAMPLES = 100  # of a round
FEWER = {"words": 30, "large scripts": 12}  # examples of rounds whose trials take longer


class Wrong(Exception):
    """A trial that shows a fault."""


@dataclasses.dataclass(frozen=True)
class Job:
    """A round: the program, the kind of its trials, and what they hang on. It is over at a time."""

    program: Path
    kind: str
    seed: int
    number: int
    end: float = float("inf")


@dataclasses.dataclass
class Round:
    """What came of a round: how often each status, how many trials the second calculation had an
    answer for, and the least trial that shows a fault, with its faults."""

    job: Job
    statuses: collections.Counter[int] = dataclasses.field(default_factory=collections.Counter)
    calculated: int = 0
    found: tuple[Trial, list[str]] | None = None

    def look(self, trial: Trial) -> None:
        """Runs a trial; raises Wrong where it shows a fault. When the time is over it runs none."""
        if time.time() > self.job.end:
            return
        it = judged(self.job.program, trial)
        self.count(it)
        if it.faults:
            if self.found is None or trial.size() <= self.found[0].size():
                self.found = trial, it.faults
            raise Wrong(it.faults[0])

    def count(self, it: Judged) -> None:
        """Counts a trial."""
        self.statuses[it.status] += 1
        self.calculated += it.is_calculated


def play(job: Job) -> Round:
    """Plays a round to its end. What it draws hangs on the seed, the kind and the number alone."""
    done = Round(job)
    seed = f"{job.seed} {job.kind} {job.number}"
    settings = hypothesis.settings(
        max_examples=FEWER.get(job.kind, EXAMPLES),
        deadline=None,
        database=None,
        phases=(Phase.generate, Phase.shrink),
        suppress_health_check=list(HealthCheck),
        verbosity=Verbosity.quiet,
        print_blob=False,
    )
    with tempfile.TemporaryDirectory() as home, warnings.catch_warnings():
        warnings.simplefilter("ignore")
        hypothesis.configuration.set_hypothesis_home_dir(home)
        test = settings(hypothesis.given(KINDS[job.kind])(lambda trial: done.look(trial)))
        try:
            hypothesis.seed(seed)(test)()
        except Exception:  # that of the fault, or that it does not show each time
            if done.found is None:
                raise
    if done.found:
        done.found = smaller(job.program, *done.found)
    return done
