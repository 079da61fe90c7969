"""Runs the gate and says what its parts took of the processor, against their budget.

The parts are the proofs of the crates that the programs are made of, the must-fail edits with the
proofs that they begin with, and the proofs of the crates of tests and tools. A part is told by the
folder and the words of each process below the gate, which is looked at twice a second; what is too
short to be seen is the rest. What an earlier run on the machine passed is kept, so the figures are
those of a whole gate only on a machine that has kept nothing.
"""

import argparse
import collections
import dataclasses
import os
import resource
import subprocess
import sys
import threading
import tomllib
from pathlib import Path

from waplay_tools import crates
from waplay_tools.places import TOP

BUDGET = TOP / ".ci" / "budget.toml"
PROOFS, EDITS, TESTS, REST = "product-proofs", "edits", "tests", "rest"
_TICKS = os.sysconf("SC_CLK_TCK")


@dataclasses.dataclass
class Process:
    """A process below the gate: which part it is of, which crate, and what it took."""

    part: str
    crate: str
    seconds: float = 0.0


def process_of(words: list[str], folder: str, product: set[str]) -> Process:
    """What a process with these words in this folder is of."""
    if "--crate-name" not in words:
        return Process(REST, "")
    crate = words[words.index("--crate-name") + 1]
    if "/rt-edit" in folder:
        return Process(EDITS, crate)
    return Process(PROOFS if crate in product and "--test" not in words else TESTS, crate)


class Watch(threading.Thread):
    """Looks at the processes below one until it is told to stop."""

    def __init__(self, top: int, product: set[str]) -> None:
        super().__init__(daemon=True)
        self.top, self.product = top, product
        self.is_over = threading.Event()
        self.processes: dict[tuple[int, int], Process] = {}

    def run(self) -> None:
        """Looks twice a second, from the thread's start on."""
        while not self.is_over.wait(0.5):
            self.look()

    def look(self) -> None:
        """Notes what each process below has taken so far. What one took last is kept when it is
        gone."""
        parents, took = {}, {}
        for entry in os.scandir("/proc"):
            if entry.name.isdigit():
                told = _stat_of(entry.name)
                if told:
                    pid = int(entry.name)
                    parents[pid], took[pid] = told[0], told[1:]
        for pid, (begun, seconds) in took.items():
            if self._is_below(pid, parents):
                self._note(pid, begun, seconds)

    def _is_below(self, pid: int, parents: dict[int, int]) -> bool:
        while pid in parents and pid != self.top:
            pid = parents[pid]
        return pid == self.top

    def _note(self, pid: int, begun: int, seconds: float) -> None:
        if (pid, begun) not in self.processes:
            try:
                words = Path(f"/proc/{pid}/cmdline").read_text(errors="replace").split("\0")
                folder = os.readlink(f"/proc/{pid}/cwd")
            except OSError:
                return
            self.processes[pid, begun] = process_of(words, folder, self.product)
        self.processes[pid, begun].seconds = seconds


def _stat_of(pid: str) -> tuple[int, int, float] | None:
    """A process's parent, when it began, and the seconds that it took."""
    try:
        fields = Path(f"/proc/{pid}/stat").read_text(errors="replace").rpartition(")")[2].split()
    except OSError:
        return None
    return int(fields[1]), int(fields[19]), (int(fields[11]) + int(fields[12])) / _TICKS


def minutes_by_part(processes: list[Process], whole: float) -> dict[str, float]:
    """The minutes of the parts; the rest is what is seen nowhere of the whole, in seconds."""
    seconds: dict[str, float] = collections.defaultdict(float)
    for process in processes:
        seconds[process.part] += process.seconds
    seconds[REST] = whole - sum(seconds[part] for part in (PROOFS, EDITS, TESTS))
    return {part: seconds[part] / 60 for part in (PROOFS, EDITS, TESTS, REST)}


def report(minutes: dict[str, float], budget: dict[str, float]) -> list[str]:
    """A line for each part and for the whole: what it took, and its budget."""
    rows = [(part, minutes[part], budget[part]) for part in minutes]
    rows.append(("all", sum(minutes.values()), budget["all"]))
    return [
        f"budget: {part}: {took:.1f} of {most:g} minutes of a processor"
        + (" OVER" if took > most else "")
        for part, took, most in rows
    ]


def dearest(processes: list[Process], number: int) -> list[str]:
    """The crates that took most, in each part."""
    seconds: dict[tuple[str, str], float] = collections.defaultdict(float)
    for process in processes:
        if process.crate:
            seconds[process.part, process.crate] += process.seconds
    by_seconds = sorted(seconds.items(), key=lambda it: it[1], reverse=True)
    return [
        f"    {part} {crate}: {took / 60:.1f}" for (part, crate), took in by_seconds[:number]
    ]


def main() -> int:
    """Runs the gate, and prints a line for each part with its budget."""
    parser = argparse.ArgumentParser(prog="tools/gate-budget", description=__doc__)
    parser.add_argument(
        "--crates", type=int, default=0, metavar="N", help="also list the N dearest crates by part"
    )
    parser.add_argument(
        "command", nargs=argparse.REMAINDER, help="the gate's command; rt ci where it is absent"
    )
    asked = parser.parse_args()
    budget = tomllib.loads(BUDGET.read_text(encoding="utf-8"))
    product = crates.product(crates.bases_in(TOP))
    with subprocess.Popen(asked.command or ["rt", "ci"], cwd=TOP) as gate:
        watch = Watch(gate.pid, product)
        watch.start()
        status = gate.wait()
        watch.is_over.set()
        watch.join()
    used = resource.getrusage(resource.RUSAGE_CHILDREN)
    processes = list(watch.processes.values())
    lines = report(minutes_by_part(processes, used.ru_utime + used.ru_stime), budget)
    print("\n".join(lines + dearest(processes, asked.crates)), flush=True)
    return status


if __name__ == "__main__":
    sys.exit(main())
