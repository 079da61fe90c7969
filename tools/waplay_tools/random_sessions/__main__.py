"""Records random sessions in Chromium (recorder/random_sessions.js), replays them with the program,
and looks whether each take tells where its replay is off.

It prints a line for each seed: exact, which is less than a unit of the file; within 0.0001; off and
told, with the lines that tell; off and not told; silent and told; silent and not told; or failed.
The last line has how many there are of each. The status is 0 where nothing is not told and nothing
failed.
"""

import argparse
import array
import collections
import functools
import contextlib
import os
import queue
import re
import shutil
import signal
import sys
import tempfile
import threading
from collections.abc import Iterator
from pathlib import Path
from types import FrameType
from typing import Any

from waplay_tools.chromium import Browser, BrowserFault, find_chromium
from waplay_tools.expecting.numbers import DEFAULT_QUANTUM, QUANTA
from waplay_tools.random_sessions import judging
from waplay_tools.random_sessions.judging import Judgement, Run
from waplay_tools.recorder import results
from waplay_tools.recorder.bundle import recorder_text
from waplay_tools.recorder.driving import Wishes
from waplay_tools.recorder.playing import open_modules
from waplay_tools.recorder.replaying import channels_of, find_program, replay
from waplay_tools.recorder.results import Recorded
from waplay_tools.recorder.serving import Folder

LENGTH = 0.25  # seconds of a session
MOST_RUNS = 5  # of a session that is off
WAIT = 120.0  # seconds for one step of the browser


def parser() -> argparse.ArgumentParser:
    """The options, and a word on each."""
    made = argparse.ArgumentParser(prog="tools/random-sessions", description=__doc__)
    add = made.add_argument
    add("first", type=int, help="the first seed")
    add("last", type=int, help="the last seed")
    add("--plain", action="store_true",
        help="sessions of what a script has words for, recorded with the option plain")
    add("--realtime", action="store_true", help="sessions of real-time contexts, with timers")
    add("--quantum", type=int, choices=QUANTA, default=DEFAULT_QUANTUM, metavar="FRAMES",
        help="the render quantum of all sessions: 32, 64, 128, 256, 512 or 1024 frames; 128 where "
             "nothing is said")
    add("--browsers", type=int, choices=(1, 2), default=1, help="how many run side by side")
    add("--log", type=Path, metavar="FILE",
        help="also writes the lines here; seeds of which it has a line are not run again")
    add("--keep", type=Path, metavar="FOLDER", help="keeps the takes of what is off or failed here")
    add("--waplay", default=os.environ.get("WAPLAY"), metavar="PATH",
        help="the program that replays; also the variable WAPLAY; that of this checkout by default")
    add("--chromium", default=os.environ.get("CHROMIUM"), metavar="PATH",
        help="the browser; also the variable CHROMIUM")
    return made


class Sessions:
    """A browser that records sessions one after the other."""

    def __init__(self, browser: Browser, served: Folder, words: argparse.Namespace,
                 program: Path) -> None:
        self.browser, self.served, self.words, self.program = browser, served, words, program
        wishes = Wishes(page="", plain=words.plain, realtime=LENGTH if words.realtime else 0)
        browser.inject(wishes.options() + recorder_text())

    def ask(self, expression: str) -> Any:
        """The value of an expression in the page."""
        return self.browser.evaluate(expression, timeout=WAIT)

    def recorded(self, seed: int) -> tuple[Recorded, list[array.array]]:
        """Records a session in a page of its own, and plays its script."""
        open_modules(self.browser, self.served, ["random_sessions.js"])
        options = f"{str(not self.words.plain).lower()}, {str(self.words.realtime).lower()}"
        number = int(self.ask(f"recordRandomSession({seed}, {options}, {self.words.quantum})"))
        recorded = results.take_out(self.ask, number, number)
        if recorded is None:
            raise BrowserFault("The session did not start rendering.")
        texts = self.ask(f"playRecorded({number})")
        return recorded, [results.words_of(text, "f") for text in texts]

    def run(self, seed: int, folder: Path) -> Run:
        """Records, plays and replays a session."""
        recorded, played = self.recorded(seed)
        recorded.write(folder)
        replayed = replay(self.program, folder, recorded, judging.TOLERANCE)
        recorded.write_report(folder, replayed.lines)
        path = folder / f"{recorded.number}.wav"
        channels = channels_of(path.read_bytes()) if replayed.outcome != "fails" else []
        return Run(recorded, played, replayed, channels)

    def judged(self, seed: int) -> Judgement:
        """Judges a session. One that is off is run again, as Chromium may render it otherwise."""
        with tempfile.TemporaryDirectory(prefix="waplay-session-") as name:
            folder, runs = Path(name), list[Run]()
            while len(runs) < MOST_RUNS:
                runs.append(self.run(seed, folder))
                found = judging.judge(runs, not self.words.plain)
                if found.kind not in (judging.TOLD, judging.NOT_TOLD):
                    break
            if self.words.keep and found.kind in (judging.TOLD, *judging.BAD):
                shutil.copytree(folder, self.words.keep / f"seed{seed}", dirs_exist_ok=True)
            return found


def judgements(words: argparse.Namespace, program: Path, chromium: str,
               seeds: queue.Queue[int]) -> Iterator[tuple[int, Judgement]]:
    """Judges seeds until there are none left. What a browser failed at is tried in another one."""
    failed: collections.Counter[int] = collections.Counter()
    while not seeds.empty():
        with tempfile.TemporaryDirectory(prefix="waplay-sessions-") as name, \
                Browser(chromium) as browser, Folder(Path(name)) as served:
            sessions = Sessions(browser, served, words, program)
            while True:
                try:
                    seed = seeds.get_nowait()
                except queue.Empty:
                    break
                try:
                    yield seed, sessions.judged(seed)
                except BrowserFault as fault:
                    failed[seed] += 1
                    if failed[seed] > 1:
                        yield seed, Judgement(judging.FAILED, str(fault))
                    else:
                        seeds.put(seed)
                    break


class Lines:
    """The lines of seeds, those that were in the log before too."""

    def __init__(self, words: argparse.Namespace) -> None:
        self.path, self.lock = words.log, threading.Lock()
        self.head = "random sessions"
        self.head += ", plain" * words.plain + ", in real time" * words.realtime
        if words.quantum != DEFAULT_QUANTUM:
            self.head += f", in quanta of {words.quantum} frames"
        self.kinds: dict[int, str] = {}
        if self.path and self.path.exists():
            head, *lines = self.path.read_text(encoding="utf-8").splitlines() or [""]
            if head != self.head:
                raise SystemExit(f"tools/random-sessions: {self.path} has {head!r} and not "
                                 f"{self.head!r}")
            for line in lines:
                if match := re.match(r"seed (\d+): ([a-z0-9. ]+)[,:]", line):
                    self.kinds[int(match[1])] = match[2]
        elif self.path:
            self.path.write_text(f"{self.head}\n", encoding="utf-8")

    def add(self, seed: int, found: Judgement) -> None:
        """Prints a line, and adds it to the log."""
        line = f"seed {seed}: {found.kind}: {found.words}"
        with self.lock:
            self.kinds[seed] = found.kind
            print(line, flush=True)
            if self.path:
                with self.path.open("a", encoding="utf-8") as file:
                    file.write(f"{line}\n")


def summary(kinds: list[str]) -> str:
    """The last line."""
    counts = collections.Counter(kinds)
    return f"{len(kinds)} sessions: " + ", ".join(
        f"{counts[kind]} {kind}" for kind in judging.CLASSES)


def run(words: argparse.Namespace) -> int:
    """Judges what is asked for, and gives the status."""
    program, reason = find_program(words.waplay)
    chromium = find_chromium(words.chromium)
    if program is None or not chromium:
        raise SystemExit(f"tools/random-sessions: {reason or 'there is no Chromium'}")
    lines = Lines(words)
    seeds: queue.Queue[int] = queue.Queue()
    wanted = range(words.first, words.last + 1)
    for seed in wanted:
        if seed not in lines.kinds:
            seeds.put(seed)
    judge = functools.partial(judgements, words, program, chromium, seeds)

    def work() -> None:
        """Judges one seed after another, as long as there is one."""
        for seed, found in judge():
            lines.add(seed, found)

    threads = [threading.Thread(target=work) for _ in range(words.browsers)]
    for thread in threads:
        thread.start()
    try:
        for thread in threads:
            thread.join()
    finally:
        with contextlib.suppress(queue.Empty):  # where it is stopped, each browser ends its session
            while True:
                seeds.get_nowait()
        for thread in threads:
            thread.join()
    kinds = [lines.kinds.get(seed, judging.FAILED) for seed in wanted]
    print(summary(kinds))
    return 1 if any(kind in judging.BAD for kind in kinds) else 0


def stop_at(number: int, _: FrameType | None) -> None:
    """Ends the program once the sessions that are being recorded are over."""
    signal.signal(number, signal.SIG_IGN)
    raise SystemExit(128 + number)


def main() -> int:
    """Does what the command line asks for."""
    words = parser().parse_args()
    signal.signal(signal.SIGTERM, stop_at)
    return run(words)


if __name__ == "__main__":
    sys.exit(main())
