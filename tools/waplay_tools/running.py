"""Runs a program where its streams fail or its room is short, and tells what it gave and took."""

import dataclasses
import os
import resource
import shutil
import signal
import subprocess
import tempfile
import threading
from collections.abc import Callable, Mapping, Sequence
from pathlib import Path
from typing import IO, NamedTuple

SECONDS = 120.0

# What standard output may be that takes nothing: a full device, a pipe that nobody reads any more,
# and none.
FULL, GONE, CLOSED = "full", "gone", "closed"


@dataclasses.dataclass(frozen=True)
class Terms:
    """What a run has to do with. Sizes are in bytes, and None is no limit."""

    given: bytes | Path | None = b""  # standard input: its bytes, or a path; None: it is closed
    output: str | int | None = None  # FULL, GONE, CLOSED, or how much standard output takes
    file_most: int | None = None  # how long a file may get
    memory: int | None = None  # of the whole address space
    stack: int | None = None
    ends_at_limit: bool = False  # a file that gets too long ends the run by a signal
    seconds: float = SECONDS  # after which it is ended by a signal
    variables: Mapping[str, str] = dataclasses.field(default_factory=dict)


class Ran(NamedTuple):
    """What a run gave: its status, below 0 where a signal ended it, its text, and what stands on
    standard error; and what it took: seconds of a processor, and bytes of memory at a time."""

    status: int
    text: bytes
    errors: bytes
    seconds: float
    memory: int
    is_late: bool  # it was ended since its time was over


def _prepared(terms: Terms) -> Callable[[], None] | None:
    """What the process does before the program begins. Without it a process begins much sooner."""
    lengths = [it for it in (terms.output, terms.file_most) if isinstance(it, int)]
    limits = [
        (resource.RLIMIT_FSIZE, min(lengths) if lengths else None),
        (resource.RLIMIT_AS, terms.memory),
        (resource.RLIMIT_STACK, terms.stack),
    ]
    is_closed = terms.given is None or terms.output == CLOSED
    if not is_closed and all(most is None for _, most in limits):
        return None

    def prepare() -> None:
        """Runs between fork and exec."""
        if not terms.ends_at_limit:
            signal.signal(signal.SIGXFSZ, signal.SIG_IGN)
        for which, most in limits:
            if most is not None:
                resource.setrlimit(which, (most, most))
        for number, it in ((0, terms.given), (1, terms.output)):
            if it is None and number == 0 or it == CLOSED:
                os.close(number)

    return prepare


class _Output:
    """What the program writes to as standard output, and what comes of it."""

    def __init__(self, terms: Terms) -> None:
        self._file = tempfile.TemporaryFile()
        self._reader: threading.Thread | None = None
        if terms.output == FULL:
            self.end = os.open("/dev/full", os.O_WRONLY)
        elif terms.output is None or terms.output == GONE:
            reading, self.end = os.pipe()
            self._reader = threading.Thread(target=self._read, args=[reading])
            if terms.output == GONE:
                os.close(reading)
                self._reader = None
        else:
            self.end = os.dup(self._file.fileno())

    def _read(self, reading: int) -> None:
        with os.fdopen(reading, "rb") as pipe:
            shutil.copyfileobj(pipe, self._file)

    def begin(self) -> None:
        """Reads what comes, where the program writes to us. This process writes nothing there."""
        os.close(self.end)
        if self._reader:
            self._reader.start()

    def text(self) -> bytes:
        """All that came, when the program is over."""
        if self._reader:
            self._reader.join()
        with self._file:
            self._file.seek(0)
            return self._file.read()


def _input_of(terms: Terms, room: IO[bytes]) -> int:
    """The end of standard input that the program reads from."""
    if isinstance(terms.given, Path):
        return os.open(terms.given, os.O_RDONLY)
    room.write(terms.given or b"")
    room.flush()
    os.lseek(room.fileno(), 0, os.SEEK_SET)
    return os.dup(room.fileno())


def _waited(process: subprocess.Popen[bytes], seconds: float) -> tuple[float, int, bool]:
    """Waits for a process, and tells what it took and whether it was ended here."""
    late = threading.Event()

    def end() -> None:
        """Ends the process, which has had its time."""
        late.set()
        process.kill()

    timer = threading.Timer(seconds, end)
    timer.start()
    try:
        _, status, usage = os.wait4(process.pid, 0)
    finally:
        timer.cancel()
    process.returncode = os.waitstatus_to_exitcode(status)
    return usage.ru_utime + usage.ru_stime, usage.ru_maxrss * 1024, late.is_set()


def run(command: Sequence[str | bytes | Path], folder: Path | str, terms: Terms = Terms()) -> Ran:
    """Runs a program in a folder. The memory it tells is at least that of this Python."""
    output = _Output(terms)
    with tempfile.TemporaryFile() as source, tempfile.TemporaryFile() as errors:
        given = _input_of(terms, source)
        process = subprocess.Popen(
            command,
            stdin=given,
            stdout=output.end,
            stderr=errors,
            cwd=folder,
            env={**os.environ, **terms.variables},
            preexec_fn=_prepared(terms),
        )
        os.close(given)
        output.begin()
        took = _waited(process, terms.seconds)
        errors.seek(0)
        return Ran(process.returncode, output.text(), errors.read(), *took)
