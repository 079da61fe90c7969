"""Replays scripts with a program, here or on another machine.

What stands here is sent to the workers of a cluster as it is, so it needs the standard library
alone.
"""

import dataclasses
import errno
import hashlib
import os
import subprocess
import tempfile
import time

LIMIT = 600  # seconds that one replay may take
TRIES = 20  # to start a program that was written a moment ago


@dataclasses.dataclass
class Kept:
    """A context as it is kept: the digests of its transcript and of its WAV file, if it has one."""

    number: int
    transcript: str
    sound: str | None


@dataclasses.dataclass
class Task:
    """Scripts to replay. Their files are in a folder, or are given by their names."""

    contexts: list[Kept]
    folder: str | None = None
    files: dict[str, bytes] = dataclasses.field(default_factory=dict)


@dataclasses.dataclass
class Outcome:
    """What came of a replay: its transcript and its WAV file where they are other ones than those
    that are kept, and a reason where it could not be run."""

    number: int
    transcript: bytes | None = None
    sound: bytes | None = None
    has_sound: bool = False
    reason: str = ""


def _digest(data: bytes) -> str:
    """The SHA-256 of bytes."""
    return hashlib.sha256(data).hexdigest()


def _started(program: str, script: bytes, folder: str, out: str) -> "subprocess.CompletedProcess":
    """Runs a program over a script. One that was just written may be busy for a moment."""
    for left in range(TRIES, 0, -1):
        try:
            return subprocess.run([program, out], input=script, capture_output=True, cwd=folder,
                                  timeout=LIMIT, check=False)
        except OSError as fault:
            if fault.errno != errno.ETXTBSY or left == 1:
                raise
            time.sleep(0.05)
    raise AssertionError("there is a try at least")


def replay(program: str, script: bytes, folder: str) -> tuple[bytes, bytes | None]:
    """The transcript of a script, and its WAV file if it wrote one. Its assets are in the
    folder."""
    with tempfile.TemporaryDirectory(prefix="waplay-") as room:
        out = os.path.join(room, "out.wav")
        run = _started(program, script, folder, out)
        if not os.path.isfile(out):
            return run.stdout, None
        with open(out, "rb") as file:
            return run.stdout, file.read()


def _outcome(program: str, kept: Kept, folder: str) -> Outcome:
    """What comes of one context."""
    made = Outcome(kept.number)
    try:
        with open(os.path.join(folder, f"{kept.number}.json"), "rb") as file:
            script = file.read()
        transcript, sound = replay(program, script, folder)
    except subprocess.TimeoutExpired:
        made.reason = f"the program took more than {LIMIT} seconds"
        return made
    except OSError as fault:
        made.reason = f"the program can't be run: {fault.strerror}"
        return made
    made.has_sound = sound is not None
    if _digest(transcript) != kept.transcript:
        made.transcript = transcript
    if sound is not None and _digest(sound) != kept.sound:
        made.sound = sound
    return made


def perform(task: Task, program: str | bytes) -> list[Outcome]:
    """Replays the scripts of a task with a program: its path, or what it is."""
    with tempfile.TemporaryDirectory(prefix="waplay-") as room:
        folder = task.folder
        if folder is None:
            folder = os.path.join(room, "files")
            for name, data in task.files.items():
                path = os.path.join(folder, name)
                os.makedirs(os.path.dirname(path), exist_ok=True)
                with open(path, "wb") as file:
                    file.write(data)
        path = program if isinstance(program, str) else os.path.join(room, "waplay")
        if isinstance(program, bytes):
            with open(path, "wb") as file:
                file.write(program)
            os.chmod(path, 0o755)
        return [_outcome(path, kept, folder) for kept in task.contexts]
