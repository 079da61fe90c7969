"""Compares what a program gives for scripts with the second calculation."""

import collections
import json
import multiprocessing
import os
import shutil
import subprocess
import tempfile
from collections.abc import Callable
from pathlib import Path

from waplay_tools.expecting.sessions import replayed, wav_bytes
from waplay_tools.places import EXAMPLES
from waplay_tools.random_scripts.answers import answers_of, wanted_answers
from waplay_tools.random_scripts.assets import put_assets
from waplay_tools.random_scripts.kinds import Assets, Script
from waplay_tools.random_scripts.maker import operations

# The script of a seed and a number, and its assets.
Of = Callable[[int, int], tuple[Script, Assets]]

SECONDS = 600  # for one run of a program


def read_by(program: Path, wanted: list[str]) -> list[str]:
    """Which of these operations the program reads."""
    read = []
    context = {"channels": 1, "length": 1, "rate": 8000}
    for op in wanted:
        script = json.dumps({"version": 1, "context": context, "calls": [{"op": op}]}).encode()
        ran = subprocess.run(
            [program, os.devnull], input=script, stdout=subprocess.PIPE, check=False
        )
        if ran.stdout != b"script: 1 op UnknownOp\n":
            read.append(op)
    return read


def enter(work: str) -> None:
    """Goes to a folder of its own, beside which is a file that no path may lead to."""
    shutil.copyfile(EXAMPLES / "bell.wav", os.path.join(work, "beside.wav"))
    os.mkdir(os.path.join(work, str(os.getpid())))
    os.chdir(os.path.join(work, str(os.getpid())))


def differences(program: Path, script: Script) -> tuple[list[str], str]:
    """What differs at a script whose assets are here, and its transcript."""
    data = json.dumps(script).encode()
    status, text, session = replayed(data)
    out = Path("out.wav")
    out.unlink(missing_ok=True)
    command = [program, out]
    ran = subprocess.run(command, input=data, stdout=subprocess.PIPE, timeout=SECONDS, check=False)
    found = out.read_bytes() if out.exists() else None
    wrong = []
    if ran.returncode != status:
        wrong.append(f"status {ran.returncode}")
    if ran.stdout != text.encode():
        wrong.append("transcript")
    if found != (wav_bytes(session) if session and status == 0 else None):
        wrong.append("WAV file")
    return wrong, text


def compared(job: tuple[Path, Of, int, int]) -> tuple[int, list[str], collections.Counter]:
    """The number of a script, what differs at it, and how often each answer came up."""
    program, script_of, seed, number = job
    try:
        script, assets = script_of(seed, number)
        put_assets(assets)
        wrong, text = differences(program, script)
        answers = collections.Counter(answers_of(script, text))
    except Exception as error:
        wrong, answers = [f"no comparison: {error!r}"], collections.Counter()
    return number, wrong, answers


def tell_missing(answers: collections.Counter, read: list[str]) -> None:
    """Prints which answers did not come up, and which operations could not."""
    for answer in wanted_answers(read):
        if answer not in answers:
            print(f"     none {answer}")
    for op in operations():
        if op not in read:
            print(f"{op} is not read by this program, and is in no script")


def compare(
    program: Path, script_of: Of, seed: int, count: int, jobs: int
) -> tuple[int, collections.Counter[str]]:
    """Compares so many scripts of a seed, tells what differs and how often each answer came up. It
    gives the number of scripts that differ, and the answers."""
    wrong = 0
    answers: collections.Counter[str] = collections.Counter()
    with tempfile.TemporaryDirectory() as work, multiprocessing.Pool(jobs, enter, [work]) as pool:
        asked = ((program, script_of, seed, number) for number in range(count))
        for number, different, seen in pool.imap_unordered(compared, asked, 20):
            answers.update(seen)
            if different:
                wrong += 1
                print(f"script {number} of seed {seed}: {', '.join(different)}", flush=True)
    for answer, often in answers.most_common():
        print(f"{often:9} {answer}")
    return wrong, answers
