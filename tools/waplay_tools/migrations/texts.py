"""Random texts of seconds, in scripts that a program migrates."""

import json
import random
import tempfile
from collections.abc import Callable, Iterator
from fractions import Fraction
from pathlib import Path
from typing import Any, NamedTuple

from waplay_tools.expecting.reading import OPERATIONS, RANGES, cause
from waplay_tools.expecting.sessions import file_of, replayed
from waplay_tools.expecting.writing import seconds_of
from waplay_tools.running import Terms, run

MOST_FRAMES = RANGES["time"][1]
AT_ONE_RATE = 500  # texts
SIMPLE_RATES = (8000, 10000, 12500, 16000, 20000, 25000, 32000, 40000, 50000, 62500, 80000)
RATES = (8000, 8001, 11025, 22050, 44100, 48000, 88200, 95999, 96000)
NEARBY = "0123456789.-+eE, \n\0x_\u0661\uff11"


class Texts(NamedTuple):
    """Texts at a rate that one script has. At most one of them has a fault."""

    rate: int
    texts: list[str]

    def script(self) -> bytes:
        """The script: a call for each text, in any of the fields that are a time."""
        rng = random.Random(f"fields {self.rate} {self.texts[0]}")
        places = rng.choices(PLACES, k=len(self.texts))
        calls = [{**call, field: text} for (call, field), text in zip(places, self.texts)]
        context = {"channels": 1, "length": 128, "rate": self.rate}
        return json.dumps({"version": 2, "context": context, "calls": calls}).encode()


def _places() -> Iterator[tuple[dict[str, Any], str]]:
    """The fields that are a time, each with a call that has all that it needs beside it. What the
    call names is nothing, so only what is read of it is looked at."""
    values = {"name": "x", "new name": "x", "fix": 1, "list": [], "time": "0"}
    for op, fields in OPERATIONS.items():
        times = [name for name, kind, *_ in fields if kind == "time"]
        needed = {name: kind for name, kind, *default in fields if times and not default}
        call = {"op": op, **{name: values[kind] for name, kind in needed.items()}}
        yield from ((call, name) for name in times)


PLACES = list(_places())


def decimal(value: Fraction, digits: int) -> str:
    """The value with so many digits behind the point, which are cut off; without a point where
    there are none."""
    number = int(abs(value) * 10**digits)
    whole, rest = divmod(number, 10**digits)
    sign = "-" if value < 0 else ""
    return sign + (f"{whole}.{rest:0{digits}}" if digits else str(whole))


def _any_digits(rng: random.Random, rate: int) -> str:
    """Any digits before and behind the point."""
    most = rng.choice([1, 1, 2, 4, 6, 8, 9, 10])
    before = "".join(rng.choices("0123456789", k=most))
    behind = "".join(rng.choices("0123456789", k=rng.randint(0, 9)))
    return rng.choice(["", "", "-"]) + before + ("." + behind if behind else "")


def _frame(rng: random.Random) -> int:
    """A frame, of any size."""
    return rng.choice([-1, 1, 1]) * rng.randint(0, 2 ** rng.randint(1, 40))


def _written(rng: random.Random, rate: int) -> str:
    """A frame as it is written, or with fewer digits."""
    text = seconds_of(_frame(rng), rate)
    return text[: len(text) - rng.randint(0, 8)] if rng.random() < 0.5 else text


def _half(rng: random.Random, rate: int) -> str:
    """Half a frame more than a frame, or next to it."""
    value = (_frame(rng) + Fraction(1, 2)) / rate
    digits = rng.choice([9, 9, 9, 8, 7, 6])
    return decimal(value + rng.choice([-1, 0, 0, 1]) * Fraction(1, 10**digits), digits)


def _end(rng: random.Random, rate: int) -> str:
    """The last frames that there may be, and next to them."""
    frame = rng.choice([-1, 1]) * (MOST_FRAMES + rng.choice([Fraction(0), Fraction(1, 2)]))
    return decimal(frame / rate + Fraction(rng.randint(-3, 3), 10**9), rng.choice([9, 9, 6, 3]))


def _zeros(rng: random.Random, rate: int) -> str:
    """A text with zeros in front and behind, with a minus or without."""
    sign, *rest = rng.choice(["", "-"]), *_written(rng, rate).lstrip("-").partition(".")
    before, point, behind = rest
    before = before.zfill(rng.randint(1, 10))
    behind = behind.ljust(rng.randint(0, 9), "0") if point else ""
    return sign + before + ("." + behind if behind else "")


def _spoiled(rng: random.Random, rate: int) -> str:
    """A text with a character that is put in, taken away or changed."""
    text = _any_digits(rng, rate)
    place = rng.randint(0, len(text))
    kept = place + rng.choice([0, 1])
    return text[:place] + rng.choice(["", *NEARBY]) + text[kept:]


MAKERS: list[tuple[int, Callable[[random.Random, int], str]]] = [
    (4, _any_digits),
    (6, _written),
    (8, _half),
    (3, _end),
    (3, _zeros),
    (2, _spoiled),
]


def rate_of(rng: random.Random) -> int:
    """A rate: one at which half a frame has few digits, one in use, or any."""
    return rng.choice([rng.choice(SIMPLE_RATES), rng.choice(RATES), rng.randint(8000, 96000)])


def text_of(rng: random.Random, rate: int) -> str:
    """A random text."""
    weights = [often for often, _ in MAKERS]
    return rng.choices([make for _, make in MAKERS], weights)[0](rng, rate)


def _scripts(rng: random.Random, count: int) -> Iterator[Texts]:
    """The scripts of so many texts at one rate."""
    rate, good = rate_of(rng), []
    for text in (text_of(rng, rate) for _ in range(count)):
        if cause(text, "time", rate) is None:
            good.append(text)
        else:
            yield Texts(rate, [*good[-2:], text])
    if good:
        yield Texts(rate, good)


def scripts_of(seed: int, count: int) -> list[Texts]:
    """The scripts of so many random texts."""
    rng, scripts = random.Random(f"seconds {seed}"), []
    for first in range(0, count, AT_ONE_RATE):
        scripts += _scripts(rng, min(AT_ONE_RATE, count - first))
    return scripts


def _found(program: Path, data: bytes) -> tuple[int, bytes, bytes | None]:
    """What a program gives for a script in mode migrate: status, text and file."""
    with tempfile.TemporaryDirectory(prefix="waplay-seconds-") as folder:
        out = Path(folder, "out.json")
        ran = run([program, "--mode", "migrate", out.name], folder, Terms(data))
        return ran.status, ran.text, out.read_bytes() if out.exists() else None


def differences_of_texts(program: Path | None, texts: Texts) -> tuple[str, list[str]]:
    """What differs at a script of texts, under a name for it."""
    data = texts.script()
    status, text, session = replayed(data, is_checked=True)
    wanted = status, text.encode(), file_of(session, "migrate") if session else None
    found = wanted if program is None else _found(program, data)
    names = ("status", "lines", "file")
    wrong = [name for name, one, other in zip(names, wanted, found) if one != other]
    told = json.dumps(texts.texts[-1]) if len(texts.texts) < 4 else f"{len(texts.texts)} texts"
    return f"{told} at {texts.rate}", [f"another {', '.join(wrong)}"] if wrong else []
