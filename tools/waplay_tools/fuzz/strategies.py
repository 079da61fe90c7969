"""What trials are drawn from. Whole numbers choose a base and its changes, so that hypothesis finds
the least base and the fewest changes that still show a fault."""

import functools
import json
import random
import re
from typing import Any

from hypothesis import strategies as st

from waplay_tools import command_lines, wav_check
from waplay_tools.cases.case import CaseFault, read_case
from waplay_tools.cases.folder import content_of, each_file
from waplay_tools.fuzz import pieces, trees
from waplay_tools.fuzz.trials import FAILING_OUTPUTS, SCRIPT_BYTES, Trial, is_long
from waplay_tools.places import CASES
from waplay_tools.random_scripts.kinds import Asset
from waplay_tools.random_scripts.maker import operations, script_of
from waplay_tools.random_scripts.versions import Versions
from waplay_tools.running import Terms

Base = tuple[bytes, dict[str, Asset]]  # the text of a script, and its assets
MOST_BASE = 6000  # bytes of a base
MANY = 2**20  # random scripts
SCRIPTS = Versions(functools.partial(script_of, read=operations()), None)
GOOD = (0, 3, 7)  # statuses of scripts without a fault
# What a case has that stands for very many calls or samples.
LARGE = re.compile(r'"last": \d{3,}|\[\d{5,}, -?\d+, -?\d+\]')


@functools.cache
def bases() -> list[Base]:
    """The scripts of the cases, the shortest first."""
    found: list[Base] = []
    for path in sorted(CASES.rglob("*.json")):
        if LARGE.search(path.read_text(encoding="utf-8")):
            continue
        try:
            case = read_case(path)
        except CaseFault:
            continue
        text = case.input_bytes() or b""
        if (
            case.script is not None
            and case.status in GOOD
            and len(text) <= MOST_BASE
            and not is_long(text)
        ):
            files: dict[str, Asset] = {
                name: content_of(told) for name, told in each_file(case.files).items()
            }
            found.append((text, files))
    return sorted(found, key=lambda base: len(base[0]))


def random_base(number: int) -> Base:
    """A random script of either version, as tools/random-scripts makes it."""
    script, assets = SCRIPTS(47, number)
    return json.dumps(script).encode(), assets


BASES = st.one_of(
    st.builds(lambda number: bases()[number % len(bases())], st.integers(0, 2000)),
    st.builds(random_base, st.integers(0, MANY)),
)
WHAT = st.integers(0, 2**16)
TREE_CHANGES = st.tuples(st.integers(0, len(trees.CHANGES) - 1), WHAT, WHAT)
BYTE_CHANGES = st.tuples(
    st.integers(0, len(pieces.CHANGES) - 1), st.integers(0, MOST_BASE), st.integers(0, 40), WHAT
)


def worded(given: bytes, assets: dict[str, Asset], terms: Terms = Terms()) -> Trial:
    """The trial of a script, which is only checked where it would take long to render. Some are
    migrated."""
    words = (b"--mode=check", b"out.wav") if is_long(given) else (b"out.wav",)
    words = (b"--mode=migrate", b"out.wav") if len(given) % 4 == 0 else words
    return Trial(given, words, assets, terms)


def of_trees(base: Base, changes: list[tuple[int, int, int]]) -> Trial:
    """A script with changes of its values."""
    tree = trees.tree_of(base[0].decode("utf-8", "surrogatepass"))
    for number, where, what in changes:
        trees.change(tree, number, where, what)
    return worded(trees.text_of(tree), base[1])


def of_bytes(base: Base, changes: list[tuple[int, int, int, int]]) -> Trial:
    """A script with changes of its bytes."""
    data = base[0]
    for one in changes:
        data = pieces.change(data, *one)
    return worded(data, base[1])


def playing(count: int) -> bytes:
    """A script that decodes so many assets, and plays them one after the other."""
    calls: list[dict[str, Any]] = []
    for number in range(count):
        name, source = f"b{number}", f"s{number}"
        calls += [
            {"op": "decodeAudioData", "as": name, "path": f"{number}.wav"},
            {"op": "createBufferSource", "as": source, "buffer": name},
            {"op": "connect", "from": source, "to": "destination"},
            {"op": "start", "node": source, "when": 40 * number},
        ]
    context = {"channels": 2, "length": 40 * count, "rate": 48000}
    whole = {"version": 1, "context": context, "calls": [*calls, {"op": "startRendering"}]}
    return json.dumps(whole).encode()


def made(choice: int, number: int) -> bytes:
    """A WAV file, as tools/wav-check makes it."""
    rng = random.Random(number)
    data = wav_check.made_by_hand(rng, 48000) if choice else wav_check.made_by_wave(rng)
    return data


def of_wav_files(files: list[tuple[int, int, int, list[tuple[int, int, int, int]]]]) -> Trial:
    """Changed WAV files that are decoded and played."""
    assets: dict[str, Asset] = {}
    for number, (choice, seed, times, changes) in enumerate(files):
        data = made(choice, seed)
        for time in range(times):
            data = wav_check.mutated(random.Random(f"{seed} {time}"), data)
        for one in changes:
            data = pieces.change(data, *one)
        assets[f"{number}.wav"] = data
    return Trial(playing(len(assets)), assets=assets)


def of_words(number: int, changes: list[tuple[int, int, int, int, int]]) -> Trial:
    """A random command line with changed words, over one of the inputs of tools/command-lines."""
    words = [*command_lines.line(47, number)]
    given = command_lines.INPUTS[number % len(command_lines.INPUTS)].data
    for which, *one in changes:
        at = which % (len(words) + 1)
        changed = pieces.change(b" ".join(words[at : at + 1]), *one)
        words[at : at + 1] = changed.replace(b"\0", b"").replace(b"/", b"").split(b" ")
    if number % 32 and any(b"gen" in word for word in words):  # a load takes long to render
        words = [word for word in words if b"mode" not in word] + [b"--mode=check"]
    words = [b"out.wav" if word.startswith(b".") else word[:200] for word in words]
    return Trial(given, tuple(words))


def of_streams(base: Base, which: int, number: int) -> Trial:
    """A script whose streams fail, or whose room is short."""
    terms = [
        lambda: Terms(output=number % 700),
        lambda: Terms(file_most=number % 3000),
        lambda: Terms(memory=6 * 2**20 + number * 4096),
        lambda: Terms(output=FAILING_OUTPUTS[number % 3]),
        lambda: Terms(given=None),
    ]
    return worded(*base, terms[which % len(terms)]())


LONG_PARTS = [
    b"[",
    b'{"x":',
    b'"',
    b"9",
    b"[0,",
    b'{"op":"resume"},',
    b" ",
    b"-",
    b"\\",
    b"\\u0061",
    b'"a":1,',
    b"e",
]


def of_large(part: int, power: int, more: int, place: int) -> Trial:
    """A script with a part again and again: as a whole, in a member, in a text or among calls."""
    piece = LONG_PARTS[part % len(LONG_PARTS)]
    times = min(2**power + more, SCRIPT_BYTES // len(piece) + more)
    head = b'{"version":1,"context":{"channels":1,"length":1,"rate":8000},'
    whole, closing = piece * times, {b"[": b"]", b'{"x":': b"0" + b"}" * times}.get(piece, b"")
    closed = closing * times if closing == b"]" else closing
    forms = [
        whole,
        whole + closed,
        head + b'"calls":[],"x":' + whole + closed + b"}",
        head + b'"calls":[],"x":"' + whole + b'"}',
        head + b'"calls":[' + whole + b'{"op":"readTime"}]}',
        head + b'"x":0,' + whole + b'"calls":[]}',
        (head + b'"calls":[]}').ljust(SCRIPT_BYTES + more) if power > 18 else whole,
    ]
    return Trial(forms[place % len(forms)])


def some(changes: st.SearchStrategy[Any], least: int, most: int) -> st.SearchStrategy[list[Any]]:
    """Lists of so many changes."""
    return st.lists(changes, min_size=least, max_size=most)


FILES = st.tuples(
    st.integers(0, 1), st.integers(0, MANY), st.integers(0, 2), some(BYTE_CHANGES, 0, 3)
)
KINDS: dict[str, st.SearchStrategy[Trial]] = {
    "values of scripts": st.builds(of_trees, BASES, some(TREE_CHANGES, 1, 5)),
    "bytes of scripts": st.builds(of_bytes, BASES, some(BYTE_CHANGES, 1, 4)),
    "WAV files": st.builds(of_wav_files, some(FILES, 1, 3)),
    "words": st.builds(of_words, st.integers(0, MANY), some(st.tuples(WHAT, *[WHAT] * 4), 0, 3)),
    "streams and room": st.builds(of_streams, BASES, st.integers(0, 9), st.integers(0, 9999)),
    "large scripts": st.builds(
        of_large, st.integers(0, 99), st.integers(0, 24), st.integers(-1, 1), st.integers(0, 6)
    ),
}
