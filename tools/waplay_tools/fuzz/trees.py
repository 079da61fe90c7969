"""Scripts as trees whose numbers, texts and repeated members are written as they stand, and changes
of such trees. A change is told by whole numbers, so that what is drawn can get smaller."""

import copy
import json
from collections.abc import Callable, Iterator
from typing import Any

ONE = 2**24
MANY_PLACES = 3000  # of a tree that does not get much larger


class Written(str):
    """A value as it is written in JSON, be it good or not."""


class Pairs(list):
    """The members of an object: lists of a name and a value, repeated ones too."""


class Nested:
    """A value within so many arrays or objects, one in another."""

    def __init__(self, depth: int, is_object: bool, value: Any) -> None:
        self.depth, self.is_object, self.value = depth, is_object, value


Place = tuple[list, int]  # what holds a value, and where

_POWERS = [2**power + more for power in (7, 8, 24, 25, 26, 28, 31, 40) for more in (-1, 0, 1)]
_FAR = [2**power + more for power in (32, 63, 64) for more in (-1, 0, 1)]
_SMALL = [0, 1, 2, 3, 20, 21, 31, 32, 33, 7999, 8000, 48000, 96000, 96001, *_POWERS]
NUMBERS = [*map(str, _SMALL), *(f"-{it}" for it in [1, 2, *_POWERS])]
FAULTY_NUMBERS = [
    *map(str, _FAR),
    *(f"-{it}" for it in [0, *_FAR]),
    *"1.0 1e2 0.5 -0.0 1e308 1e309 1e400 -1e400 1e-400 1E+2 16777216.0".split(),
    *"00 01 +1 .5 5. 0x10 NaN -Infinity 1_000 --1 1e".split(),
    "1" * 400,
]
TEXTS = [
    *(f'"{"x" * length}"' for length in (0, 1, 64, 65, 255, 256)),
    *(f'"{word}"' for word in "destination max k-rate a-rate explicit discrete 2x none".split()),
    *(r'"\ud800"', r'"\udc00\ud800"', r'"\ud83d\ude00"', r'"\u0000"', r'"\x"', r'"\u00"'),
    *('"\x01"', '"\u00e9"', '"\\u00e9"', '"a b"', "'c'", '"../beside"', '"/dev/zero"', '"."'),
    *(f'"{it}"' for it in ("in", "drop", "add", "dup", "skip 1", "skipz 1", "skip 2147483647")),
    *(f'"{it}"' for it in ("load 15", "store 16", "div 0", "push -0", "push -2147483648")),
    *(f'"{it}"' for it in ("load -0", "push 2147483648", "push +1", "push  1", "in ", "push 007")),
    *(f'"{it}"' for it in ("0", "-0", "0.5", "-0.0000625", "137438953.472", "137438953.473", "1.")),
    *(f'"{it}"' for it in ("1e3", ".5", "+1", "-", "9999999999", "00000000000", "0.1234567890")),
]
OTHERS = [
    "null",
    "true",
    "false",
    "[]",
    "{}",
    "[null]",
    "[[]]",
    "[1,]",
    "{,}",
    "nul",
    "",
    "[2147483648,null]",
]
DEPTHS = [1, 2, 3, 60, 61, 62, 120, 121, 122, 123, 124, 125, 126, 127, 128, 1000, 100000]


def tree_of(text: str) -> Any:
    """The tree of a script."""
    return json.loads(
        text,
        object_pairs_hook=lambda pairs: Pairs(map(list, pairs)),
        parse_int=Written,
        parse_float=Written,
    )


def _parts_of(value: Any) -> Iterator[str]:
    if isinstance(value, Written):
        yield value
    elif isinstance(value, Nested):
        opening, closing = ('{"x":', "}") if value.is_object else ("[", "]")
        yield opening * value.depth
        yield from _parts_of(value.value)
        yield closing * value.depth
    elif isinstance(value, list):
        opening, closing = ("{", "}") if isinstance(value, Pairs) else ("[", "]")
        yield opening
        for number, it in enumerate(value):
            yield "," if number else ""
            if isinstance(value, Pairs):
                yield from _parts_of(it[0])
                yield ":"
            yield from _parts_of(it[1] if isinstance(value, Pairs) else it)
        yield closing
    else:
        yield json.dumps(value)


def text_of(tree: Any) -> bytes:
    """The text that a tree stands for."""
    return "".join(_parts_of(tree)).encode("utf-8", "surrogatepass")


def places_in(value: Any) -> Iterator[Place]:
    """All places below a value, in the order of the text."""
    if isinstance(value, list):
        for at, it in enumerate(value):
            yield value, at
            yield from places_in(it[1] if isinstance(value, Pairs) else it)


def value_at(place: Place) -> Any:
    """What stands at a place."""
    holder, at = place
    return holder[at][1] if isinstance(holder, Pairs) else holder[at]


def put_at(place: Place, value: Any) -> None:
    """Puts a value at a place."""
    holder, at = place
    if isinstance(holder, Pairs):
        holder[at] = [holder[at][0], value]
    else:
        holder[at] = value


def _written(choices: list[str]) -> Callable[[Place, int, list[Place]], None]:
    return lambda place, what, _: put_at(place, Written(choices[what % len(choices)]))


def _near(place: Place, what: int, _: list[Place]) -> None:
    value = value_at(place)
    if isinstance(value, Written) and value.removeprefix("-").isdigit() and len(value) < 30:
        put_at(place, Written(str(int(value) + (1, -1, ONE, -ONE)[what % 4])))


def _as_another(place: Place, what: int, places: list[Place]) -> None:
    put_at(place, copy.deepcopy(value_at(places[what % len(places)])))


def _alike(place: Place, what: int, places: list[Place]) -> None:
    """Puts a value of a member of the same name, or of another item, in its place."""
    holder, at = place
    if not isinstance(holder, Pairs):
        put_at(place, copy.deepcopy(holder[what % len(holder)]))
        return
    same = [it for it in places if isinstance(it[0], Pairs) and it[0][it[1]][0] == holder[at][0]]
    put_at(place, copy.deepcopy(value_at(same[what % len(same)])))


def _out(place: Place, _: int, __: list[Place]) -> None:
    del place[0][place[1]]


def _again(place: Place, what: int, places: list[Place]) -> None:
    holder, at = place
    times = (1, 1, 2, 30)[what % 4] if len(places) < MANY_PLACES else 1
    holder[at:at] = [copy.deepcopy(holder[at]) for _ in range(times)]


def _swapped(place: Place, what: int, _: list[Place]) -> None:
    holder, at = place
    other = what % len(holder)
    holder[at], holder[other] = holder[other], holder[at]


def _moved(place: Place, what: int, places: list[Place]) -> None:
    holder, at = place
    other, there = places[what % len(places)]
    if isinstance(holder, Pairs) == isinstance(other, Pairs):
        other.insert(there, holder.pop(at))


def _nested(place: Place, what: int, _: list[Place]) -> None:
    depth = DEPTHS[what // 2 % len(DEPTHS)]
    put_at(place, Nested(depth, bool(what % 2), value_at(place)))


def _renamed(place: Place, what: int, places: list[Place]) -> None:
    holder, at = place
    names = [holder[at][0] for holder, at in places if isinstance(holder, Pairs)]
    if isinstance(holder, Pairs):
        holder[at] = [names[what % len(names)], holder[at][1]]


# The changes of a place. Those that leave a script without a fault are there more than once.
CHANGES: list[Callable[[Place, int, list[Place]], None]] = [
    *[_near, _alike, _again, _swapped, _written(NUMBERS)] * 3,
    *[_moved, _out, _as_another] * 2,
    _written(TEXTS),
    _written(FAULTY_NUMBERS),
    _written(OTHERS),
    _nested,
    _renamed,
]


def change(tree: Any, change_number: int, where: int, what: int) -> None:
    """Makes a change at a place of a tree, where it has any."""
    places = list(places_in(tree))
    if places:
        CHANGES[change_number % len(CHANGES)](places[where % len(places)], what, places)
