"""The list crates.txt: the crates of the repository, lowest first, and what each stands on."""

from pathlib import Path

from waplay_tools.places import PROGRAMS
from waplay_tools.reference.scanning import Unreadable

Bases = dict[str, tuple[str, ...]]


def bases_in(top: Path) -> Bases:
    """What each crate stands on, on whatever way: crates of this repository, and ported ones."""
    bases: Bases = {}
    text = (top / "crates.txt").read_text(encoding="utf-8")
    for number, line in enumerate(text.splitlines(), 1):
        if not line.strip() or line.startswith("#"):
            continue
        name, colon, below = line.partition(":")
        if not colon or not (top / "crates" / name).is_dir():
            raise Unreadable(f"crates.txt:{number}: {line!r} names no crate")
        bases[name] = tuple(below.split())
    return bases


def below(name: str, bases: Bases) -> set[str]:
    """The crates of this repository that one stands on, its own not among them."""
    found: set[str] = set()
    left = [name]
    while left:
        for base in bases.get(left.pop(), ()):
            if base in bases and base not in found:
                found.add(base)
                left.append(base)
    return found


def product(bases: Bases) -> set[str]:
    """The crates that the shipped programs are made of, their own among them."""
    programs = {name for name in PROGRAMS if name in bases}
    return programs.union(*(below(name, bases) for name in programs))
