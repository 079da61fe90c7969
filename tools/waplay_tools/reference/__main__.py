"""Makes the reference from the sources, and holds to them what documents say of them."""

import argparse
import sys
from pathlib import Path

from waplay_tools.places import TOP
from waplay_tools.reference import links, parts
from waplay_tools.reference.house import House
from waplay_tools.reference.pages import HEAD, Reference
from waplay_tools.reference.scanning import Unreadable


def read_words() -> argparse.Namespace:
    """The words of the command line."""
    words = argparse.ArgumentParser(prog="tools/reference", description=__doc__)
    words.add_argument(
        "out",
        nargs="?",
        type=Path,
        metavar="FOLDER",
        help="the folder that the pages are written into; the default is `reference` at the top",
    )
    how = words.add_mutually_exclusive_group()
    how.add_argument(
        "--check",
        action="store_true",
        help="write nothing, and say which parts of documents are not what the sources say, "
        "and which links lead nowhere; status 1 where there is one",
    )
    how.add_argument("--write", action="store_true", help="renew these parts in the documents")
    words.add_argument(
        "--top",
        type=Path,
        default=TOP,
        metavar="FOLDER",
        help="the repository whose sources are read; the default is the one of this tool",
    )
    return words.parse_args()


def check(house: House) -> int:
    """Says what in the documents is not as it should be."""
    made = parts.made(house)
    faults = [
        f"{path}: a part that tools/reference makes is not what the sources say"
        for path, text in made.items()
        if (house.top / path).read_text(encoding="utf-8") != text
    ]
    if faults:
        faults.append("tools/reference --write renews such parts")
    faults += links.dead_links(made, house.top)
    Reference(house).text()
    for fault in faults:
        print(fault)
    return 1 if faults else 0


def write(house: House) -> int:
    """Renews the parts of the documents."""
    for path, text in parts.made(house).items():
        if (house.top / path).read_text(encoding="utf-8") != text:
            (house.top / path).write_text(text, encoding="utf-8")
            print(f"renewed {path}")
    return 0


def make(house: House, out: Path) -> int:
    """Writes the pages, and takes away those of an earlier time that are none any more."""
    reference = Reference(house)
    pages = reference.text()
    out.mkdir(parents=True, exist_ok=True)
    index = out / "index.md"
    if index.exists() and index.read_text(encoding="utf-8").startswith(HEAD):
        for path in out.glob("*.md"):
            if path.name not in pages:
                path.unlink()
    for name, text in pages.items():
        (out / name).write_text(text, encoding="utf-8")
    size = sum(len(text.encode()) for text in pages.values())
    counts = ", ".join(f"{count} {what}s" for what, count in reference.counts().items())
    print(f"{out / 'index.md'}: {len(pages)} pages, {size // 1000} KB: {counts}")
    return 0


def main() -> int:
    """Does what the words say."""
    words = read_words()
    try:
        house = House(words.top.resolve())
        if words.check:
            return check(house)
        return write(house) if words.write else make(house, words.out or house.top / "reference")
    except Unreadable as fault:
        print(f"reference: {fault}", file=sys.stderr)
        return 2


if __name__ == "__main__":
    sys.exit(main())
