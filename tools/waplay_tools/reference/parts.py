"""The parts of written documents that are made from the sources, between two marks.

    <!-- made by tools/reference: operations -->
    .. a table ..
    <!-- end -->

Behind the colon stands what is made: a word of PARTS, and what it is told.
"""

import re
from collections.abc import Callable
from pathlib import Path

from waplay_tools.reference import operations, picture
from waplay_tools.reference.code import Item
from waplay_tools.reference.house import House
from waplay_tools.reference.pages import one_line
from waplay_tools.reference.scanning import Unreadable

BEGIN = re.compile(r"<!-- made by tools/reference: ([^>\n]*?) -->\n")
END = "<!-- end -->"
DOCUMENTS = ("*.md", "docs/*.md", "tests/*.md", "recorder/*.md", "examples/*.md", "tools/*.md")
PICTURE = Path("docs/pictures/crates.svg")


def crates_table(house: House) -> list[str]:
    """The crates of the programs: what each is, and what it stands on."""
    lines = ["| crate | what it is | stands on |", "|---|---|---|"]
    for name in house.product:
        bases = ", ".join(f"`{it}`" for it in house.direct_bases(name)) or "std alone"
        lines.append(f"| `{name}` | {one_line(house.crates[name].about)} | {bases} |")
    return lines


def beside_table(house: House) -> list[str]:
    """The crates that no program stands on."""
    beside = [it for it in house.crates.values() if it.name not in house.product]
    return [
        "| crate | what it is |",
        "|---|---|",
        *(f"| `{it.name}` | {one_line(it.about)} |" for it in beside),
    ]


def definition_text(house: House, crate: str, file: str, *names: str) -> list[str]:
    """Definitions of a file as they stand, each with its comment, below the path of the file."""
    lines = ["```text", f"-- crates/{crate}/specs/{file}.antt"]
    for name in names:
        definition = house.definition(crate, file, name)
        if not definition:
            raise Unreadable(f"crates/{crate}/specs/{file}.antt: {name} is no definition")
        comment = [f"-- {it}" for it in definition.comment.splitlines()]
        lines += ["", *comment, *definition.text.splitlines()]
    return [*lines, "```"]


def contract_text(house: House, crate: str, name: str, *clauses: str) -> list[str]:
    """The signature of a function, with the clauses that are named, or with all."""
    found = [it for it in functions_of(house, crate) if it.name == name]
    if len(found) != 1:
        raise Unreadable(f"crates/{crate}: {len(found)} functions are called {name}")
    kept = [it for it in found[0].clauses if not clauses or it.name in clauses]
    if len(kept) < len(clauses):
        raise Unreadable(f"crates/{crate}: {name} has not all of the clauses {', '.join(clauses)}")
    lines = [line for it in kept for line in it.shown().splitlines()]
    return ["```text", found[0].head, *(f"    {it}" for it in lines), "```"]


def functions_of(house: House, crate: str) -> list[Item]:
    """The functions of a crate that stand by themselves and are not of tests."""
    items = [it for file in house.crates[crate].code for it in file.items]
    return [it for it in items if it.kind == "fn" and not it.is_of_tests()]


PARTS: dict[str, Callable[..., list[str]]] = {
    "operations": operations.fields_table,
    "left-out": operations.left_out_table,
    "crates": crates_table,
    "crates-beside": beside_table,
    "definition": definition_text,
    "contract": contract_text,
}


def part(house: House, told: str, where: str) -> str:
    """The text of a part."""
    word, *rest = told.split()
    if word not in PARTS:
        raise Unreadable(f"{where}: no part is called {word}; there are {', '.join(PARTS)}")
    try:
        return "\n".join(PARTS[word](house, *rest)) + "\n"
    except (TypeError, KeyError) as error:
        raise Unreadable(f"{where}: {told}: {error}") from error


def renewed(house: House, text: str, where: str) -> str:
    """A document whose parts are what the sources say."""
    done, at = [], 0
    for begin in BEGIN.finditer(text):
        end = text.find(END, begin.end())
        if end < 0 or BEGIN.search(text, begin.end(), end):
            raise Unreadable(f"{where}: {END} is wanted behind the part {begin[1]}")
        done += [text[at : begin.end()], part(house, begin[1], where)]
        at = end
    return "".join(done) + text[at:]


def made(house: House) -> dict[Path, str]:
    """What each document, and the picture of the crates, is to hold, by its path from the top."""
    texts = {}
    for pattern in DOCUMENTS:
        for path in sorted(house.top.glob(pattern)):
            where = path.relative_to(house.top)
            texts[where] = renewed(house, path.read_text(encoding="utf-8"), str(where))
    if (house.top / PICTURE).exists():
        texts[PICTURE] = picture.svg(house)
    return texts
