"""The pages of the reference, in Markdown: an index, each crate, all names, the operations."""

import dataclasses
import re
from urllib.parse import quote

from waplay_tools.reference import operations
from waplay_tools.reference.citing import (
    Place,
    Scope,
    cited_by_contract,
    cited_by_definition,
    scope_of,
)
from waplay_tools.reference.code import Item
from waplay_tools.reference.definitions import Definition
from waplay_tools.reference.house import CodeFile, Crate, House

TYPES = ("struct", "enum", "trait", "type", "const", "static")
# The ghost members that say how a type is seen, and not what.
HOW_SEEN = ("view", "inverse")
# How the index begins.
HEAD = "# Reference\n"


@dataclasses.dataclass(frozen=True)
class Entry:
    """Something that has a place on a page: a call, a type or a definition."""

    name: str
    what: str
    crate: str
    file: str
    anchor: str

    def link(self, label: str = "") -> str:
        """A link to it, from another page or from its own."""
        return f"[`{label or self.name}`]({self.crate}.md#{quote(self.anchor)})"


@dataclasses.dataclass
class Call:
    """A call that other crates can make, with the definitions that its contract names."""

    entry: Entry
    item: Item
    cites: list[Place]


class Reference:
    """All that the pages are made of."""

    def __init__(self, house: House) -> None:
        self.house = house
        self.entries: list[Entry] = []
        self.definitions: dict[Place, Entry] = {}
        self.calls_by_definition: dict[Place, list[Entry]] = {}
        for name in house.product:
            for file, specs in house.crates[name].specs.items():
                for it in specs.definitions:
                    entry = Entry(
                        it.name, "definition", name, f"specs/{file}.antt", f"{file}.{it.name}"
                    )
                    self.definitions[Place(name, file, it.name)] = entry
        self.entries += self.definitions.values()
        self.pages = {f"{name}.md": CratePage(self, house.crates[name]) for name in house.product}

    def text(self) -> dict[str, str]:
        """The text of each page, by its file's name."""
        pages = {name: page.text() for name, page in self.pages.items()}
        pages["index.md"] = index_page(self.house)
        pages["names.md"] = names_page(self.entries)
        if operations.CRATE in self.house.crates:
            pages["operations.md"] = operations.page(self.house)
        return pages

    def counts(self) -> dict[str, int]:
        """How many entries there are of each sort."""
        counts: dict[str, int] = {}
        for entry in self.entries:
            counts[entry.what] = counts.get(entry.what, 0) + 1
        return counts


class CratePage:
    """The page of a crate."""

    def __init__(self, reference: Reference, crate: Crate) -> None:
        self.reference = reference
        self.house = reference.house
        self.crate = crate
        self.lines: list[str] = []
        self.anchors: set[str] = set()
        for file in crate.code if not crate.is_program() else []:
            self.add_file(file)

    def add(self, *lines: str) -> None:
        """Adds lines, and an empty one behind them."""
        self.lines += [*lines, ""]

    def add_file(self, file: CodeFile) -> None:
        """Adds what a file of code has for other crates."""
        scope = scope_of(self.house, file.uses, str(file.source.path))
        before = len(self.lines)
        for item in file.items:
            if item.is_of_tests():
                continue
            if item.kind == "impl":
                self.add_implementation(file, item, scope)
            elif item.is_public and item.name in self.crate.public and item.kind in (*TYPES, "fn"):
                self.add_item(file, item, scope)
        if len(self.lines) > before:
            self.lines[before:before] = [f"### {file.shown()}", ""]

    def entry(self, file: CodeFile, name: str, what: str) -> Entry:
        """Gives something its place on the page."""
        anchor = f"{what}.{name}"
        self.anchors.add(anchor)
        entry = Entry(name, what, self.crate.name, file.shown(), anchor)
        self.reference.entries.append(entry)
        self.add(f'<a id="{anchor}"></a>', "", f"#### `{name}`")
        return entry

    def add_item(self, file: CodeFile, item: Item, scope: Scope) -> None:
        """Adds an item of a file."""
        if item.kind == "fn":
            self.add_call(file, item, item.name, scope)
            return
        self.entry(file, item.name, "trait" if item.kind == "trait" else "type")
        self.add_comment(item.comment)
        self.add("```rust", *kept_attributes(item), shown_type(item), "```")
        for member in item.members:
            if member.kind == "fn":
                self.add_call(file, member, f"{item.name}::{member.name}", scope)
            elif member.name:
                self.add_comment(member.comment)
                self.add("```rust", f"{member.head};", "```")

    def add_implementation(self, file: CodeFile, item: Item, scope: Scope) -> None:
        """Adds the calls of an implementation, where its type or its trait is for other crates."""
        trait, owner = trait_and_owner(item.head)
        words = set(re.findall(r"\w+", item.head))
        if not words & self.crate.public:
            return
        ghosts = [
            it for it in item.members if it.kind == "ghost" and it.name and it.name not in HOW_SEEN
        ]
        if trait:
            self.add(f"#### `{' '.join(item.head.split())}`")
            if ghosts:
                self.add("```rust", *(f"{it.head};" for it in ghosts), "```")
                self.add_cites(
                    cited_by_contract(self.house, "", [it.head for it in ghosts], scope), None
                )
        for member in item.members:
            if member.kind == "fn" and (member.is_public or trait and member.clauses):
                label = f"{self.shown_owner(owner, member.name)}::{member.name}"
                self.add_call(file, member, f"{label} of {trait}" if trait else label, scope)

    def shown_owner(self, owner: str, name: str) -> str:
        """A type as its call is named by it: in short, unless it has the call for others too."""
        short = re.split(r"[<\s]", owner)[0]
        return owner if f"call.{short}::{name}" in self.anchors else short

    def add_call(self, file: CodeFile, item: Item, name: str, scope: Scope) -> None:
        """Adds a function with its contract."""
        entry = self.entry(file, name, "call")
        self.add_comment(item.comment)
        clauses = [f"    {line}" for it in item.clauses for line in it.shown().split("\n")]
        self.add("```rust", *kept_attributes(item), item.head, *clauses, "```")
        self.add_cites(
            cited_by_contract(self.house, item.head, [it.text for it in item.clauses], scope), entry
        )

    def add_cites(self, places: list[Place], entry: Entry | None) -> None:
        """Adds a line with the definitions that a contract names."""
        if entry:
            for place in places:
                self.reference.calls_by_definition.setdefault(place, []).append(entry)
        links = [
            self.reference.definitions[it].link()
            for it in places
            if it in self.reference.definitions
        ]
        if links:
            self.add(f"Names {', '.join(links)}.")

    def add_comment(self, comment: str) -> None:
        """Adds a comment, where there is one."""
        if comment:
            self.add(*comment.splitlines())

    def text(self) -> str:
        """The page."""
        calls, self.lines = self.lines, []
        self.add(f"# {self.crate.name}")
        self.add(*self.crate.about.splitlines())
        self.add(f"[All crates](index.md), [all names](names.md). {self.standing()}")
        for crate, name in self.crate.borrowed:
            self.add(f"It hands on `{name}` of {crate_link(self.house, crate)}.")
        if calls:
            self.add("## Calls and types")
            self.lines += calls
        if self.crate.specs:
            self.add("## Definitions")
        for file in self.crate.specs:
            self.add_definitions(file)
        return "\n".join(self.lines).rstrip() + "\n"

    def standing(self) -> str:
        """What the crate stands on, in a sentence."""
        direct = self.house.direct_bases(self.crate.name)
        indirect = [it for it in self.crate.bases if it not in direct]
        if not direct:
            return "It stands on std alone."
        through = f", and through these on {crate_links(self.house, indirect)}" if indirect else ""
        return f"It stands on {crate_links(self.house, direct)}{through}."

    def add_definitions(self, file: str) -> None:
        """Adds the definitions of a file."""
        specs = self.crate.specs[file]
        self.add(f"### specs/{file}.antt")
        self.add_comment(specs.comment)
        scope = scope_of(self.house, specs.uses, str(specs.path))
        scope |= {it.name: Place(self.crate.name, file, it.name) for it in specs.definitions}
        section = ""
        for definition in specs.definitions:
            if definition.section != section:
                section = definition.section
                self.add(f"*{section[:1].upper()}{section[1:]}*")
            self.add_definition(definition, Place(self.crate.name, file, definition.name), scope)

    def add_definition(self, definition: Definition, place: Place, scope: Scope) -> None:
        """Adds a definition."""
        links = self.reference.definitions
        self.add(f'<a id="{links[place].anchor}"></a>', "", f"#### `{definition.name}`")
        self.add_comment(definition.comment)
        module = [f"module _ {definition.of_module} where"] if definition.of_module else []
        self.add("```", *module, definition.text, "```")
        names = [
            links[it].link()
            for it in cited_by_definition(self.house, definition, scope, place)
            if it in links
        ]
        calls = [it.link() for it in self.reference.calls_by_definition.get(place, [])]
        if names:
            self.add(f"Names {', '.join(names)}.")
        if calls:
            self.add(f"In the contracts of {', '.join(dict.fromkeys(calls))}.")


def trait_and_owner(head: str) -> tuple[str, str]:
    """The trait of an implementation, empty where there is none, and the type that it is of."""
    text = " ".join(head.split())[len("impl") :].strip()
    if text.startswith("<"):
        depth = 0
        for at, letter in enumerate(text):
            depth += {"<": 1, ">": -1}.get(letter, 0)
            if not depth:
                text = text[at + 1 :].strip()
                break
    trait, _, owner = text.rpartition(" for ")
    return trait.strip(), owner.strip()


def kept_attributes(item: Item) -> list[str]:
    """The attributes that a reader of the crate wants: what is derived."""
    return [it for it in item.attributes if it.startswith("#[derive")]


def shown_type(item: Item) -> str:
    """A type as other crates see it: without the fields that are its own."""
    if item.kind == "trait" or not item.body:
        return item.head + ("" if item.kind == "trait" else ";")
    if item.kind == "enum" or item.body.startswith("("):
        return f"{item.head} {item.body}"
    parts = re.split(r"\n(?=\s*(?:///|pub |ghost |[a-z_]\w*: ))", item.body[1:-1].rstrip())
    kept: list[str] = []
    comment: list[str] = []
    for part in parts:
        if part.strip().startswith("///"):
            comment.append(part)
        else:
            if part.strip().startswith(("pub ", "ghost ")):
                kept += [*comment, part]
            comment = []
    if len([it for it in parts if it.strip()]) > len(kept):
        kept.append("    // and fields of its own")
    return "\n".join([f"{item.head} {{", *(it.strip("\n") for it in kept if it.strip()), "}"])


def crate_link(house: House, name: str) -> str:
    """A crate's name, with a link where it has a page."""
    return f"[`{name}`]({name}.md)" if name in house.product else f"`{name}`"


def crate_links(house: House, names: list[str]) -> str:
    """The names of crates."""
    return ", ".join(crate_link(house, it) for it in names)


def one_line(text: str) -> str:
    """A comment's first paragraph on one line, as a cell of a table takes it."""
    return " ".join(text.split("\n\n")[0].split()).replace("|", "\\|")


def index_page(house: House) -> str:
    """The page that the others hang on."""
    lines = [
        HEAD.strip(),
        "",
        "Made from the sources by `tools/reference`. Each crate has a page: its calls and types "
        "with their contracts, and the definitions that the contracts name.",
        "",
        "[All names](names.md). [The operations of a script](operations.md).",
        "",
        "## The crates of the programs, the lowest first",
        "",
        "| crate | what it is | stands on |",
        "|---|---|---|",
    ]
    for name in house.product:
        bases = crate_links(house, house.direct_bases(name)) or "std alone"
        lines.append(
            f"| {crate_link(house, name)} | {one_line(house.crates[name].about)} | {bases} |"
        )
    lines += ["", "## Beside the programs", "", "| crate | what it is |", "|---|---|"]
    lines += [
        f"| `{name}` | {one_line(crate.about)} |"
        for name, crate in house.crates.items()
        if name not in house.product
    ]
    return "\n".join(lines) + "\n"


def names_page(entries: list[Entry]) -> str:
    """All names, in the order of the alphabet."""
    lines = [
        "# All names",
        "",
        "[All crates](index.md).",
        "",
        "| name | what | where |",
        "|---|---|---|",
    ]
    for it in sorted(entries, key=lambda it: (it.name.casefold(), it.name, it.crate, it.file)):
        lines.append(f"| {it.link()} | {it.what} | `{it.crate}/{it.file}` |")
    return "\n".join(lines) + "\n"
