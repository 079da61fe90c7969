"""Reading the code of a crate: its items, with their comments and contracts.

This is no whole reader of Rust. It goes from item to item, knows where each ends, and passes over
the bodies of functions. What it does not know it refuses.
"""

import dataclasses
import itertools
import re
from collections.abc import Iterator

from waplay_tools.reference.scanning import Source, dedented

WORD = re.compile(r"[A-Za-z_][A-Za-z0-9_]*")
COMMENT = re.compile(r"(//[/!]?) ?([^\n]*)\n?")
VISIBILITY = re.compile(r"pub(\([a-z ]+\))?\s+")
QUALIFIERS = re.compile(r"(?:(?:const|unsafe)\s+(?=fn\b))*")
KIND = re.compile(
    r"(fn|struct|enum|trait|impl|const|static|type|use|mod|ghost|macro_rules!)(?![A-Za-z0-9_])"
)
CLAUSE = re.compile(r"(requires|ensures|ghost)(\*?)\s*([a-z_][A-Za-z0-9_]*:?)?\s*(?=\{)")
CLAUSE_OR_BODY = re.compile(r"(?<![A-Za-z0-9_])(?:requires|ensures|ghost)(?![A-Za-z0-9_])|\{|;")
BODY_OR_END = re.compile(r"\{|;")
END = re.compile(r";")


@dataclasses.dataclass
class Clause:
    """A clause of a contract: `requires`, `ensures` or `ensures*`, its name and what it says; or
    `ghost`, the name of what only contracts see with a colon, and its type."""

    word: str
    name: str
    text: str

    def shown(self) -> str:
        """The clause as the code has it."""
        named = f"{self.word} {self.name}".rstrip()
        return f"{named} {{ {self.text} }}"


@dataclasses.dataclass
class Item:
    """An item of a file, of a trait or of an implementation."""

    kind: str
    name: str
    head: str  # its text, without contract and body
    comment: str
    is_public: bool
    attributes: list[str]
    clauses: list[Clause] = dataclasses.field(default_factory=list)
    members: list["Item"] = dataclasses.field(default_factory=list)
    body: str = ""  # with its brackets; of a function it is left out
    line: int = 0

    def is_of_tests(self) -> bool:
        """Whether it is there for tests alone."""
        return any("cfg(test)" in it or it == "#[test]" for it in self.attributes)


def file_comment(text: str) -> str:
    """The `//!` comment at the top of a file."""
    lines = itertools.takewhile(lambda line: line.startswith("//!"), text.splitlines())
    return "\n".join(line[3:].strip() for line in lines)


def items_of(source: Source) -> list[Item]:
    """The items of a file."""
    return list(items_between(source, 0, len(source.text)))


def items_between(source: Source, at: int, end: int) -> Iterator[Item]:
    """The items from one place to before another."""
    while True:
        comment, attributes, at = leading(source, at, end)
        if at >= end:
            return
        item, at = item_at(source, at, comment, attributes)
        yield item


def leading(source: Source, at: int, end: int) -> tuple[str, list[str], int]:
    """What stands before an item: its comment, its attributes, and the place at which it begins.

    Where there are both, the comment for readers of the crate counts, and not the plain one. A
    plain one counts only where it stands right before the item.
    """
    docs: list[str] = []
    plain: list[str] = []
    attributes: list[str] = []
    text = source.text
    while True:
        begin = source.past_blanks(at)
        if "\n\n" in text[max(at - 1, 0) : begin]:
            plain = []
        at = begin
        if at >= end:
            return "", attributes, end
        comment = COMMENT.match(text, at)
        if comment:
            kept = docs if comment[1] == "///" else plain if comment[1] == "//" else []
            kept.append(comment[2].rstrip())
            at = comment.end(2)
        elif text[at] == "#":
            close = source.past_brackets(text.index("[", at))
            attributes.append(text[at:close])
            at = close
        else:
            return "\n".join(docs or plain), attributes, at


def item_at(source: Source, at: int, comment: str, attributes: list[str]) -> tuple[Item, int]:
    """The item that begins at a place, and the place behind it."""
    text, begin = source.text, at
    shown = VISIBILITY.match(text, at)
    at = shown.end() if shown else at
    qualifiers = QUALIFIERS.match(text, at)
    at = qualifiers.end() if qualifiers else at
    kind = KIND.match(text, at)
    if not kind:
        raise source.fault(at, f"no item is known that begins with {text[at:at + 20]!r}")
    item = Item(
        kind=kind[1],
        name="",
        head="",
        comment=comment,
        attributes=attributes,
        is_public=shown is not None and not shown[1],
        line=source.line_at(begin),
    )
    reader = READERS[kind[1]]
    return item, reader(source, begin, kind.end(), item)


def indent_at(source: Source, at: int) -> int:
    """How far the line of a place is indented."""
    begin = source.text.rfind("\n", 0, at) + 1
    line = source.text[begin:].partition("\n")[0]
    return len(line) - len(line.lstrip(" "))


def take_head(source: Source, begin: int, end: int) -> str:
    """The text from one place to another, as it would stand without indentation."""
    return dedented(source.text[begin:end], indent_at(source, begin))


def named(source: Source, at: int, item: Item) -> None:
    """Gives an item the name that comes next."""
    word = WORD.match(source.text, source.past_blanks(at))
    if not word:
        raise source.fault(at, f"a {item.kind} without a name")
    item.name = word[0]


def read_function(source: Source, begin: int, at: int, item: Item) -> int:
    """Reads a function: its signature and its contract. Its body is passed over."""
    named(source, at, item)
    at = source.find(CLAUSE_OR_BODY, at)
    item.head = take_head(source, begin, at)
    text = source.text
    while text[at] not in "{;":
        comment = COMMENT.match(text, at)
        clause = CLAUSE.match(text, at)
        if comment:
            at = comment.end()
        elif clause:
            close = source.past_brackets(clause.end())
            inside = dedented(text[clause.end() + 1 : close - 1], indent_at(source, at))
            item.clauses.append(Clause(clause[1] + clause[2], clause[3] or "", inside.strip()))
            at = close
        else:
            raise source.fault(at, "neither a clause of a contract nor a body")
        at = source.past_blanks(at)
    return source.past_brackets(at) if text[at] == "{" else at + 1


def read_with_body(source: Source, begin: int, at: int, item: Item) -> int:
    """Reads a struct or an enum, with its body as it stands."""
    named(source, at, item)
    at = source.find(BODY_OR_END, at)
    item.head = take_head(source, begin, at)
    if source.text[at] == ";":
        return at + 1
    close = source.past_brackets(at)
    item.body = take_head(source, at, close)
    return close


def read_with_members(source: Source, begin: int, at: int, item: Item) -> int:
    """Reads a trait or an implementation, with its members."""
    if item.kind == "trait":
        named(source, at, item)
    at = source.find(BODY_OR_END, at)
    item.head = take_head(source, begin, at)
    close = source.past_brackets(at)
    item.members = list(items_between(source, at + 1, close - 1))
    return close


def read_line(source: Source, begin: int, at: int, item: Item) -> int:
    """Reads an item up to its semicolon: a constant, a type, a `use`, a ghost member."""
    if item.kind in ("const", "static", "type"):
        named(source, at, item)
    elif item.kind == "ghost" and not source.text.startswith("use", source.past_blanks(at)):
        named(source, at, item)
    at = source.find(END, at)
    item.head = take_head(source, begin, at)
    return at + 1


def read_module(source: Source, begin: int, at: int, item: Item) -> int:
    """Reads a module. What it holds, where it stands here, is passed over: only tests do so."""
    named(source, at, item)
    at = source.find(BODY_OR_END, at)
    item.head = take_head(source, begin, at)
    if source.text[at] == ";":
        return at + 1
    if not item.is_of_tests():
        raise source.fault(begin, f"the module {item.name} has its items here, and is not of tests")
    return source.past_brackets(at)


def read_macro(source: Source, begin: int, at: int, item: Item) -> int:
    """Passes over a macro, which no other crate sees."""
    named(source, at, item)
    return source.past_brackets(source.find(BODY_OR_END, at))


READERS = {
    "fn": read_function,
    "struct": read_with_body,
    "enum": read_with_body,
    "trait": read_with_members,
    "impl": read_with_members,
    "const": read_line,
    "static": read_line,
    "type": read_line,
    "use": read_line,
    "ghost": read_line,
    "mod": read_module,
    "macro_rules!": read_macro,
}
