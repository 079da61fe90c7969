"""The table of a script's operations, by the definitions of the crate that has them."""

import re

from waplay_tools.reference.house import House
from waplay_tools.reference.scanning import Unreadable

CRATE = "script_ast"
# The kinds of fields, in the words of docs/FORMATS.md.
KINDS = {
    "Fix": "fix",
    "Time": "time",
    "Count": "count",
    "Version": "version",
    "Name": "name",
    "NameOrNull": "name or null",
    "NewName": "new name",
    "Flag": "true or false",
    "Fixes": "fixes",
    "FixesOrNull": "fixes or null",
    "Code": "program",
    "Path": "path",
    "Mode": "mode",
    "Interp": "interpretation",
    "Rate": "automation rate",
    "Oversample": "oversampling",
    "Calls": "calls",
    "Object": "object",
}
ROW = re.compile(r"row field\.(\w+) kind\.(\w+) (.+)")
NUMBER = re.compile(r"(?:Number \((?P<minus>neg_ℤ \()?pos |Count )(?P<digits>\d+)\)*")


def equations(house: House, crate: str, file: str, name: str) -> list[tuple[str, str]]:
    """The equations of a definition: what it is applied to, and what it is then."""
    definition = house.definition(crate, file, name)
    if not definition:
        raise Unreadable(f"{crate}/specs/{file}.antt: {name} is not there")
    parts = re.split(rf"\n(?={re.escape(name)}\b)", definition.text)[1:]
    found = []
    for part in parts:
        left, equals, right = " ".join(part.split()).partition(" = ")
        if not equals:
            raise Unreadable(f"{crate}/specs/{file}.antt: an equation of {name} without `=`")
        found.append((left[len(name) :].strip(), right))
    return found


def table_of(house: House, crate: str, file: str, name: str) -> dict[str, str]:
    """A definition by cases as a table. A case may hand on to another definition of the file."""
    table: dict[str, str] = {}
    for case, value in equations(house, crate, file, name):
        inner = re.fullmatch(r"\((?:\w+\.)?(\w+) \w+\)", case)
        if not inner:
            table[case.split(".")[-1]] = value
        elif value.split()[0] in ("[]",):
            table[inner[1]] = value
        else:
            for further, it in table_of(house, crate, file, value.split()[0]).items():
                table[f"{inner[1]} {further}"] = it
    return table


def words_of(house: House, crate: str, file: str, name: str) -> dict[str, str]:
    """A table of texts."""
    table = table_of(house, crate, file, name)
    for case, value in table.items():
        text = re.fullmatch(r'codes "([^"]*)"', value)
        if not text:
            raise Unreadable(f"{crate}/specs/{file}.antt: {name} {case} is no text")
        table[case] = text[1]
    return table


def items_of(text: str) -> list[str]:
    """The items of a list that is written with `∷`."""
    *items, end = (it.strip() for it in text.split("∷"))
    if end != "[]":
        raise Unreadable(f"a list that does not end with []: {text[:60]}")
    return items


def default_of(house: House, text: str) -> str:
    """The default of a field as a reader sees it; empty where it has none."""
    text = text[1:-1] if text.startswith("(") else text
    number = NUMBER.fullmatch(text)
    if number:
        return ("-" if number["minus"] else "") + number["digits"]
    words = text.split()
    plain = {"Needed": "", "Null": "null", "NoCalls": "no call"}
    if len(words) == 1 and words[0] in plain:
        return plain[words[0]]
    if len(words) == 2 and words[0] == "Flag":
        return words[1]
    if len(words) == 2 and words[0] == "Oversample":
        return f"`{words_of(house, CRATE, 'Words', 'oversample_word')[words[1]]}`"
    raise Unreadable(f"{CRATE}/specs/Entries.antt: the default {text!r} is not known")


def field_of(house: House, row: str, names: dict[str, str]) -> str:
    """A field as the table shows it: its name, its kind and its default."""
    parts = ROW.fullmatch(row)
    if not parts or parts[1] not in names or parts[2] not in KINDS:
        raise Unreadable(f"{CRATE}/specs/Entries.antt: {row!r} is no row of a known kind")
    kind, default = KINDS[parts[2]], default_of(house, parts[3])
    if default == "null" and not kind.endswith("or null"):
        kind += " or null"
    return f"`{names[parts[1]]}` ({kind}{', ' if default else ''}{default})"


def entry_fields(house: House, entry: str) -> str:
    """The fields of an entry, in the order in which they are read."""
    if entry == "[]":
        return "none"
    names = words_of(house, CRATE, "Fields", "field_word")
    ((_, rows),) = equations(house, CRATE, "Entries", entry.split(".")[-1])
    return ", ".join(field_of(house, it, names) for it in items_of(rows))


def operations_in_order(house: House) -> list[str]:
    """Every operation, as the definitions name it."""
    ((_, listed),) = equations(house, CRATE, "Entries", "operations")
    return [re.sub(r"\b\w+\.", "", it) for it in items_of(listed)]


def fields_table(house: House) -> list[str]:
    """The operations that are built, with their fields. Those with the same fields share a row."""
    words = words_of(house, CRATE, "Entries", "op_word")
    entries = table_of(house, CRATE, "Entries", "fields_of")
    rows: dict[str, list[str]] = {}
    for name in operations_in_order(house):
        if not name.startswith("LeftOut "):
            rows.setdefault(entry_fields(house, entries[name]), []).append(f"`{words[name]}`")
    head = ["| operation | fields |", "|---|---|"]
    return head + [f"| {', '.join(names)} | {fields} |" for fields, names in rows.items()]


def left_out_table(house: House) -> list[str]:
    """The operations that the profile leaves out, each with the feature for which it is refused."""
    words = words_of(house, CRATE, "Entries", "left_out_word")
    features = table_of(house, CRATE, "Entries", "left_out_feature")
    spelled = words_of(house, "wa_base", "Features", "feature_word")
    head = ["| operation | feature |", "|---|---|"]
    return head + [
        f"| `{word}` | `{spelled[features[name].split('.')[-1]]}` |" for name, word in words.items()
    ]


def page(house: House) -> str:
    """The page of the operations."""
    lines = [
        "# The operations of a script",
        "",
        "[All crates](index.md). Fields are read in this order. In brackets are "
        "the kind of a field and, where there is one, its default.",
        "",
        *fields_table(house),
        "",
        "## Left out",
        "",
        *left_out_table(house),
    ]
    return "\n".join(lines) + "\n"
