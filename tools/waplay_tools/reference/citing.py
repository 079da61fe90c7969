"""Which definitions a clause or another definition names."""

import dataclasses
import re

from waplay_tools.reference.definitions import Definition, Use
from waplay_tools.reference.house import House
from waplay_tools.reference.scanning import Unreadable

TOKENS = re.compile(r"(?<![\w'.])([A-Za-z_]\w*'*)(?:\.([A-Za-z_]\w*))?|([^\w\s(){}\[\];,.\"'λ:]+)")
STRINGS = re.compile(r'"(?:\\.|[^"\\])*"')
COMMENTS = re.compile(r"(--|//)[^\n]*")
FIELDS = re.compile(r"(?<=[{;])(\s*)[a-z_]\w*(?= = )|^( +pub )\w+(?= :)", re.M)
BINDERS = re.compile(r"[({]([A-Za-z_][\w' ]*) : ")
LAMBDAS = re.compile(r"λ ([^.]*)\.")
LETS = re.compile(r"\blet ([A-Za-z_]\w*)")
NAME = re.compile(r"[A-Za-z_]\w*'*")
PARAMETER = re.compile(r"([a-z_]\w*): ")


@dataclasses.dataclass(frozen=True)
class Place:
    """A definition by its crate, its file and its name; of a file alone the name is empty."""

    crate: str
    file: str
    name: str


Scope = dict[str, Place]


def scope_of(house: House, uses: list[Use], where: str) -> Scope:
    """What names of a file stand for, as far as that is a definition of this repository."""
    scope: Scope = {}
    for use in uses:
        place = place_of(house, use, where)
        if place:
            scope[use.name] = place
    return scope


def place_of(house: House, use: Use, where: str) -> Place | None:
    """The definition, or the file, that a `use` names; none where it is not of this repository."""
    root, crate, room, *rest = (*use.path, "", "", "")
    rest = [it for it in rest if it]
    if (
        root != "Rattle"
        or crate not in house.crates
        or room != "specs"
        or rest[0] in ("declared", "contracts")
    ):
        return None
    file, name = rest[0], "" if use.is_file else rest[-1]
    if file not in house.crates[crate].specs or len(rest) > 2 and use.is_file:
        raise Unreadable(f"{where}: {'.'.join(use.path)} is no file of definitions")
    if not name or house.definition(crate, file, name):
        return Place(crate, file, name)
    if len(rest) == 3 and house.definition(crate, file, rest[1]):
        return Place(crate, file, rest[1])
    for definition in house.crates[crate].specs[file].definitions:
        if is_variant(definition, name):
            return Place(crate, file, definition.name)
    for other in house.crates[crate].specs[file].uses:
        if other.is_public and other.name == name:
            return place_of(house, other, where)
    raise Unreadable(f"{where}: {'.'.join(use.path)} is no definition")


def is_variant(definition: Definition, name: str) -> bool:
    """Whether a definition is that of a type that has a variant of this name."""
    return bool(
        re.match(r"(pub )?data ", definition.text)
        and re.search(rf"^  {re.escape(name)} :", definition.text, re.M)
    )


def named_in(house: House, file: Place, name: str) -> Place | None:
    """The definition of a name in a file, its own or one that it hands on."""
    if house.definition(file.crate, file.file, name):
        return dataclasses.replace(file, name=name)
    handed = [
        it
        for it in house.crates[file.crate].specs[file.file].uses
        if it.is_public and it.name == name
    ]
    return place_of(house, handed[0], file.file) if handed else None


def bare(text: str) -> str:
    """A text without comments, strings, and the names of record fields."""
    return FIELDS.sub(r"\1\2", STRINGS.sub('""', COMMENTS.sub("", text)))


def bound_in(text: str) -> set[str]:
    """The names that a text binds by itself."""
    names = set(LETS.findall(text))
    for group in BINDERS.findall(text):
        names |= set(group.split())
    for group in LAMBDAS.findall(text):
        names |= set(NAME.findall(re.sub(r": [^)]*", "", group)))
    return names


def cited(house: House, text: str, scope: Scope, bound: set[str]) -> list[Place]:
    """The definitions that a text names, in its order. Names that are `bound` mean others."""
    text = bare(text)
    bound = bound | bound_in(text)
    found: dict[Place, None] = {}
    for name, behind, operator in TOKENS.findall(text):
        place = scope.get(f"◌{operator}◌" if operator else name)
        if not place or name in bound and not operator:
            continue
        if not place.name:
            place = behind and named_in(house, place, behind)
        if place:
            found[place] = None
    return list(found)


def cited_by_definition(
    house: House, definition: Definition, scope: Scope, own: Place
) -> list[Place]:
    """The definitions that a definition names."""
    shared = bound_in(definition.of_module) if definition.of_module else set()
    found: dict[Place, None] = {}
    for part in parts_of(definition):
        left = (
            re.split(r" =(?= |$)", part, maxsplit=1, flags=re.M)[0]
            if definition.name in part
            else ""
        )
        bound = shared | (
            set(NAME.findall(left)) - {definition.name} if " : " not in left else set()
        )
        found |= dict.fromkeys(cited(house, part, scope, bound))
    found.pop(own, None)
    return list(found)


def parts_of(definition: Definition) -> list[str]:
    """The signature and the equations of a definition; a record is one part."""
    if re.search(r"^(pub )?(record|data) ", definition.text, re.M):
        return [definition.text]
    return re.split(r"\n(?=[^\s})])", definition.text)


def cited_by_contract(house: House, head: str, clauses: list[str], scope: Scope) -> list[Place]:
    """The definitions that the clauses of a contract name."""
    parameters = set(PARAMETER.findall(head))
    found: dict[Place, None] = {}
    for clause in clauses:
        found |= dict.fromkeys(cited(house, clause, scope, parameters))
    return list(found)
