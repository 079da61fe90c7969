"""The crates of a repository: what crates.txt, their code and their definitions say."""

import dataclasses
import re
from pathlib import Path

from waplay_tools import crates
from waplay_tools.reference.code import Item, file_comment, items_of
from waplay_tools.reference.definitions import (
    Definition,
    Definitions,
    Use,
    read_definitions,
    uses_in,
)
from waplay_tools.reference.scanning import Source, Unreadable

GHOST_USE = re.compile(
    r"(?:pub )?ghost use ([A-Za-z_0-9.]+?)(?:\.\{([^}]*)\}| as ([a-zA-Z_0-9]+))?", re.S
)
REEXPORT = re.compile(
    r"pub use ([a-z_0-9]+(?:::[a-z_0-9]+)*)::(?:\{([^}]*)\}|([A-Za-z_0-9]+))", re.S
)
LISTED = re.compile(r"(?:pub mod ([A-Za-z0-9]+)|--.*|)")


@dataclasses.dataclass
class CodeFile:
    """A file of code: its items, and the definitions that its contracts may name."""

    source: Source
    items: list[Item]
    uses: list[Use]

    def shown(self) -> str:
        """Its path within the crate."""
        return "/".join(self.source.path.parts[2:])

    def module(self) -> str:
        """The name of its module, as the root of the crate has it."""
        return "::".join(self.source.path.with_suffix("").parts[3:])


@dataclasses.dataclass
class Crate:
    """A crate: what it is, what it stands on, its code and its definitions."""

    name: str
    about: str
    bases: tuple[str, ...]  # all that it stands on, as crates.txt has it
    code: list[CodeFile] = dataclasses.field(default_factory=list)
    specs: dict[str, Definitions] = dataclasses.field(default_factory=dict)
    # the names of items that other crates can use
    public: set[str] = dataclasses.field(default_factory=set)
    # those of other crates, which this one hands on: a crate and a name
    borrowed: list[tuple[str, str]] = dataclasses.field(default_factory=list)

    def is_program(self) -> bool:
        """Whether it is a program, which hands nothing on."""
        return not any(it.source.path.name == "lib.rt" for it in self.code)


class House:
    """All crates of a repository, in the order of crates.txt."""

    def __init__(self, top: Path) -> None:
        self.top = top
        self.bases = crates.bases_in(top)
        product = crates.product(self.bases)
        self.product = [it for it in self.bases if it in product]
        self.crates = {it: self.read_crate(it, it in product) for it in self.bases}

    def direct_bases(self, name: str) -> list[str]:
        """What a crate stands on and not already by another one of them."""
        bases = self.crates[name].bases
        indirect: set[str] = set()
        for base in bases:
            if base in self.crates:
                indirect |= crates.below(base, self.bases) | set(self.crates[base].bases)
        return [it for it in bases if it not in indirect]

    def read_crate(self, name: str, is_product: bool) -> Crate:
        """Reads a crate. Of one that the program does not stand on, only what it is."""
        folder = self.top / "crates" / name
        roots = [
            it for it in (folder / "src" / "lib.rt", folder / "src" / "main.rt") if it.exists()
        ]
        if len(roots) != 1:
            raise Unreadable(f"{self.shown(folder)}: neither src/lib.rt nor src/main.rt, or both")
        about = file_comment(roots[0].read_text(encoding="utf-8"))
        if not about:
            raise Unreadable(f"{self.shown(roots[0])}: no //! comment says what the crate is")
        crate = Crate(name, about, self.bases[name])
        if is_product:
            crate.code = [self.read_code(it) for it in sorted((folder / "src").rglob("*.rt"))]
            crate.specs = self.read_specs(folder / "specs")
            root = next(it for it in crate.code if it.source.path.name == roots[0].name)
            crate.public, crate.borrowed = public_in(root, crate.code)
            for other, item in crate.borrowed:
                if other not in crate.bases:
                    raise Unreadable(f"{root.source.path}: {other}::{item} is of no known crate")
        return crate

    def read_code(self, path: Path) -> CodeFile:
        """Reads a file of code."""
        source = Source(self.shown(path), path.read_text(encoding="utf-8"))
        items = items_of(source)
        return CodeFile(source, items, ghost_uses(source, items))

    def read_specs(self, folder: Path) -> dict[str, Definitions]:
        """Reads the definitions of a crate, by file. Lib.antt lists the files."""
        listed = folder / "Lib.antt"
        text = listed.read_text(encoding="utf-8") if listed.exists() else ""
        names = [LISTED.fullmatch(line) for line in text.splitlines()]
        files = {it.stem: it for it in sorted(folder.rglob("*.antt")) if it != listed}
        if not all(names) or {it[1] for it in names if it and it[1]} != set(files):
            raise Unreadable(f"{self.shown(listed)}: not a list of the files beside it")
        return {
            name: read_definitions(self.shown(path), path.read_text(encoding="utf-8"))
            for name, path in files.items()
        }

    def shown(self, path: Path) -> Path:
        """A path as it is shown: from the top of the repository."""
        return path.relative_to(self.top)

    def definition(self, crate: str, file: str, name: str) -> Definition | None:
        """A definition, if it is there."""
        specs = self.crates[crate].specs
        found = [it for it in specs[file].definitions if it.name == name] if file in specs else []
        return found[0] if found else None


def ghost_uses(source: Source, items: list[Item]) -> list[Use]:
    """What the contracts of a file may name, also where only an implementation brings it in."""
    uses = []
    for item in items:
        uses += ghost_uses(source, item.members)
        if item.kind == "ghost" and not item.name:
            use = GHOST_USE.fullmatch(item.head)
            if not use:
                raise Unreadable(
                    f"{source.path}:{item.line}: a `ghost use` of a form that is not known"
                )
            path, names, alias = use.groups()
            uses += uses_in(path, names, alias, False)
    return uses


def public_in(root: CodeFile, code: list[CodeFile]) -> tuple[set[str], list[tuple[str, str]]]:
    """The names that a crate hands on: its own items, and those of other crates."""
    modules = {it.module(): it for it in code}
    public = {it.name for it in root.items if it.is_public and it.name}
    borrowed = []
    for item in root.items:
        if item.kind == "mod" and item.is_public and item.name in modules:
            public |= {it.name for it in modules[item.name].items if it.is_public}
        if item.kind != "use" or not item.is_public:
            continue
        use = REEXPORT.fullmatch(item.head)
        if not use:
            where = f"{root.source.path}:{item.line}"
            raise Unreadable(f"{where}: a `pub use` of a form that is not known")
        names = [it.strip() for it in (use[2] or use[3]).split(",") if it.strip()]
        if use[1] in modules:
            public |= set(names)
        else:
            borrowed += [(use[1], it) for it in names]
    missing = public - {it.name for file in code for it in file.items}
    if missing:
        raise Unreadable(f"{root.source.path}: no item is called {', '.join(sorted(missing))}")
    return public, borrowed
