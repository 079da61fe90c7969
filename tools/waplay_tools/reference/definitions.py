"""Reading the definitions of a crate: a file of `specs/`, line by line."""

import dataclasses
import re
from pathlib import Path

from waplay_tools.reference.scanning import Unreadable

START = re.compile(
    r"(?:(?:abbrev|unfoldable) )?(?:pub )?(?:record|data) (\S+)"
    r"|(?:abbrev|unfoldable) (?:pub )?(\S+) :(?= |$)"
    r"|pub (\S+) :(?= |$)"
)
OPERATOR = re.compile(r"infix[lr]? \d+ (\S+)")
USE = re.compile(r"(?:pub )?use ([A-Za-z_0-9.]+)(?:\.\{([^}]*)\}| as ([a-zA-Z_0-9]+))$")
MODULE = re.compile(r"module _ (.*) where$")
MUTUAL = re.compile(r"(?:unfoldable |abbrev )?mutual$")


@dataclasses.dataclass
class Definition:
    """A definition: its name, the comment above it, and its text as it stands."""

    name: str
    comment: str
    text: str
    line: int
    section: str = ""  # the heading under which it stands in its file
    of_module: str = ""  # the parameters that it shares with others


@dataclasses.dataclass(frozen=True)
class Use:
    """A name that a file takes from another one: its path, and how it is called here.

    A path may also be that of a file, or of a type's variants; `is_file` says so.
    """

    path: tuple[str, ...]
    name: str
    is_file: bool
    is_public: bool = False  # whether the file hands it on


@dataclasses.dataclass
class Definitions:
    """A file of definitions."""

    path: Path
    comment: str
    uses: list[Use]
    definitions: list[Definition]


def uses_in(path: str, names: str | None, alias: str | None, is_public: bool) -> list[Use]:
    """What one `use` brings in."""
    parts = tuple(path.split("."))
    if names is None:
        return [Use(parts, alias or parts[-1], True, is_public)]
    uses = []
    for one in filter(None, (it.strip() for it in names.split(","))):
        name, _, called = one.partition(" as ")
        uses.append(Use((*parts, name.strip()), called.strip() or name.strip(), False, is_public))
    return uses


class Reader:
    """Goes through the lines of a file. Each line belongs to something, or is refused."""

    def __init__(self, path: Path, text: str) -> None:
        self.file = Definitions(path, "", [], [])
        self.lines = text.splitlines()
        self.at = 0
        self.indent = 0
        self.section = ""
        self.of_module = ""
        self.comment: list[str] = []
        self.blanks = 0
        self.operator = ""

    def fault(self, what: str) -> Unreadable:
        """The fault that something is wrong with the line at hand."""
        return Unreadable(f"{self.file.path}:{self.at + 1}: {what}")

    def read(self) -> Definitions:
        """The file."""
        while self.at < len(self.lines) and self.lines[self.at].startswith("--"):
            self.comment.append(self.lines[self.at][2:].strip())
            self.at += 1
        self.file.comment, self.comment = "\n".join(self.comment), []
        for self.at in range(self.at, len(self.lines)):
            self.take(self.lines[self.at].rstrip())
        if self.operator:
            raise self.fault(f"no definition comes behind that of how {self.operator} is written")
        return self.file

    def take(self, line: str) -> None:
        """Takes the next line."""
        words = line.strip()
        indent = len(line) - len(line.lstrip())
        if not words:
            self.blanks += 1
            if self.comment:
                self.close_comment()
        elif words.startswith("-- ----") and indent <= self.indent:
            self.section = words.lstrip("- ").strip()
        elif words.startswith("--") and indent <= self.indent:
            self.comment.append(words[2:].strip())
        elif not self.take_use(words) and not self.take_frame(words, indent):
            self.take_text(line, words, indent)

    def close_comment(self) -> None:
        """Refuses a comment that a blank line ends: it belongs to no definition."""
        raise self.fault("a comment that belongs to nothing; a heading begins with `-- ----`")

    def take_use(self, words: str) -> bool:
        """Takes a `use`, if it is one."""
        if not re.match(r"(pub )?use ", words):
            return False
        use = USE.match(words)
        if not use or self.file.definitions:
            raise self.fault("a `use` of a form that is not known, or behind a definition")
        path, names, alias = use.groups()
        self.file.uses += uses_in(path, names, alias, words.startswith("pub "))
        return True

    def take_frame(self, words: str, indent: int) -> bool:
        """Takes the line that begins a module, or definitions by one another, if it is one."""
        module = MODULE.match(words)
        if (module or MUTUAL.match(words)) and indent == 0:
            self.indent = 2
            self.of_module = module[1] if module else ""
            return True
        return False

    def take_text(self, line: str, words: str, indent: int) -> None:
        """Takes a line of a definition."""
        operator = OPERATOR.match(words)
        start = START.match(words)
        if indent < self.indent and (operator or start):
            self.indent, self.of_module = indent, ""
        if operator and indent == self.indent:
            self.operator = words
        elif start and indent == self.indent:
            self.begin(next(filter(None, start.groups())), line)
        else:
            self.go_on(line, words, indent)
        self.blanks = 0

    def begin(self, name: str, line: str) -> None:
        """Begins a definition."""
        text = line[self.indent :]
        if self.operator:
            text, self.operator = f"{self.operator}\n{text}", ""
        self.file.definitions.append(
            Definition(
                name, "\n".join(self.comment), text, self.at + 1, self.section, self.of_module
            )
        )
        self.comment = []

    def go_on(self, line: str, words: str, indent: int) -> None:
        """Goes on with the definition at hand."""
        if not self.file.definitions:
            raise self.fault("a line before the first definition")
        last = self.file.definitions[-1]
        if indent <= self.indent and not self.is_of(last.name, words):
            raise self.fault(f"a line that is none of {last.name}, and begins no definition")
        if self.comment:
            last.text += "".join(f"\n-- {it}" for it in self.comment)
            self.comment = []
        last.text += "\n" * min(self.blanks, 1) + "\n" + line[self.indent :]

    @staticmethod
    def is_of(name: str, words: str) -> bool:
        """Whether a line is of a definition: an equation, what it unfolds, a closing bracket."""
        if words.startswith(("unfolding ", "}", ")")):
            return True
        bare = name.replace("◌", "")
        return bare in re.findall(r"[^\s(){},.]+", words)


def read_definitions(path: Path, text: str) -> Definitions:
    """The definitions of a file; raises Unreadable where a line belongs to nothing."""
    return Reader(path, text).read()
