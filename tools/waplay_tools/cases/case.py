"""A case: a run of a program, and what it must give."""

import base64
import dataclasses
import json
from pathlib import Path
from typing import Any

from waplay_tools.cases.expansion import lines_in, script_bytes

# How the input of a case may be told. A case has exactly one of them.
INPUTS = ("script", "input", "input_base64", "input_zeros", "input_folder")
# The members of a variant: what it has in place of the case's own.
OF_VARIANTS = {"words", "output", "file_most", "files", "status", "transcript", "is_cut", "left"}


class CaseFault(Exception):
    """A case that is not one: what is wrong with it."""


@dataclasses.dataclass
class Case:
    """A run, and what it must give. The members are those of the file, by the same names."""

    shows: str
    source: str  # `from` in the file
    program: str = "waplay"  # one of places.PROGRAMS
    words: list[str] = dataclasses.field(default_factory=lambda: ["out.wav"])
    script: dict[str, Any] | None = None
    input: str | None = None
    input_base64: str | None = None
    input_zeros: int | None = None
    input_folder: bool = False
    fronts: bool = False
    variants: list[dict[str, Any]] | None = None
    output: str | int | None = None
    file_most: int | None = None
    files: dict[str, Any] = dataclasses.field(default_factory=dict)
    status: int = 0
    transcript: list[str] = dataclasses.field(default_factory=list)
    is_cut: bool = False
    samples: list[list[list[int]]] | None = None
    samples_at: dict[str, list[int]] | None = None
    frames: int | None = None
    wav_sha256: str | None = None
    migrated: str | list[str] | None = None
    left: dict[str, Any] = dataclasses.field(default_factory=dict)
    only_program: str | None = None
    is_example: bool = False  # the file is that of the second calculation
    path: Path = Path()

    def input_bytes(self) -> bytes | None:
        """What the run reads; None where its standard input is closed."""
        if self.script is not None:
            return script_bytes(self.script)
        if self.input is not None:
            return self.input.encode("utf-8", "surrogatepass")
        if self.input_base64 is not None:
            return base64.b64decode(self.input_base64)
        return None if self.input_zeros is None else bytes(self.input_zeros)

    def text(self) -> str:
        """What the run must write to standard output."""
        text = "".join(f"{line}\n" for line in lines_in(self.transcript))
        return text.removesuffix("\n") if self.is_cut else text

    def each(self) -> list[tuple[str, "Case"]]:
        """The runs that the case stands for, with what each is called: one, or one for each of its
        variants, or one for each front of its input that is not all of it."""
        if self.variants is not None:
            return [
                (f"variant {number}, ", dataclasses.replace(self, **{**members, "variants": None}))
                for number, members in enumerate(self.variants, 1)
            ]
        whole = self.input_bytes()
        if not self.fronts or whole is None:
            return [("", self)]
        told = {name: None for name in ("script", "input", "input_zeros")}
        return [
            (
                f"over its first {length} bytes, ",
                dataclasses.replace(
                    self, **told, input_base64=base64.b64encode(whole[:length]).decode()
                ),
            )
            for length in range(len(whole))
        ]

    def migrated_bytes(self) -> bytes | None:
        """The script that OUT must be; None where the case does not tell it."""
        return None if self.migrated is None else "".join(self.migrated).encode()

    def leaves_a_file(self) -> bool:
        """Whether the run must leave a WAV file, or a script in mode `migrate`."""
        told = (self.samples, self.samples_at, self.wav_sha256, self.migrated)
        return self.is_example or any(it is not None for it in told)


def case_of(members: dict[str, Any], path: Path) -> Case:
    """The case with these members; raises CaseFault where it is none."""
    named = {("source" if name == "from" else name): value for name, value in members.items()}
    known = {field.name for field in dataclasses.fields(Case)} - {"is_example", "path"}
    if "source" in members or not set(named) <= known:
        raise CaseFault(f"no member of a case: {', '.join(sorted(set(named) - known)) or 'source'}")
    missing = {"shows", "source", "transcript"} - set(named)
    if missing:
        raise CaseFault(f"missing: {', '.join(sorted(missing)).replace('source', 'from')}")
    if sum(name in members for name in INPUTS) != 1:
        raise CaseFault(f"not exactly one of {', '.join(INPUTS)}")
    if "samples_at" in members and "frames" not in members:
        raise CaseFault("samples_at without frames")
    if any(not set(variant) <= OF_VARIANTS for variant in members.get("variants", ())):
        raise CaseFault(f"a variant with others than {', '.join(sorted(OF_VARIANTS))}")
    return Case(**named, path=path)


def read_case(path: Path) -> Case:
    """The case that a file has; raises CaseFault where it has none."""
    try:
        members = json.loads(path.read_text(encoding="utf-8"))
    except ValueError as error:
        raise CaseFault(f"no JSON: {error}") from error
    if not isinstance(members, dict):
        raise CaseFault("no object")
    return case_of(members, path)
