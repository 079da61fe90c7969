"""Bags, as RFC 8493 (BagIt) has them: folders with a payload in `data`, and digests of files."""

import dataclasses
import datetime
import hashlib
import os
import shutil
from collections.abc import Iterator
from pathlib import Path

DECLARATION = "BagIt-Version: 1.0\nTag-File-Character-Encoding: UTF-8\n"
MANIFEST, TAG_MANIFEST, INFO = "manifest-sha256.txt", "tagmanifest-sha256.txt", "bag-info.txt"
TAGS = ("bagit.txt", INFO, MANIFEST)


@dataclasses.dataclass
class Wrong:
    """What is wrong with a file of a bag, or with what it holds."""

    file: str
    what: str

    def __str__(self) -> str:
        return f"{self.file} {self.what}"


def digest_of(path: Path) -> str:
    """The SHA-256 of a file."""
    with path.open("rb") as file:
        return hashlib.file_digest(file, "sha256").hexdigest()


def files_below(folder: Path) -> Iterator[Path]:
    """All files of a folder, by their names."""
    for root, folders, names in os.walk(folder):
        folders.sort()
        yield from (Path(root) / name for name in sorted(names))


def _encoded(path: str) -> str:
    """A path as a manifest writes it."""
    return path.replace("%", "%25").replace("\n", "%0A").replace("\r", "%0D")


def _decoded(path: str) -> str:
    """A path of a manifest as it is."""
    return path.replace("%0A", "\n").replace("%0D", "\r").replace("%25", "%")


def _manifest(bag: Path, paths: list[Path]) -> str:
    """The lines of a manifest of these files."""
    return "".join(
        f"{digest_of(path)}  {_encoded(path.relative_to(bag).as_posix())}\n" for path in paths
    )


def close(bag: Path, told: dict[str, str]) -> str:
    """Makes a bag of a folder whose payload is in `data`, with these lines in bag-info.txt. Gives
    the digest of its tag manifest, which stands for all of it."""
    payload = list(files_below(bag / "data"))
    size = sum(path.stat().st_size for path in payload)
    info = {
        "Bagging-Date": datetime.date.today().isoformat(),
        "Payload-Oxum": f"{size}.{len(payload)}",
        **told,
    }
    lines = "".join(f"{name}: {' '.join(value.split())}\n" for name, value in info.items())
    texts = (DECLARATION, lines, _manifest(bag, payload))
    for name, text in zip(TAGS, texts):
        (bag / name).write_text(text, encoding="utf-8")
    tags = _manifest(bag, [bag / name for name in TAGS])
    (bag / TAG_MANIFEST).write_text(tags, encoding="utf-8")
    return digest_of(bag / TAG_MANIFEST)


def info_of(bag: Path) -> dict[str, str]:
    """The lines of bag-info.txt by their names; nothing where it can't be read."""
    try:
        lines = (bag / INFO).read_text(encoding="utf-8").splitlines()
    except (OSError, ValueError):
        return {}
    return dict(line.split(": ", 1) for line in lines if ": " in line)


def _read_manifest(bag: Path, name: str) -> tuple[dict[str, str], list[Wrong]]:
    """The digests of a manifest by their paths, and what is wrong with it."""
    try:
        text = (bag / name).read_text(encoding="utf-8")
    except (OSError, ValueError) as fault:
        return {}, [Wrong(name, f"can't be read: {getattr(fault, 'strerror', None) or fault}")]
    found, wrong = {}, []
    for line in text.splitlines():
        digest, _, path = line.partition("  ")
        if len(digest) != 64 or not path or ".." in Path(path).parts or path.startswith("/"):
            wrong.append(Wrong(name, "has a line that is none of a manifest"))
        else:
            found[_decoded(path)] = digest
    return found, wrong


def _compare(bag: Path, digests: dict[str, str], there: set[str], manifest: str) -> list[Wrong]:
    """What is wrong with the files of a manifest, of those that are there."""
    wrong = [Wrong(path, "is missing") for path in sorted(set(digests) - there)]
    wrong += [Wrong(path, f"does not stand in {manifest}") for path in sorted(there - set(digests))]
    for path in sorted(set(digests) & there):
        try:
            if digest_of(bag / path) != digests[path]:
                wrong.append(Wrong(path, f"has another digest than {manifest} says"))
        except OSError as fault:
            wrong.append(Wrong(path, f"can't be read: {fault.strerror}"))
    return wrong


def check(bag: Path, digest: str | None = None) -> list[Wrong]:
    """What is wrong with a bag; nothing of a good one. The digest is that of its tag manifest, as
    it was when the bag was closed."""
    if not bag.is_dir():
        return [Wrong(bag.name, "is missing")]
    paths = {path.relative_to(bag).as_posix() for path in files_below(bag)}
    payload = {path for path in paths if path.startswith("data/")}
    wrong: list[Wrong] = []
    if digest and TAG_MANIFEST in paths and digest_of(bag / TAG_MANIFEST) != digest:
        return [Wrong(TAG_MANIFEST, "is another one than the list of the archive says")]
    for name, there in (
        (TAG_MANIFEST, paths - payload - {TAG_MANIFEST}),
        (MANIFEST, payload),
    ):
        digests, faults = _read_manifest(bag, name)
        wrong += faults or _compare(bag, digests, there, name)
    if not wrong and (bag / "bagit.txt").read_text(encoding="utf-8") != DECLARATION:
        wrong.append(Wrong("bagit.txt", "is no declaration of BagIt 1.0"))
    return wrong


def put_away(folder: Path) -> None:
    """Removes a folder that was not finished, if it is there."""
    shutil.rmtree(folder, ignore_errors=True)
