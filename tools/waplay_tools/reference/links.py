"""The links among documents: whether each leads somewhere."""

import re
from pathlib import Path
from urllib.parse import unquote

FENCES = re.compile(r"^```.*?^```", re.M | re.S)
LINK = re.compile(r"(?<!\\)\]\(([^()\s]+)\)")
HEADING = re.compile(r"^#{1,6} (.*)$", re.M)
ANCHOR = re.compile(r'<a id="([^"]*)"></a>')


def slug(heading: str) -> str:
    """The anchor of a heading, as it is commonly made: small letters, `-` for a blank, no marks."""
    text = re.sub(r"\[([^\]]*)\]\([^)]*\)", r"\1", heading)
    return re.sub(r"[^\w\- ]", "", text.strip().lower()).replace(" ", "-")


def anchors_of(text: str) -> set[str]:
    """The anchors that a document has."""
    bare = FENCES.sub("", text)
    return {slug(it) for it in HEADING.findall(bare)} | set(ANCHOR.findall(bare))


def dead_links(texts: dict[Path, str], top: Path) -> list[str]:
    """The links of documents that lead nowhere, a line each. Others than files are passed over."""
    faults = []
    anchors = {path: anchors_of(text) for path, text in texts.items()}
    for path, text in texts.items():
        for target in LINK.findall(FENCES.sub("", text)) if path.suffix == ".md" else []:
            if re.match(r"[a-z]+:", target):
                continue
            name, _, anchor = unquote(target).partition("#")
            other = Path(*normal((path.parent / name).parts)) if name else path
            if other not in texts and not (top / other).exists():
                faults.append(f"{path}: {target}: {other} is not there")
            elif anchor and other in texts and anchor not in anchors[other]:
                faults.append(f"{path}: {target}: {other} has no such heading")
    return faults


def normal(parts: tuple[str, ...]) -> list[str]:
    """The parts of a path without `..`."""
    kept: list[str] = []
    for it in parts:
        if it == "..":
            kept = kept[:-1]
        else:
            kept.append(it)
    return kept or ["."]
