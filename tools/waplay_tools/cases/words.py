"""The words of a command line, as far as cases need them."""

import dataclasses

_VALUES = {
    "bits": ("16", "24"),
    "order": ("up", "down"),
    "mode": ("render", "check", "migrate"),
    "gen": None,
}


@dataclasses.dataclass
class Words:
    """What the words ask for."""

    out: str
    bits: int = 24
    mode: str = "render"
    is_generated: bool = False


def words_of(words: list[str]) -> Words | None:
    """What these words ask for; None where they have no reading."""
    outs: list[str] = []
    told: dict[str, str] = {}
    rest = iter(words)
    for word in rest:
        if word == "--":
            outs += rest
        elif word.startswith("--"):
            name, has_value, value = word[2:].partition("=")
            value = value if has_value else next(rest, "")
            if name not in _VALUES or name in told:
                return None
            told[name] = value
        else:
            outs.append(word)
    if len(outs) != 1 or any(
        value not in (_VALUES[name] or (value,)) for name, value in told.items()
    ):
        return None
    return Words(outs[0], int(told.get("bits", "24")), told.get("mode", "render"), "gen" in told)
