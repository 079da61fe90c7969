"""The one layout of a case's file: a member a line, a call a line, short lists on one line."""

import json
from typing import Any

_WIDTH = 96


def _compact(value: Any) -> str:
    return json.dumps(value, ensure_ascii=True)


def _laid_out(value: Any, indent: str) -> str:
    text = _compact(value)
    if len(indent) + len(text) <= _WIDTH or not value or not isinstance(value, (dict, list)):
        return text
    inner = indent + "  "
    if isinstance(value, dict):
        parts = [f"{_compact(name)}: {_laid_out(it, inner)}" for name, it in value.items()]
        return _between("{", [inner + part for part in parts], indent + "}")
    if all(not isinstance(it, (dict, list)) for it in value):
        return _filled(value, inner, indent)
    return _between("[", [inner + _laid_out(it, inner) for it in value], indent + "]")


def _between(begin: str, lines: list[str], end: str) -> str:
    return begin + "\n" + ",\n".join(lines) + "\n" + end


def _filled(values: list[Any], inner: str, indent: str) -> str:
    """A list of numbers or texts: texts a line each, numbers as many as a line takes."""
    if any(isinstance(it, str) for it in values):
        return _between("[", [inner + _compact(it) for it in values], indent + "]")
    lines, line = [], ""
    for text in map(_compact, values):
        if line and len(inner) + len(line) + len(text) + 2 > _WIDTH:
            lines.append(inner + line)
            line = ""
        line += (", " if line else "") + text
    return _between("[", [*lines, inner + line], indent + "]")


def layout(members: dict[str, Any]) -> str:
    """The text of the file of a case with these members."""
    lines = [f"  {_compact(name)}: {_laid_out(value, '  ')}" for name, value in members.items()]
    return "{\n" + ",\n".join(lines) + "\n}\n"
