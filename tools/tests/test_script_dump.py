"""Tests that scripts are read as the input and output of crates/script_dump say."""

import json
import unittest
from collections.abc import Iterator
from pathlib import Path
from typing import Any

import fixtures
from waplay_tools.expecting import reading, writing

DUMP = Path(fixtures.TOP) / "crates" / "script_dump"


def value_text(value: Any) -> str:
    """A field's value as the program writes it."""
    if isinstance(value, list):
        return f"[{' '.join(map(str, value))}]"
    if value is None:
        return "none"
    return value if isinstance(value, str) else json.dumps(value)


def op_text(call: dict[str, Any]) -> str:
    """A call's operation, and its fields in the order in which they are read."""
    op = call["op"]
    if op in reading.LEFT_OUT:
        return f"left out {reading.LEFT_OUT[op]}"
    fields = [field for field in reading.OPERATIONS[op] if field != reading.HELD]
    values = [
        f"[{', '.join(writing.instructions(call[name]))}]"
        if kind == "code"
        else value_text(call.get(name, *default))
        for name, kind, *default in fields
    ]
    return " ".join([op, *values])


def lines_of(numbered: list[Any], holder: int) -> Iterator[str]:
    """Each call with its ordinal and its holder, those of lists behind the calls that hold them."""
    for ordinal, call, held in numbered:
        yield f"{ordinal} {holder} {op_text(call)}"
        yield from lines_of(held, ordinal)


def reading_text(data: bytes) -> str:
    """What reading a script gives, as the program writes it."""
    try:
        script = reading.script_of(data)
    except reading.Fault as fault:
        return str(fault)
    if not script["calls"]:
        context = {"renderQuantum": 128, **script["context"]}
        return "context {channels} {length} {rate} {renderQuantum}".format(**context)
    return ", ".join(lines_of(reading.numbered(script["calls"], 1)[0], 0))


class Readings(unittest.TestCase):
    def test_each_script_is_read_as_the_output_says(self):
        scripts = (DUMP / "stdin").read_bytes().split(b"\n")[:-1]
        texts = (DUMP / "stdout").read_text(encoding="utf-8").split("\n")[:-1]
        self.assertEqual(len(scripts), len(texts))
        for script, text in zip(scripts, texts):
            self.assertEqual(reading_text(script), text, script[:300])

    def test_each_operation_is_read_in_some_script(self):
        texts = (DUMP / "stdout").read_text(encoding="utf-8")
        for op in reading.OPERATIONS:
            self.assertRegex(texts, rf"(?m)(^|, )\d+ \d+ {op}\b", op)


if __name__ == "__main__":
    unittest.main()
