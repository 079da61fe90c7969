"""Holds docs/script.schema.json against the reader of the second calculation, over random good and
faulty scripts.

A schema can't say everything that the reader asks for. These differences have names here, are
counted apart, and are only allowed where nothing else differs:

    no JSON        a text that has no JSON reading has no value that a schema could be held against:
                   bytes that are not UTF-8, lone surrogates, numbers that are too large, and what
                   nests deeper than 127
    whole numbers  1.0, 1e2 and -0 are whole to a schema, and not to the reader
    bytes          a path has at most 255 bytes, and a schema counts characters
    seconds        whether a frame is in range hangs on the rate, of which a schema knows nothing
"""

import collections
import json
import os
import random
import re
import unittest

import fixtures
from waplay_tools.expecting import programs, reading
import test_reading
from waplay_tools.random_scripts.versions import in_version_2
from waplay_tools.reporting import entries, schema

try:
    import jsonschema
except ImportError:
    jsonschema = None

PATH = os.path.join(fixtures.TOP, "docs", "script.schema.json")
COUNT = int(os.environ.get("SCHEMA_SCRIPTS", "200"))  # how many random scripts

# A value of each kind.
VALUES = {
    "new name": "n",
    "name": "n",
    "param": "gain",
    "list": [1, 2],
    "calls": [],
    "bool": True,
    "path": "p",
    "code": ["in"],
    **dict.fromkeys(entries.RANGES, 1),
    "time2": "1",
}


TOO_MANY = "9999999999"  # seconds, at any rate of random scripts


def some_value(kind, version=1):
    """A value of a kind, which is the first of the words where it is a list of them."""
    kind = kind.replace(" or null", "")
    return VALUES.get("time2" if kind == "time" and version == 2 else kind, kind.split()[0])


def stricter(value, key=None):
    """The value with a fraction in place of each number that is whole to a schema alone and of
    seconds that are always too many, and with a path that is too long in place of one of too many
    bytes."""
    if isinstance(value, dict):
        return {name: stricter(item, name) for name, item in value.items()}
    if isinstance(value, list):
        return [stricter(item) for item in value]
    if isinstance(value, float) or value == TOO_MANY:
        return 0.5
    if key == "path" and isinstance(value, str) and len(value.encode()) > 255:
        return "x" * 256
    return value


def spelled(rng, text):
    """A script's text with some numbers or members spelled in another way."""
    some = rng.randrange(8)
    if some == 0:
        return text.replace(": 0", ": -0", 1)
    if some == 1:
        return text.replace(": 48000", ": 48000.0", 1).replace(": 1,", ": 1e0,", 1)
    if some == 2:
        return text.replace('"op":', '"op": 7, "op":', 3)
    if some == 3:
        depth = rng.choice([120, 124, 125, 126, 127, 500])
        return text.replace('"version"', '"deep": %s%s, "version"' % ("[" * depth, "]" * depth), 1)
    if some == 4:
        return text.replace("}", ', "note": [1.5, {"then": 7}]}', 2)
    return text


def any_call(rng):
    """A call of any operation that the profile has."""
    op = rng.choice([op for op in entries.OPERATIONS if op not in entries.LEFT_OUT])
    call = {"op": op}
    for name, kind, *default in entries.fields_of(op):
        if not default or rng.random() < 0.3:
            call[name] = some_value(kind)
    return call


def random_text(number):
    """The bytes of a random script: a good one, one with spoiled members, or one that is spelled in
    another way."""
    rng = random.Random("schema %d" % number)
    value = test_reading.random_script(number, number % 2 == 1, 30)
    value = in_version_2(rng, value) if number % 4 > 1 else value
    if number % 50 == 7 and isinstance(value.get("calls"), list):
        value["calls"] = value["calls"][:5] + [any_call(rng)]
    if number % 20 == 3 and isinstance(value.get("calls"), list):
        path = rng.choice(
            ["\u00e9" * rng.choice([127, 128, 255]), "x" * rng.choice([255, 256]), ""]
        )
        value["calls"] = value["calls"][:5] + [{"op": "decodeAudioData", "as": "b", "path": path}]
    text = json.dumps(value)
    return (spelled(rng, text) if number % 3 == 0 else text).encode()


class Schema(unittest.TestCase):
    def setUp(self):
        with open(PATH, encoding="utf-8") as file:
            self.text = file.read()

    def test_the_file_is_what_the_tool_writes(self):
        self.assertEqual(
            fixtures.run("makeschema").stdout.decode(),
            self.text,
            "tools/makeschema > docs/script.schema.json is wanted",
        )

    def test_every_operation_and_field_has_its_kind_and_default(self):
        definitions = json.loads(self.text)["$defs"]
        self.assertEqual(set(schema.DOES) | set(entries.LEFT_OUT), set(entries.OPERATIONS))
        for call in ("call", "call2"):
            self.assertEqual(
                definitions[call]["properties"]["op"]["enum"], list(entries.OPERATIONS)
            )
        for op, fields in entries.OPERATIONS.items():
            defaults = {name: default[0] for name, _, *default in fields if default}
            times = {name for name, kind, *_ in fields if kind == "time"}
            self.look_at(definitions[op]["properties"], fields, defaults)
            if op + "2" in definitions:
                seconds = {
                    name: "0" if name in times and it == 0 else it for name, it in defaults.items()
                }
                self.look_at(definitions[op + "2"]["properties"], fields, seconds)
            else:
                self.assertFalse(times, op)

    def look_at(self, found, fields, defaults):
        """Looks whether the properties of an operation are its fields, with these defaults."""
        self.assertEqual(list(found), ["op"] + [name for name, *_ in fields])
        self.assertEqual(
            {name: it["default"] for name, it in found.items() if "default" in it}, defaults
        )

    @unittest.skipUnless(jsonschema, "the module jsonschema is not installed")
    def test_the_schema_is_one(self):
        jsonschema.Draft202012Validator.check_schema(json.loads(self.text))

    @unittest.skipUnless(jsonschema, "the module jsonschema is not installed")
    def test_random_scripts_are_good_where_the_reader_finds_no_fault(self):
        validator = jsonschema.Draft202012Validator(json.loads(self.text))
        counts = collections.Counter()
        for number in range(COUNT):
            data = random_text(number)
            fault = test_reading.fault_of(data)
            if fault == "BadJson":
                counts["no JSON"] += 1
                continue
            value = reading.json_of(data)
            is_good = validator.is_valid(stricter(value))
            self.assertEqual(is_good, fault is None, (fault, data))
            counts["faulty" if fault else "good"] += 1
            if fault and validator.is_valid(value):
                paths = [
                    str(call.get("path", "")) for call in value["calls"] if isinstance(call, dict)
                ]
                is_long = any(len(path.encode()) > 255 for path in paths)
                counts["bytes" if is_long else "whole numbers"] += 1
        print(
            "\nschema: %d scripts: %s"
            % (COUNT, ", ".join("%d %s" % (counts[it], it) for it in sorted(counts)))
        )
        for name, least in [("good", 60), ("faulty", 40), ("no JSON", 2), ("whole numbers", 1)]:
            self.assertGreaterEqual(counts[name], least, name)

    @unittest.skipUnless(jsonschema, "the module jsonschema is not installed")
    def test_each_field_by_itself(self):
        values = [
            None,
            True,
            False,
            0,
            1,
            -1,
            31,
            2**31 - 1,
            2**31,
            -(2**31),
            -(2**31) - 1,
            2**32 - 1,
            2**32,
            2**40,
            2**40 + 1,
            -(2**40),
            -(2**40) - 1,
            2**63,
            0.5,
            "",
            "a",
            "destination",
            "a b",
            "x" * 64,
            "x" * 65,
            "x" * 256,
            "max",
            "speakers",
            "none",
            "a\n",
            "0",
            "-1.000000000",
            "1.0000000000",
            "12345678901",
            "1\n",
            "1.",
            ".5",
            "-",
            "+1",
            "1e3",
            "\u0661",
            [],
            [1],
            [2**31],
            [0.5],
            [None],
            [{}],
            {},
            ["in"],
            ["in", "drop", "push 5"],
            ["in", 5],
            ["push 2147483648"],
            [{"op": "resume"}],
            [{"op": "x"}],
        ]
        compared = sum(
            self.compare_fields(op, version, values)
            for op in reading.OPERATIONS
            for version in reading.VERSIONS
        )
        self.assertGreater(compared, 4000)

    def compare_fields(self, op, version, values):
        """Holds each field of an operation with these values against the reader; how many."""
        validator = jsonschema.Draft202012Validator(json.loads(self.text))
        fields = entries.fields_of(op)
        whole = {
            "op": op,
            **{name: some_value(kind, version) for name, kind, *default in fields if not default},
        }
        calls = []
        for name in [name for name, *_ in fields] + ["op", "other"]:
            calls += [{**whole, name: value} for value in values]
            calls.append({field: value for field, value in whole.items() if field != name})
        for call in calls:
            data = fixtures.script([call], rate=8000, version=version)
            self.assertEqual(
                validator.is_valid(json.loads(data)), test_reading.fault_of(data) is None, data
            )
        return len(calls)

    @unittest.skipUnless(jsonschema, "the module jsonschema is not installed")
    def test_the_version_chooses_what_a_time_is(self):
        validator = jsonschema.Draft202012Validator(json.loads(self.text))
        for version, time, is_good in [
            (1, 128, True),
            (1, "128", False),
            (2, "128", True),
            (2, 128, False),
            (3, 128, False),
            (3, "128", False),
            ("2", "128", False),
        ]:
            inner = {"op": "suspend", "time": time}
            for call in (inner, {"op": "startRendering", "then": [inner]}):
                data = fixtures.script([call], rate=8000, version=version)
                self.assertEqual(validator.is_valid(json.loads(data)), is_good, data)
                self.assertEqual(test_reading.fault_of(data) is None, is_good, data)
        out_of_range = fixtures.script(
            [{"op": "suspend", "time": "137438953.473"}], rate=8000, version=2
        )
        self.assertTrue(validator.is_valid(json.loads(out_of_range)))
        self.assertEqual(test_reading.fault_of(out_of_range), "1 time OutOfRange")

    def test_the_pattern_of_instructions(self):
        rng, counts = random.Random("instructions"), collections.Counter()
        ends = [0, 1, 9, 10, 2**31 - 1, 2**31, 2**31 + 1, 2147480000, 2**32, 10**10, 10**30]
        for _ in range(12000):
            word = rng.choice([*programs.STACK, "pus", "skipzz", ""])
            number = rng.choice([*ends, rng.randint(0, 2**32), 10 ** rng.randint(0, 11)])
            digits = "".join(
                rng.choice("0123456789") if rng.random() < 0.1 else it for it in str(number)
            )
            space = rng.choice([" "] * 8 + ["", "  ", "\t", " +"])
            sign = rng.choice(["", "", "-", "-", "--"])
            number = f"{space}{sign}{rng.choice(['', '', '0', '000'])}{digits}"
            text = word + (number if rng.random() < 0.7 else "")
            text += rng.choice([""] * 9 + [" ", "\n"])
            pattern = re.search(entries.INSTRUCTION, text) and not re.search("[^a-z0-9 -]", text)
            cause = programs.cause_of(text)
            self.assertEqual(bool(pattern), cause is None, text)
            counts[cause] += 1
        self.assertGreater(min(counts[it] for it in (None, "WrongKind", "OutOfRange")), 200)

    @unittest.skipUnless(jsonschema, "the module jsonschema is not installed")
    def test_the_forms_of_disconnect(self):
        validator = jsonschema.Draft202012Validator(json.loads(self.text))
        for output in ("absent", None, 0):
            for to in ("absent", None, "a"):
                for place in ("absent", None, 0):
                    call = {
                        "op": "disconnect",
                        "from": "a",
                        "output": output,
                        "to": to,
                        "input": place,
                    }
                    data = fixtures.script(
                        [{name: value for name, value in call.items() if value != "absent"}]
                    )
                    self.assertEqual(
                        validator.is_valid(json.loads(data)),
                        test_reading.fault_of(data) is None,
                        call,
                    )

    @unittest.skipUnless(jsonschema, "the module jsonschema is not installed")
    def test_the_examples_are_good(self):
        validator = jsonschema.Draft202012Validator(json.loads(self.text))
        for name in os.listdir(fixtures.EXAMPLES):
            if name.endswith(".json"):
                with open(os.path.join(fixtures.EXAMPLES, name), encoding="utf-8") as file:
                    self.assertTrue(validator.is_valid(json.load(file)), name)


if __name__ == "__main__":
    unittest.main()
