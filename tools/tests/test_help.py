"""Each command tells what it does with --help, and each of its options has words."""

import argparse
import contextlib
import importlib
import io
import re
import tomllib
import types
import unittest
import unittest.mock

from waplay_tools.places import TOP

STARTED = re.compile(r'/python" (\w+) "\$@"$', re.M)


def commands() -> dict[str, str]:
    """The modules that small files start, by the names of the files."""
    found = {"expected": "expecting"}
    for path in [TOP / "test", *sorted((TOP / "tools").iterdir())]:
        started = STARTED.search(path.read_text(encoding="utf-8")) if path.is_file() else None
        if started:
            found[path.name] = started[1]
    return found


def module_of(name: str) -> types.ModuleType:
    """The module in which the function stands that a command starts with."""
    module = importlib.import_module(f"waplay_tools.{name}")
    if hasattr(module, "__path__"):
        module = importlib.import_module(f"waplay_tools.{name}.__main__")
    return module


def parser_of(name: str) -> tuple[argparse.ArgumentParser, str]:
    """What a command with --help reads its words with, and what it prints."""
    parsers = []
    parse_args = argparse.ArgumentParser.parse_args

    def seen(parser: argparse.ArgumentParser) -> argparse.Namespace:
        parsers.append(parser)
        return parse_args(parser)

    text = io.StringIO()
    with contextlib.redirect_stdout(text), contextlib.suppress(SystemExit):
        with unittest.mock.patch("argparse.ArgumentParser.parse_args", seen):
            with unittest.mock.patch("sys.argv", [name, "--help"]):
                module_of(name).main()
    return parsers[0], text.getvalue()


class Help(unittest.TestCase):
    def test_there_are_many_commands(self):
        self.assertGreater(len(commands()), 15)

    def test_each_command_has_an_entry_point(self):
        told = tomllib.loads((TOP / "tools" / "pyproject.toml").read_text(encoding="utf-8"))
        wanted = {
            f"waplay-{name}": f"{module_of(module).__name__}:main"
            for name, module in commands().items()
            if name != "test"
        }
        self.assertEqual(told["project"]["scripts"], wanted)

    def test_each_command_and_each_option_has_words(self):
        for name in commands().values():
            parser, text = parser_of(name)
            self.assertTrue(text.startswith("usage: "), name)
            self.assertTrue(parser.description, name)
            self.assertNotIn("\n", parser.usage or "", name)
            for action in parser._actions:
                told = action.option_strings or [action.dest]
                self.assertTrue(action.help, f"{name}: {told} has no help")


if __name__ == "__main__":
    unittest.main()
