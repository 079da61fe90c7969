"""Functions of the tools are short and have hints for what they take and give, and public ones have
a docstring."""

import ast
import unittest
from collections.abc import Iterator
from pathlib import Path

from waplay_tools.places import TOP

PACKAGE = TOP / "tools" / "waplay_tools"
MOST_LINES = 50  # of a function

Function = ast.FunctionDef | ast.AsyncFunctionDef


def functions_in(tree: ast.AST, is_class: bool = False) -> Iterator[tuple[Function, bool]]:
    """The functions of a tree, within others too, and of each whether it is a method."""
    for node in ast.iter_child_nodes(tree):
        if isinstance(node, Function):
            yield node, is_class
        yield from functions_in(node, isinstance(node, ast.ClassDef))


def unhinted(function: Function, is_method: bool) -> list[str]:
    """The parameters that have no hint. The object of a method needs none."""
    told = function.args
    names = [*told.posonlyargs, *told.args]
    is_bound = is_method and not any(
        isinstance(it, ast.Name) and it.id == "staticmethod" for it in function.decorator_list
    )
    others = [*told.kwonlyargs, *filter(None, (told.vararg, told.kwarg))]
    return [it.arg for it in names[is_bound:] + others if it.annotation is None]


def lines_of(function: Function) -> int:
    """How many lines a function has."""
    return (function.end_lineno or 0) - function.lineno + 1


def lacking(text: str, name: str) -> Iterator[str]:
    """What is wrong with functions of a module of this name."""
    for function, is_method in functions_in(ast.parse(text)):
        where = f"{name}:{function.lineno}: {function.name}"
        if lines_of(function) > MOST_LINES:
            yield f"{where} has {lines_of(function)} lines"
        if function.returns is None:
            yield f"{where} does not tell what it gives"
        if not function.name.startswith("_") and not ast.get_docstring(function):
            yield f"{where} has no docstring"
        for parameter in unhinted(function, is_method):
            yield f"{where} does not tell what {parameter} is"


def lacking_in(path: Path) -> list[str]:
    """The same of a file of the package."""
    return list(lacking(path.read_text(encoding="utf-8"), str(path.relative_to(PACKAGE))))


class Functions(unittest.TestCase):
    def test_they_are_short_and_tell_what_a_caller_needs(self):
        paths = sorted(PACKAGE.rglob("*.py"))
        self.assertGreater(len(paths), 50)
        for path in paths:
            self.assertEqual(lacking_in(path), [])

    def test_what_is_lacking_is_found(self):
        whole = 'def f(self, a: int, *, b: int = 0) -> int:\n    """Gives a."""\n'
        within = "class C:\n" + "".join(f"    {line}\n" for line in whole.splitlines())
        self.assertEqual(list(lacking(within, "m")), [])
        self.assertEqual(list(lacking("def _f() -> None: pass", "m")), [])
        for change, found in [
            ((" -> int", ""), "m:2: f does not tell what it gives"),
            (('"""Gives a."""', "pass"), "m:2: f has no docstring"),
            (("a: int", "a"), "m:2: f does not tell what a is"),
            (("b: int = 0", "b"), "m:2: f does not tell what b is"),
            (("self,", "self, *c,"), "m:2: f does not tell what c is"),
        ]:
            changed = within.replace(*change).replace("*c, a: int, *,", "*c, a: int,")
            self.assertEqual(list(lacking(changed, "m")), [found])
        self.assertEqual(list(lacking(whole, "m")), ["m:1: f does not tell what self is"])
        long = "def _f() -> None:\n" + "    pass\n" * MOST_LINES
        self.assertEqual(list(lacking(long, "m")), ["m:1: _f has 51 lines"])


if __name__ == "__main__":
    unittest.main()
