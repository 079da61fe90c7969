"""Tests of the reference, on a small made-up repository and on this one."""

import contextlib
import io
import sys
import tempfile
import unittest
from pathlib import Path

from waplay_tools.places import TOP

from waplay_tools.reference import __main__ as command
from waplay_tools.reference import operations, picture
from waplay_tools.reference.code import items_of
from waplay_tools.reference.house import House
from waplay_tools.reference.links import dead_links
from waplay_tools.reference.pages import Reference
from waplay_tools.reference.parts import renewed
from waplay_tools.reference.scanning import Source, Unreadable

# A crate of scripts: two operations with the same field, one with a field of its own, one without.
SCRIPTS = {
    "crates/script_ast/src/lib.rt": "//! Scripts.\n",
    "crates/script_ast/specs/Lib.antt": "pub mod Entries\npub mod Fields\n",
    "crates/script_ast/specs/Fields.antt": """-- The names of fields.
abbrev pub field_word : Field → List ℕ
field_word As = codes "as"
field_word Gain = codes "gain"
""",
    "crates/script_ast/specs/Entries.antt": """-- The fields of operations.
abbrev pub create : List Row
create =
    row field.As kind.NewName Needed ∷
    row field.Gain kind.Fix (Number (neg_ℤ (pos 8))) ∷ []

abbrev pub name : List Row
name = row field.As kind.Name Null ∷ []

abbrev pub param_op_word : ParamOpName → List ℕ
param_op_word param.Hold = codes "hold"

abbrev pub op_word : OpName → List ℕ
op_word op.Create = codes "create"
op_word op.Find = codes "find"
op_word (op.Param name) = param_op_word name
op_word op.Rest = codes "rest"

abbrev pub param_op_fields : ParamOpName → List Row
param_op_fields param.Hold = name

abbrev pub fields_of : OpName → List Row
fields_of op.Create = create
fields_of op.Find = name
fields_of (op.Param name) = param_op_fields name
fields_of op.Rest = []

abbrev pub operations : List OpName
operations = op.Create ∷ op.Find ∷ op.Param param.Hold ∷ op.Rest ∷ []
""",
}
FILES = {
    "crates.txt": "# lowest first\nbase:\nboat: base clap\nboat_tests: boat\nwaplay: boat base\n",
    "crates/base/specs/Lib.antt": "pub mod Sizes\n",
    "crates/base/specs/Sizes.antt": """-- How large things are.
use Rattle.std.specs.Prelude.{ℕ, ◌+◌}

-- a size
-- in metres
pub record Size : Type 0 where
  -- from end to end
  pub long : ℕ

-- ---- sums

-- both together
infixl 10 ◌⊕◌
abbrev pub ◌⊕◌ : ℕ → ℕ → ℕ
a ⊕ b = a + b

abbrev pub twice : ℕ → ℕ
twice n = n ⊕ n
""",
    "crates/base/src/lib.rt": """//! Sizes
//! of things.
#![tactic(auto)]
ghost use Rattle.base.specs.Sizes.{twice};

/// Twice a number.
pub fn twice_of(number: u64) -> u64
    requires { number < 2 ^ 63 }
    ensures { result ≡ twice number }
{
    let text = "}";
    number * 2
}
""",
    "crates/boat/specs/Lib.antt": "pub mod Boat\n",
    "crates/boat/specs/Boat.antt": """-- A boat.
use Rattle.base.specs.Sizes.{Size}
use Rattle.base.specs.Sizes as size

-- how long it is when it is folded out
abbrev pub folded_out : Size → ℕ
folded_out boat = size.twice boat.long
""",
    "crates/boat/src/lib.rt": """//! Boats.
mod boat;
pub use boat::{Boat, launch};
pub use base::twice_of;
""",
    "crates/boat/src/boat.rt": """ghost use Rattle.boat.specs.Boat as spec;

/// A boat.
#[derive(Drop)]
pub struct Boat {
    /// Its length, from end to end.
    pub long: u64,
    oars: Vec<u8>,
}

impl Boat {
    /// Its length when it is folded out.
    pub fn length(&self, boat: u64) -> u64
        ensures length { result ≡ spec.folded_out self.now }
        ensures same { λ folded. folded ≡ folded }
    {
        self.long * 2
    }

    // Only for this crate.
    fn hidden(&self) {}
}

/// Puts a boat to water.
pub fn launch(boat: Boat) {
    drop(boat)
}
""",
    "crates/boat_tests/src/lib.rt": "//! Tests of boats.\n#[cfg(test)]\nmod boats;\n",
    "crates/waplay/src/main.rt": "//! The program.\nfn main(rt: HostRuntime) {}\n",
}


def run_tool(top, *words):
    """Runs the tool: its status, and what it prints."""
    told = io.StringIO()
    with contextlib.redirect_stdout(told), contextlib.redirect_stderr(told):
        argv, sys.argv = sys.argv, ["reference", "--top", str(top), *words]
        try:
            status = command.main()
        finally:
            sys.argv = argv
    return status, told.getvalue()


class MadeUp(unittest.TestCase):
    """A made-up repository of four crates."""

    def setUp(self):
        self.folder = tempfile.TemporaryDirectory()
        self.addCleanup(self.folder.cleanup)
        self.top = Path(self.folder.name)
        for name in FILES:
            self.put(name, FILES[name])

    def put(self, name, text):
        """Writes a file."""
        path = self.top / name
        path.parent.mkdir(parents=True, exist_ok=True)
        path.write_text(text, encoding="utf-8")

    def change(self, name, old, new):
        """Changes a file."""
        self.assertIn(old, FILES[name])
        self.put(name, FILES[name].replace(old, new))

    def pages(self):
        """The pages, by the names of their files."""
        return Reference(House(self.top)).text()

    def refused(self):
        """What is said of a repository that cannot be read."""
        with self.assertRaises(Unreadable) as caught:
            self.pages()
        return str(caught.exception)

    def run_tool(self, *words):
        """Runs the tool on the made-up repository."""
        return run_tool(self.top, *words)


class Pages(MadeUp):
    """What the pages have."""

    def test_index(self):
        index = self.pages()["index.md"]
        self.assertIn("| [`base`](base.md) | Sizes of things. | std alone |", index)
        self.assertIn("| [`boat`](boat.md) | Boats. | [`base`](base.md), `clap` |", index)
        self.assertIn("| `boat_tests` | Tests of boats. |", index)

    def test_call(self):
        page = self.pages()["boat.md"]
        self.assertIn("#### `Boat::length`\n\nIts length when it is folded out.\n", page)
        self.assertIn("    ensures length { result ≡ spec.folded_out self.now }\n", page)
        self.assertIn("\nNames [`folded_out`](boat.md#Boat.folded_out).\n", page)
        self.assertIn("#### `launch`", page)
        self.assertIn("It hands on `twice_of` of [`base`](base.md).", page)
        self.assertNotIn("hidden", page)

    def test_type(self):
        page = self.pages()["boat.md"]
        self.assertIn("    /// Its length, from end to end.\n    pub long: u64,\n", page)
        self.assertIn("    // and fields of its own\n}", page)
        self.assertNotIn("oars", page)

    def test_definition(self):
        page = self.pages()["base.md"]
        self.assertIn("#### `Size`\n\na size\nin metres\n", page)
        self.assertIn("  -- from end to end\n  pub long : ℕ\n", page)
        self.assertIn("*Sums*", page)
        self.assertIn("infixl 10 ◌⊕◌\nabbrev pub ◌⊕◌ : ℕ → ℕ → ℕ\na ⊕ b = a + b\n", page)
        self.assertIn("Names [`◌⊕◌`]", page)
        self.assertIn("In the contracts of [`twice_of`](base.md#call.twice_of).", page)

    def test_definition_names_others(self):
        page = self.pages()["boat.md"]
        self.assertIn("Names [`Size`](base.md#Sizes.Size), [`twice`](base.md#Sizes.twice).", page)

    def test_all_names(self):
        names = self.pages()["names.md"]
        self.assertIn("| [`Boat::length`](boat.md#call.Boat%3A%3Alength) | call |", names)
        self.assertIn(
            "| [`twice`](base.md#Sizes.twice) | definition | `base/specs/Sizes.antt` |", names
        )

    def test_changed_comment(self):
        self.change("crates/boat/src/boat.rt", "Puts a boat to water.", "Lets a boat float.")
        self.assertIn("Lets a boat float.", self.pages()["boat.md"])
        self.change("crates/base/specs/Sizes.antt", "-- in metres", "-- in feet")
        self.assertIn("a size\nin feet\n", self.pages()["base.md"])

    def test_changed_contract(self):
        self.change("crates/base/src/lib.rt", "number < 2 ^ 63", "number < 2 ^ 62")
        self.assertIn("requires { number < 2 ^ 62 }", self.pages()["base.md"])
        self.change("crates/base/specs/Sizes.antt", "twice n = n ⊕ n", "twice n = n + n")
        self.assertIn("twice n = n + n", self.pages()["base.md"])

    def test_links(self):
        pages = {Path(name): text for name, text in self.pages().items()}
        pages.pop(
            Path("index.md")
        )  # names the page of operations, which needs the crate of scripts
        self.assertEqual([], [it for it in dead_links(pages, self.top) if "index.md" not in it])


class Clauses(unittest.TestCase):
    def test_what_only_contracts_see_stands_among_the_clauses(self):
        text = "fn f(a: u64)\n    ghost q: { ℕ }\n    requires low { q ≤ a }\n{\n}\n\nfn g() {}\n"
        one, two = items_of(Source(Path("f.rt"), text))
        self.assertEqual(one.head, "fn f(a: u64)")
        shown = [clause.shown() for clause in one.clauses]
        self.assertEqual(shown, ["ghost q: { ℕ }", "requires low { q ≤ a }"])
        self.assertEqual((two.name, two.clauses), ("g", []))


class Refusals(MadeUp):
    """What cannot be read is named, and never left out."""

    def test_unknown_item(self):
        self.change("crates/boat/src/boat.rt", "/// Puts", "union Either {}\n/// Puts")
        self.assertIn("boat.rt:24: no item is known", self.refused())

    def test_unclosed_bracket(self):
        self.change("crates/boat/src/boat.rt", "drop(boat)\n}", "drop(boat)\n")
        self.assertIn("'{' is never closed", self.refused())

    def test_line_of_no_definition(self):
        self.change("crates/boat/specs/Boat.antt", "folded_out boat =", "folded_up boat =")
        self.assertIn("Boat.antt:7: a line that is none of folded_out", self.refused())

    def test_comment_of_nothing(self):
        self.change("crates/boat/specs/Boat.antt", "folded out\n", "folded out\n\n")
        self.assertIn("a comment that belongs to nothing", self.refused())

    def test_name_without_definition(self):
        self.change("crates/base/src/lib.rt", "Sizes.{twice}", "Sizes.{thrice}")
        self.assertIn("Rattle.base.specs.Sizes.thrice is no definition", self.refused())

    def test_name_handed_on_without_item(self):
        self.change("crates/boat/src/lib.rt", "{Boat, launch}", "{Boat, sink}")
        self.assertIn("no item is called sink", self.refused())

    def test_name_of_no_crate(self):
        self.change("crates/boat/src/lib.rt", "pub use base::", "pub use bay::")
        self.assertIn("bay::twice_of is of no known crate", self.refused())

    def test_file_that_no_list_has(self):
        self.put("crates/base/specs/Deeper/More.antt", "-- More.\n")
        self.assertIn("crates/base/specs/Lib.antt: not a list of the files", self.refused())

    def test_crate_without_comment(self):
        self.change("crates/boat/src/lib.rt", "//! Boats.\n", "")
        self.assertIn("no //! comment says what the crate is", self.refused())

    def test_crate_without_folder(self):
        self.put("crates.txt", FILES["crates.txt"] + "ship:\n")
        self.assertIn("crates.txt:6: 'ship:' names no crate", self.refused())


class Operations(MadeUp):
    """The table of operations."""

    def setUp(self):
        super().setUp()
        for name, text in SCRIPTS.items():
            self.put(name, text)
        self.put(
            "crates.txt",
            "script_ast:\n" + FILES["crates.txt"].replace("boat base", "boat script_ast"),
        )

    def rows(self):
        """The rows of the table, without its head."""
        return operations.fields_table(House(self.top))[2:]

    def test_rows(self):
        wanted = [
            "| `create` | `as` (new name), `gain` (fix, -8) |",
            "| `find`, `hold` | `as` (name or null, null) |",
            "| `rest` | none |",
        ]
        self.assertEqual(wanted, self.rows())

    def test_refused(self):
        name = "crates/script_ast/specs/Entries.antt"
        for old, new in (
            ("kind.Fix", "kind.Song"),
            ("Null", "Nil"),
            ("∷ []\n\nabbrev", "\n\nabbrev"),
        ):
            self.put(name, SCRIPTS[name].replace(old, new))
            with self.assertRaises(Unreadable):
                self.rows()


class Parts(MadeUp):
    """The parts of written documents."""

    def test_definition_and_contract(self):
        text = (
            "<!-- made by tools/reference: definition boat Boat folded_out -->\nformer\n"
            "<!-- end -->\n"
            "<!-- made by tools/reference: contract base twice_of -->\n<!-- end -->\n"
        )
        new = renewed(House(self.top), text, "A.md")
        self.assertIn("-- crates/boat/specs/Boat.antt\n\n-- how long it is when", new)
        self.assertIn("    ensures { result ≡ twice number }\n```\n<!-- end -->\n", new)
        self.assertNotIn("former", new)
        self.assertEqual(new, renewed(House(self.top), new, "A.md"))

    def test_refused(self):
        for told, said in (
            ("poems", "no part is called poems"),
            ("definition boat Boat keel", "keel"),
        ):
            with self.assertRaisesRegex(Unreadable, said):
                renewed(
                    House(self.top), f"<!-- made by tools/reference: {told} -->\n<!-- end -->", "A"
                )
        with self.assertRaisesRegex(Unreadable, "<!-- end --> is wanted"):
            renewed(House(self.top), "<!-- made by tools/reference: crates -->\n", "A.md")

    def test_check_and_write(self):
        self.put("A.md", "<!-- made by tools/reference: crates -->\n<!-- end -->\n")
        status, told = self.run_tool("--check")
        self.assertEqual(1, status)
        self.assertIn("A.md: a part that tools/reference makes is not what the sources say", told)
        self.assertEqual((0, "renewed A.md\n"), self.run_tool("--write"))
        self.assertEqual((0, ""), self.run_tool("--check"))
        self.change("crates/boat/src/lib.rt", "//! Boats.", "//! Ships.")
        self.assertEqual(1, self.run_tool("--check")[0])

    def test_dead_links(self):
        self.put("A.md", "# A b\n\n[b](#a-b) [c](#c) [d](docs/D.md) [e](https://example.org)\n")
        status, told = self.run_tool("--check")
        self.assertEqual(1, status)
        self.assertEqual(
            "A.md: #c: A.md has no such heading\nA.md: docs/D.md: docs/D.md is not there\n", told
        )

    def test_make(self):
        out = self.top / "out"
        status, told = self.run_tool(str(out))
        self.assertEqual(0, status)
        self.assertIn("index.md: 5 pages", told)
        self.assertIn("# boat\n", (out / "boat.md").read_text(encoding="utf-8"))
        (out / "ship.md").write_text("# ship\n", encoding="utf-8")
        self.run_tool(str(out))
        self.assertFalse((out / "ship.md").exists())

    def test_make_where_others_stand(self):
        self.put("out/ship.md", "# ship\n")
        self.run_tool(str(self.top / "out"))
        self.assertTrue((self.top / "out" / "ship.md").exists())

    def test_unreadable(self):
        self.change("crates/boat/src/lib.rt", "//! Boats.\n", "")
        status, told = self.run_tool("--check")
        self.assertEqual(2, status)
        self.assertIn("reference: crates/boat/src/lib.rt: no //! comment", told)


class ThisRepository(unittest.TestCase):
    """The sources as they are."""

    @classmethod
    def setUpClass(cls):
        cls.pages = Reference(House(TOP)).text()

    def test_links(self):
        pages = {Path(name): text for name, text in self.pages.items()}
        self.assertEqual([], dead_links(pages, TOP / "no such folder"))

    def test_picture(self):
        house = House(TOP)
        drawn = picture.svg(house)
        for name in house.product:
            self.assertIn(f">{name}</text>", drawn)
        house.product.append("raft")
        with self.assertRaisesRegex(Unreadable, "differ in raft"):
            picture.svg(house)

    def test_operation(self):
        fields = ("`node` (name)", "`when` (time, 0)", "`offset` (time, 0)")
        row = f"| `start` | {', '.join(fields)}, `duration` (time or null, null) |"
        self.assertIn(row, self.pages["operations.md"])
        self.assertIn("| `createOscillator` | `oscillator` |", self.pages["operations.md"])

    def test_documents(self):
        self.assertEqual((0, ""), run_tool(TOP, "--check"))

    def test_anchors_differ(self):
        for name, text in self.pages.items():
            anchors = [line for line in text.splitlines() if line.startswith("<a id=")]
            self.assertEqual(len(set(anchors)), len(anchors), name)


if __name__ == "__main__":
    unittest.main()
