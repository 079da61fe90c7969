"""Tests of tools/piece that need no browser: how a piece is judged, what a page may ask for, and
that takes are compared as tools/compare does."""

import argparse
import array
import contextlib
import io
import os
import shutil
import unittest
from collections.abc import Callable
from pathlib import Path
from unittest import mock

import fixtures
from recording import temporary_folder
from test_report import Page
from test_report_take import CONSTANT, take

from waplay_tools import compare
from waplay_tools.piece import __main__ as command
from waplay_tools.piece import table, taking
from waplay_tools.recorder.command import Refused
from waplay_tools.recorder.driving import Take
from waplay_tools.recorder.replaying import Replay, greatest_between
from waplay_tools.recorder.results import Recorded

SCRIPT = '{"version": 1, "context": {"channels":1,"length":48000,"rate":48000}, "calls": []}'


def context(*grades: str, outcome: str = "agrees", apart: float | None = 0.0,
            peak: float = 0.5, silent: bool = False) -> taking.Context:
    """A context with losses of these grades, and such a replay."""
    kinds = [{"kind": f"some-{grade}", "grade": grade, "count": 1, "error": 0}
             for grade in grades]
    recorded = Recorded(1, SCRIPT, ["context 1"], "whole", kinds, {},
                        rendered=[array.array("f", [0, peak])], rate=48000)
    line = f"replay: greatest difference from the browser {apart}"
    return taking.Context(recorded, Replay([line], outcome, apart, silent))


def piece(*contexts: taking.Context, **words: list[str]) -> taking.Piece:
    """A piece of these contexts, judged."""
    taken = Take([], [], words.get("exceptions", []), words.get("missing", []), [])
    made = taking.Piece("a/b.html", Path("b.waplay"), list(contexts), taken)
    taking.judge(made)
    return made


class Judging(unittest.TestCase):
    def test_what_is_fine(self) -> None:
        made = piece(context("exact", "rounded", "lowered", "frozen"))
        self.assertEqual((made.status, made.reason), (0, ""))

    def test_what_is_not(self) -> None:
        for made, reason in [
            (context("heard"), "context 1: some-heard is heard"),
            (context("refused", "heard"), "context 1: some-refused is refused"),
            (context(peak=0.0), "context 1: it is silent"),
            (context(silent=True), "context 1: it is silent"),
            (context(outcome="differs", apart=0.5),
             "context 1: greatest difference from the browser 0.5"),
            (context("heard", outcome="differs", apart=0.5),
             "context 1: greatest difference from the browser 0.5; some-heard"),
            (context(outcome="fails", apart=None),
             "context 1: greatest difference from the browser None"),
        ]:
            found = piece(made)
            self.assertEqual((found.status, found.reason), (1, reason))

    def test_the_worst_reason_is_told(self) -> None:
        made = piece(context("heard"), context("refused"), exceptions=["threw Error: x"])
        self.assertEqual((made.status, made.reason), (1, "the page threw Error: x"))

    def test_a_line_of_a_context(self) -> None:
        made = context("frozen", apart=4.8e-7)
        made.recorded.frozen, made.recorded.live = [{"name": "a", "kind": "B", "why": "c"}], 0.25
        self.assertEqual(made.line, "1: 1 s, whole, 25 % live, agrees with the browser to 4.8e-07")
        self.assertEqual(context("heard", outcome="differs", apart=0.7).line,
                         "1: 1 s, whole, 0.7 from the browser, greatest difference from the "
                         "browser 0.7; some-heard")

    def test_folders(self) -> None:
        for page, folder in [("a/b.html", "a/b.waplay"), ("http://x/y/z.html?q=1", "z.waplay"),
                             ("https://host/", "host.waplay")]:
            self.assertEqual(taking.default_out(page), Path(folder))


class Pages(unittest.TestCase):
    def test_what_a_page_may_ask_for(self) -> None:
        path = temporary_folder(self) / "a.html"
        for text, words in [
            ("<p>", []),
            ("<meta name=\"waplay\" content=\"--realtime 20 --click '#start'\">",
             ["--realtime", "20", "--click", "#start"]),
            ('<meta name="waplay" content="--until &quot;a > 1&quot;">', ["--until", "a > 1"]),
        ]:
            path.write_text(text, encoding="utf-8")
            self.assertEqual(table.words_of(path), words)
        for word in ("--out=/", "--chromium x", "--waplay=x", "--root /"):
            path.write_text(f'<meta name="waplay" content="{word}">', encoding="utf-8")
            with self.assertRaises(Refused):
                table.words_of(path)

    def test_a_name_in_a_table_leads_to_the_page(self) -> None:
        made = piece(context())
        made.out = Path("a b/(1)")
        self.assertEqual(table.link_of("x", made), "[x](a%20b/%281%29/index.html)")
        made.no_page = "There is no page of it."
        self.assertEqual(table.link_of("x", made), "[x](a%20b/%281%29)")

    def test_the_page_is_that_of_a_report(self) -> None:
        room = temporary_folder(self)
        take(str(room), fixtures.script(CONSTANT, length=256))
        made = piece(context())
        made.out = room
        taking.make_page(made, 2.0**-16)
        self.assertEqual((made.no_page, made.shown), ("", room / "index.html"))
        page = Page((room / "index.html").read_bytes())
        self.assertEqual((page.wrong, len(page.of("audio"))), ([], 1))

    def test_a_piece_that_was_not_replayed_has_no_page(self) -> None:
        room = temporary_folder(self)
        (room / "1.json").write_bytes(fixtures.script(CONSTANT))
        made = piece(context())
        made.out = room
        taking.make_page(made, 2.0**-16)
        told = f"{room}/1.txt is not there: tools/record makes it with --replay"
        self.assertEqual((made.no_page, made.shown), (f"There is no page of it: {told}.", room))


class Differences(unittest.TestCase):
    def test_the_greatest_difference(self) -> None:
        self.assertEqual(greatest_between([[0, 5]], [[0, 5]]), (0.0, 0, 0))
        self.assertEqual(greatest_between([[0, 5], [0, 2**23]], [[1, 5], [0, 0]]), (1.0, 1, 1))


class CommandLine(unittest.TestCase):
    def run_it(self, main: Callable[[], int], *words: object) -> tuple[int, str, str]:
        """The status of a command, and what it prints."""
        out, err = io.StringIO(), io.StringIO()
        with mock.patch("sys.argv", ["it", *map(str, words)]):
            with contextlib.redirect_stdout(out), contextlib.redirect_stderr(err):
                return main(), out.getvalue(), err.getvalue()

    def takes(self) -> tuple[Path, Path, Path]:
        """The folders of a take, of one that is the same, and of one that sounds other."""
        room = temporary_folder(self)
        louder = [{**CONSTANT[0], "offset": 2**23}, *CONSTANT[1:]]
        for name, calls in ("a", CONSTANT), ("b", CONSTANT), ("c", louder):
            (room / name).mkdir()
            take(str(room / name), fixtures.script(calls, length=256))
        return room / "a", room / "b", room / "c"

    def test_what_is_refused(self) -> None:
        one = "tools/piece: It takes one of PAGE, --compare OLD NEW and --all FOLDER.\n"
        results = "tools/piece: --junit and --tap are for --compare and --expect.\n"
        room = temporary_folder(self)
        none = f"tools/piece: {room} is no folder of a take: it has no script, as 1.json\n"
        for words, sentence in [
            ([], one), (["a.html", "--all", "b"], one), (["a.html", "--tap"], results),
            (["--all", "b", "--junit", "c"], results),
            (["--all", "b", "--expect", "c"], "tools/piece: --expect is for a PAGE.\n"),
            ([f"{room}/none.html"], f"tools/piece: There is no page {room}/none.html.\n"),
            (["--all", str(room)], f"tools/piece: There is no page in {room}.\n"),
            (["--compare", str(room), str(room)], none),
            ([f"{room}/none.html", "--expect", str(room)], none),
        ]:
            self.assertEqual(self.run_it(command.main, *words), (2, "", sentence))

    def test_takes_are_compared_as_tools_compare_does(self) -> None:
        old, same, other = self.takes()
        for new, status in (same, 0), (other, 1):
            for more in [], ["--tap"], ["--tolerance", "0.25"]:
                found = self.run_it(command.main, "--compare", old, new, *more)
                self.assertEqual(found[:2], self.run_it(compare.main, old, new, *more)[:2])
                self.assertEqual(found[0], status)
        self.assertIn("tools/piece: Context 1: calls are other ones (1 changed), first call 1:",
                      found[2])
        self.assertNotIn("samples differ", found[1])  # 0.25 apart, which is allowed
        page = Page((other / "compared.html").read_bytes())
        self.assertEqual((page.wrong, len(page.of("audio"))), ([], 2))
        self.run_it(command.main, "--compare", old, same, "-o", old / "compared.html")
        self.assertTrue((old / "compared.html").is_file())

    def expected(self, kept: Path, made: Path, *words: object) -> tuple[int, str, str]:
        """What comes of a page whose take is this one, beside one that is kept."""
        def recorded(_: argparse.Namespace, __: object, out: Path, ___: object) -> taking.Piece:
            shutil.copytree(made, out)
            found = piece(context("heard"))
            found.out = out
            return found

        page = made.parent / "a.html"
        page.write_text("<p>", encoding="utf-8")
        shutil.rmtree(made.parent / "a.waplay", ignore_errors=True)
        with mock.patch.object(taking, "take_piece", recorded):
            return self.run_it(command.main, page, "--expect", kept, *words)

    def test_a_take_that_is_as_expected(self) -> None:
        kept, same, _ = self.takes()
        status, out, err = self.expected(kept, same)
        self.assertEqual((status, err), (0, ""))  # what is heard in both is as expected
        self.assertEqual(out.splitlines()[1:], [
            "context 1: calls: the same", "context 1: answers: the same",
            "context 1: samples: the same"])
        self.assertTrue((kept.parent / "a.waplay" / "compared.html").is_file())

    def test_a_take_that_is_not_as_expected(self) -> None:
        kept, same, other = self.takes()
        status, _, err = self.expected(kept, other)
        self.assertEqual(status, 1)
        self.assertRegex(err, r"^tools/piece: Context 1: calls are other ones \(1 changed\).*\n$")
        _, out, err = self.expected(kept, other, "--tap")
        self.assertTrue(out.startswith("TAP version 13\n1..3\nnot ok 1 - context 1: calls\n"))
        self.assertIn("index.html\n", err)
        lines = (kept / "1.txt").read_text(encoding="utf-8")
        (kept / "1.txt").write_text(lines.replace("2 ok", "2 throw TypeError"), encoding="utf-8")
        status, _, err = self.expected(kept, same)
        self.assertEqual((status, err), (
            1, "tools/piece: Context 1: 1 answer differs, first call 2, connect, was 2 throw "
               "TypeError and is 2 ok.\n"))

    def test_the_kept_take_is_not_replaced(self) -> None:
        kept, same, _ = self.takes()
        before = sorted(os.listdir(kept))
        status, _, err = self.expected(kept, same, "-o", kept)
        self.assertEqual((status, sorted(os.listdir(kept))), (2, before))
        self.assertIn(f"The new take would replace {kept}", err)


if __name__ == "__main__":
    unittest.main()
