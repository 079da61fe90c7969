"""Tests of archives: bags by RFC 8493, adding, verifying, going on, and changes of single bytes."""

import concurrent.futures
import contextlib
import hashlib
import importlib.util
import io
import json
import os
import shutil
import subprocess
import sys
import tempfile
import time
import unittest
import unittest.mock
from pathlib import Path

import fixtures
from test_report import Page
from test_report_take import CONSTANT, REPORT, floats, take

from waplay_tools.archive import __main__ as command
from waplay_tools.archive import bags, cluster, performing, verifying
from waplay_tools.archive.adding import Program, page_files
from waplay_tools.archive.performing import Kept, Task
from waplay_tools.reporting.text import BadInput

CALCULATION = """import sys
from waplay_tools.expecting import sessions
data = sys.stdin.buffer.read()
status, text, session = sessions.replayed(data, ".")
sys.stdout.write(text)
if session and session.samples:
    open(sys.argv[1], "wb").write(sessions.wav_bytes(session))
sys.exit(status)
"""  # the second calculation in the place of the program


class Archives(unittest.TestCase):
    @classmethod
    def setUpClass(cls):
        folder = tempfile.TemporaryDirectory()
        cls.addClassCleanup(folder.cleanup)
        cls.top = Path(folder.name)
        cls.program = fixtures.program(folder.name, CALCULATION)
        cls.take = cls.top / "piece"
        cls.take.mkdir()
        shutil.copy(fixtures.EXAMPLES / "kick.wav", cls.take / "1-b1.wav")
        shutil.copy(fixtures.EXAMPLES / "hat.wav", cls.take / "unused.wav")
        calls = [{"op": "decodeAudioData", "as": "b", "path": "1-b1.wav"}, *CONSTANT]
        take(str(cls.take), fixtures.script(calls, length=256), floats([0.25] * 256), REPORT)
        fixtures.write(cls.top, "piece.html", '<script src="lib.js"></script><img src="no.png">')
        fixtures.write(cls.top, "lib.js", "// nothing")
        told = {"page": str(cls.top / "piece.html"), "contexts": []}
        fixtures.write(cls.take, "take.json", json.dumps(told))
        cls.kept = cls.top / "kept"
        status, out, err = cls.run_archive("add", cls.kept, cls.take, cls.take)
        assert (status, err) == (0, ""), err

    @classmethod
    def run_archive(cls, *words):
        """The status and what is printed."""
        out, err = io.StringIO(), io.StringIO()
        all_words = ["archive", *map(str, words), "--waplay", cls.program, "--processes", "1"]
        with unittest.mock.patch("sys.argv", all_words):
            with contextlib.redirect_stdout(out), contextlib.redirect_stderr(err):
                return command.main(), out.getvalue(), err.getvalue()

    def copied(self):
        """An archive of its own for a test."""
        folder = tempfile.TemporaryDirectory()
        self.addCleanup(folder.cleanup)
        shutil.copytree(self.kept, Path(folder.name) / "kept")
        return Path(folder.name) / "kept"

    def test_what_a_bag_has(self):
        data = {it.relative_to(self.kept / "piece").as_posix()
                for it in bags.files_below(self.kept / "piece")}
        self.assertEqual(data, {
            "bagit.txt", "bag-info.txt", "manifest-sha256.txt", "tagmanifest-sha256.txt",
            *(f"data/{name}" for name in (
                "1.json", "1.txt", "1.wav", "1-b1.wav", "unused.wav", "1.browser.wav",
                "1.report.txt", "take.json", "report.html", "page/piece.html", "page/lib.js"))})
        self.assertEqual((self.kept / "piece" / "bagit.txt").read_text(),
                         "BagIt-Version: 1.0\nTag-File-Character-Encoding: UTF-8\n")

    def test_manifests_are_those_of_the_recommendation(self):
        bag = self.kept / "piece"
        lines = (bag / "manifest-sha256.txt").read_text().splitlines()
        for line in lines:
            digest, path = line.split("  ")
            self.assertEqual(digest, hashlib.sha256((bag / path).read_bytes()).hexdigest())
        size = sum(it.stat().st_size for it in bags.files_below(bag / "data"))
        info = bags.info_of(bag)
        self.assertEqual(info["Payload-Oxum"], f"{size}.{len(lines)}")
        self.assertEqual(info["Waplay-Program-SHA256"],
                         hashlib.sha256(Path(self.program).read_bytes()).hexdigest())

    @unittest.skipUnless(importlib.util.find_spec("bagit"), "bagit is not installed")
    def test_another_reader_finds_the_bag_good(self):
        bagit = importlib.import_module("bagit")
        self.assertTrue(bagit.Bag(str(self.kept / "piece")).validate())

    def test_names_of_files_that_manifests_have_to_encode(self):
        bag = self.copied() / "odd"
        (bag / "data").mkdir(parents=True)
        for name in ("a%b", "c\nd", "e\rf", "\u00e9"):
            fixtures.write(bag / "data", name, name)
        digest = bags.close(bag, {})
        self.assertEqual(bags.check(bag, digest), [])
        text = (bag / "manifest-sha256.txt").read_text()
        self.assertEqual(len(text.splitlines()), 4)
        self.assertIn("data/a%25b", text)

    def test_a_good_archive(self):
        archive = self.copied()
        self.assertEqual(self.run_archive("verify", archive), (0, "2 of 2 bags are as kept\n", ""))
        status, out, _ = self.run_archive("list", archive)
        self.assertEqual((status, [line.split()[0] for line in out.splitlines()]),
                         (0, ["piece", "piece-2"]))
        page = Page((archive / "verified.html").read_bytes())
        self.assertEqual(page.wrong, [])
        self.assertIn("2 bags are as kept.", page.text())

    def test_a_byte_that_changes_is_found_in_each_file(self):
        archive = self.copied()
        for path in sorted(bags.files_below(archive / "piece")):
            kept = path.read_bytes()
            for place in {0, len(kept) // 2, len(kept) - 1}:
                changed = bytearray(kept)
                changed[place] ^= 1
                path.write_bytes(changed)
                status, out, _ = self.run_archive("verify", archive)
                name = path.relative_to(archive / "piece").as_posix()
                self.assertEqual(status, 1, name)
                self.assertIn(f"piece: {name} ", out)
                self.assertNotIn("piece-2: ", out)
            path.write_bytes(kept)

    def test_files_that_are_gone_or_new(self):
        archive = self.copied()
        (archive / "piece" / "data" / "1.txt").unlink()
        fixtures.write(archive / "piece" / "data", "new.txt", "new")
        fixtures.write(archive / "piece", "note.txt", "new")
        _, out, _ = self.run_archive("verify", archive)
        for told in ("data/1.txt is missing", "data/new.txt does not stand in manifest-sha256.txt",
                     "note.txt does not stand in tagmanifest-sha256.txt"):
            self.assertIn(f"piece: {told}\n", out)
        shutil.rmtree(archive / "piece-2")
        self.assertIn("piece-2: piece-2 is missing", self.run_archive("verify", archive)[1])

    def test_a_byte_that_changes_in_the_list(self):
        archive = self.copied()
        text = (archive / "archive.jsonl").read_bytes()
        for place in range(0, len(text), 7):
            changed = bytearray(text)
            changed[place] ^= 1
            (archive / "archive.jsonl").write_bytes(changed)
            status, out, _ = self.run_archive("list", archive)
            self.assertEqual(status, 1, (place, out))
            self.assertRegex(out, r"line \d of archive.jsonl")

    def test_a_list_that_was_changed(self):
        archive = self.copied()
        text = (archive / "archive.jsonl").read_bytes()
        (archive / "archive.jsonl").write_bytes(text[1:])
        status, out, _ = self.run_archive("verify", archive)
        self.assertEqual(status, 1)
        self.assertIn("line 1 of archive.jsonl can't be read\n", out)
        self.assertRegex(out, r"piece(-2)? is no bag of archive.jsonl\n")

    def test_a_program_that_makes_another_sound(self):
        archive = self.copied()
        other = fixtures.program(archive.parent, CALCULATION.replace(
            "if session", "if session:\n    session.samples[3][0] += 5\nif session"))
        with unittest.mock.patch.object(type(self), "program", other):
            status, out, _ = self.run_archive("verify", archive)
        self.assertEqual(status, 1)
        self.assertIn("piece: data/1.wav has other samples: 1 of them, first at frame 3 of channel"
                      " 0, kept 2097152 and made 2097157\n", out)
        other = fixtures.program(archive.parent, CALCULATION.replace(
            "sys.stdout.write(text)", "sys.stdout.write(text.replace('2 ok', '2 throw TypeError'))"
        ))
        with unittest.mock.patch.object(type(self), "program", other):
            out = self.run_archive("verify", archive)[1]
        self.assertIn('piece: data/1.txt is another transcript from line 2 on: kept "2 ok", made'
                      ' "2 throw TypeError"\n', out)

    def test_a_run_that_was_stopped_goes_on(self):
        archive = self.copied()
        done = iter(verifying.on_this_machine(
            archive, {"piece": "", "piece-2": ""}, Program.at(Path(self.program)), 1))
        ledger = verifying.Ledger(archive, Program.at(Path(self.program)), False)
        ledger.add(next(done))
        ledger.file.write('{"bag": "cut')
        ledger.file.close()
        done.close()
        seen = []
        here = verifying.on_this_machine

        def noting(archive, digests, *more):
            seen.extend(digests)
            return here(archive, digests, *more)

        with unittest.mock.patch.object(verifying, "on_this_machine", noting):
            status, out, _ = self.run_archive("verify", archive)
            self.assertEqual((status, out), (
                0, "1 bag was verified before; going on.\n2 of 2 bags are as kept\n"))
            self.assertEqual(len(seen), 1)
            self.run_archive("verify", archive)  # a run that came to its end is not gone on with
            self.assertEqual(len(seen), 3)
        lines = (archive / "verified.jsonl").read_text().splitlines()
        self.assertEqual(len(lines), 4)
        self.assertIn("finished", json.loads(lines[-1]))

    def test_takes_that_cannot_be_added(self):
        archive = self.copied()
        status, _, err = self.run_archive("add", archive, self.top / "nowhere")
        self.assertEqual(status, 2)
        self.assertIn("nowhere is not added: ", err)
        other = archive.parent / "other"
        shutil.copytree(self.take, other)
        fixtures.write(other, "1.txt", "end idle\n")
        status, _, err = self.run_archive("add", archive, other)
        self.assertEqual((status, err), (2, f"archive: {other} is not added: 1.txt is another one"
                                            " than this program makes\n"))
        self.assertEqual(sorted(os.listdir(archive)), sorted(os.listdir(self.kept)))

    def test_words_that_are_of_no_use(self):
        self.assertEqual(self.run_archive("verify", self.top)[0], 2)
        self.assertIn("is no archive", self.run_archive("verify", self.top)[2])
        self.assertIn("add wants", self.run_archive("add", self.top / "new")[2])
        self.assertIn("alone", self.run_archive("list", self.kept, self.take)[2])

    def test_results_for_test_suites(self):
        archive = self.copied()
        path = archive.parent / "results.tap"
        self.run_archive("verify", archive, "--tap", path)
        self.assertEqual(path.read_text(), "TAP version 13\n1..2\n" + "".join(
            f"ok {at} - {json.loads(line)['bag']}\n" for at, line in enumerate(
                (archive / "verified.jsonl").read_text().splitlines()[1:3], 1)))

    def test_a_page_and_what_it_names(self):
        found = page_files(str(self.top / "piece.html"))
        self.assertEqual(sorted(found), ["page/lib.js", "page/piece.html"])
        self.assertEqual(page_files("http://localhost/piece.html"), {})

    def test_replays_on_another_machine_have_all_that_they_need(self):
        task = verifying.task_of(self.kept / "piece", True)
        self.assertEqual(sorted(task.files), ["1-b1.wav", "1.json", "take.json", "unused.wav"])
        (outcome,) = performing.perform(task, Path(self.program).read_bytes())
        self.assertEqual((outcome.transcript, outcome.sound, outcome.has_sound), (None, None, True))
        (outcome,) = performing.perform(Task([Kept(1, "", "")], None, task.files), "/nowhere/it")
        self.assertEqual(outcome.reason, "the program can't be run: No such file or directory")


ALONE = """import pickle, sys
work, task, program = pickle.load(open(sys.argv[1], "rb"))
print(work(task, program))
try:
    import waplay_tools
except ImportError:
    print("alone")
"""


@unittest.skipUnless(importlib.util.find_spec("cloudpickle"), "cloudpickle is not installed")
class Sending(unittest.TestCase):
    def test_what_is_sent_needs_nothing_of_the_tools(self):
        cloudpickle = importlib.import_module("cloudpickle")
        calls = fixtures.script(CONSTANT)
        task = Task([Kept(1, hashlib.sha256(b"").hexdigest(), None)], None, {"1.json": calls})
        program = b"#!/bin/sh\nexit 0\n"
        with tempfile.TemporaryDirectory() as folder:
            data = cloudpickle.dumps((cluster.worker_function(), cluster.packed(task), program))
            path = fixtures.write(folder, "sent", data)
            run = subprocess.run([sys.executable, "-I", "-c", ALONE, path], capture_output=True,
                                 text=True, check=False, cwd=folder)
        self.assertEqual(run.stderr, "")
        self.assertEqual(run.stdout, "[{'number': 1, 'transcript': None, 'sound': None,"
                                     " 'has_sound': False, 'reason': ''}]\nalone\n")

    @unittest.skipUnless(importlib.util.find_spec("distributed"), "distributed is not installed")
    def test_a_scheduler_that_goes_away(self):
        for fault in (concurrent.futures.CancelledError("it"), OSError("closed")):
            client = unittest.mock.Mock()
            client.nthreads.return_value = {"worker": 1}
            client.scatter.side_effect = fault
            with unittest.mock.patch.object(cluster, "client_of", lambda address: client):
                results = cluster.on_a_cluster(Path("."), {}, Program("/bin/sh", ""), "tcp://it")
                with self.assertRaisesRegex(BadInput, "tcp://it went away; the same command goes"):
                    list(results)
            client.close.assert_called_once()


WAITING = """import os, sys, time
from waplay_tools.archive.processes import pool
with pool(1) as made:
    print(made.submit(os.getpid).result(), flush=True)
    made.submit(time.sleep, 600).result()
"""


class Processes(unittest.TestCase):
    def test_they_end_with_the_one_that_started_them(self):
        with tempfile.TemporaryDirectory() as folder:
            run = subprocess.Popen(["sh", "-c", f"exec {fixtures.program(folder, WAITING)}"],
                                   stdout=subprocess.PIPE, text=True)
            child = int(run.stdout.readline())
            run.kill()
            run.communicate()
        deadline = time.monotonic() + 30
        while Path(f"/proc/{child}").exists() and time.monotonic() < deadline:
            time.sleep(0.1)
        self.assertFalse(Path(f"/proc/{child}").exists())


@unittest.skipUnless(importlib.util.find_spec("distributed"), "distributed is not installed")
class Clusters(Archives):
    """The same, with replays on a cluster of this process."""

    @classmethod
    def setUpClass(cls):
        distributed = importlib.import_module("distributed")
        cls.cluster = distributed.LocalCluster(
            n_workers=1, threads_per_worker=2, processes=False, dashboard_address=None
        )
        cls.addClassCleanup(cls.cluster.close)
        super().setUpClass()

    @classmethod
    def run_archive(cls, *words):
        """With the scheduler."""
        more = ("--scheduler", cls.cluster.scheduler_address) if words[0] == "verify" else ()
        return super().run_archive(*words, *more)

    test_a_run_that_was_stopped_goes_on = None
    test_a_byte_that_changes_is_found_in_each_file = None


if __name__ == "__main__":
    unittest.main()
