"""No command writes over what it reads, and each file is written whole or not at all."""

from __future__ import annotations

import os
import pathlib
import shutil
import signal
import stat
import subprocess
import sys
import time
import unittest
from typing import Optional, Sequence
from unittest import mock

from rudekpi import Network, files, outputs
from rudekpi.log_transcripts import Transcript
from support import TOP, Timed

EDGES = "1 2\n2 3\n3 4\n"
LOG = '{"nodes": ["ann", "bob"]}\n{"link": ["ann", "bob"]}\n{"move": "ann", "pointer": "bob"}\n'
PLAN = '{"graphs": ["g.txt"], "seeds": 1}\n'
SWEEP = ["sweep", "--graph", "g.txt", "--seeds", "2", "--processes", "1"]


class Folder(Timed):
    """A folder with a file of each kind that a command reads."""

    def setUp(self) -> None:
        super().setUp()
        self.at = pathlib.Path(self.folder())
        shutil.copy(os.path.join(TOP, "examples", "pair.transcript"), self.at / "t")
        for name, text in (("g.txt", EDGES), ("log", LOG), ("p.json", PLAN), ("names", "ann\nbob\n")):
            (self.at / name).write_text(text, encoding="utf-8")

    def run_in(self, *words: str, given: Optional[str] = None) -> subprocess.CompletedProcess[str]:
        """Runs a command; its standard input is the file `given`, if any."""
        environment = dict(os.environ, PYTHONPATH=os.path.join(TOP, "python"))
        with open(self.at / given if given else os.devnull, "rb") as file:
            return subprocess.run(
                [sys.executable, "-m", "rudekpi", *words],
                stdin=file,
                cwd=self.at,
                env=environment,
                capture_output=True,
                encoding="utf-8",
            )

    def held(self) -> dict[str, bytes]:
        return {it.name: it.read_bytes() for it in self.at.iterdir() if it.is_file()}


class Clashes(Folder):
    def refuse(self, words: Sequence[str], why: str, given: Optional[str] = None) -> None:
        before = self.held()
        done = self.run_in(*words, given=given)
        with self.subTest(words=words):
            self.assertEqual((done.returncode, done.stdout, done.stderr), (2, "", f"! {why}\n"))
            self.assertEqual(self.held(), before)

    def test_an_output_that_is_an_input(self) -> None:
        rows = self.run_in(*SWEEP, "--csv", "rows.csv")
        self.assertEqual(rows.returncode, 0, rows.stderr)
        for words, clash in (
            (["sweep", "--graph", "g.txt", "--csv", "g.txt"], "g.txt"),
            (["sweep", "--graph", "g.txt", "--csv", "g.txt", "--force"], "g.txt"),
            (["sweep", "p.json", "--csv", "p.json"], "p.json"),
            (["sweep", "p.json", "--csv", "g.txt"], "g.txt"),
            (["compare", "--graph", "ring:5", "--graph", "g.txt", "--csv", "g.txt"], "g.txt"),
            (["worst", "--graph", "g.txt", "--output", "g.txt"], "g.txt"),
            (["again", "rows.csv", "1", "--output", "rows.csv"], "rows.csv"),
            (["again", "rows.csv", "1", "--page", "rows.csv"], "rows.csv"),
            (["again", "rows.csv", "1", "--output", "g.txt"], "g.txt"),
            (["page", "t", "--output", "t"], "t"),
            (["page", "t", "--names", "names", "--output", "names"], "names"),
            (["picture", "t", "--names", "names", "--output", "t"], "t"),
            (["picture", "t", "--names", "names", "--output", "names"], "names"),
            (["conform", "--rules", "hh", "log", "--output", "log"], "log"),
        ):
            self.refuse(words, f"{clash} would be written over {clash}, which is read")

    def test_by_other_names(self) -> None:
        (self.at / "link").symlink_to("t")
        os.link(self.at / "t", self.at / "hard")
        for name in ("link", "hard", "./t"):
            words = ["page", "t", "--output", name]
            self.refuse(words, f"{name} would be written over t, which is read")
        (self.at / "log.names").write_text(LOG, encoding="utf-8")
        words = ["conform", "--rules", "hh", "log.names", "--output", "log"]
        self.refuse(words, "log.names would be written over log.names, which is read")

    def test_standard_input(self) -> None:
        for words in (
            ["conform", "--rules", "hh", "--output", "log"],
            ["conform", "-", "--rules", "hh", "--output", "log"],
        ):
            self.refuse(words, "log would be written over standard input, which is read", given="log")
        self.refuse(["page", "--output", "t"], "t would be written over standard input, which is read", given="t")
        words = ["picture", "--names", "names", "--output", "t"]
        self.refuse(words, "t would be written over standard input, which is read", given="t")

    def test_standard_output(self) -> None:
        """A stream that is open on the input, without being truncated."""
        environment = dict(os.environ, PYTHONPATH=os.path.join(TOP, "python"))
        with open(self.at / "g.txt", "r+b") as file:
            words = [sys.executable, "-m", "rudekpi", "worst", "--graph", "g.txt", "--output", "-"]
            done = subprocess.run(words, stdout=file, stderr=subprocess.PIPE, cwd=self.at, env=environment)
        self.assertEqual(done.stderr, b"! standard output would be written over g.txt, which is read\n")
        self.assertEqual((done.returncode, (self.at / "g.txt").read_text(encoding="utf-8")), (2, EDGES))

    def test_standard_output_that_appends(self) -> None:
        """As by `>> FILE`: what is read is not made longer by what is written."""
        self.assertEqual(self.run_in(*SWEEP, "--csv", "rows.csv").returncode, 0)
        (self.at / "script").write_text("link 1 2\n", encoding="utf-8")
        for words, given in (
            (["json", "t"], "t"),
            (["json", "t", "--names", "names"], "names"),
            (["bursts", "t"], "t"),
            (["picture", "t", "--names", "names"], "t"),
            (["check", "script"], "script"),
            (["conform", "--rules", "hh", "log"], "log"),
            (["again", "rows.csv", "1"], "rows.csv"),
            (["again", "rows.csv", "1"], "g.txt"),
            (["compare", "rows.csv"], "rows.csv"),
            ([*SWEEP], "g.txt"),
            (["sweep", "p.json", "--processes", "1"], "p.json"),
            (["worst", "--graph", "g.txt"], "g.txt"),
            (["audit", "t"], "t"),
            (["picture", "--entry", "1", "t"], "t"),
            (["epochs", "t"], "t"),
            (["run", "--rules", "hh", "--nodes", "2", "script"], "script"),
            (["run", "--rules", "hh", "--nodes=2", "./script"], "script"),
            (["run", "--from", "t", "script"], "t"),
            (["run", "--from=t", "script"], "script"),
            (["storm", "--rules", "hh", "--nodes", "2", "names", "script"], "script"),
            (["storm", "--from", "t", "script"], "t"),
        ):
            read = "./script" if "./script" in words else given
            self.refuse_appending(words, given, f"standard output would be written over {read}, which is read")

    def test_a_value_that_is_a_file_s_name(self) -> None:
        """The value of an option is no file, but for `--from`."""
        (self.at / "script").write_text("link 1 2\n", encoding="utf-8")
        environment = dict(os.environ, PYTHONPATH=os.path.join(TOP, "python"))
        with open(self.at / "hh", "wb") as out:
            words = [sys.executable, "-m", "rudekpi", "run", "--rules", "hh", "--nodes", "2", "script"]
            done = subprocess.run(words, stdout=out, stderr=subprocess.PIPE, cwd=self.at, env=environment)
        self.assertEqual((done.returncode, done.stderr), (0, b""))
        self.assertEqual((self.at / "hh").read_text(encoding="utf-8"), "matching hh 2\n1 link 1 2 = ok\n")

    def test_standard_streams_that_are_one_file(self) -> None:
        why = "standard output would be written over standard input, which is read"
        for words in (
            ["json"],
            ["bursts"],
            ["check"],
            ["audit"],
            ["picture"],
            ["epochs"],
        ):
            self.refuse_appending(words, "t", why, is_input=True)
        self.refuse_appending(["run", "--rules", "hh", "--nodes", "2"], "names", why, is_input=True)

    def refuse_appending(self, words: Sequence[str], name: str, why: str, is_input: bool = False) -> None:
        before = self.held()
        environment = dict(os.environ, PYTHONPATH=os.path.join(TOP, "python"))
        with open(self.at / name, "ab") as out, open(self.at / name if is_input else os.devnull, "rb") as file:
            done = subprocess.run(
                [sys.executable, "-m", "rudekpi", *words],
                stdin=file,
                stdout=out,
                stderr=subprocess.PIPE,
                cwd=self.at,
                env=environment,
            )
        with self.subTest(words=words, appends_to=name):
            self.assertEqual((done.returncode, done.stderr.decode()), (2, f"! {why}\n"))
            self.assertEqual(self.held(), before)

    def test_an_output_beside_standard_output(self) -> None:
        environment = dict(os.environ, PYTHONPATH=os.path.join(TOP, "python"))
        words = [
            sys.executable,
            "-m",
            "rudekpi",
            "worst",
            "--graph",
            "path:3",
            "--output",
        ]
        with open(self.at / "new", "wb") as out:
            done = subprocess.run(
                [*words, "new"],
                stdout=out,
                stderr=subprocess.PIPE,
                cwd=self.at,
                env=environment,
            )
        self.assertEqual(done.stderr, b"! new would be written twice, also as standard output\n")
        self.assertEqual((done.returncode, (self.at / "new").read_bytes()), (2, b""))

    def test_two_outputs(self) -> None:
        self.assertEqual(self.run_in(*SWEEP, "--csv", "rows.csv").returncode, 0)
        self.refuse([*SWEEP, "--csv", "a.svg", "--plot", "a.svg"], "a.svg would be written twice, also as a.svg")
        words = ["again", "rows.csv", "1", "--output", "new", "--page", "./new"]
        self.refuse(words, "./new would be written twice, also as new")

    def test_what_is_no_clash(self) -> None:
        outputs.refuse_clashes(["/dev/null", None, "-"], ["/dev/null", None, "no such file"])
        outputs.refuse_clashes([str(self.at / "a"), str(self.at / "b")], [str(self.at / "c")])
        with self.assertRaisesRegex(ValueError, "would be written twice"):
            outputs.refuse_clashes([str(self.at / "a"), str(self.at / "x" / ".." / "a")], [])


class Rows(Folder):
    """The file of a sweep's rows is not written over."""

    def test_a_second_time(self) -> None:
        self.assertEqual(self.run_in("sweep", "p.json", "--csv", "rows.csv").returncode, 0)
        before = self.held()
        for command in ("sweep", "compare"):
            done = self.run_in(command, "p.json", "--csv", "rows.csv")
            why = "! rows.csv is there: --resume adds the rows that it lacks, and --force begins it anew\n"
            self.assertEqual((done.returncode, done.stdout, done.stderr), (2, "", why))
        self.assertEqual(self.held(), before)
        done = self.run_in("sweep", "p.json", "--csv", "rows.csv", "--force", "--resume")
        self.assertEqual((done.returncode, self.held()), (2, before))
        self.assertIn("give one of them", done.stderr)
        (self.at / "rows.csv").write_text("precious\n", encoding="utf-8")
        done = self.run_in("sweep", "p.json", "--csv", "rows.csv", "--force")
        self.assertEqual((done.returncode, done.stderr), (0, ""))
        self.assertEqual((self.at / "rows.csv").read_text(encoding="utf-8").count("\n"), 2)

    def test_force_is_too_late_for_a_sweep_that_cannot_begin(self) -> None:
        (self.at / "rows.csv").write_text("precious\n", encoding="utf-8")
        for words in (["--daemon", "fair"], ["--program", "/none"], ["--rules", "hh", "--daemon", "local"]):
            done = self.run_in(*SWEEP, "--csv", "rows.csv", "--force", *words)
            self.assertIn(done.returncode, (2, 3))
            self.assertEqual((self.at / "rows.csv").read_text(encoding="utf-8"), "precious\n")

    def test_an_empty_file_and_streams(self) -> None:
        (self.at / "rows.csv").touch()
        self.assertEqual(self.run_in(*SWEEP, "--csv", "rows.csv").returncode, 0)
        for path in ("-", "/dev/stdout"):
            done = self.run_in(*SWEEP, "--csv", path)
            self.assertEqual((done.returncode, done.stdout.count("\n")), (0, 3), done.stderr)
        self.assertEqual(self.run_in(*SWEEP, "--csv", "/dev/null").returncode, 0)
        os.mkfifo(self.at / "pipe")
        reader = subprocess.Popen(["cat", self.at / "pipe"], stdout=subprocess.PIPE, encoding="utf-8")
        self.assertEqual(self.run_in(*SWEEP, "--csv", "pipe").returncode, 0)
        self.assertEqual(reader.communicate()[0].count("\n"), 3)
        self.assertTrue(stat.S_ISFIFO(os.stat(self.at / "pipe").st_mode))


class Whole(Folder):
    def test_links_are_followed_and_modes_kept(self) -> None:
        (self.at / "old").write_text("old", encoding="utf-8")
        os.chmod(self.at / "old", 0o640)
        (self.at / "link").symlink_to("old")
        (self.at / "new").symlink_to("made")
        for name in ("link", "new"):
            done = self.run_in("worst", "--graph", "path:3", "--output", name)
            self.assertEqual(done.returncode, 0, done.stderr)
        self.assertTrue((self.at / "link").is_symlink() and (self.at / "new").is_symlink())
        self.assertEqual((self.at / "made").read_text(encoding="utf-8"), (self.at / "old").read_text(encoding="utf-8"))
        self.assertEqual(stat.S_IMODE(os.stat(self.at / "old").st_mode), 0o640)
        self.assertEqual([name for name in self.held() if name.startswith(".")], [])

    def test_open_streams_are_written_directly(self) -> None:
        environment = dict(os.environ, PYTHONPATH=os.path.join(TOP, "python"))
        (self.at / "out").symlink_to("/dev/stdout")
        for path in ("/dev/stdout", "/dev/fd/1", "out"):
            with open(self.at / "got", "wb") as file:
                words = [sys.executable, "-m", "rudekpi", "worst", "--graph", "path:3", "--output", path]
                before = os.fstat(file.fileno()).st_ino
                done = subprocess.run(words, stdout=file, stderr=subprocess.PIPE, cwd=self.at, env=environment)
            self.assertEqual((done.returncode, os.stat(self.at / "got").st_ino), (0, before))
            self.assertIn("link 1 2\n", (self.at / "got").read_text(encoding="utf-8"))

    def test_a_write_that_fails_leaves_the_old_file(self) -> None:
        path = str(self.at / "t")
        before = (self.at / "t").read_bytes()
        with mock.patch("os.replace", side_effect=OSError(5, "no")), self.assertRaises(OSError):
            outputs.write(path, "new")
        self.assertEqual((self.at / "t").read_bytes(), before)
        self.assertEqual(sorted(self.held()), ["g.txt", "log", "names", "p.json", "t"])
        for name in (str(self.at / "none" / "t"), str(self.at)):
            with self.assertRaises(OSError) as caught:
                outputs.write(name, "new")
            self.assertEqual(caught.exception.filename, name)

    def test_a_transcript_of_conform(self) -> None:
        (self.at / "c").write_text("old", encoding="utf-8")
        # the log's third line is no event
        (self.at / "log").write_text(LOG.replace('{"move"', "{"), encoding="utf-8")
        done = self.run_in("conform", "--rules", "hh", "log", "--output", "c")
        self.assertEqual(done.returncode, 2, done.stderr)
        self.assertEqual((self.at / "c").read_text(encoding="utf-8"), "matching hh 2\n1 link 1 2 = ok\n")
        self.assertEqual((self.at / "c.names").read_text(encoding="utf-8"), '"ann"\n"bob"\n')
        # the first line is none: the older file stays
        (self.at / "log").write_text("x\n", encoding="utf-8")
        self.assertEqual(self.run_in("conform", "--rules", "hh", "log", "--output", "c").returncode, 2)
        self.assertEqual((self.at / "c").read_text(encoding="utf-8"), "matching hh 2\n1 link 1 2 = ok\n")
        self.assertEqual([name for name in self.held() if name.startswith(".")], [])

    def test_a_log_that_is_cut_short(self) -> None:
        """Until the end the older file stays; then the transcript so far takes its place."""
        environment = dict(os.environ, PYTHONPATH=os.path.join(TOP, "python"))
        (self.at / "c").write_text("old", encoding="utf-8")
        words = [sys.executable, "-m", "rudekpi", "conform", "--rules", "hh", "--output", "c"]
        out = subprocess.PIPE
        run = subprocess.Popen(words, stdin=out, stdout=out, stderr=out, cwd=self.at, env=environment)
        assert run.stdin
        run.stdin.write(LOG.encode())
        run.stdin.flush()
        while not any(it.name.startswith(".c.") for it in self.at.iterdir()):
            time.sleep(0.01)
        self.assertEqual((self.at / "c").read_text(encoding="utf-8"), "old")
        run.send_signal(signal.SIGINT)
        run.communicate()
        self.assertEqual(run.returncode, 130)
        self.assertTrue((self.at / "c").read_text(encoding="utf-8").startswith("matching hh 2\n1 link 1 2 = ok\n"))
        self.assertEqual([name for name in self.held() if name.startswith(".")], [])

    def test_an_interrupt_while_the_file_is_opened(self) -> None:
        """Nothing of the text is lost: the next call writes all of it, and no temporary file stays."""
        with Transcript(self.at / "c") as transcript:
            with mock.patch.object(files.WholeFile, "begin", side_effect=KeyboardInterrupt):
                with self.assertRaises(KeyboardInterrupt):
                    transcript.write(b"one\n")
            transcript.write(b"two\n")
        self.assertEqual((self.at / "c").read_text(encoding="utf-8"), "one\ntwo\n")
        self.assertEqual([name for name in self.held() if name.startswith(".")], [])

    def test_of_the_package(self) -> None:
        with Network("hh", 2) as net:
            net.save("/dev/null")
            net.save(self.at / "t")
        self.assertEqual((self.at / "t").read_text(encoding="utf-8"), "matching hh 2\n")
        self.assertTrue(files.is_descriptor("/dev/stderr") and files.is_descriptor("/proc/self/fd/1"))
        self.assertFalse(files.is_descriptor(str(self.at / "t")) or files.is_descriptor("/dev/null"))


if __name__ == "__main__":
    unittest.main()
