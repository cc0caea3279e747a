"""The client's manual and shell completions have the client's own words."""

from __future__ import annotations

import argparse
import os
import pathlib
import re
import shutil
import subprocess
import sys
import unittest

from rudekpi import __main__, commands, daemons
from support import TOP, Timed

MANUAL = os.path.join(TOP, "docs", "rudekpi.1")


def of_parser() -> dict[str, list[str]]:
    parser = commands.parser_of()
    (found,) = [it for it in parser._actions if isinstance(it, argparse._SubParsersAction)]
    return {
        name: [action.option_strings[-1] for action in of._actions if action.option_strings]
        for name, of in found.choices.items()
    }


class Manual(Timed):
    def test_it_has_each_command_and_flag(self) -> None:
        text = pathlib.Path(MANUAL).read_text(encoding="utf-8")
        for name, flags in of_parser().items():
            self.assertRegex(text, rf"(?m)^\.It Cm {name}\b")
            for flag in flags:
                written = re.escape("\\-" + flag[2:].replace("-", "\\-"))
                self.assertRegex(text, rf"(?m)^\.It .*Fl {written}\b", f"{name} {flag}")
        for word in (*__main__.OF_PROGRAM, *daemons.WORDS):
            self.assertRegex(text, rf"(?m)^\.Cm .*\b{word}\b")

    def test_it_can_be_read(self) -> None:
        readers = {
            "mandoc": ["mandoc", "-T", "lint", "-W", "warning", MANUAL],
            "man": ["man", "--warnings", "-l", MANUAL],
        }
        there = [words for name, words in readers.items() if shutil.which(name)]
        if not there:
            self.skipTest("neither mandoc nor man")
        for words in there:
            environment = dict(os.environ, LC_ALL="C.UTF-8", MANWIDTH="80", MANPAGER="cat")
            done = subprocess.run(words, capture_output=True, encoding="utf-8", env=environment)
            with self.subTest(words[0]):
                self.assertEqual(
                    (done.returncode, done.stderr), (0, ""), done.stdout[:300] if words[0] == "mandoc" else ""
                )


class Completions(Timed):
    def test_they_are_what_the_table_makes(self) -> None:
        done = subprocess.run(
            [sys.executable, os.path.join(TOP, "scripts", "completions"), "--compare"], capture_output=True
        )
        self.assertEqual((done.returncode, done.stdout, done.stderr), (0, b"", b""))

    def test_bash(self) -> None:
        script = (
            '. scripts/completion.bash; COMP_WORDS=(rudekpi "$1" --); COMP_CWORD=2; _rudekpi; echo "${COMPREPLY[@]}"'
        )
        for name, flags in of_parser().items():
            done = subprocess.run(
                ["bash", "-c", script, "bash", name], cwd=TOP, capture_output=True, encoding="utf-8", check=True
            )
            with self.subTest(name):
                self.assertEqual(sorted(done.stdout.split()), sorted(flags))

    def test_fish(self) -> None:
        if not shutil.which("fish"):
            self.skipTest("no fish")
        for name, flags in of_parser().items():
            script = f"source scripts/completion.fish; complete -C 'rudekpi {name} --'"
            done = subprocess.run(
                ["fish", "--no-config", "-c", script], cwd=TOP, capture_output=True, encoding="utf-8", check=True
            )
            offered = {line.split("\t")[0] for line in done.stdout.splitlines()}
            with self.subTest(name):
                self.assertEqual({it for it in offered if it.startswith("--")}, set(flags))

    def test_zsh(self) -> None:
        if not shutil.which("zsh"):
            self.skipTest("no zsh")
        script = "autoload -U compinit; compinit -D; . scripts/completion.zsh; print $_comps[rudekpi] $_comps[console]"
        done = subprocess.run(["zsh", "-fc", script], cwd=TOP, capture_output=True, encoding="utf-8")
        self.assertEqual((done.returncode, done.stdout, done.stderr), (0, "_rudekpi _rudekpi\n", ""))


if __name__ == "__main__":
    unittest.main()
