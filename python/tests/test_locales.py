"""Files and streams are UTF-8 in every locale: also in one that has another encoding, or ASCII alone.

`tests/shipped` runs all tests of the client in a locale of ASCII too.
"""

from __future__ import annotations

import os
import pathlib
import shutil
import subprocess
import sys
import unittest

from support import TOP, Timed

# Python then takes ASCII for what is opened without an encoding
ASCII = {"LC_ALL": "C", "PYTHONUTF8": "0", "PYTHONCOERCECLOCALE": "0"}
LATIN = "de_DE.ISO-8859-1"
PAIR = """\
matching hh 2
1 link 1 2 = ok
2 step 1 = 1:seduce>2
3 step 2 = 2:marry>1
"""
# names beyond ASCII, and one beyond ISO 8859-1
NAMES = "Zoë\nĐặng\n"
GRAPH = "Zoë Đặng\nĐặng Bob\n"


def rudekpi(words: list[str], folder: str, environment: dict[str, str]) -> subprocess.CompletedProcess[bytes]:
    paths = {**os.environ, "PYTHONPATH": os.path.join(TOP, "python"), **environment}
    return subprocess.run([sys.executable, "-m", "rudekpi", *words], cwd=folder, env=paths, capture_output=True)


class Locales(Timed):
    seconds = 120

    def latin(self) -> dict[str, str]:
        """The variables of a locale with ISO 8859-1. Skips the test if it can't be made here."""
        if not shutil.which("localedef"):
            self.skipTest("no localedef")
        made = os.path.join(self.folder(), LATIN)
        words = ["localedef", "-i", "de_DE", "-f", "ISO-8859-1", made]
        if subprocess.run(words, stdout=subprocess.DEVNULL, stderr=subprocess.DEVNULL).returncode > 1:
            self.skipTest("no locale de_DE")
        variables = {**ASCII, "LC_ALL": LATIN, "LOCPATH": os.path.dirname(made)}
        asked = "import locale; print(locale.getpreferredencoding(False))"
        said = subprocess.run([sys.executable, "-c", asked], env={**os.environ, **variables}, stdout=subprocess.PIPE)
        self.assertEqual(said.stdout, b"ISO-8859-1\n")
        return variables

    def expect_the_same(self, variables: dict[str, str]) -> None:
        """Each command writes the same bytes as in a locale with UTF-8."""
        folders = self.folder(), self.folder()
        for folder in folders:
            pathlib.Path(folder, "names").write_text(NAMES, encoding="utf-8")
            pathlib.Path(folder, "t").write_text(PAIR, encoding="utf-8")
            pathlib.Path(folder, "g.txt").write_text(GRAPH, encoding="utf-8")
        for words in (
            ["picture", "--names", "names", "--output", "picture.dot", "t"],
            ["picture", "--names", "names", "t"],
            ["bursts", "--names", "names", "t"],
            ["json", "--names", "names", "t"],
            ["page", "--names", "names", "--output", "page.html", "t"],
            ["sweep", "--graph", "g.txt", "--seeds", "2", "--processes", "1", "--csv", "rows.csv"],
            ["again", "rows.csv", "1", "--output", "again"],
        ):
            ours, theirs = (rudekpi(words, *it) for it in zip(folders, ({"PYTHONUTF8": "1"}, variables)))
            with self.subTest(words):
                self.assertEqual((ours.returncode, ours.stderr), (0, b""))
                self.assertEqual((theirs.returncode, theirs.stdout, theirs.stderr), (0, ours.stdout, b""))
        for name in ("picture.dot", "page.html", "again", "again.names"):
            with self.subTest(name):
                self.assertEqual(*(pathlib.Path(folder, name).read_bytes() for folder in folders))
        self.assertIn("Zoë".encode(), pathlib.Path(folders[1], "picture.dot").read_bytes())
        found = rudekpi(["bursts", "--names", "names", "t"], folders[1], variables)
        self.assertIn("Zoë Đặng".encode(), found.stdout)
        pathlib.Path(folders[1], "twice").write_text("Đặng\nĐặng\n", encoding="utf-8")
        wrong = rudekpi(["bursts", "--names", "twice", "t"], folders[1], variables)
        self.assertEqual(wrong.stderr, "! twice: line 2: the name Đặng is that of line 1\n".encode())

    def test_of_ascii(self) -> None:
        self.expect_the_same(ASCII)

    def test_of_latin_letters(self) -> None:
        self.expect_the_same(self.latin())


if __name__ == "__main__":
    unittest.main()
