"""Why transcripts are refused: the wrong word and the machine's reply; damaged transcripts."""

from __future__ import annotations

import os
import pathlib
import pickle
import subprocess
import sys
import unittest
from unittest import mock

import transcript_fuzz
from rudekpi import Explanation, explain
from support import TOP, Timed

PAIR = """\
matching hh 2
1 link 1 2 = ok
2 enabled = 1:seduce 2:seduce
3 step 1 = 1:seduce>2
4 enabled = 2:marry
5 step 2 = 2:marry>1
6 matching = 1-2
7 status = nodes=2 edges=1 pairs=1 enabled=0 charge=0 spent=2
"""
# a path of three after a move of 1
BASE = """\
matching2 hh 3
base 3 spent=1 nodes=3 edges=2
node 1 2 0
node 2 - 0
node 3 - 0
edge 1 2
edge 2 3
"""
PATH = "matching hh 3\n1 link 1 2 = ok\n2 link 2 3 = ok\n3 step 1 = 1:seduce>2\n" + BASE + "4 step 2 = 2:marry>1\n"
FLAGS = "matching manne 3\n1 link 1 2 = ok\n2 link 2 3 = ok\n"


def rudekpi(*words: str, given: str = "") -> subprocess.CompletedProcess[str]:
    paths = dict(os.environ, PYTHONPATH=os.path.join(TOP, "python"))
    return subprocess.run(
        [sys.executable, "-m", "rudekpi", "explain", *words],
        input=given,
        env=paths,
        capture_output=True,
        encoding="utf-8",
    )


class Reasons(Timed):
    def found(self, text: str, line: int, marked: str, why: str) -> Explanation:
        """At this line and word, with these words in its reason."""
        # bytes, since a text without a line feed would be a path
        made = explain(text.encode())
        assert made is not None, text
        self.assertEqual((made.line, made.text[made.start : made.end]), (line, marked), str(made))
        self.assertIn(why, str(made))
        return made

    def test_what_is_accepted_has_none(self) -> None:
        for text in (PAIR, PATH, BASE, BASE + "4 step 2 = 2:marry>1\n", FLAGS):
            self.assertIsNone(explain(text))
            self.assertIsNone(explain(text.encode()))

    def test_a_reply_of_the_machine(self) -> None:
        made = self.found(PAIR.replace("4 enabled = 2:marry", "4 enabled = 2:seduce"), 5, "2:seduce", "")
        self.assertEqual(
            str(made),
            "line 5: not the machine's reply\n"
            "4 | 3 step 1 = 1:seduce>2\n"
            "5 | 4 enabled = 2:seduce\n"
            "  |             ^^^^^^^^ the machine says `2:marry`\n"
            "  the machine's reply: 2:marry\n"
            "  2's pointer is null, and at 2 points 1: 2 may only marry 1\n"
            "  2 points at null\n"
            "  1 points at 2",
        )
        for old, new, line, marked, why in (
            ("1:seduce 2:seduce", "2:seduce", 3, "2:seduce", "`1:seduce` is missing here"),
            ("1:seduce 2:seduce", "1:seduce", 3, "", "`2:seduce` is missing here"),
            ("= 2:marry\n", "= 1:seduce 2:marry\n", 5, "1:seduce", "the machine's list does not have this"),
            ("= 1:seduce>2", "= 1:marry>2", 4, "1:marry>2", "the rule that is enabled at 1 is seduce"),
            ("= 2:marry>1", "= refused 11 not-enabled", 6, "refused 11 not-enabled", "the machine replies `2:marry>1`"),
            ("= 1-2", "= none", 7, "none", "`1-2` is missing here"),
            ("charge=0", "charge=1", 8, "charge=1", "the machine says `charge=0`"),
            (
                "1 link 1 2 = ok",
                "1 link 1 2 = refused 2 self-loop",
                2,
                "refused 2 self-loop",
                "the machine replies `ok`",
            ),
        ):
            with self.subTest(new):
                self.found(PAIR.replace(old, new), line, marked, why)

    def test_a_step_that_the_rules_do_not_allow(self) -> None:
        for text, line, marked, why in (
            (FLAGS + "3 step 2 = 2:seduce>1\n", 4, "2:seduce>1", "1 stands below 2 (they are nodes 1 and 2)"),
            (FLAGS + "3 step 9 = 9:update\n", 4, "9:update", "the names of this network are 1 to 3"),
            (FLAGS + "3 step 3 = 3:seduce>2\n", 4, "3:seduce>2", "the machine replies `refused 11 not-enabled`"),
            (FLAGS + "3 step 1 2 = 1:seduce>2\n", 4, "", "the move of 2 is missing here"),
            (FLAGS + "3 step 1 2 = 2:seduce>3 1:seduce>2\n", 4, "2:seduce>3", "the move of 1 is missing here"),
            (FLAGS + "3 step 1 2 = 2:seduce>3\n", 4, "2:seduce>3", "the move of 1 is missing here"),
            (FLAGS + "3 step 1 = 1:seduce>2 2:seduce>3\n", 4, "2:seduce>3", "2 is not among the nodes of this step"),
            (FLAGS + "3 flag 2 1 = ok\n4 step 1 = 1:seduce>2\n", 5, "1:seduce>2", "refused 11 not-enabled"),
            (PATH + "5 step 3 = 3:seduce>1\n", 13, "3:seduce>1", "3 has no neighbour that points at null"),
            (
                PATH[: PATH.index("matching2")] + "4 step 2>1 = 2:marry>3\n",
                5,
                "2:marry>3",
                "the step wishes 2 to point at 1",
            ),
        ):
            with self.subTest(text[-40:]):
                if "refused" in why or "has no neighbour" in why:
                    marked = text[text.rindex(" = ") + 3 : -1]
                self.found(text, line, marked, why)

    def test_lines_that_are_none(self) -> None:
        for new, marked, why in (
            ("3 step 1 : 1:seduce>2", "", "here stand ` = ` and the reply"),
            ("3 step 1 =1:seduce>2", "=", "one space stands on both sides"),
            ("3 drive 1 9 = ok", "drive 1 9", "in a transcript stand the steps that it made"),
            ("3 stp 1 = 1:seduce>2", "stp 1", "`step` may be meant"),
            ("3 link 1 x = ok", "x", "`x` is not a node"),
            ("3 link 1  2 = ok", "  ", "words are separated by one space"),
            ("03 step 1 = 1:seduce>2", "03", "here 3: `3` has no leading zeros"),
            ("0 step 1 = 1:seduce>2", "0", "an entry's number is 1 to 16777216, and here 3"),
            ("3 step 1 = 1:seduces>2", "1:seduces>2", "this is not a move, as `1:seduce>2`"),
            ("3 matching = 2-1", "2-1", "the lower node of a pair stands first"),
            ("3 step 9 = refused 1 not-enabled", "not-enabled", "refusal 1 is `unknown-node`"),
            ("3 enabled = refused 1 unknown-node", "refused 1 unknown-node", "`enabled` is never refused"),
            ("3 link 1 2 = yes", "yes", "the reply to `link` is `ok`, or `refused ..`"),
            ("3 show 1 = none", "none", "the reply is a node or -"),
            ("3 status = nodes=2", "", "here stands `edges=` and a number"),
            ("step 1", "step 1", "this is a line of a script: an entry is `3 step 1 = ` and the reply"),
            ("matching hh 2", "matching", "a second header"),
            ("", "", "the line is empty"),
            ("3 step 1 = 1:seduce>2\r", "\\x0d", "carriage return (CRLF)"),
            ("3 step 1 =\t1:seduce>2", "\\x09", "there is a tab"),
        ):
            with self.subTest(new):
                self.found(PAIR.replace("3 step 1 = 1:seduce>2", new), 4, marked, why)
        self.found(PAIR[:-9], 8, "", "the transcript ends in the middle of this line")
        self.found(PAIR[:-1], 8, "", "the line lacks its line feed")

    def test_numbers_that_are_out_of_order(self) -> None:
        lines = PAIR.splitlines(keepends=True)
        self.found("".join(lines[:3] + lines[4:]), 4, "4", "entry 3 is missing")
        self.found("".join(lines[:3] + lines[5:]), 4, "5", "entries 3 to 4 are missing")
        self.found("".join(lines[:4] + lines[3:]), 5, "3", "here stands entry 4; an entry 3 stands above")

    def test_two_lines_that_are_swapped(self) -> None:
        lines = PAIR.splitlines(keepends=True)
        for at in range(1, 6):
            swapped = "".join([*lines[:at], lines[at + 1], lines[at], *lines[at + 2 :]])
            why = f"swapped with the next line, which is entry {at}"
            self.found(swapped, at + 1, str(at + 1), why)
        # at the end of the text, and with a line feed too few
        self.found("".join([*lines[:6], lines[7], lines[6]])[:-1], 7, "7", "swapped with the next line")
        self.found("".join([*lines[:6], lines[7]]), 7, "7", "entry 6 is missing")

    def test_a_wrong_count_of_enabled_nodes_names_one(self) -> None:
        head = "matching hh 2\n1 link 1 2 = ok\n2 status = nodes=2 edges=1 pairs=0 "
        made = self.found(head + "enabled=0 charge=2 spent=0\n", 3, "enabled=0", "says `enabled=2`: 1 is enabled")
        self.assertIn("1 may only seduce 2", str(made))
        self.found(head + "enabled=1 charge=2 spent=0\n", 3, "enabled=1", "says `enabled=2`: 1 is enabled")
        made = self.found(head + "enabled=3 charge=2 spent=0\n", 3, "enabled=3", "the machine says `enabled=2`")
        self.assertNotIn("is enabled", str(made))
        named = explain(head + "enabled=0 charge=2 spent=0\n", names=("ann", "bob"))
        self.assertIn("1 (ann) is enabled", str(named))

    def test_first_lines_that_are_no_header(self) -> None:
        for head, marked, why in (
            ("", "", "the first line is empty"),
            ("1 link 1 2 = ok", "1 link 1 2 = ok", "the header in front of it is missing"),
            ("link 1 2", "link 1 2", "this is a script"),
            ("base 3 spent=1 nodes=3 edges=2", "base 3 spent=1 nodes=3 edges=2", "the first one of that"),
            ('{"nodes": []}', '{"nodes": []}', "this is JSON"),
            ("macthing hh 2", "macthing hh 2", "`matching` may be meant"),
            ("matching", "", "here stand the rules"),
            ("matching HH 2", "HH", "here stand the rules, `hh` or `manne`"),
            ("matching hh", "", "how many nodes there are"),
            ("matching hh 65536", "65536", "this is no number of nodes"),
            ("matching hh 02", "02", "without leading zeros"),
            ("matching hh 2 2", "2", "if that is less than 2; else nothing"),
            ("matching hh 2 1 1", "1", "the line has a word too many"),
            ("matching  hh 2", "", "words are separated by one space"),
            ("\ufeffmatching hh 2", "\\xef", "byte order mark"),
        ):
            with self.subTest(head):
                found = explain(PAIR.replace("matching hh 2", head))
                assert found is not None
                self.assertEqual((found.line, found.verdict), (1, "bad header"))
                self.assertEqual(found.text[found.start : found.end].strip(), marked)
                self.assertIn(why, str(found))
        self.found("", 1, "", "the text is empty")
        self.found("matching hh 2", 1, "matching hh 2", "the line lacks its line feed")

    def test_a_base_inside(self) -> None:
        for old, new, line, marked, why in (
            ("matching2 hh 3", "matching2 hh 4", 5, "4", "here stands"[:0]),
            ("base 3", "base 2", 6, "2", "the number of the last entry is 3"),
            ("spent=1", "spent=2", 6, "spent=2", "what is spent is 1"),
            ("nodes=3", "nodes=2", 6, "nodes=2", "how many nodes there are is 3"),
            ("node 1 2 0", "node 1 - 0", 7, "-", "its pointer of node 1 is 2"),
            ("node 2 - 0", "node 2 - 1", 8, "1", "its flag of node 2 is 0"),
            ("edge 2 3", "edge 1 3", 11, "edge 1 3", "the next edge is 2 3"),
            ("edge 2 3\n", "", 11, "4", "here stands `edge 2 3`"),
        ):
            with self.subTest(new):
                made = self.found(PATH.replace(old, new), line, marked, why)
                self.assertIn("where the run has come to, the line is: ", made.notes[0])
        cut = PATH[: PATH.index("edge 2 3") + 4]
        self.found(cut, 11, "", "the base is cut here, in front of the end of `edge 2 3`")
        behind = BASE + "4 step 2 = 2:marry>1\n" + BASE.replace("base 3", "base 4")
        self.found(behind, 10, "spent=1", "what is spent is 2")

    def test_a_base_in_front(self) -> None:
        for old, new, line, marked, why in (
            ("base 3", "base 16777217", 2, "16777217", "a log has at most 16777216 entries"),
            ("spent=1", "spent=7", 2, "spent=7", "are above the bound 7"),
            (
                "node 1 2 0",
                "node 1 3 0",
                2,
                "base 3 spent=1 nodes=3 edges=2",
                "the pointer is at 3, which is no neighbour of 1",
            ),
            ("node 3 - 0", "node 3 - 1", 2, "base 3 spent=1 nodes=3 edges=2", "there are no flags under hh"),
            ("node 3 - 0", "node 4 - 0", 2, "base 3 spent=1 nodes=3 edges=2", "is above the 3 names of line 1"),
            ("nodes=3", "nodes=2", 5, "node", "here stands edge 1 of 2, as line 2 says"),
            ("node 2 - 0\nnode 3 - 0", "node 3 - 0\nnode 2 - 0", 5, "2", "this comes behind `node 3 - 0`"),
            ("edge 1 2", "edge 2 1", 6, "edge 2 1", "the lower node of an edge stands first"),
            ("node 2 - 0", "node 2 -", 4, "node 2 -", "the line is `node A P F`"),
            ("node 2 - 0", "node 2 - 2", 4, "2", "`2` is not 0 or 1"),
            ("edge 2 3\n", "", 7, "", "line 2 says that it has 2 lines `edge ..`"),
        ):
            with self.subTest(new):
                self.found(BASE.replace(old, new), line, marked, why)

    def test_long_lines_are_shown_in_part(self) -> None:
        links = "".join(f"{at} link {at} {at + 1} = ok\n" for at in range(1, 60))
        listed = " ".join(f"{node}:seduce" for node in range(1, 61))
        made = explain(f"matching hh 60\n{links}60 enabled = {listed.replace('41:seduce', '41:marry')}\n")
        assert made is not None
        marks = str(made).splitlines()[1:4]
        self.assertLess(max(map(len, marks[:2])), 130)
        at = marks[2].index("^")
        self.assertEqual(marks[1][at : at + 8], "41:marry")

    def test_results_leave_a_process(self) -> None:
        made = explain("")
        self.assertEqual(pickle.loads(pickle.dumps(made)), made)
        with self.assertRaises(TypeError):
            explain(3)  # type: ignore[arg-type]


class Command(Timed):
    def test_statuses(self) -> None:
        done = rudekpi(given=PAIR)
        self.assertEqual((done.returncode, done.stdout), (0, "accepted: 7 entries, 2 epochs, 2 moves\n"))
        path = os.path.join(self.folder(), "t")
        pathlib.Path(path).write_text(PAIR.replace("2:marry>1", "2:update"), encoding="utf-8")
        done = rudekpi(path)
        self.assertEqual((done.returncode, done.stderr), (1, ""))
        self.assertTrue(done.stdout.startswith("line 6: not the machine's reply\n"))
        for word, told in (("/none", "! /none: No such file or directory\n"), ("/", "! /: Is a directory\n")):
            done = rudekpi(word)
            self.assertEqual((done.returncode, done.stdout, done.stderr), (3, "", told))

    def test_streams_that_fail(self) -> None:
        paths = dict(os.environ, PYTHONPATH=os.path.join(TOP, "python"))
        for words, told in (("> /dev/full", "! write failed: No space left"), ("<&-", "! read failed: Bad file")):
            line = f"{sys.executable} -m rudekpi explain {words} {'' if '<' in words else '< /dev/null'}"
            done = subprocess.run(["bash", "-c", line], env=paths, capture_output=True, encoding="utf-8")
            self.assertEqual((done.returncode, done.stdout), (3, ""))
            self.assertTrue(done.stderr.startswith(told), done.stderr)


class Damaged(Timed):
    def test_damaged_transcripts(self) -> None:
        counts, wrong = transcript_fuzz.fuzz(1500 if self.engine == "library" else 40, 11, self.engine)
        self.assertEqual(wrong, [])
        if self.engine == "library":
            for verdict in (
                "bad header",
                "bad base",
                "not a transcript line",
                "out of order",
                "not the machine's reply",
            ):
                self.assertGreater(counts[verdict], 50)

    def test_the_fuzz_sees_a_wrong_line(self) -> None:
        with mock.patch.object(transcript_fuzz, "explain", lambda *_, **__: None):
            self.assertGreater(len(transcript_fuzz.fuzz(40, 11, self.engine)[1]), 20)


if __name__ == "__main__":
    unittest.main()
