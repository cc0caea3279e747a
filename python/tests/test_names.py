"""The caller's names: in files, of nodes that join, in pictures, pages and commands."""

from __future__ import annotations

import json
import os
import pathlib
import subprocess
import sys
import unittest
from xml.etree import ElementTree

from rudekpi import Damaged, Network, NoSuchCommand, Refused, bursts, explain, read_names, replay, write_names
from rudekpi.audits import picture
from rudekpi.drawings import NO_NAMES
from rudekpi.json_lines import objects_of
from rudekpi.labels import label, visible
from rudekpi.name_files import names_text
from rudekpi.names import most_present
from support import TOP, Timed

PAIR = "matching hh 5 2\n1 link 1 2 = ok\n2 join 3 = ok\n3 step 1>2 = 1:seduce>2\n4 step 2>1 = 2:marry>1\n"
HOSTILE = "</script><b>&\"'\u202etxt\x00"
LONG = "the long name of a node that is cut"


def rudekpi(*words: str, given: bytes = b"") -> subprocess.CompletedProcess[bytes]:
    environment = dict(os.environ, PYTHONPATH=os.path.join(TOP, "python"))
    return subprocess.run([sys.executable, "-m", "rudekpi", *words], input=given, env=environment, capture_output=True)


class Capacity(Timed):
    def test_a_new_name_gets_the_next_number_and_keeps_it(self) -> None:
        with Network("hh", ["ann", "bob"], capacity=4) as net:
            net.link("ann", "bob")
            net.join("zoe")
            net.link("zoe", "ann")
            net.leave("zoe")
            with net.batch() as batch:
                batch.join(("x", 1))
                batch.link(("x", 1), "ann")
            net.join("zoe")
            self.assertEqual(net.nodes, ["ann", "bob", "zoe", ("x", 1)])
            self.assertEqual((net.number_of("zoe"), net.number_of(("x", 1))), (3, 4))
            self.assertEqual(net.present, ["ann", "bob", "zoe", ("x", 1)])
            self.assertEqual(net.edges, [("ann", "bob"), ("ann", ("x", 1))])
            # the least enabled node first: ann seduces bob, who marries her
            self.assertEqual(net.settle("least").moves, 2)
            self.assertEqual(net.matching().pairs, (("ann", "bob"),))
            said = net.transcript()
        self.assertEqual(
            said.splitlines()[:8],
            [
                "matching hh 4 2",
                "1 link 1 2 = ok",
                "2 join 3 = ok",
                "3 link 3 1 = ok",
                "4 leave 3 = ok",
                "5 join 4 = ok",
                "6 link 4 1 = ok",
                "7 join 3 = ok",
            ],
        )

    def test_when_no_number_is_left(self) -> None:
        with Network(nodes=["ann"], capacity=2) as net:
            net.join("bob")
            for _ in range(2):
                with self.assertRaisesRegex(ValueError, "no number is left for 'cleo': the capacity is 2"):
                    net.join("cleo")
            with self.assertRaisesRegex(Refused, "join 'bob': refused 13 already-present"):
                net.join("bob")
            net.leave("ann")
            net.join("ann")
            self.assertEqual(net.nodes, ["ann", "bob"])
            for name, error in ((None, ValueError), ([1], TypeError)):
                self.assertRaises(error, net.join, name)
            self.assertEqual(net.status().nodes, 2)

    def test_only_a_join_makes_a_name_known(self) -> None:
        with Network(nodes=["ann"], capacity=3) as net:
            for ask in (net.leave, net.show, net.registers, net.number_of):
                self.assertRaisesRegex(ValueError, "no node has the name 'zoe'", ask, "zoe")
            self.assertRaisesRegex(ValueError, "no node has the name 'zoe'", net.link, "ann", "zoe")
            self.assertRaisesRegex(ValueError, "node 2 has no name yet", net.name_of, 2)
            self.assertRaisesRegex(ValueError, "no node has the number 4", net.name_of, 4)
            if self.engine == "library":
                # under manne a node that comes has a flag to write
                self.assertEqual(net.cost_of("join", "zoe"), net.cost_of("join", "yan"))
                self.assertEqual(net.reach("join", "ann"), set())
            else:
                self.assertRaises(NoSuchCommand, net.cost_of, "join", "zoe")
            self.assertEqual(net.nodes, ["ann"])

    def test_numbers_up_to_the_capacity_are_names(self) -> None:
        with Network("hh", 2, capacity=3) as net:
            self.assertEqual((net.nodes, net.present), ([1, 2, 3], [1, 2]))
            net.join(3)
            self.assertRaisesRegex(Refused, "unknown-node", net.join, 4)
            self.assertTrue(net.transcript().startswith("matching hh 3 2\n1 join 3 = ok\n"))
        with Network("hh", ["a", "b", "c"], present=1, capacity=5) as net:
            self.assertEqual(net.present, ["a"])
            self.assertTrue(net.transcript().startswith("matching hh 5 1\n"))
        with self.assertRaisesRegex(ValueError, "a capacity of 1 is less than 2 nodes"):
            Network(nodes=["a", "b"], capacity=1)
        with self.assertRaisesRegex(ValueError, "a capacity is 0 to 65535, and not 65536"):
            Network(nodes=["a"], capacity=65536)
        with self.assertRaisesRegex(TypeError, "a capacity is a whole number"):
            Network(nodes=["a"], capacity="many")  # type: ignore[arg-type]

    def test_a_name_stays_at_its_number_when_it_is_replayed(self) -> None:
        path = os.path.join(self.folder(), "t")
        with Network("hh", ["ann", "bob"], capacity=4) as net:
            net.join("zoe")
            net.link("zoe", "bob")
            net.settle("least")
            net.save(path)
            pairs = net.matching().pairs
            net.save(path)
            said = net.transcript()
        self.assertEqual(pathlib.Path(path).read_text(encoding="utf-8"), said)
        self.assertEqual(pathlib.Path(path + ".names").read_text(encoding="utf-8"), '"ann"\n"bob"\n"zoe"\n')
        with replay(said, names=read_names(path + ".names")) as again:
            self.assertEqual(again.transcript(), said)
            self.assertEqual(again.matching().pairs, pairs)
            again.join("yan")
            self.assertEqual(again.number_of("yan"), 4)
            self.assertRaises(ValueError, again.join, "xi")
        for names in (["ann", "bob"], list("abcde")):
            with self.assertRaisesRegex(ValueError, f"{len(names)} names for {3 if len(names) < 3 else 4} nodes"):
                replay(said, names=names)
        with Network("hh", 2) as net:
            net.save(path + "2")
        self.assertEqual(sorted(os.listdir(os.path.dirname(path))), ["t", "t.names", "t2"])

    def test_a_word_of_a_daemon_with_its_seed(self) -> None:
        found = []
        for word, seed in (("seeded", 3), ("seeded", 3), ("seeded", 4)):
            with Network("manne", [*range(10, 30)]) as net:
                with net.batch() as batch:
                    for a in range(10, 29):
                        batch.link(a, a + 1)
                net.settle(daemon=word, seed=seed)
                found.append(net.transcript())
        self.assertEqual(found[0], found[1])
        self.assertNotEqual(found[0], found[2])
        with Network("hh", 2) as net:
            self.assertRaisesRegex(ValueError, "no daemon has the name 'fewest'", net.settle, "fewest")
            self.assertRaisesRegex(ValueError, "a seed is 0 to", net.settle, "least", seed=-1)


class Files(unittest.TestCase):
    def folder(self) -> str:
        return Timed.folder(self)  # type: ignore[arg-type]

    def test_names_are_read_as_they_were_written(self) -> None:
        names = ["ann", 7, "7", "a b", HOSTILE, "\u05d0\u05d1", "007", "true", ' "', "x" * 5000, -3, 10**30]
        path = os.path.join(self.folder(), "names")
        write_names(path, names)
        self.assertEqual(read_names(path), names)
        self.assertTrue(pathlib.Path(path).read_bytes().isascii())
        # what is neither is written by its text
        self.assertEqual(names_text([(0, 1), 2.5, True]), '"(0, 1)"\n"2.5"\n"True"\n')
        self.assertEqual(names_text([]), "")

    def test_what_no_file_can_have(self) -> None:
        with self.assertRaisesRegex(ValueError, r"the names \(1, 2\) and '\(1, 2\)' would be the same in a file"):
            names_text([(1, 2), "(1, 2)"])
        with self.assertRaisesRegex(ValueError, "has a letter at least, and the text of '' has none"):
            names_text(["a", ""])
        path = os.path.join(self.folder(), "names")
        pathlib.Path(path).write_text("old", encoding="utf-8")
        self.assertRaises(ValueError, write_names, path, ["a", "a"])
        self.assertEqual(pathlib.Path(path).read_text(encoding="utf-8"), "old")

    def test_files_by_hand_and_what_is_wrong_in_them(self) -> None:
        path = os.path.join(self.folder(), "names")
        for text, wanted in (
            (b"ann\nbob\n", ["ann", "bob"]),
            (b'\xef\xbb\xbfann\r\nd d\r\n7\r\n"7"', ["ann", "d d", 7, "7"]),
            ("\u05d0\n<b>\n".encode(), ["\u05d0", "<b>"]),
            (b"", []),
        ):
            pathlib.Path(path).write_bytes(text)
            self.assertEqual(read_names(path), wanted)
        for text, why in (
            (b"a\n\nb\n", "line 2: a name has a letter at least"),
            (b"a\n  \n", "line 2: a name has a letter at least"),
            (b'""\n', "line 1: a name has a letter at least"),
            (b"a\nb\na\n", "line 3: the name a is that of line 1"),
            (b"a\tb\n", "line 1: a control character, which stands in a name by an escape of JSON alone"),
            (b"a\n\x1b[31m\n", "line 2: a control character"),
            (b'a\n"b\n', "line 2: a quote begins a text of JSON, and this is none"),
            (b'"a" "b"\n', "line 1: a quote begins a text of JSON"),
            (b"a\n\xff\n", "line 2: this is no UTF-8"),
            (b"".join(b"%d\n" % at for at in range(65_536)), "line 65536: a network has at most 65535 nodes"),
        ):
            with self.subTest(why):
                pathlib.Path(path).write_bytes(text)
                with self.assertRaises(ValueError) as caught:
                    read_names(path)
                self.assertTrue(str(caught.exception).startswith(f"{path}: {why}"), caught.exception)
        self.assertRaises(FileNotFoundError, read_names, path + "2")

    def test_labels(self) -> None:
        self.assertEqual(visible("\u202eevil\x00\ufeff\ud800"), r"\u202eevil\u0000\ufeff\ud800")
        self.assertEqual(visible("\U000e0041"), r"\U000e0041")
        # letters from right to left, and what joins letters, stay
        self.assertEqual(visible("\u05d0\u200d\u05d1 z"), "\u05d0\u200d\u05d1 z")
        self.assertEqual(label(LONG), "the long name of a node\u2026")
        self.assertEqual(len(label(LONG)), 24)
        self.assertEqual(label("x" * 24), "x" * 24)
        self.assertEqual(label((1, "a")), "(1, 'a')")

    def test_who_is_ever_present(self) -> None:
        self.assertEqual(most_present(PAIR), (5, 3))
        self.assertEqual(most_present("matching manne 4\n1 join 3 = refused 13 already-present\n"), (4, 4))
        base = "matching2 hh 9\nbase 2 spent=1 nodes=2 edges=1\nnode 1 2 0\nnode 7 - 0\nedge 1 7\n"
        self.assertEqual(most_present(base), (9, 7))
        self.assertEqual(most_present(base + "3 join 8 = ok\n4 join 9 = refused 13 x\n"), (9, 8))


class Shown(Timed):
    names = ["ann", HOSTILE, LONG]

    def test_pictures_for_graphviz(self) -> None:
        wanted = [
            "graph matching {",
            '1 [label="ann", style=filled];',
            '2 [label="</script><b>&amp;\\"\'\\\\u202etx\u2026", style=filled];',
            '3 [tooltip="the long name of a node that is cut", label="the long name of a node\u2026"];',
        ]
        found = picture(PAIR, names=self.names).splitlines()
        tooltip = '2 [tooltip="</script><b>&amp;\\"\'\\\\u202etxt\\\\u0000", '
        self.assertEqual([found[2][: len(tooltip)], found[2].replace(tooltip, "2 [")], [tooltip, wanted[2]])
        self.assertEqual([*found[:2], found[3]], [*wanted[:2], wanted[3]])
        self.assertEqual(picture(PAIR, names=[1, 2, 3]), picture(PAIR))
        # enabled: the rule stands below the name
        self.assertIn('1 [label="ann\\nseduce', picture(PAIR, 1, names=self.names))
        with Network("hh", self.names, present=2, capacity=5) as net:
            net.link("ann", HOSTILE)
            net.join(LONG)
            with net.batch() as batch:
                batch.step(["ann"])
                batch.step([HOSTILE])
            self.assertEqual(net.picture().splitlines()[:4], found[:4])
        self.assertRaisesRegex(ValueError, "2 names for 3 nodes", picture, PAIR, names=["a", "b"])

    def test_drawings_in_notebooks(self) -> None:
        with Network("hh", self.names) as net:
            drawn = net._repr_html_()
        svg = ElementTree.fromstring(drawn[drawn.index("<svg") :])
        place = "{http://www.w3.org/2000/svg}"
        self.assertEqual(
            [found.text for found in svg.iter(f"{place}title")], ["ann", "</script><b>&\"'\\u202etxt\\u0000", LONG]
        )
        self.assertEqual([found.text for found in svg.iter(f"{place}text")][2], "the long name of a node\u2026")

    def test_pages(self) -> None:
        path = os.path.join(self.folder(), "page.html")
        with replay(PAIR, names=self.names) as net:
            net.play(path)
        page = pathlib.Path(path).read_text(encoding="utf-8")
        head = '<script type="application/json" id="names">'
        [data] = page.split(head)[1:]
        data = data.partition("</script>")[0]
        self.assertEqual(
            json.loads(data),
            [
                ["ann", "ann"],
                ["</script><b>&\"'\\u202etx\u2026", "</script><b>&\"'\\u202etxt\\u0000"],
                ["the long name of a node\u2026", LONG],
                [],
                [],
            ],
        )
        self.assertNotIn("<", data)
        with replay(PAIR) as net:
            net.play(path)
        self.assertEqual(pathlib.Path(path).read_bytes().count(NO_NAMES), 1)

    def test_objects_bursts_and_explanations(self) -> None:
        with replay(PAIR) as net:
            for ask in (lambda: net.link(1, 9), lambda: net.flag(3, True)):
                self.assertRaises(Refused, ask)
            net.show(2)
            more = net.transcript()
        made = [*objects_of(more, self.names)]
        self.assertEqual(made[1]["words"], ["ann", HOSTILE])
        self.assertEqual(made[3]["choice"], [{"node": "ann", "target": HOSTILE}])
        self.assertEqual(made[3]["moves"], [{"node": "ann", "rule": "seduce", "target": HOSTILE}])
        self.assertEqual(made[5]["words"], ["ann", {"number": 9}])
        self.assertEqual(made[6]["words"], [LONG, 1])
        self.assertEqual((made[7]["words"], made[7]["target"]), ([HOSTILE], "ann"))
        self.assertEqual([*objects_of(more)][5]["words"], [1, 9])
        [burst] = bursts(PAIR, names=["a", "b c", "d"])
        self.assertEqual((burst.reached, burst.moved), (("a", "b c"), ("a", "b c")))
        wrong = PAIR.replace("1:seduce>2", "1:marry>2")
        found = explain(wrong, names=["ann", "bob", "cleo"])
        assert found is not None
        self.assertEqual(found.why, "the rule that is enabled at 1 (ann) is seduce")
        self.assertIn("2 (bob) points at null", found.notes)
        plain = explain(wrong)
        assert plain is not None
        self.assertEqual(plain.why, "the rule that is enabled at 1 is seduce")


class Commands(unittest.TestCase):
    """`--names FILE`, which the program alone does not know."""

    def setUp(self) -> None:
        self.folder = Timed.folder(self)  # type: ignore[arg-type]
        self.names, self.transcript = os.path.join(self.folder, "names"), os.path.join(self.folder, "t")
        pathlib.Path(self.names).write_text('ann\n"b c"\n7\n', encoding="utf-8")
        pathlib.Path(self.transcript).write_text(PAIR, encoding="utf-8")

    def said(self, *words: str, status: int = 0, given: bytes = b"") -> str:
        done = rudekpi(*words, given=given)
        self.assertEqual(done.returncode, status, done.stderr)
        return (done.stderr if status > 1 else done.stdout).decode()

    def test_each_command_that_reads_a_transcript(self) -> None:
        said = self.said("picture", "--names", self.names, given=PAIR.encode())
        self.assertEqual(said, picture(PAIR, names=["ann", "b c", 7]))
        self.assertEqual(self.said("picture", f"--names={self.names}", self.transcript), said)
        self.assertEqual(
            self.said("picture", "--entry", "0", "--names", self.names, self.transcript),
            picture(PAIR, 0, names=["ann", "b c", 7]),
        )
        self.assertEqual(self.said("picture", given=PAIR.encode()), picture(PAIR))
        said = self.said("json", "--names", self.names, self.transcript)
        self.assertEqual(json.loads(said.splitlines()[1])["words"], ["ann", "b c"])
        said = self.said("bursts", self.transcript, "--names", self.names)
        self.assertEqual(said.splitlines()[1].split(",")[-1], '"ann ""b c"""')
        pathlib.Path(self.transcript).write_text(PAIR.replace("2:marry>1", "2:marry>3"), encoding="utf-8")
        said = self.said("explain", self.transcript, "--names", self.names, status=1)
        self.assertIn("2 (b c)", said)

    def test_pages(self) -> None:
        page = os.path.join(self.folder, "page.html")
        self.assertEqual(self.said("page", self.transcript, "--output", page, "--names", self.names), "")
        self.assertIn(
            '[["ann", "ann"], ["b c", "b c"], ["7", "7"], [], []]', pathlib.Path(page).read_text(encoding="utf-8")
        )
        self.assertEqual(self.said("page", "--output", page, given=PAIR.encode()), "")
        self.assertEqual(pathlib.Path(page).read_bytes().count(NO_NAMES), 1)
        self.said("page", "--output", page, given=PAIR.replace("marry", "seduce").encode(), status=1)
        self.assertIn("/none/p", self.said("page", self.transcript, "--output", "/none/p", status=3))

    def test_what_is_wrong_is_named(self) -> None:
        pathlib.Path(self.names).write_text("a\na\n", encoding="utf-8")
        for command in ("picture", "json", "bursts", "explain"):
            with self.subTest(command):
                said = self.said(command, "--names", self.names, self.transcript, status=2)
                self.assertEqual(said, f"! {self.names}: line 2: the name a is that of line 1\n")
        self.assertEqual(
            self.said("json", "--names", "/none", self.transcript, status=3), "! /none: No such file or directory\n"
        )
        pathlib.Path(self.names).write_text("a\nb\n", encoding="utf-8")
        for command in ("picture", "json", "bursts"):
            said = self.said(command, "--names", self.names, self.transcript, status=2)
            self.assertEqual(said, "! 2 names for 3 nodes\n")
        pathlib.Path(self.names).write_text("a\nb\nc\n", encoding="utf-8")
        said = self.said("picture", "--entry", "9", "--names", self.names, self.transcript, status=2)
        self.assertEqual(said, "! no entry 9: the transcript has 4 entries\n")
        with self.assertRaises(Damaged):
            picture(PAIR.replace("marry", "seduce"), names=["a", "b", "c"])
        done = rudekpi("picture", "--names", self.names, given=PAIR.replace("marry", "seduce").encode())
        self.assertEqual((done.returncode, done.stdout), (1, b"line 5: not the machine's reply\n"))


if __name__ == "__main__":
    unittest.main()
