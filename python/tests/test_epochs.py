"""The reach of each epoch's edit or fault: by hand, and compared with tests/lib in random runs."""

from __future__ import annotations

import os
import random
import subprocess
import unittest
from typing import Optional

from lib import cost_tables, reaches
from lib.random_scripts import script
from rudekpi import Epoch, Garbled, Network, epochs
from support import Timed, play

# 1 and 2 are a pair; 3 points at 1 and 7 at 5, unanswered; 8 is absent; no flag is set
BEGUN = """base 40 spent=0 nodes=7 edges=6
node 1 2 0
node 2 1 0
node 3 1 0
node 4 - 0
node 5 - 0
node 6 - 0
node 7 5 0
edge 1 2
edge 1 3
edge 1 4
edge 2 5
edge 2 6
edge 5 7
"""
ROWS = {
    "link 3 4": 2,
    "link 3 2": 0,
    "unlink 1 2": 6,
    "unlink 2 1": 6,
    "unlink 1 3": 0,
    "unlink 5 7": 0,
    "point 1 3": 6,
    "point 2 -": 6,
    "point 1 2": 0,
    "point 3 -": 0,
    "point 3 1": 0,
    "point 4 1": 1,
    "point 5 2": 1,
    "leave 1": 3,
    "leave 2": 3,
    "leave 3": 0,
    "join 8": 0,
}
FLAG_ROWS = {"flag 1 0": 1, "flag 1 1": 0, "flag 4 0": 0, "flag 4 1": 1}
# a run with the reach's size after each line that begins an epoch
RUN: tuple[tuple[str, Optional[int]], ...] = (
    ("link 1 2", 2),
    ("link 1 2", None),
    ("join 4", 0),
    ("step 1", None),
    ("link 2 3", 2),
    ("step 2", None),
    ("link 1 3", 0),
    ("link 3 4", 2),
    ("checkpoint", None),
    ("status", None),
    # 3 is a neighbour of both, and counts once
    ("point 1 3", 3),
    ("point 1 2", 1),
    ("checkpoint", None),
    ("unlink 2 1", 3),
    ("leave 4", 0),
)


def reached(transcript: str) -> list[Optional[int]]:
    return [epoch.reach for epoch in epochs(transcript)]


def known(rules: str, nodes: int, present: int, transcript: str) -> list[tuple[int, str, int]]:
    """Each accepted edit and fault: its entry, word and size of reach by tests/lib."""
    net, found = cost_tables.Network(nodes, set(range(1, present + 1))), []
    for line in transcript.splitlines():
        event, _, reply = line.partition(" = ")
        if not line[0].isdigit() or reply.startswith("refused "):
            continue
        entry, word, *names = event.split(" ")
        if word == "step":
            net.move(reply.split(" "))
        elif reply == "ok":
            node, *others = (None if name == "-" else int(name) for name in names)
            assert node is not None
            found.append((int(entry), word, len(reaches.reach(net, word, node, *others))))
            net.take(word, node, *others)
    return found


class Reached(Timed):
    # the program lists epochs for both engines
    engines = ("program",)

    def test_rows_of_the_table(self) -> None:
        for rules in ("hh", "manne"):
            for event, size in {**ROWS, **(FLAG_ROWS if rules == "manne" else {})}.items():
                with self.subTest(rules, event=event):
                    begun = f"matching2 {rules} 8\n{BEGUN}"
                    self.assertEqual(reached(f"{begun}41 {event} = ok\n"), [None, size])
        self.assertEqual(reached(f"matching2 hh 8\n{BEGUN}41 flag 1 0 = refused 7 no-flag\n"), [None])

    def test_along_a_run(self) -> None:
        sizes = [size for _, size in RUN if size is not None]
        for rules in ("hh", "manne"):
            with self.subTest(rules), Network(rules, 4, present=3) as net:
                with net.batch(raises=False) as batch:
                    for line, _ in RUN:
                        play(batch, line)
                said = net.transcript()
                self.assertEqual(reached(said), [None, *sizes])
                self.assertEqual([epochs(form)[-2].reach for form in (said.encode(), bytearray(said.encode()))], [3, 3])
                for at, left in ((said.index("matching2 "), 4), (said.rindex("matching2 "), 2)):
                    self.assertEqual(reached(said[at:]), [None, *sizes[-left:]])

    def test_random_runs(self) -> None:
        seen = set()
        for seed in range(12):
            chance = random.Random(seed)
            rules, nodes = ("hh", "manne")[seed % 2], chance.randint(4, 7)
            words = ["run", "--rules", rules, "--nodes", str(nodes), "--present", str(nodes - 1)]
            text = "".join(script(chance, nodes) for _ in range(4))
            ran = subprocess.run(
                [os.environ["RUDEKPI_CONSOLE"], *words], input=text.encode(), stdout=subprocess.PIPE, check=True
            )
            said = ran.stdout.decode()
            wanted = known(rules, nodes, nodes - 1, said)
            seen |= {(word, size > 1) for _, word, size in wanted}
            with self.subTest(seed=seed):
                found = [(epoch.start, epoch.reach) for epoch in epochs(said)]
                self.assertEqual(found, [(0, None), *((entry, size) for entry, _, size in wanted)])
                at = said.index("matching2 ")
                sizes = [size for entry, _, size in wanted if entry > int(said[at:].split(" ")[3])]
                self.assertEqual(reached(said[at:]), [None, *sizes])
        words_of_many = {word for word, is_many in seen if is_many}
        self.assertEqual(words_of_many, {"link", "unlink", "point", "leave"}, "each parts a pair somewhere, or links")
        self.assertEqual({word for word, _ in seen}, {*words_of_many, "join", "flag"})

    def test_the_field_stands_last_and_may_be_left_out(self) -> None:
        self.assertIsNone(Epoch(1, 2, 1, 2, 2, 2).reach)
        self.assertEqual(epochs("matching hh 2\n1 link 1 2 = ok\n")[1], Epoch(1, 0, 1, 2, 2, 2, 2))
        self.assertEqual(Epoch(1, 2, 1, 2, 2, 2, 2, 1), Epoch(1, 2, 1, 2, 2, 2, reach=2, rounds=1))

    def test_a_program_that_lists_no_rounds(self) -> None:
        path = self.program("cat > /dev/null; echo start,moves,edges,nodes,bound,cost; echo 0,0,0,2,2,-")
        with self.assertRaisesRegex(Garbled, "without rounds, so it is older than this package: name another"):
            epochs("matching hh 2\n", program=path)

    def test_a_program_that_lists_other_epochs(self) -> None:
        head = "cat > /dev/null; echo start,moves,edges,nodes,bound,cost,rounds; echo 0,0,0,2,2,-,0; "
        for rows in ("true", "echo 2,0,1,2,4,2,0", "echo 1,0,1,2,4,2,0; echo 2,0,1,2,4,2,0"):
            with self.subTest(rows), self.assertRaisesRegex(Garbled, "other entries"):
                epochs("matching hh 2\n1 link 1 2 = ok\n", program=self.program(head + rows))


if __name__ == "__main__":
    unittest.main()
