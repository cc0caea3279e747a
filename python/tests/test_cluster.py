"""Sweeps and audits on a Dask cluster of two local workers, one of them killed."""

from __future__ import annotations

import importlib.util
import logging
import os
import pathlib
import signal
import subprocess
import sys
import time
import unittest
from typing import Any, Iterable

from rudekpi import Damaged, Network, audit, graphs
from rudekpi.parts import audit_parts
from rudekpi.sweeps import Row, sweep
from support import TOP, Timed

# so that a dead worker is not waited for as long as a distant one; set before distributed reads it
os.environ["DASK_DISTRIBUTED__COMM__TIMEOUTS__CONNECT"] = "5s"
HAS_DISTRIBUTED = importlib.util.find_spec("distributed") is not None


@unittest.skipUnless(HAS_DISTRIBUTED, "no distributed")
class Cluster(Timed):
    seconds = 120

    def start(self, module: str, *words: str) -> subprocess.Popen[bytes]:
        folder = os.path.join(TOP, "python")
        run = subprocess.Popen(
            [sys.executable, "-m", module, *words],
            env=dict(os.environ, PYTHONPATH=f"{folder}:{folder}/tests"),
            stdout=subprocess.DEVNULL,
            stderr=subprocess.DEVNULL,
            cwd=self.folder(),
        )
        self.addCleanup(run.wait)
        self.addCleanup(run.kill)
        return run

    def setUp(self) -> None:
        super().setUp()
        import distributed

        logging.getLogger("distributed").setLevel(logging.CRITICAL)
        logging.getLogger("distributed.client").setLevel(logging.CRITICAL)
        self.file = os.path.join(self.folder(), "scheduler.json")
        self.start(
            "distributed.cli.dask_scheduler",
            "--host",
            "127.0.0.1",
            "--port",
            "0",
            "--no-dashboard",
            "--scheduler-file",
            self.file,
        )
        words = ["--scheduler-file", self.file, "--nthreads", "1", "--no-nanny", "--no-dashboard"]
        self.workers = [self.start("distributed.cli.dask_worker", *words) for _ in range(2)]
        last = time.monotonic() + 60
        while not os.path.exists(self.file) and time.monotonic() < last:
            time.sleep(0.05)
        client_of: Any = distributed.Client
        self.client = client_of(scheduler_file=self.file, set_as_default=False, timeout=60)
        self.addCleanup(self.client.close)
        self.client.wait_for_workers(2, timeout=60)

    def test_the_same_rows_where_a_worker_dies(self) -> None:
        words = ([graphs.grid(6, 6)], ["hh", "manne"], ["seeded", "least"], range(20), [0, 30])

        def named(rows: Iterable[Row]) -> list[str]:
            return sorted(str(vars(row) | {"seconds": 0}) for row in rows)

        wanted, made = named(sweep(*words)), []
        for row in sweep(*words, executor=self.client.get_executor()):
            made.append(row)
            if len(made) == 20:
                os.kill(self.workers[0].pid, signal.SIGKILL)
        self.assertEqual(named(made), wanted)
        self.assertIsNotNone(self.workers[0].wait(20))
        self.assertIsNone(self.workers[1].poll())

    def test_the_same_verdict_where_a_worker_dies(self) -> None:
        with Network("hh", 30) as net:
            with net.batch() as batch:
                for node in range(1, 30):
                    batch.link(node, node + 1)
                for turn in range(40):
                    batch.scramble(turn, 20)
                    batch.drive(turn, 100)
                    batch.checkpoint()
        text = net.transcript().encode()
        executor = self.client.get_executor()
        self.assertEqual(audit_parts(text, executor, size=500), audit(text))
        path = pathlib.Path(self.folder(), "transcript")
        path.write_bytes(text)
        for shared in (False, True):
            self.assertEqual(audit_parts(path, executor, size=500, shared=shared), audit(text))
        os.kill(self.workers[1].pid, signal.SIGKILL)
        self.assertEqual(audit_parts(text, executor, size=500), audit(text))

    def test_a_file_that_has_changed_is_judged_again(self) -> None:
        # distributed answers equal calls with its earlier answer, while that is referenced
        path, executor = pathlib.Path(self.folder(), "transcript"), self.client.get_executor()
        path.write_text("matching hh 2\n1 link 1 2 = no\n", encoding="utf-8")
        try:
            audit_parts(path, executor, shared=True)
        except Damaged as error:
            held = error
        path.write_text("matching hh 2\n1 link 1 2 = ok\n", encoding="utf-8")
        self.assertEqual(audit_parts(path, executor, shared=True).entries, 1)
        self.assertEqual(held.line, 2)

    def test_by_the_command_line(self) -> None:
        import json

        with open(self.file, encoding="utf-8") as file:
            address = json.load(file)["address"]
        words = [sys.executable, "-m", "rudekpi", "sweep", "--graph", "ring:9", "--seeds", "6", "--dask", address]
        done = subprocess.run(
            words, env=dict(os.environ, PYTHONPATH=os.path.join(TOP, "python")), capture_output=True, encoding="utf-8"
        )
        self.assertEqual((done.returncode, len(done.stdout.splitlines())), (0, 7), done.stderr)


class WithoutDistributed(Timed):
    def test_it_is_told(self) -> None:
        words = ["sweep", "--graph", "ring:5", "--dask", "tcp://127.0.0.1:1"]
        hides = "import sys; sys.modules['distributed'] = None; import rudekpi.__main__ as it; "
        hides += f"sys.exit(it.main({words}))"
        done = subprocess.run(
            [sys.executable, "-c", hides],
            env=dict(os.environ, PYTHONPATH=os.path.join(TOP, "python")),
            capture_output=True,
            encoding="utf-8",
        )
        self.assertEqual(
            (done.returncode, done.stderr.splitlines()[-1]), (1, "! --dask wants distributed, which is not there")
        )


if __name__ == "__main__":
    unittest.main()
