"""Workers: a piece that does harm costs only its own answer, and nothing is left when the pool is closed."""
from __future__ import annotations

import ast
import os
import re
import signal
import subprocess
import sys
import tempfile
import time
import unittest
from pathlib import Path
from typing import Any, Dict, List
from unittest import mock

from relint.stages import pool

PYTHON = str(Path(__file__).resolve().parents[2] / "python")


def work(piece: Any) -> Any:
    """Does what a piece says, most of which no worker should do."""
    do = piece["do"] if isinstance(piece, dict) else piece
    if do == "loop":
        while True:
            pass
    if do == "memory":
        return len(bytearray(3 << 30))
    if do == "abort":
        os.abort()
    if do == "kill":
        os.kill(os.getpid(), signal.SIGKILL)
    if do == "match":
        return bool(re.match("(a+)+$", "a" * 60 + "!"))
    if do == "tree":
        return sum(1 for _ in ast.walk(ast.parse("a," * 20_000_000)))
    if do == "answer":
        return "a" * (pool.LARGEST_ANSWER + 1)
    if do == "flood":
        _write(b"a" * (1 << 20), 100)
    if do == "not JSON":
        _write(b"{]\n", 1)
        time.sleep(60)
    if do == "no answer":
        return {1, 2}
    if do == "deep":
        _write(b"[" * 100_000 + b"\n", 1)
    if do == "file":
        return Path(piece["folder"], "new").write_text("a" * 10)
    if do == "sleep":
        time.sleep(60)
    return [os.getpid(), do]


def _write(data: bytes, times: int) -> None:
    """Writes to all pipes of the process."""
    for name in os.listdir("/dev/fd"):
        try:
            for _ in range(times if int(name) > 2 else 0):
                os.write(int(name), data)
        except OSError:
            pass


def children() -> List[str]:
    """The ids of the processes that this one has started and that are still there."""
    return Path(f"/proc/{os.getpid()}/task/{os.getpid()}/children").read_text().split()


HARM = {"loop": "processor", "memory": "memory", "abort": "signal 6", "kill": "signal 9", "match": "processor", "tree": "",
        "answer": "bytes", "flood": "bytes", "not JSON": "no answer", "no answer": "TypeError", "deep": "no answer"}


class Harm(unittest.TestCase):
    def test_each_costs_only_its_own_answer(self) -> None:
        before = children()
        for jobs in (1, 3):
            pieces: List[Any] = [it for pair in zip(HARM, map(str, range(len(HARM)))) for it in pair]
            with mock.patch.object(pool, "SECONDS", 0.4), mock.patch.object(pool, "LARGEST_ANSWER", 1 << 20):
                with pool.Pool(jobs, work) as workers:
                    found = dict(workers.answers(pieces))
                    self.assertEqual(sorted(found), list(range(len(pieces))))
                    for at, piece in enumerate(pieces):
                        with self.subTest(piece=piece, jobs=jobs):
                            if piece in HARM:
                                self.assertIsNone(found[at])
                                self.assertIn(HARM[piece], workers.why(at))
                                self.assertTrue(workers.why(at))
                            else:
                                self.assertEqual((found[at][1], workers.why(at)), (piece, ""))
                    self.assertEqual([it[1][1] for it in workers.answers(["again"])], ["again"])
        self.assertEqual(children(), before)

    def test_a_piece_may_have_less_time(self) -> None:
        begun = time.monotonic()
        with pool.Pool(1, work) as workers:
            self.assertEqual(list(workers.answers([{"do": "loop", "seconds": 0.1}])), [(0, None)])
            self.assertRegex(workers.why(0), "more than (0.1|2) seconds")
        self.assertLess(time.monotonic() - begun, 5)

    def test_the_clock(self) -> None:
        with mock.patch.object(pool, "SECONDS", 0.02), pool.Pool(2, work) as workers:
            self.assertEqual(dict(workers.answers(["sleep", "x"]))[0], None)
            self.assertIn("0.4 seconds", workers.why(0))

    def test_the_deadline(self) -> None:
        begun = time.monotonic()
        with pool.Pool(2, work, begun + 0.3) as workers:
            found = dict(workers.answers(["x", *["sleep"] * 5]))
            self.assertEqual(([it is None for it in found.values()].count(True), workers.late), (5, True))
            self.assertEqual(workers.why(3), pool.NO_TIME)
            self.assertEqual(list(workers.answers(["x"])), [(0, None)])
        self.assertLess(time.monotonic() - begun, 5)

    def test_no_file_is_written(self) -> None:
        with tempfile.TemporaryDirectory() as folder, pool.Pool(1, work) as workers:
            self.assertEqual(list(workers.answers([{"do": "file", "folder": folder}])), [(0, None)])
            self.assertFalse((Path(folder) / "new").stat().st_size)


class Order(unittest.TestCase):
    def test_a_path_goes_to_the_worker_that_had_it(self) -> None:
        with pool.Pool(3, work) as workers:
            pieces = [{"do": "x", "path": f"{number % 5}.py"} for number in range(60)]
            homes: Dict[str, int] = {}
            for at, answer in workers.answers(pieces[:5]):
                homes[pieces[at]["path"]] = answer[0]
            again = {at: answer[0] for at, answer in workers.answers(pieces[:5])}
            self.assertEqual({pieces[at]["path"]: pid for at, pid in again.items()}, homes)

    def test_answers_that_nobody_takes(self) -> None:
        before = children()
        with pool.Pool(2, work) as workers:
            for _ in workers.answers(["x", "sleep", "sleep"]):
                break
            self.assertEqual([it[1][1] for it in workers.answers(["y"])], ["y"])
            self.assertEqual(list(workers.answers([])), [])
        self.assertEqual(children(), before)

    def test_large_pieces(self) -> None:
        with pool.Pool(1, len) as workers:
            self.assertEqual(list(workers.answers(["a" * 5_000_000, "b"])), [(0, 5_000_000), (1, 1)])


class Interrupted(unittest.TestCase):
    def test_no_process_is_left(self) -> None:
        # (a shell's job in the background ignores SIGINT, and so does what it starts)
        code = ("import signal, sys, time\nfrom relint.stages.pool import Pool\n"
                "signal.signal(signal.SIGINT, signal.default_int_handler)\n"
                "def work(piece):\n    print(end='')\n    while True: time.sleep(piece)\n"
                "with Pool(3, work) as pool:\n"
                "    print(*(it.pid for it in pool._workers), flush=True)\n    list(pool.answers([0, 1, 0]))\n")
        with subprocess.Popen([sys.executable, "-c", code], stdout=subprocess.PIPE, stderr=subprocess.DEVNULL,
                              env={"PYTHONPATH": PYTHON}, start_new_session=True) as process:
            assert process.stdout
            pids = process.stdout.readline().split()
            time.sleep(0.3)
            # (as a terminal does for Ctrl-C, to all of them)
            os.killpg(process.pid, signal.SIGINT)
            process.wait(10)
        self.assertEqual(len(pids), 3)
        self.assertFalse([it for it in pids if os.path.exists(f"/proc/{int(it)}")])


if __name__ == "__main__":
    unittest.main()
