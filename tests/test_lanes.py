"""Whose a heap's lanes are, by the program and the package for Python together: each thread has one, and where the file has one more, the last one is
the helper's. (bindings/c/tests/file.c tries the numbers of lanes and of threads.)

`heapctl show` and the file's header tell how many lanes the file has, `stats` how many syncs its rounds have taken. A heap is also killed in the
midst of its work. The library is that of tools/c-library, or in the folder ZELAMIKU_LIBS.
"""
import os
import signal
import subprocess
import sys
import tempfile
import threading
import time
import unittest
from pathlib import Path

from .harness import COUNTS, TOP, needs_heapctl, run, tries
from .test_examples import LIBS, needs_shared

sys.path.insert(0, f"{TOP}/bindings/python")
os.environ.setdefault("ZELAMIKU_LIBS", str(LIBS))
import zelamiku  # noqa: E402

CAPACITY, THREADS = 4_096, 4


class Account(zelamiku.Object):
    balance = zelamiku.Field(first=100)


def opened(path):
    return zelamiku.open(path, accounts=[Account] * THREADS, lanes=THREADS, capacity=CAPACITY, ring=4_096)


def work_for_ever(heap, number):
    account = heap.accounts[number]
    while True:
        with heap.synchronized(account):
            account.balance += 1
            balance = account.balance
        heap.durable()
        os.write(1, b"%d %d\n" % (number, balance))


def serve(path):
    heap = opened(path)
    for number in range(THREADS):
        threading.Thread(target=work_for_ever, args=(heap, number)).start()


def has_records(path, lane):
    """Whether the lane has ever had a record (docs/FORMAT.md; the fingerprint is a field more)."""
    begin = 2_160 + 24 * (THREADS + 1) + 16 * lane * CAPACITY
    return any(Path(path).read_bytes()[begin : begin + 16 * CAPACITY])


@needs_shared
class Lanes(unittest.TestCase):
    def setUp(self):
        folder = tempfile.TemporaryDirectory()
        self.addCleanup(folder.cleanup)
        self.path = f"{folder.name}/heap"

    def assert_rounds(self, heap, syncs):
        """Makes five sections durable, one after the other, by rounds of so many syncs."""
        before = heap.stats()
        for number in range(5):
            account = heap.accounts[number % THREADS]
            with heap.synchronized(account):
                account.balance += 1
            heap.durable()
        after = heap.stats()
        two, four = after.two_sync_rounds - before.two_sync_rounds, after.four_sync_rounds - before.four_sync_rounds
        self.assertEqual((after.syncs - before.syncs, two > 0, four > 0), (2 * two + 4 * four, syncs == 2, syncs == 4))

    @needs_heapctl
    def test_heapctl_tells_of_the_helpers_lane(self):
        with opened(self.path) as heap:
            self.assert_rounds(heap, 2)
        self.assertEqual((Path(self.path).read_bytes()[9], has_records(self.path, THREADS)), (THREADS + 1, True))
        shown, recovered = (run([word, "--image", self.path]).out for word in ("show", "recover"))
        self.assertIn(f"image lanes {THREADS + 1} capacity {CAPACITY} ", shown)
        self.assertRegex(shown, rf"(?m)^section t{THREADS + 1} 1 whole records 3$")
        self.assertRegex(recovered, rf"(?m)^kept 5 0 0 0 0$\n^dropped t{THREADS + 1} 1 unsettled$")

    @needs_heapctl
    def test_a_heap_that_heapctl_has_made_has_just_the_lanes_that_it_was_told(self):
        schema = f"{self.path}.schema"
        Path(schema).write_text("".join(f"object o{i}\nfield f{i} o{i} o{i} 100\n" for i in range(THREADS)))
        for lanes, syncs in ((THREADS + 1, 2), (THREADS, 4)):
            ran = run(["format", "--image", self.path, "--schema", schema, "--lanes", lanes, "--capacity", CAPACITY, "--force"])
            self.assertEqual(ran.status, 0, ran)
            with opened(self.path) as heap:
                self.assertEqual((heap.report.is_made, heap.report.lanes), (False, THREADS))
                self.assert_rounds(heap, syncs)

    def test_a_report_after_a_kill_has_no_line_of_the_helpers_lane(self):
        told, dropped = [0] * THREADS, 0
        for number in range(tries(3)):
            words = [sys.executable, "-c", f"from tests.test_lanes import serve; serve({self.path!r})"]
            service = subprocess.Popen(words, cwd=TOP, stdout=subprocess.PIPE)
            service.stdout.readline()
            time.sleep(0.05 * (number + 1))
            service.send_signal(signal.SIGKILL)
            lines = service.communicate()[0].splitlines(keepends=True)
            self.assertEqual(service.returncode, -signal.SIGKILL)
            for line in lines:
                if line.endswith(b"\n"):
                    account, balance = map(int, line.split())
                    told[account] = max(told[account], balance)
            self.assertTrue(has_records(self.path, THREADS))
            with opened(self.path) as heap:
                report = heap.report
                self.assertEqual((report.lanes, len(report.kept)), (THREADS, THREADS))
                lanes = [it.lane for it in report.dropped] + [it.depended[0] for it in report.dropped if it.depended is not None]
                self.assertTrue(all(lane < THREADS for lane in lanes), report)
                self.assertTrue(report.dropped or report.undone == 0, report)
                dropped += len(report.dropped)
                with heap.synchronized(*heap.accounts):
                    found = [account.balance for account in heap.accounts]
                self.assertTrue(all(map(int.__ge__, found, told)), f"{found} after {told}")
        COUNTS["lanes"].update({"kills": tries(3), "sections dropped": dropped})
