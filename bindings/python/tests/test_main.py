"""``python -m zelamiku``: a heap by its names, and its values in another declaration."""
import os
import subprocess
import sys
import unittest
from pathlib import Path
from unittest import mock

import zelamiku
from support import PATIENCE, OnFile
from zelamiku import __main__ as zelamiku_main
from zelamiku.library import library

MODULE = """
import zelamiku

class Account(zelamiku.Object):
    balance = zelamiku.Signed(first=100)
    past = zelamiku.Array(zelamiku.Float(), 2)
    seen = zelamiku.Field(first=9, transient=True)

class Seats(zelamiku.Object):
    slots = zelamiku.Pool(3)
    next = zelamiku.Ref()

class Limited(zelamiku.Object):
    limit = zelamiku.Signed(first=-50)
    past = zelamiku.Array(zelamiku.Float(first=0.5), 3)
    balance = zelamiku.Signed()

class Unsigned(zelamiku.Object):
    balance = zelamiku.Field()
    past = zelamiku.Array(zelamiku.Float(), 2)

class Wide(zelamiku.Object):
    slots = zelamiku.Pool(4)
    next = zelamiku.Ref()

OBJECTS = dict(accounts=[Account] * 2, seats=Seats)
MORE = dict(accounts=[Limited] * 3, seats=Seats)
FIRST = dict(bank=Limited, accounts=[Limited] * 2, seats=Seats)
LAST = dict(accounts=[Limited] * 2, seats=Seats, bank=Limited)
LESS = dict(accounts=[Limited], seats=Seats)
NATURAL = dict(accounts=[Unsigned] * 2, seats=Seats)
WIDE = dict(accounts=[Limited] * 2, seats=Wide)
"""

COMMAND = [sys.executable, "-B", "-m", "zelamiku"]
SHOWN = """accounts[0].balance -7
accounts[0].past[0] 0.25
accounts[0].past[1] 0.0
accounts[1].balance 100
accounts[1].past[0] 0.0
accounts[1].past[1] 0.0
seats.slots 1 of 3 taken: 0
seats.next 1
"""


class Words(OnFile):
    def setUp(self):
        super().setUp()
        # What isn't buffered fails at once.
        self.enterContext(mock.patch.dict(os.environ)).pop("PYTHONUNBUFFERED", None)
        Path(self.folder, "bank.py").write_text(MODULE)
        self.declared = {}
        exec(MODULE, self.declared)
        with self.open(**self.declared["OBJECTS"], lanes=3) as heap, heap.synchronized(*heap.objects):
            heap.accounts[0].balance, heap.accounts[0].past[0], heap.seats.next = -7, 0.25, heap.accounts[1]
            heap.seats.slots.take()

    def run_with(self, *words):
        ran = subprocess.run([*COMMAND, *words], cwd=self.folder, capture_output=True, text=True, timeout=PATIENCE, check=False)
        return ran.returncode, ran.stdout, ran.stderr

    def refused(self, text, *words):
        before = sorted(os.listdir(self.folder))
        status, out, error = self.run_with(*words)
        self.assertEqual((status, out), (1, ""))
        self.assertRegex(error, text)
        self.assertEqual(sorted(os.listdir(self.folder)), before)

    def test_show_prints_each_durable_field_by_its_name(self):
        self.assertEqual(self.run_with("show", "a.heap", "bank"), (0, SHOWN, ""))
        with open("/dev/full", "w") as full:
            ran = subprocess.run([*COMMAND, "show", "a.heap", "bank"], cwd=self.folder, stdout=full, stderr=subprocess.PIPE, timeout=PATIENCE, check=False)
        self.assertEqual((ran.returncode, ran.stderr), (1, b"zelamiku: [Errno 28] No space left on device\n"))
        reader, writer = os.pipe()
        os.close(reader)
        with os.fdopen(writer) as nobody:
            ran = subprocess.run([*COMMAND, "show", "a.heap", "bank"], cwd=self.folder, stdout=nobody, stderr=subprocess.PIPE, timeout=PATIENCE, check=False)
        self.assertEqual((ran.returncode, ran.stderr), (141, b""))
        self.refused("bank has no dict ACCOUNTS", "show", "a.heap", "bank:ACCOUNTS")
        self.refused("there is no heap", "show", "b.heap", "bank")
        self.refused("are declared", "show", "a.heap", "bank:LAST")
        with self.open(**self.declared["OBJECTS"], lanes=3):
            self.refused("another process has the heap", "show", "a.heap", "bank")

    def test_the_help_shows_what_to_type(self):
        status, out, error = self.run_with("--help")
        self.assertEqual((status, error), (0, ""))
        self.assertIn("usage: python -m zelamiku [-h] {show,migrate} ...\n\n" + zelamiku_main.__doc__, out)
        status, out, error = self.run_with()
        self.assertEqual((status, out), (2, ""))
        self.assertIn("arguments are required: word", error)
        out = " ".join(self.run_with("migrate", "--help")[1].split())
        self.assertIn("usage: python -m zelamiku migrate [-h] [--lanes N] [--drop] [--atomic-sectors | --no-atomic-sectors] FILE MODULE[:NAME] [MODULE[:NAME]]", out)
        for text in ("the new declaration; by default the same one", "for so many threads; by default as many as it has", "lose the fields that the new declaration doesn't have"):
            self.assertIn(text, out)

    def test_migrate_carries_over_what_has_a_name_in_both(self):
        status, out, error = self.run_with("migrate", "a.heap", "bank", "bank:LAST")
        self.assertEqual((status, error), (0, ""))
        with self.open(**self.declared["LAST"], lanes=3, create=False) as heap, heap.synchronized(*heap.objects):
            self.assertEqual([(each.balance, each.limit, list(each.past)) for each in heap.accounts], [(-7, -50, [0.25, 0, 0.5]), (100, -50, [0, 0, 0.5])])
            self.assertEqual((heap.bank.balance, heap.bank.limit, heap.seats.next), (0, -50, 1))
            self.assertEqual([heap.seats.slots.take() for _ in range(3)], [1, 2, None])
        with zelamiku.open(self.path + "~", **self.declared["OBJECTS"], lanes=3, create=False) as heap, heap.synchronized(heap.accounts[0]):
            self.assertEqual(heap.accounts[0].balance, -7)
        self.refused("a.heap~ is there", "migrate", "a.heap", "bank:LAST", "bank")

    def test_migrate_makes_more_lanes(self):
        with self.assertRaisesRegex(zelamiku.OtherHeap, "it has 4 lanes, and 12 are asked for; ask for 3.*python -m zelamiku migrate"):
            self.open(**self.declared["OBJECTS"], lanes=12)
        self.refused("lanes is 0", "migrate", "a.heap", "bank", "--lanes", "0")
        # As one that was killed leaves it.
        Path(self.path + ".migrated").write_text("half")
        self.assertEqual(self.run_with("migrate", "a.heap", "bank", "--lanes", "12")[0], 0)
        with self.open(**self.declared["OBJECTS"], lanes=12) as heap:
            self.assertEqual(heap.report.lanes, 12)
        self.assertEqual(self.run_with("show", "a.heap", "bank"), (0, SHOWN, ""))

    def test_migrate_makes_a_heap_of_one_sync_a_round(self):
        # And keeps it so, until two are asked for.
        for asked, begins in (["--atomic-sectors"], b"MONIHALF"), ([], b"MONIHALF"), (["--no-atomic-sectors"], b"MONIHEAP"), ([], b"MONIHEAP"):
            self.assertEqual(self.run_with("migrate", "a.heap", "bank", *asked)[0], 0)
            self.assertEqual(Path(self.path).read_bytes()[:8], begins)
            self.assertEqual(self.run_with("show", "a.heap", "bank"), (0, SHOWN, ""))
            os.remove(self.path + "~")

    def test_migrate_leaves_the_file_if_the_new_heap_cant_be_synced(self):
        close, ends = library().heap_close, iter([33])
        with mock.patch.object(library(), "heap_close", lambda heap: close(heap) or next(ends, 0)), self.assertRaises(zelamiku.SyncFailed):
            zelamiku_main.migrate(self.path, self.declared["OBJECTS"], self.declared["LAST"], None, False, False)
        self.assertEqual(sorted(os.listdir(self.folder)), ["a.heap", "a.heap.migrated", "bank.py"])
        self.assertEqual(self.run_with("show", "a.heap", "bank"), (0, SHOWN, ""))

    def test_migrate_refuses_what_would_be_another_value(self):
        self.refused(r"would be lost: accounts\[1\]\.balance, .*--drop", "migrate", "a.heap", "bank", "bank:LESS")
        self.refused(r"accounts\[0\]\.balance can't be -7: it isn't from 0", "migrate", "a.heap", "bank", "bank:NATURAL")
        self.refused(r"seats\.next: it has a number, and .* declare new objects last", "migrate", "a.heap", "bank", "bank:FIRST")
        self.refused(r"seats\.slots: a pool that has slots taken", "migrate", "a.heap", "bank", "bank:WIDE")
        with self.open(**self.declared["OBJECTS"], lanes=3) as heap, heap.synchronized(heap.seats):
            heap.seats.slots.give(0)
            heap.seats.next = None
        self.assertEqual(self.run_with("show", "a.heap", "bank")[1], SHOWN.replace("1 of 3 taken: 0", "0 of 3 taken").replace("next 1", "next None"))
        for name in ("WIDE", "LESS", "MORE"):
            self.assertEqual(self.run_with("migrate", "a.heap", "bank", f"bank:{name}", "--drop")[0], 0)
            os.replace(self.path + "~", self.path)


if __name__ == "__main__":
    unittest.main()
