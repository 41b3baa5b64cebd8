"""Heaps that are made, used, closed and opened again."""
import contextlib
import dataclasses
import errno
import gc
import logging
import os
import re
import sys
import time
import unittest
import warnings
from unittest import mock

import zelamiku
from support import Account, LONG, OnFile, Queue, beside, bob_in_alice, enter, held_elsewhere, in_process, in_thread, outcome
from zelamiku.library import FieldRow, library


class All(zelamiku.Object):
    whole = zelamiku.Field(first=7)
    signed = zelamiku.Signed(first=-7)
    yes = zelamiku.Bool(first=True)
    real = zelamiku.Float(first=0.5)
    link = zelamiku.Ref()
    many = zelamiku.Array(zelamiku.Signed(first=-1), 3)
    count = zelamiku.Field(first=9, transient=True)


class Values(OnFile):
    def test_each_kind_is_found_again_and_a_transient_field_begins_anew(self):
        with self.open(it=All, others=[Account, All]) as heap:
            it = heap.others[1]
            with heap.synchronized(it):
                self.assertEqual((it.whole, it.signed, it.yes, it.real, it.link, list(it.many), it.count), (7, -7, True, 0.5, None, [-1] * 3, 9))
                it.whole, it.signed, it.yes, it.real, it.link, it.count = 2**64 - 1, -(2**63), False, 1e-300, heap.others[0], 9
                it.many[-2] = -5
                it.count += 1
                self.assertEqual((it.count, len(it.many)), (10, 3))
            with heap.synchronized(heap.it):
                self.assertEqual(heap.it.whole, 7)
        with self.open(it=All, others=[Account, All]) as heap:
            it = heap.others[1]
            with heap.synchronized(it):
                self.assertEqual((it.whole, it.signed, it.yes, it.real, it.link), (2**64 - 1, -(2**63), False, 1e-300, 1))
                self.assertEqual((list(it.many), it.count), ([-1, -5, -1], 9))
                self.assertIs(heap.objects[it.link], heap.others[0])
                it.link = None
                self.assertIsNone(it.link)

    def test_a_value_without_place_names_the_field_and_stores_nothing(self):
        with self.open(it=All) as heap:
            it = heap.it
            with heap.synchronized(it):
                with self.assertRaisesRegex(zelamiku.OutOfRange, r"it\.whole can't be -1: it isn't from 0 to 2\*\*64 - 1"):
                    it.whole -= 8
                with self.assertRaisesRegex(zelamiku.OutOfRange, r"it\.many\[2\] can't be"):
                    it.many[2] = 2**63
                for wrong in (1.5, None):
                    with self.assertRaises(TypeError):
                        it.whole = wrong
                for index in (3, -4):
                    with self.assertRaises(IndexError):
                        it.many[index] = 0
                for name, text in (("many", r"it\.many is an array: store to one of its items"), ("nothing", "nothing")):
                    with self.assertRaisesRegex(AttributeError, text):
                        setattr(it, name, 1)
                it.whole -= 1
                self.assertEqual((it.whole, list(it.many)), (6, [-1] * 3))

    def test_a_field_may_have_another_guard(self):
        class Guarded(zelamiku.Object):
            total = zelamiku.Field(guard="alice")

        with self.open(total=Guarded, alice=Account) as heap:
            with heap.synchronized(heap.alice):
                heap.total.total = 5
            with heap.synchronized(heap.total), self.assertRaisesRegex(zelamiku.NotHeld, r"heap\.synchronized\(heap\.alice\)"):
                heap.total.total = 6

    def test_a_pool_gives_each_slot_once(self):
        class Seats(zelamiku.Object):
            free = zelamiku.Pool(3)

        for slots in (1, 2, 5):
            rows = (FieldRow * (slots + 1))()
            self.assertEqual(library().pool_fields(0, rows, slots + 1), 0)
            self.assertEqual([row.first for row in rows], zelamiku.Pool(slots).firsts())
        with self.open(seats=Seats) as heap:
            free = heap.seats.free
            with heap.synchronized(heap.seats):
                self.assertEqual([free.take() for _ in range(4)], [0, 1, 2, None])
                free.give(1)
                for wrong, kind in ((1, zelamiku.NotTaken), (3, IndexError), (-1, IndexError), (0.5, TypeError)):
                    self.assertIsInstance(outcome(lambda: free.give(wrong)), kind)
                self.assertEqual((len(free), free.take(), free.take()), (3, 1, None))
                with self.assertRaisesRegex(AttributeError, r"seats\.free is a pool: call its take\(\) and give\(\)"):
                    heap.seats.free = 1
            for refused in (free.take, lambda: free.give(0)):
                self.assertIsInstance(outcome(refused), zelamiku.NotHeld)


class Openings(OnFile):
    def read(self):
        with open(self.path, "rb") as file:
            return file.read()

    def test_the_report_has_what_was_found(self):
        with self.open(lanes=3, ring=4_096) as heap:
            made = heap.report
            self.values(heap)
        with self.open(lanes=2, ring=65_536) as heap:
            found = heap.report
        self.assertTrue(made.is_made and not found.is_made and not found.is_upgraded)
        # A log holds as much as its ring, unless a capacity is given.
        self.assertEqual((made.lanes, made.capacity, found.lanes, found.capacity), (3, 4_096, 3, 4_096))
        self.assertEqual(made.size, os.path.getsize(self.path))
        self.assertEqual((found.size, found.kept, found.dropped, found.undone), (made.size, (1, 0, 0), (), 0))
        with zelamiku.open(self.path + ".other", alice=Account, capacity=2_000) as heap:
            self.assertEqual(heap.report.capacity, 2_000)

    def test_another_opening_is_busy(self):
        with self.open():
            with self.assertRaises(zelamiku.Busy):
                self.open()
            ran = in_process(OPENS, self.path)
            self.assertIn(f"Busy {self.path}: ", ran.stdout, ran.stderr)
        self.assertIn("opened", in_process(OPENS, self.path).stdout)

    def test_the_first_difference_is_named(self):
        class Two(zelamiku.Object):
            balance = zelamiku.Field()
            other = zelamiku.Field()

        class Transient(zelamiku.Object):
            balance = zelamiku.Field(transient=True)

        class Guarded(zelamiku.Object):
            balance = zelamiku.Field(guard="alice")

        class Bare(zelamiku.Object):
            pass

        self.open(lanes=4).close()
        before = self.read()
        cases = [
            (dict(lanes=6), r"it has 5 lanes, and 6 are asked for; ask for 4, since the last one is the helper's"),
            (dict(alice=Account, lanes=2), r"it has 2 objects, and 1 are declared;"),
            (dict(alice=Account, bob=Two, lanes=4), r"bob\.other \(field 2\): it has it in .*, or it is the fingerprint of a heap of 2 fields;"),
            (dict(alice=Two, bob=Two, lanes=4), r"it has 3 fields \(a fingerprint counts as one\), and 4 are declared;"),
            (dict(alice=Two, bob=Bare, lanes=4), r"alice\.other \(field 1\): it has it in object 1 \(bob\), and declared is object 0 \(alice\);"),
            (dict(alice=Account, bob=Transient, lanes=1), r"bob\.balance \(field 1\): there it is durable, and declared as transient;"),
            (dict(alice=Account, bob=Guarded, lanes=4), r"bob\.balance \(field 1\): there object 1 \(bob\) guards it, and declared is object 0 \(alice\);"),
        ]
        for declared, text in cases:
            with self.subTest(text), self.assertRaisesRegex(zelamiku.OtherHeap, text):
                self.open(**declared)
        self.assertEqual(self.read(), before)

    def test_names_in_another_order_are_another_heap(self):
        class Limited(zelamiku.Object):
            balance = zelamiku.Field(first=5)
            limit = zelamiku.Field(first=1_000_000)

        class Renamed(zelamiku.Object):
            balance = zelamiku.Field(first=5)
            most = zelamiku.Field(first=1_000_000)

        self.open(alice=Limited, bob=Limited).close()
        before = self.read()
        cases = [
            (dict(bob=Limited, alice=Limited), "it was made with other names or in another order"),
            (dict(alice=Limited, bob=Limited, fingerprint=7), "and not 0x7;"),
            (dict(alice=Limited, bob=Limited, fingerprint=None), r"it has 5 fields \(a fingerprint counts as one\), and 4 are declared"),
            (dict(alice=Renamed, bob=Renamed), r"of fingerprint 0x[0-9a-f]+ and not 0x[0-9a-f]+; .*only renamed.*fingerprint=0x[0-9a-f]+"),
        ]
        for declared, text in cases:
            with self.subTest(text), self.assertRaisesRegex(zelamiku.OtherHeap, text) as caught:
                self.open(**declared)
        self.assertEqual(self.read(), before)
        # The cure, where names alone have changed.
        number = int(caught.exception.cure.rpartition("fingerprint=")[2], 16)
        with self.open(alice=Renamed, bob=Renamed, fingerprint=number) as heap, heap.synchronized(heap.bob):
            self.assertEqual((heap.bob.balance, heap.bob.most), (5, 1_000_000))

    def test_a_fingerprint_of_ones_own_or_none(self):
        self.open(fingerprint=2**64 - 1).close()
        for other in ("names", 1):
            with self.assertRaises(zelamiku.OtherHeap):
                self.open(fingerprint=other)
        self.open(bob=Account, alice=Account, fingerprint=2**64 - 1).close()
        with self.assertRaises(TypeError):
            self.open(fingerprint="Names")
        os.remove(self.path)
        # A heap without one is opened with any.
        for chosen in (None, "names", 7):
            self.open(fingerprint=chosen).close()
        os.remove(self.path)

        class Much(zelamiku.Object):
            fields = zelamiku.Array(zelamiku.Field(first=1), 16_384)

        # A full heap has no room for one.
        for chosen in ("names", None):
            with self.open(it=Much, lanes=1, capacity=2_000, fingerprint=chosen) as heap, heap.synchronized(heap.it):
                self.assertEqual(heap.it.fields[16_383], 1)
        with self.assertRaises(zelamiku.BadPlan):
            zelamiku.open(self.path + ".other", it=Much, fingerprint=7)

    def test_one_that_has_to_be_there_is_not_made(self):
        """As on a volume that isn't mounted: a fresh heap would hand out its first values again."""

        def refused(path):
            with self.assertRaises(zelamiku.NoHeap) as caught:
                zelamiku.open(path, alice=Account, bob=Account, create=False)
            self.assertEqual(caught.exception.path, path)
            self.assertIn("there is no heap", caught.exception.cause)
            self.assertIn("mount its volume", caught.exception.cure)
            return caught.exception.__cause__

        self.assertEqual(refused(self.path).errno, errno.ENOENT)
        refused(str(self.folder / "none" / "a.heap"))
        self.assertEqual(os.listdir(self.folder), [])
        with open(self.path, "wb") as file:
            file.write(bytes(10_000))
        self.assertIsNone(refused(self.path))
        self.assertEqual(self.read(), bytes(10_000))
        with self.open() as heap:
            self.assertTrue(heap.report.is_made)
        with self.open(create=False) as heap:
            self.assertFalse(heap.report.is_made)

    def test_what_is_no_heap(self):
        self.open().close()
        heap = self.read()
        # Another file; one that was cut; one whose first fields were written over (docs/FORMAT.md).
        cases = [(b"notes" * 1000, zelamiku.NotAHeap), (heap[:200], zelamiku.BrokenFile), (heap[:2_160] + b"\xa5" * 32 + heap[2_192:], zelamiku.BrokenFile)]
        for before, kind in cases:
            with open(self.path, "wb") as file:
                file.write(before)
            with self.assertRaises(kind) as caught:
                self.open()
            self.assertEqual((caught.exception.path, self.read()), (self.path, before))
        for path, number in ((str(self.folder / "none" / "a.heap"), errno.ENOENT), (str(self.folder), errno.EISDIR)):
            with self.assertRaisesRegex(zelamiku.FileError, re.escape(os.strerror(number))) as caught:
                zelamiku.open(path, alice=Account)
            self.assertEqual((caught.exception.path, caught.exception.__cause__.errno), (path, number))
        with self.assertRaisesRegex(ValueError, "null byte"):
            zelamiku.open("a\0b", alice=Account)

    def test_what_can_be_no_heap_is_refused_and_leaves_no_file(self):
        class Much(zelamiku.Object):
            fields = zelamiku.Array(zelamiku.Field(), 16_385)

        class Bare(zelamiku.Object):
            pass

        for declared in ({"it": Much}, {"it": [Account] * 4_097}, {"it": Bare}, {"it": []}, {}):
            with self.assertRaises(zelamiku.BadPlan):
                zelamiku.open(self.path, **declared)
            self.assertFalse(os.path.exists(self.path))

    def test_an_older_version_is_upgraded_where_that_is_asked_for(self):
        # It had no transient fields, so no fingerprint.
        self.open(fingerprint=None).close()
        with open(self.path, "r+b") as file:
            # The control's version, in both of its slots (docs/FORMAT.md).
            for slot in (64, 1_112):
                file.seek(slot + 8 + 8)
                file.write((1).to_bytes(4, "big"))
        with self.assertRaisesRegex(zelamiku.OldVersion, "upgrade=True"):
            self.open()
        with self.open(upgrade=True) as heap:
            self.assertTrue(heap.report.is_upgraded)
            self.assertEqual(self.values(heap), [100, 100])

    def test_a_path_is_any_that_the_system_takes(self):
        folder = os.fsencode(self.folder)
        for path in (self.folder / "b.heap", str(self.folder / "ä ö.heap"), os.fsdecode(folder + b"/\xff.heap")):
            with zelamiku.open(path, alice=Account) as heap:
                self.assertEqual(heap.path, os.fspath(path))
            self.assertTrue(os.path.exists(path))


OPENS = """
try:
    zelamiku.open(sys.argv[1], alice=Account, bob=Account).close()
    print("opened")
except zelamiku.Error as error:
    print(type(error).__name__, error)
"""


LEAVES = """
heap = zelamiku.open(sys.argv[1], alice=Account, bob=Account)
with heap.synchronized(heap.alice):
    heap.alice.balance = 4
"""


class Endings(OnFile):
    def test_each_call_on_a_closed_heap_is_refused(self):
        heap = self.open()
        with heap.synchronized(heap.alice):
            with self.assertRaises(zelamiku.Running):
                heap.close()
            heap.alice.balance = 1
        for end in (heap.close, heap.close, heap.stop, heap.abandon):
            end()
        for call in (
            heap.synchronized(heap.alice).__enter__,
            lambda: in_thread(heap.synchronized(heap.alice).__enter__),
            lambda: heap.copy_to(self.path + ".copy"),
            lambda: heap.alice.balance,
            lambda: setattr(heap.alice, "balance", 2),
            heap.alice.notify,
            heap.alice.wait,
            heap.waits,
        ):
            self.assertIsInstance(outcome(call), zelamiku.Closed)
        self.assertIn("closed", repr(heap))
        # As once another heap has its place in the library.
        heap._link.handle = 0
        self.assertRegex(str(outcome(heap.stats)), "the heap was closed or stopped")
        with self.open() as heap:
            self.assertEqual(self.values(heap), [1, 100])

    def test_stop_and_abandon_wake_those_that_sleep_and_drop_what_is_open(self):
        def wait():
            with heap.synchronized(heap.queue):
                heap.queue.wait()

        for end, kind, text in (("stop", zelamiku.Closed, ""), ("abandon", zelamiku.Abandoned, "the accounts don't add up")):
            heap = self.open(alice=Account, bob=Account, queue=Queue)
            with heap.synchronized(heap.bob):
                heap.bob.balance = 7
            with beside(wait) as outcomes:
                while heap.stats().lent < 2:
                    time.sleep(0.001)
                with self.assertRaisesRegex(kind, text), heap.synchronized(heap.alice):
                    heap.alice.balance = 1
                    # A report has a section by its number in its lane.
                    section = heap.session.lane, heap.session.earlier + heap.session.sections + 1
                    getattr(heap, end)(*[text] * bool(text))
                    heap.alice.balance = 2
            self.assertEqual([type(each) for each in outcomes], [kind])
            with self.assertRaisesRegex(kind, re.escape(f"{self.path}: {text}")):
                heap.copy_to(self.path + ".copy")
            heap.abandon("too late")
            if kind is zelamiku.Abandoned:
                self.assertIn(text, heap._link.abandon("a thread has ended inside a section").cause)
            heap.close()
            heap._link.handle = 0
            self.assertRegex(str(outcome(heap.waits)), f": {text}")
            with self.open(alice=Account, bob=Account, queue=Queue) as heap:
                self.assertEqual(self.values(heap), [100, 7])
                dropped = [(each.lane, each.section, each.why) for each in heap.report.dropped]
                self.assertIn((*section, zelamiku.Why.NOT_ENDED), dropped)
            os.remove(self.path)

    def test_a_report_names_what_a_dropped_section_depended_on(self):
        heap = self.open()
        with held_elsewhere(bob_in_alice(heap)):
            enter(heap.synchronized(heap.bob))
            heap.abandon()
        with self.open() as heap:
            dropped = {each.why: each for each in heap.report.dropped}
            cause = dropped[zelamiku.Why.NOT_ENDED]
            self.assertEqual((dropped[zelamiku.Why.DEPENDED].depended, cause.depended), ((cause.lane, cause.section), None))

    def test_what_only_a_newer_library_knows_fails_no_call(self):
        heap = self.open()
        with contextlib.suppress(zelamiku.Abandoned), heap.synchronized(heap.alice):
            heap.abandon()
        with mock.patch.object(library(), "heap_dropped", lambda heap, index, row: setattr(row._obj, "why", 9) or 0):
            with self.open() as heap, mock.patch.object(library(), "heap_stats", lambda heap, row: setattr(row._obj, "last_cause", 99) or 0):
                self.assertEqual((heap.report.dropped, heap.stats().last_cause), ((), zelamiku.Cause.NONE))

    def test_the_end_of_a_with_closes_it_and_hides_no_exception(self):
        with self.assertRaises(KeyError), self.open() as heap:
            raise KeyError("its own")
        self.assertIn("closed", repr(heap))
        for raised, caught in ((None, zelamiku.Running), (KeyError("its own"), KeyError)):
            with contextlib.ExitStack() as after, self.assertRaises(caught):
                with self.open() as heap:
                    after.enter_context(held_elsewhere(heap.synchronized(heap.alice)))
                    if raised:
                        raise raised
            self.open().close()

    def test_one_that_is_forgotten_and_one_at_the_programs_end_are_closed(self):
        with warnings.catch_warnings(record=True) as warned:
            warnings.simplefilter("always")
            heap = self.open()
            with heap.synchronized(heap.alice):
                heap.alice.balance = 3
            with held_elsewhere(heap.synchronized(heap.bob)):
                del heap
                gc.collect()
                self.open().close()
        self.assertEqual([each.category for each in warned], [ResourceWarning])
        with self.open() as heap:
            self.assertEqual(self.values(heap), [3, 100])
        ran = in_process(LEAVES, self.path)
        self.assertEqual((ran.returncode, ran.stdout), (0, ""), ran.stderr)
        with self.open() as heap:
            self.assertEqual(self.values(heap), [4, 100])

    def test_a_name_that_is_no_object(self):
        with self.open() as heap:
            with self.assertRaisesRegex(AttributeError, "has no object carol"):
                heap.carol
            self.assertFalse(hasattr(heap, "_carol"))
            self.assertIn("alice, object 0 of", repr(heap.alice))
            self.assertEqual(heap.objects, (heap.alice, heap.bob))
            with self.assertRaisesRegex(TypeError, "wants an object"):
                heap.synchronized()
            with zelamiku.open(self.path + ".other", alice=Account) as other:
                for wrong in (0, "alice", Account, None, other.alice):
                    with self.assertRaisesRegex(ValueError, "no object of"):
                        heap.synchronized(heap.bob, wrong)


class Living(OnFile):
    def test_stats_count(self):
        # No round comes by itself: a thread that waits makes it, and has counted it then.
        with self.open(linger=3_600) as heap:
            for _ in range(10):
                enter(heap.synchronized(heap.alice))
                with heap.synchronized(heap.alice):
                    heap.alice.balance += 1
            heap.durable()
            stats = heap.stats()
        self.assertEqual((stats.sections, stats.records, stats.troubles, stats.awaiting, stats.entering), (20, 50, 0, 0, 0))
        self.assertTrue(stats.rounds >= 1 and stats.calls > stats.syncs >= 2 and stats.lent == 1 and stats.is_astray is False)
        self.assertTrue(0 < stats.calls_time < LONG and 0 < stats.longest_round < LONG)
        self.assertIs(stats.last_cause, zelamiku.Cause.AWAITED)
        for told in (stats, heap.report, zelamiku.Wait(0, heap.alice, None, False), zelamiku.Dropped(0, 1, zelamiku.Why.NOT_ENDED, None)):
            with self.assertRaises(dataclasses.FrozenInstanceError):
                told.lane = 7

    def test_a_heap_that_is_made_on_atomic_sectors_takes_one_sync_a_round(self):
        # And two where that wasn't asked for when it was made.
        for path, asked, one in ((self.path, True, 1), (self.path, False, 1), (self.path + ".plain", False, 0), (self.path + ".plain", True, 0)):
            with zelamiku.open(path, alice=Account, atomic_sectors=asked, linger=3_600) as heap:
                with heap.synchronized(heap.alice):
                    heap.alice.balance += 1
                heap.durable()
                stats = heap.stats()
            self.assertEqual((stats.rounds, stats.one_sync_rounds, stats.two_sync_rounds), (1, one, 1 - one), (path, asked))

    def test_the_log_is_called_by_whichever_thread(self):
        lines = []

        def log(level, line):
            lines.append((level, line))
            if "closed" in line:
                raise ValueError("the log's own")

        unraised = []
        with mock.patch.object(sys, "unraisablehook", lambda each: unraised.append(str(each.exc_value))):
            with self.open(log=log) as heap:
                os.remove(self.path)
                begun = time.monotonic()
                # The helper finds it, as nobody waits for a round.
                while lines[-1][0] != logging.WARNING:
                    self.assertLess(time.monotonic() - begun, LONG)
                    with heap.synchronized(heap.alice):
                        heap.alice.balance += 1
                    time.sleep(0.01)
                self.assertIs(heap.stats().is_astray, True)
        self.assertEqual([level for level, _ in lines], [logging.INFO, logging.WARNING, logging.INFO])
        self.assertTrue(all(line.startswith(f"{self.path}: ") for _, line in lines))
        self.assertEqual(unraised, ["the log's own"])
        with self.assertLogs("bank") as logged, self.open(log=logging.getLogger("bank").log):
            pass
        self.assertIn("closed", logged.output[-1])

    def test_a_copy_has_what_was_durable(self):
        copy = self.folder / "copy.heap"
        with self.open() as heap:
            with heap.synchronized(heap.alice):
                heap.alice.balance = 1
            heap.durable()
            with heap.synchronized(heap.bob):
                heap.bob.balance = 2
                heap.copy_to(copy)
            with zelamiku.open(copy, alice=Account, bob=Account) as copied:
                self.assertEqual(self.values(copied), [1, 100])
            for path in (self.folder / "none" / "copy", self.folder, self.path):
                with self.subTest(path=path), self.assertRaises(zelamiku.CopyFailed) as caught:
                    heap.copy_to(path)
                self.assertEqual(caught.exception.path, str(path))
            with self.assertRaisesRegex(ValueError, "null byte"):
                heap.copy_to("a\0b")
            self.assertEqual(self.values(heap), [1, 2])

    def test_a_forked_child_has_no_heap(self):
        with self.open() as heap:
            with heap.synchronized(heap.alice):
                heap.alice.balance = 8
            reader, writer = os.pipe()
            child = os.fork()
            if child == 0:
                kinds = [type(outcome(call)).__name__ for call in (lambda: self.values(heap), heap.durable, heap.stats, heap.close)]
                os.write(writer, repr(kinds).encode())
                os._exit(0)
            os.close(writer)
            os.waitpid(child, 0)
            with os.fdopen(reader) as kinds:
                self.assertEqual(kinds.read(), repr(["Forked"] * 4))
            self.assertEqual(self.values(heap), [8, 100])


if __name__ == "__main__":
    unittest.main()
