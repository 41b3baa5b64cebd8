"""Sections: monitors, exceptions, signals, waits, durability, and the threads that have them."""
import asyncio
import concurrent.futures
import contextlib
import math
import queue
import random
import signal
import sys
import threading
import time
import unittest
from unittest import mock

import zelamiku
from support import Account, LONG, OnFile, Queue, beside, bob_in_alice, enter, held_elsewhere, in_thread, in_threads, outcome
from zelamiku.library import library


class Pair(zelamiku.Object):
    left = zelamiku.Field(first=100)
    right = zelamiku.Field(first=100)
    slots = zelamiku.Pool(2)


class Monitors(OnFile):
    def test_fields_of_what_is_not_held_are_refused(self):
        with self.open() as heap:
            calls = [lambda: heap.bob.balance, lambda: setattr(heap.bob, "balance", 1), heap.bob.wait, heap.bob.notify, heap.bob.notify_all]
            for lent in (0, 1):
                self.assertEqual(heap.stats().lent, lent)
                for call in calls:
                    with self.assertRaisesRegex(zelamiku.NotHeld, r"bob.*take it: `with heap\.synchronized\(heap\.bob\)`"):
                        call()
                with heap.synchronized(heap.alice):
                    for call in calls:
                        self.assertIsInstance(outcome(call), zelamiku.NotHeld)
            self.assertEqual(self.values(heap), [100, 100])

    def test_monitors_are_taken_in_one_order(self):
        def move(heap, *objects):
            for _ in range(500):
                with heap.synchronized(*objects):
                    objects[0].balance += 1

        with self.open(alice=Account, bob=Account, queue=Queue) as heap:
            pairs = ((heap.alice, heap.bob), (heap.bob, heap.alice), (heap.bob, heap.alice, heap.bob)) * 2
            in_threads(*[lambda pair=pair: move(heap, *pair) for pair in pairs])
            self.assertEqual(self.values(heap), [1_100, 2_100])
            with heap.synchronized(heap.alice, heap.queue):
                with self.assertRaisesRegex(zelamiku.OutOfOrder, "bob comes before"):
                    enter(heap.synchronized(heap.bob))
                with heap.synchronized(heap.queue, heap.alice):
                    heap.queue.count = 1
                heap.alice.balance = 1
            with heap.synchronized(heap.bob):
                self.assertIsNone(in_thread(lambda: enter(heap.synchronized(heap.alice, heap.queue, timeout=LONG))))

    def test_a_timeout(self):
        with self.open() as heap:
            with held_elsewhere(heap.synchronized(heap.bob)):
                for timeout in (0, 0.05, -1):
                    begun = time.monotonic()
                    with self.assertRaisesRegex(zelamiku.TimedOut, "bob: another thread has its monitor"):
                        enter(heap.synchronized(heap.bob, timeout=timeout))
                    self.assertGreaterEqual(time.monotonic() - begun, timeout)
                self.assertEqual(heap.session.sections, 0)
                # What was taken before is freed, and was a section.
                with self.assertRaises(zelamiku.TimedOut):
                    enter(heap.synchronized(heap.alice, heap.bob, timeout=0))
                self.assertEqual(heap.session.sections, 1)
                self.assertIsNone(in_thread(lambda: enter(heap.synchronized(heap.alice, timeout=0))))
            # The second one is 0 in 64 bits of nanoseconds.
            for timeout in (math.inf, 2**64 / 1e9, 1e300):
                with held_elsewhere(heap.synchronized(heap.bob)) as let_go:
                    threading.Timer(0.05, let_go).start()
                    enter(heap.synchronized(heap.bob, timeout=timeout))
                self.assertIs(heap.durable(timeout), True)

    def test_a_section_that_is_full_reverts(self):
        class Many(zelamiku.Object):
            values = zelamiku.Array(zelamiku.Field(), 1_000)

        with self.open(many=Many, queues=[Queue] * 17) as heap:
            with self.assertRaises(zelamiku.TooManyHeld):
                enter(heap.synchronized(*heap.queues))
            enter(heap.synchronized(*heap.queues[:16]))
            with self.assertRaisesRegex(zelamiku.SectionFull, r"many\.values\[499\]"), heap.synchronized(heap.many):
                for index in range(1_000):
                    heap.many.values[index] = 1
            with heap.synchronized(heap.many):
                self.assertEqual(sum(heap.many.values), 0)

    def test_a_section_is_for_one_with_also_by_an_exit_stack(self):
        with self.open() as heap:
            section = heap.synchronized(heap.alice)
            with contextlib.ExitStack() as stack:
                stack.enter_context(section)
                heap.alice.balance = 1
            with self.assertRaises(ValueError), contextlib.ExitStack() as stack:
                stack.enter_context(heap.synchronized(heap.alice))
                heap.alice.balance = 2
                raise ValueError
            self.assertEqual(in_thread(lambda: self.values(heap)), [1, 100])
            with self.assertRaisesRegex(zelamiku.Refused, r"entered before; call synchronized\(\.\.\) for each `with`"):
                section.__enter__()
            section = heap.synchronized(heap.alice)
            with section, self.assertRaisesRegex(zelamiku.Refused, "for each `with`"):
                enter(section)
            # One whose end was asked for and not called, as by who looks what it has.
            section = heap.synchronized(heap.alice)
            self.assertTrue(callable(section.__exit__))
            with self.assertRaisesRegex(zelamiku.Refused, "entered before"):
                enter(section)


class Exceptions(OnFile):
    def has_dropped_all(self, heap):
        """The heap has stopped, and the next opening has its first values."""
        with self.assertRaises(zelamiku.Abandoned):
            heap.close()
        with self.open() as heap:
            self.assertEqual(self.values(heap), [100, 100])
            self.assertEqual({each.why for each in heap.report.dropped}, {zelamiku.Why.NOT_ENDED})

    def test_one_that_leaves_a_section_reverts_it_and_goes_on_unchanged(self):
        with self.open() as heap:
            for kind in (ValueError, KeyboardInterrupt, SystemExit, GeneratorExit):
                for has_stored in (False, True):
                    raised = kind("on its way")
                    with self.assertRaises(kind) as caught, heap.synchronized(heap.alice, heap.bob):
                        if has_stored:
                            heap.alice.balance = 1
                            heap.bob.balance = 2
                            heap.alice.balance = 3
                        raise raised
                    self.assertIs(caught.exception, raised)
                    self.assertEqual((raised.args, raised.__cause__, raised.__context__), (("on its way",), None, None))
                    self.assertEqual(in_thread(lambda: self.values(heap)), [100, 100])
            for kind, of, value in ((zelamiku.OutOfRange, heap.alice, -1), (zelamiku.NotHeld, heap.bob, 1)):
                with self.assertRaises(kind), heap.synchronized(heap.alice):
                    of.balance = value
            with heap.synchronized(heap.bob):
                heap.bob.balance = 7
        with self.open() as heap:
            self.assertEqual((self.values(heap), heap.report.dropped), ([100, 7], ()))

    def test_each_kind_of_member_is_reverted(self):
        class Parts(zelamiku.Object):
            passing = zelamiku.Float(first=0.5, transient=True)
            many = zelamiku.Array(zelamiku.Ref(), 3)
            slots = zelamiku.Pool(3)

        with self.open(parts=Parts) as heap:
            parts = heap.parts
            with heap.synchronized(parts):
                self.assertEqual((parts.slots.take(), parts.slots.take()), (0, 1))
                parts.passing = 1.5
            changes = (lambda: setattr(parts, "passing", 2.5), lambda: parts.many.__setitem__(1, parts), parts.slots.take, lambda: parts.slots.give(0))
            for change in changes:
                with self.assertRaises(KeyError), heap.synchronized(parts):
                    change()
                    raise KeyError
                with self.assertRaises(KeyError), heap.synchronized(parts):
                    self.assertEqual((parts.passing, list(parts.many)), (1.5, [None] * 3))
                    self.assertEqual([parts.slots.take() for _ in range(2)], [2, None])
                    raise KeyError

    def test_one_that_leaves_an_inner_with_reverts_all_and_the_section_can_do_nothing_more(self):
        with self.open(alice=Pair, bob=Account) as heap:
            alice = heap.alice
            for has_inner_stored in (True, False):
                with self.assertRaisesRegex(zelamiku.Reverted, r"\(ValueError: a half\).* outermost"), heap.synchronized(alice):
                    alice.left = 1
                    slot = alice.slots.take()
                    with self.assertRaises(ValueError), heap.synchronized(heap.bob):
                        if has_inner_stored:
                            heap.bob.balance = 2
                        raise ValueError("a half")
                    calls = [lambda: alice.left, lambda: setattr(alice, "left", 2), alice.slots.take, lambda: alice.slots.give(slot)]
                    calls += [alice.wait, alice.notify, alice.notify_all, heap.synchronized(alice).__enter__, heap.session.revert]
                    for call in calls:
                        self.assertIsInstance(outcome(call), zelamiku.Reverted)
                    # Its monitor is held still.
                    self.assertIsInstance(in_thread(heap.synchronized(alice, timeout=0).__enter__), zelamiku.TimedOut)
                # And the next section does all.
                with self.assertRaises(KeyError), heap.synchronized(alice, heap.bob):
                    self.assertEqual((alice.left, heap.bob.balance, alice.slots.take()), (100, 100, 0))
                    raise KeyError
                with self.assertRaises(zelamiku.NotHeld):
                    alice.left

    def test_one_in_the_innermost_of_three_is_reported_by_each_that_ends_well(self):
        with self.open(alice=Pair, other=Pair, bob=Account, queue=Queue) as heap:
            with self.assertRaises(zelamiku.Reverted), heap.synchronized(heap.alice):
                with self.assertRaises(zelamiku.Reverted), heap.synchronized(heap.bob):
                    heap.bob.balance = 1
                    with self.assertRaises(ValueError), heap.synchronized(heap.queue):
                        raise ValueError
            with self.assertRaises(KeyError), heap.synchronized(heap.alice):
                with self.assertRaises(ValueError), heap.synchronized(heap.bob):
                    heap.bob.balance = 1
                    raise ValueError
                raise KeyError
            with heap.synchronized(heap.alice):
                self.assertEqual((heap.alice.slots.take(), heap.alice.slots.take()), (0, 1))
            # Before the first store the section goes on. Refused ones don't count.
            with heap.synchronized(heap.alice, heap.other):
                self.assertRaises(zelamiku.NotHeld, setattr, heap.queue, "count", 1)
                self.assertRaises(zelamiku.NotTaken, heap.other.slots.give, 0)
                self.assertIsNone(heap.alice.slots.take())
                with self.assertRaises(ValueError), heap.synchronized(heap.bob):
                    self.assertEqual(heap.bob.balance, 100)
                    raise ValueError
                heap.alice.left = 2
            with heap.synchronized(heap.alice):
                self.assertEqual(heap.alice.left, 2)

    def test_one_after_a_monitor_was_freed_under_which_it_had_stored_stops_the_heap(self):
        heap = self.open()
        with self.assertRaisesRegex(ValueError, "on its way"), heap.synchronized(heap.alice):
            heap.alice.balance = 1
            with heap.synchronized(heap.bob):
                heap.bob.balance = 2
            with self.assertRaisesRegex(zelamiku.NotReverted, "has freed a monitor under which it had stored"):
                heap.session.revert()
            self.assertEqual(heap.alice.balance, 1)
            raise ValueError("on its way")
        with self.assertRaisesRegex(zelamiku.Abandoned, r"\(ValueError: on its way\) and can't be reverted: the section has freed a monitor"):
            self.values(heap)
        self.has_dropped_all(heap)

    def test_without_reverts_one_after_a_store_stops_the_heap_and_drops_the_section(self):
        for is_inner in (False, True):
            heap = self.open(reverts=False)
            with self.assertRaises(zelamiku.Abandoned if is_inner else ValueError), heap.synchronized(heap.alice):
                heap.alice.balance = 1
                with self.assertRaises(zelamiku.NotReverted):
                    heap.session.revert()
                if is_inner:
                    with contextlib.suppress(ValueError), heap.synchronized(heap.bob):
                        raise ValueError("on its way")
                    heap.alice.balance = 2
                raise ValueError("on its way")
            for call in (lambda: self.values(heap), lambda: in_thread(lambda: self.values(heap))):
                error = outcome(call)
                self.assertIsInstance(error, zelamiku.Abandoned)
                self.assertRegex(error.cause, r"an exception has left a section that had stored \(ValueError: on its way\).*, in the thread MainThread")
            self.has_dropped_all(heap)

    def test_a_section_is_reverted_on_purpose(self):
        with self.open() as heap:
            for _ in range(2):
                with self.assertRaisesRegex(zelamiku.NotHeld, "in no section"):
                    heap.session.revert()
                with heap.synchronized(heap.alice):
                    heap.session.revert()
                    heap.alice.balance = 1
                    with heap.synchronized(heap.bob):
                        heap.bob.balance = 2
                        heap.session.revert()
                        self.assertEqual((heap.alice.balance, heap.bob.balance), (100, 100))
                    # What was freed had nothing stored under it any more.
                    heap.alice.balance = 3
                    heap.session.revert()
                    self.assertEqual(heap.alice.balance, 100)
            with self.assertRaises(ValueError), heap.synchronized(heap.alice):
                heap.session.revert()
                heap.alice.balance = 6
                raise ValueError
            self.assertEqual(self.values(heap), [100, 100])

    def test_a_yield_in_a_section_that_mixes_two_and_a_thread_that_ends_in_one_stop_the_heap(self):
        def section(of):
            with heap.synchronized(of):
                of.balance += 1
                yield

        heap = self.open()
        first, second = section(heap.alice), section(heap.bob)
        next(first), next(second)
        with self.assertRaisesRegex(zelamiku.Abandoned, "in another order than they began"):
            next(first)
        self.has_dropped_all(heap)
        heap = self.open()
        other = section(heap.alice)
        next(other)
        self.assertRegex(str(in_thread(lambda: next(other))), "in another thread than it began")
        self.has_dropped_all(heap)
        heap = self.open()
        kept = section(heap.alice)
        in_thread(lambda: next(kept))
        with self.assertRaisesRegex(zelamiku.Abandoned, "ended inside a section"):
            enter(heap.synchronized(heap.alice))
        kept.close()
        self.has_dropped_all(heap)


class Ring(Exception):
    """What a signal's handler raises."""


class Signals(OnFile):
    def setUp(self):
        super().setUp()
        self.addCleanup(signal.signal, signal.SIGALRM, signal.getsignal(signal.SIGALRM))
        self.addCleanup(signal.setitimer, signal.ITIMER_REAL, 0)

    def test_those_that_raise_anywhere_leave_no_half_and_no_monitor_held(self):
        """Also while the exception lives, whose traceback keeps frames; and where more come while the section ends."""

        def ring(*_):
            nonlocal left
            left -= 1
            if left >= 0:
                raise Ring

        left = begun = ended = rings = 0
        signal.signal(signal.SIGALRM, ring)
        # Where two are on their way Python reports one of them there.
        with mock.patch.object(sys, "unraisablehook", id), self.open() as heap:
            for turn in range(1_500):
                begun += 1
                try:
                    # What is stored under bob's is stored while alice's is held too, which is freed last.
                    left = 3 if turn % 3 == 0 else 1
                    signal.setitimer(signal.ITIMER_REAL, random.uniform(1e-6, 9e-5), 2e-5)
                    kept = heap.synchronized(heap.alice, heap.bob)
                    with kept:
                        heap.bob.balance += 1
                        with heap.synchronized(heap.bob):
                            heap.bob.balance += 1
                        heap.alice.balance += 2
                    ended += 1
                    while left > 0:
                        pass
                except Ring:
                    left = 0
                    rings += 1
                    self.assertIsNone(in_thread(lambda: heap.synchronized(heap.alice, heap.bob, timeout=0).__enter__()))
                left = 0
            signal.setitimer(signal.ITIMER_REAL, 0)
            alice, bob = self.values(heap)
            self.assertEqual(alice, bob)
            # Where it comes just at a section's end the section may be there, and is then there whole.
            self.assertTrue(2 * ended <= alice - 100 <= 2 * begun, (begun, ended, alice))
        self.assertEqual(rings, 1_500)
        with self.open() as heap:
            self.assertEqual(self.values(heap), [alice, bob])

    def test_a_handler_that_uses_the_heap_changes_no_call_that_it_interrupts(self):
        def ring(*_):
            with heap.synchronized(heap.other):
                in_handler.append((heap.other.left, heap.other.slots.take(), heap.other.notify_all()))
                heap.other.slots.give(1)
            if len(in_handler) < 1_000:
                signal.setitimer(signal.ITIMER_REAL, 2e-4)

        in_handler, seen = [], set()
        with self.open(own=Pair, other=Pair) as heap:
            with heap.synchronized(heap.own, heap.other):
                heap.own.left, heap.other.left = 1, 2
                heap.other.slots.take()
            signal.signal(signal.SIGALRM, ring)
            signal.setitimer(signal.ITIMER_REAL, 2e-4)
            while len(in_handler) < 1_000:
                with heap.synchronized(heap.own, heap.other):
                    for _ in range(5):
                        seen.add((heap.own.left, heap.own.slots.take(), heap.own.notify(), heap.own.notify_all()))
                        heap.own.slots.give(0)
        self.assertEqual((seen, set(in_handler)), ({(1, 0, None, ())}, {(2, 1, ())}))

    def test_one_is_handled_while_the_main_thread_waits_for_durability(self):
        def ring(*_):
            raise Ring

        def ring_once_it_waits():
            while heap.stats().awaiting == 0:
                time.sleep(0.001)
            signal.pthread_kill(main, signal.SIGALRM)

        main = threading.get_ident()
        signal.signal(signal.SIGALRM, ring)
        with self.open() as heap:
            with held_elsewhere(bob_in_alice(heap)):
                enter(heap.synchronized(heap.bob))
                with self.assertRaises(Ring), beside(ring_once_it_waits):
                    heap.durable()
            self.assertTrue(heap.durable())


class Waits(OnFile):
    def test_notify_returns_whom_it_woke(self):
        def wait():
            with heap.synchronized(heap.queue):
                lanes.append(heap.session.lane)
                heap.queue.wait()

        lanes, woken = [], []
        with self.open(queue=Queue, lanes=8) as heap, beside(*[wait] * 4):
            with heap.synchronized(heap.queue):
                if not lanes:
                    self.assertEqual((heap.queue.notify(), heap.queue.notify_all()), (None, ()))
            while len(woken) < 4:
                with heap.synchronized(heap.queue):
                    if len(lanes) == 4:
                        woken = [heap.queue.notify(), *heap.queue.notify_all()]
            self.assertEqual((sorted(woken), len(set(woken))), (sorted(lanes), 4))

    def test_a_wait_ends_what_can_be_reverted(self):
        """What was stored before a wait stays if the wait ends the section. It can't be put back if the section goes on with another monitor."""

        def wait(heap, under, waits_for, *others, stores_after=True):
            with heap.synchronized(*others, waits_for):
                under.left = 1
                waits_for.wait()
                if stores_after:
                    waits_for.right = 1
                raise ValueError

        def raises(heap, of, *words, **how):
            with beside(lambda: wait(heap, *words, **how)) as outcomes:
                while not outcomes:
                    with contextlib.suppress(zelamiku.Abandoned), heap.synchronized(of):
                        of.notify()
            self.assertIsInstance(outcomes[0], ValueError)

        heap = self.open(alice=Pair, bob=Pair)
        for stores_after in (True, False):
            # Under another monitor, which it holds: all is put back.
            raises(heap, heap.bob, heap.alice, heap.bob, heap.alice, stores_after=stores_after)
            with heap.synchronized(heap.alice):
                self.assertEqual(heap.alice.left, 100)
            raises(heap, heap.alice, heap.alice, heap.alice, stores_after=stores_after)
            with heap.synchronized(heap.alice):
                self.assertEqual((heap.alice.left, heap.alice.right), (1, 100))
                heap.alice.left = 100
        # One that is refused (NO_FAT) ends nothing.
        for goes_on in (False, True):
            with self.assertRaises(zelamiku.Refused), heap.synchronized(heap.alice), mock.patch.object(library(), "thread_wait", lambda *_: 17):
                heap.alice.left = 1
                error = outcome(heap.alice.wait)
                if goes_on:
                    heap.alice.right = 1
                raise error
            with heap.synchronized(heap.alice):
                self.assertEqual((heap.alice.left, heap.alice.right), (100, 100))
        raises(heap, heap.bob, heap.bob, heap.bob, heap.alice)
        with self.assertRaisesRegex(zelamiku.Abandoned, "can't be reverted"):
            enter(heap.synchronized(heap.alice))
        with self.assertRaises(zelamiku.Abandoned):
            heap.close()

    def test_after_a_wait_a_section_that_has_stored_nothing_goes_on(self):
        def wait(*objects):
            with heap.synchronized(*objects):
                if len(objects) == 1:
                    heap.alice.left = 1
                heap.alice.wait()
                with contextlib.suppress(ValueError), heap.synchronized(heap.alice):
                    raise ValueError
                heap.alice.right += 1

        with self.open(alice=Pair, bob=Pair) as heap:
            for objects in ([heap.alice], [heap.alice, heap.bob]):
                with beside(lambda: wait(*objects)) as outcomes:
                    while not outcomes:
                        with heap.synchronized(heap.alice):
                            heap.alice.notify()
                self.assertEqual(outcomes, [None])
            with heap.synchronized(heap.alice):
                self.assertEqual((heap.alice.left, heap.alice.right), (1, 102))

    def test_who_waits_for_whom(self):
        """Python computes while threads sleep in the library. A wait with another monitor held takes its own in another order, which no
        synchronized(..) can refuse."""

        def wait():
            with heap.synchronized(heap.alice, heap.bob):
                lanes["waits"] = heap.session.lane
                waits_now.set()
                heap.alice.wait()

        def notify():
            waits_now.wait()
            with heap.synchronized(heap.alice):
                lanes["notifies"] = heap.session.lane
                heap.alice.notify()
                enter(heap.synchronized(heap.bob))

        def asleep(count):
            while len(waits := heap.waits()) < count:
                time.sleep(0.001)
            return sorted(waits, key=lambda each: each.object._number)

        heap = self.open()
        lanes, waits_now = {}, threading.Event()
        self.assertEqual(heap.waits(), ())
        with beside(wait, notify) as outcomes:
            one, other = asleep(2)
            heap.abandon("two wait for each other")
        self.assertEqual(one, zelamiku.Wait(lanes["waits"], heap.alice, lanes["notifies"], True))
        self.assertEqual(other, zelamiku.Wait(lanes["notifies"], heap.bob, lanes["waits"], True))
        self.assertEqual([type(each) for each in outcomes], [zelamiku.Abandoned] * 2)
        with self.open() as heap:
            with contextlib.ExitStack() as after, heap.synchronized(heap.alice):
                after.enter_context(beside(lambda: enter(heap.synchronized(heap.alice))))
                (wait,) = asleep(1)
                self.assertEqual((wait.object, wait.owner, wait.in_circle), (heap.alice, heap.session.lane, False))
            self.assertEqual(heap.waits(), ())


class Sessions(OnFile):
    def test_a_thread_has_a_lane_from_its_first_section_until_it_ends(self):
        def pay(earlier):
            for count in range(3):
                self.assertEqual((session.sections, session.earlier), (count, earlier if count else 0))
                with heap.synchronized(heap.alice):
                    heap.alice.balance += 1
                    self.assertEqual((session.lane, session.earlier, session.sections), (0, earlier, count))

        with self.open(lanes=1) as heap:
            session = heap.session
            for earlier in range(0, 60, 3):
                self.assertIsNone(in_thread(lambda: pay(earlier)))
            self.assertEqual((session.lane, session.earlier, session.sections), (None, 0, 0))
            self.assertEqual(self.values(heap), [160, 100])

    def test_a_lane_that_is_given_up_is_another_threads(self):
        def pay(timeout=None):
            with heap.synchronized(heap.alice, timeout=timeout):
                heap.alice.balance += 1
            heap.durable()
            heap.session.end()
            self.assertEqual((heap.session.lane, heap.session.sections, heap.durable()), (None, 0, True))

        with self.open(lanes=2) as heap:
            self.values(heap)
            with held_elsewhere(heap.synchronized(heap.bob)):
                # Without a timeout nobody waits for a lane.
                for timeout in (None, 0.2):
                    begun = time.monotonic()
                    error = in_thread(lambda: pay(timeout))
                    self.assertIsInstance(error, zelamiku.NoLaneFree)
                    self.assertIn("session.end()", error.cure)
                    self.assertGreaterEqual(time.monotonic() - begun, timeout or 0)
            with concurrent.futures.ThreadPoolExecutor(8) as pool:
                for done in [pool.submit(pay, LONG) for _ in range(100)]:
                    done.result()
            self.assertEqual(self.values(heap), [200, 100])

    def test_a_lane_that_is_freed_before_a_thread_sleeps_for_one_is_seen(self):
        def begin_late(*words):
            status = begin(*words)
            if not freed.is_set():
                refused.set()
                freed.wait()
            return status

        begin, refused, freed = library().thread_begin, threading.Event(), threading.Event()
        with self.open(lanes=1) as heap, mock.patch.object(heap._link, "_freed_lanes") as sleeps:
            enter(heap.synchronized(heap.alice))
            sleeps.get.side_effect = queue.Empty
            self.assertIsInstance(in_thread(lambda: enter(heap.synchronized(heap.alice, timeout=0.2))), zelamiku.NoLaneFree)
            self.assertTrue(0 < max(call.kwargs["timeout"] for call in sleeps.get.mock_calls) <= 0.2)
            sleeps.reset_mock()
            with mock.patch.object(library(), "thread_begin", begin_late), beside(lambda: enter(heap.synchronized(heap.alice, timeout=LONG))) as outcomes:
                refused.wait()
                heap.session.end()
                freed.set()
            self.assertEqual((outcomes, sleeps.get.mock_calls, sleeps.put.mock_calls), ([None], [], []))

    def test_a_lane_is_not_given_up_in_a_section_and_its_sections_are_not_waited_for(self):
        with self.open(linger=3_600) as heap:
            self.assertTrue(heap.durable())
            with heap.synchronized(heap.alice):
                heap.alice.balance = 1
                for call, text in ((heap.session.end, "the lane can't be freed"), (heap.durable, "it can't be durable")):
                    with self.assertRaisesRegex(zelamiku.InSection, f"this section hasn't ended, so {text}; leave it first"):
                        call()
                heap.alice.balance = 2
            heap.session.end()
            for wait in (heap.durable, lambda: asyncio.run(heap.durable_async())):
                with self.assertRaisesRegex(zelamiku.Refused, r"call durable\(\) before session\.end\(\)"):
                    wait()
            heap.session.end()
            self.assertEqual(self.values(heap), [2, 100])
            self.assertTrue(heap.durable())

    def test_durability_waits_for_what_a_section_depends_on(self):
        with self.open() as heap:
            with held_elsewhere(bob_in_alice(heap)) as let_go:
                enter(heap.synchronized(heap.bob))
                begun = time.monotonic()
                self.assertIs(heap.durable(timeout=0.3), False)
                self.assertGreaterEqual(time.monotonic() - begun, 0.3)
                self.assertIs(heap.durable(timeout=0), False)
                let_go()
                self.assertIs(heap.durable(), True)


if __name__ == "__main__":
    unittest.main()
