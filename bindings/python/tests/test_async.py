"""Tasks that wait until their sections are durable."""
import asyncio
import resource
import threading
import unittest
from unittest import mock

import zelamiku
from support import LONG, OnFile, bob_in_alice, held_elsewhere, in_threads
from zelamiku.session import Lane


async def pay(heap, account, turns=1):
    for _ in range(turns):
        with heap.synchronized(account):
            account.balance += 1
        await heap.durable_async()


async def begin(heap, account):
    """A task that waits for a section."""
    task = asyncio.ensure_future(pay(heap, account))
    await asyncio.sleep(0)
    return task


async def end(of):
    await asyncio.wait_for(of, LONG)


class Tasks(OnFile):
    def test_a_thousand_tasks_have_one_lane_few_rounds_and_no_thread(self):
        async def main(heap):
            watched = len(asyncio.get_running_loop()._selector.get_map())
            await heap.durable_async()
            threads = threading.active_count()
            await asyncio.gather(*[pay(heap, heap.alice, 3) for _ in range(1_000)])
            stats = heap.stats()
            self.assertEqual((threading.active_count(), stats.lent, stats.sections), (threads, 1, 3_000))
            # All that run before the loop waits have one round, and none comes by itself.
            self.assertLess(stats.rounds, 30)
            # The loop watches the event while one waits.
            self.assertEqual(len(asyncio.get_running_loop()._selector.get_map()), watched)

        with self.open(linger=3_600) as heap:
            asyncio.run(main(heap))
        with self.open() as heap:
            self.assertEqual(self.values(heap), [3_100, 100])

    def test_the_loop_goes_on_while_what_a_section_depends_on_is_open(self):
        async def main(heap):
            with held_elsewhere(bob_in_alice(heap)):
                waits = await begin(heap, heap.bob)
                rounds = heap.stats().rounds
                await asyncio.sleep(0.2)
                # It doesn't spin.
                self.assertLess(heap.stats().rounds - rounds, 10)
                self.assertFalse(waits.done())
            await end(waits)
            with heap.synchronized(heap.alice):
                with self.assertRaises(zelamiku.InSection):
                    await heap.durable_async()

        with self.open() as heap:
            asyncio.run(main(heap))
            self.assertEqual(self.values(heap), [100, 2])

    def test_a_stop_ends_those_that_wait_and_those_that_come_later(self):
        async def main(heap, stop, kind):
            with held_elsewhere(bob_in_alice(heap)):
                waits = await begin(heap, heap.bob)
                stop(heap)
            # They depend on a section that was open, so they never are durable.
            for waits in (waits, heap.durable_async(), heap.durable_async()):
                with self.assertRaises(kind):
                    await end(waits)

        def leave(heap):
            with self.assertRaises(ValueError), heap.synchronized(heap.bob):
                heap.bob.balance = 9
                raise ValueError

        for stop, kind in ((zelamiku.Heap.stop, zelamiku.Closed), (leave, zelamiku.Abandoned)):
            heap = self.open(reverts=False)
            asyncio.run(main(heap, stop, kind))
            try:
                heap.close()
            except zelamiku.Abandoned:
                pass
            with self.open() as heap:
                self.assertEqual(self.values(heap), [100, 100])

    def test_a_close_makes_durable_what_is_waited_for(self):
        async def main(heap):
            waits = [await begin(heap, heap.alice) for _ in range(30)]
            await asyncio.get_running_loop().run_in_executor(None, heap.close)
            await end(asyncio.gather(*waits))
            # All of it is.
            await heap.durable_async()

        asyncio.run(main(self.open()))
        with self.open() as heap:
            self.assertEqual(self.values(heap), [130, 100])

    def test_a_task_that_is_cancelled_or_whose_loop_ends_waits_no_more(self):
        errors = []

        async def main(heap):
            asyncio.get_running_loop().set_exception_handler(lambda _, context: errors.append(context))
            (await begin(heap, heap.alice)).cancel()
            await pay(heap, heap.bob)
            (await begin(heap, heap.alice)).cancel()

        with self.open() as heap:
            for _ in range(20):
                asyncio.run(main(heap))
            self.assertEqual((errors, self.values(heap)), ([], [140, 120]))

    def test_one_for_which_there_is_no_descriptor_fails(self):
        async def main(heap):
            with heap.synchronized(heap.alice):
                heap.alice.balance = 1
            soft, hard = resource.getrlimit(resource.RLIMIT_NOFILE)
            resource.setrlimit(resource.RLIMIT_NOFILE, (3, hard))
            try:
                with self.assertRaises(zelamiku.NoMemory):
                    await heap.durable_async()
            finally:
                resource.setrlimit(resource.RLIMIT_NOFILE, (soft, hard))
            await end(heap.durable_async())

        with self.open(linger=3_600) as heap:
            asyncio.run(main(heap))

    def test_one_that_asks_while_its_round_ends_is_woken(self):
        async def main(heap):
            with heap.synchronized(heap.alice):
                heap.alice.balance += 1
            heap.durable()
            # It is durable by the time that the loop asks, and no more round comes.
            with mock.patch.object(Lane, "has_all_durable", lambda own: False):
                await end(heap.durable_async())

        with self.open() as heap:
            asyncio.run(main(heap))

    def test_loops_of_several_threads(self):
        async def often(heap, account):
            await asyncio.gather(*[pay(heap, account, 20) for _ in range(20)])

        with self.open() as heap:
            works = [lambda of=of: asyncio.run(often(heap, of)) for of in heap.objects]
            self.assertEqual(in_threads(*works), [None, None])
            # Their lanes are free again.
            self.assertEqual(heap.stats().lent, 0)
            self.assertEqual(self.values(heap), [500, 500])

    def test_a_loop_that_rests_is_served_by_another_one_of_its_thread(self):
        with self.open() as heap:
            one, two = asyncio.new_event_loop(), asyncio.new_event_loop()
            waits = one.run_until_complete(begin(heap, heap.alice))
            two.run_until_complete(end(two.run_until_complete(begin(heap, heap.alice))))
            one.run_until_complete(end(waits))
            one.close()
            two.close()
            self.assertEqual(self.values(heap), [102, 100])

    def test_a_loop_that_was_closed_waits_no_more(self):
        # No round comes by itself, which could make a section durable before its task waits.
        with self.open(linger=3_600) as heap:
            for _ in range(20):
                loop = asyncio.new_event_loop()
                waits = loop.run_until_complete(begin(heap, heap.alice))
                loop.close()
                asyncio.run(pay(heap, heap.alice))
                self.assertFalse(waits.done())
                waits._log_destroy_pending = False
            self.assertEqual(self.values(heap), [140, 100])


if __name__ == "__main__":
    unittest.main()
