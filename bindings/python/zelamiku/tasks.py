"""Tasks of asyncio that wait until sections are durable: their loop watches an event of the library."""
from __future__ import annotations

from collections import deque
from ctypes import byref, c_int, c_uint64
from typing import TYPE_CHECKING

from .errors import Error
from .library import OK
from .link import Link
from .session import Lane

if TYPE_CHECKING:
    import asyncio


class _Watch:
    """A loop that watches the event."""

    def __init__(self, event: int) -> None:
        self.event = event
        self.asks_soon = False


class Tasks:
    """The tasks that wait for one thread's sections. While some wait, each loop that runs there watches the event of the thread's lane."""

    def __init__(self, link: Link, lane: Lane) -> None:
        self._link = link
        self._lane = lane
        self._waiting: deque[tuple[int, asyncio.Future[None]]] = deque()
        """How many sections each waits for, in their order."""
        self._watches: dict[asyncio.AbstractEventLoop, _Watch] = {}

    def durable(self) -> asyncio.Future[None]:
        """A future of the running loop, done once all is durable that the thread has ended by now."""
        # A program with a running loop has imported it; for others it would take a tenth of a second.
        import asyncio

        loop = asyncio.get_running_loop()
        watch = self._watches.get(loop) or self._watch(loop)
        future = loop.create_future()
        self._waiting.append((self._lane.progress().sections, future))
        if not watch.asks_soon:
            # Once for all tasks that run before the loop waits for events.
            watch.asks_soon = True
            loop.call_soon(self._look, watch)
        return future

    def _watch(self, loop: asyncio.AbstractEventLoop) -> _Watch:
        event = c_int()
        status = self._link.calls.thread_event(self._lane.handle, byref(event))
        if status != OK:
            raise self._link.error(status)
        self._watches[loop] = watch = _Watch(event.value)
        loop.add_reader(watch.event, self._look, watch)
        return watch

    def _look(self, watch: _Watch) -> None:
        """Wakes the tasks whose sections are durable, and all after a failure. Asks for the others' sections."""
        watch.asks_soon = False
        count = c_uint64()
        status = self._link.calls.thread_ask(self._lane.handle, byref(count))
        durable, waiting = count.value, self._waiting
        while waiting and waiting[0][0] <= durable:
            _settle(waiting.popleft()[1], None)
        while waiting and status != OK:
            _settle(waiting.popleft()[1], self._link.error(status))
        if not waiting:
            # So no loop keeps the lane, whose event is closed with it.
            watches, self._watches = self._watches, {}
            for loop, each in watches.items():
                if not loop.is_closed():
                    loop.remove_reader(each.event)


def _settle(future: asyncio.Future[None], error: Error | None) -> None:
    # A task that was cancelled, or whose loop was closed, waits no more.
    if future.done() or future.get_loop().is_closed():
        return
    if error is None:
        future.set_result(None)
    else:
        future.set_exception(error)
