"""What the tests of a heap share."""
from __future__ import annotations

import contextlib
import faulthandler
import subprocess
import sys
import tempfile
import threading
import unittest
from collections.abc import Callable, Iterator
from contextlib import AbstractContextManager
from pathlib import Path
from typing import Any

import zelamiku

# Seconds: a test that hangs prints where, and ends. A machine may be slow, or lose its processors for a while.
PATIENCE = 240
# What such a test waits for at most.
LONG = PATIENCE / 2
faulthandler.enable()


class Account(zelamiku.Object):
    balance = zelamiku.Field(first=100)


class Queue(zelamiku.Object):
    count = zelamiku.Field()


class OnFile(unittest.TestCase):
    """A test with a folder of its own, which may not take longer than PATIENCE."""

    def setUp(self) -> None:
        self.be_patient()
        self.addCleanup(faulthandler.cancel_dump_traceback_later)
        folder = tempfile.TemporaryDirectory()
        self.addCleanup(folder.cleanup)
        self.folder = Path(folder.name)
        self.path = str(self.folder / "a.heap")

    def be_patient(self) -> None:
        """It may take so long from now on."""
        faulthandler.dump_traceback_later(PATIENCE, exit=True)

    def open(self, **declared: Any) -> zelamiku.Heap:
        """A heap with alice and bob, unless these words declare other objects."""
        if not any(isinstance(each, (type, list)) for each in declared.values()):
            declared = {"alice": Account, "bob": Account, **declared}
        return zelamiku.open(self.path, **declared)

    def values(self, heap: zelamiku.Heap) -> list[int]:
        """The balances of alice and bob."""
        with heap.synchronized(heap.alice, heap.bob):
            return [heap.alice.balance, heap.bob.balance]


def outcome(work: Callable[[], Any]) -> Any:
    """What the work returns, or the exception that has ended it."""
    try:
        return work()
    except BaseException as error:
        return error


@contextlib.contextmanager
def beside(*works: Callable[[], Any]) -> Iterator[list[Any]]:
    """Does each work in a thread of its own, which has ended when the block has. The list gets their outcomes."""
    outcomes: list[Any] = []
    threads = [threading.Thread(target=lambda work=work: outcomes.append(outcome(work))) for work in works]
    for thread in threads:
        thread.start()
    try:
        yield outcomes
    finally:
        for thread in threads:
            thread.join()


def in_threads(*works: Callable[[], Any]) -> list[Any]:
    """The outcomes of works that run beside each other."""
    with beside(*works) as outcomes:
        pass
    return outcomes


def in_thread(work: Callable[[], Any]) -> Any:
    return in_threads(work)[0]


def enter(section: AbstractContextManager[Any]) -> None:
    """Enters the section and leaves it."""
    with section:
        pass


@contextlib.contextmanager
def held_elsewhere(section: AbstractContextManager[Any]) -> Iterator[Callable[[], None]]:
    """Another thread is in this section until the block ends, or what it yields is called."""
    entered, release = threading.Event(), threading.Event()

    def hold() -> None:
        with section:
            entered.set()
            release.wait()

    with beside(hold):
        entered.wait()
        try:
            yield release.set
        finally:
            release.set()


@contextlib.contextmanager
def bob_in_alice(heap: zelamiku.Heap) -> Iterator[None]:
    """A section of alice's monitor that goes on, in which bob's was freed: sections that take bob's from now on depend on it."""
    with heap.synchronized(heap.alice):
        with heap.synchronized(heap.bob):
            heap.bob.balance = 1
        yield


def in_process(text: str, *words: str, **how: Any) -> subprocess.CompletedProcess[str]:
    """Runs a program's text, with alice's and bob's class before it, in a process of its own."""
    text = "import os, sys, zelamiku\nclass Account(zelamiku.Object):\n    balance = zelamiku.Field(first=100)\n" + text
    return subprocess.run([sys.executable, "-c", text, *words], capture_output=True, text=True, timeout=PATIENCE, check=False, **how)
