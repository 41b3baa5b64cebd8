"""What a section costs through Python, beside a transaction of the standard library's sqlite3, for `tools/bench python`: section.py [FOLDER].

A row has microseconds, and of the processors' time by all threads of the process, for one move of an amount between two objects' fields, or two rows:
medians of rounds by turns. SQLite has prepared statements within BEGIN IMMEDIATE and COMMIT, journal_mode=WAL, a connection for each thread, and
synchronous=FULL where a move is durable before the next, else OFF.
"""
import itertools
import sqlite3
import statistics
import sys
import tempfile
import threading
import time

import zelamiku

ROUNDS, SECONDS = 5, 0.4
numbers = itertools.count()


class Account(zelamiku.Object):
    balance = zelamiku.Field(first=2**40)


def cost(move, threads, group):
    """Microseconds of time and of the processors' for one move, where so many threads move in such groups."""
    moved, begun, used = [0] * threads, time.monotonic(), time.process_time()

    def work(place):
        while time.monotonic() < begun + SECONDS:
            move(group)
            moved[place] += max(group, 1)

    running = [threading.Thread(target=work, args=(place,)) for place in range(threads)]
    for it in running:
        it.start()
    for it in running:
        it.join()
    return (time.monotonic() - begun) * 1e6 / sum(moved), (time.process_time() - used) * 1e6 / sum(moved)


def by_zelamiku(folder):
    # (with 32 lanes for threads none would be the helper's)
    heap = zelamiku.open(f"{folder}/{next(numbers)}.heap", accounts=[Account] * 2, lanes=31, capacity=65_536)
    first, second = heap.accounts

    def move(group):
        for _ in range(max(group, 1)):
            with heap.synchronized(first, second):
                first.balance -= 1
                second.balance += 1
        if group:
            heap.durable()

    return move


def by_sqlite(folder):
    path, own = f"{folder}/{next(numbers)}.db", threading.local()

    def connection(is_durable):
        if not hasattr(own, "it"):
            own.it = sqlite3.connect(path, isolation_level=None, timeout=60)
            own.it.execute("PRAGMA journal_mode=WAL")
            own.it.execute(f"PRAGMA synchronous={'FULL' if is_durable else 'OFF'}")
        return own.it

    def move(group):
        it = connection(group > 0)
        it.execute("BEGIN IMMEDIATE")
        for _ in range(max(group, 1)):
            it.execute("UPDATE accounts SET balance = balance - 1 WHERE number = ?", (0,))
            it.execute("UPDATE accounts SET balance = balance + 1 WHERE number = ?", (1,))
        it.execute("COMMIT")

    with sqlite3.connect(path) as first:
        first.execute("CREATE TABLE accounts (number INTEGER PRIMARY KEY, balance INTEGER)")
        first.executemany("INSERT INTO accounts VALUES (?, ?)", [(0, 2**40), (1, 2**40)])
    return move


def main():
    rows = {"a move": (1, 0), "durable, 1 thread": (1, 1), "durable, 4 threads": (4, 1), "durable, 16 threads": (16, 1), "durable in groups of 1,000": (1, 1000)}
    print("| us of a section, and of the processors | Zelamiku | SQLite |\n|---|---|---|")
    for name, (threads, group) in rows.items():
        with tempfile.TemporaryDirectory(dir=sys.argv[1] if len(sys.argv) > 1 else None) as folder:
            moves = [by_zelamiku(folder), by_sqlite(folder)]
            turns = [[cost(move, threads, group) for move in moves] for _ in range(ROUNDS)]
        cells = [[statistics.median(it) for it in zip(*of)] for of in zip(*turns)]
        print(f"| {name} | {' | '.join(f'{took:.1f}, {used:.1f}' for took, used in cells)} |", flush=True)


main()
