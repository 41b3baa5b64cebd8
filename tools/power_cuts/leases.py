"""Leases of examples/python/leases, in a guest whose power is cut (tools/power-cuts).

    leases.py count FILE        four threads acquire leases
    leases.py look FILE

The Nth time a thread acquires a lease as holder N, by one of two names, and then releases the one before. Once that is durable it tells
`thread N` by the port /dev/told, which outlives the power cut. So of each thread one lease is held, or two, and no token is given twice:
the last token is the number of all that were acquired. A look prints `heap`, the last token, and the last holder of each thread.
"""
import os
import sys
import threading

import table
import zelamiku

WORKERS, SECONDS = 4, 100_000


def acquire(leases, thread, port):
    holders = [leases.holder_of(f"{thread}-{odd}") for odd in (0, 1)]
    number, token = max(holders, default=(0, 0))
    while True:
        number += 1
        lease = leases.acquire(f"{thread}-{number % 2}", number, SECONDS)
        if lease is None or (token and not leases.release(f"{thread}-{(number - 1) % 2}", token)):
            os.abort()
        token = lease.token
        leases.durable()
        os.write(port, b"%d %d\n" % (thread, number))


class Held(table.Leases):
    """Leases that tell who has them."""

    def holder_of(self, name):
        """The holder and the token; 0 and 0 where nobody has it."""
        with self._heap.synchronized(self._table):
            slot = self._slot_of.get(name)
            return (0, 0) if slot is None else (self._table.holder[slot], self._table.token[slot])


def look(heap, leases):
    with heap.synchronized(heap.table):
        last = heap.table.last_token
    held = [[leases.holder_of(f"{thread}-{odd}")[0] for odd in (0, 1)] for thread in range(1, WORKERS + 1)]
    tokens = [lease.token for lease in leases.all()]
    print("heap", last, *map(max, held))
    fits = all(min(pair) in (0, max(pair) - 1) for pair in held) and len(set(tokens)) == len(tokens) and max(tokens, default=0) <= last
    print("fits" if fits else f"torn: {held}, tokens {tokens}")
    return 0 if fits else 1


def main(word, path):
    if word == "look" and not os.path.exists(path):
        print("no heap")
        return 4
    with zelamiku.open(path, table=table.Table, lanes=WORKERS + 1) as heap:
        if word == "look" and heap.report.is_made:
            print("no heap")
            return 4
        leases = Held(heap)
        if word == "look":
            return look(heap, leases)
        port = os.open("/dev/told", os.O_WRONLY)
        os.write(port, b"made 1\n")
        threads = [threading.Thread(target=acquire, args=(leases, thread, port)) for thread in range(1, WORKERS + 1)]
        for it in threads:
            it.start()
        for it in threads:
            it.join()
    return 0


if __name__ == "__main__":
    sys.exit(main(*sys.argv[1:3]))
