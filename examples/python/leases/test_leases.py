"""The table of leases, and the server's replies."""
import http.client
import itertools
import json
import subprocess
import sys
import tempfile
import unittest
from pathlib import Path
from unittest import mock

import zelamiku
from zelamiku.session import Lane

HERE = Path(__file__).parent
sys.path.insert(0, str(HERE))

import table  # noqa: E402
from table import MOST_SWEPT, NAME_BYTES, SLOTS, Full, Leases, Table  # noqa: E402

# Seconds, in which a server that doesn't hang has replied or ended.
PATIENCE = 240


class Clock:
    """In place of the module `time`: only sleeping moves it, so it doesn't matter how long a test takes."""

    def __init__(self) -> None:
        self.now = 1_000_000_000

    def monotonic_ns(self) -> int:
        return self.now

    def sleep(self, seconds: float) -> None:
        self.now += round(seconds * 1e9)


class OnFile(unittest.TestCase):
    def setUp(self) -> None:
        folder = tempfile.TemporaryDirectory()
        self.addCleanup(folder.cleanup)
        self.path = str(Path(folder.name, "leases.heap"))
        self.clock = Clock()
        patched = mock.patch.object(table, "time", self.clock)
        patched.start()
        self.addCleanup(patched.stop)

    def open(self) -> zelamiku.Heap:
        return zelamiku.open(self.path, table=Table, lanes=2)


class Tables(OnFile):
    def test_a_lease_is_held_by_one(self):
        with self.open() as heap:
            leases = Leases(heap)
            first = leases.acquire("one", 7, 60)
            self.assertEqual((first.name, first.token, first.seconds), ("one", 1, 60))
            self.assertIsNone(leases.acquire("one", 8, 60))
            # A holder that asks again keeps its token.
            self.assertEqual(leases.acquire("one", 7, 30).token, 1)
            self.assertEqual(leases.acquire("two", 8, 60).token, 2)
            self.assertEqual(sorted(lease.name for lease in leases.all()), ["one", "two"])
            for wrong in (0, 2, 3):
                self.assertIsNone(leases.renew("one", wrong, 60))
                self.assertFalse(leases.release("one", wrong))
            self.assertEqual(leases.renew("one", 1, 90).token, 1)
            self.assertTrue(leases.release("one", 1))
            self.assertFalse(leases.release("one", 1))
            self.assertIsNone(leases.renew("one", 1, 60))
            # Its time is over: another holder gets it, by another token.
            self.assertEqual(leases.acquire("one", 7, 0.05).token, 3)
            self.clock.sleep(0.06)
            self.assertIsNone(leases.renew("one", 3, 60))
            self.assertEqual([lease.name for lease in leases.all()], ["two"])
            self.assertEqual(leases.acquire("one", 8, 60).token, 4)
            for name in ("", "x" * (NAME_BYTES + 1), "ä" * 25, "a\0b"):
                with self.assertRaises(ValueError):
                    leases.acquire(name, 1, 60)

    def test_an_opening_finds_leases_with_their_whole_time(self):
        names = ["a", "ä" * 24, "x" * NAME_BYTES, "a/b c"]
        with self.open() as heap:
            leases = Leases(heap)
            for holder, name in enumerate(names):
                leases.acquire(name, 2**64 - 1 - holder, 0.5)
            leases.release("a", 1)
            self.clock.sleep(0.3)
            self.assertEqual({round(lease.seconds, 6) for lease in leases.all()}, {0.2})
        with self.open() as heap:
            leases = Leases(heap)
            found = {lease.name: (lease.token, lease.seconds) for lease in leases.all()}
            self.assertEqual(found, {name: (token, 0.5) for token, name in enumerate(names[1:], 2)})
            self.assertEqual(leases.acquire("a", 1, 60).token, 5)

    def test_slots_of_those_whose_time_is_over_are_used_again(self):
        with self.open() as heap:
            leases = Leases(heap)
            for number in range(SLOTS):
                leases.acquire(f"name {number}", 1, 60 if number % 2 else 0.001)
            self.clock.sleep(0.01)
            for number in range(SLOTS // 2):
                self.assertIsNotNone(leases.acquire(f"more {number}", 1, 60))
            with self.assertRaises(Full):
                leases.acquire("one more", 1, 60)
            self.assertEqual(len(leases.all()), SLOTS)
            self.assertLess(MOST_SWEPT, SLOTS // 2)


class Broken(Exception):
    """What a store raises that fails."""


class Reverts(OnFile):
    def broken_at(self, number: int, work) -> bool:
        """Does the work, and fails at the store of this number, from 0 on. Whether it came to that."""
        store, count = Lane.store, itertools.count()

        def fails(lane, field, bits):
            if next(count) == number:
                raise Broken
            store(lane, field, bits)

        with mock.patch.object(Lane, "store", fails):
            try:
                work()
            except Broken:
                return True
        return False

    def test_an_exception_at_any_store_leaves_table_and_names_as_they_were(self):
        with self.open() as heap:
            leases = Leases(heap)
            leases.acquire("one", 7, 60)
            for work in (lambda: leases.acquire("two", 8, 60), lambda: leases.release("one", 1)):
                before = dict(leases._slot_of)
                for number in itertools.count():
                    if not self.broken_at(number, work):
                        break
                    self.assertEqual(leases._slot_of, before)
                    self.assertEqual(Leases(heap)._slot_of, before)
                self.assertGreaterEqual(number, 1)
                self.assertNotEqual(leases._slot_of, before)
                self.assertEqual(Leases(heap)._slot_of, leases._slot_of)
            # And where slots are freed of those whose time is over.
            for number in range(SLOTS):
                if len(leases._slot_of) < SLOTS:
                    leases.acquire(f"name {number}", 1, 0.001)
            self.clock.sleep(61)
            for number in (0, MOST_SWEPT // 2, MOST_SWEPT - 1, MOST_SWEPT, MOST_SWEPT + 7):
                self.assertTrue(self.broken_at(number, lambda: leases.acquire("one more", 8, 60)))
                self.assertEqual(len(leases._slot_of), SLOTS)
                self.assertEqual(Leases(heap)._slot_of, leases._slot_of)
                self.clock.sleep(61)
            self.assertIsNotNone(leases.acquire("one more", 8, 60))
            self.assertEqual(len(leases._slot_of), SLOTS - MOST_SWEPT + 1)


class Servers(OnFile):
    def started(self, *words: str) -> tuple[subprocess.Popen[str], str]:
        server = subprocess.Popen([sys.executable, str(HERE), self.path, "--port", "0", *words], stdout=subprocess.PIPE, text=True)
        self.addCleanup(server.communicate)
        self.addCleanup(server.terminate)
        return server, server.stdout.readline()

    def ended(self, server: subprocess.Popen[str]) -> int:
        server.terminate()
        return server.wait(PATIENCE)

    def test_one_of_leases_that_are_there_makes_no_file(self):
        words = [sys.executable, str(HERE), self.path, "--port", "0", "--existing"]
        ran = subprocess.run(words, capture_output=True, text=True, timeout=PATIENCE, check=False)
        self.assertEqual((ran.returncode, ran.stdout), (1, ""))
        self.assertIn(f"leases: {self.path}: there is no heap", ran.stderr)
        self.assertFalse(Path(self.path).exists())
        for more in ((), ("--existing",)):
            server, line = self.started(*more)
            self.assertIn("has 0 leases", line)
            self.assertEqual(self.ended(server), 0)

    def test_requests(self):
        server, line = self.started()
        port = int(line.split("/")[2].split(":")[1])

        def ask(method, path):
            connection = http.client.HTTPConnection("127.0.0.1", port, timeout=PATIENCE)
            connection.request(method, path)
            response = connection.getresponse()
            reply = response.status, json.loads(response.read())
            connection.close()
            return reply

        status, lease = ask("POST", "/leases/a%20b?holder=7&seconds=3600")
        self.assertEqual((status, lease["name"], lease["token"]), (200, "a b", 1))
        self.assertEqual(ask("POST", "/leases/a%20b?holder=8&seconds=3600"), (409, {}))
        self.assertEqual(ask("PUT", "/leases/a%20b?token=1&seconds=3600")[0], 200)
        self.assertEqual(ask("PUT", "/leases/a%20b?token=2&seconds=3600")[0], 404)
        self.assertEqual([lease["name"] for lease in ask("GET", "/leases")[1]], ["a b"])
        wrong = ["x?holder=7", "x?seconds=7", "x?holder=x&seconds=7", "x?holder=-1&seconds=7", f"x?holder={2**64}&seconds=7", "x?holder=7&seconds=0"]
        wrong += ["x?holder=7&seconds=nan", "x?holder=7&holder=8&seconds=7", "?holder=7&seconds=7", "x/y?holder=7&seconds=7", "%ff?holder=7&seconds=7"]
        for path in wrong:
            with self.subTest(path=path):
                status, reply = ask("POST", f"/leases/{path}")
                self.assertEqual((status, list(reply)), (400, ["error"]))
        self.assertEqual(ask("DELETE", "/leases/a%20b?token=1"), (200, {}))
        self.assertEqual(ask("DELETE", "/leases/a%20b?token=1"), (404, {}))
        self.assertEqual(self.ended(server), 0)


if __name__ == "__main__":
    unittest.main()
