"""The examples of the library, killed by kill -9 TRIES times each and started again on the same file.

The counters' totals and the bank's balances are always those of whole sections, and never less than what was told as acknowledged. The
queue of jobs is killed twice as often: no job that was put is lost, and none is done twice. The lease server has 16 clients, who hold it to
its word. Syncs: the bank and the queue meet TRIES syncs that fail, by which a run ends, and as many that
hang: nothing is acknowledged meanwhile, and nothing is lost that was. Of two runs whose sync hangs one goes on in time. The counters and
the bank in C are also tried over heaps with a journal.

The library is that of tools/c-library, or in the folder ZELAMIKU_LIBS.
"""
import collections
import http.client
import itertools
import json
import os
import random
import re
import shutil
import signal
import socket
import subprocess
import sys
import tempfile
import threading
import time
import unittest
from pathlib import Path

from .harness import COUNTS, SEED, TOP, WITHIN, needs_cc, tries

LIBS = Path(os.environ.get("ZELAMIKU_LIBS", TOP / "crates/zelamiku/out/host"))
needs_archive = unittest.skipUnless((LIBS / "libzelamiku.a").exists(), "no libzelamiku.a (tools/c-library makes it)")
needs_shared = unittest.skipUnless((LIBS / "libzelamiku.so.1").exists(), "no libzelamiku.so.1 (tools/c-library makes it)")
JOURNALED = ["-include", f"{TOP}/tests/journaled.h"]
# One that is only a shell's word for a toolchain that isn't there says no version.
HAS_CARGO = shutil.which("cargo") and subprocess.run(["cargo", "--version"], capture_output=True, check=False).returncode == 0


class Judge:
    """Hears the lines of all runs of an example, one after the other; raises AssertionError where one is wrong. The first FOUND lines of a run
    say what it found."""

    one_sync = 0

    def hear(self, line):
        for pattern, answer in {**self.LINES, r"rounds of one sync \d+": "rounds"}.items():
            if found := re.fullmatch(pattern, line):
                return getattr(self, answer)(*map(int, re.findall(r"\d+", found[0])))
        raise AssertionError(f"no line of the example: {line}")

    def rounds(self, one_sync):
        self.one_sync += one_sync


class Totals(Judge):
    """Of counters."""

    TOLD, FOUND = "counts acknowledged", 1
    LINES = {r"total \d+ = \d+ \+ \d+ \+ \d+ \+ \d+": "found", r"acknowledged \d+": "told"}
    total = acknowledged = all = runs = 0

    def found(self, total, *parts):
        assert total == sum(parts), f"{total} isn't the sum of {parts}"
        assert total >= self.total + self.acknowledged, f"{total} after {self.total}, of which {self.acknowledged} were acknowledged"
        self.all, self.runs = self.all + self.acknowledged, self.runs + (self.acknowledged > 0)
        self.total, self.acknowledged = total, 0

    def told(self, acknowledged):
        assert acknowledged >= self.acknowledged, f"{acknowledged} acknowledged after {self.acknowledged}"
        self.acknowledged = acknowledged

    def sum(self):
        return self.all


class Transfers(Judge):
    """Of the bank: whether an acknowledged transfer was lost."""

    TOLD, FOUND = "transfers acknowledged", 1
    LINES = {r"found( \d+)+": "found", r"acknowledged \d+ \d+": "told"}

    def __init__(self):
        self.acknowledged, self.all = collections.Counter(), 0

    def found(self, *counts):
        for thread, count in enumerate(counts):
            assert count >= self.acknowledged[thread], f"{count} of thread {thread}, and {self.acknowledged[thread]} were acknowledged"

    def told(self, thread, count):
        assert count > self.acknowledged[thread], f"{count} of thread {thread} was acknowledged before"
        self.acknowledged[thread], self.all = count, self.all + 1

    def sum(self):
        return self.all


class Jobs(Judge):
    """Of the queue, by producer: whether a job was lost or done twice."""

    TOLD, FOUND = "jobs done", 3
    LINES = {r"found \d+ put \d+ done \d+": "found", r"put \d+ \d+": "told_put", r"done \d+ \d+": "told_done"}

    def __init__(self):
        self.put, self.done, self.last, self.told = (collections.Counter() for _ in range(4))

    def found(self, producer, put, done):
        assert put >= self.put[producer] and done >= self.done[producer] and done <= put, f"producer {producer}: {put} put, {done} done"
        self.put[producer], self.done[producer], self.last[producer] = put, done, done

    def told_put(self, producer, job):
        assert job == self.put[producer] + 1, f"put {job} of producer {producer} after {self.put[producer]}"
        self.put[producer] = job

    def told_done(self, producer, job):
        # Two consumers may tell of two jobs of one producer the other way round, and of each once.
        assert job > self.last[producer] and not self.told[producer, job], f"job {job} of producer {producer} was done before"
        self.told[producer, job] = 1
        self.done[producer] = max(self.done[producer], job)

    def sum(self):
        assert self.put == self.done, f"a job is left: {self.put}, {self.done}"
        return self.told.total()


class Examples(unittest.TestCase):
    def setUp(self):
        folder = tempfile.TemporaryDirectory()
        self.addCleanup(folder.cleanup)
        self.folder = Path(folder.name)
        self.image, self.out, self.error = self.folder / "image", self.folder / "out", self.folder / "error"

    def built_in_c(self, name, *more):
        flags = [*more, "-std=gnu11", "-O2", "-Wall", "-Wextra", "-Werror", "-I", f"{TOP}/bindings/c", "-pthread"]
        program = self.folder / name
        subprocess.run(["cc", f"{TOP}/examples/c/{name}.c", *flags, LIBS / "libzelamiku.a", "-o", program], check=True)
        return program

    def built_in_cpp(self, name):
        if not shutil.which("c++"):
            self.skipTest("no c++")
        flags = ["-std=c++17", "-O2", "-Wall", "-Wextra", "-Werror", "-I", f"{TOP}/bindings/c", "-pthread"]
        program = self.folder / name
        subprocess.run(["c++", f"{TOP}/examples/cpp/{name}.cpp", *flags, LIBS / "libzelamiku.a", "-o", program], check=True)
        return program

    def built_in_rust(self, folder, name):
        if not HAS_CARGO:
            self.skipTest("no cargo")
        target = os.environ.get("CARGO_TARGET_DIR", self.folder / "target")
        env = {**os.environ, "ZELAMIKU_LIBS": str(LIBS), "CARGO_TARGET_DIR": str(target)}
        subprocess.run(["cargo", "build", "--offline", "--quiet", "--release"], cwd=TOP / folder, env=env, check=True)
        return Path(target, "release", name)

    def started(self, program, *words, **how):
        with open(self.out, "wb") as out:
            how = {"stdin": subprocess.DEVNULL, "stdout": out, "stderr": subprocess.STDOUT, **how}
            return subprocess.Popen([program, self.image, *words], **how)

    def lines(self):
        return self.out.read_text().split("\n")[:-1]

    def await_lines(self, running, count):
        """Until the run has told so many: by the first one, of what it found, it counts."""
        end = time.monotonic() + WITHIN
        while len(self.lines()) < count and running.poll() is None:
            self.assertLess(time.monotonic(), end, f"in {WITHIN} s a run tells no {count} lines: {self.out.read_text()[-500:]}")
            time.sleep(0.02)

    def heard(self, judge):
        """Of what the run has told, each line but one that the kill has cut off."""
        for line in self.lines():
            judge.hear(line)

    def killed(self, program, judge, pauses, kills, last):
        """Kills runs, after a pause that the number of the kill chooses, from the start or from what it found; `last` are the words of the
        last runs, which aren't killed."""
        for number in range(kills):
            is_awaited, pause = pauses(number)
            running = self.started(program)
            if is_awaited:
                # One in three may come before more is told.
                self.await_lines(running, judge.FOUND + (number % 3 != 0))
            time.sleep(pause)
            running.kill()
            self.assertEqual(running.wait(), -signal.SIGKILL, f"kill {number}: it has ended by itself: {self.out.read_text()[-500:]}")
            self.heard(judge)
        self.ended_well(program, judge, last)
        COUNTS["examples"].update({"kills": kills, judge.TOLD: judge.sum()})

    def ended_well(self, program, judge, last):
        for words in last:
            self.assertEqual(self.started(program, words).wait(WITHIN), 0, self.out.read_text()[-500:])
            self.heard(judge)
        self.assertGreater(judge.sum(), 0, "nothing was told, so nothing was tested")

    def was_over_journal(self, judge, least):
        self.assertEqual(self.image.read_bytes()[:8], b"MONIHALF")
        self.assertGreaterEqual(judge.one_sync, least, "no round took one sync")
        COUNTS["examples"].update({"rounds of one sync": judge.one_sync})

    def others_are_refused(self, program):
        """A file that is no heap's, and a heap whose header has one other byte, its gate, are left as they are."""
        heap = self.image.read_bytes()
        for content in (b"no heap\n", heap[:8] + b"\0" + heap[9:]):
            self.image.write_bytes(content)
            status = self.started(program, "0").wait(WITHIN)
            self.assertTrue(status > 0 and self.image.read_bytes() == content, f"status {status}")


def by_quarters(number):
    """One in four kills may come while the heap is made or opened."""
    return number % 4 != 0, (number % 9 + 1) / 100 if number % 4 < 2 else (number % 5 + 1) / 10


def by_hundredths(number):
    return number % 4 != 0, (number % 9 + 1) / 100 + (number % 4 != 0 and number % 2) / 10


def early_at_first(number):
    """The first three may come while the heap is made too."""
    return by_hundredths(number) if number > 2 else (False, (number + 1) / 100)


@needs_archive
class Killed(Examples):
    @needs_cc
    def test_counters_in_c(self):
        program = self.built_in_c("counters")
        self.killed(program, Totals(), by_quarters, tries(4), ("0.2", "0"))
        self.others_are_refused(program)

    @needs_cc
    def test_counters_over_a_journal(self):
        judge = Totals()
        self.killed(self.built_in_c("counters", *JOURNALED), judge, by_quarters, tries(4), ("0.2", "0"))
        self.was_over_journal(judge, 0)  # a round may change more than the journal takes

    def test_counters_in_cpp(self):
        program = self.built_in_cpp("counters")
        self.killed(program, Totals(), by_quarters, tries(4), ("0.2", "0"))
        self.others_are_refused(program)

    def test_counters_in_rust(self):
        program = self.built_in_rust("examples/rust", "counters")
        self.killed(program, Totals(), by_quarters, tries(4), ("0.2", "0"))
        self.others_are_refused(program)

    @needs_cc
    def test_bank_in_c(self):
        self.killed(self.built_in_c("bank"), Transfers(), early_at_first, tries(4), ("1",))

    @needs_cc
    def test_bank_over_a_journal(self):
        judge = Transfers()
        self.killed(self.built_in_c("bank", *JOURNALED), judge, early_at_first, tries(4), ("1",))
        self.was_over_journal(judge, 1)

    def test_jobs_in_rust(self):
        # At the end all that are left are done.
        self.killed(self.built_in_rust("examples/rust/jobs", "jobs"), Jobs(), by_hundredths, 2 * tries(4), ("0",))


class Held:
    """Of the lease server: what all its clients were answered. A client that got no answer asks again."""

    def __init__(self):
        self.given, self.held, self.greatest, self.lock = {}, {}, 0, threading.Lock()

    def acquired(self, name, holder, token, floor):
        """`floor` is the greatest token that was answered before this one was first asked for."""
        with self.lock:
            assert self.given.setdefault(token, (name, holder)) == (name, holder), f"token {token} of {name} was given to {self.given[token]} too"
            assert token > floor, f"token {token} of {name} was asked for after {floor} was answered"
            assert name not in self.held, f"{name} is held by token {self.held[name]} and by {token}"
            self.greatest, self.held[name] = max(self.greatest, token), token

    def turn(self, ask, name, holder, renewals):
        """A client acquires, renews and releases; `ask` gives the status, the answer, and whether it was cut off before. Whether it had the lease."""
        floor = self.greatest
        status, answer, _ = ask("POST", f"/leases/{name}?holder={holder}&seconds=3600")
        if status == 409:
            return False
        assert status == 200, f"acquiring {name} was answered {status}: {answer}"
        token = answer["token"]
        self.acquired(name, holder, token, floor)
        for _ in range(renewals):
            status, answer, _ = ask("PUT", f"/leases/{name}?token={token}&seconds=3600")
            assert (status, answer.get("token")) == (200, token), f"renewing {name}, held by {token}, was answered {status}: {answer}"
        with self.lock:
            del self.held[name]
        status, answer, was_cut_off = ask("DELETE", f"/leases/{name}?token={token}")
        # A try before may have released it, and been cut off.
        assert status == 200 or (status == 404 and was_cut_off), f"releasing {name} by token {token} was answered {status}: {answer}"
        return True

    def found(self, line, held):
        """What a server tells first. What was held before it was started it has to find."""
        assert " has " in line, f"the server didn't start: {line}"
        assert int(line.split()[2]) >= held, f"{held} leases were held, and {line}"


@needs_shared
class Leases(unittest.TestCase):
    def test_leases_in_python(self):
        """One kill in four comes at a random moment of the start."""
        chance, held, self.is_over, self.wrong = random.Random(SEED), Held(), threading.Event(), []
        with tempfile.TemporaryDirectory() as folder, socket.socket() as port:
            # (a port that the system gives to no connection: else a client may connect to itself while there is no server)
            while port.connect_ex(("127.0.0.1", number := chance.randrange(20_000, 32_000))) == 0:
                pass
            clients = [threading.Thread(target=self.be_client, args=(it, number, held)) for it in range(16)]
            for it in clients:
                it.start()
            try:
                for kill in range(tries(4) + 1):
                    self.serve(folder, number, held, "last" if kill == tries(4) else "early" if kill % 4 == 0 else "", chance, clients)
            finally:
                self.is_over.set()
        self.assertEqual(self.wrong, [])
        self.assertGreater(len(held.given), 0, "nothing was acquired, so nothing was tested")
        COUNTS["examples"].update({"kills of leases": tries(4), "leases acquired": len(held.given)})

    def serve(self, folder, port, held, when, chance, clients):
        """A server until it is killed; the last one ends by itself, once its clients have."""
        env = {**os.environ, "ZELAMIKU_LIBS": str(LIBS), "PYTHONPATH": f"{TOP}/bindings/python", "PYTHONDONTWRITEBYTECODE": "1"}
        words = [sys.executable, f"{TOP}/examples/python/leases", f"{folder}/leases.heap", "--port", str(port)]
        # Releases come only while a server answers.
        count = len(held.held)
        server = subprocess.Popen(words, env=env, stdout=subprocess.PIPE, stderr=subprocess.PIPE, text=True)
        try:
            if when != "early":
                held.found(server.stdout.readline(), count)
            if when == "last":
                self.is_over.set()
                for it in clients:
                    it.join(WITHIN)
                self.assertFalse(any(it.is_alive() for it in clients), f"a client wasn't answered in {WITHIN} s")
                server.terminate()
                self.assertEqual(server.wait(WITHIN), 0)
            time.sleep(chance.uniform(0, 0.5))
            self.assertTrue(when == "last" or server.poll() is None, "the server has ended by itself")
        finally:
            server.kill()
            told = server.communicate()[1]
        self.assertEqual((told, self.wrong), ("", []))

    def be_client(self, number, port, held):
        chance = random.Random(f"{SEED} {number}")
        try:
            for turn in itertools.count():
                if self.is_over.is_set():
                    return
                name = chance.choice(["shared-0", "shared-1", "shared-2", f"of-{number}", f"of-{number}-{turn}"])
                held.turn(lambda *words: self.ask(port, *words), name, number << 32 | turn, chance.randrange(4))
        except Exception as wrong:
            self.wrong.append(f"client {number}: {wrong!r}")

    def ask(self, port, method, path):
        """Until it is answered."""
        was_cut_off = False
        while True:
            connection = http.client.HTTPConnection("127.0.0.1", port, timeout=WITHIN / 2)
            try:
                connection.request(method, path)
                answer = connection.getresponse()
                body = json.loads(answer.read())
                if answer.status != 503:
                    return answer.status, body, was_cut_off
            except ConnectionRefusedError:
                time.sleep(0.05)  # nothing was asked
                continue
            except (OSError, http.client.HTTPException, ValueError):
                pass
            finally:
                connection.close()
            was_cut_off = True
            time.sleep(0.01)


# Of the bank, and of the queue with its consumers.
MOST_THREADS = 16


@needs_archive
@needs_cc
class Syncs(Examples):
    """Syncs that fail and hang."""

    def test_bank_in_c(self):
        self.meet_syncs(self.built_in_c("bank"), Transfers(), "1")

    def test_bank_over_a_journal(self):
        judge = Transfers()
        self.meet_syncs(self.built_in_c("bank", *JOURNALED), judge, "1")
        self.was_over_journal(judge, 1)

    def test_jobs_in_rust(self):
        self.meet_syncs(self.built_in_rust("examples/rust/jobs", "jobs"), Jobs(), "0")

    def meet_syncs(self, program, judge, last):
        self.fault = self.folder / "fault"
        shim = self.folder / "faults.so"
        subprocess.run(["cc", "-shared", "-fPIC", TOP / "bindings/python/tests/faults.c", "-ldl", "-o", shim], check=True)
        env = {**os.environ, "LD_PRELOAD": str(shim), "FAULTS": str(self.fault)}
        for number in range(tries(2)):
            for meet in (self.fails, self.hangs):
                with open(self.error, "wb") as error:
                    running = self.started(program, env=env, stderr=error)
                self.await_lines(running, judge.FOUND)
                time.sleep((number % 3) / 10 + (number % 9 + 1) / 100)
                meet(running, number)
                self.heard(judge)
        self.ended_well(program, judge, (last,))
        COUNTS["examples"].update({"syncs that failed": tries(2), "that hung": tries(2), judge.TOLD: judge.sum()})

    def fails(self, running, _):
        Path(f"{self.fault}.sync").touch()
        status = running.wait(WITHIN)
        Path(f"{self.fault}.sync").unlink()
        told = self.error.read_text()
        self.assertTrue(status == 2 and re.search("a sync .*failed", told), f"status {status}: {told}")

    def hangs(self, running, number):
        """Once a sync hangs, each thread may tell of one section more, of the round before. Threads that don't wait for durability go on."""
        hang, hung = Path(f"{self.fault}.hang"), Path(f"{self.fault}.hung")
        hang.touch()
        end = time.monotonic() + WITHIN
        while not hung.exists():
            self.assertLess(time.monotonic(), end, f"in {WITHIN} s no sync has begun: {self.out.read_text()[-500:]}")
            time.sleep(0.002)
        told = len(self.lines())
        time.sleep(0.3)
        self.assertLessEqual(len(self.lines()), told + MOST_THREADS, "a sync hangs, and more is told")
        hang.unlink()
        if number % 2:
            self.await_lines(running, told + MOST_THREADS + 1)
        hung.unlink()
        running.kill()
        self.assertEqual(running.wait(), -signal.SIGKILL, "it has ended by a sync that hung")
