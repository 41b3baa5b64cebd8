#!/usr/bin/env python3
"""Tries counters_server: its answers, its clients, and what faults and kills leave.

    test.py [--few] [--kills N] [--seed N] [PART..]

Needs cc and Python alone. The library must be there (tools/c-library, or ZELAMIKU_LIBS names the folder that has it). The parts:

    answers  each command, each refusal, errors of the protocol, limits, starts that are refused
    clients  redis-cli, redis-benchmark and python3-redis, where they are installed
    rude     a client that doesn't read, half commands, one client too many: the others go on
    room     clients that send more in a round than the lane has room for: each count is done once, and all clients have turns
    faults   syncs that fail or hang, writes that fail, a stop meanwhile
    kills    kill -9 under 100 clients (300 kills, 6 with --few): no acknowledged count is lost, no MSET is there by half. The control, a server
             that is changed to answer early, must lose some
    rate     only if it is named: durable INCRs a second by redis-benchmark, beside a redis-server with appendfsync=always. Each sync of both
             is a sleep of 2 ms (tools/benches/syncs.c). Medians of three rounds, as a table

The last line counts the parts; the exit status is 1 if one has failed. A time is only waited for to end what hangs (PATIENCE).
"""
import argparse
import contextlib
import os
import random
import re
import selectors
import shutil
import signal
import socket
import statistics
import subprocess
import sys
import tempfile
import threading
import time

HERE = os.path.dirname(os.path.abspath(__file__))
TOP = os.path.dirname(os.path.dirname(os.path.dirname(HERE)))
SOURCE = f"{HERE}/counters_server.c"
KEYS = [f"k:{n}" for n in range(40)]
PATIENCE = 120  # seconds, after which something hangs


class Wrong(Exception):
    """What went wrong."""


def must(is_so, text):
    if not is_so:
        raise Wrong(text)


def write(path, text=""):
    with open(path, "w", encoding="utf-8") as file:
        file.write(text)


def built(work, name, *flags, changed=None):
    """The program's path; `changed` is a pair of texts, of which the first stands once in the source."""
    with open(SOURCE, encoding="utf-8") as file:
        text = file.read()
    if changed:
        must(text.count(changed[0]) == 1, f"not once in the source: {changed[0]}")
        text = text.replace(*changed)
    write(f"{work}/{name}.c", text)
    libs = os.environ.get("ZELAMIKU_LIBS", f"{TOP}/crates/zelamiku/out/host")
    words = ["cc", "-std=gnu11", "-O2", *flags, "-Wall", "-Wextra", "-Werror", f"{work}/{name}.c", "-I", f"{TOP}/bindings/c"]
    subprocess.run([*words, f"{libs}/libzelamiku.a", "-pthread", "-o", f"{work}/{name}"], check=True)
    return f"{work}/{name}"


class Server:
    """A server on a Unix socket. Its files are in a folder of its own."""

    all = []

    def __init__(self, program, folder, *limits, keys=KEYS, env=None):
        self.heap, self.error, self.address = f"{folder}/heap", f"{folder}/error", f"{folder}/socket"
        os.makedirs(folder, exist_ok=True)
        write(f"{folder}/keys", "".join(f"{key}\n" for key in keys))
        with open(self.error, "a", encoding="utf-8") as error:
            words = [program, self.heap, f"{folder}/keys", self.address, *map(str, limits)]
            self.process = subprocess.Popen(words, stdout=subprocess.PIPE, stderr=error, text=True, env={**os.environ, **(env or {})})
        Server.all.append(self)
        for line in self.process.stdout:
            if line.startswith("at "):
                return
        raise Wrong(f"the server didn't start: {self.errors()}")

    def errors(self):
        with open(self.error, encoding="utf-8") as file:
            return file.read()

    def connect(self):
        client = socket.socket(socket.AF_UNIX)
        client.settimeout(PATIENCE)
        client.connect(self.address)
        return client

    def kill(self):
        self.process.kill()
        self.process.wait()
        self.process.stdout.close()

    def stop(self):
        """The status with which SIGTERM ends it."""
        self.process.terminate()
        return self.process.wait(PATIENCE)


def request(*words):
    """A command's bytes."""
    parts = [str(word).encode() for word in words]
    return b"*%d\r\n" % len(parts) + b"".join(b"$%d\r\n%s\r\n" % (len(part), part) for part in parts)


class Client:
    """A connection that takes whole answers."""

    def __init__(self, server):
        self.socket, self.text = server.connect(), b""

    def take(self):
        """The next answer, without its line's end; a bulk string's text."""
        while True:
            line, is_whole, rest = self.text.partition(b"\r\n")
            if is_whole and not line.startswith(b"$"):
                self.text = rest
                return line.decode()
            if is_whole and len(rest) >= int(line[1:]) + 2:
                self.text = rest[int(line[1:]) + 2 :]
                return rest[: int(line[1:])].decode()
            more = self.socket.recv(1 << 16)
            must(more, "the connection has ended")
            self.text += more

    def ask(self, *words):
        self.socket.sendall(request(*words))
        return self.take()


def told_by(server, text):
    """All that the server sends to a client that has sent this and then its end."""
    client, told = server.connect(), b""
    # (what the server has sent stays to be read if it refused the client first)
    with contextlib.suppress(BrokenPipeError, ConnectionResetError):
        client.sendall(text)
        client.shutdown(socket.SHUT_WR)
    with contextlib.suppress(ConnectionResetError):
        while more := client.recv(1 << 16):
            told += more
    client.close()
    return told


# ---- answers ----

MOST = 2**63 - 1
NUMBER, OVERFLOW = "-ERR value is not an integer or out of range", "-ERR increment or decrement would overflow"
ARGUMENTS, NO_KEY = "-ERR wrong number of arguments", "-ERR no such key: this server's keys are declared"
BROKEN = b"-ERR Protocol error, or a command that is too long here\r\n"
# Each command of a client, and its answer: Redis' own where this server has the command.
WORKED = [
    (("PING",), "+PONG"),
    (("get", "k:0"), "0"),
    (("SET", "k:0", 7), "+OK"),
    (("INCR", "k:0"), ":8"),
    (("INCRBY", "k:0", -18), ":-10"),
    (("GET", "k:0"), "-10"),
    (("MSET", "k:0", MOST, "k:1", -MOST - 1), "+OK"),
    (("INCR", "k:0"), OVERFLOW),
    (("INCRBY", "k:1", -1), OVERFLOW),
    (("GET", "k:1"), str(-MOST - 1)),
    *((("INCRBY", "k:0", it), NUMBER) for it in ("x", "01", "+1", "1.5", "-0", "", MOST + 1, " 1")),
    (("MSET", "k:2", 1, "k:3", "x"), NUMBER),
    (("GET", "k:2"), "0"),
    (("MSET", *(word for n in range(255) for word in (KEYS[n % 40], n))), "+OK"),
    (("GET", "k:14"), "254"),
    *((it, ARGUMENTS) for it in (("PING", "a"), ("GET",), ("GET", "k:0", "k:1"), ("SET", "k:0"), ("MSET", "k:0", 1, "k:1"))),
    *((it, NO_KEY) for it in (("GET", "other"), ("MSET", "k:0", 1, "k", 2), ("INCR", "k:00"), ("GET", ""))),
    (("NOPE", "a"), "-ERR unknown command: this server has PING, GET, SET, INCR, INCRBY and MSET"),
]
STREAMS = [
    (b"PING\r\n", BROKEN),
    (b"*0\r\n", BROKEN),
    (b"*1\r\n+PING\r\n", BROKEN),
    (b"*01\r\n$4\r\nPING\r\n", BROKEN),
    (b"*513\r\n", BROKEN),
    (b"*1\r\n$-5\r\n", BROKEN),
    (b"*1\r\n$16385\r\n", BROKEN),
    (b"*" + b"1" * 20000, BROKEN),
    (request("PING") + b"*x\r\n" + request("PING"), b"+PONG\r\n" + BROKEN),
    (request("GET", "k:39") * 20000, b"$3\r\n239\r\n" * 20000),
    (request("GET", "k:39")[:-1], b""),
]


def refused(program, folder, *words, keys="a\n", why):
    """The start is refused with this text, and leaves no heap."""
    os.makedirs(folder)
    write(f"{folder}/keys", keys)
    run = subprocess.run([program, *(it.replace("AT", folder) for it in words)], capture_output=True, text=True, check=False)
    must(run.returncode == 2 and why in run.stderr and not os.path.exists(f"{folder}/heap"), f"{words}: {run}")


def answers(tried):
    server = Server(tried.program, f"{tried.work}/answers")
    client = Client(server)
    for words, expected in WORKED:
        got = client.ask(*words)
        must(got == expected, f"{words}: {got}, and not {expected}")
    server.kill()
    server = Server(tried.program, f"{tried.work}/answers", keys=KEYS[::-1])
    must(Client(server).ask("GET", "k:14") == "254", "the same keys in another order, after a kill")
    for text, expected in STREAMS:
        got = told_by(server, text)
        must(got == expected, f"{text[:80]!r}: {got[:300]!r}, and not {expected[:300]!r}")
    must(server.stop() == 0, "SIGTERM")
    try:
        Server(tried.program, f"{tried.work}/answers", keys=["other", *KEYS[1:]])
        raise Wrong("other keys were taken")
    except Wrong as why:
        must("fingerprint" in str(why), str(why))
    places = (f"{tried.work}/refused{n}" for n in range(100))
    for words in (("AT/heap", "AT/keys"), ("AT/heap", "AT/keys", "AT/s", "0"), ("AT/heap", "AT/keys", "AT/s", "1", "1")):
        refused(tried.program, next(places), *words, why="give HEAP KEYS PORT|PATH")
    for keys, why in (("", "no key"), ("a\n\n", "line 2"), ("x" * 129, "line 1"), ("b\na\nb\n", "twice: b")):
        refused(tried.program, next(places), "AT/heap", "AT/keys", "AT/s", keys=keys, why=why)
    return f"{len(WORKED)} commands, {len(STREAMS)} streams"


def clients(tried):
    server = Server(tried.program, f"{tried.work}/clients", 2000)
    used, lacks = [], []
    if shutil.which("redis-cli"):
        run = subprocess.run(["redis-cli", "-s", server.address, "INCR", "k:0"], capture_output=True, text=True, check=True)
        must(run.stdout == "1\n", f"redis-cli: {run}")
        words = ["redis-benchmark", "-s", server.address, "-n", "20000", "-c", "1000", "-P", "4", "incr", "k:1"]
        subprocess.run(words, capture_output=True, check=True, timeout=PATIENCE)
        must(int(Client(server).ask("GET", "k:1")) >= 20000, "redis-benchmark's counts")
        used += ["redis-cli", "redis-benchmark"]
    else:
        lacks.append("redis-cli")
    try:
        import redis

        own = redis.Redis(unix_socket_path=server.address)
        must(own.mset({"k:2": 5, "k:3": -5}) and own.incrby("k:2", 3) == 8 and own.get("k:3") == b"-5", "python3-redis")
        used.append("python3-redis")
    except ImportError:
        lacks.append("python3-redis")
    must(server.stop() == 0, "SIGTERM")
    return ", ".join(used) + "".join(f"\nLEFT OUT: no {it}: it wasn't tried as a client" for it in lacks)


def rude(tried):
    program = built(tried.work, "impatient", changed=("PATIENCE = 30", "PATIENCE = 1"))
    server = Server(program, f"{tried.work}/rude", 3)
    witness, half, reader = Client(server), server.connect(), server.connect()
    half.sendall(request("INCR", "k:0")[:-3])
    must(told_by(server, b"") == b"-ERR max number of clients reached\r\n", "a client too many")
    reader.settimeout(0.2)
    sent = 0
    try:
        while sent < 1 << 26:
            sent += reader.send(request("GET", "k:0") * 1000)
    except TimeoutError:
        pass
    must(sent < 1 << 26, "a client that doesn't read is read without an end")
    must(witness.ask("INCR", "k:1") == ":1", "the witness")
    for _ in range(PATIENCE * 10):
        if told_by(server, request("GET", "k:0")) == b"$1\r\n0\r\n":
            break
        time.sleep(0.1)
    else:
        raise Wrong("a client that doesn't read isn't cut off")
    half.sendall(request("INCR", "k:0")[-3:])
    must(half.recv(100) == b":1\r\n", "the other half of a command")
    must(server.stop() == 0, "SIGTERM")
    return f"a client that doesn't read was held back after {sent:,} bytes, and cut off"


# ---- room, faults ----


def with_faults(tried, folder):
    """The variables by which calls of a heap's file fail or hang while `fault.sync`, `fault.write` or `fault.hang` lies in that folder."""
    library = f"{tried.work}/faults.so"
    subprocess.run(["cc", "-shared", "-fPIC", f"{TOP}/bindings/python/tests/faults.c", "-ldl", "-o", library], check=True)
    return {"LD_PRELOAD": library, "FAULTS": f"{folder}/fault"}


def room(tried):
    """All have sent all before the first round ends, so the server alone orders the counts. With the smallest ring a lane has no room for two
    turns."""
    folder, count, each = f"{tried.work}/room", 40, 4000
    program = built(tried.work, "small_ring", changed=("plan.ring = ZELAMIKU_MOST_RING", "plan.ring = 4096"))
    server = Server(program, folder, env=with_faults(tried, folder))
    write(f"{folder}/fault.hang")
    sockets = [server.connect() for _ in range(count)]
    for it in sockets:
        it.setsockopt(socket.SOL_SOCKET, socket.SO_SNDBUF, 1 << 18)
        it.sendall(request("INCR", "k:0") * each)
    os.remove(f"{folder}/fault.hang")
    told = []
    for it in sockets:
        text = b""
        while text.count(b"\n") < each and (more := it.recv(1 << 16)):
            text += more
        told.append([int(line[1:]) for line in text.split(b"\r\n")[:-1]])
    must(sorted(it for own in told for it in own) == list(range(1, count * each + 1)), "counts are missing, or there twice")
    must(all(own == sorted(own) for own in told), "a client's counts aren't in order")
    # Between two counts of a client each other one has a turn at most: what one read holds.
    most, turns = max(b - a for own in told for a, b in zip([0, *own], own)), count * (16384 // len(request("INCR", "k:0")) + 1)
    must(most <= turns < (count - 1) * each, f"a client had none of {most} counts in a row, and all turns have {turns} at most")
    must(server.stop() == 0, "SIGTERM")
    return f"{count * each:,} counts of {count} clients, at most {most:,} between two of a client"


def is_silent(client):
    client.socket.settimeout(0.5)
    try:
        return not client.take()
    except TimeoutError:
        return True
    finally:
        client.socket.settimeout(PATIENCE)


def faults(tried):
    folder, acknowledged = f"{tried.work}/faults", 0
    env = with_faults(tried, folder)
    for _ in range(2 if tried.few else 20):
        # A sync fails: nothing more is confirmed.
        server = Server(tried.program, folder, env=env)
        client = Client(server)
        must(int(client.ask("GET", "k:0")) >= acknowledged, "an acknowledged count is gone")
        acknowledged = int(client.ask("INCR", "k:0")[1:])
        write(f"{folder}/fault.sync")
        client.socket.sendall(request("INCR", "k:0") * 3)
        try:
            must(client.socket.recv(100) == b"", "a sync has failed, and there was an answer")
        except ConnectionResetError:
            pass
        must(server.process.wait(PATIENCE) == 2 and "sync" in server.errors(), f"a sync failed: {server.errors()}")
        os.remove(f"{folder}/fault.sync")
        # A write fails and is made again; a sync hangs and then goes on.
        server = Server(tried.program, folder, env=env)
        client, reader = Client(server), Client(server)
        for what in ("write", "hang"):
            before = int(client.ask("INCR", "k:0")[1:])
            write(f"{folder}/fault.{what}")
            client.socket.sendall(request("INCR", "k:0"))
            must(is_silent(client), f"{what}: there was an answer")
            must(reader.ask("GET", "k:1") == "0", f"{what}: what is durable can be read")
            os.remove(f"{folder}/fault.{what}")
            must(client.take() == f":{before + 1}", f"{what}: the answer comes later")
        acknowledged = before + 1
        # A stop while a write fails confirms nothing.
        write(f"{folder}/fault.write")
        client.socket.sendall(request("INCR", "k:0"))
        must(is_silent(client) and server.stop() == 2 and client.socket.recv(100) == b"", "a stop while a write fails")
        os.remove(f"{folder}/fault.write")
    return f"{acknowledged} counts acknowledged, none lost"


# ---- kills ----


class Counts:
    """What clients have sent, and what was acknowledged: keys 0 to 19 count; 20 and 21, 22 and 23 .. are set to one number by MSET."""

    def __init__(self):
        self.acknowledged, self.sent, self.answers, self.number = [0] * 20, [0] * 20, 0, 0

    def fill(self, client, dice):
        client.asked = [dice.randrange(30) for _ in range(dice.randrange(1, 9))]
        text = b""
        for key in client.asked:
            self.number += 1
            if key < 20:
                self.sent[key] += 1
            pair = KEYS[2 * key - 20 : 2 * key - 18]
            text += request("INCR", KEYS[key]) if key < 20 else request("MSET", pair[0], self.number, pair[1], self.number)
        client.socket.sendall(text)

    def load(self, server, count, seconds, dice, is_at_once):
        """So many clients count until the server is killed: so many seconds after the first answer, or after they have begun."""
        chooser, timer = selectors.DefaultSelector(), threading.Timer(seconds, server.process.kill)
        for client in [Client(server) for _ in range(count)]:
            self.fill(client, dice)
            chooser.register(client.socket, selectors.EVENT_READ, client)
        if is_at_once:
            timer.start()
        while chooser.get_map():
            for key, _ in chooser.select(1):
                client = key.data
                try:
                    while client.asked:
                        must(client.take()[0] in "+:", "an answer is an error")
                        it = client.asked.pop(0)
                        if it < 20:
                            self.acknowledged[it] += 1
                        self.answers += 1
                        if self.answers and timer.ident is None:
                            timer.start()
                    self.fill(client, dice)
                except (Wrong, OSError) as why:
                    must("an answer" not in str(why), str(why))
                    chooser.unregister(client.socket)
        timer.join()
        server.kill()

    def lost(self, server):
        """How many acknowledged counts are lost. What was sent and isn't acknowledged may be there."""
        client = Client(server)
        values = [int(client.ask("GET", key)) for key in KEYS]
        lost = sum(max(0, had - has) for had, has in zip(self.acknowledged, values))
        must(all(has <= most for has, most in zip(values, self.sent)), f"more than was sent: {values}, {self.sent}")
        must(values[20::2] == values[21::2], f"an MSET by half: {values}")
        self.acknowledged, self.sent = values[:20], values[:20]
        return lost


def kill_often(program, folder, kills, dice, env=None):
    """How many answers there were, and how many acknowledged counts were lost. With `env` no sync returns from each start on."""
    counts, lost = Counts(), 0
    for number in range(kills):
        server = Server(program, folder, env=env)
        if env:
            write(f"{folder}/fault.hang")
        counts.load(server, 100, dice.choice((0.01, 0.03, 0.1, 0.2)), dice, is_at_once=number % 4 == 3)
        if env:
            os.remove(f"{folder}/fault.hang")
        server = Server(program, folder)
        lost += counts.lost(server)
        server.kill()
    return counts.answers, lost


def kills(tried):
    dice = random.Random(tried.seed)
    count, lost = kill_often(tried.program, f"{tried.work}/kills", tried.kills, dice)
    must(lost == 0 and count > 0, f"{lost} of {count} acknowledged counts are lost")
    early = built(tried.work, "early", "-DNDEBUG", changed=("if (c->out_used > 0 && c->waits > durable) return", "if (false) return"))
    folder = f"{tried.work}/early_kills"
    other, gone = kill_often(early, folder, max(3, tried.kills // 10), dice, with_faults(tried, folder))
    must(gone > 0, f"a server that answers early has lost none of {other}, though no sync returned: nothing was tested")
    return f"{tried.kills} kills, {count} answers, no acknowledged count lost; one that answers early lost {gone} of {other}"


# ---- rate ----


def started_redis(folder, env):
    os.makedirs(folder)
    words = ["redis-server", "--port", "0", "--unixsocket", f"{folder}/socket", "--dir", folder, "--save", "", "--maxclients", "2000"]
    words += ["--appendonly", "yes", "--appendfsync", "always", "--auto-aof-rewrite-percentage", "0"]
    process = subprocess.Popen(words, stdout=subprocess.DEVNULL, env={**os.environ, **env})
    while not os.path.exists(f"{folder}/socket"):
        must(process.poll() is None, "redis-server didn't start")
        time.sleep(0.02)
    return process, f"{folder}/socket"


def rate_of(address, count, depth):
    """INCRs a second for a second, after a short run that says how many fit."""
    made = 4 * count * depth + 200
    for _ in range(2):
        words = ["redis-benchmark", "-s", address, "-c", str(count), "-P", str(depth), "-r", "10000", "--csv"]
        words += ["-n", str(made), "incr", "k:__rand_int__"]
        run = subprocess.run(words, capture_output=True, text=True, check=True, timeout=PATIENCE)
        found = float(re.search(r'__","([0-9.]+)"', run.stdout)[1])
        made = int(max(8 * count * depth, found))
    return found


def rate(tried):
    must(shutil.which("redis-server") and shutil.which("redis-benchmark"), "no redis-server or no redis-benchmark: nothing was measured")
    library = f"{tried.work}/syncs.so"
    subprocess.run(["cc", "-O2", "-shared", "-fPIC", f"{TOP}/tools/benches/syncs.c", "-o", library], check=True)
    env = {"LD_PRELOAD": library, "SYNCS": f"{tried.work}/syncs", "SYNCS_TAKE": "2000"}
    keys, rows, seen = [f"k:{n:012}" for n in range(10000)], [(c, d) for d in (1, 16) for c in (1, 50, 500, 1000)], {}
    for number in range(3):
        for row in rows:
            for which in ("counters_server", "redis") if number % 2 else ("redis", "counters_server"):
                folder = f"{tried.work}/rate{number}_{row[0]}_{row[1]}_{which}"
                if which == "redis":
                    process, address = started_redis(folder, env)
                else:
                    server = Server(tried.program, folder, 2000, keys=keys, env=env)
                    process, address = server.process, server.address
                try:
                    seen.setdefault((row, which), []).append(rate_of(address, *row))
                finally:
                    process.kill()
                    process.wait()
    lines = ["| Clients, commands in a pipeline | counters_server | redis |", "|---|---|---|"]
    for row in rows:
        ours, theirs = seen[row, "counters_server"], seen[row, "redis"]
        ratio = statistics.median(a / b for a, b in zip(ours, theirs))
        cells = [f"{statistics.median(it):,.0f} ({min(it):,.0f} to {max(it):,.0f})" for it in (ours, theirs)]
        lines.append(f"| {row[0]:,}, {row[1]} | {cells[0]}, {ratio:.2f}x | {cells[1]} |")
    return "INCRs a second\n" + "\n".join(lines) + "\n"


PARTS = [answers, clients, rude, room, faults, kills, rate]


def main():
    parser = argparse.ArgumentParser(description=__doc__, formatter_class=argparse.RawDescriptionHelpFormatter)
    parser.add_argument("--few", action="store_true")
    parser.add_argument("--kills", type=int)
    parser.add_argument("--seed", type=int, default=random.randrange(1 << 30))
    names = [part.__name__ for part in PARTS]
    parser.add_argument("parts", nargs="*", metavar="PART", help=" ".join(names))
    tried = parser.parse_args()
    tried.kills = tried.kills or (6 if tried.few else 300)
    if set(tried.parts) - set(names):
        parser.error(f"the parts are {' '.join(names)}")
    failed = 0
    chosen = [part for part in PARTS if part.__name__ in (tried.parts or names[:-1])]
    with tempfile.TemporaryDirectory() as tried.work:
        tried.program = built(tried.work, "counters_server")
        for part in chosen:
            began = time.monotonic()
            try:
                told = part(tried)
                print(f"{part.__name__}: ({time.monotonic() - began:.0f} s) {told}", flush=True)
            except Exception as why:  # a part that goes wrong in any way has failed, and the others are tried
                failed += 1
                print(f"FAILED: {part.__name__}: seed {tried.seed}: {type(why).__name__}: {why}", flush=True)
            finally:
                for server in Server.all:
                    if server.process.poll() is None:
                        server.kill()
    print(f"{len(chosen) - failed} passed, {failed} failed")
    return failed > 0


if __name__ == "__main__":
    signal.signal(signal.SIGTERM, lambda *_: sys.exit(143))
    sys.exit(main())
