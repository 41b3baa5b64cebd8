"""A disk with a volatile write cache, as a plug-in of nbdkit. It records what reaches it, and shows any state that a power cut may leave of it.

    nbdkit --foreground --threads 64 --unix SOCKET python cutdisk.py control=SOCKET told=PATH size=BYTES seed=N

By the socket of `control` a client calls methods of Disk: it sends a line, a list in JSON of a method's name and its arguments, and gets a line, what
the method returns. `told` is a FIFO: each line that comes by it, KEY VALUE, goes into the record too, before the disk's next request, since it was
true when it was told.

A write is durable if it was answered before a flush arrived that was answered before the cut, or was answered before the cut with FUA. All other
writes that have arrived are volatile. After a cut a sector has the bytes of its last durable write, or of a volatile one. The volatile ones are taken
in the order of their answers, those without an answer last, by chance.
"""
import contextlib
import errno
import io
import json
import math
import mmap
import operator
import os
import random
import socket
import threading
import time

import nbdkit

API_VERSION, PAGE, SECTOR = 2, 4096, 512
ZEROS = bytes(PAGE)
# Which volatile writes a state keeps whole, by a write's number and two numbers by chance; `lost` keeps none. `subset` keeps each request (grain 0), or
# each 512 or 4,096 bytes, with so many percent.
KEPT = {
    "kept": lambda number, some, one: True,
    "prefix": lambda number, some, one: number < some,
    "one": lambda number, some, one: number == one,
    "butone": lambda number, some, one: number != one,
}


class Event:
    """A write (of zeros where it has no bytes), a flush, an answer of one, a line that was told, or a loss of what the cache had."""

    def __init__(self, kind, of=None, at=0, count=0, content=None, is_fua=False):
        self.kind, self.of, self.at, self.count, self.content, self.is_fua = kind, of, at, count, content, is_fua
        self.answer = self.lost_by = math.inf  # the events that answer it, and that take it from the cache
        self.owner = None


class Disk:
    """What the disk has and has had. A client asks for `state`, and for the methods from `open` on."""

    def __init__(self, size, told):
        self.size, self.lock, self.clients = size, threading.Condition(), 0
        self.file, self.pages, self.unreadable_ones = bytes(0), {}, set()
        # The record: what has happened, and what the disk had before, by pages; and those that are kept meanwhile.
        self.events, self.before, self.kept, self.is_recording = [], {}, [], False
        self.most_delay, self.lies_from, self.torn_ranges = 0, math.inf, ()
        self.fault = {"kind": "none", "skip": 0, "count": 0, "mode": "kept", "failed": 0}
        self.told_by, self.heard = os.open(told, os.O_RDWR | os.O_NONBLOCK), b""

    # ---- what the disk has ----

    def page(self, number):
        return self.pages.get(number) or self.file[number * PAGE : (number + 1) * PAGE]

    def read(self, at, count):
        first, last = at // PAGE, (at + count - 1) // PAGE
        return b"".join(map(self.page, range(first, last + 1)))[at - first * PAGE :][:count]

    def write(self, at, count, content=None):
        if self.unreadable_ones:
            self.unreadable_ones.difference_update(range(at // SECTOR, (at + count) // SECTOR))
        done = 0
        while done < count:
            number, begin = divmod(at + done, PAGE)
            part = min(PAGE - begin, count - done)
            new = ZEROS[:part] if content is None else content[done : done + part]
            if part < PAGE:
                old = self.page(number)
                new = old[:begin] + new + old[begin + part :]
            self.pages[number] = new
            done += part

    # ---- the record ----

    def add(self, event):
        if self.is_recording:
            event.owner = self.events
            self.events.append(event)
        return event

    def hear(self):
        """Takes what was told."""
        with contextlib.suppress(BlockingIOError):
            while True:
                *lines, self.heard = (self.heard + os.read(self.told_by, 65536)).split(b"\n")
                for line in lines:
                    self.add(Event("told", line.decode()))

    def fails(self, kind):
        """Whether this request, of a kind, is one that fails."""
        if self.fault["kind"] != kind:
            return False
        if self.fault["skip"] > 0:
            self.fault["skip"] -= 1
            return False
        is_one = self.fault["count"] > 0
        self.fault["count"] -= is_one
        self.fault["failed"] += is_one
        return is_one

    def turns_a_gate(self, at, count, content):
        """Whether the write changes one byte alone of what the disk has, as the turn of a gate does, which has a sync of its own."""
        return content is not None and count <= PAGE and sum(map(operator.ne, self.read(at, count), content)) == 1

    def answered(self, event, has_failed):
        """Answers a request after a while, by chance, so in any order."""
        if self.most_delay > 0:
            time.sleep(random.uniform(0, self.most_delay / 1e6))
        with self.lock:
            if has_failed:
                nbdkit.set_error(errno.EIO)
                raise OSError(errno.EIO, "it was to fail")
            self.note_answer(event)

    def note_answer(self, event):
        if self.is_recording and event.owner is self.events:
            event.answer = self.count()
            self.add(Event("answer", event))

    def take_flush(self):
        with self.lock:
            self.hear()
            has_failed = self.fails("flush")
            event = None if has_failed else self.add(Event("flush"))
            if has_failed and self.fault["mode"] == "lost":
                self.lose_cache()
        self.answered(event, has_failed)

    def take_write(self, at, count, content, is_fua):
        """Of one that fails the first half may be a write like any other."""
        with self.lock:
            self.hear()
            is_gate = self.fault["kind"] == "gate" and self.turns_a_gate(at, count, content)
            has_failed, event = self.fails("gate" if is_gate else "write"), None
            if has_failed:
                count = count // 2 // SECTOR * SECTOR if self.fault["mode"] == "half" else 0
            if count > 0:
                self.write(at, count, content)
                event = self.add(Event("write", None, at, count, content, is_fua))
            if has_failed and event:
                self.note_answer(event)
        self.answered(event, has_failed)

    def take_read(self, at, count):
        with self.lock:
            self.hear()
            is_lost = self.unreadable_ones and not self.unreadable_ones.isdisjoint(range(at // SECTOR, -(-(at + count) // SECTOR)))
            if is_lost or self.fails("read"):
                nbdkit.set_error(errno.EIO)
                raise OSError(errno.EIO, "it can't be read")
            return self.read(at, count)

    def lose_cache(self):
        """The cache loses what was answered and isn't durable. What comes to it only now it still takes."""
        if not self.is_recording:
            return
        loss = self.count()
        self.add(Event("loss"))
        for write, is_durable in self.writes_before(loss, random):
            if not is_durable and write.answer < loss:
                write.lost_by = loss
        self.pages = dict(self.before)
        for it in self.events:
            if it.kind == "write" and it.lost_by == math.inf:
                self.write(it.at, it.count, it.content)

    # ---- the states that a cut may leave ----

    def writes_before(self, cut, chance):
        """The writes before the cut in order, each with whether it is durable."""
        events, found = self.events[:cut], []
        firm = max((i for i, it in enumerate(events) if it.kind == "flush" and it.answer < cut and i < self.lies_from), default=-1)
        for it in events:
            if it.kind == "write" and it.lost_by >= cut:
                is_durable = it.answer < cut and (it.answer < firm or (it.is_fua and it.answer < self.lies_from))
                found.append((it.answer if it.answer < cut else cut + chance.random(), it, is_durable))
        found.sort(key=lambda it: it[0])
        return [it[1:] for it in found]

    def may_be_torn(self, at):
        return not self.torn_ranges or any(begin <= at < end for begin, end in zip(self.torn_ranges[::2], self.torn_ranges[1::2]))

    def keep_sector(self, write, begin, cut, torn, chance):
        """Of a write that is kept. Whether the sector is torn."""
        at = write.at + begin
        new = ZEROS[:SECTOR] if write.content is None else write.content[begin : begin + SECTOR]
        if not ((torn >= 2 or (torn == 1 and write.answer >= cut)) and self.may_be_torn(at)):
            self.write(at, SECTOR, new)
            return False
        if torn <= 2:
            # Bytes old and new: each by chance, new ones up to a place or from one on, or some new ones.
            how, place = chance.randrange(4), chance.randrange(SECTOR + 1)
            is_new = (lambda i: chance.getrandbits(1), lambda i: i < place, lambda i: i >= place, lambda i: chance.randrange(8) == 0)[how]
            self.write(at, SECTOR, bytes(new[i] if is_new(i) else old for i, old in enumerate(self.read(at, SECTOR))))
        else:
            count = PAGE if torn == 5 else SECTOR
            self.write(at // count * count, count, chance.randbytes(count))
        if torn == 4 and chance.getrandbits(1):
            self.unreadable_ones.add(at // SECTOR)
        return True

    def keep(self, write, is_whole, grain, percent, cut, torn, chance):
        """Keeps what the policy says of a volatile write. How many sectors are torn."""
        is_lucky, count = chance.randrange(100) < percent, 0
        for begin in range(0, write.count, SECTOR):
            if begin > 0 and grain > 0 and (write.at + begin) % grain == 0:
                is_lucky = chance.randrange(100) < percent
            if is_whole or is_lucky:
                count += self.keep_sector(write, begin, cut, torn, chance)
        return count

    def state(self, cut, policy, grain, percent, seed, torn):
        """The disk has what a cut before this event may leave; nothing is recorded until a record begins. How many writes were volatile.

        `torn` says what becomes of a sector that is kept: 0: it is whole; 1: bytes old and new are mixed, where its write wasn't answered; 2: the
        same of each volatile write; 3: it has any bytes; 4: the same, or can't be read until it is written again, by chance; 5: it has any bytes,
        with the 4,096 around it, which the disk writes together."""
        chance, cut = random.Random(seed), min(cut, self.count())
        self.is_recording, self.pages = False, dict(self.before)
        self.unreadable_ones.clear()
        writes = self.writes_before(cut, chance)
        volatile = sum(not is_durable for _, is_durable in writes)
        one, some, number = chance.randrange(volatile or 1), chance.randrange(volatile + 1), 0
        for write, is_durable in writes:
            if is_durable:
                self.write(write.at, write.count, write.content)
                continue
            is_whole = policy in KEPT and KEPT[policy](number, some, one)
            self.keep(write, is_whole, grain, percent if policy == "subset" else 0, cut, torn, chance)
            number += 1
        return volatile

    # ---- what else a client asks for ----

    def open(self, path):
        """The disk has the file's bytes, which stay as they are, and a record begins."""
        with io.open(path, "rb") as file:
            self.file = mmap.mmap(file.fileno(), self.size, prot=mmap.PROT_READ)
        self.pages = {}
        self.anew()

    def anew(self):
        """A record begins, over what the disk has now, in place of the one before."""
        self.events, self.before, self.is_recording = [], dict(self.pages), True

    def deeper(self):
        """The same, and the one before is kept until `back`."""
        self.kept.append((self.events, self.before))
        self.anew()

    def back(self):
        self.events, self.before = self.kept.pop()

    def stop(self):
        """From now on nothing is recorded, though all is answered: the machine that has the disk loses its power."""
        self.is_recording, self.heard = False, b""

    def gone(self):
        """Whether no client is connected any more."""
        return self.lock.wait_for(lambda: self.clients == 0, 100)

    def delay(self, microseconds):
        """From now on each write and flush is answered after so many microseconds at most."""
        self.most_delay = microseconds

    def count(self):
        return len(self.events)

    def flushes(self):
        """The events that are answers of flushes."""
        return [i for i, it in enumerate(self.events) if it.kind == "answer" and it.of.kind == "flush"]

    def told(self, cut):
        """The last number that was told of each key before that event."""
        lines = (it.of for it in self.events[:cut] if it.kind == "told" and not it.of.startswith("#"))
        return {key: int(value) for key, value in (line.split(" ", 1) for line in lines)}

    def history(self):
        """The other lines, which begin with #."""
        return [it.of for it in self.events if it.kind == "told" and it.of.startswith("#")]

    def only(self, *ends):
        """Sectors are torn in these ranges of bytes alone."""
        self.torn_ranges = ends

    def lie(self, event):
        """A flush that arrives after this event counts for nothing."""
        self.lies_from = event

    def fail(self, kind, skip=0, count=0, mode="kept"):
        """Of the requests of this kind (write, gate, flush, read) that come now, after the first ones, so many are answered by an error. A gate is a
        write that changes one byte alone. Of a failed write the disk has nothing (lost) or the first half (half); after a failed flush it has what it
        had (kept), or has lost its cache (lost). How many had failed since this was asked before."""
        failed, self.fault = self.fault["failed"], {"kind": kind, "skip": skip, "count": count, "mode": mode, "failed": 0}
        return failed

    def save(self, path):
        """What the disk had when the record began, or where nothing is recorded what it has, goes to a file. The sectors that can't be read."""
        pages, self.pages = self.pages, self.before if self.is_recording else self.pages
        with io.open(path, "wb") as file:
            file.truncate(self.size)
            for number in range(self.size // PAGE):
                if (page := self.page(number)) != ZEROS:
                    file.seek(number * PAGE)
                    file.write(page)
        self.pages = pages
        return sorted(self.unreadable_ones)

    def unreadable(self, *sectors):
        """These sectors can't be read until they are written again."""
        self.unreadable_ones.update(sectors)


def obey(disk, door):
    """Calls what the client asks for. The disk ends with it."""
    with door.accept()[0].makefile("rw") as client:
        for line in client:
            name, *words = json.loads(line)
            with disk.lock:
                disk.hear()
                answer = getattr(disk, name)(*words)
            client.write(json.dumps(answer) + "\n")
            client.flush()
    os._exit(0)


# ---- what nbdkit calls ----

asked, disk = {}, None


def thread_model():
    return nbdkit.THREAD_MODEL_PARALLEL


def config(key, value):
    asked[key] = value


def after_fork():
    global disk
    random.seed(asked["seed"])
    disk = Disk(int(asked["size"]), asked["told"])
    door = socket.socket(socket.AF_UNIX)
    door.bind(asked["control"])
    door.listen(1)
    threading.Thread(target=obey, args=(disk, door), daemon=True).start()


def count_client(more):
    with disk.lock:
        disk.clients += more
        disk.lock.notify_all()


def open(readonly):
    count_client(1)
    return 1


def close(handle):
    count_client(-1)


def get_size(handle):
    return disk.size


def block_size(handle):
    return SECTOR, PAGE, 1 << 26


def can_fua(handle):
    return nbdkit.FUA_NATIVE


def pread(handle, buffer, at, flags):
    buffer[:] = disk.take_read(at, len(buffer))


def pwrite(handle, buffer, at, flags):
    disk.take_write(at, len(buffer), bytes(buffer), bool(flags & nbdkit.FLAG_FUA))


def zero(handle, count, at, flags):
    disk.take_write(at, count, None, bool(flags & nbdkit.FLAG_FUA))


trim = zero


def flush(handle, flags):
    disk.take_flush()
