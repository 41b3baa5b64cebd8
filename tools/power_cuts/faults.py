"""A disk that fails, and programs that go on with what it has left (tools/power-cuts).

Some writes or flushes fail while a program works; or they, or reads, while the heap is opened again. Then nothing fails any more, and in the same
mount the heap is opened, and used. No cut in this loses what was told before, and from the opening's answer on the heap that it has told stays.
"""
import re
import time

from trials import Known, Trial, Verdict, is_over, tries_of

STATES = 4  # while the heap is opened after a failure, and so many later
PATIENCE = 40  # times 0.05 seconds, in which a program whose disk has failed ends
WAIT = f"n=0; while grep -q '^State:.[RSD]' /proc/$!/status 2>/dev/null && [ $n -lt {PATIENCE} ]; do sleep 0.05; n=$((n + 1)); done"
# What the system says of a file system that has failed: it is to be mounted again.
FAILED = ("Input/output error", "Read-only file system", "Structure needs cleaning", "Transport endpoint", "Stale file handle")


class FaultTrial(Trial):
    """A trial each of whose records has a failure of the disk."""

    def try_all(self):
        self.prepare()
        self.guest.run("umount /mnt")
        self.end = base = self.disk.ask("count")
        if self.run.torn > 2:
            self.tear_the_image_alone()
        # A failure that was asked for may never come.
        for _ in range(2 * self.run.failures):
            if is_over():
                return
            self.disk.ask("state", base, "kept", 0, 0, 1, 0)
            self.disk.ask("deeper")
            self.try_failure()
            self.disk.ask("back")
            if self.counts["failures"] == self.run.failures or (self.counts["wrong"] and self.run.leaves_out()):
                return

    def try_failure(self):
        """One failure, and cuts behind it."""
        self.switched_on().run(self.mount())
        self.disk.ask("delay", 300)
        self.begin()
        if self.work.tells:
            self.await_told()
        time.sleep(self.chance.uniform(0.05, 0.4))
        if not self.fail_once() and self.run.leaves_out():
            self.unmount()
            return
        self.opened = self.disk.ask("count")
        promised, printed = self.open_again()
        self.recovered = self.disk.ask("count")
        if self.chance.random() < 0.6:
            self.begin()
            time.sleep(self.chance.uniform(0.05, 0.4))
            self.guest.run("end_programs")
        self.end = self.disk.ask("count")
        self.lines = []
        self.take_lines()
        self.unmount()
        if not promised:
            self.note_refused("; ".join(printed))
        self.try_behind(promised)

    def unmount(self):
        if self.guest.run("umount /mnt")[0] != 0:
            self.cut()
        self.disk.ask("delay", 0)

    def fail_once(self):
        """Some requests of one kind fail, under the work or under the opening after it. Whether one has come."""
        kind = self.chance.choice(self.run.fails)
        is_later = kind == "read" or self.chance.random() < 0.25
        if is_later:
            # So that reads come to the disk.
            self.guest.run(f"end_programs; umount /mnt; {self.mount()}")
        self.disk.ask("fail", kind, *(self.chance.choice(it) for it in ((0, 0, 1, 2, 3, 5, 8, 13), (1, 1, 1, 2, 5, 999), self.modes(kind))))
        self.guest.run(self.again() if is_later else f"{WAIT}; end_programs")
        has_failed = self.disk.ask("fail", "none") > 0
        self.counts["failures"] += has_failed
        return has_failed

    def modes(self, kind):
        return {"write": ("lost", "half"), "gate": ("lost",), "flush": ("kept", "lost"), "read": ("lost",)}[kind]

    def again(self):
        return self.work.again.format("unmended" if self.run.is_unmended else "")

    def open_again(self):
        """The heap that the next opening tells, or () where it is refused, and what it prints. A file system that has failed is mounted again."""
        anew = f"umount /mnt; {self.mount()}"
        printed = tries_of(self.guest.run(f"{anew}; {self.again()}" if self.run.mounts else self.again())[1])
        if any(it in line for line in printed for it in FAILED):
            printed = tries_of(self.guest.run(f"{anew}; {self.again()}")[1])
        told = next((line.split() for line in printed if re.match(r"(recover|look) 0 ", line)), [])
        return tuple(map(int, told[2:])), printed

    def note_refused(self, text):
        """Where there is a heap, no failure that is over makes its opening refuse it."""
        known = Known(self.disk.ask("told", self.opened))
        if self.is_made or known.told:
            self.note("states", Verdict(f"refused after a failure: {text}"), known, "the opening", state=(self.end, "kept", 0, 0, 1, 0))

    def try_behind(self, promised):
        """Looks at states of cuts from the failure's end on, the first with what is durable alone."""
        floor, cuts = (), [self.opened]
        # What an opening hasn't written back is mostly lost by a cut in it.
        for begin, end, number in ((self.opened, self.recovered, STATES * (1 + self.run.is_unmended)), (self.recovered, self.end, STATES)):
            if begin < end:
                cuts += [end, *self.moments(number - 1, begin, end, [it for it in self.disk.ask("flushes") if begin < it <= end])]
        for i, cut in enumerate(cuts):
            policy = ("lost", 0, 0, 1, 0) if i == 0 else self.policy()
            self.counts["volatile"] += self.disk.ask("state", cut, *policy) > 0
            has_told = promised and cut >= self.recovered
            told = self.disk.ask("told", cut)
            least = tuple(map(max, floor, promised[: self.work.parts + 1])) if has_told and floor else floor
            known = Known(told, self.is_made or bool(told), least, promised if has_told and cut == self.recovered else ())
            verdict = self.try_look("states", known, f"cut {cut} of {self.opened}, {self.recovered}, {self.end}, {policy}", state=(cut, *policy))
            if i == 0 and self.work.only_grows:
                floor = verdict.heap[: self.work.parts + 1]
