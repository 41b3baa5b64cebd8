"""A run of tools/power-cuts: the record of one, the states that a cut may have left, cuts in recovery, and true cuts."""
import dataclasses
import json
import math
import os
import random
import re
import time

import history
import machines
from machines import TOP, Wrong, must, must_run
from works import LEASES, WORKS

KEPT = f"{TOP}/out/power-cuts"  # the first wrong state of each run, in a folder
# Seconds, in which a work has told or written something, also where the machine is slow or loses its processors for a while; and how many writes
# and flushes a record has at least.
PATIENCE, RECORDED = 400, 20
ends_at = math.inf  # when no further state is looked at; tools/power-cuts sets it


@dataclasses.dataclass
class Known:
    """What is known of a state before it is looked at: what was told by then, whether there is a heap, what it has at least, and has to be."""

    told: dict
    is_made: bool = True
    floor: tuple = ()
    same: tuple = ()


@dataclasses.dataclass
class Verdict:
    """What a look has found: the heap, that there was none yet, or no file system to mount; and what is wrong, or ''."""

    wrong: str = ""
    heap: tuple = ()
    is_absent: bool = False
    is_unmounted: bool = False


def what_is_wrong_with_copy(work, status, values, told, text):
    """A copy has at least what was told of the last one that ended, and there may be none before the first."""
    least = [told.get(f"copy{i}", 0) for i in range(1, work.parts + 1)]
    has_all = status == 0 and all(value >= it for value, it in zip(values[1:], least))
    may_lack = not any(least) and any(it in text for it in work.absent)
    return [] if has_all or may_lack else [f"the copy, of which {least} was told"]


def tries_of(printed):
    """Each `try` of a guest as a line: its name, its status, and each STRIDEth value of the last line `heap`; and whatever else is printed."""
    found, name, stride, heap = [], "", 1, []
    for line in printed:
        first, *words = line.split() or [""]
        if first == "TRY":
            name, stride, heap = words[0], int(words[1]), []
        elif first == "TRIED":
            found.append(" ".join([name, words[0], *heap]))
        elif first == "heap":
            heap = words[::stride]
        elif first not in ("section", "depends", "lane"):
            found.append(line)
    return found


def judge(work, printed, known):
    """The verdict of what a look has printed. Machines that mount nothing have tried nothing."""
    told, floor, same = known.told, known.floor, known.same
    text = "; ".join(printed)[-1500:]
    if "NO MOUNT" in printed:
        return Verdict(is_unmounted=True)
    tries = [it.split() for it in printed if re.match(r"(show|look|recover|again|upgrade|copy|get) \d+[ \d]*$", it)]
    heaps = {words[0]: (int(words[1]), tuple(map(int, words[2:]))) for words in tries}
    wrong = what_is_wrong_with_copy(work, *heaps.pop("copy"), told, text) if "copy" in heaps else []
    least = [max(it, told.get(str(i), 0)) for i, it in enumerate([*work.least, *[0] * (work.parts + 1 - len(work.least))])]
    has_failed = len(heaps) < 2 or any(status for status, _ in heaps.values())
    if has_failed and not known.is_made and not any(least) and any(it in text for it in work.absent):
        return Verdict("; ".join(wrong), is_absent=True)
    values = {values for _, values in heaps.values()}
    heap = max(values, default=())
    checks = {
        "it is refused": has_failed,
        "looks differ": len(values) != 1,
        "the sum": not heap or not work.adds_up(heap[: work.parts + 1]),
        f"less than {least}, which was told": any(value < it for value, it in zip(heap, least)),
        f"less than {floor}, which is durable": any(value < it for value, it in zip(heap, floor)),
        f"not {same}, as at the first recovery": bool(same) and heap != same,
    }
    wrong += [name for name, is_so in checks.items() if is_so]
    return Verdict(f"{', '.join(wrong)}: {text}" if wrong else "", heap)


def is_over():
    """Whether the time is over in which states are looked at."""
    return time.monotonic() > ends_at


class Trial:
    """A run: its record, and the states of that."""

    def __init__(self, parts, run, seed):
        self.parts, self.run, self.work, self.guest = parts, run, WORKS[run.work], None
        self.chance = random.Random(f"{seed} {run.name()}")
        self.disk = parts.disk(self.chance.getrandbits(30))
        self.counts = dict.fromkeys(("states", "volatile", "in recovery", "true", "failures", "wrong", "absent", "unmounted"), 0)
        self.is_made, self.first_wrong, self.lines = bool(self.work.least), "", []
        self.tells_at = time.monotonic() + 60

    def command(self, text):
        return text.replace(LEASES, getattr(self.parts, "leases", ""))

    def mount(self):
        """The command that mounts the disk. What only e2fsck mends is mounted after it."""
        system = machines.kind_of(self.run.system)
        if system == "none":
            return "true"
        mount = f"mount -t {system} {'-o ' + self.run.mount if self.run.mount else ''} /dev/data /mnt"
        mend = f"{{ e2fsck -fy /dev/data >/mended; {mount}; }} || " if system == "ext4" else ""
        return f"{mount} || {mend}echo NO MOUNT"

    def switched_on(self):
        if self.guest is None:
            self.guest = self.parts.guest(self.disk, self.run.disk, self.run.system, self.work.memory)
        return self.guest

    def cut(self):
        guest, self.guest = self.guest, None
        guest.cut()

    def begin(self):
        left_out = f"WITHOUT_SYNC={self.run.without} " if self.run.without else ""
        self.guest.run(f"{left_out}{self.command(self.work.run)} >/run.txt 2>&1 &")

    def await_told(self):
        self.until(lambda: self.disk.ask("told", None).keys() - {"made"}, "nothing is told")

    def until(self, is_so, text):
        until = time.monotonic() + PATIENCE
        while not is_so():
            if time.monotonic() > until:
                raise Wrong(f"in {PATIENCE} s {text}: {self.guest.run('cat /run.txt; dmesg | tail -3')[1]}")
            time.sleep(0.1)

    def prepare(self):
        """Makes the file system, and what the work needs on it. A record begins."""
        self.disk.ask("open", machines.make_file_system(f"{self.parts.folder}/base", self.run.system))
        guest = self.switched_on()
        self.disk.ask("delay", 300)
        self.disk.ask("anew")
        status, printed = guest.run(f"{self.mount()}; {self.command(self.work.prepare)} && sync")
        must(status == 0 and "NO MOUNT" not in printed, f"the guest can't begin: {printed}")

    def take_lines(self):
        """The accounts of sections that this record has, after those of the ones before."""
        if self.work.has_history:
            self.lines += self.disk.ask("history")
            self.lives = history.lives_of(self.lines)

    def record(self, seconds):
        """Lets the work run, and cuts the power."""
        self.prepare()
        self.start = self.disk.ask("count")
        self.begin()
        if self.work.tells:
            self.await_told()
        time.sleep(seconds * self.chance.uniform(0.7, 1.3))
        self.until(lambda: self.disk.ask("count") > self.start + RECORDED, "little is written")
        self.cut()
        self.disk.ask("delay", 0)
        self.end = self.disk.ask("count")
        self.flushes = [it for it in self.disk.ask("flushes") if it > self.start]
        self.take_lines()

    def policy(self):
        """What a cut keeps of the volatile writes, in the words of cutdisk.py."""
        name = self.chance.choice(["lost", "kept", "prefix", "one", "butone", *7 * ["subset"]])
        grain, percent = self.chance.choice([0, 512, 512, 4096]), self.chance.choice([10, 30, 50, 50, 70, 90])
        return name, grain, percent, self.chance.getrandbits(40), self.run.torn

    def moments(self, number, start, end, flushes):
        """Moments of cuts, in order: one in three anywhere, the others about the answer of a flush, mostly before it."""

        def moment(i):
            if i % 3 == 0 or not flushes:
                return self.chance.randint(start + 1, end)
            return min(end, max(start + 1, self.chance.choice(flushes) + self.chance.choice([-4, -2, -1, -1, 0, 0, 0, 1, 2])))

        return sorted(map(moment, range(number)))

    def looks(self, is_reversed=False):
        tries = self.work.look[:1] + (self.work.look[:0:-1] if is_reversed else self.work.look[1:])
        return "; ".join([self.mount(), *map(self.command, tries)])

    def look(self, is_reversed=False, stays=False):
        """What a machine prints that mounts and recovers what the disk has. One that hangs is told of, and cut, once."""
        end, hangs = "true" if stays or self.run.system == "none" else "umount /mnt", ""
        for _ in range(2):
            try:
                self.switched_on()
                return self.printed(is_reversed, end)
            except TimeoutError as error:
                hangs = f"the guest hangs: {error}"
                print(f"{self.run.name()}: {hangs}", flush=True)
                self.cut_if_on()
        return [hangs]

    def cut_if_on(self):
        if self.guest is not None:
            self.cut()

    def printed(self, is_reversed, end):
        return tries_of(self.guest.run(f"{self.looks(is_reversed)}; {end}")[1])

    def begin_look(self):
        """A look that a cut may meet."""
        self.guest.send(self.looks())

    def judged(self, printed, known):
        verdict = judge(self.work, printed, known)
        if self.work.has_history and verdict.heap and not verdict.wrong:
            verdict.wrong = history.what_is_wrong(self.lives, verdict.heap, self.work.parts)
        return verdict

    def try_look(self, kind, known, where, is_reversed=False, state=()):
        """Looks at what the disk has, and counts the verdict. `state` makes that again where no record began with it."""
        verdict = self.judged(self.look(is_reversed), known)
        self.note(kind, verdict, known, where, is_reversed, state)
        return verdict

    def note(self, kind, verdict, known, where, is_reversed=False, state=()):
        self.counts[kind] += 1
        self.counts["absent"] += verdict.is_absent
        self.counts["unmounted"] += verdict.is_unmounted
        self.counts["wrong"] += bool(verdict.wrong)
        self.tell_progress()
        if verdict.wrong and not self.first_wrong:
            self.first_wrong = f"{where}: {verdict.wrong}"
            if not self.run.leaves_out():
                self.first_wrong = f"{self.keep(known, where, is_reversed, state)}: {self.first_wrong}"

    def tell_progress(self):
        """Tells once a minute how far a run has come, so that a slow one isn't taken for one that hangs."""
        if time.monotonic() >= self.tells_at:
            self.tells_at = time.monotonic() + 60
            print(f"{self.run.name()}: so far {', '.join(f'{count} {name}' for name, count in self.counts.items() if count)}", flush=True)

    def keep(self, known, where, is_reversed, state):
        """Keeps the state that the last look has found wrong: the disk, and what is known of it. Where it lies."""
        folder, disk = f"{KEPT}/{re.sub('[^a-z0-9]+', '-', self.run.name().lower())}", f"{self.parts.folder}/kept"
        if state:
            self.disk.ask("state", *state)
        kept = {"run": dataclasses.asdict(self.run), "known": dataclasses.asdict(known), "where": where, "is_reversed": is_reversed}
        kept |= {"unreadable": self.disk.ask("save", disk), "lines": self.lines, "wrong": self.first_wrong}
        os.makedirs(folder, exist_ok=True)
        must_run("cp", "--sparse=always", disk, f"{folder}/disk")
        with open(f"{folder}/state.json", "w", encoding="utf-8") as file:
            json.dump(kept, file, indent=1)
        return f"kept in {os.path.relpath(folder, TOP)}"

    def again(self, folder, kept):
        """The verdict of a state that was kept."""
        known = Known(**kept["known"])
        known.floor, known.same = tuple(known.floor), tuple(known.same)
        self.lives = history.lives_of(kept["lines"])
        self.disk.ask("open", f"{folder}/disk")
        self.disk.ask("unreadable", *kept["unreadable"])
        return self.judged(self.look(kept["is_reversed"]), known)

    def tear_the_image_alone(self):
        """Where sectors lose all bytes those of the file system stay, which isn't made for that."""
        self.disk.ask("state", self.end, "kept", 0, 0, 1, 0)
        printed = self.switched_on().run(f"{self.mount()}; filefrag -b1024 -v /mnt/heap; umount /mnt")[1]
        ranges = [re.match(r"\s*\d+:\s*\d+\.\.\s*\d+:\s*(\d+)\.\.\s*(\d+):", it) for it in printed]
        ends = [end for it in ranges if it for end in (int(it[1]) * 1024, int(it[2]) * 1024 + 1024)]
        must(ends, f"filefrag: {printed}")
        self.disk.ask("only", *ends)

    def end_of_making(self):
        """Until when the heap is made, and a little longer."""
        told = (it for it in self.flushes if self.disk.ask("told", it).keys() - {"made"})
        return next(told, self.end) if self.work.tells else min(self.end, self.start + 200)

    def try_states(self, number, stops=False):
        """Looks at so many states of the record. With `stops` only until one is wrong."""
        self.disk.ask("lie", self.start if self.run.lies else math.inf)
        if self.run.torn > 2 and self.run.system != "none":
            self.tear_the_image_alone()
        end = self.end_of_making() if self.run.is_first else self.end
        moments, floor = self.moments(number, self.start, end, [it for it in self.flushes if it <= end]), ()
        if stops:
            self.chance.shuffle(moments)
        for i, cut in enumerate(moments):
            if is_over():
                return
            policy, told = self.policy(), self.disk.ask("told", cut)
            self.counts["volatile"] += self.disk.ask("state", cut, *policy) > 0
            known = Known(told, self.is_made or bool(told or floor), floor)
            verdict = self.try_look("states", known, f"cut {cut}, {policy}", i % 2 == 1, (cut, *policy))
            if stops and verdict.wrong:
                return
            if policy[0] == "lost" and verdict.heap and self.work.only_grows and not stops:
                floor = verdict.heap[: self.work.parts + 1]

    def try_in_recovery(self, number):
        """Cuts in the mount and the recovery of states, eight of each."""
        for i, cut in enumerate(self.moments((number + 7) // 8, self.start, self.end, self.flushes)):
            if is_over():
                return
            told = self.disk.ask("told", cut)
            self.switched_on()
            self.disk.ask("state", cut, *self.policy())
            self.disk.ask("deeper")
            known = Known(told, self.is_made or bool(told))
            first = self.judged(self.look(i % 2 == 1), known)
            end, flushes = self.disk.ask("count"), self.disk.ask("flushes")
            if not first.heap or first.wrong:
                self.note("in recovery", first, known, f"cut {cut}, the first recovery", i % 2 == 1)
                end = 0
            for again in self.moments(min(8, number - 8 * i) if end > 0 else 0, 0, end, flushes):
                policy = self.policy()
                self.disk.ask("state", again, *policy)
                self.try_look("in recovery", Known(told, same=first.heap), f"cut {cut}, then {again} in recovery, {policy}", state=(again, *policy))
            self.disk.ask("back")

    def leave(self, told):
        """The disk has what the cut leaves, and `told` what was told by then."""
        end = self.disk.ask("count")
        told.update({key: max(value, told.get(key, 0)) for key, value in self.disk.ask("told", end).items()})
        self.take_lines()
        self.disk.ask("state", end, *self.policy())

    def try_true_cuts(self, number):
        """The record's own cut, and so many more of the disk that it leaves, one in three of them in mount and recovery."""
        self.cut_if_on()
        told, floor = self.disk.ask("told", self.end), ()
        self.disk.ask("state", self.end, *self.policy())
        for i in range(number + 1):
            if is_over():
                break
            self.disk.ask("anew")
            self.switched_on()
            self.disk.ask("delay", 300)
            if 0 < i < number and self.chance.random() < 0.35:
                self.counts["true"] += 1
                self.begin_look()
                time.sleep(self.chance.uniform(0, 1))
            else:
                known = Known(told, self.is_made or bool(told or floor), floor)
                verdict = self.judged(self.look(stays=True), known)
                self.note("true", verdict, known, f"true cut {i}")
                must(self.guest is not None and not verdict.is_unmounted, "the machine of a true cut hangs, or mounts nothing")
                floor = verdict.heap[: self.work.parts + 1] if self.work.only_grows else ()
                self.begin()
                time.sleep(self.chance.uniform(0.3, 2.5))
            self.cut()
            self.leave(told)
        self.disk.ask("delay", 0)

    def try_all(self):
        """Looks at the states of the run, cuts its recoveries, and cuts its power."""
        self.record(3 if self.run.is_first else 6)
        self.try_states(self.run.states)
        self.try_in_recovery(self.run.in_recovery)
        if self.run.true:
            self.try_true_cuts(self.run.true)

    def end_all(self):
        try:
            if self.guest is not None:
                self.guest.end()
        finally:
            self.disk.end()
