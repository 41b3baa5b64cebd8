"""What judges runs can refuse: made-up lives, each of which a judge must refuse, beside others that it must pass.

Histories (tools/power_cuts/history.py) are judged for each subset of the sections of a life. Two or three threads take monitors in an order that
a seed chooses. A heap must pass exactly where its sections are a closed set: the first ones of each thread, and of each monitor those that took it
first. The other judges are those of tools/power-cuts (trials.py), of the examples that are killed (test_examples.py), and of lives beside a model
(test_machine.py).
"""
import itertools
import random
import sys
import unittest
from unittest import mock

from . import test_machine
from .harness import COUNTS, TOP, Ran
from .test_examples import Held, Jobs, Totals, Transfers
from .test_machine import Life, Script

sys.path.insert(0, f"{TOP}/tools/power_cuts")
import history  # noqa: E402
import trials  # noqa: E402
from works import WORKS  # noqa: E402

FOUND = "found 0 put 2 done 1"
# By judge: lives that pass, and lives whose last line is wrong.
LIVES = {
    Totals: (
        [["total 0 = 0 + 0 + 0 + 0", "acknowledged 3", "acknowledged 3", "total 5 = 1 + 2 + 1 + 1"]],
        [
            ["total 5 = 1 + 2 + 1 + 2"],
            ["total 0 = 0 + 0 + 0 + 0", "acknowledged 3", "acknowledged 2"],
            ["total 2 = 2 + 0 + 0 + 0", "acknowledged 3", "total 4 = 4 + 0 + 0 + 0"],
            ["total 2 = 2 + 0 + 0 + 0", "total 1 = 1 + 0 + 0 + 0"],
            ["total 1"],
        ],
    ),
    Transfers: (
        [["found 0 0", "acknowledged 1 2", "acknowledged 0 1", "found 1 3"]],
        [
            ["found 0 0", "acknowledged 1 2", "found 7 1"],
            ["found 0 0", "acknowledged 1 2", "acknowledged 1 2"],
            ["found 0 0", "acknowledged 1 2", "acknowledged 1 1"],
            ["acknowledged 1"],
        ],
    ),
    Jobs: (
        [[FOUND, "put 0 3", "done 0 2", "found 0 put 3 done 2", "done 0 3"]],
        [
            [FOUND, "put 0 4"],
            [FOUND, "put 0 2"],
            [FOUND, "done 0 1"],
            [FOUND, "done 0 2", "done 0 2"],
            [FOUND, "done 0 2", "found 0 put 2 done 1"],
            [FOUND, "put 0 3", "found 0 put 2 done 1"],
            ["found 0 put 1 done 2"],
            ["put 0"],
        ],
    ),
}
# What a look at a heap of four counters has printed, what was told before, and why it is wrong. What it has at least, and must be, is a Known.
GOOD = ["show 0 10 1 2 3 4", "look 0 10 1 2 3 4", "recover 0 10 1 2 3 4"]
LOOKS = [
    (GOOD, trials.Known({"3": 3}, floor=(10, 1, 2), same=(10, 1, 2, 3, 4)), ""),
    (["no heap"], trials.Known({}, is_made=False), ""),
    (GOOD, trials.Known({"3": 4}), "which was told"),
    (GOOD, trials.Known({}, floor=(0, 2)), "which is durable"),
    (GOOD, trials.Known({}, same=(10, 1, 2, 4, 3)), "as at the first recovery"),
    ([*GOOD[:2], "recover 0 10 2 1 3 4"], trials.Known({}), "looks differ"),
    ([it.replace(" 10 ", " 11 ") for it in GOOD], trials.Known({}), "the sum"),
    ([*GOOD[:2], "recover 2"], trials.Known({}), "it is refused"),
    (GOOD[:1], trials.Known({}), "it is refused"),
    ([], trials.Known({}), "it is refused"),
    (["no heap"], trials.Known({}), "it is refused"),
    (["no heap"], trials.Known({"1": 1}, is_made=False), "it is refused"),
    ([*GOOD, "copy 0 9 1 2 3 3"], trials.Known({"copy4": 4}), "the copy"),
    ([*GOOD, "copy 1"], trials.Known({"copy4": 4}), "the copy"),
]


def is_refused(judge, life):
    """Whether the judge refuses the life's last line, and nothing before."""
    for line in life[:-1]:
        judge.hear(line)
    try:
        judge.hear(life[-1])
    except AssertionError:
        return True
    return False


def made(chance, threads, monitors=2):
    """A life's lines, its first heap and its sections. The heap has the total, a counter of each thread, and a value of each monitor."""
    base = [0] + [chance.randrange(3) for _ in range(threads)] + [chance.randrange(9) for _ in range(monitors)]
    takes, lines, sections = [0] * (monitors + threads), ["#life 1 " + " ".join(map(str, base))], []
    counts = base[1 : 1 + threads]
    for _ in range(5):
        thread, inside = chance.randrange(threads), chance.sample(range(monitors), chance.randint(1, monitors))
        counts[thread] += 1
        # (the last monitors are one thread's each, and guard its counter)
        stores = [(monitors + thread, 1 + thread, counts[thread])]
        stores += [(monitor, 1 + threads + monitor, chance.randrange(10, 1000)) for monitor in inside]
        for monitor, _, _ in stores:
            takes[monitor] += 1
        steps = [f"{monitor}:{takes[monitor]}" for monitor, _, _ in stores] + [f"{monitor}.{place}={value}" for monitor, place, value in stores]
        lines.append(f"#section 1 {thread + 1} {counts[thread]} {' '.join(steps)}")
        sections.append((thread, set(inside), stores))
    return lines, base, sections


def is_closed(sections, kept):
    """Whether no section that is left out comes before a kept one of its thread, or of one of its monitors."""
    return not any(
        sections[before][0] == sections[at][0] or sections[before][1] & sections[at][1] for at in kept for before in range(at) if before not in kept
    )


def heap_of(base, sections, kept):
    found = list(base)
    for at in kept:
        for _, place, value in sections[at][2]:
            found[place] = value
    return found


class Judges(unittest.TestCase):
    def refused(self, by, is_right, wrong):
        """Counts what a judge has refused, which has to be all of it."""
        self.assertTrue(is_right, wrong)
        COUNTS["judges"][f"lives refused by {by}"] += 1

    def test_examples(self):
        for judge, (passed, wrong) in LIVES.items():
            for life in passed:
                self.assertFalse(is_refused(judge(), life), life)
            for life in wrong:
                self.refused("examples", is_refused(judge(), life), (judge, life))
        jobs = Jobs()
        jobs.hear(FOUND)
        with self.assertRaises(AssertionError, msg="a job that was put is never done"):
            jobs.sum()

    def test_looks_of_power_cuts(self):
        for printed, known, why in LOOKS:
            found = trials.judge(WORKS["threads"], printed, known).wrong
            if not why:
                self.assertEqual(found, "", printed)
            else:
                self.refused("power cuts", why in found, (printed, known, why, found))

    def test_leases(self):
        # Leases that were acquired before, and one that mustn't be: its name, holder, token, and the last token before it was asked for.
        for name, holder, token, floor in (("a", 2, 2, 1), ("b", 2, 1, 0), ("b", 2, 2, 2)):
            held = Held()
            held.acquired("a", 1, 1, 0)
            with self.assertRaises(AssertionError):
                held.acquired(name, holder, token, floor)
            self.refused("leases", True, "")
        # Answers of a server to a client that acquires, renews so often and releases: status, token, and whether the request was cut off before.
        one = (200, {"token": 1}, False)
        for renewals, answers, is_right in (
            (1, [(409, {}, False)], True),
            (1, [one, one, (404, {}, True)], True),
            (0, [(500, {}, False)], False),
            (1, [one, (404, {}, False)], False),
            (1, [one, (200, {"token": 2}, False)], False),
            (0, [one, (404, {}, False)], False),
        ):
            left = list(answers)
            if is_right:
                Held().turn(lambda *_: left.pop(0), "a", 1, renewals)
                continue
            with self.assertRaises(AssertionError):
                Held().turn(lambda *_: left.pop(0), "a", 1, renewals)
            self.refused("leases", True, "")
        Held().found("it has 1 leases", 1)
        for line in ("it has 0 leases", "no port"):
            with self.assertRaises(AssertionError):
                Held().found(line, 1)
            self.refused("leases", True, "")

    def test_machines(self):
        script, printed = Script([0, 0, 0]), ["logged 3", "ok"]
        script.add("log", r"logged \d+")
        script.add("t1 enter o0", "ok")
        self.assertIsNone(script.fault_of(printed))
        for wrong in (["logged 3", "refused held"], ["logged", "ok"], printed[:1], [*printed, "ok"]):
            self.refused("machines", script.fault_of(wrong), wrong)
        life = Life.__new__(Life)
        life.heap, life.kept = [5, 6, 7], [1, 2]
        self.assertEqual(life.reported(Ran(0, "kept 1 2\nlane 0\nheap 5 6 7\nacknowledged 1 0\n", "")), ["acknowledged 1 0"])
        for wrong in (
            Ran(1, "kept 1 2\nheap 5 6 7\n", ""),
            Ran(0, "kept 1 2\nheap 5 6 7\n", "a fault"),
            Ran(0, "kept 1 1\nheap 5 6 7\n", ""),
            Ran(0, "kept 1 2\nheap 5 6 8\n", ""),
            Ran(0, "lane 0\nheap 5 6 7\n", ""),
        ):
            with self.assertRaises(AssertionError, msg=wrong):
                life.reported(wrong)
            self.refused("machines", True, wrong)

    def test_machines_that_were_killed(self):
        def looks_right(judge, heap, cut, *known):
            life = Life.__new__(Life)
            life.image, life.heap, life.kept = "image", [5, 0, 5], [0, 1]
            shown = {"heap": heap, "cut": cut} if heap else None
            with mock.patch.multiple(test_machine, run=mock.DEFAULT, lines_by_word=lambda _: shown):
                try:
                    judge(life, *known)
                except AssertionError:
                    return False
            return True

        # Of what may be there, and of two workers of which each was to count three more.
        may, new = [([6, 1, 5], [1, 1])], [11, 3, 8]
        for heap, cut, is_one, has_grown in (
            ([6, 1, 5], [1, 1], True, False),
            ([6, 1, 5], [1, 0], False, True),
            ([7, 1, 5], [1, 0], False, False),
            ([6, 1, 5], [0, 1], False, False),
            ([5, 0, 5], [0, 1], False, True),
            (new, [0, 0], False, True),
            (new, [1, 0], False, False),
            (None, None, False, False),
        ):
            for judge, is_right, known in ((Life.be_one_of, is_one, may), (Life.grown_by_workers, has_grown, new)):
                found = looks_right(judge, heap, cut, known)
                if is_right:
                    self.assertTrue(found, (judge, heap, cut))
                else:
                    self.refused("machines", not found, (judge, heap, cut))

    def test_histories(self):
        passed = 0
        for seed in range(40):
            chance = random.Random(seed)
            threads = chance.choice([2, 3])
            lines, base, sections = made(chance, threads)
            lives, numbers = history.lives_of(lines), range(len(sections))
            subsets = [kept for size in range(len(sections) + 1) for kept in itertools.combinations(numbers, size)]
            closed = {tuple(heap_of(base, sections, kept)) for kept in subsets if is_closed(sections, set(kept))}
            whole = heap_of(base, sections, numbers)
            others = [[*whole[:at], value, *whole[at + 1 :]] for at in range(1, len(base)) for value in (whole[at] + 1, whole[at] - 1, base[at] - 1)]
            for heap in [*(heap_of(base, sections, kept) for kept in subsets), *others]:
                why = history.what_is_wrong(lives, heap, threads)
                if tuple(heap) in closed:
                    self.assertEqual(why, "", (seed, heap))
                    passed += 1
                else:
                    self.refused("histories", why, (seed, heap))
        self.refused("histories", history.what_is_wrong([], [0, 0, 0], 2), "no life was told")
        self.assertGreater(passed, 40)


if __name__ == "__main__":
    unittest.main()
