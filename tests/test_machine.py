"""`heapctl` over one image, beside a dictionary with sections: fields are set, scripts played in memory and over the image, workers driven,
the image recovered, upgraded and made anew, each also killed by kill -9; after each the image has what the dictionary says, with as many
sections as are told as kept.

TRIES lives of 20 steps are made by SEED; a failure tells the seed and the steps. Where hypothesis is installed it makes lives too, and
makes one that fails smaller.
"""
import random
import re
import shutil
import signal
import tempfile
import unittest
from pathlib import Path

from .harness import COUNTS, SEED, WORKERS, heap_of, kill, lines_by_word, needs_heapctl, run, start, tries

try:
    import hypothesis
    from hypothesis import stateful, strategies
except ImportError:
    hypothesis = None

# Objects and fields have these names without a schema file: o0 is of all, and f0 the total; the others are one worker's each.
OBJECTS, FIELDS = ["o0", "o1", "o2"], ["f0", "f1", "f2"]
LANES = ["t1", "t2"]
NAMED = "\n".join([*(f"object {name}" for name in OBJECTS), *(f"field {field} {name} {name} 0" for field, name in zip(FIELDS, OBJECTS))])
STEPS = 20


class Section:
    def __init__(self, needs):
        self.needs, self.stores, self.has_ended = set(needs), [], False


class Script:
    """Lines of two threads, and what each has to print; `cuts` are the heap and the counts that each `settle` makes durable."""

    def __init__(self, heap):
        self.memory, self.first = list(heap), list(heap)
        self.lines, self.answers = [], []
        self.sections, self.owner, self.releaser = [[], []], {}, {}
        self.order = []
        self.cuts = [(list(heap), [0, 0])]

    def add(self, line, answer):
        self.lines.append(line)
        self.answers.append(answer)

    def held(self, lane):
        return [name for name in OBJECTS if self.owner.get(name, (None,))[0] == lane]

    def step(self, chance):
        lane, place = chance.randrange(2), chance.randrange(3)
        what = chance.choice([self.enter, self.enter, self.store, self.store, self.load, self.exit, self.exit])
        what(LANES[lane], lane, place)

    def enter(self, thread, lane, place):
        name = OBJECTS[place]
        by, times = self.owner.get(name, (lane, 0))
        self.add(f"{thread} enter {name}", "ok" if by == lane else "refused held")
        if by != lane:
            return
        if not self.held(lane):
            section = Section(self.sections[lane][-1:])
            self.sections[lane].append(section)
            self.order.append(section)
        if times == 0 and name in self.releaser:
            self.sections[lane][-1].needs.add(self.releaser[name])
        self.owner[name] = lane, times + 1

    def exit(self, thread, lane, place):
        held = self.held(lane)
        name = held[place % len(held)] if held else OBJECTS[place]
        self.add(f"{thread} exit {name}", "ok" if held else "refused not held")
        if not held:
            return
        section = self.sections[lane][-1]
        if self.owner[name][1] > 1:
            self.owner[name] = lane, self.owner[name][1] - 1
            return
        del self.owner[name]
        self.releaser[name] = section
        section.has_ended = not self.held(lane)

    def store(self, thread, lane, place):
        value = len(self.lines) + 1000
        is_held = OBJECTS[place] in self.held(lane)
        self.add(f"{thread} store {FIELDS[place]} {value}", "ok" if is_held else "refused not held")
        if is_held:
            self.sections[lane][-1].stores.append((len(self.lines), place, value))
            self.memory[place] = value

    def load(self, thread, lane, place):
        is_held = OBJECTS[place] in self.held(lane)
        self.add(f"{thread} load {FIELDS[place]}", f"value {self.memory[place]}" if is_held else "refused not held")

    def log(self):
        self.add("log", r"logged \d+")
        self.add("heap", " ".join(["heap", *map(str, self.memory)]))

    def settle(self):
        """All that has ended, and all that it depends on, with the lines that make it durable."""
        kept = set(self.order)
        while left := {it for it in kept if not it.has_ended or not it.needs - {it} <= kept}:
            kept -= left
        heap = list(self.first)
        for _, place, value in sorted(store for section in kept for store in section.stores):
            heap[place] = value
        counts = [sum(section in kept for section in sections) for sections in self.sections]
        self.cuts.append((heap, counts))
        self.add("log", r"logged \d+")
        self.add("home", r"wrote \d+")
        self.add("settle", f"acknowledged {counts[0]} {counts[1]}")

    @classmethod
    def made(cls, heap, chance):
        it = cls(heap)
        for _ in range(chance.randrange(40)):
            it.step(chance)
            if chance.random() > 0.9:
                chance.choice([it.log, it.settle])()
        if chance.random() < 0.7:
            it.settle()
        return it

    def fault_of(self, printed):
        for line, answer, text in zip(self.lines, self.answers, printed):
            if not re.fullmatch(answer, text):
                return f"{line!r} printed {text!r}, and not {answer!r}"
        return None if len(printed) == len(self.lines) else f"{len(self.lines)} lines printed {len(printed)}"


class Life:
    """An image and what the dictionary says of it: the heap, and the sections of each lane that the next recovery keeps."""

    def __init__(self):
        self.folder = Path(tempfile.mkdtemp())
        self.image, self.schema = self.folder / "image", self.folder / "schema"
        self.schema.write_text(WORKERS)
        self.done = []

    def end(self):
        shutil.rmtree(self.folder)

    def format(self, chance):
        """Made anew, plain, in two places or behind a journal."""
        kind = chance.choice([[], [], ["--sectors", "4096"], ["--atomic-sectors"]])
        words = ["format", "--image", self.image, "--schema", self.schema, "--lanes", "2", *kind]
        assert run(words).status == 0
        self.heap, self.kept = [0, 0, 0], [0, 0]

    def words(self, *words):
        self.done.append(" ".join(words))
        return [*words[:1], "--image", self.image, *words[1:]]

    def reported(self, ran, more=()):
        """The report of a recovery, and the lines behind it."""
        assert ran.status == 0 and ran.told == "", ran
        lines = ran.out.splitlines()
        at = next(number for number, line in enumerate(lines) if line.startswith("heap "))
        kept = [int(word) for word in lines[0].split()[1:]]
        assert lines[0].startswith("kept ") and self.kept in (None, kept), f"{lines[0]}, and not {self.kept}"
        assert lines[at] == "heap {} {} {}".format(*self.heap), f"{lines[at]}, and not {self.heap}"
        return lines[at + 1 :]

    def set(self, chance):
        values = [(chance.randrange(3), chance.choice([0, 1, 2**64 - 1, chance.randrange(1000)])) for _ in range(chance.randint(1, 3))]
        words = self.words("set", *(f"{FIELDS[place]}={value}" for place, value in values))
        new = list(self.heap)
        for place, value in values:
            new[place] = value
        if chance.random() > 0.8:
            self.killed(words, chance, [(new, [1, 0])])
            return
        assert self.reported(run(words))[-1] == "acknowledged 1 0"
        self.heap, self.kept = new, [1, 0]

    def wrong_set(self, chance):
        words = self.words("set", "f0=7", chance.choice(["f9=1", "f1", "f1=18446744073709551616"]))
        assert run(words).status == 2

    def script(self, chance):
        """In memory, and then a crash."""
        script = Script.made([0, 0, 0], chance)
        fill = chance.choice(["lost", "kept", "5a"])
        self.done.append(f"run, in memory: {'; '.join(script.lines)}; crash {fill}")
        text = "\n".join([NAMED, "format 2 4000", *script.lines, f"crash {fill}", "recover", ""])
        ran = run(["run"], text)
        assert ran.status == 0 and ran.told == "", ran
        lines = ran.out.splitlines()
        count = len(script.lines)
        assert (wrong := script.fault_of(lines[1 : count + 1])) is None, wrong
        heap, kept = script.cuts[-1]
        assert lines[count + 1 : count + 3] == ["crashed", f"kept {kept[0]} {kept[1]}"], lines
        assert lines[-1] == f"heap {heap[0]} {heap[1]} {heap[2]}", f"{lines[-1]}, and not {heap}"

    def run(self, chance):
        """A script over the image, which stops or crashes at its end or before it."""
        script = Script.made(self.heap, chance)
        crash = chance.choice([None, "crash lost", "crash kept", "crash 5a", f"crash lost back {chance.randrange(30)}"])
        text = "\n".join([*script.lines, *([crash] if crash else []), ""])
        words = self.words("run")
        self.done[-1] += f": {text.replace(chr(10), '; ')}"
        is_back = crash is not None and "back" in crash
        # A crash that goes back leaves the cut of some settle, or what recovery found.
        may = script.cuts if is_back else script.cuts[-1:]
        if chance.random() > 0.8:
            self.killed(words, chance, may, text)
            return
        lines = self.reported(run(words, text))
        assert (wrong := script.fault_of(lines[: len(script.lines)])) is None, wrong
        if crash is not None:
            assert lines[-1] == "crashed" or is_back and lines[-1] == "refused back", lines[-1]
        self.be_one_of(may, is_back)

    def drive(self, chance):
        rounds = chance.randint(1, 3000)
        words = self.words("drive", "--rounds", str(rounds))
        grown = [(rounds + rounds) % 2**64, rounds, rounds]
        most = 2**64 - 1
        if any(value + more > most for value, more in zip(self.heap, grown)):
            self.set_small()
        new = [value + more for value, more in zip(self.heap, grown)]
        if chance.random() > 0.5:
            ended = kill(start(words), chance.uniform(0, 0.15))
            assert ended.status in (0, -signal.SIGKILL), ended
            self.grown_by_workers(new)
            return
        ran = lines_by_word(run(words))
        assert ran == {"acknowledged": [rounds, rounds], "heap": new}, f"{ran}, and not {new}"
        self.heap, self.kept = new, [0, 0]

    def set_small(self):
        assert run(["set", "--image", self.image, "f0=0", "f1=0", "f2=0"]).status == 0
        self.heap, self.kept = [0, 0, 0], [1, 0]

    def grown_by_workers(self, new):
        """After a kill: each has the sections that are kept, none after its end, and what was there where it hadn't begun."""
        shown = lines_by_word(run(["show", "--image", self.image]))
        assert shown is not None, "the image is lost"
        heap, cut = shown["heap"], shown["cut"]
        by = [now - then for now, then in zip(heap, self.heap)]
        is_old, is_whole = heap == self.heap and cut in (self.kept, [0, 0]), heap == new and cut == [0, 0]
        assert is_old or is_whole or by == [sum(cut), *cut], f"from {self.heap} to {heap}, and {cut} are kept"
        self.heap, self.kept = heap, cut

    def recover(self, chance):
        words = self.words(chance.choice(["recover", "upgrade"]))
        if chance.random() > 0.7:
            self.killed(words, chance, [(self.heap, [0, 0])])
            return
        assert self.reported(run(words)) == []
        self.kept = [0, 0]

    def remake(self, chance):
        self.done.append("format")
        self.format(chance)

    def killed(self, words, chance, may, text=""):
        """Run, and killed within 20 ms: the image is as it was, or as one of these."""
        self.done[-1] += " (killed)"
        ended = kill(start(words, text), chance.uniform(0, 0.02))
        assert ended.status in (0, -signal.SIGKILL), ended
        self.be_one_of([(self.heap, self.kept), *may] if ended.status else may, True)

    def be_one_of(self, may, is_any_cut=False):
        shown = lines_by_word(run(["show", "--image", self.image]))
        assert shown is not None, "the image is lost"
        heap, cut = shown["heap"], shown["cut"]
        assert any(heap == of and (cut == kept or is_any_cut) for of, kept in may), f"{heap} with {cut} kept, and not of {may}"
        self.heap, self.kept = heap, cut

    def check(self):
        assert heap_of(self.image) == self.heap, f"{heap_of(self.image)}, and not {self.heap}"
        ran = run(["get", "--image", self.image, *FIELDS])
        assert ran.out == "".join(f"{name}={value}\n" for name, value in zip(FIELDS, self.heap)), ran
        left = {path.name for path in self.folder.iterdir()} - {"image", "image~", "schema", "image.heapctl-new"}
        assert not left, left

    RULES = (set, set, wrong_set, script, run, run, run, drive, drive, recover, remake)


@needs_heapctl
class Machine(unittest.TestCase):
    def test_the_image_is_what_the_dictionary_says(self):
        for number in range(tries(5)):
            chance, life = random.Random(f"{SEED} {number}"), Life()
            try:
                life.format(chance)
                for _ in range(STEPS):
                    chance.choice(Life.RULES)(life, chance)
                    life.check()
                    COUNTS["machine"].update({"steps": 1})
            except AssertionError as wrong:
                self.fail(f"seed {SEED}, life {number}, after {life.done}: {wrong}")
            finally:
                life.end()

    @unittest.skipUnless(hypothesis, "no hypothesis (Debian: python3-hypothesis)")
    def test_hypothesis_finds_no_other_image(self):
        settings = {"max_examples": tries(5), "stateful_step_count": STEPS, "deadline": None, "database": None, "print_blob": False}
        check = hypothesis.HealthCheck
        suppressed = [check.too_slow, check.data_too_large, check.large_base_example, check.filter_too_much]
        stateful.run_state_machine_as_test(machine(), settings=hypothesis.settings(suppress_health_check=suppressed, **settings))


def machine():
    """The rules as hypothesis plays them."""

    class HeapctlMachine(stateful.RuleBasedStateMachine):
        def __init__(self):
            super().__init__()
            self.life = Life()
            self.life.format(random.Random(0))

        @stateful.invariant()
        def is_what_the_dictionary_says(self):
            self.life.check()
            COUNTS["machine"].update({"steps by hypothesis": 1})

        def teardown(self):
            self.life.end()

    chances = strategies.randoms(use_true_random=False)
    for rule in dict.fromkeys(Life.RULES):
        played = lambda self, chance, rule=rule: rule(self.life, chance)
        played.__name__ = rule.__name__
        setattr(HeapctlMachine, rule.__name__, stateful.rule(chance=chances)(played))
    return HeapctlMachine
