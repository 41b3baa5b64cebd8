"""Two words of `heapctl` on one image at once, TRIES times each two, on an image that a killed run of two workers has left, or on no file.

Whoever comes second while the first has the image is refused with status 3 and `heapctl: image in use`, and has done nothing; those that
come one after the other both do their work. So afterwards the heap is what it was and all that a `drive` with status 0 has told as
acknowledged, or, behind a `format`, what came after it. One pair in five kills the first on its way: what it had told stays, and the image
is never lost. No file is left beside the image, but by a kill.
"""
import itertools
import random
import signal

from .harness import IN_USE, InFolder, WORDS, WORKERS, each, end, heap_of, kill, start, tries

# A section of each lane that stores nothing, so that a run leaves the heap that it found, in another image.
SCRIPT = "t1 enter o1\nt1 exit o1\nt2 enter o2\nt2 exit o2\nlog\nhome\nsettle\nheap\n"
ROUNDS = 2000
TEXTS = {name: WORDS[name] for name in ("drive", "recover", "format", "show", "dump", "get", "run", "upgrade")}
TEXTS["drive"] = f"drive --image {{image}} --rounds {ROUNDS}"
PAIRS = {"-and-".join(names): names for names in itertools.combinations_with_replacement(TEXTS, 2)}


def fault_of(name, ran, is_there, is_killed):
    """What is wrong with how one of the two ended, or None."""
    if ran.status == 0 or is_killed and ran.status == -signal.SIGKILL:
        return None
    if ran.status == IN_USE:
        return None if ran.told.startswith("heapctl: image in use\n") and ran.out == "" else f"{name} is refused by {ran}"
    # Where there was no file, one that makes none may come before the image.
    return None if ran.status == 1 and not is_there and name not in ("drive", "format") else f"{name}: {ran}"


def allowed(names, ended, was):
    """Which heaps the two may leave: in either order, what was told as done is there."""
    drives = sum(ran.status == 0 for name, ran in zip(names, ended) if name == "drive")
    after = lambda heap, times: [heap[0] + 2 * ROUNDS * times, *(own + ROUNDS * times for own in heap[1:])]
    if any(ran.status == 0 for name, ran in zip(names, ended) if name == "format"):
        return [after([0, 0, 0], times) for times in range(min(drives, 1) + 1)]
    return [after(was or [0, 0, 0], drives)]


@each(PAIRS)
class TwoAtOnce(InFolder):
    KNOWN = {"image", "schema", "image~"}

    def check(self, _, names):
        self.schema.write_text(WORKERS)
        left, _ = self.left_by_a_kill()
        refusals, some = 0, tries(6)
        for number in range(some):
            order = names if number % 2 else names[::-1]
            wrong, refused = self.tried(order, left if number % 4 else None, number % 5 == 0)
            refusals += refused
            self.fault(wrong, number=number, order=order)
        self.count(pairs=some, refused=refusals)
        if names == ("drive", "drive"):
            self.assertGreater(refusals, 0, "no two met, so nothing was tested")

    def tried(self, names, left, is_killing):
        """What is wrong with the two at once, or None; and how many were refused."""
        self.put(left)
        was = heap_of(self.image) if left else None
        both = [start(self.words(TEXTS[name]), SCRIPT if name == "run" else "") for name in names]
        ended = [kill(both[0], random.uniform(0, 0.04)) if is_killing else end(both[0]), end(both[1])]
        refused = sum(ran.status == IN_USE for ran in ended)
        faults = [fault_of(name, ran, left, is_killing and ran is ended[0]) for name, ran in zip(names, ended)]
        return next(filter(None, faults), None) or self.fault_of_left(names, ended, was, left, is_killing, refused), refused

    def fault_of_left(self, names, ended, was, left, is_killing, refused):
        if not is_killing and (refused == 2 or self.litter()):
            return self.litter() or "both are refused"
        if not self.image.exists():
            return "the image is gone" if left or any(ran.status == 0 for ran in ended) else None
        heap, may = heap_of(self.image), allowed(names, ended, was)
        if heap is None or heap[0] != sum(heap[1:]):
            return f"the image is lost or torn: {heap}"
        is_less = any(now < then for now, then in zip(heap, may[0]))
        if is_less and "format" not in names if is_killing else heap not in may:
            return f"the heap went from {was} to {heap}, by {ended}"
        return None
