"""Words of `heapctl` whose calls to the system fail, or that are killed, and what they leave.

Each case is run whole once, and then again and again:

    closed   with each of the seven combinations of standard streams closed, where the next file that is opened has the number of one: it is refused
             before it opens anything (docs/SCRIPTS.md, "The program's fault texts")
    full     on a disk that is full but for each number of pages from none to more than it takes
    malloc   with its first allocation refused, with its second, and so on (by a library that is loaded before)
    call     with each call that opens, locks, sizes, reads, writes, syncs, renames or removes a file failing (by `strace -e inject=`, which counts
             each kind of call of each thread by itself)
    kill     killed at each of these calls
    thread   with each thread refused
    damage   where the image lies in two places or behind a journal: killed at each call while each sector that was written since the file's last
             sync gets other bytes, or for a journal what it had then, or what one of the writes since has left in it

Without TRIES it is the first call, the second, the fourth, the eighth and so on.

Each run ends by itself in time, with status 0 and the whole output or with another status, something told on standard error (but for `--help`) and a
beginning of the output. Where a case has an image, each run begins on a copy of it, and afterwards recovery, or an upgrade where the image began
with version 1, gives one of the heaps that the case allows, and where a run over it has printed anything, the one that it leaves; where workers
were on it, each in which the total is the sum of what they counted each for itself. Beside it no file is left, but by a kill.
"""
import codecs
import itertools
import os
import random
import re
import shutil
import signal
import subprocess
import unittest
from collections import namedtuple

from .harness import HEAPCTL, InFolder, SCHEMA, Ran, bytes_of, each, heap_of, journaled, left_open, made_old, mounted, needs_cc, needs_mounts, placed, run

FILES = "open,openat,flock,lseek,read,write,pread64,pwrite64,fsync,fdatasync,ftruncate,rename,renameat,renameat2,unlink,unlinkat"
THREADS = "clone,clone3"
# By the kind of refusal: what is refused, and how strace is told so.
KINDS = {
    "malloc": ("malloc", None),
    "call": (FILES, "error=EIO"),
    "kill": (FILES, "signal=KILL"),
    "thread": (THREADS, "error=EAGAIN"),
    "damage": (FILES, "signal=KILL"),
}

# Counts the allocations, and refuses the one that is asked for. That it came so far is told by a file.
SHIM = r"""
#include <errno.h>
#include <fcntl.h>
#include <stdlib.h>
#include <unistd.h>

static int is_refused(void) {
    static long made;
    const char *at = getenv("REFUSE_AT");
    if (__sync_add_and_fetch(&made, 1) != (at ? atol(at) : 0)) return 0;
    close(open(getenv("REFUSE_TOLD"), O_CREAT | O_WRONLY, 0600));
    errno = ENOMEM;
    return 1;
}

extern void *__libc_malloc(size_t), *__libc_calloc(size_t, size_t), *__libc_realloc(void *, size_t), *__libc_memalign(size_t, size_t);
void *malloc(size_t size) { return is_refused() ? NULL : __libc_malloc(size); }
void *calloc(size_t count, size_t size) { return is_refused() ? NULL : __libc_calloc(count, size); }
void *realloc(void *old, size_t size) { return is_refused() ? NULL : __libc_realloc(old, size); }
void *aligned_alloc(size_t align, size_t size) { return is_refused() ? NULL : __libc_memalign(align, size); }
int posix_memalign(void **out, size_t align, size_t size) {
    if (is_refused()) return ENOMEM;
    *out = __libc_memalign(align, size);
    return *out ? 0 : ENOMEM;
}
"""

SCRIPT = f"""{SCHEMA}format 2 4000
t1 enter o0
t1 enter o1
t1 store f0 1
t1 exit o0
t2 enter o0
t2 store f0 2
t2 exit o0
t1 exit o1
log
home
settle
trim
t2 enter o1
t2 store f1 3
t2 wait o1
log
crash lost back 1
show
recover
heap
"""
# A section that is acknowledged, and one that isn't: over an image in which recovery gives f1 the value 10.
OVER = "t1 enter o0\nt1 store f0 5\nt1 exit o0\nlog\nhome\nsettle\nt2 enter o1\nt2 store f1 6\nlog\nheap\n"
FORMAT = "format --image {image} --schema {schema} --lanes 2"
DRIVE = "drive --workers 2 --rounds 3"
UNDONE, SET = [10, 10], [5, 10]

# What a power cut may leave of each sector of so many bytes, by what the sector has had since the last sync.
Damage = namedtuple("Damage", "sector left")
OTHER_512, OTHER_4096 = (Damage(sector, lambda had: random.randbytes(len(had[-1]))) for sector in (512, 4096))
WHOLE, TORN = Damage(512, random.choice), Damage(512, lambda had: had[-1][:256] + had[0][256:])

# Words, what is on standard input, with what image it begins, which heaps it may leave (None: no image), which one where anything was
# printed, and what damage the image withstands.
Case = namedtuple("Case", "words stdin image allows told damage", defaults=("", None, None, None, None))


def is_counted(least):
    """The workers' total is the sum of their own counts, and none of these is below what it was."""
    return lambda heap: heap is not None and heap[0] == sum(heap[1:]) and min(heap[1:]) >= least


CLOSED = [which for count in (1, 2, 3) for which in itertools.combinations((0, 1, 2), count)]
PAGE, PAGES = 4096, 128
CASES = {
    "script": Case("", SCRIPT),
    "help": Case("--help"),
    "version": Case("--version"),
    "format": Case(FORMAT, allows=[None, [10, 20]]),
    "format-there": Case(FORMAT, image="driven-there", allows=lambda heap: heap == [10, 20] or is_counted(3)(heap)),
    "show": Case("show --image {image}", image="left-there", allows=[UNDONE]),
    "dot": Case("show --image {image} --dot", image="left-there", allows=[UNDONE]),
    "dump": Case("dump --image {image} --schema {schema}", image="left-there", allows=[UNDONE]),
    "get": Case("get --image {image} f0 f1", image="left-there", allows=[UNDONE]),
    "set-there": Case("set --image {image} f0=5", "", "left-there", [UNDONE, SET], SET),
    "run": Case("run --image {image}", OVER, "left-there", [UNDONE, SET], SET),
    "run-crash": Case("run --image {image} --schema {schema}", f"{OVER}crash lost back 1\nshow\n", "left-there", [UNDONE, SET], SET),
    "recover": Case("recover --image {image}", image="left-there", allows=[UNDONE]),
    "upgrade": Case("upgrade --image {image}", image="old-there", allows=[UNDONE]),
    "drive": Case(DRIVE),
    "drive-new": Case(f"{DRIVE} --image {{image}}", allows=lambda heap: heap is None or is_counted(0)(heap)),
    "drive-there": Case(f"{DRIVE} --image {{image}}", image="driven-there", allows=is_counted(3)),
    "format-placed": Case(f"{FORMAT} --sectors 4096", allows=[None, [10, 20]], damage=OTHER_4096),
    "set-placed": Case("set --image {image} f0=5", "", "left-placed", [UNDONE, SET], SET, OTHER_512),
    "recover-placed": Case("recover --image {image}", image="left-placed", allows=[UNDONE], damage=OTHER_512),
    "upgrade-placed": Case("upgrade --image {image}", image="old-placed", allows=[UNDONE], damage=OTHER_512),
    "drive-placed": Case(f"{DRIVE} --image {{image}}", image="driven-placed", allows=is_counted(3), damage=OTHER_512),
    "format-journaled": Case(f"{FORMAT} --atomic-sectors", allows=[None, [10, 20]], damage=WHOLE),
    "set-journaled": Case("set --image {image} f0=5", "", "left-journaled", [UNDONE, SET], SET, WHOLE),
    "recover-journaled": Case("recover --image {image}", image="left-journaled", allows=[UNDONE], damage=WHOLE),
    "upgrade-journaled": Case("upgrade --image {image}", image="old-journaled", allows=[UNDONE], damage=WHOLE),
    "drive-journaled": Case(f"{DRIVE} --image {{image}}", image="driven-journaled", allows=is_counted(3), damage=WHOLE),
}
# In bytes: the most that one call writes.
WRITTEN = 1 << 21
# They write what is there, so that a fault may leave other bytes.
IN_PLACE = ("recover", "upgrade", "drive-there", "drive-new")


def written(log):
    """What was written, by strace's lines: paths, places and bytes; and of what was synced the path, None and None."""
    begun, at = {}, {}
    for line in log.read_text(errors="replace").splitlines():
        thread, text = line.split(maxsplit=1)
        if text.endswith("<unfinished ...>"):
            begun[thread] = text.removesuffix("<unfinished ...>")
            continue
        text = re.sub(r"^<\.\.\. \w+ resumed>", lambda _: begun.pop(thread, ""), text)
        call = re.match(r"(\w+)\((\d+)<([^>]*)>(.*)\) += (\d+)", text)
        if not call:
            continue
        name, number, path, rest, result = *call.groups()[:4], int(call[5])
        if name == "lseek":
            at[number] = result
        elif name in ("read", "write"):
            if name == "write" and int(number) > 2:
                yield path, at.get(number, 0), bytes_in(rest)[:result]
            at[number] = at.get(number, 0) + result
        elif name == "pwrite64":
            yield path, int(rest.rsplit(", ", 1)[1]), bytes_in(rest)[:result]
        elif name in ("fsync", "fdatasync"):
            yield path, None, None


def bytes_in(text):
    """Those of a call, as strace spells them."""
    return codecs.escape_decode(text[text.index('"') + 1 : text.rindex('"')])[0]


def flying(log, path, before, sector):
    """What each sector of a file has had since its last sync, where it was written since. Before the log it had these bytes."""
    content, found = bytearray(before), {}
    for there, at, piece in written(log):
        if there != path:
            continue
        if piece is None:
            found = {}
            continue
        content.extend(bytes(max(at + len(piece) - len(content), 0)))
        touched = range(at // sector * sector, at + len(piece), sector)
        for begin in touched:
            found.setdefault(begin, [bytes(content[begin : begin + sector])])
        content[at : at + len(piece)] = piece
        for begin in touched:
            found[begin].append(bytes(content[begin : begin + sector]))
    return found


def do_damage(log, before, damage):
    """To each sector of what was flying. Before the log files had these bytes, by their paths."""
    for path in {path for path, *_ in written(log) if os.path.isfile(path)}:
        with open(path, "r+b") as file:
            for at, had in flying(log, path, before.get(path) or b"", damage.sector).items():
                file.seek(at)
                file.write(damage.left(had))


class Faults(InFolder):
    KNOWN = {"schema", "shim.so", "told", "log", "image", "image~", "disk"}

    def image_of(self, name):
        """Those with which cases begin."""
        if name is None:
            return None
        name, where = name.split("-")
        if name == "driven":
            self.put(None)
            self.play(f"{DRIVE} --image {{image}}")
            content = self.image.read_bytes()
        else:
            content = left_open(self.made())
            content = made_old(content) if name == "old" else content
        return {"there": bytes, "placed": placed, "journaled": journaled}[where](content)

    def fault_of_end(self, case, ran, whole):
        if ran.status is None or ran.status < 0:
            return ran
        if ran.status == 0:
            return None if ran.out == whole else "it told success with another output"
        if not ran.told and "help" not in case.words:
            return f"status {ran.status}, and nothing is told"
        return None if whole.startswith(ran.out) else "its output is no beginning of the whole"

    def fault_of_left(self, case, ran):
        if case.allows is None:
            return None
        by = "upgrade" if case.words.startswith("upgrade") else "recover"
        heap = heap_of(self.image, by)
        if not (case.allows(heap) if callable(case.allows) else heap in case.allows):
            return f"{by} gives {heap}" if self.image.exists() else "the image is gone"
        if case.told and ran.out and heap != case.told:
            return f"it printed {ran.out[:40]!r}, and {by} gives {heap}"
        again = heap_of(self.image, "recover") if by == "upgrade" else heap
        return None if again == heap else f"recovery after the upgrade gives {again}"


@each(CASES)
class Closed(Faults):
    def check(self, _, case):
        before = self.image_of(case.image)
        for closed in CLOSED:
            self.put(before)
            ran = self.play(case.words, case.stdin, closed=closed)
            # What it tells goes to standard error, where that is open.
            is_so = ran.status == 1 and ran.out == "" and ran.told.splitlines()[:1] in ([], ["heapctl: fault"])
            wrong = f"{ran}, and the image was changed" if bytes_of(self.image) != before else None if is_so else f"not refused: {ran}"
            self.fault(wrong, closed=closed)
            self.count(runs=1)


@needs_mounts
@each({name: CASES[name] for name in ("format", "format-there", "set-there", "run", "recover", "upgrade", "drive-new", "drive-there")})
class Full(Faults):
    def check(self, name, case):
        before, disk, done = self.image_of(case.image), self.folder / "disk", 0
        disk.mkdir()
        with mounted(disk, "-t", "tmpfs", "-o", f"size={PAGES * PAGE}", "none"):
            self.image = disk / "image"
            for pages in range(36):
                wrong, is_done = self.once(name, case, before, disk, pages)
                self.fault(wrong, pages=pages)
                self.count(runs=1)
                done += is_done
        self.assertGreater(done, 0, "there was never room, so nothing was tested")

    def once(self, name, case, before, disk, pages):
        """What is wrong with a run on a disk with so many free pages, or None; and whether it was done."""
        for path in disk.iterdir():
            path.unlink()
        self.put(before)
        with open(disk / "filler", "wb", buffering=0) as file:
            for _ in range(os.statvfs(disk).f_bavail - pages):
                file.write(bytes(PAGE))
        ran = self.play(case.words, case.stdin)
        (disk / "filler").unlink()
        left = {path.name for path in disk.iterdir()} - {"image", "image~"}
        first, second = (*ran.told.splitlines(), "", "")[:2]
        if left or ran.status == 0:
            return f"{left} is left beside" if left else self.fault_of_left(case, ran), ran.status == 0
        if ran.status != 1 or first != "heapctl: fault" or "No space left" not in second or str(self.image) not in second:
            return ran, False
        if name not in IN_PLACE and bytes_of(self.image) != before:
            return "the image was changed", False
        return self.fault_of_left(case, ran), False


@needs_cc
@unittest.skipUnless(shutil.which("strace"), "no strace (Debian: strace)")
@each(CASES)
class Refused(Faults):
    def setUp(self):
        super().setUp()
        self.shim, self.told, self.log = self.folder / "shim.so", self.folder / "told", self.folder / "log"
        subprocess.run(["cc", "-O1", "-shared", "-fPIC", "-x", "c", "-", "-o", self.shim], input=SHIM.encode(), check=True)

    def check(self, name, case):
        before = self.image_of(case.image)
        self.put(before)
        whole = self.traced(case)
        self.assertEqual(whole.status, 0, whole)
        made = {"malloc", *re.findall(r"^\d+ +(\w+)\(", self.log.read_text(errors="replace"), re.M)}
        for kind, (calls, _) in KINDS.items():
            if kind == "damage" and case.damage is None:
                continue
            runs = 0
            for call in made.intersection(calls.split(",")):
                at = 1
                while (wrong := self.tried(case, kind, call, at, whole.out, before)) is not False:
                    runs += 1
                    self.fault(wrong, kind=kind, call=call, at=at)
                    if not self.was_refused:
                        break
                    at += 1 if "TRIES" in os.environ else at
            self.count(runs=runs)
            self.assertTrue(runs or kind != "call", "no call was refused, so nothing was tested")

    def test_other_damage_loses_an_image(self):
        """What the cases of two places and of a journal are worth."""
        for image, damage in (("left-there", OTHER_512), ("left-journaled", OTHER_512), ("left-journaled", TORN)):
            case, before = Case("recover --image {image}", allows=[UNDONE], damage=damage), self.image_of(image)
            wrong = [self.tried(case, "damage", "fdatasync", at, "", before) for at in range(1, 11)]
            self.assertIn("recover gives None", wrong, (image, damage.sector))

    def test_pages_behind_a_journal_are_written_once(self):
        """Between two syncs, each by one call: else a page cache may leave a sector mixed (docs/FORMAT.md, "A journal in two halves")."""
        for name, case in CASES.items():
            if not name.endswith("-journaled"):
                continue
            self.put(self.image_of(case.image))
            self.assertEqual(self.traced(case, "-s", WRITTEN).status, 0)
            pages, count = {}, 0
            for path, at, piece in written(self.log):
                if piece is None:
                    pages[path] = set()
                elif os.path.basename(path).startswith("image"):
                    touched = set(range(at // PAGE, -(-(at + len(piece)) // PAGE)))
                    self.assertEqual(touched & pages.setdefault(path, set()), set(), (name, path, at, len(piece)))
                    pages[path] |= touched
                    count += len(touched)
            self.assertGreater(count, 0, name)

    def test_an_image_that_is_removed_is_a_fault(self):
        self.put(None)
        allowed = {name for name, case in CASES.items() if case.allows and self.fault_of_left(case, Ran(1, "", "")) is None}
        self.assertEqual(allowed, {"format", "format-placed", "format-journaled", "drive-new"})

    def traced(self, case, *how):
        words = ["-f", "-y", "-qq", "-o", self.log, "-e", f"trace={FILES},{THREADS}", *how, HEAPCTL, *self.words(case.words)]
        return run(words, case.stdin, program="strace")

    def tried(self, case, kind, call, at, whole, before):
        """What is wrong with the run whose call of this name and number is refused; None where it is well, False where there is none."""
        self.put(before)
        self.told.unlink(missing_ok=True)
        if kind == "malloc":
            ran = self.play(case.words, case.stdin, env={"LD_PRELOAD": str(self.shim), "REFUSE_AT": str(at), "REFUSE_TOLD": str(self.told)})
        else:
            ran = self.traced(case, "-s", WRITTEN if kind == "damage" else 32, "-e", f"inject={call}:{KINDS[kind][1]}:when={at}")
        is_killed = ran.status == -signal.SIGKILL and kind in ("kill", "damage")
        self.was_refused = self.told.exists() if kind == "malloc" else is_killed or "(INJECTED)" in self.log.read_text(errors="replace")
        if is_killed and kind == "damage":
            do_damage(self.log, {str(self.image): before}, case.damage)
        wrong = None if is_killed else self.fault_of_end(case, ran, whole)
        if not self.was_refused:
            return wrong or False
        return wrong or not is_killed and self.litter() or self.fault_of_left(case, ran) or None
