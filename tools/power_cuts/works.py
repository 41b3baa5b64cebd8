"""What the guests of tools/power-cuts do, and how often they are cut: works, and the runs of each part."""
import dataclasses


def first_is_sum(values):
    return values[0] == sum(values[1:])


def is_all_money(values):
    """Of the accounts of crates/bank."""
    return sum(values) == 800


def is_anything(_):
    return True


@dataclasses.dataclass(frozen=True)
class Work:
    """What a guest does before the record of cuts, while cuts come, and to look afterwards: commands that each print the heap."""

    run: str
    look: tuple
    prepare: str = "true"
    parts: int = 4  # of the total
    least: tuple = ()  # what the heap has at least, where `prepare` makes it
    only_grows: bool = True
    tells: bool = False  # what is durable
    absent: tuple = ("no heap", "not formatted", "No such file")  # what is said where there is no heap yet
    needs: str = ""
    memory: int = 400  # megabytes
    adds_up: object = first_is_sum  # whether the total and the parts, or all values, do
    has_history: bool = False  # each section is told, and a heap has to be that of a closed set of them
    again: str = ""  # after a failure, in the same mount: a program that prints the heap which is durable then


# `try NAME STRIDE COMMAND..`: of the heap that the command prints each STRIDEth value counts.
HEAPCTL = (
    "try show 1 heapctl show --image /mnt/heap",
    "try recover 1 heapctl recover --image /mnt/heap",
    "try again 1 heapctl recover --image /mnt/heap",
)
EMPTY = "dd if=/dev/zero of=/mnt/{} bs=1M count=2 conv=fsync 2>/dev/null"
COUNTS = (
    "try show 520 heapctl show --image /mnt/heap",
    "try look 1 counts look /mnt/heap",
    "try recover 520 heapctl recover --image /mnt/heap",
)
DRIVE = "heapctl drive --workers 8 --image /mnt/heap"
FORMAT = "heapctl format --image /mnt/heap --schema /schema"
RECOVER = "try recover 1 {} heapctl recover --image /mnt/heap"
LOOK = "try look 1 {} counts look /mnt/heap"
HISTORY = (
    "try show 43 heapctl show --image /mnt/heap",
    "try look 1 sections look /mnt/heap",
    "try recover 43 heapctl recover --image /mnt/heap",
)
ONE_SYNC = "ATOMIC_SECTORS=1"
EIGHT, FIVES = (8, *8 * [1]), (40, *8 * [5])
# The schema of a heap of eight workers, with what they have counted.
SCHEMA = f"{DRIVE} --rounds 5 && heapctl dump --image /mnt/heap >/schema"
# Of an image of version 2 without transient fields one of version 1: the last byte of the version, in each slot of the control.
VERSION_1 = "for at in 83 1131; do printf '\\001' | dd of=/mnt/heap bs=1 seek=$at conv=notrunc,fsync 2>/dev/null; done"
UPGRADE = "heapctl upgrade --image /mnt/heap"
# A script that stores a number in two fields, over and over.
PAIR = "printf 'object o0\\nobject o1\\nfield f0 o0 o0 0\\nfield f1 o1 o1 0\\n' >/schema"
SCRIPT = "t1 enter o0\\nt1 store f0 %d\\nt1 enter o1\\nt1 store f1 %d\\nt1 exit o1\\nt1 exit o0\\nlog\\nhome\\nsettle\\n"
PLAY = f"n=0; while :; do n=$((n + 1)); printf '{SCRIPT}' $n $n | heapctl run --image /mnt/heap && echo 1 $n >/dev/told; done"
GET = "try get 1 sh -c \"heapctl get --image /mnt/heap f0 f1 | sed 's/.*=//' | xargs echo heap\""
SET = "n=0; while :; do n=$((n + 1)); heapctl set --image /mnt/heap f0=$n f1=$n && echo 1 $n >/dev/told; done"
# What is left of the disk is a few megabytes, and from time to time nothing.
FEW_LEFT = "fallocate -l $(($(df -k /mnt | awk 'END { print $4 }') - 3000))k /mnt/most"
GET_ROOM = "rm -f /mnt/rest /mnt/most; sync"
FILL = "dd if=/dev/zero of=/mnt/rest bs=16k 2>/dev/null"
SET_FULL = SET.replace("heapctl", f"[ $((n % 2)) = 0 ] || {FILL}; heapctl", 1).replace("done", "rm -f /mnt/rest; done")
DRIVE_FULL = f"while :; do {FILL}; {DRIVE} --rounds 20; rm -f /mnt/rest; {DRIVE} --rounds 20; done"
BANK = "(cd /mnt && while :; do bank; done)"
LEASES = "python leases.py"  # its command is in Parts
WORKS = {
    "drive": Work(f"{DRIVE} --seconds 900", HEAPCTL, f"{DRIVE} --rounds 1", parts=8, least=EIGHT, again=RECOVER),
    "drive, first": Work(f"{DRIVE} --seconds 900", HEAPCTL, parts=8, absent=("No such file",)),
    "format": Work(f"while :; do {FORMAT} --lanes 8; {DRIVE} --rounds 3; done", HEAPCTL, SCHEMA, parts=8, least=FIVES, only_grows=False),
    "two places": Work(
        f"{DRIVE} --seconds 900",
        HEAPCTL,
        f"{SCHEMA} && {FORMAT} --lanes 8 --sectors 4096 --force",
        parts=8,
        least=FIVES,
        again=RECOVER,
    ),
    "upgrade": Work(
        f"while :; do {DRIVE} --rounds 2; {VERSION_1}; {UPGRADE}; done",
        (HEAPCTL[0], f"try upgrade 1 {UPGRADE}; {HEAPCTL[2]}"),
        f"{DRIVE} --rounds 1 && {VERSION_1}",
        parts=8,
        least=EIGHT,
    ),
    "run --image": Work(PLAY, HEAPCTL, f"{PAIR} && {FORMAT}", parts=1, least=(0, 0), tells=True),
    "set": Work(SET, (HEAPCTL[0], GET, *HEAPCTL[1:]), f"{PAIR} && {FORMAT}", parts=1, least=(0, 0), tells=True),
    "set, full": Work(SET_FULL, (f"{GET_ROOM}; {HEAPCTL[0]}", GET, *HEAPCTL[1:]), f"{PAIR} && {FORMAT} && {FEW_LEFT}", parts=1, least=(0, 0), tells=True),
    "drive, full": Work(DRIVE_FULL, (f"{GET_ROOM}; {HEAPCTL[0]}", *HEAPCTL[1:]), f"{DRIVE} --rounds 1 && {FEW_LEFT}", parts=8, least=EIGHT),
    "run_file": Work(
        BANK,
        tuple(it.replace("heap", "accounts.heap").replace("accounts.heapctl", "heapctl") for it in HEAPCTL),
        parts=7,
        only_grows=False,
        adds_up=is_all_money,
        absent=("No such file",),
        needs="bank",
        again=RECOVER.replace("/heap", "/accounts.heap"),
    ),
    "threads, upgrade": Work(
        f"while :; do counts count /mnt/heap & sleep 0.3; kill -9 $!; wait; counts look /mnt/heap; {VERSION_1}; done",
        (COUNTS[0], f"{COUNTS[1]}; {COUNTS[2]}"),
        tells=True,
    ),
    "threads": Work("counts count /mnt/heap", COUNTS, tells=True, again=LOOK),
    "histories": Work(
        "sections run /mnt/heap",
        HISTORY,
        tells=True,
        adds_up=is_anything,
        has_history=True,
        again="try look 1 {} sections look /mnt/heap",
    ),
    "histories, killed": Work(
        "while :; do sections run /mnt/heap & sleep 0.$((RANDOM % 9)); kill -9 $!; wait; done",
        HISTORY,
        tells=True,
        adds_up=is_anything,
        has_history=True,
    ),
    # (their heaps have a journal, for disks that keep sectors whole: others lose something)
    "drive, one sync": Work(
        f"{DRIVE} --seconds 900",
        HEAPCTL,
        f"{SCHEMA} && {FORMAT} --lanes 8 --atomic-sectors --force",
        parts=8,
        least=FIVES,
        again=RECOVER,
    ),
    "format, one sync": Work(f"while :; do {FORMAT} --lanes 8 --atomic-sectors; {DRIVE} --rounds 3; done", HEAPCTL, SCHEMA, parts=8, least=FIVES, only_grows=False),
    "threads, one sync": Work(f"{ONE_SYNC} counts count /mnt/heap", COUNTS, tells=True, again=LOOK),
    "histories, one sync": Work(
        f"while :; do {ONE_SYNC} sections run /mnt/heap & sleep 0.$((RANDOM % 9)); kill -9 $!; wait; done",
        HISTORY,
        tells=True,
        adds_up=is_anything,
        has_history=True,
        again="try look 1 {} sections look /mnt/heap",
    ),
    "64 MB": Work("counts count /mnt/heap 667000", COUNTS, tells=True, memory=900),
    "160 MB": Work("counts count /mnt/heap 1000000 9", COUNTS, tells=True, memory=1900),
    "copy": Work("counts copy /mnt/heap", (*COUNTS, "try copy 1 counts look /mnt/heap.copy"), tells=True),
    "service": Work("service /mnt/heap", COUNTS, tells=True, needs="cargo"),
    "leases": Work(
        f"{LEASES} count /mnt/heap",
        (f"try look 1 {LEASES} look /mnt/heap", f"try again 1 {LEASES} look /mnt/heap"),
        tells=True,
        needs="python",
        memory=640,
    ),
}


@dataclasses.dataclass(frozen=True)
class Run:
    """One record of a work: how many states of it are looked at, how many cuts in recovery there are, and true cuts after its own."""

    work: str
    system: str = "ext4"
    states: int = 0
    in_recovery: int = 0
    true: int = 0
    torn: int = 0
    mount: str = ""
    disk: str = "virtio"
    without: int = 0  # the sync that is left out of each round
    lies: bool = False  # flushes count for nothing
    is_first: bool = False  # the states are those while the heap is made
    failures: int = 0  # of the disk, each with states behind it
    fails: tuple = ("write", "flush", "read")  # or "gate": of a write that changes one byte, which a cache has then and the disk hasn't
    mounts: bool = False  # the file system is mounted again after a failure
    is_unfit: bool = False  # the disk spoils sectors under heaps that have a journal, which has to be seen
    is_unmended: bool = False  # what the opening after a failure writes back is left out, which has to be seen

    def fewer(self, by):
        """The same with so many times fewer of each. What is left out is looked for until it is seen."""
        names = () if self.leaves_out() else ("states", "in_recovery", "true", "failures")
        return dataclasses.replace(self, **{name: -(-getattr(self, name) // by) for name in names})

    def leaves_out(self):
        """Whether something is left out that has to be seen."""
        return bool(self.without or self.lies or self.is_unfit or self.is_unmended)

    def name(self):
        how = ["" if self.system == "none" else self.system, self.mount, "" if self.disk == "virtio" else self.disk]
        how += [self.torn and f"torn {self.torn}", self.without and f"without sync {self.without}", self.lies and "flushes that count for nothing"]
        how += [self.failures and f"{' '.join(self.fails)} failing", self.mounts and "mounted again", self.is_unmended and "nothing written back", self.is_unfit and "unfit"]
        return ", ".join([self.work, *filter(None, how)])


FEW = {
    "program": [Run("drive", states=40, in_recovery=10, true=1)],
    "threads": [Run("histories", states=40, in_recovery=10, true=2), Run("threads, one sync", states=30, in_recovery=10, true=1)],
    "control": [Run("threads", without=2), Run("threads, one sync", torn=3, is_unfit=True)],
}
FEW_NATIVE = {
    "program": [Run("drive", states=60, in_recovery=16, true=3)],
    "threads": [Run("histories", states=70, in_recovery=16, true=3), Run("histories, killed", "xfs", states=50, in_recovery=8, true=2), Run("histories, one sync", states=60, in_recovery=16, true=3)],
    "failures": [Run("drive", failures=6), Run("histories", failures=6), Run("threads", failures=4, fails=("gate",))],
    "control": [Run("threads", without=2), Run("threads, one sync", torn=3, is_unfit=True), *(Run(work, failures=60, fails=("gate",), is_unmended=True) for work in ("drive", "threads"))],
}
WHOLE = {
    "machines": [
        Run("set", "f2fs", states=40),
        Run("drive", "f2fs", states=50, in_recovery=16),
        Run("threads", "f2fs", states=50, in_recovery=16),
        Run("drive", states=60, disk="scsi"),
        Run("threads", states=60, disk="scsi"),
    ],
    "leases": [Run("leases", states=20, true=7)],
    "service": [Run("service", states=120, in_recovery=16, true=24)],
    "failures": [
        Run("run_file", failures=40),
        Run("two places", failures=40, mounts=True, torn=3),
        Run("two places", "xfs", failures=20, mounts=True, torn=3),
        Run("drive", "ext4-4k", failures=20),
        Run("drive", "xfs-1k", failures=40),
        Run("drive", failures=120),
        Run("threads", "xfs-1k", failures=40),
        Run("threads", failures=60),
        Run("histories", failures=120),
        Run("threads, one sync", failures=60),
        Run("drive, one sync", failures=40),
        *(Run(work, failures=30, fails=("gate",)) for work in ("drive", "threads", "histories")),
    ],
    "program": [
        Run("set", states=60),
        Run("set, full", states=40),
        Run("set, full", "xfs", states=40),
        Run("run --image", states=60),
        Run("run_file", states=100, in_recovery=16, true=9),
        Run("upgrade", states=60, in_recovery=16),
        Run("format", states=60, mount="discard"),
        Run("drive, first", states=60, is_first=True),
        Run("drive, full", "btrfs", states=40),
        Run("two places", states=100, in_recovery=32, torn=3),
        Run("two places", states=60, torn=4),
        Run("two places", "xfs", states=60, torn=3),
        Run("two places", "ext4-4k", states=60, torn=5, disk="512e"),
        Run("drive", "ext4-4k", states=60, torn=1),
        Run("drive", states=60, torn=1),
        Run("drive", states=40, torn=2),
        Run("drive", "xfs", states=60, in_recovery=16),
        Run("drive", "btrfs", states=50, in_recovery=16),
        Run("format, one sync", states=60),
        Run("drive, one sync", states=100, in_recovery=32, true=9),
        Run("drive", states=400, in_recovery=64, true=69),
    ],
    "threads": [
        Run("160 MB", states=8),
        Run("64 MB", states=12),
        Run("copy", states=60),
        Run("threads", states=60, is_first=True),
        Run("threads, upgrade", states=100, in_recovery=32),
        Run("threads", states=60, torn=1),
        Run("threads", states=60, torn=2),
        Run("threads", "xfs", states=60, in_recovery=16),
        Run("threads", "btrfs", states=50, in_recovery=16),
        Run("threads", states=40, mount="data=journal"),
        Run("threads", states=40, mount="data=writeback"),
        Run("threads", states=100, in_recovery=32, true=19),
        Run("threads, one sync", states=60, is_first=True),
        Run("threads, one sync", "xfs", states=60, in_recovery=16),
        Run("threads, one sync", states=200, in_recovery=64, true=19),
    ],
    "histories": [
        Run("histories, one sync", "ext4-4k", states=60),
        Run("histories, one sync", states=300, in_recovery=64, true=39),
        Run("histories, killed", states=200, in_recovery=64, true=39),
        Run("histories, killed", "xfs", states=100, in_recovery=16),
        Run("histories, killed", "btrfs", states=60, in_recovery=16),
        Run("histories", states=60, torn=2),
        Run("histories", "ext4-4k", states=60),
        Run("histories", "xfs-1k", states=60),
        Run("histories", states=600, in_recovery=96, true=119),
    ],
    "control": [
        *(Run(work, without=number) for number in (1, 2) for work in ("threads", "histories")),
        *(Run(work, lies=True) for work in ("threads", "histories", "drive", "set")),
        *(Run(work, failures=60, fails=("gate",), is_unmended=True) for work in ("drive", "threads")),
        *(Run(work, torn=3, is_unfit=True) for work in ("drive, one sync", "threads, one sync", "histories, one sync")),
        # (it ends once it is seen, within 60 failures as a rule)
        Run("two places", failures=240, fails=("write",), torn=3, is_unmended=True),
    ],
}
