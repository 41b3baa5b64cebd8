"""The guests of tools/power-cuts: their disk (cutdisk.py), what they are made of, and a machine whose power can be cut."""
import contextlib
import copy
import ctypes
import glob
import json
import os
import re
import select
import shutil
import signal
import socket
import subprocess
import sys
import sysconfig
import time
from pathlib import Path

HERE = os.path.dirname(os.path.realpath(__file__))
TOP = os.path.dirname(os.path.dirname(HERE))
PROGRAM, BANK, LIBRARY = f"{TOP}/crates/heapctl/out/heapctl", f"{TOP}/crates/bank/out/bank", f"{TOP}/crates/zelamiku/out/host"
PATHS = f"{os.environ.get('PATH', '')}:/usr/sbin:/sbin"
ATTACHED = "if=none,id=disk,cache=none,discard=unmap,werror=report,rerror=report"  # a guest is told of an error
LONGEST = 900  # seconds, in which a command ends: cargo's is the longest
PATIENCE = 120  # seconds, in which the disk answers, and what was killed ends
SIZE = 320  # megabytes of the disk: the least that mkfs.xfs takes
# By its name: the kind that is mounted, and what makes it. Blocks below a page show what a page hides, which is written whole.
SYSTEMS = {
    "ext4": ("ext4", "mkfs.ext4 -q -F -b 1024"),
    "ext4-4k": ("ext4", "mkfs.ext4 -q -F -b 4096"),
    "xfs": ("xfs", "mkfs.xfs -q -f"),
    "xfs-1k": ("xfs", "mkfs.xfs -q -f -b size=1024"),
    "btrfs": ("btrfs", "mkfs.btrfs -q -f"),
    "f2fs": ("f2fs", "mkfs.f2fs -q -f"),
    "none": ("none", "true"),
}
WANTED = {
    "qemu-system-x86_64": "qemu-system-x86",
    "busybox": "busybox-static",
    "mkfs.ext4": "e2fsprogs",
    "cc": "gcc",
    "cpio": "cpio",
    "modprobe": "kmod",
    "nbdkit": "nbdkit-plugin-python",
}
# What a guest's Python takes beside the modules of its program.
TAKEN = "import sys, leases, encodings.ascii, encodings.latin_1\nfor it in sys.modules.values(): print(getattr(it, '__file__', None) or '')"


class Wrong(Exception):
    """What went wrong."""


def must(is_so, text):
    if not is_so:
        raise Wrong(text)


def standing(tasks):
    """Where these tasks stand, folders of /proc: of each its name, its state, and the calls of the kernel that it is in, the last first."""
    found = []
    for task in tasks:
        with contextlib.suppress(OSError):
            name, state = (Path(task, "stat").read_text().rpartition(")")[i] for i in (0, 2))
            calls = re.findall(r"\] (\w+)", Path(task, "stack").read_text())[:4] if os.geteuid() == 0 else []
            found.append(f"{name.partition('(')[2]} {state.split()[0]} {' '.join(calls)}".strip())
    return ", ".join(found)


def below(pid):
    """The tasks of a process, and of those that it has begun."""
    tasks = glob.glob(f"/proc/{pid}/task/*")
    for task in list(tasks):
        with contextlib.suppress(OSError):
            tasks += [it for child in Path(task, "children").read_text().split() for it in below(child)]
    return tasks


def must_run(*words, **how):
    """What a command prints. One that hangs isn't waited for: a process that waits for a disk can't be killed."""
    running = subprocess.Popen(words, stdout=subprocess.PIPE, stderr=subprocess.PIPE, text=True, **how)
    try:
        printed, errors = running.communicate(timeout=LONGEST)
    except subprocess.TimeoutExpired:
        where = standing(below(running.pid))
        running.kill()
        raise Wrong(f"{' '.join(words)} hasn't ended in {LONGEST} s: {where}") from None
    must(running.returncode == 0, f"{words[0]} has failed: {errors[-2000:]}")
    return printed


def until(is_so, wrong):
    end = time.monotonic() + PATIENCE
    while not is_so():
        must(time.monotonic() < end, wrong)
        time.sleep(0.02)


def is_below_a_disk():
    """The memory that this process asks for is never got by writing to the disk that it answers for (PR_SET_IO_FLUSHER, as root)."""
    ctypes.CDLL(None).prctl(57, 1, 0, 0, 0)


def must_end(running, name):
    """Kills a process, and waits until it has ended."""
    running.send_signal(signal.SIGKILL)
    try:
        running.wait(PATIENCE)
    except subprocess.TimeoutExpired:
        raise Wrong(f"{name} hasn't ended, {PATIENCE} s after it was killed: {standing(below(running.pid))}") from None


def kind_of(system):
    return SYSTEMS[system][0]


def maker_of(system):
    return SYSTEMS[system][1].split()


def is_installed(command):
    """`nbdkit` has to have its plug-in for Python."""
    has_plugin = lambda: subprocess.run(["nbdkit", "python", "--dump-plugin"], capture_output=True, check=False).returncode == 0
    return shutil.which(command, path=PATHS) is not None and (command != "nbdkit" or has_plugin())


def kernels():
    """The kernels of /boot that can be read and have modules, the newest last."""
    found = sorted(glob.glob("/boot/vmlinuz-*"), key=lambda path: [int(it) if it.isdigit() else 0 for it in re.split(r"\D+", path)])
    return [path for path in found if os.access(path, os.R_OK) and os.path.isdir(f"/lib/modules/{path.partition('-')[2]}")]


def missing():
    """What isn't installed here that guests can't do without."""
    lacks = [f"{name} (Debian: {package})" for name, package in WANTED.items() if not is_installed(name)]
    return lacks + ([] if kernels() else ["kernel in /boot (Debian: linux-image-amd64)"])


def make_file_system(path, system):
    with open(path, "wb") as file:
        file.truncate(SIZE << 20)
    must_run(*maker_of(system), path, env={**os.environ, "PATH": PATHS})
    return path


def free(path):
    if os.path.exists(path):
        os.unlink(path)
    return path


class Lines:
    """What comes by a descriptor, line by line."""

    def __init__(self, source):
        self.source, self.got = source, b""

    def next(self, seconds):
        """The next line, or None where none has come in so many seconds or none will come any more."""
        until = time.monotonic() + seconds
        while b"\n" not in self.got:
            ready, _, _ = select.select([self.source], [], [], max(0, until - time.monotonic()))
            more = os.read(self.source.fileno(), 65536) if ready else b""
            if not more:
                return None
            self.got += more
        line, _, self.got = self.got.partition(b"\n")
        return line.decode(errors="replace")


class Disk:
    """cutdisk.py below nbdkit. `ask` calls its methods."""

    def __init__(self, folder, seed):
        self.socket, self.told_by, control = free(f"{folder}/disk"), free(f"{folder}/told"), free(f"{folder}/disk.control")
        os.mkfifo(self.told_by)
        words = f"nbdkit --foreground --exit-with-parent --log=null --threads 64 --unix {self.socket} python {HERE}/cutdisk.py".split()
        words += [f"control={control}", f"told={self.told_by}", f"size={SIZE << 20}", f"seed={seed}"]
        self.running = subprocess.Popen(words, preexec_fn=is_below_a_disk)
        self.client = socket.socket(socket.AF_UNIX)
        until(lambda: self.client.connect_ex(control) == 0, "the disk doesn't begin")
        self.client.settimeout(PATIENCE)
        self.lines = self.client.makefile()

    def ask(self, *words):
        self.client.sendall(json.dumps(words).encode() + b"\n")
        with contextlib.suppress(TimeoutError):
            if answer := self.lines.readline():
                return json.loads(answer)
        raise Wrong(f"the disk has ended, or not answered in {PATIENCE} s, at {words}: {self.standing()}")

    def standing(self):
        return standing(below(self.running.pid))

    def end(self):
        must_end(self.running, "the disk")


class Guest:
    """A machine with that disk. It runs the lines that it is sent."""

    def __init__(self, parts, disk, kind, memory, *words):
        self.disk, path = disk, free(f"{parts.folder}/control")
        with socket.socket(socket.AF_UNIX) as door:
            door.bind(path)
            door.listen(1)
            door.settimeout(120)
            self.running = subprocess.Popen([*self.words(parts, kind, memory, path), *words], stdin=subprocess.DEVNULL)
            self.port, _ = door.accept()
        self.lines = Lines(self.port)

    def words(self, parts, kind, memory, control):
        # A second processor, or a newer one, costs more in translation than it gives.
        processor = "-accel kvm -cpu host -smp 2" if parts.has_kvm else "-accel tcg,tb-size=256 -cpu Nehalem -smp 1"
        device = {
            "virtio": "-device virtio-blk-pci,drive=disk",
            "512e": "-device virtio-blk-pci,drive=disk,physical_block_size=4096",
            "scsi": "-device virtio-scsi-pci -device scsi-hd,drive=disk,dpofua=on",
        }
        return [
            *f"qemu-system-x86_64 -M q35 {processor} -m {memory} -nodefaults -no-user-config -display none -no-reboot".split(),
            *["-kernel", parts.kernel, "-initrd", parts.initramfs, "-serial", f"file:{parts.folder}/console"],
            # Programs lie at the same place each time, so that they aren't translated anew.
            *["-append", "console=ttyS0 quiet panic=-1 mitigations=off nokaslr norandmaps no_timer_check cryptomgr.notests"],
            *["-drive", f"file=nbd:unix:{self.disk.socket},format=raw,{ATTACHED}", *device[kind].split()],
            *["-chardev", f"socket,id=c,path={control}", "-chardev", f"file,id=t,path={self.disk.told_by}", "-device", "virtio-serial-pci"],
            *["-device", "virtserialport,chardev=c,name=control", "-device", "virtserialport,chardev=t,name=told"],
        ]

    def line(self, seconds, asked="its start"):
        line = self.lines.next(seconds)
        if line is None:
            raise TimeoutError(f"a machine has ended, or not answered in {seconds} s, at {asked[:300]}: {self.standing()}")
        return line

    def standing(self):
        """What is known of a machine that doesn't answer."""
        return f"{standing(below(self.running.pid))}; the disk: {self.disk.standing()}"

    def send(self, line):
        self.port.sendall(line.encode() + b"\n")

    def run(self, line, seconds=240):
        """The status of the line, and what it prints."""
        self.send(line)
        printed = []
        while not (last := self.line(seconds, line)).startswith("END "):
            printed.append(last)
        return int(last[4:]), printed

    def save(self, monitor, path):
        """Writes the machine as it stands to a file."""
        with socket.socket(socket.AF_UNIX) as asked:
            asked.settimeout(PATIENCE)
            asked.connect(monitor)
            answers = asked.makefile()
            for words in ({"execute": "qmp_capabilities"}, {"execute": "migrate", "arguments": {"uri": f"exec:cat >{path}"}}):
                asked.sendall(json.dumps(words).encode())
            until, status = time.monotonic() + 120, ""
            while status != "completed":
                must(status != "failed" and time.monotonic() < until, "a machine can't be saved")
                time.sleep(0.1)
                asked.sendall(b'{"execute": "query-migrate"}')
                status = next(it for it in map(json.loads, answers) if "status" in it.get("return", {}))["return"]["status"]

    def end(self):
        try:
            must_end(self.running, "a machine")
        finally:
            self.port.close()

    def cut(self):
        """The power fails. What was asked by now has come to the disk."""
        self.disk.ask("stop")
        self.end()
        must(self.disk.ask("gone"), "what was the machine's holds its disk")


class Parts:
    """What guests are made of, in a folder. The programs of `needs` (cargo, python) are among them."""

    def __init__(self, folder, needs, has_kvm):
        is_built = os.path.exists(PROGRAM) and os.path.exists(f"{LIBRARY}/libzelamiku.a")
        must(is_built, "heapctl or the library isn't there: rt ci, then tools/c-library")
        self.folder, self.has_kvm, self.is_doubted = folder, has_kvm, True
        flags = ["-std=gnu11", "-O2", "-Wall", "-Wextra", "-Werror"]
        must_run("cc", *flags, f"{HERE}/unmended.c", "-o", f"{folder}/unmended")
        linked = ["-I", f"{TOP}/bindings/c", f"{LIBRARY}/libzelamiku.a", "-pthread"]
        for name in ("counts", "sections"):
            must_run("cc", *flags, f"{HERE}/{name}.c", *linked, "-Wl,--wrap=pwrite,--wrap=fdatasync", "-o", f"{folder}/{name}")
        programs = [PROGRAM, *(f"{folder}/{name}" for name in ("counts", "sections", "unmended")), *(shutil.which(name, path=PATHS) for name in ("e2fsck", "filefrag"))]
        programs += [self.rust_program()] if "cargo" in needs else []
        programs += [BANK] if "bank" in needs else []
        files = self.python_files() if "python" in needs else []
        self.make_machine(programs, files)

    def make_machine(self, programs, files):
        """What a machine boots from."""
        kernel = kernels()[-1]
        self.kernel, self.initramfs = kernel, f"{self.folder}/initramfs"
        must_run(f"{HERE}/initramfs", self.initramfs, kernel.partition("-")[2], *programs, "--", *files)

    def alone(self, number):
        """The same for a trial that runs beside others, in a folder of its own."""
        own = copy.copy(self)
        own.folder = f"{self.folder}/{number}"
        os.mkdir(own.folder)
        return own

    def name(self):
        """What its machines are."""
        return f"{'KVM' if self.has_kvm else 'TCG'}, {os.path.basename(kernels()[-1])}"

    def disk(self, seed):
        return Disk(self.folder, seed)

    def rust_program(self):
        environment = {**os.environ, "ZELAMIKU_LIBS": LIBRARY, "CARGO_TARGET_DIR": f"{self.folder}/target"}
        must_run("cargo", "build", "--quiet", "--offline", "--release", "--manifest-path", f"{HERE}/Cargo.toml", env=environment)
        return f"{self.folder}/target/release/service"

    def python_files(self):
        """Python, and the modules that leases.py takes, all at the paths that they have here; and the command that runs it."""
        path = f"{HERE}:{TOP}/bindings/python:{TOP}/examples/python/leases"
        variables = {"ZELAMIKU_LIBS": LIBRARY, "PYTHONPATH": path, "PYTHONHOME": sys.base_prefix, "PYTHONDONTWRITEBYTECODE": "1"}
        listed = must_run(sys.executable, "-S", "-c", TAKEN, env={**os.environ, **variables}).split()
        python = os.path.realpath(sys.executable)
        self.leases = f"env {' '.join(f'{name}={value}' for name, value in variables.items())} {python} -S {HERE}/leases.py"
        return sorted({python, f"{LIBRARY}/libzelamiku.so.1", f"{sysconfig.get_path('stdlib')}/os.py", *listed})

    def guest(self, disk, kind, system, memory):
        """A machine that was just switched on. It goes on from one that was saved before it had loaded its disk's driver."""
        words = disk, kind, memory
        saved = f"{self.folder}/machine-{kind}-{memory}"
        for tries_left in (2, 1, 0):
            if not os.path.exists(saved):
                self.save(words, saved, tries_left)
        guest = Guest(self, *words, "-incoming", f"exec:cat {saved}")
        try:
            status, printed = guest.run(f"begin {'scsi' if kind == 'scsi' else 'virtio'} {kind_of(system)}; [ -b /dev/data ]")
            must(status == 0, f"a machine has no disk: {printed}")
        except BaseException:
            guest.end()
            raise
        return guest

    def save(self, words, path, tries_left):
        """Boots a machine and saves it. Where the first doesn't come up under KVM, as in a machine that is a guest itself, none is tried."""
        monitor, may_hang = free(f"{self.folder}/monitor"), self.has_kvm and self.is_doubted
        guest = Guest(self, *words, "-qmp", f"unix:{monitor},server=on,wait=off")
        try:
            guest.line(90 if may_hang else 600)
            guest.save(monitor, path)
            self.is_doubted = False
        except TimeoutError:
            must(tries_left > 0, "a machine doesn't come up")
            self.has_kvm &= not may_hang
        finally:
            guest.cut()
