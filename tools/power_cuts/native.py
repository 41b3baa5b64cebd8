"""Machines of tools/power-cuts that are none: programs run under this machine's own kernel, in a root and namespaces of their own.

Their disk is mounted as a file by nbdfuse, and lies behind a loop device. A cut ends the programs, and what the kernel writes from then on is in no
record: what is in its caches is lost, as if the machine had lost its power. The kernel itself goes on, and so does all else that runs.
"""
import glob
import os
import socket
import subprocess

from machines import HERE, SIZE, Guest, Lines, Parts, is_below_a_disk, is_installed, must, must_end, must_run, standing, until

WANTED = ("losetup", "unshare", "busybox", "mkfs.ext4", "cc", "cpio", "nbdkit", "nbdfuse")


def lacking():
    """What a native trial needs and this machine hasn't."""
    lacks = [name for name in WANTED if not is_installed(name)]
    lacks += [] if os.geteuid() == 0 else ["root"]
    return lacks + [path for path in ("/dev/fuse", "/dev/loop-control") if not os.access(path, os.R_OK | os.W_OK)]


def has_system(name):
    """Whether this kernel has the file system."""
    with open("/proc/filesystems", encoding="utf-8") as file:
        return name == "none" or any(line.split()[-1] == name for line in file)


class Programs(Guest):
    """Processes that are taken for a machine."""

    def __init__(self, parts, disk):
        self.disk, self.file = disk, f"{parts.folder}/mounted"
        with open(self.file, "wb"):
            pass
        words = ["nbdfuse", self.file, f"nbd+unix:///?socket={disk.socket}"]
        self.mounted = subprocess.Popen(words, preexec_fn=is_below_a_disk, stderr=subprocess.DEVNULL)
        until(lambda: os.path.getsize(self.file) == SIZE << 20, "the disk isn't mounted")
        self.loop = must_run("losetup", "--find", "--show", "--direct-io=on", self.file).strip()
        self.port, theirs = socket.socketpair()
        words = ["unshare", "--mount", "--pid", "--fork", "--kill-child", f"{HERE}/native", parts.root, self.loop, disk.told_by]
        with theirs:
            self.running = subprocess.Popen(words, stdin=theirs, stdout=theirs)
        self.lines = Lines(self.port)
        try:
            must(self.line(60) == "READY", "programs don't begin")
        except BaseException:
            self.end()
            raise

    def standing(self):
        """The kernel's own tasks that wait for a disk may tell more than the programs."""
        waiting = (it for it in glob.glob("/proc/[0-9]*/task/*") if standing([it]).partition(" ")[2].startswith("D"))
        return f"{super().standing()}; waiting for a disk: {standing(waiting)}"

    def end(self):
        """The loop device ends once the file system is let go of, and the mount with it."""
        try:
            super().end()
        finally:
            must_run("losetup", "--detach", self.loop)
            must_run("umount", "--lazy", self.file)


class NativeParts(Parts):
    """What native trials are made of."""

    def make_machine(self, programs, files):
        self.root, packed = f"{self.folder}/root", f"{self.folder}/initramfs"
        must_run(f"{HERE}/initramfs", packed, "none", *programs, "--", *files)
        os.mkdir(self.root)
        os.mkdir(f"{self.root}.over")
        with open(packed, "rb") as file:
            must_run("cpio", "-idm", "--quiet", stdin=file, cwd=self.root)

    def guest(self, disk, kind, system, memory):
        """Nothing but the disk tells these machines apart."""
        return Programs(self, disk)

    def name(self):
        return f"native, {os.uname().release}"
