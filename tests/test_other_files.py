"""Words on files that are no images, on block devices, and on what a disk has lost: TRIES times each.

Files: sparse ones of 3 GB, devices, a header that promises more than there is, the schema file by its other names. They are refused, with
why and of which file, in 64 MB of address space and ten seconds, and keep every byte; where there is no file, or an empty one, `format`
and `drive` make an image. A link to an image stays, and what it leads to is replaced. Of an image whose control is damaged each slot is
told.

Block devices, which end where the image does or later: each word prints what it does on a file of these bytes, and changes no byte behind
the image; but for `run` and `set`, and `format` over what isn't zeros, which are refused, name the device, and leave every byte. On zeros
`format` and `drive` make an image in place.

A lost gate: an image in one place whose file reads the header's gate that its disk hasn't, as the system leaves one where a sync has failed: it
is changed beneath an ext4 of blocks of 1,024 bytes. `recover` and `upgrade` write it again, so that the image is whole once the file system was
mounted again; a control without that write loses it. They write no more than their gates, their fields and a control: a sparse file stays sparse.

Lost names: an image whose rename no sync has made durable, as a maker leaves it that was killed before it synced the folder. `recover`,
`upgrade` and `drive` make the name durable: what they have told is at the path after a power cut, which leaves what the disk was given.

What lies on a replaced image's way to `P~`: what a kill of `format` has left there goes; whatever else it is stays, and `format` is a fault.
"""
import contextlib
import fcntl
import os
import shutil
import socket
import stat
import struct
import subprocess
import tempfile
import unittest
from pathlib import Path

from .harness import ALONE, CONTROL_SIZE, CONTROLS, HEAPCTL, InFolder, NO_MOUNTS, OVER, SCHEMA, TOP, WORDS, bytes_of, changed, clear, each, heap_of
from .harness import made_old, mounted, needs_cc, needs_root, refusal, run, tries

OTHER = "object a\nfield x a a 7\n"
# In bytes of address space, and in seconds: what a word may take that has to refuse a file.
LIMITS = {"memory": 64 << 20}
PAGE = 4096


def sparse(beginning):
    def make(image, path):
        with open(path, "wb") as file:
            file.write(image[:beginning])
            file.truncate(3 << 30)

    return make


def bytes_by(content):
    return lambda image, path: path.write_bytes(content(image))


# An image's first bytes, with other lanes than its file has room for.
lying = lambda image, lanes: changed(image, (9, bytes([lanes])))

FILES = {
    "missing": lambda image, path: None,
    "empty": bytes_by(lambda image: b""),
    "text": bytes_by(lambda image: b"notes of mine\n" * 20),
    "one-byte": bytes_by(lambda image: b"M"),
    "name-alone": bytes_by(lambda image: image[:8]),
    "closed-gate": bytes_by(lambda image: changed(image, (8, b"\0"))),
    "zeros": bytes_by(lambda image: bytes(1 << 20)),
    "header-alone": bytes_by(lambda image: image[:64]),
    "half": bytes_by(lambda image: image[: len(image) // 2]),
    "more-lanes": bytes_by(lambda image: lying(image, 32)),
    "no-lanes": bytes_by(lambda image: lying(image, 0)),
    "folder": lambda image, path: path.mkdir(),
    "sparse": sparse(0),
    "sparse-named": sparse(8),
}
# As an image's name and an open gate are there, `format` replaces what began as an image.
MADE = {"format": ("missing", "empty", "header-alone", "half", "more-lanes", "no-lanes"), "drive": ("missing", "empty")}
DEVICES = {"zero": 5, "null": 3, "full": 7, "urandom": 9}


@contextlib.contextmanager
def devices():
    """The system's, which only root can replace; and for the machine's root others like them, in a file system of their own, since a
    program that replaces one is what is looked for. None where that can't be had."""
    if ALONE != "root":
        yield [Path("/dev", name) for name in DEVICES] if os.geteuid() or ALONE else []
        return
    with tempfile.TemporaryDirectory() as own, mounted(own, "-t", "tmpfs", "none"):
        for name, number in DEVICES.items():
            os.mknod(f"{own}/{name}", 0o666 | stat.S_IFCHR, os.makedev(1, number))
        yield [Path(own, name) for name in DEVICES]


def damaged(image):
    """Images whose control is damaged ("Control"), each with what is told of both slots."""
    (a, b), no_control = CONTROLS, "its gate is open, and it holds no control of this layout"
    copied = (b, image[a : a + CONTROL_SIZE])
    reads, lanes = "sequence 1, version 2; it doesn't count: the other slot", "lane t2 start 0 settled 0 logged 0 kept 0"
    same = [f"a: {reads} has the same sequence", f"b: {reads} has the same sequence", f"a: {lanes}", f"b: {lanes}"]
    return [
        (changed(image, (a, b"\0")), ["a: its gate is closed", "b: its gate is closed"]),
        (changed(image, (a + 20, b"\1")), [f"a: {no_control}", "b: its gate is closed"]),
        (changed(image, copied), same),
        (
            changed(image, copied, (b + 15, b"\2\0\0\0\7")),
            [f"a: {reads}'s gate is open, and its sequence isn't smaller", f"a: {lanes}", f"b: {no_control}"],
        ),
    ]


@each(WORDS)
class Files(InFolder):
    def check(self, word, text):
        image = self.made()
        with devices() as found:
            for _ in range(tries(1)):
                for name, make in FILES.items():
                    self.fault(self.fault_of_file(text, image, make, name in MADE.get(word, ())), file=name)
                for path in (*found, self.folder / "none/image"):
                    before = bytes_of(path)
                    ran = self.play(text.replace("{image}", str(path)), OVER, **LIMITS)
                    self.fault(refusal(ran, path, before) or self.litter(), device=path)
                self.count(files=len(FILES) + len(found) + 1)
                for number, (content, told) in enumerate(damaged(image) if word not in MADE else []):
                    self.fault(self.fault_of_damaged(text, content, told), damaged=number)
        if not found:
            self.skipTest(NO_MOUNTS)

    def fault_of_file(self, text, image, make, is_made):
        clear(self.folder)
        self.schema.write_text(SCHEMA)
        make(image, self.image)
        before = bytes_of(self.image)
        ran = self.play(text, OVER, **({} if is_made else LIMITS))
        if is_made:
            # What `format` has replaced is kept.
            return (None if ran.status == 0 and heap_of(self.image) else ran) or self.litter("image~")
        return refusal(ran, self.image, before) or self.litter()

    def fault_of_damaged(self, text, content, told):
        """Such an image is refused, and what can be read of it is told."""
        clear(self.folder)
        self.schema.write_text(SCHEMA)
        self.image.write_bytes(content)
        ran, of = self.play(text, OVER, **LIMITS), f"heapctl: {self.image}:"
        header = f"{of} its header can be read: 2 lanes of 4000 records, 2 objects and 2 fields"
        missing = {header, *(f"{of} control slot {it}" for it in told)} - set(ran.told.splitlines())
        self.count(damaged_images=1)
        return refusal(ran, self.image, content) or missing and f"it doesn't tell {missing}, but {ran.told!r}" or self.litter()


class Links(InFolder):
    KNOWN = {"schema", "image", "there", "image~", "there~"}

    def test_format_over_its_schema(self):
        for name in ("spelling", "hard-link", "link"):
            self.image.unlink(missing_ok=True)
            path = self.image if name != "spelling" else f"{self.folder}/./schema"
            if name == "hard-link":
                os.link(self.schema, path)
            elif name == "link":
                os.symlink("schema", path)
            ran = run(["format", "--image", path, "--schema", self.schema, "--lanes", "2"], **LIMITS)
            self.fault(refusal(ran, self.schema, SCHEMA.encode(), path) or self.litter(), name=name)

    def test_format_over_a_link(self):
        """The link stays, the image behind it is the new one, with the old one's permissions."""
        there = self.folder / "there"
        there.write_bytes(self.made())
        there.chmod(0o640)
        self.image.symlink_to("there")
        self.schema.write_text(OTHER)
        ran = self.play(WORDS["format"])
        self.assertEqual((ran.status, self.image.is_symlink(), heap_of(there)), (0, True, [7]), ran)
        self.assertEqual(there.stat().st_mode & 0o777, 0o640)
        self.assertIsNone(self.litter())


# What may lie at a path, and who makes it there. Of a regular file, and of another name of the image, a kill of `format` may have left it.
PASSING = {
    "fifo": lambda folder, path: os.mkfifo(path),
    "folder": lambda folder, path: path.mkdir(),
    "link": lambda folder, path: path.symlink_to("there"),
    "link-to-nothing": lambda folder, path: path.symlink_to("nothing"),
    "socket": lambda folder, path: socket.socket(socket.AF_UNIX).bind(str(path)),
    "other-file": lambda folder, path: os.link(folder / "there", path),
}
LEFT = {"image": lambda folder, path: os.link(folder / "image", path), "file": lambda folder, path: path.write_bytes(b"an older image")}


class Passing(InFolder):
    KNOWN = {"schema", "image", "image~", "there"}

    def made_there(self, make):
        clear(self.folder)
        self.schema.write_text(SCHEMA)
        self.image.write_bytes(self.made())
        (self.folder / "there").write_bytes(b"somebody's")
        path = self.folder / "image.heapctl-old"
        make(self.folder, path)
        return path

    def test_what_is_somebodys(self):
        for name, make in PASSING.items():
            path = self.made_there(make)
            before = os.lstat(path)
            ran = self.play(WORDS["format"])
            is_left = os.path.lexists(path) and (os.lstat(path).st_mode, os.lstat(path).st_ino) == (before.st_mode, before.st_ino)
            is_told = ran.told.startswith(f"heapctl: fault\nheapctl: {path}: ") and "it stays" in ran.told
            is_so = ran.status == 1 and is_told and is_left and self.image.read_bytes() == self.made()
            self.fault(None if is_so else ran, name=name)
            self.fault(self.litter(path.name), name=name)
            self.count(things_on_the_way_to_what_is_kept=1)

    def test_what_a_kill_has_left(self):
        for name, make in LEFT.items():
            self.made_there(make)
            ran = self.play(WORDS["format"])
            self.fault(None if ran.status == 0 and (self.folder / "image~").read_bytes() == self.made() else ran, name=name)
            self.fault(self.litter(), name=name)


def losetup(*words):
    """The block device that losetup finds; None where none can be had."""
    try:
        ran = subprocess.run(["losetup", "--find", *words], stdin=subprocess.DEVNULL, capture_output=True, text=True, check=False)
    except FileNotFoundError:
        return None
    return ran.stdout.strip() if ran.returncode == 0 else None


needs_loops = unittest.skipUnless(losetup(), "no loop device, or no losetup")
needs_ext4 = unittest.skipUnless(shutil.which("mkfs.ext4"), "no mkfs.ext4 (Debian: e2fsprogs)")


@needs_root
@needs_loops
class Blocks(InFolder):
    def test_an_image_in_one_place(self):
        self.try_blocks("")

    def test_an_image_in_two_places(self):
        self.try_blocks(" --sectors 4096")

    def test_an_image_behind_a_journal(self):
        self.try_blocks(" --atomic-sectors")

    def on_device(self, *texts):
        """What these words did on a block device of the image's bytes, as if on the image, and the bytes then."""
        device = losetup("--show", self.image)
        try:
            ran = [self.play(text.replace("{image}", device), OVER) for text in texts]
        finally:
            subprocess.run(["losetup", "--detach", device], check=True)
        return [each._replace(told=each.told.replace(device, str(self.image))) for each in ran], bytes_of(self.image)

    def try_blocks(self, kind):
        self.put(None)
        self.play(WORDS["format"] + kind)
        made = self.image.read_bytes()
        for more in (0, 5 * PAGE):
            image = made + bytes(-len(made) % PAGE + more)
            for word, text in WORDS.items():
                for _ in range(tries(1)):
                    self.count(words_on_block_devices=1)
                    self.image.write_bytes(image)
                    (ran,), left = self.on_device(text)
                    self.image.write_bytes(image)
                    self.fault(self.fault_of(word, text, ran, left, image), word=word, more=more)

    def fault_of(self, word, text, ran, left, image):
        if word.startswith(("run", "set", "format")):
            lines = ran.told.splitlines()
            is_so = ran.status == 1 and len(lines) == 2 and lines[1].startswith(f"heapctl: {self.image}: it is a block device")
            return None if is_so and left == image else ran
        return None if ran == self.play(text, OVER) and left == bytes_of(self.image) else ran

    def test_a_making_in_place(self):
        for text in (WORDS["format"], WORDS["format"] + " --sectors 4096", WORDS["format"] + " --atomic-sectors", WORDS["drive"]):
            self.put(None)
            self.play(text)
            size = self.image.stat().st_size
            # room for it; too little; and a byte within it, or behind it, that isn't zero
            for room, byte in ((size, None), (size - PAGE, None), (size, size - 1), (size + PAGE, size)):
                zeros = bytearray((room + PAGE - 1) // PAGE * PAGE)
                if byte is not None:
                    zeros[byte] = 1
                self.image.write_bytes(zeros)
                (ran, shown), left = self.on_device(text, WORDS["show"])
                is_made = byte in (None, size) and room >= size
                is_so = ran.status == shown.status == 0 and left[size:] == zeros[size:] if is_made else ran.status == 1 and left == zeros
                self.fault(None if is_so else (ran, shown), text=text, room=room, byte=byte)


FIBMAP, BLOCK, GATE = 1, 1024, 8


@needs_cc
@needs_root
@needs_loops
@needs_ext4
@each({"recover": WORDS["recover"], "upgrade": WORDS["upgrade"]})
class Stale(InFolder):
    def check(self, word, text):
        image = made_old(self.made()) if word == "upgrade" else self.made()
        disk, there, unmended = self.folder / "disk", self.folder / "there", self.folder / "unmended"
        subprocess.run(["cc", "-o", unmended, TOP / "tools/power_cuts/unmended.c"], check=True)
        there.mkdir()
        self.image = there / "image"
        for is_control in (False, True) * tries(1):
            with open(disk, "wb") as file:
                file.truncate(8 << 20)
            subprocess.run(["mkfs.ext4", "-q", "-F", "-b", f"{BLOCK}", disk], check=True)
            with mounted(there, "-o", "loop", disk):
                self.image.write_bytes(image)
                os.sync()
                bytes_of(self.image)
                self.lose(disk)
                ran = run([HEAPCTL, *self.words(text)], program=unmended) if is_control else self.play(text)
                told = heap_of(self.image)
            with mounted(there, "-o", "loop", disk):
                found = heap_of(self.image)
            self.count(disks_that_lost_a_gate=1)
            is_so = ran.status == 0 and told is not None and found == (None if is_control else told)
            self.fault(None if is_so else f"{ran}: the heap was {told}, and is {found} once it was mounted again", is_control=is_control)

    def lose(self, disk):
        """The gate, beneath the file system, so that its cache still has it."""
        with open(self.image, "rb") as file, open(disk, "r+b") as under:
            (there,) = struct.unpack("i", fcntl.ioctl(file, FIBMAP, struct.pack("i", GATE // BLOCK)))
            under.seek(there * BLOCK + GATE % BLOCK)
            under.write(bytes(1))


@each({"recover": WORDS["recover"], "upgrade": WORDS["upgrade"]})
class Sparse(InFolder):
    def check(self, word, text):
        self.put(None)
        self.play(WORDS["format"] + " --capacity 100000")
        sparse = self.folder / "sparse"
        subprocess.run(["cp", "--sparse=always", self.image, sparse], check=True)
        sparse.rename(self.image)
        before = self.image.stat().st_blocks
        ran = self.play(text)
        after, whole = self.image.stat().st_blocks, self.image.stat().st_size // 512
        self.count(sparse_files=1)
        self.fault(None if ran.status == 0 and after - before <= 64 and before < whole // 2 else (ran, before, after, whole))


@needs_root
@needs_loops
@needs_ext4
@each({"recover": WORDS["recover"], "upgrade": WORDS["upgrade"], "drive": "drive --image {image} --rounds 3", "set": WORDS["set"]})
class Names(InFolder):
    def check(self, word, text):
        if word == "drive":
            self.play(text)
        image = bytes_of(self.image) if word == "drive" else made_old(self.made()) if word == "upgrade" else self.made()
        self.put(None)
        disk, cut, there = self.folder / "disk", self.folder / "cut", self.folder / "there"
        there.mkdir()
        self.image = there / "image"
        for number in range(tries(1)):
            with open(disk, "wb") as file:
                file.truncate(8 << 20)
            subprocess.run(["mkfs.ext4", "-q", "-F", disk], check=True)
            # (by itself the file system writes nothing for so many seconds)
            with mounted(there, "-o", "loop,commit=300", disk):
                (there / "made").write_bytes(image)
                os.sync()
                (there / "made").rename(self.image)
                ran, told = self.play(text), heap_of(self.image)
                shutil.copyfile(disk, cut)
            with mounted(there, "-o", "loop", cut):
                found = heap_of(self.image) if self.image.exists() else None
            self.count(power_cuts_after_a_rename=1)
            is_so = ran.status == 0 and found is not None and found == told
            self.fault(None if is_so else f"{ran}: the heap was {told}, and is {found} after the cut", number=number)
