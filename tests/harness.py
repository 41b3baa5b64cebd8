"""What the cases share: the built programs and runs of them, a folder with an image, kills, refusals, and what is counted.

A case tries more often where TRIES says so. HEAPCTL names another program to try, and TMPDIR the folder whose disk the images lie on. A
case that can't run here is skipped and says why.
"""
import collections
import contextlib
import os
import random
import resource
import shutil
import signal
import struct
import subprocess
import sys
import tempfile
import unittest
from pathlib import Path

sys.dont_write_bytecode = True
TOP = Path(__file__).resolve().parent.parent
HEAPCTL = os.environ.get("HEAPCTL", f"{TOP}/crates/heapctl/out/heapctl")
# "root" or "user" in a namespace of mounts of its own, which tools/tests makes.
ALONE = os.environ.get("TESTS_ALONE")
SEED = int(os.environ.get("SEED", random.randrange(2**32)))

SCHEMA = "object o0\nobject o1\nfield f0 o0 o0 10\nfield f1 o1 o1 20\n"
# That of two workers (docs/SCRIPTS.md, "Workers").
WORKERS = "object all\nfield total all all 0\nobject w0\nfield own0 w0 w0 0\nobject w1\nfield own1 w1 w1 0\n"
# The words that have an image, with what they need. `run` plays OVER.
WORDS = {
    "format": "format --image {image} --schema {schema} --lanes 2",
    "drive": "drive --image {image} --rounds 5",
    "run": "run --image {image}",
    "run-names": "run --image {image} --schema {schema}",
    "recover": "recover --image {image}",
    "upgrade": "upgrade --image {image}",
    "show": "show --image {image}",
    "dot": "show --image {image} --dot --schema {schema}",
    "dump": "dump --image {image}",
    "get": "get --image {image} f0",
    "set": "set --image {image} f0=11",
}
OVER = "t1 enter o0\nt1 store f0 11\nt1 exit o0\nlog\nhome\nsettle\n"
IN_USE = 3
# Seconds, in which what doesn't hang has ended. A machine may be slow, or lose its processors for a while.
WITHIN = 240

# What the cases have counted, by part.
COUNTS = collections.defaultdict(collections.Counter)

needs_heapctl = unittest.skipUnless(os.path.exists(HEAPCTL), "no crates/heapctl/out/heapctl (`rt ci` or `rt run` makes it)")
NO_MOUNTS = "no namespace of mounts (tools/tests makes one, where `unshare` may)"
needs_mounts = unittest.skipUnless(ALONE, NO_MOUNTS)
needs_root = unittest.skipUnless(ALONE == "root", "no root in a namespace of mounts (tools/tests makes one)")
needs_cc = unittest.skipUnless(shutil.which("cc"), "no cc")


def tries(some):
    """How often a case tries, `some` where TRIES says nothing."""
    return int(os.environ.get("TRIES", some))


Ran = collections.namedtuple("Ran", "status out told")
"""How a run ended (None: not in time; below 0: by that signal), what it printed, and what it told on standard error."""


def start(words, stdin="", program=None, memory=None, file_size=None, closed=(), out=subprocess.PIPE, env=None):
    """Starts the program with limits in bytes, and without the descriptors that are `closed`."""

    def prepare():
        resource.setrlimit(resource.RLIMIT_CORE, (0, 0))
        if memory is not None:
            resource.setrlimit(resource.RLIMIT_AS, (memory, memory))
        if file_size is not None:
            signal.signal(signal.SIGXFSZ, signal.SIG_IGN)
            resource.setrlimit(resource.RLIMIT_FSIZE, (file_size, file_size))
        for number in closed:
            os.close(number)

    with tempfile.TemporaryFile() as given:
        given.write(stdin.encode())
        given.seek(0)
        how = {"stdin": given, "stdout": out, "stderr": subprocess.PIPE, "env": env and {**os.environ, **env}}
        return subprocess.Popen([program or HEAPCTL, *map(str, words)], preexec_fn=prepare, **how)


def end(running, within=WITHIN):
    """Waits for it, and kills it where it doesn't end in time."""
    try:
        out, told = running.communicate(timeout=within)
    except subprocess.TimeoutExpired:
        running.kill()
        running.communicate()
        return Ran(None, "", f"it didn't end in {within} s")
    return Ran(running.returncode, (out or b"").decode(errors="surrogateescape"), told.decode(errors="replace"))


def run(words, stdin="", within=WITHIN, **how):
    return end(start(words, stdin, **how), within)


def kill(running, after):
    """Kills it after so many seconds, by kill -9. It is well if it has ended before, by itself and well."""
    try:
        running.wait(after)
    except subprocess.TimeoutExpired:
        running.kill()
    return end(running)


def lines_by_word(ran):
    """What a word has printed, by each line's first word, as numbers where it printed numbers; None where it was refused."""
    numbers = lambda words: [int(word) if word.isdecimal() else word for word in words]
    return {line.split()[0]: numbers(line.split()[1:]) for line in ran.out.splitlines()} if ran.status == 0 else None


def heap_of(image, by="show"):
    """The heap that this word gives, or None where the image is refused."""
    return (lines_by_word(run([by, "--image", image])) or {}).get("heap")


def bytes_of(path):
    """None where there is no file; of a device, a link to nothing, or a file too big to be read here, what it is."""
    try:
        found = os.lstat(path)
    except OSError:
        return None
    if not os.path.isfile(path) or os.path.getsize(path) > 1 << 24:
        return (found.st_mode, found.st_ino, found.st_size, found.st_blocks)
    return Path(path).read_bytes()


def clear(folder):
    for path in Path(folder).iterdir():
        shutil.rmtree(path) if path.is_dir() and not path.is_symlink() else path.unlink()


# Images, by docs/FORMAT.md.

CONTROLS, CONTROL_SIZE, OPEN = (64, 1_112), 1_048, 0xA5
ACQ, PUT = 1, 4


def changed(image, *changes):
    """The image with other bytes at each place of the changes."""
    content = bytearray(image)
    for at, there in changes:
        content[at : at + len(there)] = there
    return bytes(content)


def made_old(image):
    """With controls of version 1, as a release without transient fields left it."""
    return changed(image, *((at + 16, struct.pack(">I", 1)) for at in CONTROLS if image[at] == OPEN))


def left_open(image):
    """One of SCHEMA in which the second lane has taken an object and stored to its field, whose value was 10, and no more: its row in the
    first slot, and two records in its area."""
    records = struct.pack(">B3xIQ", ACQ, 1, 0) + struct.pack(">B3xIQ", PUT, 1, 10)
    return changed(image, (120, struct.pack(">4Q", 0, 0, 2, 0)), (66_208, records))


def placed(image, sector=512):
    """In two places on sectors of so many bytes ("Sectors in two places"), the first one's turn."""
    count = -(-len(image) // sector)
    label = b"MONI%04d" % sector + struct.pack(">Q", count)
    return label.ljust(2 * sector, b"\0") + image.ljust(count * sector, b"\0") + bytes(count * sector)


def journaled(image, half=1):
    """Behind a journal with halves of so many pages of 4,096 bytes ("A journal in two halves"), as making it leaves it."""
    count = -(-len(image) // 4096)
    label, batch = b"MONIHALF" + struct.pack(">QQ", half, count), struct.pack(">QQ", 2, 0).ljust(512, b"\0") * 8
    return label.ljust(4096, b"\0") + batch.ljust(2 * half * 4096, b"\0") + image.ljust(count * 4096, b"\0")


@needs_heapctl
class InFolder(unittest.TestCase):
    """A case with a folder of its own, whose `image` and `schema` the words of `play` name by {image} and {schema}."""

    # What may lie in the folder at a case's end, beside what it says is kept.
    KNOWN = {"image", "schema"}

    def setUp(self):
        folder = tempfile.TemporaryDirectory()
        self.addCleanup(folder.cleanup)
        self.folder = Path(folder.name)
        self.image, self.schema = self.folder / "image", self.folder / "schema"
        self.schema.write_text(SCHEMA)

    def words(self, text):
        return [word.format(image=self.image, schema=self.schema, folder=self.folder) for word in text.split()]

    def play(self, text, stdin="", **how):
        return run(self.words(text), stdin, **how)

    def put(self, content):
        """Puts this in the image's place, or nothing where it is None, and nothing beside it."""
        for path in self.folder.glob("image*"):
            path.unlink()
        if content is not None:
            self.image.write_bytes(content)

    def made(self, schema=SCHEMA):
        """An image of this schema; it leaves no file."""
        with tempfile.TemporaryDirectory() as folder:
            Path(folder, "schema").write_text(schema)
            ran = run(["format", "--image", f"{folder}/image", "--schema", f"{folder}/schema", "--lanes", "2"])
            self.assertEqual(ran.status, 0, ran)
            return Path(folder, "image").read_bytes()

    def left_by_a_kill(self):
        """An image that a killed run of two workers has left in the midst of its work, and its heap."""
        with tempfile.TemporaryDirectory() as folder:
            image = Path(folder, "image")
            for number in range(300):
                # Later and later, on a slow machine for many rounds too.
                ended = kill(start(["drive", "--image", image, "--rounds", "10000"]), random.uniform(0.005, 0.03) * (number % 100 + 1))
                heap = heap_of(image) if ended.status == -signal.SIGKILL and image.exists() else None
                if heap and heap[0] > 0:
                    return image.read_bytes(), heap
                image.unlink(missing_ok=True)
        self.fail("no kill met two workers at work")

    def count(self, **counts):
        """Adds to the figures of this part."""
        COUNTS[type(self).__module__.removeprefix("tests.test_")].update({name.replace("_", " "): count for name, count in counts.items()})

    def fault(self, wrong, **where):
        """Fails here, and goes on with the next, if something is wrong."""
        with self.subTest(**where):
            if wrong:
                self.fail(wrong)

    def litter(self, *more):
        """What lies in the folder and shouldn't, or None."""
        left = sorted(path.name for path in self.folder.iterdir() if path.name not in self.KNOWN | set(more))
        return f"{left} is left beside" if left else None


def each(cases):
    """For a class with a method `check(name, case)`: a test for each of the cases, by its name."""

    def added(of):
        for name, case in cases.items():
            method = lambda self, name=name, case=case: self.check(name, case)
            method.__name__ = f"test_{name.replace('-', '_')}"
            setattr(of, method.__name__, method)
        return of

    return added


def refusal(ran, path, before, named=None):
    """What is wrong with a run that had to be refused and to leave each byte, or None. It names the file as its words did."""
    if ran.status not in (1, 2) or not ran.told.startswith("heapctl: ") or "no memory" in ran.told or ran.out:
        return f"not refused: {ran}"
    lines = ran.told.splitlines()
    if len(lines) < 2 or str(named or path) not in lines[1]:
        return f"no second line names the file: {ran.told!r}"
    return None if bytes_of(path) == before else "the file was changed"


@contextlib.contextmanager
def mounted(folder, *how):
    """A file system, for as long as it is wanted."""
    subprocess.run(["mount", *map(str, how), str(folder)], check=True)
    try:
        yield folder
    finally:
        subprocess.run(["umount", str(folder)], check=True)
