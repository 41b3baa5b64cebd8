"""What each word of the program does to an image file, what it prints, and what is answered to wrong words: the gate's table of words.

That a word does what it says is proved where it stands. Here the program is seen to give each word its own work.
"""
import fcntl
import os
import re
import time
from pathlib import Path

from .harness import InFolder, bytes_of, changed, made_old, run

FOUR = "object o0\nobject o1\nobject o2\nobject o3\nfield f0 o0 o0 10\nfield f1 o1 o1 20\n"
FORMAT = "format --image {image} --schema {schema} --lanes 2"
OTHER = "format --image {image} --schema {schema} --lanes 3"
SIZE = 130_208
FORMATTED = f"formatted {SIZE}\n"
REPORT = "kept 0 0\nundone 0\nheap 10 20\n"
LINES = """image lanes 2 capacity 4000 objects 4 fields 2 size 130208
control a sequence 1 version 2
lane t1 start 0 settled 0 logged 0 kept 0
lane t2 start 0 settled 0 logged 0 kept 0
cut 0 0
heap 10 20
"""
SECTION = "t1 enter o0\nt1 store f0 5\nt1 exit o0\nlog\nhome\nsettle\n"
DONE = "ok\nok\nok\nlogged 3\nwrote 1\nacknowledged 1 0\n"
IN_MEMORY = "object o\nfield f o o 7\nformat 1 2000\nt1 enter o\nt1 load f\n"
# The script of docs/SCRIPTS.md ("A script"), after its `format`.
DRAGGED = """t1 enter o0
t1 enter o1
t1 store f0 1
t1 exit o0
t2 enter o0
t2 store f0 2
t2 exit o0
log
home
settle
crash lost
"""
# The program's statuses (docs/SCRIPTS.md, "The program's fault texts").
FAULT, WRONG, IN_USE = 1, 2, 3


class Played(InFolder):
    """Lines of words: each is played, and what it prints, how it ends and what it leaves of the image is looked at."""

    KNOWN = {"image", "schema", "image~"}

    def setUp(self):
        super().setUp()
        self.schema.write_text(FOUR)

    def step(self, text, stdin, **how):
        before = bytes_of(self.image)
        ran = self.play(text, stdin, **how)
        self.count(words=1)
        return ran, bytes_of(self.image) == before

    def changes(self, text, printed, stdin=""):
        """It prints this and ends well, and the image has other bytes then."""
        ran, is_left = self.step(text, stdin)
        self.assertEqual((ran, is_left), ((0, printed, ""), False), text)

    def tells(self, text, printed, stdin=""):
        """The same, and each byte of the image stays, or there is none."""
        ran, is_left = self.step(text, stdin)
        self.assertEqual((ran, is_left), ((0, printed, ""), True), text)

    def fails(self, text, status, why, cause, stdin="", printed="", **how):
        """It prints nothing, tells this in its first line and the cause in its second, and each byte of the image stays."""
        ran, is_left = self.step(text, stdin, **how)
        told = ran.told.splitlines()
        self.assertEqual((ran.status, ran.out, told[:1], is_left), (status, printed, [f"heapctl: {why}"], True), f"{text}: {ran}")
        if cause is None:
            self.assertEqual(len(told), 1, ran.told)
        else:
            self.assertIn(cause, told[1])

    def begins(self, name, size):
        content = self.image.read_bytes()
        self.assertEqual((content[:8], len(content)), (name, size))


class Images(Played):
    def test_a_script_is_played(self):
        for text in ("", "run"):
            self.tells(text, "formatted 34184\nok\nvalue 7\n", IN_MEMORY)

    def test_an_image_is_made_shown_drawn_and_dumped(self):
        self.changes(FORMAT, FORMATTED)
        self.tells("show --image {image}", LINES)
        ran, is_left = self.step("show --image {image} --dot", "")
        self.assertEqual((ran.status, ran.out.startswith("digraph sections {\n"), ran.told, is_left), (0, True, "", True))
        self.tells("dump --image {image} --schema {schema}", FOUR)
        self.tells("dump --image {image}", FOUR)
        self.begins(b"MONIHEAP", SIZE)
        self.assertEqual(self.schema.read_text(), FOUR)

    def test_recover_writes_and_reports(self):
        self.changes(FORMAT, FORMATTED)
        # A control is committed, each time.
        self.changes("recover --image {image}", REPORT)
        self.changes("recover --image {image}", REPORT)

    def test_an_old_image_is_upgraded_where_it_is_asked_for(self):
        self.changes(FORMAT, FORMATTED)
        self.put(made_old(self.image.read_bytes()))
        self.fails("recover --image {image}", FAULT, "old version", "heapctl upgrade")
        self.fails("run --image {image}", FAULT, "old version", "heapctl upgrade")
        self.changes("upgrade --image {image}", REPORT)
        self.changes("recover --image {image}", REPORT)


class Scripts(Played):
    """What a script leaves in memory after a crash, it leaves in the file."""

    def test_a_crash_stays_in_the_file(self):
        self.changes(FORMAT, FORMATTED)
        self.changes("run --image {image}", f"{REPORT}{DONE}crashed\n", f"{SECTION}crash lost\n")
        self.changes("recover --image {image}", "kept 1 0\nundone 0\nheap 5 20\n")

    def test_a_section_that_drags_another_along_does_so_in_the_file(self):
        self.changes(FORMAT, FORMATTED)
        oks = "ok\n" * 7
        self.changes("run --image {image}", f"{REPORT}{oks}logged 7\nwrote 1\nacknowledged 0 0\ncrashed\n", DRAGGED)
        self.changes("recover --image {image}", "kept 0 0\ndropped t1 1 unfinished\ndropped t2 1 after t1 1\nundone 1\nheap 10 20\n")

    def test_a_script_goes_on_where_one_stopped(self):
        """What is settled stays at a stop, and what isn't doesn't."""
        named = "run --image {image} --schema {schema}"
        self.changes(FORMAT, FORMATTED)
        self.changes(named, f"{REPORT}{DONE}", SECTION)
        unsettled = "t1 enter o1\nt1 store f1 6\nt1 exit o1\nlog\nheap\n"
        self.changes(named, "kept 1 0\nundone 0\nheap 5 20\nok\nok\nok\nlogged 3\nheap 5 6\n", unsettled)
        self.changes(named, "kept 0 0\ndropped t1 1 unsettled\nundone 1\nheap 5 20\n")

    def test_a_refused_script_leaves_the_file(self):
        self.changes(FORMAT, FORMATTED)
        self.fails("run --image {image}", WRONG, "line 2: syntax", None, "t1 enter o0\nfrob\n")
        self.fails("run --image {image}", WRONG, "line 2: syntax", None, "heap\nfrob\n")
        (self.folder / "other").write_text("object a\nfield b a a 7\n")
        self.fails("run --image {image} --schema {folder}/other", FAULT, "other schema", "other", "t1 enter a\n")
        self.assertIsNone(self.litter("other"))

    def test_an_image_that_cannot_be_replaced_stays(self):
        self.changes(FORMAT, FORMATTED)
        self.fails("run --image {image}", FAULT, "fault", "File too large", "t1 enter o0\n", file_size=4096)
        # Another process is making a file beside it.
        with open(f"{self.image}.heapctl-new", "wb") as beside:
            fcntl.flock(beside, fcntl.LOCK_EX)
            self.fails("run --image {image}", IN_USE, "image in use", "", "t1 enter o0\n")
        self.put(b"notes")
        self.fails("run --image {image}", FAULT, "not formatted", "it doesn't begin as an image", "t1 enter o0\n")

    def test_who_has_an_image_is_told(self):
        self.changes(FORMAT, FORMATTED)
        with open(self.image, "rb") as other:
            fcntl.flock(other, fcntl.LOCK_EX)
            there = os.stat(self.image)
            named = f"{os.major(there.st_dev):02x}:{os.minor(there.st_dev):02x}:{there.st_ino}"
            # Some file systems are listed by another device than their metadata have.
            is_listed = named in Path("/proc/locks").read_text().split()
            whose = f"{self.image}: process {os.getpid()} has it; wait" if is_listed else "another process has it; wait"
            for text in ("show --image {image}", "recover --image {image}", "run --image {image}", FORMAT):
                self.fails(text, IN_USE, "image in use", whose)
            self.assertIn("a heap in use is copied by the program that has it", self.play("show --image {image}").told)
        self.count(whose_image_it_is=is_listed)

    def test_an_image_is_replaced_before_the_text_is_written(self):
        self.changes(FORMAT, FORMATTED)
        before = self.image.read_bytes()
        with open("/dev/full", "wb") as full:
            ran = self.play("run --image {image}", "t1 enter o0\n", out=full)
        self.assertEqual((ran.status, ran.told.splitlines()[0]), (FAULT, "heapctl: fault"))
        self.assertNotEqual(self.image.read_bytes(), before)

    def test_a_strict_script_ends_at_its_first_refused_line(self):
        self.changes(FORMAT, FORMATTED)
        strict = "run --strict --image {image}"
        refused = "t1 enter o0\nt1 exit o1\nt1 exit o0\n"
        self.fails(strict, FAULT, "line 2: refused", "prints 'refused not held'", refused)
        self.fails(strict, WRONG, "line 2: syntax", "frob", "t1 enter o0\nfrob\n")
        self.changes(strict, f"{REPORT}ok\nok\n", "t1 enter o0\nt1 exit o0\n")
        self.tells("run --strict", "formatted 34184\nok\nvalue 7\n", IN_MEMORY)
        # The others go on behind it.
        self.changes("run --image {image}", f"{REPORT}ok\nrefused not held\nok\n", refused)
        # In memory the texts up to the refused line's are printed.
        self.fails("run --strict", FAULT, "line 2: refused", "prints 'refused state'", "object o\nt1 exit o\nobject p\n", "refused state\n")


class Values(Played):
    def test_values_are_told_and_set(self):
        self.changes(FORMAT, FORMATTED)
        self.tells("get --image {image} f1 f0", "f1=20\nf0=10\n")
        self.changes("set --image {image} f0=5", f"{REPORT}{DONE}")
        self.tells("get f0 --image {image} f0", "f0=5\nf0=5\n")
        # One of the two fields twice: the last value holds.
        twice = "kept 1 0\nundone 0\nheap 5 20\n" + "ok\n" * 9 + "logged 7\nwrote 2\nacknowledged 1 0\n"
        self.changes("set --image {image} --schema {schema} f0=6 f1=7 f0=8", twice)
        self.tells("get f0 f1 --image {image} --schema {schema}", "f0=8\nf1=7\n")
        self.changes("recover --image {image}", "kept 1 0\nundone 0\nheap 8 7\n")
        self.fails("get --image {image} f2", WRONG, "unknown", "no field 'f2'")
        self.fails("set --image {image} f2=1", WRONG, "unknown", "no field 'f2'")
        for wrong in ("f1=-1", "f1", "f1=18446744073709551616"):
            self.fails(f"set --image {{image}} f0=1 {wrong}", WRONG, "syntax", f"'{wrong}': it isn't NAME=VALUE")

    def test_values_are_told_of_a_file_that_may_only_be_read(self):
        self.changes(FORMAT, FORMATTED)
        self.image.chmod(0o444)
        self.tells("get --image {image} f0", "f0=10\n")
        self.tells("show --image {image}", LINES)

    def test_a_transient_field_is_told_and_not_set(self):
        self.schema.write_text("object o\nfield kept o o 1\ntransient mark o o 3\n")
        self.assertEqual(self.play(FORMAT).status, 0)
        self.fails("set --image {image} --schema {schema} mark=1", WRONG, "transient", "'mark' is transient")
        self.tells("get --image {image} --schema {schema} mark kept", "mark=3\nkept=1\n")


class Workers(Played):
    def test_workers_count_in_memory(self):
        # The example of docs/SCRIPTS.md, "Workers", is the second.
        self.tells("drive --rounds 20 --workers 3", "acknowledged 20 20 20\nheap 60 20 20 20\n")
        self.tells("drive", "acknowledged 1000 1000\nheap 2000 1000 1000\n")

    def test_workers_work_for_so_many_seconds(self):
        """The total is the sum of what each counted, and others go on with it."""
        for seconds in (2, 8, 32):
            self.put(None)
            begun = time.monotonic()
            ran = self.play(f"drive --seconds {seconds} --image {{image}}")
            took = time.monotonic() - begun
            told = re.fullmatch(r"acknowledged (\d+) (\d+)\nheap (\d+) (\d+) (\d+)\n", ran.out)
            self.assertTrue(ran.status == 0 and told and ran.told == "", ran)
            a, b, *heap = map(int, told.groups())
            self.assertTrue(seconds <= took and heap == [a + b, a, b], (took, ran))
            # Where the machine stops meanwhile one may have had no turn.
            if a > 0 and b > 0:
                break
        self.assertTrue(a > 0 and b > 0, ran)
        self.changes("drive --rounds 1 --image {image}", f"acknowledged 1 1\nheap {a + b + 2} {a + 1} {b + 1}\n")

    def test_workers_go_on_with_a_file(self):
        self.changes("drive --rounds 20 --image {image}", "acknowledged 20 20\nheap 40 20 20\n")
        self.changes("drive --rounds 20 --image {image}", "acknowledged 20 20\nheap 80 40 40\n")
        self.changes("recover --image {image}", "kept 0 0\nundone 0\nheap 80 40 40\n")

    def test_an_image_of_others_is_left_alone(self):
        self.changes(FORMAT, FORMATTED)
        self.fails("drive --image {image}", FAULT, "other schema", "image")

    def test_other_workers_are_told_how_many_an_image_is_for(self):
        """An image of two workers has two lanes, or three: one is the helper's then."""
        self.changes("drive --rounds 20 --image {image}", "acknowledged 20 20\nheap 40 20 20\n")
        theirs = self.folder / "theirs"
        theirs.write_text(self.play("dump --image {image}").out)
        self.fails("drive --workers 3 --image {image}", FAULT, "other schema", "of 2 workers, not of 3; type --workers 2")
        self.assertEqual(self.play("format --image {image} --schema {folder}/theirs --lanes 3 --force").status, 0)
        self.fails("drive --workers 3 --image {image}", FAULT, "other schema", "of 2 workers, not of 3; type --workers 2")
        self.changes("drive --rounds 20 --image {image}", "acknowledged 20 20\nheap 80 40 40\n")
        theirs.unlink()


class Labelled:
    """Words on images behind a label of this name, in files of so many bytes: they do what they do on one without, and keep it so."""

    ASKED, NAME, ROOM = None, None, None

    def tearDown(self):
        self.assertEqual(self.litter("theirs", "plain"), None)

    def make(self):
        self.changes(f"{FORMAT} {self.ASKED}", FORMATTED)
        self.begins(self.NAME, self.ROOM)

    def test_an_image_is_made_and_read(self):
        self.make()
        # A file that may only be read is enough.
        self.image.chmod(0o444)
        self.tells("show --image {image}", LINES)
        self.tells("dump --image {image}", FOUR)
        ran, is_left = self.step("show --image {image} --dot", "")
        self.assertEqual((ran.status, ran.out.startswith("digraph sections {\n"), ran.told, is_left), (0, True, "", True))
        self.image.chmod(0o644)
        self.changes("recover --image {image}", REPORT)
        self.changes("upgrade --image {image}", REPORT)
        self.begins(self.NAME, self.ROOM)

    def test_a_script_is_played_over_one(self):
        self.make()
        self.changes("run --image {image}", f"{REPORT}{DONE}crashed\n", f"{SECTION}crash lost\n")
        self.changes("recover --image {image}", "kept 1 0\nundone 0\nheap 5 20\n")
        self.begins(self.NAME, self.ROOM)

    def test_fields_of_one_are_set(self):
        self.make()
        self.changes("set f0=5 --image {image}", f"{REPORT}{DONE}")
        self.tells("get f0 --image {image}", "f0=5\n")
        self.begins(self.NAME, self.ROOM)

    def test_workers_work_on_one(self):
        """They go on with one that was made of the schema of theirs."""
        self.assertEqual(self.play("drive --rounds 20 --image {folder}/plain").out, "acknowledged 20 20\nheap 40 20 20\n")
        (self.folder / "theirs").write_text(self.play("dump --image {folder}/plain").out)
        self.changes(f"format --image {{image}} --schema {{folder}}/theirs --lanes 2 {self.ASKED}", "formatted 130232\n")
        self.changes("drive --rounds 20 --image {image}", "acknowledged 20 20\nheap 80 40 40\n")
        self.changes("drive --rounds 20 --image {image}", "acknowledged 20 20\nheap 120 60 60\n")
        self.begins(self.NAME, self.ROOM)

    def test_one_that_is_cut_short_is_neither_read_nor_replaced(self):
        self.make()
        os.truncate(self.image, self.ROOM - 1)
        for text in ("recover", "upgrade", "show", "show --dot", "dump", "get f0", "set f0=1", "run", "drive"):
            self.fails(f"{text} --image {{image}}", FAULT, "not formatted", "fewer bytes than its label says: it was cut short; restore it from a copy")
        self.fails("format --image {image} --schema {schema}", FAULT, "not an image", "it was cut short; restore it from a copy, or name another file")
        # The 24 bytes of a label tell that the others are missing.
        os.truncate(self.image, 24)
        self.fails("show --image {image}", FAULT, "not formatted", "it was cut short")
        os.truncate(self.image, 23)
        self.fails("show --image {image}", FAULT, "not formatted", "it doesn't begin as an image")


class TwoPlaces(Labelled, Played):
    # Label, gate, and 32 sectors of 4,096 bytes in each of two areas.
    ASKED, NAME, ROOM = "--sectors 4096", b"MONI4096", 66 * 4096


class Journal(Labelled, Played):
    # Label, two halves of 133 pages, and 32 pages of the image.
    ASKED, NAME, ROOM = "--atomic-sectors", b"MONIHALF", 299 * 4096

    def test_what_is_refused_leaves_every_byte(self):
        self.make()
        # There is a batch that no word has brought to its place.
        self.changes("set f0=5 --image {image}", f"{REPORT}{DONE}")
        theirs = "--schema {folder}/theirs --image {image}"
        (self.folder / "theirs").write_text("object a\nfield b a a 7\n")
        self.fails("run --image {image}", WRONG, "line 2: syntax", None, "t1 enter o0\nfrob\n")
        self.fails("run --strict --image {image}", FAULT, "line 1: refused", "prints 'refused not held'", "t1 exit o1\n")
        self.fails(f"run {theirs}", FAULT, "other schema", "theirs", "t1 enter a\n")
        self.fails("set none=1 --image {image}", WRONG, "unknown", "no field 'none'")
        self.fails("set f0 --image {image}", WRONG, "syntax", "it isn't NAME=VALUE")
        self.fails(f"set b=1 {theirs}", FAULT, "other schema", "theirs")
        self.tells("get f0 --image {image}", "f0=5\n")


class Kept(Played):
    """An image that `format` replaces is kept beside the new one, at image~."""

    def setUp(self):
        super().setUp()
        self.kept = self.folder / "image~"

    def done(self, text):
        ran = self.play(text)
        self.assertEqual(ran.status, 0, ran)
        return bytes_of(self.image)

    def tearDown(self):
        self.assertEqual(self.litter(), None)

    def test_an_image_that_is_replaced_is_kept(self):
        first = self.done(FORMAT)
        self.assertFalse(self.kept.exists())
        self.assertNotEqual(self.done(OTHER), first)
        self.assertEqual(self.kept.read_bytes(), first)
        self.done(f"{OTHER} --force")
        self.assertEqual(self.kept.read_bytes(), first)

    def test_words_leave_the_image_that_is_kept(self):
        self.done(FORMAT)
        self.done(OTHER)
        kept = self.kept.read_bytes()
        self.done("set f0=5 --image {image}")
        self.done("run --image {image}")
        self.assertNotEqual(self.play("set none=5 --image {image}").status, 0)
        self.assertEqual(self.kept.read_bytes(), kept)

    def test_an_image_is_kept_over_another_file(self):
        self.kept.write_bytes(b"notes of mine")
        first = self.done(FORMAT)
        self.assertEqual(self.kept.read_bytes(), b"notes of mine")
        second = self.done(OTHER)
        self.assertEqual(self.kept.read_bytes(), first)
        # Both paths lead to one file.
        self.kept.unlink()
        self.kept.hardlink_to(self.image)
        self.done(FORMAT)
        self.assertEqual(self.kept.read_bytes(), second)

    def test_an_image_that_is_kept_and_in_use_stays(self):
        self.done(FORMAT)
        self.done(OTHER)
        kept = self.kept.read_bytes()
        with open(self.kept, "rb") as other:
            fcntl.flock(other, fcntl.LOCK_EX)
            self.fails(FORMAT, FAULT, "fault", "image~: Device or resource busy (os error 16); another process has the image that is kept there")
            self.assertEqual(self.kept.read_bytes(), kept)
            # One that reads it, as `show`, does no harm.
            fcntl.flock(other, fcntl.LOCK_SH)
            self.done(FORMAT)
        self.assertNotEqual(self.kept.read_bytes(), kept)


# Paths that lead to no image: what is there, of an image's bytes, and which words make one there all the same.
PATHS = {
    "{folder}/missing": (None, ("format", "drive")),
    "{folder}/empty": (lambda image: b"", ("format", "drive")),
    "{folder}/header": (lambda image: image[:64], ("format",)),
    "{folder}/half": (lambda image: image[: len(image) // 2], ("format",)),
    "": (None, ()),
    "{folder}": (None, ()),
    "{folder}/": (None, ()),
    "{folder}/inner": (None, ()),
    "{folder}/dangling": (None, ()),
    "{folder}/loop": (None, ()),
    "{folder}/to_inner": (None, ()),
    "{folder}/text/image": (None, ()),
    "{folder}/gone/image": (None, ()),
    "{folder}/text": (lambda image: b"notes of mine", ()),
    "{folder}/byte": (lambda image: b"M", ()),
    "{folder}/name": (lambda image: image[:8], ()),
    "{folder}/gate": (lambda image: changed(image, (8, b"\0")), ()),
    "{folder}/zeros": (lambda image: bytes(4096), ()),
    "/dev/null": (None, ()),
}
EVERY = [
    "format --schema {schema}",
    "drive --rounds 1",
    "run",
    "run --strict --schema {schema}",
    "recover",
    "upgrade",
    "show",
    "show --dot",
    "dump",
    "get f0",
    "set f0=1",
]


class Paths(Played):
    def prepare(self):
        self.assertEqual(self.play(FORMAT).status, 0)
        image = self.image.read_bytes()
        (self.folder / "inner").mkdir()
        for link, target in (("dangling", "nowhere"), ("loop", "loop"), ("to_inner", "inner")):
            (self.folder / link).symlink_to(target)
        for path, (content, _) in PATHS.items():
            if content:
                open(path.format(folder=self.folder), "wb").write(content(image))

    def test_every_word_refuses_what_is_no_image(self):
        self.prepare()
        there = sorted(self.folder.iterdir())
        for path, (_, makers) in PATHS.items():
            path = path.format(folder=self.folder)
            for text in EVERY:
                if text.split()[0] in makers:
                    continue
                before = bytes_of(path)
                ran = run([*self.words(text), "--image", path])
                self.count(words=1)
                is_refused = ran.status in (1, 2) and ran.out == "" and ran.told.startswith(("heapctl: ", "error: "))
                self.fault(None if is_refused and bytes_of(path) == before else ran, path=path, words=text)
        self.assertEqual(sorted(self.folder.iterdir()), there)

    def test_makers_make_one_where_nothing_is_lost(self):
        self.prepare()
        for path, (_, makers) in PATHS.items():
            path = path.format(folder=self.folder)
            for word, text in (("format", "format --schema {schema} --force"), ("drive", "drive --rounds 1")):
                if word in makers:
                    before = bytes_of(path)
                    ran = run([*self.words(text), "--image", path])
                    self.assertEqual(ran.status, 0, (path, text, ran))
                    os.remove(path) if before is None else open(path, "wb").write(before)

    def test_a_dangling_link_is_left_alone(self):
        self.image.symlink_to("nowhere")
        self.fails(FORMAT, FAULT, "not an image", "image")
        self.assertTrue(self.image.is_symlink() and not (self.folder / "nowhere").exists())

    def test_a_link_to_an_image_stays(self):
        self.play("format --image {folder}/led_to --schema {schema} --lanes 2")
        before = bytes_of(self.folder / "led_to")
        self.image.symlink_to("led_to")
        self.assertEqual(self.play(f"{OTHER}").status, 0)
        self.assertTrue(self.image.is_symlink() and bytes_of(self.folder / "led_to") != before)

    def test_what_no_making_has_left_beside_stays(self):
        beside, notes = self.folder / "image.heapctl-new", self.folder / "notes"
        notes.write_bytes(b"notes of mine")
        for put in (lambda: beside.symlink_to("notes"), lambda: beside.symlink_to("nowhere"), lambda: os.link(notes, beside), beside.mkdir):
            put()
            for text in (FORMAT, "drive --rounds 1 --image {image}"):
                self.fails(text, FAULT, "fault", "image.heapctl-new: File exists (os error 17); that isn't what a making leaves")
            self.assertTrue(os.path.lexists(beside))
            beside.rmdir() if beside.is_dir() else beside.unlink()
        self.assertEqual((notes.read_bytes(), bytes_of(self.folder / "nowhere")), (b"notes of mine", None))
        # What one has left is taken up.
        beside.write_bytes(b"half of an image")
        self.changes(FORMAT, FORMATTED)
        self.assertFalse(os.path.lexists(beside))

    def test_a_folder_is_refused(self):
        self.image.mkdir()
        for text in ("recover --image {image}", "drive --image {image}", FORMAT):
            self.fails(text, FAULT, "fault", "it is a folder")
        self.assertTrue(self.image.is_dir())

    def test_a_missing_folder_is_a_fault(self):
        for text in ("format --image {folder}/gone/image --schema {schema}", "drive --image {folder}/gone/image"):
            self.fails(text, FAULT, "fault", "No such file or directory")


# Words that aren't taken, and what is answered to them: the beginnings of clap's texts for a kind of error.
UNKNOWN, NO_WORD = "error: unexpected argument '", "error: unrecognized subcommand '"
MISSING = "error: the following required arguments were not provided:"
NO_VALUE, BAD_VALUE = "error: a value is required for '", "error: invalid value '"
NOT_TAKEN = {
    "walk": NO_WORD,
    "help walk": NO_WORD,
    "run now": UNKNOWN,
    "--fast": UNKNOWN,
    "recover": MISSING,
    "show --dot": MISSING,
    "format --image i": MISSING,
    "show --image": NO_VALUE,
    "run --image": NO_VALUE,
    "get --image i": MISSING,
    "get f0": MISSING,
    "set --image i": MISSING,
    "get --image i f0 --dot": UNKNOWN,
    "recover --image i --dot": UNKNOWN,
    "drive --seconds 3601": BAD_VALUE,
    "format --image i --schema s --lanes 33": BAD_VALUE,
    "format --image i --schema s --capacity 1999": BAD_VALUE,
    "run --strict --strict": "error: the argument '--strict' cannot be used multiple times",
    "drive --seconds 2 --rounds 2": "error: '--rounds' and '--seconds' both say how long the threads work",
    # Options that do nothing.
    "run --schema s": "error: '--schema' of 'run' names what an image file holds",
    "show --image i --last 3": "error: '--last' and '--schema' of 'show' are for a graph",
    "show --image i --schema s": "error: '--last' and '--schema' of 'show' are for a graph",
    # Sectors that are smaller than the pages in which a file is written.
    "format --image i --schema s --sectors 512": "error: '--sectors' takes 4096",
    # Two kinds of image.
    "format --image i --schema s --sectors 4096 --atomic-sectors": "error: '--sectors' keeps the image in two places, and '--atomic-sectors'",
    "format --image i --schema s --sectors 512 --atomic-sectors": "error: '--sectors' keeps the image in two places, and '--atomic-sectors'",
    "format --image s --schema s": "error: the image and the schema are two files, and '--image' and '--schema' name one\n",
}
# Those that are taken, and fail by the files that aren't there, or don't.
TAKEN = [
    "format --image i --schema s --sectors 4096 --force",
    "format --image i --schema s --atomic-sectors",
    "format --image i --schema s --lanes 32",
    "format --image i --schema s --capacity 1048576",
    # Two paths are two files, whatever they lead to.
    "format --image s --schema ./s",
]
# Each word, with what it has to have.
EACH = [
    "run",
    "run --image i --schema s",
    "format --image i --schema s",
    "show --image i",
    "show --image i --dot --schema s",
    "dump --image i",
    "dump --image i --cells",
    "dump --image i --slot a",
    "get --image i f0",
    "set --image i f0=1",
    "recover --image i",
    "upgrade --image i",
    "drive --image i",
]
# What none of them takes behind that: it isn't its option, or has no value, one out of its limits, or one too many.
NONE_TAKES = """--fast
-i j
--imag j
--IMAGE j
--image
--image j --image k
--schema
--schema s --schema t
--lanes 0
--lanes 33
--lanes two
--lanes 2 --lanes 2
--capacity 1999
--capacity 1048577
--sectors 512
--sectors 4097
--atomic-sectors 512
--atomic-sectors --atomic-sectors
--force --force
--workers 0
--workers 33
--rounds 0
--rounds 10001
--rounds 1 --seconds 1
--seconds 3601
--last 0
--last -1
--dot --dot
--dot=1
--strict --strict
--strict=yes"""


class Asked(Played):
    """Which words are taken, what they ask for, and what is answered to the others."""

    def wrong(self, text, beginning="error: "):
        ran = self.play(text)
        self.count(words=1)
        is_so = ran.told.startswith(beginning) and ran.told.endswith("\n\nFor more information, try '--help'.\n")
        is_so = is_so and (ran.status, ran.out) == (WRONG, "")
        self.fault(None if is_so else ran, words=text)

    def test_wrong_words_are_answered_as_documented(self):
        for text, beginning in NOT_TAKEN.items():
            self.wrong(text, beginning)
        usage = "\n\nUsage: heapctl [COMMAND]\n\nFor more information, try '--help'.\n"
        self.assertEqual(self.play("format --image s --schema s").told, NOT_TAKEN["format --image s --schema s"].strip() + usage)

    def test_every_word_refuses_wrong_options(self):
        for text in EACH:
            for more in NONE_TAKES.splitlines():
                self.wrong(f"{text} {more}")

    def test_words_are_taken(self):
        for text in TAKEN:
            ran = self.play(text)
            self.assertTrue(ran.status in (1, 2) and ran.told.startswith("heapctl: ") and "s: No such file" in ran.told, (text, ran))
        self.tells("", "")
        self.tells("run", "")
        self.assertEqual(self.litter(), None)

    def test_help_and_version_are_printed(self):
        for text in ("help", "help show", "--help", "run -h"):
            ran = self.play(text)
            self.assertTrue(ran.status == 0 and "Usage: heapctl" in ran.out and ran.told == "", (text, ran))
        ran = self.play("--version")
        self.assertTrue(ran.status == 0 and re.match(r"heapctl \d+\.\d+", ran.out) and ran.told == "", ran)

    def test_format_asks_for_lanes_capacity_a_kind_of_image_and_force(self):
        shape = lambda: (self.play("show --image {image}").out.splitlines()[0].split(" objects")[0], self.image.read_bytes()[:8])
        self.play("format --schema {schema} --image {image} --lanes 2")
        self.assertEqual(shape(), ("image lanes 2 capacity 4000", b"MONIHEAP"))
        self.play("format --force --schema {schema} --image {image} --sectors 4096")
        self.assertEqual(shape(), ("image lanes 4 capacity 4000", b"MONI4096"))
        self.play("format --force --schema {schema} --image {image} --atomic-sectors")
        self.assertEqual(shape(), ("image lanes 4 capacity 4000", b"MONIHALF"))
        self.assertEqual(self.litter("image~"), None)
        self.assertFalse((self.folder / "image~").exists())
        self.play("format --schema {schema} --image {image} --capacity 2000 --lanes 32")
        self.assertEqual(shape(), ("image lanes 32 capacity 2000", b"MONIHEAP"))
        self.assertTrue((self.folder / "image~").exists())

    def test_a_drawing_has_the_last_50_sections_or_as_many_as_are_asked_for(self):
        self.schema.write_text(FOUR.replace("o0", "account").replace("f0", "balance"))
        self.play(FORMAT)
        sections = "".join(f"t1 enter o0\nt1 store f0 {number}\nt1 exit o0\n" for number in range(60))
        sections += "t2 enter o0\nt2 exit o0\n"
        self.assertEqual(self.play("run --image {image}", f"{sections}log\nhome\nsettle\ncrash kept\n").status, 0)
        for more, drawn in (("", 50), (" --last 7", 7), (" --last 9 --schema {schema}", 9)):
            ran = self.play(f"show --dot --image {{image}}{more}")
            found = len(re.findall(r'^"t1.\d+" \[label="t1 ', ran.out, re.M))
            self.assertEqual((ran.status, found), (0, drawn), more)
            self.assertEqual("account number 60" in ran.out, "--schema" in more, ran.out)
