"""What is left of a damaged image: `dump --cells` and `dump --slot a|b`, over images that are damaged by hand.

The values are worked out by docs/FORMAT.md and docs/SCRIPTS.md ("What is left of a damaged image").
"""
import struct

from .harness import CONTROL_SIZE, CONTROLS, InFolder, bytes_of, changed, journaled, placed

FAULT, WRONG = 1, 2
FORMAT = "format --image {image} --schema {schema} --lanes 2"
OBJECTS = "object o0\nobject o1\nobject o2\nobject o3\n"
# A store of 5 to a field of 10. The script is played over a fresh image, which is recovered first: that commits sequence 2 into slot b.
# `log` commits 3 into slot a, by which the section isn't settled, and `settle` 4 into slot b, by which it is.
LOGGED = "t1 enter o0\nt1 store f0 5\nt1 exit o0\nlog\nhome\n"
SETTLED = f"{LOGGED}settle\n"
# In these images: the gate, the lanes and the objects of the header; field 0's guard row; its cell; the first record of lane 0.
HEADER_GATE, LANES, ROW, CELL, RECORD = 8, 9, 2_160, 2_192, 2_208
CLOSED = b"\0"
NOTES = {
    "--cells": "# the values of the home cells, which needn't be those of one moment\n",
    "--slot a": "# the heap by control slot a, which needn't be that of one moment\n",
    "--slot b": "# the heap by control slot b, which needn't be that of one moment\n",
}
TOLD = {
    "--cells": "these are the values of its home cells, which needn't be those of one moment\n",
    "--slot a": "this is the heap by its control slot a, which needn't be that of one moment\n",
    "--slot b": "this is the heap by its control slot b, which needn't be that of one moment\n",
}


def schema_of(first, second=20):
    return f"{OBJECTS}field f0 o0 o0 {first}\nfield f1 o1 o1 {second}\n"


class Salvage(InFolder):
    def setUp(self):
        super().setUp()
        self.schema.write_text(schema_of(10))

    def left_by(self, script):
        """The image that this script leaves of a fresh one, with all that was written."""
        self.put(self.made(schema_of(10)))
        self.assertEqual(self.play("run --image {image}", f"{script}crash kept\n").status, 0)
        return self.image.read_bytes()

    def gives(self, how, first, second=20, names=""):
        """It prints these values behind its note, tells the same, and leaves each byte of the image, and nothing beside it."""
        before = bytes_of(self.image)
        ran = self.play(f"dump --image {{image}} {how} {names}")
        self.count(dumps=1)
        told = f"heapctl: {self.image}: {TOLD[how]}" if how else ""
        self.assertEqual(ran, (0, NOTES.get(how, "") + schema_of(first, second), told), how)
        self.assertEqual((bytes_of(self.image), self.litter()), (before, None))

    def refuses(self, how, why):
        """It prints nothing, tells this first, and leaves each byte of the image, and nothing beside it."""
        before = bytes_of(self.image)
        ran = self.play(f"dump --image {{image}} {how}")
        self.count(refusals=1)
        self.assertEqual((ran.status, ran.out, ran.told.splitlines()[0]), (FAULT, "", f"heapctl: {why}"), how)
        self.assertEqual((bytes_of(self.image), self.litter()), (before, None))

    def test_each_slot_has_its_heap(self):
        """By slot a the old value is put back, and by slot b the section is kept."""
        self.left_by(SETTLED)
        self.gives("", 5)
        self.gives("--cells", 5)
        self.gives("--slot a", 10)
        self.gives("--slot b", 5, names="--schema {schema}")

    def test_a_slot_from_before_knows_of_no_log(self):
        """Slot a puts the old value back, and slot b, of the recovery before, takes the cell as it is."""
        self.left_by(LOGGED)
        self.gives("", 10)
        self.gives("--cells", 5, names="--schema {schema}")
        self.gives("--slot a", 10)
        self.gives("--slot b", 5)

    def test_cells_are_told_in_their_order(self):
        image = self.left_by(SETTLED)
        self.put(changed(image, (CELL, struct.pack(">QQ", 0x0102030405060708, 2**64 - 1))))
        self.gives("--cells", 72_623_859_790_382_856, 18_446_744_073_709_551_615)

    def test_a_transient_field_has_its_first_value(self):
        """Its cell isn't read: here it has 9, and its row 3."""
        schema = f"{schema_of(10)}transient hits o0 o0 3\n"
        image = self.made(schema)
        # Behind three guard rows of 16 bytes the third cell.
        self.put(changed(image, (2_160 + 48 + 16, struct.pack(">Q", 9))))
        self.schema.write_text(schema)
        for how in ("--cells", "--slot a"):
            ran = self.play(f"dump --image {{image}} --schema {{schema}} {how}")
            self.assertEqual((ran.status, ran.out), (0, NOTES[how] + schema))

    def test_an_image_behind_a_label_is_read_too(self):
        image = self.left_by(SETTLED)
        for content in (placed(image, 512), placed(image, 4_096), journaled(image)):
            self.put(content)
            for how, first in (("--cells", 5), ("--slot a", 10), ("--slot b", 5)):
                self.gives(how, first)

    def test_no_byte_of_a_slot_changes_what_the_other_gives(self):
        """Each byte of slot b is damaged; those around its numbers one by one, the others of its rows a few at a time."""
        image = self.left_by(SETTLED)
        begin = CONTROLS[1]
        for at in [*range(begin, begin + 96), *range(begin + 96, begin + CONTROL_SIZE, 37)]:
            with self.subTest(at=at):
                self.put(changed(image, (at, bytes([image[at] ^ 0xFF]))))
                self.gives("--slot a", 10)
                self.gives("--cells", 5)

    def test_the_other_slot_is_whole_where_one_has_eight_changed_bytes(self):
        image = self.left_by(SETTLED)
        self.put(changed(image, (CONTROLS[1] + 8 + 16, b"\xff" * 8)))
        self.refuses("", "bad control")
        self.refuses("--slot b", "bad control")
        self.gives("--slot a", 10)
        self.gives("--cells", 5)

    def test_cells_need_no_control(self):
        image = self.left_by(SETTLED)
        self.put(changed(image, *((at, CLOSED) for at in CONTROLS)))
        for how in ("", "--slot a", "--slot b"):
            self.refuses(how, "no control")
        self.gives("--cells", 5)
        self.put(changed(image, *((at + 8, b"\xff" * (CONTROL_SIZE - 8)) for at in CONTROLS)))
        for how in ("", "--slot a", "--slot b"):
            self.refuses(how, "bad control")
        self.gives("--cells", 5)

    def test_a_closed_slot_is_refused_and_the_other_isn_t(self):
        self.put(changed(self.left_by(SETTLED), (CONTROLS[0], CLOSED)))
        self.refuses("--slot a", "no control")
        self.gives("--slot b", 5)

    def test_a_slot_is_refused_with_its_log(self):
        """The first record has no kind. By slot b, of the recovery before, nothing is logged."""
        self.put(changed(self.left_by(LOGGED), (RECORD, b"\x09")))
        self.refuses("", "bad record t1 0")
        self.refuses("--slot a", "bad record t1 0")
        self.gives("--slot b", 5)
        self.gives("--cells", 5)

    def test_a_damaged_header_is_refused(self):
        image = self.left_by(SETTLED)
        row = struct.pack(">I", 4)
        for change, why in (((LANES, b"\x21"), "bad header"), ((HEADER_GATE, CLOSED), "not formatted"), ((ROW, row), "bad header")):
            self.put(changed(image, change))
            for how in NOTES:
                self.refuses(how, why)
        self.put(image[:-1])
        for how in NOTES:
            self.refuses(how, "too small")

    def test_another_schema_is_refused(self):
        self.left_by(SETTLED)
        self.schema.write_text("object o0\nfield f0 o0 o0 10\n")
        for how in NOTES:
            self.refuses(f"{how} --schema {{schema}}", "other schema")

    def test_what_is_printed_makes_an_image(self):
        """The note is skipped."""
        self.left_by(SETTLED)
        self.schema.write_text(self.play("dump --image {image} --slot a").out)
        self.put(None)
        self.assertEqual(self.play(FORMAT).status, 0)
        self.assertEqual(self.play("get --image {image} f0 f1").out, "f0=10\nf1=20\n")

    def test_unclear_words_are_wrong(self):
        self.left_by(SETTLED)
        for how in ("--cells --slot a", "--slot c", "--slot A", "--slot", "--cells --cells", "--slot a --slot b", "--slot="):
            ran = self.play(f"dump --image {{image}} {how}")
            self.assertEqual((ran.status, ran.out), (WRONG, ""), how)
