"""What classes declare, without the library."""
import math
import struct
import unittest

import zelamiku
from zelamiku.declare import MOST


class Kinds(unittest.TestCase):
    def test_each_kind_stores_as_documented(self):
        cases = [
            (zelamiku.Field(), [(0, 0), (1, 1), (MOST, MOST), (True, 1)]),
            (zelamiku.Signed(), [(0, 0), (-1, MOST), (2**63 - 1, 2**63 - 1), (-(2**63), 2**63)]),
            (zelamiku.Bool(), [(False, 0), (True, 1)]),
            (zelamiku.Float(), [(0.0, 0), (1.0, 0x3FF0000000000000), (-0.0, 1 << 63), (math.inf, 0x7FF0000000000000), (2, 0x4000000000000000)]),
            (zelamiku.Ref(), [(None, 0), (0, 1), (MOST - 1, MOST)]),
        ]
        for kind, values in cases:
            for value, bits in values:
                with self.subTest(kind=type(kind).__name__, value=value):
                    self.assertEqual(kind.encode(value), bits)
                    self.assertEqual(kind.decode(bits), value)
                    self.assertIs(type(kind.decode(bits)), type(kind.first) if not isinstance(kind, zelamiku.Ref) else type(value))
        kind = zelamiku.Float()
        for bits in (0x7FF8000000000001, 0xFFF0DEADBEEF0001, 1, 1 << 63):
            self.assertEqual(kind.encode(struct.unpack("<d", struct.pack("<Q", bits))[0]) | 1 << 51, bits | 1 << 51)
            self.assertEqual(struct.pack("<d", kind.decode(bits)), struct.pack("<Q", bits))

    def test_what_has_no_place_overflows_and_another_type_is_refused(self):
        cases = [
            (zelamiku.Field(), (-1, MOST + 1, 2**70), (1.0, "1", None)),
            (zelamiku.Signed(), (2**63, -(2**63) - 1), (1.0, None)),
            (zelamiku.Bool(), (), (1, 0, None, "")),
            (zelamiku.Float(), (10**400,), ("1", None)),
            (zelamiku.Ref(), (-1, MOST), (1.5, "1")),
        ]
        for kind, too_large, wrong in cases:
            for error, values in ((OverflowError, too_large), (TypeError, wrong)):
                for value in values:
                    with self.subTest(kind=type(kind).__name__, value=value), self.assertRaises(error):
                        kind.encode(value)
        for make in (lambda: zelamiku.Field(-1), lambda: zelamiku.Signed(2**63), lambda: zelamiku.Ref(-1)):
            with self.assertRaisesRegex(ValueError, "first can't be"):
                make()
        with self.assertRaisesRegex(ValueError, "1 field or more, and not 0"):
            zelamiku.Array(zelamiku.Field(), 0)
        for kind in (zelamiku.Pool(3), zelamiku.Array(zelamiku.Field(), 2), zelamiku.Field):
            with self.assertRaisesRegex(TypeError, "an array is of a kind of field"):
                zelamiku.Array(kind, 2)
        for slots in (0, -1, 16_384):
            with self.assertRaisesRegex(ValueError, "1 to 16,383 slots"):
                zelamiku.Pool(slots)


class Classes(unittest.TestCase):
    def test_bases_come_first(self):
        class Named(zelamiku.Object):
            label = zelamiku.Field()

        class Priced(zelamiku.Object):
            price = zelamiku.Field()

        class Thing(Named, Priced):
            count = zelamiku.Field()

        class Other(Thing):
            label = zelamiku.Signed()

        self.assertEqual(list(Thing._members), ["price", "label", "count"])
        self.assertEqual(list(Other._members), ["price", "label", "count"])
        self.assertIs(Other._members["label"], vars(Other)["label"])
        self.assertIsInstance(Thing.count, zelamiku.Field)
        with self.assertRaisesRegex(TypeError, r"zelamiku\.open\(PATH, NAME=Thing\)"):
            Thing()

    def test_one_field_has_one_name(self):
        """Else both names would be of the field that was declared last."""
        both, make = zelamiku.Field(), type(zelamiku.Object)
        for members in ({"left": both, "right": both}, {"other": both}):
            with self.assertRaisesRegex(TypeError, r"Wrong\.(right|other): it is declared as left before"):
                make("Wrong", (zelamiku.Object,), members)
        self.assertEqual(list(make("Again", (zelamiku.Object,), {"left": both})._members), ["left"])

    def test_names_of_its_own_are_refused(self):
        for name in ("wait", "notify", "notify_all", "_own", "__init__"):
            with self.subTest(name), self.assertRaisesRegex(TypeError, "a name of zelamiku.Object's own"):
                type(zelamiku.Object)("Wrong", (zelamiku.Object,), {name: zelamiku.Field()})


if __name__ == "__main__":
    unittest.main()
