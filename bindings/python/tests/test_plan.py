"""How what is declared is numbered and fingerprinted, without the library."""
import math
import unittest

import zelamiku
from zelamiku.plan import PlannedField, Plan


class Account(zelamiku.Object):
    balance = zelamiku.Field(first=100)
    seen = zelamiku.Bool(transient=True)


class Queue(zelamiku.Object):
    head = zelamiku.Ref()
    slots = zelamiku.Pool(2)
    value = zelamiku.Array(zelamiku.Signed(first=-1), 2)


class Bare(zelamiku.Object):
    pass


class Numbers(unittest.TestCase):
    def test_objects_and_fields_come_in_the_order_of_their_declaration(self):
        plan = Plan({"queue": Queue, "bare": Bare, "accounts": [Account, Account]})
        self.assertEqual(plan.places, {"queue": 0, "bare": 1, "accounts": range(2, 4)})
        fields = [
            PlannedField("queue.head", 0, 0, 0, False),
            PlannedField("queue.slots", 0, 0, 1, False),
            PlannedField("queue.slots[0]", 0, 0, 2, False),
            PlannedField("queue.slots[1]", 0, 0, 0, False),
            PlannedField("queue.value[0]", 0, 0, 2**64 - 1, False),
            PlannedField("queue.value[1]", 0, 0, 2**64 - 1, False),
            PlannedField("accounts[0].balance", 2, 2, 100, False),
            PlannedField("accounts[0].seen", 2, 2, 0, True),
            PlannedField("accounts[1].balance", 3, 3, 100, False),
            PlannedField("accounts[1].seen", 3, 3, 0, True),
        ]
        self.assertEqual(plan.fields, fields)
        for planned in plan.objects:
            for name, number in planned.numbers.items():
                self.assertTrue(plan.fields[number].name.startswith(f"{planned.name}.{name}"))

    def test_a_guard_is_named(self):
        class Guarded(zelamiku.Object):
            total = zelamiku.Field(guard="account")
            parts = zelamiku.Array(zelamiku.Field(guard="account"), 2)

        plan = Plan({"total": Guarded, "account": Account})
        self.assertEqual([(each.owner, each.guard) for each in plan.fields], [(0, 1)] * 3 + [(1, 1)] * 2)
        for kind in (zelamiku.Field, zelamiku.Signed, zelamiku.Bool, zelamiku.Float, zelamiku.Ref):
            other = type(zelamiku.Object)("Other", (zelamiku.Object,), {"total": kind(guard="account", transient=True)})
            planned = Plan({"total": other, "account": Account}).fields[0]
            self.assertEqual((planned.guard, planned.is_transient), (1, True), kind)
        for declared in ({"total": Guarded}, {"total": Guarded, "account": [Account]}):
            with self.assertRaisesRegex(ValueError, "total.total: its guard 'account' is the name of no single object"):
                Plan(declared)

    def test_what_is_wrong_is_refused_before_the_library(self):
        for wrong in (int, zelamiku.Field, Account.balance, 5, [Account, 5], ["x"], None):
            with self.subTest(wrong=wrong), self.assertRaises(TypeError):
                Plan({"it": wrong})
        for name in ("close", "objects", "synchronized", "_own", "__init__"):
            with self.assertRaisesRegex(ValueError, "a name of zelamiku.Heap's own"):
                zelamiku.open("never.heap", **{name: Account})
        wrong = {"lanes": (0, 33, -1), "capacity": (1_999, 2**40), "ring": (4_095, 65_537), "linger": (10**6, -1, math.inf), "fingerprint": (0, 2**64)}
        for name, values in wrong.items():
            for value in values:
                with self.subTest(name=name, value=value), self.assertRaisesRegex(zelamiku.BadPlan, name):
                    zelamiku.open("never.heap", it=Account, **{name: value})
        with self.assertRaises(TypeError):
            zelamiku.open("never.heap", it=Account, lanes=2.5)


def fnv(*names: str) -> int:
    number = 14695981039346656037
    for byte in b"\xff".join(name.encode() for name in names):
        number = (number ^ byte) * 1099511628211 % 2**64
    return number


class Fingerprints(unittest.TestCase):
    def test_it_is_as_documented(self):
        """docs/EMBEDDING.md, "Opening", has the first. It is of names in their order, and of no class or first value."""
        self.assertEqual(Plan({"alice": Bare, "bob": Bare}).fingerprint(), 0xE79B2629BC4013B3)
        names = ["queue", "accounts[0]", "queue.head", "queue.slots", "queue.slots[0]", "queue.slots[1]", "queue.value[0]", "queue.value[1]"]
        names += ["accounts[0].balance", "accounts[0].seen"]
        self.assertEqual(Plan({"queue": Queue, "accounts": [Account]}).fingerprint(), fnv(*names))


class Differences(unittest.TestCase):
    """test_heap.py has those that the library finds."""

    def test_the_last_field_may_be_the_fingerprint_of_a_smaller_heap(self):
        plan = Plan({"alice": Account, "more": [Account] * 3})
        self.assertTrue(plan.difference(6, 7, 1, 0).endswith("declared as durable, or it is the fingerprint of a heap of 7 fields"))
        self.assertTrue(plan.difference(6, 7, 0, 1).endswith("declared as transient"))
        self.assertIn("there object 99 guards it", plan.difference(5, 7, 99, 4))
        self.assertTrue(plan.cure(1, 1).startswith("ask for 1; "))
        for what in range(2, 7):
            self.assertEqual(plan.cure(what, 1), "declare what the file has, or choose another path")


if __name__ == "__main__":
    unittest.main()
