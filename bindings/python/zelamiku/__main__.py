"""Shows a heap by the names that a program declares, and moves its values into another declaration.

    python -m zelamiku show FILE MODULE[:NAME]
    python -m zelamiku migrate FILE MODULE[:NAME] [MODULE[:NAME]] [--lanes N] [--atomic-sectors]

NAME is a variable of the module with the objects that the program opens, ``dict(alice=Account, accounts=[Account] * 64)``; by default OBJECTS.
The heap is opened as by the program, so no other process may have it meanwhile.

``show`` prints each durable field, and the slots of each pool that are taken.

``migrate`` makes a heap of the second declaration, or of the same one with another number of lanes. Each field whose name is in both keeps its
value, and the others begin with their first ones. Fields that are only in the old one are refused, unless you say ``--drop``. The new heap is
made beside the file, and takes its place once it is whole. The old one stays as FILE~.
"""
from __future__ import annotations

import argparse
import dataclasses
import importlib
import os
import sys
from collections.abc import Iterator
from pathlib import Path
from typing import Any

from .declare import Array, Member, Ref, Value
from .errors import Error
from .heap import Heap, make, open
from .plan import Plan

_TAKEN = 2**64 - 1
"""The field of a slot that is taken."""


class _Refused(Exception):
    """Why nothing was done."""


def _declared(name: str) -> dict[str, Any]:
    module, _, variable = name.partition(":")
    found = getattr(importlib.import_module(module), variable or "OBJECTS", None)
    if not isinstance(found, dict):
        raise _Refused(f"{module} has no dict {variable or 'OBJECTS'}: name the one that has the objects, as {module}:NAME")
    return found


def _members(plan: Plan) -> Iterator[tuple[str, Member, int]]:
    """Each member of each object: its name, itself, and the number of its first field."""
    for each in plan.objects:
        for key, member in each.cls._members.items():
            yield f"{each.name}.{key}", member, each.numbers[key]


def _bits(heap: Heap, plan: Plan) -> list[int]:
    """What the heap's fields have."""
    found = []
    for number, each in enumerate(plan.fields):
        with heap.synchronized(heap.objects[each.guard]):
            found.append(heap._own.lane.load(number))
    return found


def _kind(member: Member) -> Value[Any] | None:
    """The kind of a member's fields; a pool has none."""
    return member.kind if isinstance(member, Array) else member if isinstance(member, Value) else None


def show(path: str, objects: dict[str, Any]) -> None:
    """Prints what the heap's durable fields have."""
    plan = Plan(objects)
    with open(path, create=False, lanes=1, **objects) as heap:
        bits = _bits(heap, plan)
    for name, member, first in _members(plan):
        kind = _kind(member)
        if kind is None:
            taken = [str(slot) for slot, each in enumerate(bits[first + 1 : first + member.size]) if each == _TAKEN]
            print(f"{name} {len(taken)} of {member.size - 1} taken{':' if taken else ''} {' '.join(taken)}".rstrip())
        elif not member.is_transient:
            for number in range(first, first + member.size):
                print(plan.fields[number].name, kind.decode(bits[number]))


def _carried(old: Plan, bits: list[int], new: Plan) -> Iterator[tuple[int, int]]:
    """The number of each field of the new plan that keeps a value of the old one, and that value's bits."""
    before = {name: (member, first) for name, member, first in _members(old)}
    moved = {each.name for number, each in enumerate(old.objects) if [one.name for one in new.objects[number : number + 1]] != [each.name]}
    for name, member, first in _members(new):
        source, begin = before.get(name, (None, 0))
        kind, other = _kind(member), _kind(source) if source else None
        if source is None or member.is_transient or source.is_transient:
            continue
        values = bits[begin : begin + source.size]
        if kind is None or other is None:
            if kind is not other or (member.size != source.size and _TAKEN in values):
                raise _Refused(f"{name}: a pool that has slots taken can't become another member, or one of other slots")
            yield from zip(range(first, first + member.size), values if member.size == source.size else [])
            continue
        for number, value in zip(range(first, first + member.size), values):
            if isinstance(other, Ref) and value and moved:
                raise _Refused(f"{new.fields[number].name}: it has a number, and {min(moved)} would have another one: declare new objects last")
            try:
                yield number, value if type(kind) is type(other) else kind.encode(other.decode(value))
            except (OverflowError, TypeError) as error:
                raise _Refused(f"{new.fields[number].name} can't be {other.decode(value)!r}: {error}") from None


def migrate(path: str, objects: dict[str, Any], wanted: dict[str, Any], lanes: int | None, drops: bool, atomic_sectors: bool | None) -> None:
    """Puts a heap of the wanted objects in the file's place, with the values that it had. If `atomic_sectors` is None, its rounds
    take as many syncs as before."""
    path = os.path.realpath(path)
    old, new = Plan(objects), Plan(wanted)
    kept, beside = path + "~", path + ".migrated"
    with open(path, create=False, lanes=1, **objects) as heap:
        if os.path.lexists(kept):
            raise _Refused(f"{kept} is there: remove it, or keep it elsewhere")
        gone = [each.name for each in old.fields if each.name not in {other.name for other in new.fields} and not each.is_transient]
        if gone and not drops:
            raise _Refused(f"these would be lost: {', '.join(gone)}; say --drop")
        for number, bits in _carried(old, _bits(heap, old), new):
            new.fields[number] = dataclasses.replace(new.fields[number], first=bits)
        if os.path.lexists(beside):
            os.remove(beside)
        if atomic_sectors is None:
            with Path(path).open("rb") as file:
                atomic_sectors = file.read(8) == b"MONIHALF"
        # The values are the new heap's first ones, so it is made with all of them or not at all.
        make(beside, new, heap.report.lanes if lanes is None else lanes, heap.report.capacity, atomic_sectors)
        os.link(path, kept)
        os.rename(beside, path)
        folder = os.open(os.path.dirname(path), os.O_RDONLY)
        try:
            os.fsync(folder)
        finally:
            os.close(folder)
    print(f"{path} has {len(new.fields)} fields of {len(new.objects)} objects; {kept} is the old heap")


def main() -> None:
    parser = argparse.ArgumentParser(prog="python -m zelamiku", description=__doc__, formatter_class=argparse.RawDescriptionHelpFormatter)
    words = parser.add_subparsers(dest="word", required=True)
    shows, migrates = words.add_parser("show"), words.add_parser("migrate")
    for each in (shows, migrates):
        each.add_argument("file", metavar="FILE")
        each.add_argument("objects", metavar="MODULE[:NAME]")
    migrates.add_argument("wanted", nargs="?", metavar="MODULE[:NAME]", help="the new declaration; by default the same one")
    migrates.add_argument("--lanes", type=int, metavar="N", help="for so many threads; by default as many as it has")
    migrates.add_argument("--drop", action="store_true", help="lose the fields that the new declaration doesn't have")
    syncs = "rounds take one sync (see zelamiku.open), or two; by default as many as before"
    migrates.add_argument("--atomic-sectors", action=argparse.BooleanOptionalAction, help=syncs)
    chosen = parser.parse_args()
    try:
        objects = _declared(chosen.objects)
        if chosen.word == "show":
            show(chosen.file, objects)
        else:
            wanted = _declared(chosen.wanted) if chosen.wanted else objects
            migrate(chosen.file, objects, wanted, chosen.lanes, chosen.drop, chosen.atomic_sectors)
        print(end="", flush=True)
    except (Error, _Refused, ImportError, OSError) as error:
        # Python writes again at the end what the output hasn't taken.
        os.dup2(os.open(os.devnull, os.O_WRONLY), 1)
        sys.exit(141 if isinstance(error, BrokenPipeError) else f"zelamiku: {error}")


if __name__ == "__main__":
    main()
