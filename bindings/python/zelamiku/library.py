"""The shared library, ``libzelamiku.so.1``: where it is found, and its calls.

The declarations are those of ``zelamiku.h``, by the same names. A call that may sleep releases the interpreter's lock, so that other threads run
meanwhile. The others are short, call nothing of Python, and keep it: a thread that released it at each load would wait for it as long as any
other thread computes.
"""
from __future__ import annotations

import ctypes
import functools
import os
from collections.abc import Iterator, Mapping
from ctypes import POINTER, byref, c_bool, c_char_p, c_int, c_int32, c_size_t, c_uint32, c_uint64, c_void_p
from pathlib import Path
from typing import Any

from .errors import CURES, KINDS, Error, NoLibrary, Refused, Stopped

NAME = "libzelamiku.so.1"
VERSION = 200
"""ZELAMIKU_VERSION_NUMBER of the header that these declarations are of. A newer library of the same layout, which the name has, serves too."""

MOST_LANES = 32
NOBODY = 64
NO_NUMBER = 2**32 - 1
NO_DEADLINE = 2**64 - 1
ALL_SECTIONS = 2**64 - 1

OK = 0
NOTHING = 1
NONE_LEFT = 6
RUNNING = 9
NOT_HELD = 12
BEHIND = 13
HELD = 19
DEVICE = 32
POOL_EMPTY = 36
CLOSED = 39
ABANDONED = 42
OTHER_HEAP = 43


def _members(kind: Any, names: str) -> list[tuple[str, Any]]:
    return [(name, kind) for name in names.split()]


class Sized(ctypes.Structure):
    """A struct that begins with its size."""

    def __init__(self, **values: Any) -> None:
        super().__init__(ctypes.sizeof(self), **values)


class FieldRow(ctypes.Structure):
    """zelamiku_field"""

    _fields_ = [("owner", c_uint32), ("guard", c_uint32), ("first", c_uint64), ("is_transient", c_uint32)]


class WaitRow(ctypes.Structure):
    """zelamiku_wait"""

    _fields_ = _members(c_uint32, "lane object owner in_circle")


LOG_HOOK = ctypes.CFUNCTYPE(None, c_void_p, c_uint32, c_char_p)
"""zelamiku_log"""


class PlanRow(Sized):
    """zelamiku_plan"""

    _fields_ = [
        *_members(c_uint32, "size objects"),
        ("fields", POINTER(FieldRow)),
        *_members(c_uint32, "count lanes capacity ring linger upgrades must_exist reverts"),
        ("fingerprint", c_uint64),
        *_members(c_void_p, "log log_context device"),
        *_members(c_uint32, "atomic_sectors reserved"),
    ]


class ReportRow(Sized):
    """zelamiku_report"""

    _fields_ = [
        *_members(c_uint32, "size is_made is_upgraded objects fields lanes capacity damage bad_lane difference field reserved"),
        *_members(c_uint64, "has planned bad_place bytes dropped undone"),
        ("kept", c_uint64 * MOST_LANES),
    ]


class DroppedRow(Sized):
    """zelamiku_dropped"""

    _fields_ = _members(c_uint32, "size why lane other_lane") + _members(c_uint64, "section other_section")


class StatsRow(Sized):
    """zelamiku_stats"""

    _fields_ = [
        *_members(c_uint32, "size lent awaiting entering last_cause is_astray"),
        *_members(c_uint64, "rounds sections records calls syncs troubles calls_time longest_round two_sync_rounds four_sync_rounds one_sync_rounds"),
    ]


class ProgressRow(Sized):
    """zelamiku_progress"""

    _fields_ = _members(c_uint32, "size lane is_open end") + _members(c_uint64, "sections durable earlier")


class FailureRow(Sized):
    """zelamiku_failure"""

    _fields_ = [
        *_members(c_uint32, "size status"),
        ("error", c_int32),
        *_members(c_uint32, "object field reserved"),
        *_members(c_char_p, "path call cause cure"),
    ]


_HEAP = _THREAD = c_uint64

# What each call takes; it returns a status.
_SLEEPING: dict[str, list[Any]] = {
    "heap_open": [POINTER(c_uint64), c_char_p, POINTER(PlanRow), POINTER(ReportRow)],
    "heap_close": [_HEAP],
    "heap_stop": [_HEAP, c_uint32],
    "heap_copy": [_HEAP, c_char_p],
    "thread_enter_until": [_THREAD, c_uint32, c_uint64],
    "thread_wait": [_THREAD, c_uint32],
    "thread_await_until": [_THREAD, c_uint64, c_uint64, POINTER(c_bool)],
}
_SHORT: dict[str, list[Any]] = {
    "heap_dropped": [_HEAP, c_size_t, POINTER(DroppedRow)],
    "heap_stats": [_HEAP, POINTER(StatsRow)],
    "heap_waits": [_HEAP, POINTER(WaitRow), c_size_t, POINTER(c_size_t)],
    "thread_begin": [POINTER(c_uint64), _HEAP],
    "thread_end": [_THREAD],
    "thread_exit": [_THREAD, c_uint32],
    "thread_load": [_THREAD, c_uint32, POINTER(c_uint64)],
    "thread_store": [_THREAD, c_uint32, c_uint64],
    "thread_revert": [_THREAD],
    "thread_notify": [_THREAD, c_uint32, c_bool, POINTER(c_uint64)],
    "thread_take": [_THREAD, c_uint32, c_uint32, POINTER(c_uint32)],
    "thread_give": [_THREAD, c_uint32, c_uint32, c_uint32],
    "thread_progress": [_THREAD, POINTER(ProgressRow)],
    "thread_event": [_THREAD, POINTER(c_int)],
    "thread_ask": [_THREAD, POINTER(c_uint64)],
    "pool_fields": [c_uint32, POINTER(FieldRow), c_size_t],
}


class Library:
    """The calls of a shared library, each an attribute by its name without ``zelamiku_``."""

    def __init__(self, path: str) -> None:
        try:
            releases, keeps = ctypes.CDLL(path), ctypes.PyDLL(path)
        except OSError as error:
            raise NoLibrary(path, f"the shared library can't be loaded: {error}", CURE) from error
        self.path = path
        self.version = self._call(keeps, "version", [])
        version = self.version()
        if version < VERSION:
            raise NoLibrary(path, f"the library's version is {version}, and this package needs {VERSION}", "take both from one release")
        for name, takes in _SLEEPING.items():
            setattr(self, name, self._call(releases, name, takes))
        for name, takes in _SHORT.items():
            setattr(self, name, self._call(keeps, name, takes))
        # With a deadline of 0 it never sleeps.
        self.try_enter = self._call(keeps, "thread_enter_until", _SLEEPING["thread_enter_until"])
        self.heap_failure = self._call(keeps, "heap_failure", [POINTER(FailureRow)], c_char_p)
        self.status_text = self._call(keeps, "status_text", [c_uint32], c_char_p)

    def __getattr__(self, name: str) -> Any:
        raise AttributeError(f"the library has no call zelamiku_{name}")

    def _call(self, of: ctypes.CDLL, name: str, takes: list[Any], returns: Any = c_uint32) -> Any:
        try:
            call = getattr(of, f"zelamiku_{name}")
        except AttributeError:
            raise NoLibrary(self.path, f"the library has no zelamiku_{name}", "take both from one release") from None
        call.argtypes = takes
        call.restype = returns
        return call

    def failure(self, status: int) -> FailureRow:
        """The failure of this thread's last call, which has returned this status."""
        row = FailureRow()
        self.heap_failure(byref(row))
        if row.status != status:
            # A signal's handler has made another call meanwhile.
            row = FailureRow(status=status, object=NO_NUMBER, field=NO_NUMBER, cause=self.status_text(status), cure=b"")
        return row

    def error(self, path: str, row: FailureRow, also: Mapping[int, type[Error]] = {}, about: str = "") -> Error:
        """The exception for a failure. ``also`` has kinds before :data:`KINDS`."""
        kind = also.get(row.status) or KINDS.get(row.status, Refused)
        cure = CURES.get(kind) or row.cure.decode(errors="replace") or ("close the heap and open it again" if issubclass(kind, Stopped) else "try again")
        cause = about + row.cause.decode(errors="replace")
        if not row.error:
            return kind(path, cause, cure)
        error = kind(path, f"{cause}: {os.strerror(row.error)}", cure)
        error.__cause__ = OSError(row.error, os.strerror(row.error), path)
        return error


CURE = f"name the folder that has {NAME} in the variable ZELAMIKU_LIBS, or install it so that pkg-config finds zelamiku"


@functools.cache
def library() -> Library:
    """The library, loaded once. :class:`NoLibrary`: it wasn't found."""
    for path in places():
        if path.is_file():
            return Library(str(path))
    # Where the system's loader looks.
    return Library(NAME)


def places() -> Iterator[Path]:
    """Where the library may be: the folders in the variable ZELAMIKU_LIBS (``:`` between them), this package's own, pkg-config's."""
    for folder in os.environ.get("ZELAMIKU_LIBS", "").split(os.pathsep):
        if folder:
            yield Path(folder, NAME)
    yield Path(__file__).with_name(NAME)
    if folder := _asked_of_pkg_config():
        yield Path(folder, NAME)


def _asked_of_pkg_config() -> str:
    import subprocess  # most programs don't need it, and it takes its time

    words = ["pkg-config", "--variable=libdir", "zelamiku"]
    try:
        return subprocess.run(words, stdout=subprocess.PIPE, stderr=subprocess.DEVNULL, text=True, check=False).stdout.strip()
    except OSError:
        # It isn't installed.
        return ""
