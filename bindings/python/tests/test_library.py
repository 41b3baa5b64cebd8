"""Where the library is looked for, what is wrong with another one, and its structs."""
import ctypes.util
import os
import re
import shutil
import tempfile
import unittest
from pathlib import Path
from unittest import mock

import zelamiku
from zelamiku import library


class Places(unittest.TestCase):
    def test_the_variable_comes_first_then_the_package_then_pkg_config(self):
        with mock.patch.dict(os.environ, {"ZELAMIKU_LIBS": "/one:/two"}), mock.patch.object(library, "_asked_of_pkg_config", lambda: "/three"):
            places = [str(path) for path in library.places()]
        self.assertEqual(places, [f"{folder}/libzelamiku.so.1" for folder in ("/one", "/two", Path(library.__file__).parent, "/three")])
        with tempfile.TemporaryDirectory() as folder:
            Path(folder, "zelamiku.pc").write_text("libdir=/there\nName: zelamiku\nDescription: it\nVersion: 1\n")
            with mock.patch.dict(os.environ, {"PKG_CONFIG_PATH": folder}):
                self.assertEqual(library._asked_of_pkg_config(), "/there" if shutil.which("pkg-config") else "")
        with mock.patch.dict(os.environ, {"PATH": "/nowhere"}):
            self.assertEqual(library._asked_of_pkg_config(), "")


class Wrong(unittest.TestCase):
    def test_no_library_and_another_one_are_refused(self):
        with self.assertRaisesRegex(zelamiku.NoLibrary, "can't be loaded.*ZELAMIKU_LIBS") as caught:
            library.Library("/nowhere/libzelamiku.so.1")
        self.assertEqual(caught.exception.path, "/nowhere/libzelamiku.so.1")
        with self.assertRaisesRegex(zelamiku.NoLibrary, "has no zelamiku_version"):
            library.Library(ctypes.util.find_library("c"))
        version = library.library().version()
        with mock.patch.object(library, "VERSION", version + 1), self.assertRaisesRegex(zelamiku.NoLibrary, f"this package needs {version + 1};"):
            library.Library(library.library().path)
        with self.assertRaisesRegex(AttributeError, "the library has no call zelamiku_fly"):
            library.library().fly


class Structs(unittest.TestCase):
    def test_numbers_are_those_of_the_header(self):
        header = Path(__file__).parents[2].joinpath("c", "zelamiku.h").read_text()
        numbers = {name: int(number) for name, number in re.findall(r"\bZELAMIKU_(\w+)(?: =)? (\d+)", header)}
        for name in ("MOST_LANES", "NOBODY", "NO_NUMBER", "OK", "NOTHING", "NONE_LEFT", "RUNNING", "NOT_HELD", "BEHIND", "HELD", "DEVICE", "POOL_EMPTY",
                     "CLOSED", "ABANDONED", "OTHER_HEAP"):  # fmt: skip
            self.assertEqual(getattr(library, name), numbers[name], name)
        for kind, front in ((zelamiku.Cause, "ROUND_"), (zelamiku.Why, "")):
            self.assertEqual({each.name: each.value for each in kind}, {name: numbers[front + name] for name in kind.__members__})

    def test_each_has_the_size_of_the_header_and_says_it(self):
        sizes = {
            library.FieldRow: 24,
            library.WaitRow: 16,
            library.PlanRow: 88,
            library.ReportRow: 352,
            library.DroppedRow: 32,
            library.StatsRow: 112,
            library.ProgressRow: 40,
            library.FailureRow: 56,
        }
        for struct, size in sizes.items():
            self.assertEqual(ctypes.sizeof(struct), size, struct.__name__)
            if issubclass(struct, library.Sized):
                self.assertEqual(struct().size, size)


if __name__ == "__main__":
    unittest.main()
