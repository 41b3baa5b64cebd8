"""A file whose writes and syncs fail: by a library that is loaded before, so each case is a process of its own."""
import os
import shutil
import subprocess
import tempfile
import unittest
from pathlib import Path

from support import OnFile, in_process

CASE = """
import asyncio, errno
from pathlib import Path
heap = zelamiku.open(sys.argv[1], alice=Account, bob=Account)
fault = {what: Path(os.environ["FAULTS"] + "." + what) for what in ("sync", "write")}
def pay(amount):
    with heap.synchronized(heap.alice):
        heap.alice.balance += amount
def show(*calls):
    for call in calls:
        try:
            print(call())
        except zelamiku.Error as error:
            cause = error.__cause__ or error.__context__
            print(type(error).__name__, errno.errorcode[cause.errno] if isinstance(cause, OSError) else None)
pay(1)
heap.durable()
"""

WRITES = """
fault["write"].touch()
pay(10)
show(heap.durable, heap.durable, lambda: asyncio.run(heap.durable_async()), heap.close)
fault["write"].unlink()
show(heap.durable, lambda: heap.stats().troubles > 0, heap.close)
"""

STOPS = """
fault["write"].touch()
pay(10)
show(getattr(heap, sys.argv[2]), heap.durable, lambda: pay(1), heap.close)
"""

ENDS = """
fault["write"].touch()
def leave():
    with heap:
        pay(10)
show(leave, heap.durable)
"""

SYNCS = """
fault["sync"].touch()
pay(10)
show(heap.durable, lambda: asyncio.run(heap.durable_async()), lambda: pay(1), heap.close, heap.close)
"""

COPIES = """
for what in ("write", "sync"):
    fault[what].touch()
    show(lambda: heap.copy_to(sys.argv[1] + ".copy"))
    fault[what].unlink()
show(lambda: heap.copy_to(sys.argv[1] + ".copy"), heap.close)
"""


@unittest.skipUnless(shutil.which("cc"), "there is no cc")
class Faults(OnFile):
    @classmethod
    def setUpClass(cls) -> None:
        folder = tempfile.TemporaryDirectory()
        cls.addClassCleanup(folder.cleanup)
        cls.faults = str(Path(folder.name, "faults.so"))
        source = str(Path(__file__).with_name("faults.c"))
        subprocess.run(["cc", "-Wall", "-Wextra", "-shared", "-fPIC", source, "-o", cls.faults, "-ldl"], check=True)

    def test_what_fails_is_reported_with_the_systems_number(self):
        write, sync = "WriteFailed ENOSPC", "SyncFailed EIO"
        # A write that fails is made again; one of a stop is the end, and so is a sync.
        cases = [
            (WRITES, "", [write] * 4 + ["True", "True", "None"], [[111, 100]]),
            (STOPS, "stop", ["SyncFailed ENOSPC", "Closed None", "Closed None", "None"], [[101, 100]]),
            (STOPS, "abandon", ["SyncFailed ENOSPC", "Abandoned None", "Abandoned None", "None"], [[101, 100]]),
            (ENDS, "", [write, "Closed None"], [[101, 100]]),
            (SYNCS, "", [sync] * 4 + ["None"], [[101, 100], [111, 100]]),
            (COPIES, "", ["CopyFailed ENOSPC", "CopyFailed EIO", "None", "None"], [[101, 100]]),
        ]
        for number, (case, word, lines, balances) in enumerate(cases):
            with self.subTest(case + word):
                self.path = str(self.folder / f"{number}.heap")
                how = {**os.environ, "LD_PRELOAD": self.faults, "FAULTS": f"{self.path}.fault"}
                ran = in_process(CASE + case, self.path, word, env=how)
                self.assertEqual((ran.returncode, ran.stderr, ran.stdout.splitlines()), (0, "", lines))
                with self.open() as heap:
                    self.assertIn(self.values(heap), balances)


if __name__ == "__main__":
    unittest.main()
