"""What statuses become."""
import errno
import pickle
import unittest

import zelamiku
from zelamiku import errors
from zelamiku.library import NO_NUMBER, FailureRow, library


class Kinds(unittest.TestCase):
    def error(self, status, also={}, about="", number=0, cause=b"it went wrong", cure=b"do it again"):
        row = FailureRow(status=status, error=number, object=NO_NUMBER, field=NO_NUMBER, cause=cause, cure=cure)
        return library().error("some.heap", row, also, about)

    def test_each_status_is_an_exception_with_path_cause_and_cure(self):
        for status in errors.KINDS:
            error = self.error(status)
            self.assertIs(type(error), errors.KINDS[status])
            self.assertEqual((error.path, error.cause, error.cure), ("some.heap", "it went wrong", errors.CURES.get(type(error), "do it again")))
            self.assertEqual(str(error), f"some.heap: it went wrong; {error.cure}")
            self.assertIsNone(error.__cause__)
        self.assertIs(type(self.error(77)), zelamiku.Refused)
        self.assertIs(type(self.error(18, errors.MONITOR)), zelamiku.Refused)
        # The system's number is chained.
        error = self.error(32, errors.OPENING, "it.balance: ", errno.ENOSPC)
        self.assertEqual((type(error), error.cause), (zelamiku.FileError, "it.balance: it went wrong: No space left on device"))
        self.assertEqual((type(error.__cause__), error.__cause__.errno, error.__cause__.filename), (OSError, errno.ENOSPC, "some.heap"))

    def test_a_text_that_is_no_utf_8_is_told_too(self):
        error = self.error(77, cause=b"of \xff", cure=b"see \xfe")
        self.assertEqual((error.cause, error.cure), ("of \ufffd", "see \ufffd"))

    def test_a_failure_of_another_call_meanwhile_gives_no_text(self):
        calls = library()
        # A handle that never was, as of a signal's handler.
        self.assertEqual(calls.heap_close(0), 1)
        self.assertEqual(calls.failure(1).status, 1)
        error = calls.error("some.heap", calls.failure(32))
        self.assertIs(type(error), zelamiku.WriteFailed)
        self.assertEqual((error.cause, error.cure), (calls.status_text(32).decode(), "try again"))

    def test_they_are_what_python_calls_such(self):
        for kind, base in (
            (zelamiku.OutOfRange, ValueError),
            (zelamiku.BadPlan, ValueError),
            (zelamiku.TimedOut, TimeoutError),
            (zelamiku.NoHeap, FileNotFoundError),
            (zelamiku.NoMemory, MemoryError),
            (zelamiku.Closed, zelamiku.Stopped),
            (zelamiku.NoHeap, zelamiku.OpenError),
            (zelamiku.NotReverted, zelamiku.Refused),
            (zelamiku.WriteFailed, zelamiku.Refused),
        ):
            self.assertTrue(issubclass(kind, base) and issubclass(kind, zelamiku.Error))
        for kind in (zelamiku.Refused, zelamiku.OpenError, zelamiku.NoMemory, zelamiku.NoLibrary):
            self.assertFalse(issubclass(kind, zelamiku.Stopped))

    def test_all_are_exported_documented_and_can_be_sent_to_another_process(self):
        for name in zelamiku.__all__:
            self.assertTrue(getattr(zelamiku, name).__doc__, name)
        for name, kind in vars(errors).items():
            if isinstance(kind, type) and issubclass(kind, zelamiku.Error):
                self.assertIn(name, zelamiku.__all__)
                again = pickle.loads(pickle.dumps(kind("a path", "a cause", "a cure")))
                self.assertEqual((type(again), again.path, again.cause, again.cure), (kind, "a path", "a cause", "a cure"))
                self.assertEqual((str(again), getattr(again, "errno", None)), ("a path: a cause; a cure", None))


if __name__ == "__main__":
    unittest.main()
