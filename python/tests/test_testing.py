"""What a test learns of the history that it recorded."""
import importlib.util
import os
import pathlib
import subprocess
import sys
import tempfile
import textwrap
import threading
import unittest
from typing import Any, Callable, List, Optional, Tuple
from unittest import mock

from regkit import pytest_plugin, testing
from regkit.checker.programs import NoChecker, find_checker
from regkit.record import Recorder, RecordingError
from regkit.testing import NotAtomic, NotChecked, TooLittleEvidence, assert_atomic

PYTHON = pathlib.Path(__file__).resolve().parents[1]

Step = Tuple[str, Optional[int]]


def recorded(steps: List[Step], recorder: Optional[Recorder] = None) -> Recorder:
    """One client's calls, one after the other: ("write", None), or ("read", what it gives)."""
    recorder = recorder or Recorder()
    with recorder.client() as client:
        for op, value in steps:
            if op == "write":
                with client.write("x") as write:
                    assert write.value > 0
            else:
                with client.read("x") as read:
                    read.value = value
    return recorder


class Register:
    """A register that compares and swaps in two steps. If it looks again, it swaps only what
    it still finds."""

    def __init__(self, looks_again: bool) -> None:
        self.looks_again = looks_again
        self.value: Optional[int] = None

    def swap(self, from_: int, to: int, compared: Callable[[], None] = lambda: None) -> bool:
        """`compared` is called between its two steps."""
        found = self.value == from_
        compared()
        if not found or self.looks_again and self.value != from_:
            return False
        self.value = to
        return True


def locked(looks_again: bool) -> Recorder:
    """Two clients take one lock at once, and the second one gives it back."""
    recorder, store = Recorder(), Register(looks_again)
    first, second = recorder.client(), recorder.client()

    def write(value: int) -> None:
        with second.write("lock", value):
            store.value = value

    def swap_too() -> None:
        with second.cas("lock", 0, 1) as cas:
            cas.ok = store.swap(0, 1)

    write(0)
    with first.cas("lock", 0, 1) as cas:
        cas.ok = store.swap(0, 1, swap_too)
    write(0)
    with first.read("lock") as read:
        read.value = store.value
    return recorder


FINE: List[Step] = [("write", None), ("read", 1)]
STALE: List[Step] = [("write", None), ("read", 1), ("write", None), ("read", 1)]


class Verdicts(unittest.TestCase):
    def setUp(self) -> None:
        """A folder for the histories that are kept."""
        folder = tempfile.TemporaryDirectory()
        self.addCleanup(folder.cleanup)
        self.folder = pathlib.Path(folder.name)
        patch = mock.patch.object(tempfile, "tempdir", folder.name)
        patch.start()
        self.addCleanup(patch.stop)

    def test_yes_with_its_evidence(self) -> None:
        recorder = recorded(FINE)
        with recorder.write("x") as write, recorder.read("x") as read:
            read.value = write.value - 1
        evidence = assert_atomic(recorder, least_reads=2, least_overlaps=1)
        self.assertEqual(evidence.operations, 4)
        self.assertEqual((evidence.completed_reads, evidence.overlapping_reads), (2, 1))

    def test_no_with_its_explanation(self) -> None:
        with self.assertRaises(NotAtomic) as caught:
            assert_atomic(recorded(STALE))
        text = str(caught.exception)
        self.assertIsInstance(caught.exception, AssertionError)
        self.assertIn("not linearizable: 1 of 1 register\n", text)
        self.assertIn("the write of 2 by process 1 (lines 5 to 6)", text)
        self.assertIn("the read of 1 by process 1 (lines 7 to 8)", text)

    def test_the_faulty_registers_are_counted(self) -> None:
        recorder = recorded(STALE)
        for value in (None, 1):
            with recorder.read("y") as read:
                read.value = value
        with recorder.read("z") as read:
            read.value = None
        with self.assertRaisesRegex(NotAtomic, "2 of 3 registers"):
            assert_atomic(recorder)

    def test_a_history_in_memory_is_kept_if_it_fails(self) -> None:
        recorder = recorded(STALE)
        with self.assertRaises(NotAtomic) as caught:
            assert_atomic(recorder)
        (path,) = self.folder.iterdir()
        self.assertIn(f"regkit draw {path} ", str(caught.exception))
        self.assertEqual(path.read_bytes(), recorder.history())

    def test_nothing_is_no_proof(self) -> None:
        table: List[List[Step]] = [[], [("write", None)] * 3]
        for steps in table:
            with self.subTest(steps=steps):
                recorder = recorded(steps)
                with self.assertRaisesRegex(TooLittleEvidence, "0 completed reads") as caught:
                    assert_atomic(recorder)
                self.assertIsInstance(caught.exception, AssertionError)
                self.assertEqual(assert_atomic(recorder, least_reads=0).completed_reads, 0)

    def test_a_pending_read_is_no_evidence(self) -> None:
        recorder = recorded([("write", None)])
        with recorder.read("x") as read:
            read.unknown()
        with self.assertRaises(TooLittleEvidence):
            assert_atomic(recorder)

    def test_more_evidence_can_be_asked_for(self) -> None:
        for least, why in [({"least_reads": 2}, "1 completed reads; the least is 2"),
                           ({"least_overlaps": 1}, "0 completed reads that overlap a write; the least is 1")]:
            with self.subTest(least=least), self.assertRaisesRegex(TooLittleEvidence, why):
                assert_atomic(recorded(FINE), **least)

    def test_paths_and_bytes(self) -> None:
        with tempfile.TemporaryDirectory() as directory:
            for steps, status in [(FINE, None), (STALE, NotAtomic)]:
                path = pathlib.Path(directory) / "history.jsonl"
                with Recorder(path) as recorder:
                    recorded(steps, recorder)
                forms: List[Any] = [recorder, path, str(path), path.read_bytes()]
                for history in forms:
                    with self.subTest(history=history, status=status):
                        if status is None:
                            self.assertEqual(assert_atomic(history).completed_reads, 1)
                        else:
                            self.assertRaises(status, assert_atomic, history)

    def test_a_lock_by_cas(self) -> None:
        self.assertEqual(assert_atomic(locked(True)).completed_reads, 3)
        with self.assertRaisesRegex(NotAtomic, "the cas from 0 to 1 that took place, by process 2 "):
            assert_atomic(locked(False))

    def test_bounds_of_the_search(self) -> None:
        with self.assertRaisesRegex(NotChecked, "unknown: .* raise `steps`"):
            assert_atomic(locked(True), steps=1)
        with self.assertRaisesRegex(ValueError, "configurations is 0, and a whole number from 1 "):
            assert_atomic(locked(True), configurations=0)

    def test_a_refused_history_is_no_verdict(self) -> None:
        twice = b'{"process":1,"event":"call","op":"read","register":"x"}\n' * 2
        with self.assertRaisesRegex(NotChecked, "line 2: the process has an open call at line 1") as caught:
            assert_atomic(twice)
        # A test that expects a fault must not take this for one.
        self.assertNotIsInstance(caught.exception, AssertionError)

    def test_a_missing_checker_is_no_verdict(self) -> None:
        with mock.patch.dict(os.environ, {"REGCHECK": "/no/such/program"}), self.assertRaises(NoChecker):
            assert_atomic(recorded(FINE))

    def test_a_mistake_in_a_thread_comes_out(self) -> None:
        recorder = recorded(FINE)

        def forget() -> None:
            try:
                with recorder.read("x"):
                    pass
            except RecordingError:
                pass

        thread = threading.Thread(target=forget)
        thread.start()
        thread.join()
        with self.assertRaisesRegex(RecordingError, "was used wrongly: a read of 'x' was given no value"):
            assert_atomic(recorder)


class Kept(unittest.TestCase):
    def test_a_history_is_kept_under_its_tests_name(self) -> None:
        with tempfile.TemporaryDirectory() as directory:
            recorder = recorded(FINE)
            for test, name in [("test_a.py::test_b[c/d]", "test_a.py_test_b_c_d_.jsonl"),
                               ("../é", ".._.jsonl"), ("x" * 500, "x" * 200 + ".jsonl")]:
                path = testing.keep(recorder, pathlib.Path(directory) / "kept", test)
                self.assertEqual(path, pathlib.Path(directory) / "kept" / name)
                self.assertEqual(path.read_bytes(), recorder.history())

    def test_there_is_something_to_say_of_every_history(self) -> None:
        forgotten = recorded(FINE)
        with self.assertRaises(RecordingError), forgotten.read("x"):
            pass
        for recorder, words in [(recorded(FINE), "linearizable: 2 operations"),
                                (Recorder(), "0 completed reads"),
                                (recorded(STALE), "the write of 2 by process 1"),
                                (forgotten, "was used wrongly")]:
            self.assertIn(words, testing.verdict(recorder))
        with mock.patch.dict(os.environ, {"REGCHECK": "/no/such/program"}):
            self.assertIn("/no/such/program", testing.verdict(recorded(FINE)))


PYTEST_FILE = """
    import pytest
    from regkit.testing import NotAtomic, assert_atomic

    def use(recorder, value):
        with recorder.client() as client:
            with client.write("x") as write:
                assert write.value == 1
            with client.read("x") as read:
                read.value = value

    def test_fine(regkit_recorder):
        use(regkit_recorder, "1")

    def test_stale(regkit_recorder):
        use(regkit_recorder, None)

    def test_nothing(regkit_recorder):
        pass

    def test_expected(regkit_recorder):
        use(regkit_recorder, None)
        with pytest.raises(NotAtomic):
            assert_atomic(regkit_recorder)

    def test_other(regkit_recorder):
        use(regkit_recorder, 1)
        assert "something" == "else"

    def test_without():
        pass
"""


def run_pytest(directory: pathlib.Path, tests: str) -> str:
    """What pytest writes of these tests, whose histories it keeps in a folder beside them."""
    (directory / "test_it.py").write_text(textwrap.dedent(tests))
    environment = {**os.environ, "REGCHECK": find_checker(), "PYTEST_DISABLE_PLUGIN_AUTOLOAD": "1",
                   "PYTHONPATH": os.pathsep.join([str(PYTHON), os.environ.get("PYTHONPATH", "")])}
    command = [sys.executable, "-m", "pytest", "-p", "regkit.pytest_plugin", "-p", "no:cacheprovider",
               "-rA", "--color=no", "--regkit-keep", "kept", "test_it.py"]
    return subprocess.run(command, cwd=directory, env=environment, capture_output=True, text=True,
                          check=False).stdout


class Plugin(unittest.TestCase):
    def test_the_module_needs_no_pytest(self) -> None:
        program = "import sys; sys.modules['pytest'] = None; import regkit.pytest_plugin"
        subprocess.run([sys.executable, "-c", program], cwd=PYTHON, check=True)

    def test_the_fixture_is_named_as_said(self) -> None:
        self.assertTrue(hasattr(pytest_plugin, pytest_plugin.FIXTURE))

    @unittest.skipUnless(importlib.util.find_spec("pytest"), "pytest isn't installed")
    def test_under_pytest(self) -> None:
        with tempfile.TemporaryDirectory() as directory:
            out = run_pytest(pathlib.Path(directory), PYTEST_FILE)
            kept = sorted(path.name for path in (pathlib.Path(directory) / "kept").iterdir())
        for name, result in [("fine", "PASSED"), ("stale", "FAILED"), ("nothing", "FAILED"),
                             ("expected", "PASSED"), ("other", "FAILED"), ("without", "PASSED")]:
            self.assertIn(f"{result} test_it.py::test_{name}", out)
        self.assertEqual(kept, [f"test_it.py_test_{name}.jsonl" for name in ("nothing", "other", "stale")])
        for words in ["the write of 1 by process 1 (lines 1 to 2)", "rests on 0 completed reads",
                      "linearizable: 2 operations", "kept/test_it.py_test_stale.jsonl"]:
            self.assertIn(words, out)
        self.assertEqual(out.count("The contradiction"), 1)


if __name__ == "__main__":
    unittest.main()
