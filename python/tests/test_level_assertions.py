"""What a test learns of the level that its history keeps. A script stands in the place of reglevel."""
import importlib.util
import os
import tempfile
import unittest
from typing import Any, List, Tuple
from unittest import mock

from regkit import testing
from regkit.checker.programs import NoChecker
from regkit.record import Recorder, RecordingError
from regkit.testing import NotChecked, NotKept, TooLittleEvidence, assert_level

from .test_levels import EXAMPLES, Placed, stored
from .test_testing import run_pytest

BACK = EXAMPLES / "read_goes_back.jsonl"
REQUIRED = '  required: session, which doesn\'t hold of 1 of 1 register: "x"\n'


def report(**more: Any) -> bytes:
    return stored("read_goes_back", stale_reads=[[7, 3]], **more)


def written() -> Recorder:
    """One write, which keeps every level, and shows nothing."""
    recorder = Recorder()
    with recorder.write("x") as write:
        assert write.value == 1
    return recorder


KEPT = (b'{"atomic":"yes","register":"x","regular":"yes","sequential":"yes","session":"yes"}\n'
        b'{"atomic":"yes","operations":1,"registers":1,"regular":"yes","sequential":"yes","session":"yes"}\n')


class Levels(Placed):
    def setUp(self) -> None:
        super().setUp()
        patch = mock.patch.object(tempfile, "tempdir", str(self.folder))
        patch.start()
        self.addCleanup(patch.stop)

    def test_yes_with_its_evidence(self) -> None:
        with self.in_place(report(), 0):
            evidence = assert_level(BACK, "own_writes", least_reads=2)
        self.assertEqual((evidence.operations, evidence.completed_reads), (4, 2))
        self.assertEqual(self.words(), ["--stale --require own_writes"])

    def test_no_in_the_words_of_the_command(self) -> None:
        with self.in_place(report()), self.assertRaises(NotKept) as caught:
            assert_level(str(BACK), "session")
        text = str(caught.exception)
        self.assertTrue(text.startswith("keeps read your writes; not linearizable, regular, session"), text)
        self.assertIn(REQUIRED, text)
        self.assertIn("\n  1 read went back to an older value than its session had read\n", text)
        self.assertIn(f"\n\nto see it: python3 -m regkit draw {BACK} -o fault.html", text)
        self.assertIsInstance(caught.exception, AssertionError)

    def test_a_history_in_memory_is_kept_if_it_fails(self) -> None:
        data = BACK.read_bytes()
        with self.in_place(report()), self.assertRaises(NotKept) as caught:
            assert_level(data, "session")
        (path,) = self.folder.glob("regkit-*.jsonl")
        self.assertIn(f"regkit draw {path} ", str(caught.exception))
        self.assertEqual(path.read_bytes(), data)

    def test_nothing_is_no_proof(self) -> None:
        with self.in_place(KEPT, 0):
            with self.assertRaisesRegex(TooLittleEvidence, "keeps session, but that rests on 0 completed"):
                assert_level(written(), "session")
            self.assertEqual(assert_level(written(), "session", least_reads=0).operations, 1)

    def test_no_answer(self) -> None:
        table: List[Tuple[bytes, int, str, str]] = [
            (b"", 2, "line 3: value already written to this register at line 1",
             "at line 1; reglevel takes reads and writes of distinct values: let the n-th write"),
            (b"", 2, "line 1: not JSON", "line 1: not JSON$"),
            (b"", 3, "what?", "reglevel ended with status 3: what?"),
            (b"", 4, "no memory or no thread", "reglevel ended with status 4: no memory or no thread"),
            (b"", 0, "", "the answer of reglevel is wrong"),
            (b"", 1, "", "the answer of reglevel is wrong"),
            (report(), 0, "", "its exit status is 0, and by its report 1"),
            (stored("read_goes_back", stale_reads=[[70, 3]]), 1, "", "the answer of reglevel is wrong")]
        for answer, status, refusal, words in table:
            with self.subTest(words, status=status), self.in_place(answer, status, refusal):
                with self.assertRaisesRegex(NotChecked, words) as caught:
                    assert_level(BACK, "session")
                self.assertNotIsInstance(caught.exception, AssertionError)

    def test_no_program(self) -> None:
        with mock.patch("regkit.checker.programs.find_program", lambda name: None):
            with self.assertRaisesRegex(NoChecker, "reglevel was not found"):
                assert_level(BACK, "session")

    def test_another_word(self) -> None:
        with self.assertRaisesRegex(ValueError, "'eventual' is no level: it is one of atomic, .*, causal"):
            assert_level(BACK, "eventual")

    def test_causal(self) -> None:
        """It is of the whole, and may be unknown: that is no answer."""
        table = [("yes", 0), ("no", 1), ("unknown", 6)]
        for verdict, status in table:
            changed = report().replace(b'"sequential":"no","session":"no","stale":1}', b'"sequential":"yes",'
                                       b'"session":"no","stale":1}').replace(b'"causal":"no"',
                                                                             f'"causal":"{verdict}"'.encode())
            with self.subTest(verdict), self.in_place(changed, status):
                if verdict == "yes":
                    self.assertEqual(assert_level(BACK, "causal").operations, 4)
                elif verdict == "no":
                    with self.assertRaisesRegex(NotKept, "\n  required: causal, which doesn't hold\n"):
                        assert_level(BACK, "causal")
                else:
                    with self.assertRaisesRegex(NotChecked, "causal is unknown: deciding it would take more"):
                        assert_level(BACK, "causal")

    def test_a_mistake_comes_out(self) -> None:
        recorder = written()
        with self.assertRaises(RecordingError), recorder.read("x"):
            pass
        with self.in_place(KEPT, 0), self.assertRaisesRegex(RecordingError, "was used wrongly"):
            assert_level(recorder, "session")

    def test_there_is_something_to_say_of_every_level(self) -> None:
        recorder = written()
        with self.in_place(KEPT, 0):
            self.assertEqual(testing.verdict(recorder, "session"),
                             "keeps session: 1 operation; 0 completed reads, 0 overlap a write")
        with self.in_place(b"", 4, "no memory"):
            self.assertEqual(testing.verdict(recorder, "session"), "reglevel ended with status 4: no memory")
        with mock.patch.dict(os.environ, {"REGLEVEL": "/no/such/program"}):
            self.assertIn("/no/such/program", testing.verdict(recorder, "session"))


@unittest.skipUnless(importlib.util.find_spec("pytest"), "pytest isn't installed")
class UnderPytest(Placed):
    def test_a_marker_asks_for_a_level(self) -> None:
        with self.in_place(report()):
            out = run_pytest(self.folder, PYTEST_FILE)
        for name, result in [("marked", "FAILED"), ("own", "PASSED"), ("wrong", "FAILED")]:
            self.assertIn(f"{result} test_it.py::test_{name}", out)
        self.assertEqual(out.count("required: session"), 1, out)
        self.assertIn("'eventual' is no level", out)
        self.assertNotIn("The contradiction", out)
        self.assertEqual({*self.words()}, {"--stale --require session"})


PYTEST_FILE = """
    import pytest
    from regkit.testing import NotKept, assert_level

    def use(recorder):
        with recorder.client() as one, recorder.client() as two:
            for value in (1, 2):
                with one.write("x") as write:
                    assert write.value == value
            for value in (2, 1):
                with two.read("x") as read:
                    read.value = value

    @pytest.mark.regkit_level("session")
    def test_marked(regkit_recorder):
        use(regkit_recorder)

    def test_own(regkit_recorder):
        use(regkit_recorder)
        with pytest.raises(NotKept):
            assert_level(regkit_recorder, "session")

    @pytest.mark.regkit_level("eventual")
    def test_wrong(regkit_recorder):
        use(regkit_recorder)
"""
