"""The checker as a library in this process: the same answers as the program's, and when which of
them is asked."""
import ctypes
import os
import pathlib
import unittest
from typing import Any, Dict, List
from unittest import mock

from regkit.checker import programs as checker
from regkit.checker.levels import REQUIRED
from regkit.checker.library import Library, NoLibrary, find_library
from regkit.checker.programs import (LEVEL, LIBRARY_BYTES, NoChecker, find_checker, find_program, judge,
                                     judge_levels, run_checker)
from regkit.checker.refusals import SEARCH_TEXTS, TEXTS, read_refusal

from .events import crash, gave, read, reply, text, write
from .search_sources import find_regsearch

ROOT = pathlib.Path(__file__).resolve().parents[2]
EXAMPLES = sorted((ROOT / "examples").glob("*.jsonl"))
SEARCH_EXAMPLES = [*EXAMPLES, *sorted((ROOT / "examples" / "search").glob("*.jsonl"))]
LEVEL_EXAMPLES = sorted((ROOT / "examples" / "levels").glob("*.jsonl"))
REGSEARCH, REGLEVEL = find_regsearch(), find_program(LEVEL)
FINE = text(write(1, 5), reply(1), read(2), gave(2, 5))
BUILT = os.environ.get("REGCHECK_LIBRARY") or str(ROOT / "bin" / "libregcheck.so.1")

# A history that is refused for each reason about a line, by number; 14 needs a million lines.
REFUSED: Dict[int, bytes] = {
    1: b'{"process":1' + b" " * 65536 + b"}", 2: b"{", 3: b"[]", 4: b'{"process":-1}',
    5: b'{"process":1,"event":"end"}', 6: b'{"process":1,"event":"call","op":"add"}',
    7: b'{"process":1,"event":"call","op":"read","register":""}',
    8: b'{"process":1,"event":"call","op":"read","register":"x","value":1}', 9: text(read(1), read(1)),
    10: text(reply(1)), 11: text(write(1, 5), gave(1, 6)), 12: text(read(1), reply(1)),
    13: text(write(1, 5), reply(1), write(2, 5)), 19: text(crash(1), read(1)),
}


# Those that only the search gives, or in other words.
SEARCH_REFUSED: Dict[int, bytes] = {
    6: REFUSED[6], 20: b'{"process":1,"event":"call","op":"cas","register":"x","from":1}',
    21: text({"process": 1, "event": "call", "op": "cas", "register": "x", "from": 1, "to": 2}, reply(1)),
    22: text({"process": 1, "event": "call", "op": "delete", "register": "x"},
             {"process": 1, "event": "reply", "old": 1, "found": False}),
}


def environment(**names: str) -> Any:
    """Without the variables that say what is asked, but for these."""
    kept = {name: value for name, value in os.environ.items()
            if name not in ("REGCHECK", "REGLEVEL", "REGCHECK_LIBRARY")}
    return mock.patch.dict(os.environ, {**kept, **names}, clear=True)


class Reasons(unittest.TestCase):
    def test_words_are_the_programs(self) -> None:
        for number, history in REFUSED.items():
            words = run_checker(history).refusal
            refusal = read_refusal(words, int)
            assert refusal is not None, words
            self.assertEqual((refusal.number, str(refusal)), (number, words))
        self.assertEqual(set(TEXTS), set(REFUSED))

    @unittest.skipUnless(REGSEARCH, "no regsearch")
    def test_words_are_those_of_the_search(self) -> None:
        for number, history in SEARCH_REFUSED.items():
            words = run_checker(history, program=REGSEARCH).refusal
            refusal = read_refusal(words, int)
            assert refusal is not None, words
            self.assertEqual((refusal.number, str(refusal)), (number, words))
        self.assertEqual(set(SEARCH_TEXTS), set(SEARCH_REFUSED))


class Choice(unittest.TestCase):
    """Which of the two is asked."""

    def test_no_library_is_wanted(self) -> None:
        for names in ({"REGCHECK_LIBRARY": ""}, {"REGCHECK": "regcheck"}):
            with environment(**names):
                self.assertIsNone(find_library())
                self.assertIsNone(find_library(LEVEL))

    def test_a_program_for_the_levels_is_named(self) -> None:
        """Then the library is asked for the rest."""
        with environment(REGLEVEL="reglevel"), \
                mock.patch("regkit.checker.library._places", return_value=["some.so"]), \
                mock.patch("regkit.checker.library._loaded") as loaded:
            self.assertIsNone(find_library(LEVEL))
            self.assertIs(find_library(), loaded.return_value)
        with environment(REGLEVEL="reglevel", REGCHECK_LIBRARY="other.so"), \
                mock.patch("regkit.checker.library._loaded") as loaded:
            self.assertIs(find_library(LEVEL), loaded.return_value)

    def test_no_library_is_named(self) -> None:
        for path in ("/no/such/file", ctypes.util.find_library("c")):
            assert path is not None
            with environment(REGCHECK_LIBRARY=path):
                self.assertRaises(NoLibrary, find_library)
                with self.assertRaisesRegex(NoChecker, "Is REGCHECK_LIBRARY right"):
                    judge(FINE)
                with self.assertRaisesRegex(NoChecker, "Is REGCHECK_LIBRARY right"):
                    judge_levels(FINE)

    def test_an_old_library_is_named(self) -> None:
        """The first one had a single function, and the last before this one four."""
        functions = ["regcheck_report", "regcheck_refusal", "regsearch_report", "regsearch_refusal",
                     "reglevel_report"]
        for count in (1, 4):
            with mock.patch("ctypes.CDLL", return_value=mock.Mock(spec=functions[:count])):
                words = f"^old.so is too old .*: it has no {functions[count]}"
                with self.assertRaisesRegex(NoLibrary, words):
                    Library("old.so")

    def test_an_old_library_is_installed(self) -> None:
        """Then the programs are asked."""
        with environment(), mock.patch("regkit.checker.library._places", return_value=["old.so"]), \
                mock.patch("regkit.checker.library._loaded", side_effect=NoLibrary):
            self.assertIsNone(find_library())
            self.assertIsNone(find_library(LEVEL))

    def asked(self, history: bytes, *options: str) -> List[bytes]:
        """What a library was asked, where the program says nothing."""
        library = mock.Mock()
        library.check.return_value = mock.Mock(status=0, report=b"", refusal="")
        with mock.patch("regkit.checker.library.find_library", return_value=library), \
                mock.patch.object(checker, "run_checker"):
            judge(history, options)
        return [call.args[0] for call in library.check.call_args_list]

    def test_small_histories_without_options(self) -> None:
        small = FINE.ljust(LIBRARY_BYTES, b"\n")
        self.assertEqual(self.asked(small), [small])
        self.assertEqual(self.asked(small + b"\n"), [])
        self.assertEqual(self.asked(FINE, "--workers", "1"), [])

    def test_levels_of_small_histories(self) -> None:
        library = mock.Mock()
        library.levels.return_value = mock.Mock(status=1, report=b"levels", refusal="")
        with mock.patch("regkit.checker.library.find_library", return_value=library) as find, \
                mock.patch.object(checker, "find_program", return_value=None):
            answer = judge_levels(FINE, "session", stale=True)
            with self.assertRaisesRegex(NoChecker, "reglevel was not found"):
                judge_levels(FINE.ljust(LIBRARY_BYTES + 1, b"\n"))
        self.assertEqual(answer, (1, b"levels", "", LEVEL))
        find.assert_called_once_with(LEVEL)
        library.levels.assert_called_once_with(FINE, "session", stale=True, orders=False)


@unittest.skipUnless(os.path.isfile(BUILT), "no library: `make library` builds it")
class Answers(unittest.TestCase):
    """The library against the program. tests/embed compares many more."""

    def test_examples(self) -> None:
        library, program = Library(BUILT), find_checker()
        for path in EXAMPLES:
            history = path.read_bytes()
            told, want = library.check(history), run_checker(history, program=program)
            self.assertEqual((told.status, told.report, told.refusal),
                             (want.status, want.report, want.refusal), path)

    def test_refusals(self) -> None:
        library = Library(BUILT)
        for number, history in {**REFUSED, 15: b"\n" * 67_108_865}.items():
            told, want = library.check(history), run_checker(history)
            self.assertEqual((told.number, told.status, told.refusal), (number, want.status, want.refusal))

    def test_judge(self) -> None:
        """A small history is given to the library, one with a failed call too."""
        history = FINE + text(read(1)) + b'{"process":1,"event":"fail"}\n'
        want = judge(history)
        with environment(REGCHECK_LIBRARY=BUILT), mock.patch.object(checker, "run_checker") as program:
            self.assertEqual(judge(history), want)
            program.assert_not_called()

    def searched(self, history: bytes, **bounds: int) -> int:
        """Compares what the search says with the program, and gives the status."""
        options = [word for name, bound in bounds.items() for word in (f"--{name}", str(bound))]
        told = Library(BUILT).search(history, **bounds)
        want = run_checker(history, options, program=REGSEARCH)
        self.assertEqual((told.status, told.report, told.refusal),
                         (want.status, want.report, want.refusal), history)
        return told.status

    @unittest.skipUnless(REGSEARCH, "no regsearch")
    def test_search(self) -> None:
        examples = [path.read_bytes() for path in SEARCH_EXAMPLES]
        statuses = {self.searched(history)
                    for history in [*examples, *REFUSED.values(), *SEARCH_REFUSED.values()]}
        self.assertEqual(statuses, {0, 1, 2})

    @unittest.skipUnless(REGSEARCH, "no regsearch")
    def test_search_within_bounds(self) -> None:
        history = (ROOT / "examples/search/lock.jsonl").read_bytes()
        self.assertEqual(self.searched(history, steps=1), 6)
        self.assertEqual(self.searched(history, steps=1_000_000_000_000, configurations=1_048_576), 0)
        for bounds in ({"steps": -1}, {"steps": 1_000_000_000_001}, {"configurations": 1_048_577}):
            self.assertRaises(ValueError, Library(BUILT).search, history, **bounds)

    @unittest.skipUnless(REGLEVEL, "no reglevel")
    def test_levels(self) -> None:
        library, statuses = Library(BUILT), set()
        for number, path in enumerate([*EXAMPLES, *LEVEL_EXAMPLES]):
            history, level = path.read_bytes(), REQUIRED[number % len(REQUIRED)]
            for stale, orders in ((False, False), (True, False), (False, True), (True, True)):
                told = library.levels(history, level, stale=stale, orders=orders)
                options = ["--stale"] * stale + ["--orders"] * orders
                want = run_checker(history, ["--require", level, *options], program=REGLEVEL)
                self.assertEqual(told[:3], want[:3], path)
                statuses.add(told.status)
        self.assertEqual(statuses, {0, 1, 2})

    @unittest.skipUnless(REGLEVEL, "no reglevel")
    def test_judge_levels(self) -> None:
        with environment(REGCHECK_LIBRARY="", REGLEVEL=str(REGLEVEL)):
            want = judge_levels(FINE, "session", stale=True)
        with environment(REGCHECK_LIBRARY=BUILT), mock.patch.object(checker, "RunningProgram") as program:
            self.assertEqual(judge_levels(FINE, "session", stale=True), want)
            program.assert_not_called()

    @unittest.skipUnless(REGLEVEL, "no reglevel")
    def test_no_levels(self) -> None:
        for number, history in REFUSED.items():
            told, want = Library(BUILT).levels(history), run_checker(history, program=REGLEVEL)
            self.assertEqual((told.number, *told[:3]), (number, *want[:3]))
        with self.assertRaisesRegex(ValueError, "'eventual' is no level: it is one of atomic, .*, causal"):
            Library(BUILT).levels(FINE, "eventual")

    def test_a_report_longer_than_its_history(self) -> None:
        history = text(*(read(process, str(process)) for process in range(1000)))
        told, want = Library(BUILT).check(history), run_checker(history)
        self.assertGreater(len(told.report), len(history) + 1024)
        self.assertEqual(told.report, want.report)


if __name__ == "__main__":
    unittest.main()
