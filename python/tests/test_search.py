"""Histories that `regsearch` decides: which program is asked, and what `regkit check` says of the answer."""
import json
import os
import re
import stat
from typing import Any, List, Optional, Tuple
from unittest import mock

from regkit.checker import programs as checker
from regkit.checker.programs import CHECK, SEARCH, Answer, decide, find_program, is_for_search
from regkit.drawing.reduced import values
from regkit.explain import reaching
from regkit.explain.reaching import Moment
from regkit.history.operations import read_history
from regkit.testing import NotAtomic, NotChecked, TooLittleEvidence, assert_atomic

from .events import Line, cas, crash, fail, gave, read, reply, run, text, took, write
from .folders import InFolder
from .test_draw import Elements

AGAIN = [write(1, 5), reply(1), write(1, 6), reply(1), write(1, 5), reply(1), read(2)]
FINE, STALE = [*AGAIN, gave(2, 5)], [*AGAIN, gave(2, 6)]
TWO_WINNERS = [write(1, 0), reply(1), cas(1, 0, 1), cas(2, 0, 2), took(1, True), took(2, True)]
NULL_TWICE = [cas(1, None, 1), cas(2, None, 2), write(3, 5), reply(3), took(1, True), took(2, True)]


class Files(InFolder):
    def logged(self, program: str) -> "mock._patch_dict":
        """Lets each run of a program add its name to the log."""
        real, path = find_program(program), self.folder / program
        path.write_text(f'#!/bin/sh\necho {program} "$@" >> {self.folder}/log\nexec {real} "$@"\n')
        path.chmod(path.stat().st_mode | stat.S_IXUSR)
        return mock.patch.dict(os.environ, {checker.VARIABLES[program]: str(path)})

    def log(self) -> List[str]:
        """The runs so far, each with its options."""
        return (self.folder / "log").read_text().splitlines()


def without_search() -> Any:
    """As on a machine that has no regsearch."""
    real = checker.find_program
    return mock.patch.object(checker, "find_program", lambda name: None if name == SEARCH else real(name))


class WhichProgram(Files):
    def test_each_is_asked_once(self) -> None:
        table = [([write(1, 5), reply(1), read(2), gave(2, 5)], [CHECK]),
                 ([reply(1)], [CHECK]), (FINE, [CHECK, SEARCH]), (TWO_WINNERS, [CHECK, SEARCH])]
        with self.logged(CHECK), self.logged(SEARCH):
            for events, programs in table:
                with self.subTest(programs):
                    (self.folder / "log").write_text("")
                    run("check", given=text(*events))
                    self.assertEqual(self.log(), programs)

    def test_refusals_that_are_for_search(self) -> None:
        table = [
            (AGAIN, "line 5: value already written to this register at line 1", True),
            (TWO_WINNERS, "line 3: op is neither read nor write", True),
            ([{**write(1, 5), "op": "cas "}], "line 1: op is neither read nor write", False),
            ([{"event": "call"}], "line 1: op is neither read nor write", False),
            (TWO_WINNERS, "line 9: op is neither read nor write", False),
            (TWO_WINNERS, "line 3: not JSON", False), (TWO_WINNERS, "input could not be read", False),
        ]
        for events, words, expected in table:
            with self.subTest(words):
                self.assertEqual(is_for_search(text(*events), Answer(2, b"", words)), expected)
                self.assertFalse(is_for_search(text(*events), Answer(4, b"", words)))

    def test_the_line_of_a_cas_is_counted_with_blank_lines(self) -> None:
        self.assertEqual(run("check", given=b"\n \n" + text(*TWO_WINNERS)).status, 1)

    def test_without_it_the_refusal_stays(self) -> None:
        with without_search():
            again, other = run("check", given=text(*STALE)), run("check", given=text(*TWO_WINNERS))
        self.assertEqual((again.status, again.out, other.status, other.out), (2, "", 2, ""))
        self.assertIn("refused: line 5: value already written to this register at line 1\n", again.err)
        self.assertIn("number the writes of each register", again.err)
        self.assertIn("refused: line 3: op is neither read nor write", other.err)
        for ran in (again, other):
            self.assertIn("regsearch takes it", ran.err)
        with without_search():
            self.assertNotIn("regsearch", run("check", given=text(reply(1))).err)

    def test_a_wrong_path(self) -> None:
        with mock.patch.dict(os.environ, {"REGSEARCH": str(self.folder / "none")}):
            ran = run("check", given=text(*STALE))
        self.assertEqual(ran.status, 4)
        self.assertIn("Is REGSEARCH right?", ran.err)

    def test_its_failure_is_told_by_its_name(self) -> None:
        path = self.folder / "broken"
        path.write_text("#!/bin/sh\ncat > /dev/null\necho no memory or no thread >&2\nexit 4\n")
        path.chmod(path.stat().st_mode | stat.S_IXUSR)
        with mock.patch.dict(os.environ, {"REGSEARCH": str(path)}):
            ran = run("check", given=text(*STALE))
        self.assertEqual(ran.status, 4)
        self.assertIn("failed: regsearch ended with status 4: no memory or no thread\n", ran.err)

    def test_an_answer_that_contradicts_itself(self) -> None:
        """Its exit status and its report have to say the same."""
        path = self.folder / "lying"
        for status in (0, 6):
            path.write_text(f'#!/bin/sh\n{find_program(SEARCH)} "$@"\nexit {status}\n')
            path.chmod(path.stat().st_mode | stat.S_IXUSR)
            with mock.patch.dict(os.environ, {"REGSEARCH": str(path)}):
                ran = run("check", given=text(*STALE))
            self.assertEqual(ran.status, 4)
            self.assertIn(f"the answer of regsearch is wrong: its exit status is {status}, and by its "
                          "report 1", ran.err)

    def test_the_options_are_those_of_the_search(self) -> None:
        self.assertEqual(decide(text(*NULL_TWICE), ["--configurations", "1"]).status, 6)
        self.assertEqual(decide(text(*NULL_TWICE)).status, 1)


class Verdicts(Files):
    def test_yes(self) -> None:
        self.assertEqual(run("check", given=text(*FINE)), (0, (
            "standard input: linearizable: 4 operations on 1 register; 1 completed read or cas, 0 overlap a "
            "write; by search (regsearch)\n"), ""))

    def test_evidence(self) -> None:
        """A cas that was answered counts as a read, and overlaps the writes of others, not its own."""
        table = [([cas(1, None, 5)], 5, (0, 0)), ([cas(1, None, 5), took(1, True)], 0, (1, 0)),
                 ([cas(1, 3, 5), took(1, False)], 0, (1, 0)),
                 ([cas(1, None, 5), cas(2, 5, 6), took(1, True), took(2, True)], 0, (2, 2)),
                 ([cas(1, 3, 5), cas(2, 4, 6), took(1, False), took(2, False)], 0, (2, 0)),
                 ([cas(1, None, 5), fail(1), read(2), gave(2, None)], 0, (1, 0)),
                 ([cas(1, None, 5), read(2), gave(2, None), crash(1)], 0, (1, 1))]
        for events, status, counts in table:
            with self.subTest(events):
                said = json.loads(run("check", "--json", given=text(*events)).out)
                self.assertEqual((said["status"], said["program"]), (status, "regsearch"))
                self.assertEqual((said["completed_reads"], said["overlapping_reads"]), counts)

    def test_no(self) -> None:
        ran = run("check", given=text(*TWO_WINNERS))
        self.assertEqual((ran.status, ran.err), (1, ""))
        self.assertEqual(ran.out.splitlines()[1:], [
            '  register "x": the cas from 0 to 2 that took place, by process 2 (lines 4 to 6): the value must '
            'have been 0 at some moment from line 4 to line 6, and no order of the operations called before '
            'line 6 in which it comes at such a moment gives the other answers',
            "    until then there was an order, and at the end of one the value is 1, by the cas from 0 to 1 "
            "that took place, by process 1 (lines 3 to 5)",
            "    no other call of this register was open then"])

    def test_open_calls_are_named(self) -> None:
        events = [*AGAIN[:6], write(3, 7), crash(3), cas(4, 9, 8), read(5),
                  *(write(n, 7) for n in range(10, 16)), read(2), gave(2, 6), reply(10)]
        ran = run("check", given=text(*events))
        self.assertIn("    no call that was open then would leave 6\n", ran.out)
        named = re.findall(r"open then: the (\w+) .*by process (\d+)", ran.out)
        self.assertEqual(named, [("write", "10"), ("read", "5"), ("write", "15"), ("write", "14"),
                                 ("write", "13"), ("write", "12")])
        self.assertIn("and 3 other open calls", ran.out)  # older ones that nobody answered

    def test_open_calls_that_could_explain_it_come_first(self) -> None:
        """The write of 0 by process 2 gave line 10 its value, and so it is hidden by the write of line 11."""
        events = [write(9, 3), write(1, 0), reply(1), write(2, 0), write(1, 1), reply(1), read(3), gave(3, 1),
                  read(4), gave(4, 0), write(1, 1), reply(1), read(6), gave(6, 0), reply(2)]
        ran = run("check", given=text(*events))
        said = ran.out.splitlines()[1:]
        self.assertIn("the value must have been 0 at some moment from line 13 to line 14", said[0])
        self.assertEqual([line.strip() for line in said[2:]], [
            "open then: the write of 0 by process 2 (lines 4 to 15), which would leave 0; but no order in "
            "which the read of line 13 finds that gives the other answers",
            "open then: the write of 3 by process 9 (line 1, never answered)"])

    def test_a_miss_and_a_null(self) -> None:
        ran = run("check", given=text(cas(1, None, 5), took(1, False)))
        self.assertIn("the cas from null to 5 that missed, by process 1 (lines 1 to 2)", ran.out)
        self.assertIn("the value must have been something else than null at some moment from line 1 to line "
                      "2", ran.out)

    def test_unwritten(self) -> None:
        table: List[Any] = [
            ([cas(1, 7, 5), took(1, True)], "found 7, which nobody wrote to this register"),
            ([write(1, 5), reply(1), write(1, 5), reply(1), read(1), gave(1, 7)],
             "gave 7, which nobody wrote"),
            ([cas(1, None, 7), fail(1), read(1), gave(1, 7)],
             "which only a call that failed would have written"),
            ([cas(1, 8, 7), took(1, False), read(1), gave(1, 7)],
             "which only a call that missed would have written")]
        for events, words in table:
            with self.subTest(words):
                ran = run("check", given=text(*events))
                self.assertEqual(ran.status, 1)
                self.assertIn(words, ran.out)

    def test_first_and_most(self) -> None:
        events = [{**event, "register": name} for name in ("a", "b", "c") for event in STALE]
        table: List[Tuple[List[str], int]] = [(["--first"], 1), (["--most", "2"], 2), ([], 3)]
        for option, count in table:
            with self.subTest(option):
                ran = run("check", *option, given=text(*events))
                self.assertEqual((ran.status, ran.out.count('  register "')), (1, count))

    def test_refusals_of_the_search(self) -> None:
        call: Line = cas(1, 1, 2)
        table: List[Any] = [
            ([{**call, "to": "2"}], "line 1: from, unless or to does not fit the event"),
            ([{key: call[key] for key in call if key != "from"}],
             "line 1: from, unless or to does not fit the event"),
            ([call, reply(1)], "line 2: a cas's reply has no ok, true or false"),
            ([call, {**took(1, True), "value": 3}], "line 2: reply disagrees with its call"),
            ([call, {"process": 2, "event": "call", "op": "add", "register": "x"}],
             "line 2: op is neither read, write, delete, swap nor cas")]
        for events, words in table:
            with self.subTest(words):
                ran = run("check", given=text(*events))
                self.assertEqual((ran.status, ran.out), (2, ""))
                self.assertIn(f"standard input: refused: {words}\n", ran.err)
                self.assertEqual(len(ran.err.splitlines()), 2)  # with what to do


class Unknown(Files):
    def test_it_is_no_yes_and_no_no(self) -> None:
        ran = run("check", "--configurations", "1", given=text(*NULL_TWICE))
        self.assertEqual((ran.status, ran.err), (6, ""))
        self.assertIn("standard input: unknown: the search gave up on 1 of 1 register; 3 operations", ran.out)
        self.assertIn('  not decided: register "x"\n  raise `--configurations`; or record runs with', ran.out)

    def test_steps(self) -> None:
        ran = run("check", "--steps", "1", given=text(*NULL_TWICE))
        self.assertEqual(ran.status, 6)
        self.assertIn("raise `--steps`; or", ran.out)

    def test_beside_a_no(self) -> None:
        """A no of another register is a no of the history."""
        other = [{**event, "register": "y"} for event in STALE]
        said = json.loads(run("check", "--json", "--configurations", "1",
                              given=text(*NULL_TWICE, *other)).out)
        self.assertEqual((said["status"], said["unknown_registers"], said["faulty_registers"]), (1, ["x"], 1))

    def test_beside_a_yes(self) -> None:
        other = [{**event, "register": "y"} for event in FINE]
        said = json.loads(run("check", "--json", "--configurations", "1",
                              given=text(*other, *NULL_TWICE)).out)
        self.assertEqual((said["status"], said["verdict"], said["faults"]), (6, "unknown", []))
        self.assertIn("the search gave up on 1 of 2 registers", said["reason"])

    def test_in_ci(self) -> None:
        path = self.folder / "h.jsonl"
        path.write_bytes(text(*NULL_TWICE))
        ran = run("check", "--quiet", "--annotate", "--junit", str(self.folder / "j"),
                  "--configurations", "1", str(path))
        self.assertEqual(ran.status, 6)
        self.assertIn("::error file=", ran.out)
        self.assertIn("title=regkit%3A unknown::the search gave up on 1 of 1 register", ran.out)
        junit = (self.folder / "j").read_text()
        self.assertIn('tests="1" failures="0" errors="1"', junit)
        self.assertIn('<error type="unknown" message="unknown: the search gave up', junit)
        self.assertIn("raise `--configurations`", junit)

    def test_several_histories(self) -> None:
        names = []
        histories: List[Tuple[str, List[Line]]] = [("unknown", NULL_TWICE), ("empty", []), ("no", STALE)]
        for name, events in histories:
            (self.folder / name).write_bytes(text(*events))
            names.append(str(self.folder / name))
        self.assertEqual(run("check", "--configurations", "1", *names[:2]).status, 6)
        self.assertEqual(run("check", "--configurations", "1", *names).status, 1)

    def test_bounds_on_the_command_line(self) -> None:
        for words in ("--steps=0", "--steps=x", f"--configurations={2**20 + 1}"):
            self.assertEqual(run("check", words, given=b"").status, 3)


class Annotations(Files):
    def test_the_line_that_is_blamed(self) -> None:
        path = self.folder / "h.jsonl"
        for events, line in ((TWO_WINNERS, 6), ([cas(1, 7, 5), took(1, True)], 1)):
            path.write_bytes(text(*events))
            self.assertIn(f",line={line},title=", run("check", "--quiet", "--annotate", str(path)).out)


class Assertions(Files):
    def test_each_answer(self) -> None:
        self.assertEqual(assert_atomic(text(*FINE)).completed_reads, 1)
        with self.assertRaisesRegex(NotAtomic, "The cas from 0 to 2 that took place, by process 2"):
            assert_atomic(text(*TWO_WINNERS))
        with self.assertRaises(TooLittleEvidence):
            assert_atomic(text(*FINE[:-2]))
        words = "line 5: value already .*; regsearch takes it"
        with without_search(), self.assertRaisesRegex(NotChecked, words):
            assert_atomic(text(*FINE))

    def test_bounds(self) -> None:
        """A search that gives up is no verdict; the message names the argument. Both bounds are handed on to
        the runs that make a fault small, too, and to the command that draws it."""
        history = text(*NULL_TWICE)
        with self.assertRaisesRegex(NotChecked, "unknown: the search gave up; raise `steps`; or record"):
            assert_atomic(history, steps=1)
        with self.assertRaisesRegex(NotChecked, "unknown: the search gave up; raise `configurations`; or"):
            assert_atomic(history, configurations=1)
        drawn = "regkit draw --steps 90000 --configurations 8 /"
        with self.logged(SEARCH), self.assertRaisesRegex(NotAtomic, drawn):
            assert_atomic(history, steps=90_000, configurations=8)
        runs = [line for line in self.log() if line.startswith(SEARCH)]
        self.assertGreater(len(runs), 1)
        self.assertEqual(set(runs), {"regsearch --steps 90000 --configurations 8"})
        self.assertEqual(assert_atomic(text(*FINE), steps=10**12, configurations=2**20).completed_reads, 1)

    def test_bounds_that_regsearch_does_not_take(self) -> None:
        table: List[Any] = [({"steps": 0}, "steps is 0, and a whole number from 1 to 1000000000000"),
                            ({"configurations": 2**20 + 1}, "configurations is 1048577, and a whole number")]
        for arguments, words in table:
            with self.subTest(arguments), self.assertRaisesRegex(ValueError, words):
                assert_atomic(text(write(1, 5), reply(1), read(2), gave(2, 5)), **arguments)


class Drawings(Files):
    def test_a_page_of_each_answer(self) -> None:
        path, page = self.folder / "h.jsonl", self.folder / "h.html"
        table = [(FINE, "Linearizable", False),
                 (TWO_WINNERS, "the value must have been 0 at some moment from line 4 to line 6", True),
                 ([cas(1, 7, 5), took(1, True)], "found 7, which nobody wrote", True),
                 ([write(3, 5), *TWO_WINNERS, write(2, 7)],
                  "the value must have been 0 at some moment from line 5 to line 7", True)]
        for events, words, marked in table:
            path.write_bytes(text(*events))
            ran = run("draw", str(path), "-o", str(page))
            self.assertEqual((ran.status, ran.err), (0, ""))
            self.assertIn(words, page.read_text())
            self.assertEqual("no order gives its reply" in page.read_text(), marked)
        self.assertIn("c 0\u21922", page.read_text())
        path.write_bytes(text(*NULL_TWICE))
        run("check", "--draw", str(self.folder), "--configurations", "1", str(path))
        self.assertIn("Unknown: ", page.read_text())

    def test_bounds(self) -> None:
        path, page = self.folder / "h.jsonl", self.folder / "h.html"
        path.write_bytes(text(*NULL_TWICE))
        for bound in ("--steps", "--configurations"):
            ran = run("draw", bound, "1", str(path), "-o", str(page))
            self.assertEqual((ran.status, ran.err), (0, ""))
            self.assertIn(f"Raise <code>{bound}</code>; or record", page.read_text())

    def test_the_index_draws_again_what_a_search_gave_up(self) -> None:
        """By other bounds it may get another verdict, though the picture is newer than the history."""
        picture = self.folder / "pictures" / "h.html"
        (self.folder / "h.jsonl").write_bytes(text(*NULL_TWICE))
        for bound in ("--steps", "--configurations"):
            table: List[Tuple[List[str], str]] = [([bound, "1"], "unknown"), ([], "not linearizable")]
            for words, verdict in table:
                ran = run("index", *words, str(self.folder))
                self.assertEqual((ran.status, ran.err), (0, ""))
                self.assertIn(f'">{verdict}</td>', (self.folder / "index.html").read_text())
                self.assertIn(f"<title>{verdict.capitalize()}: ", picture.read_text())
                page = (self.folder / "index.html").read_text()
                self.assertEqual(f"raise <code>{bound}</code>; or" in page,
                                 verdict == "unknown")
            picture.unlink()

    def drawn(self, events: List[Line], *words: str) -> str:
        path, page = self.folder / "h.jsonl", self.folder / "h.html"
        path.write_bytes(text(*events))
        ran = run("draw", *words, str(path), "-o", str(page))
        self.assertEqual((ran.status, ran.err), (0, ""))
        found = Elements(page.read_text())
        self.assertEqual((found.odd, found.open), ([], []))
        return page.read_text()

    def rows(self, page: str) -> List[List[str]]:
        """The cells of the table of moments."""
        return [re.findall("<td.*?>(.*?)</td>", row) for row in re.findall("<tr>(.*?)</tr>", page)[1:]]

    def test_what_is_enough_for_a_fault(self) -> None:
        """The few operations that have no order, and what the value can be at each moment."""
        page = self.drawn([*TWO_WINNERS, write(4, 9), crash(4)])
        self.assertIn(">What is enough for it<", page)
        self.assertIn("The 3 operations called before line 6 have no order by themselves", page)
        self.assertEqual(self.rows(page), [
            ["1", "Process 1 calls a write of 0", "null or 0"],
            ["2", "Process 1 has its answer: the write of 0 is done", "0"],
            ["3", "Process 1 calls a cas from 0 to 1", "0 or 1"],
            ["4", "Process 2 calls a cas from 0 to 2", "0, 1 or 2"],
            ["5", "Process 1 has its answer: the cas from 0 to 1 took place", "1"],
            ["6", "Process 2 has its answer: the cas from 0 to 2 took place",
             "none: no order gives this answer"]])
        self.assertEqual(page.count("its reply needn&#x27;t count: there is no order without it either"), 1)
        self.assertEqual(page.count("it overlaps the call whose reply no order gives"), 2)
        self.assertIn("</svg>its reply needn&#x27;t count</li>", page)

    def test_words_of_moments(self) -> None:
        page = self.drawn([*(write(n, n) for n in range(11, 14)), cas(1, None, 5), took(1, False), read(2),
                           gave(2, None), read(2), gave(2, 11), read(2), gave(2, None)])
        said = {cell for row in self.rows(page) for cell in row}
        self.assertIn("Process 2 has its answer: the read gave null", said)
        page = self.drawn([write(1, 5), reply(1), cas(2, 5, 6), took(2, False)])
        self.assertIn("Process 2 has its answer: the cas from 5 to 6 missed", page)
        call = read_history(text(write(1, 5))).calls[0]
        table: List[Tuple[List[Optional[int]], str]] = [
            ([None], "null"), ([3, 4], "3 or 4"), ([None, *range(1, 8)], "null, 1, 2, 3, 4, 5, 6 or 7"),
            ([None, *range(1, 10)], "null, 1, 2, 3, 4, 5, 6, 7 or 2 others")]
        for found, words in table:
            self.assertEqual(values(Moment(1, call, found)), words)
        with mock.patch.object(reaching, "MOST_STEPS", 1):
            self.assertEqual(self.rows(self.drawn(TWO_WINNERS)), [])

    def test_many_moments(self) -> None:
        chain = [each for n in range(1, 25) for each in (cas(n, n - 1 or None, n), took(n, True))]
        page = self.drawn([*chain, cas(30, 3, 4), took(30, True)])
        self.assertIn(">The last 40 of 50 moments:<", page)
        self.assertEqual(len(self.rows(page)), 40)

    def test_a_fault_that_is_not_made_small(self) -> None:
        """Without regsearch, or where it takes too long, the page has the rest."""
        path, page = self.folder / "h.jsonl", self.folder / "h.html"
        path.write_bytes(text(*TWO_WINNERS))
        (self.folder / "report").write_bytes(decide(text(*TWO_WINNERS)).report)
        with mock.patch("regkit.explain.shrinking.find_program", lambda name: None):
            ran = run("draw", str(path), str(self.folder / "report"), "-o", str(page))
        self.assertEqual((ran.status, ran.err), (0, ""))
        self.assertNotIn("What is enough", page.read_text())
        self.assertIn("no order gives its reply", page.read_text())
        run("draw", "--steps", "1", str(path), str(self.folder / "report"), "-o", str(page))
        self.assertNotIn("What is enough", page.read_text())
        for most, is_there in ((2, False), (3, True)):
            with mock.patch("regkit.drawing.reduced.MOST_CALLS", most):
                self.assertEqual("What is enough" in self.drawn(TWO_WINNERS), is_there)
        self.assertNotIn("What is enough", self.drawn([cas(1, 7, 5), took(1, True)]))

    def test_a_report_of_another_history(self) -> None:
        path, report = self.folder / "h.jsonl", self.folder / "report"
        path.write_bytes(text(*TWO_WINNERS[:-1], took(2, False)))
        report.write_bytes(decide(text(*TWO_WINNERS)).report)
        ran = run("draw", str(path), str(report), "-o", str(self.folder / "page"))
        self.assertEqual(ran.status, 2)
        self.assertIn("the report isn't of this history", ran.err)

    def test_a_cas_that_missed_is_of_no_value(self) -> None:
        """It is drawn in no value's colour, and the reply that no order gives in that of a stale read."""
        page = self.drawn([*FINE, cas(3, 7, 5), took(3, False), cas(2, 6, 5), took(2, True)])
        found = re.findall(r'<g class="bar ([a-z ]+)"[^>]*>(?:(?!<g class="bar ).)*?<title>(.*?) by process',
                           page)
        kinds = {words: kind for kind, words in found}
        self.assertEqual(kinds["The cas from 7 to 5 that missed,"], "write")
        self.assertEqual(kinds["The cas from 6 to 5 that took place,"], "write stale strong")
        self.assertEqual(kinds["The write of 5"], "write first strong")

    def test_unknown(self) -> None:
        """It has a sign of its own, neither a tick nor a cross."""
        other = [{**event, "register": "y"} for event in STALE]
        page = self.drawn(NULL_TWICE, "--configurations", "1")
        self.assertIn('<h1 class="verdict unknown">', page)
        self.assertIn("Raise <code>--configurations</code>; or record", page)
        page = self.drawn([*NULL_TWICE, *other], "--configurations", "1")
        self.assertIn('<h1 class="verdict no">', page)
        self.assertIn("2 registers; 1 of them not linearizable; 1 of them unknown.", page)
        self.assertIn("1 other register is unknown: ", page)
        twice = [{**event, "register": name} for name in ("a", "b") for event in NULL_TWICE]
        page = self.drawn(twice, "--configurations", "1", "--most", "1")
        self.assertIn("1 more register is unknown: ", page)

    def test_without_regsearch(self) -> None:
        path = self.folder / "h.jsonl"
        path.write_bytes(text(*FINE))
        with without_search():
            ran = run("draw", str(path), "-o", str(self.folder / "page"))
        self.assertEqual(ran.status, 2)
        self.assertIn("regsearch takes it", ran.err)
