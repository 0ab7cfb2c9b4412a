"""`regkit levels`: what reglevel reports, in words. In most tests a script gives the report in its place."""
import gzip
import json
import os
import pathlib
import shlex
import unittest
from typing import Any, Dict, List, Optional, Tuple
from unittest import mock

from regkit.checker.levels import CAUSAL, LEVELS, REQUIRED, kept, lacking, levels_in, read_levels, strongest
from regkit.checker.programs import LEVEL, find_program
from regkit.history.operations import read_history
from regkit.levels.account import groups, heading
from regkit.levels.ages import Age, ages_in_words, gap_in_words
from regkit.levels.counts import counts
from regkit.levels.faults import faults
from regkit.levels.guesses import guess
from regkit.levels.shares import shares_in_words
from regkit.levels.subject import Places, Subject
from regkit.words.phrases import duration

from .events import Line, Ran, gave, read, reply, run, text, write
from .folders import InFolder

ROOT = pathlib.Path(__file__).resolve().parents[2]
EXAMPLES = ROOT / "examples" / "levels"
FOLLOWER = str(EXAMPLES / "follower_behind.jsonl")
STALE = [[7, 5], [11, 5]]  # of the example
BEGUN = ("and the write of 1 by process 1, client ann, node leader, at 0.0 ms (lines 1 to 2) had ended "
         "before that write began")
COUNTS = ("stale", "own", "back", "inverted", "lost")


def stored(name: str, **more: Any) -> bytes:
    """The report of an example, with more keys in its first line."""
    first, *others = (EXAMPLES / f"{name}.report").read_text(encoding="utf-8").splitlines(keepends=True)
    return (json.dumps({**json.loads(first), **more}) + "\n" + "".join(others)).encode()


class Placed(InFolder):
    """A script stands in the place of reglevel."""

    def in_place(self, report: bytes, status: int = 1, refusal: str = "") -> Any:
        """It notes its words, and gives the same answer to each history."""
        path, answer, words = (self.folder / name for name in ("reglevel", "answer", "words"))
        answer.write_bytes(report)
        said = f"printf '%s\\n' {shlex.quote(refusal)} >&2" if refusal else ""
        noted, given = f'echo "$@" >> {words}', f"cat {answer}"
        path.write_text("\n".join(["#!/bin/sh", "cat > /dev/null", noted, given, said, f"exit {status}"]))
        path.chmod(0o755)
        return mock.patch.dict(os.environ, {"REGLEVEL": str(path)})

    def words(self) -> List[str]:
        path = self.folder / "words"
        return path.read_text().splitlines() if path.exists() else []

    def told(self, name: str, *words: str, status: int = 1, **more: Any) -> Ran:
        with self.in_place(stored(name, **more), status):
            return run("levels", *words, str(EXAMPLES / f"{name}.jsonl"))


class Accounts(Placed):
    def test_a_follower_that_is_behind(self) -> None:
        ran = self.told("follower_behind", stale_reads=STALE)
        self.assertEqual((ran.status, ran.err), (1, ""))
        self.assertEqual(self.words(), ["--stale"])
        self.assertEqual(ran.out, f"""\
{FOLLOWER}: keeps session and causal; not linearizable or regular: 9 operations on 2 registers
  1 register kept session at most: "cart"
  1 register is linearizable: "stock"
  linearizable only if reads might be 12.3 ms old or more (5 events)
  2 of 6 reads (33.3%) were stale: a newer write had ended before they began
    the first of register "cart": the read of 1 by process 2, client bob, node follower, at 3.0 ms (lines 7 to 8), \
after the write of 2 by process 1, client ann, node leader, at 2.0 ms (lines 5 to 6), {BEGUN}
    the worst came 12.3 ms after a newer write had ended
    stale reads: client bob 2 of 5, client ann 0 of 1
    stale reads: node follower 2 of 5, node leader 0 of 1
  1 read gave an older value than a read that had ended before it began
    the first of register "cart": the read of 1 by process 2, client bob, node follower, at 15.0 ms (lines 11 to 12), \
after the read of 2 by process 1, client ann, node leader, at 3.5 ms (lines 9 to 10); \
the write of 2 by process 1, client ann, node leader, at 2.0 ms (lines 5 to 6) wrote the newer value, {BEGUN}
  no session missed a write of its own; no session went back to an older value; no acknowledged write \
was missed by all later reads
""")

    def test_the_sample_of_the_readme(self) -> None:
        lines = self.told("follower_behind", stale_reads=STALE).out.replace(f"{ROOT}/", "").splitlines()
        sample = "".join(f"    {line}\n" for line in lines[:5])
        self.assertIn(f"\n\n{sample}\n", (ROOT / "README.md").read_text(encoding="utf-8"))

    def test_a_cycle_that_no_count_shows(self) -> None:
        """It breaks two levels, and is told once."""
        ran = self.told("readers_disagree", stale_reads=[])
        self.assertEqual(ran.out, f"""\
{EXAMPLES}/readers_disagree.jsonl: keeps regular and read your writes; not linearizable, session, monotonic reads, \
sequential or causal: 6 operations on 1 register
  linearizable if reads might be 6 events old, and no less
  no read was stale; no session missed a write of its own; no session went back to an older value; \
no read gave an older value than an earlier read; no acknowledged write was missed by all later reads
  register "x" doesn't keep monotonic reads: the read of 1 by process 3 (lines 5 to 6) ended before the read of 2 \
by process 3 (lines 7 to 8) began, so 1 comes before 2
    the read of 2 by process 4 (lines 9 to 10) ended before the read of 1 by process 4 (lines 11 to 12) began, \
so 2 comes before 1
""")

    def test_lines_of_other_examples(self) -> None:
        table: List[Tuple[str, List[List[int]], List[str]]] = [
            ("own_write_missed", [[7, 5]], [
                "keeps monotonic reads; not linearizable, regular, session, read your writes, sequential or "
                "causal: 5",
                "  1 of 3 reads (33.3%) was stale: a newer write had ended before it began\n",
                "    it came 1 event after a newer write had ended\n",
                "  1 read missed a write of its own session\n    the first: the read of 1 by process 1 (lines 7 to "
                "8), after the write of 2 by process 1 (lines 5 to 6), and",
                'register "x" isn\'t sequential: ']),
            ("read_goes_back", [[7, 3]], [
                "  1 read went back to an older value than its session had read\n    the first: the read of 1 by "
                "process 2 (lines 7 to 8), after the read of 2 by process 2 (lines 5 to 6); the write of 2 by "
                "process 1 (lines 3 to 4) wrote the newer value, and the write of 1"]),
            ("lost_write", [[7, 5], [9, 5]], [
                "  1 acknowledged write was missed: after it had ended, all reads gave something older\n    the "
                "first: the write of 2 by process 1 (lines 5 to 6)\n    let clients read once more after the run "
                "has settled, or a write that is only late counts too"]),
            ("one_guarantee_each", [], ['  register "x" doesn\'t keep session: the write of 1 by']),
        ]
        for name, stale, parts in table:
            ran = self.told(name, stale_reads=stale)
            for part in parts:
                with self.subTest(name, part=part):
                    self.assertIn(part, ran.out)

    def test_a_long_cycle_is_counted(self) -> None:
        writes = [1, 3, 5, 7, 9]
        fault = {"kind": "cycle", "writes": writes, "steps": list(zip(writes, writes[1:] + writes[:1]))}
        history = text(*(line for value in range(1, 6) for line in (write(1, value), reply(1))))
        path = self.folder / "h.jsonl"
        path.write_bytes(history)
        report = json.loads(stored("own_write_missed").splitlines()[0])
        report.update(sequential_fault=fault, stale=0, own=0, own_writes_fault=fault)
        del report["stale_read"], report["own_read"], report["gap"]
        summary = {**report, **dict.fromkeys(COUNTS, 0), "registers": 1, "operations": 5}
        with self.in_place(f"{json.dumps(report)}\n{json.dumps(summary)}\n".encode()):
            ran = run("levels", str(path))
        self.assertIn("doesn't keep read your writes: 5 writes would each have to come before the next, and "
                      "the last before the first: reglevel's report names them\n", ran.out)

    def test_unclean_registers(self) -> None:
        """What wasn't counted isn't said to be nothing."""
        row = {"atomic": "no", "regular": "no", "session": "no", "own_writes": "no", "monotonic": "no",
               "sequential": "yes", "early": {"read": 1, "write": 3}, "pending": 0, "reads": 1, "writes": 1,
               "register": "x"}
        summary: Dict[str, Any] = {**dict.fromkeys(LEVELS, "no"), "sequential": "yes", "operations": 2,
                                   "registers": 1, "reads": 1, "unclean": 1, **dict.fromkeys(COUNTS, 0)}
        early = f"{json.dumps(row)}\n{json.dumps(summary)}\n"
        unwritten = early.replace('"early": {"read": 1, "write": 3}', '"unwritten": 1')
        ended = "ended before the write of its value began: the write of 5 by process 2 (lines 3 to 4)"
        tail = {early: ended,
                unwritten: "gave a value that nobody wrote to this register"}
        for report, end in tail.items():
            with self.in_place(report.encode()):
                ran = run("levels", given=text(read(1), gave(1, 5), write(2, 5), reply(2)))
            self.assertEqual(ran.out.splitlines()[1:3], [
                "  the reads of 1 register aren't counted: there a value was read that nobody had written yet",
                f"    the first: the read of 5 by process 1 (lines 1 to 2) {end}"])
            self.assertNotIn("no read was stale", ran.out)

    def test_linearizable(self) -> None:
        summary: Dict[str, Any] = {**dict.fromkeys(("atomic", "regular", "session", "sequential"), "yes"),
                                   "operations": 2, "registers": 1, "reads": 1, **dict.fromkeys(COUNTS, 0)}
        row = {**summary, "register": "x"}
        with self.in_place(f"{json.dumps(row)}\n{json.dumps(summary)}\n".encode(), 0):
            ran = run("levels", given=text(write(1, 5), reply(1), read(1), gave(1, 5)))
        self.assertEqual(ran, (0, "standard input: linearizable, so it keeps every level: 2 operations on 1 "
                                  "register\n", ""))

    def test_the_headings(self) -> None:
        session = ["session", "own_writes", "monotonic", "sequential"]
        table: List[Tuple[List[str], str, str]] = [
            ([], "", "keeps no level; not linearizable, regular, session, read your writes, monotonic reads "
             "or sequential: 1 operation"),
            (["regular"], "no", "keeps regular; not linearizable, session,"),
            (session, "", "keeps session; not linearizable or regular: 1 operation"),
            (session, "yes", "keeps session and causal; not linearizable or regular: 1 operation"),
            (session, "no", "keeps session; not linearizable, regular or causal: 1 operation"),
            (session, "unknown", "keeps session; not linearizable or regular; causal is unknown: 1 op"),
            (["sequential"], "yes", "keeps causal; not linearizable, regular, session, read your writes or "
             "monotonic reads: 1 operation"),
            (["own_writes", "sequential"], "unknown", "keeps read your writes and sequential; not "
             "linearizable, regular, session or monotonic reads; causal is unknown: 1 operation"),
        ]
        for found, causal, words in table:
            summary: Dict[str, Any] = {level: "yes" if level in found else "no" for level in LEVELS}
            summary.update({"operations": 1, "registers": 1}, **({CAUSAL: causal} if causal else {}))
            self.assertTrue(heading(summary).startswith(words), (found, heading(summary)))


class Required(Placed):
    def test_the_level_is_handed_on(self) -> None:
        table = [("session", 0, "  required: session, and that holds\n"),
                 ("own_writes", 0, "  required: read your writes, and that holds\n"),
                 ("regular", 1, '  required: regular, which doesn\'t hold of 1 of 2 registers: "cart"\n')]
        for level, status, line in table:
            ran = self.told("follower_behind", "--require", level, status=status, stale_reads=STALE)
            self.assertEqual((ran.status, ran.err), (status, ""))
            self.assertIn(line, ran.out)
            self.assertEqual(self.words()[-1], f"--stale --require {level}")

    def test_another_word(self) -> None:
        ran = run("levels", "--require", "eventual", FOLLOWER)
        self.assertEqual((ran.status, ran.out), (3, ""))
        self.assertIn("invalid choice: 'eventual'", ran.err)

    def test_a_status_that_the_report_contradicts(self) -> None:
        contradicted: List[Tuple[List[str], int]] = [(["--require", "session"], 1), ([], 0)]
        for words, status in contradicted:
            ran = self.told("follower_behind", *words, status=status, stale_reads=STALE)
            self.assertEqual((ran.status, ran.out), (4, ""))
            self.assertIn(f"its exit status is {status}, and by its report {1 - status}", ran.err)


class Failures(Placed):
    def test_refusals(self) -> None:
        table = [("line 3: value already written to this register at line 1", "let the n-th write of"),
                 ("line 1: event is not call, reply, fail or crash", "the event is")]
        for refusal, hint in table:
            with self.in_place(b"", 2, refusal):
                ran = run("levels", given=b'{"process":1,"event":"info"}\n')
            self.assertEqual((ran.status, ran.out), (2, ""))
            self.assertIn(f"regkit levels: standard input: refused: {refusal}\n  ", ran.err)
            self.assertIn(hint, ran.err)

    def test_failures(self) -> None:
        table = [(b"", 4, "no memory or no thread", "reglevel ended with status 4: no memory or no thread"),
                 (b"none\n", 1, "", "the answer of reglevel is wrong"),
                 (b'{"atomic":"no","registers":1}\n', 1, "", "it says nothing of sessions"),
                 (stored("lost_write", stale_reads=[[70, 5]]), 1, "", "isn't of this history")]
        for report, status, refusal, words in table:
            with self.subTest(words), self.in_place(report, status, refusal):
                ran = run("levels", str(EXAMPLES / "lost_write.jsonl"))
                self.assertEqual((ran.status, ran.out), (4, ""))
                self.assertIn(words, ran.err)

    def test_no_program(self) -> None:
        with mock.patch("regkit.checker.programs.find_program", lambda name: None):
            ran = run("levels", FOLLOWER)
        self.assertEqual(ran, (4, "", f"regkit levels: {FOLLOWER}: reglevel was not found: put it beside "
                                      "regcheck or on PATH, or set REGLEVEL to its path\n"))

    def test_several_files(self) -> None:
        """Each is told, and the gravest status counts."""
        with self.in_place(stored("lost_write", stale_reads=[[7, 5], [9, 5]])):
            lost = str(EXAMPLES / "lost_write.jsonl")
            ran = run("levels", lost, "/nowhere", lost)
        self.assertEqual(ran.status, 4)
        self.assertEqual(ran.err, "regkit levels: /nowhere: No such file or directory\n")
        self.assertEqual(ran.out.count("keeps session"), 2)
        self.assertEqual(run("levels", "-", "-").status, 3)

    def test_a_packed_history(self) -> None:
        path = self.folder / "h.gz"
        path.write_bytes(gzip.compress((EXAMPLES / "lost_write.jsonl").read_bytes()))
        with self.in_place(stored("lost_write", stale_reads=[[7, 5], [9, 5]])):
            self.assertIn("keeps session", run("levels", str(path)).out)

    def test_contradictory_texts(self) -> None:
        events: List[Line] = [{**write(1, 1), "texts": {"1": "a"}}, reply(1),
                              {**read(1), "texts": {"1": "b"}}, gave(1, 1)]
        with self.in_place(stored("lost_write")):
            ran = run("levels", given=text(*events))
        self.assertEqual((ran.status, ran.out), (2, ""))
        self.assertIn("1 stands for b", ran.err)


def subject_of(events: List[Line], *rows: Dict[str, Any], **summary: Any) -> Subject:
    data = text(*events)
    history = read_history(data)
    report = "".join(json.dumps({"atomic": "no", "session": "no", **row}) + "\n"
                     for row in (*rows, {"registers": len(rows), **summary}))
    return Subject(history, read_levels(report.encode()), Places(data, history))


class Ages(unittest.TestCase):
    def test_percentiles(self) -> None:
        def words(spans: List[int], unit: Optional[int]) -> str:
            return ages_in_words([Age(span, None if unit is None else span * unit) for span in spans])

        table = [([7], None, "it came 7 events after a newer write had ended"),
                 ([1], None, "it came 1 event after a newer write had ended"),
                 ([9, 1], None, "the worst came 9 events after a newer write had ended"),
                 ([8, 6, 4, 2], 1000, "the worst came 8.0 us after a newer write had ended"),
                 ([9, 8, 5, 2, 1], None, "half of them came at least 5 events after a newer write had ended, "
                                         "the worst 9 events"),
                 ([8, 6, 4, 3, 2, 1], 1000,
                  "at least 4.0 us after a newer write had ended, the worst 8.0 us"),
                 (list(range(100, 0, -1)), 10**6,
                  "at least 51.0 ms after a newer write had ended, 1 in 100 at least 100.0 ms, the worst 100.0 ms"),
                 (list(range(1000, 0, -1)), 10**6,
                  "at least 501.0 ms after a newer write had ended, 1 in 100 at least 991.0 ms, the worst 1.0 s")]
        for spans, unit, said in table:
            self.assertIn(said, words(spans, unit))

    def test_one_line_without_a_time(self) -> None:
        self.assertEqual(ages_in_words([Age(9, 10**9), Age(2, None), Age(4, 5), Age(1, 8), Age(5, 2)]),
                         "half of them came at least 4 events after a newer write had ended, the worst 9 events")

    def test_durations(self) -> None:
        table = [(0, "0 ns"), (999, "999 ns"), (1000, "1.0 us"), (49_600_000, "49.6 ms"),
                 (61 * 10**9, "61.0 s")]
        for nanoseconds, said in table:
            self.assertEqual(duration(nanoseconds), said)

    def test_the_gap_by_the_clock(self) -> None:
        """By the step that needs the younger read; what comes before the history is older than anything."""
        stamped = [{**line, "time": 1000 * place} for place, line in enumerate(
            [write(1, 1), reply(1), write(1, 2), reply(1), read(2), gave(2, 2), read(2), gave(2, 1)], 1)]
        gap = {"events": 1, "first": [1, 5], "second": [5, 7], "writes": [1, 3]}
        subject = subject_of(stamped, {"register": "x", "gap": gap}, gap=1)
        self.assertEqual(gap_in_words(subject),
                         "linearizable only if reads might be 1.0 us old or more (1 event)")
        initial = {"events": 1, "first": [0, 5], "second": [3, 7], "writes": [0, 3]}
        subject = subject_of(stamped, {"register": "x", "gap": initial}, gap=1)
        self.assertIn("only if reads might be 3.0 us old or more", gap_in_words(subject))
        del stamped[6]["time"]
        back = [{**line, "time": -line["time"]} for line in stamped if "time" in line]
        for others in (stamped, [*back[:6], {**stamped[6], "time": -9000}, back[6]]):
            subject = subject_of(others, {"register": "x", "gap": gap}, gap=1)
            self.assertEqual(gap_in_words(subject), "linearizable if reads might be 1 event old, and no less")
        self.assertEqual(gap_in_words(subject_of(stamped, {"register": "x"})), "")

    def test_blank_lines_are_no_events(self) -> None:
        data = b"\n \n" + text(write(1, 1), reply(1)) + b"\n\n" + text(read(1), gave(1, 1))
        history = read_history(data)
        self.assertEqual(Places(data, history).between(4, 7), 1)
        dense = text(write(1, 1), reply(1), read(1), gave(1, 1))
        self.assertEqual(Places(dense, read_history(dense)).between(2, 3), 1)


class Shares(unittest.TestCase):
    def subject(self, clients: int) -> Subject:
        events: List[Line] = []
        for client in range(clients):
            events += [{**read(client), "client": f"c{client}"}, gave(client, None)] * (client + 1)
        stale = [[place, 1] for place, line in enumerate(events, 1) if line.get("client") == "c1"]
        return subject_of(events, {"register": "x", "stale_reads": stale})

    def test_the_worst_come_first(self) -> None:
        self.assertEqual(shares_in_words(self.subject(3)),
                         ["stale reads: client c1 2 of 2, client c0 0 of 1, client c2 0 of 3"])
        self.assertEqual(shares_in_words(self.subject(1)), [])
        self.assertTrue(shares_in_words(self.subject(9))[0].endswith("client c5 0 of 6, and 3 more"))


class Firsts(unittest.TestCase):
    def test_the_first_of_all_registers(self) -> None:
        """It needn't be of the first register."""
        events = [write(1, 1, "a"), reply(1), write(1, 1, "b"), reply(1), read(2, "b"), gave(2, None),
                  read(2, "a"), gave(2, None)]
        rows: List[Dict[str, Any]] = [
            {"register": name, "stale": 1, "stale_read": {"newer": newer, "read": place, "seen": 0},
             "lost_write": newer, "stale_reads": [[place, newer]]}
            for name, newer, place in (("a", 1, 7), ("b", 3, 5))]
        numbers = {"stale": 2, "own": 0, "back": 0, "inverted": 0, "reads": 2}
        for ordered in (rows, rows[::-1]):
            said = "\n".join(counts(subject_of(events, *ordered, lost=2, **numbers)))
            self.assertIn('the first of register "b": the read of null by process 2 (lines 5 to 6)', said)
            self.assertIn("2 acknowledged writes were missed: after each had ended, all reads gave "
                          'something older\n  the first of register "a": the write of 1 by '
                          "process 1 (lines 1 to 2)", said)


class Faults(unittest.TestCase):
    def test_several_registers_with_one_fault_each(self) -> None:
        """The cycle of the first is told."""
        lines = (EXAMPLES / "readers_disagree.jsonl").read_text(encoding="utf-8").splitlines()
        row = json.loads(stored("readers_disagree").splitlines()[0])
        alone = {key: value for key, value in row.items() if key != "monotonic_fault"}
        for first, lacking in ((row, "don't keep monotonic reads"), (alone, "aren't sequential")):
            subject = subject_of([json.loads(line) for line in lines], first, {**first, "register": "y"})
            said = faults(subject)
            self.assertEqual(len(said), 2)
            self.assertTrue(said[0].startswith(f'2 registers {lacking}. The first, "x": the read of 1'), said)


class Guesses(unittest.TestCase):
    def summary(self, levels: str, **counts: int) -> Dict[str, Any]:
        given = {level: "yes" if level in levels.split() else "no" for level in REQUIRED}
        return {**given, **dict.fromkeys(("stale", "own", "back", "inverted", "lost"), 0), **counts}

    def test_what_simulated_stores_did(self) -> None:
        """The counts of runs of a million events, by the kind of the store."""
        table: List[Tuple[str, Dict[str, int], str]] = [
            ("regular own_writes", {"back": 964, "inverted": 4526}, "written synchronously"),
            ("", {"stale": 455, "own": 40, "back": 110, "inverted": 983}, "quorums without write-back"),
            ("session own_writes monotonic sequential causal", {"stale": 70, "inverted": 41},
             "that are behind, where each"),
            ("session own_writes monotonic sequential", {"stale": 34000, "inverted": 19784},
             "each key or shard by itself"),
            ("own_writes", {"stale": 21665, "back": 3032, "inverted": 17572}, "with a token"),
            ("own_writes", {"stale": 455, "back": 110, "inverted": 983}, "quorums without write-back"),
            ("monotonic", {"stale": 310835, "own": 64983, "inverted": 82008}, "keep to one replica"),
            ("monotonic", {"stale": 79905, "own": 7144}, "or one copy that ignores"),
            ("sequential causal", {"stale": 224455, "own": 16605, "back": 20619, "inverted": 166620},
             "several leaders with causal delivery"),
            ("sequential", {"stale": 224455, "back": 20619, "inverted": 166620}, "without causal delivery"),
            ("", {"stale": 310695, "own": 63474, "back": 23620, "inverted": 80282}, "or a failover"),
            ("", {"stale": 12495, "own": 886, "back": 98, "inverted": 928}, "a cache in front"),
            ("", {"stale": 79065, "own": 6348, "back": 2830, "inverted": 25775}, "replicas or caches"),
            ("", {"stale": 2695, "own": 542, "back": 765, "inverted": 2388}, "or a failover"),
        ]
        for levels, counts, store in table:
            with self.subTest(store, counts=counts):
                said = guess(self.summary(levels, **counts))
                self.assertTrue(said.startswith("a guess: this looks like "), said)
                self.assertIn(store, said)

    def test_too_little_for_a_guess(self) -> None:
        self.assertEqual(guess(self.summary("", stale=10, inverted=9)), "")
        self.assertNotEqual(guess(self.summary("", stale=10, inverted=10)), "")
        self.assertEqual(guess({**self.summary("", stale=99), "unclean": 1}), "")
        self.assertEqual(guess(self.summary("atomic regular session sequential", stale=99)), "")


class Strength(unittest.TestCase):
    def test_the_halves_of_a_session_that_was_kept(self) -> None:
        row = {"atomic": "no", "regular": "yes", "session": "yes", "sequential": "yes"}
        self.assertEqual(kept(row), ["regular", "session", "own_writes", "monotonic", "sequential"])
        self.assertEqual(strongest(kept(row)), ["regular", "session"])
        self.assertEqual(strongest(REQUIRED), ["atomic"])
        self.assertEqual(strongest(kept({**row, CAUSAL: "yes"})), ["regular", "session", "causal"])
        halved = {**row, "session": "no", "own_writes": "no", "monotonic": "yes", "regular": "no"}
        self.assertEqual(kept(halved), ["monotonic", "sequential"])

    def test_groups_of_registers(self) -> None:
        names = [f"r{place}" for place in range(9)]
        whole = {"atomic": "no", "regular": "no", "session": "yes", "sequential": "yes"}
        rows: List[Dict[str, Any]] = [{**whole, "register": name} for name in names]
        rows[8].update(dict.fromkeys(LEVELS, "no"))
        report = "".join(json.dumps(row) + "\n" for row in [*rows, {**rows[8], "registers": 9}])
        self.assertEqual(groups(read_levels(report.encode())), [
            '8 registers kept session at most: "r0", "r1", "r2", "r3", "r4", "r5", and 2 more',
            '1 register kept no level: "r8"'])


class Checks(Placed):
    """`regkit check` names the strongest level where regcheck says no."""

    def checked(self, *words: str) -> Ran:
        return run("check", *words, str(EXAMPLES / "order_against_time.jsonl"))

    def test_one_line(self) -> None:
        with self.in_place(stored("order_against_time")):
            ran = self.checked()
            self.assertEqual(ran.out.splitlines()[-1], "  it keeps causal: `regkit levels` says more")
            self.assertEqual(json.loads(self.checked("--json").out)["kept"], ["causal"])
        for verdict, said in (("no", "sequential"), ("unknown", "sequential")):
            now = f'"causal":"{verdict}"'.encode()
            changed = stored("order_against_time").replace(b'"causal":"yes"', now)
            with self.in_place(changed):
                last = self.checked().out.splitlines()[-1]
                self.assertEqual(last, f"  it keeps {said}: `regkit levels` says more")
        changed = changed.replace(b'"sequential":"yes"', b'"sequential":"no"')
        with self.in_place(changed):
            last = self.checked().out.splitlines()[-1]
            self.assertEqual(last, "  it keeps no weaker level: `regkit levels` says more")

    def test_silent_without_an_answer(self) -> None:
        silent = [self.in_place(b"", 2, "line 1: not JSON"), self.in_place(b"", 4, "no memory or no thread"),
                  mock.patch.dict(os.environ, {"REGLEVEL": "/nowhere"})]
        for place in silent:
            with place:
                self.assertNotIn("keeps", self.checked().out)
                self.assertNotIn("kept", json.loads(self.checked("--json").out))

    def test_it_isnt_asked_in_vain(self) -> None:
        with self.in_place(stored("order_against_time")):
            self.checked("--first")
            run("check", given=text(write(1, 5), reply(1), read(1), gave(1, 5)))
        self.assertEqual(self.words(), [])

    def test_two_programs_that_disagree(self) -> None:
        summary = json.dumps({**{level: "yes" for level in LEVELS}, "registers": 0}) + "\n"
        with self.in_place(summary.encode(), 0):
            ran = self.checked()
        self.assertEqual((ran.status, ran.out), (4, ""))
        self.assertIn("the answer of regcheck is wrong: reglevel calls the history atomic", ran.err)


@unittest.skipUnless(find_program(LEVEL), "reglevel isn't built")
class Itself(unittest.TestCase):
    def test_the_examples(self) -> None:
        for path in sorted(EXAMPLES.glob("*.jsonl")):
            ran = run("levels", str(path))
            self.assertEqual((ran.status, ran.err), (1, ""), path)

    def test_a_file_of_another_form(self) -> None:
        source = b"process,start,end,register,op,value,outcome\n1,0,1,k,write,apple,ok\n2,2,3,k,read,,ok\n"
        ran = run("levels", "--require", "session", given=source)
        self.assertEqual((ran.status, ran.err), (0, ""))
        self.assertIn('null by process 2 (lines 3 to 4), after the write of "apple" by process 1', ran.out)
        self.assertIn("\n  taken for a table (--from csv)\n", ran.out)


if __name__ == "__main__":
    unittest.main()
