"""`causal` in words, on the page, and as `regkit verify` checks it. In the place of reglevel stand hand-made
reports, or those of the examples."""
import itertools
import json
import random
import re
import unittest
from typing import Any, Dict, List, Optional, Sequence, Set, Tuple
from unittest import mock

from regkit import verify
from regkit.checker.levels import REQUIRED, read_levels
from regkit.drawing.marks import Arrow, foot_of, head_of
from regkit.drawing.section import Author
from regkit.explain.shrinking import ShrinkSettings
from regkit.history.operations import read_history
from regkit.levels.account import account, heading
from regkit.levels.causal import MOST_SESSIONS, UNKNOWN, Teller, causal_fault, parts_of
from regkit.levels.subject import Places, Subject
from regkit.pictures.causal import AcrossRegisters, marks_of
from regkit.pictures.page import levels_page
from regkit.verify.causal import built, check_order
from regkit.verify.knowledge import Whole, by_knowledge
from regkit.verify.operations import Operation, initial_write
from regkit.verify.operations import read_history as read_strictly

from .events import Line, Ran, crash, gave, read, reply, run, text, write
from .test_draw import Elements
from .test_levels import EXAMPLES, Placed
from .test_levels_page import words_of

QUESTION = "answer_before_question"
Step = Dict[str, Any]


def hidden(before: int, after: int, *knew: int, read: int = 0) -> Step:
    way = {"knew": list(knew)} if knew else {}
    return {"from": before, "read": knew[-1] if knew else read, "to": after, "why": "hidden", **way}


def step(before: int, after: int, why: str) -> Step:
    return {"from": before, "to": after, "why": why}


def subject_of(events: List[Line], *steps: Step, registers: Sequence[str] = ("x", "y")) -> Subject:
    """A history that keeps session, and isn't causal for a cycle of these steps."""
    rows: List[Dict[str, Any]] = [{"atomic": "no", "session": "yes", "register": name} for name in registers]
    summary = {"atomic": "no", "session": "yes", "causal": "no", "registers": len(rows), "operations": 9,
               "reads": 1, **dict.fromkeys(("stale", "own", "back", "inverted", "lost"), 0),
               "causal_fault": {"kind": "cycle", "steps": list(steps)}}
    data = text(*events)
    report = "".join(json.dumps({**dict.fromkeys(("regular", "sequential"), "yes"), **row}) + "\n"
                     for row in (*rows, summary))
    return Subject(read_history(data), read_levels(report.encode()), Places(data, read_history(data)))


def written(process: int, value: int, register: str) -> List[Line]:
    return [write(process, value, register), reply(process)]


def was_read(process: int, value: Optional[int], register: str) -> List[Line]:
    return [read(process, register), gave(process, value)]


FLAG = [*written(1, 1, "x"), *written(1, 1, "y"), *was_read(2, 1, "y"), *was_read(2, None, "x")]
OF_FLAG = (hidden(1, 0, 1, 3, 5, 7), step(0, 1, "initial"))
KNEW = 'process 2 read 1 from "y" (lines 5 to 6), so it knew of 1 in "x" (lines 1 to 2)'


class Stories(unittest.TestCase):
    def test_a_flag_without_what_was_written_before_it(self) -> None:
        said = causal_fault(subject_of(FLAG, *OF_FLAG))
        self.assertEqual(said, [
            f'the history isn\'t causal: {KNEW}, and later read null from "x" (lines 7 to 8)',
            '  how it knew: process 1 wrote 1 to "x" (lines 1 to 2), and later wrote 1 to "y" (lines 3 to 4)'])
        turned = subject_of(FLAG, *OF_FLAG[::-1])  # wherever the cycle begins
        self.assertEqual(causal_fault(turned), said)

    def test_a_way_that_isnt_told(self) -> None:
        self.assertEqual(causal_fault(subject_of(FLAG, hidden(1, 0, read=7), step(0, 1, "initial"))), [
            'the history isn\'t causal: process 2 read null from "x" (lines 7 to 8), though it knew of 1 in "x" '
            "(lines 1 to 2)"])

    def test_two_values_that_were_written(self) -> None:
        """Who wrote the newer one knew of the older."""
        events = [*written(1, 1, "x"), *written(1, 2, "x"), *was_read(2, 2, "x"), *was_read(2, 1, "x")]
        said = causal_fault(subject_of(events, hidden(3, 1, 3, 5, 7), step(1, 3, "process")))
        self.assertEqual(said, [
            'the history isn\'t causal: process 2 read 2 from "x" (lines 5 to 6), and later read 1 from "x" '
            '(lines 7 to 8), so 2 in "x" comes before 1 in "x"',
            '  process 1 wrote 1 to "x" (lines 1 to 2), and later wrote 2 to "x" (lines 3 to 4), so 1 in "x" '
            'comes before 2 in "x"'])

    def test_two_readers(self) -> None:
        events = [*written(1, 1, "x"), *written(2, 2, "x"), *was_read(3, 1, "x"), *was_read(3, 2, "x"),
                  *was_read(4, 2, "x"), *was_read(4, 1, "x")]
        said = causal_fault(subject_of(events, hidden(1, 3, 1, 5, 7), hidden(3, 1, 3, 9, 11)))
        self.assertEqual([line.split(", so ")[1] for line in said],
                         ['1 in "x" comes before 2 in "x"', '2 in "x" comes before 1 in "x"'])

    def test_what_the_reader_heard_last(self) -> None:
        """The read's session did nothing before it: its value itself came from one that knew."""
        events = [*written(1, 1, "x"), *was_read(2, 1, "x"), *written(2, 2, "x"), *was_read(3, 2, "x")]
        events += [*was_read(4, 2, "x"), *was_read(4, 1, "x")]
        said = causal_fault(subject_of(events, hidden(1, 5, 1, 3, 5, 7), hidden(5, 1, 5, 9, 11)))
        self.assertEqual(said[:2], [
            'the history isn\'t causal: process 3 read 2 from "x" (lines 7 to 8), though it knew of 1 in "x" '
            '(lines 1 to 2), so 1 in "x" comes before 2 in "x"',
            '  how it knew: process 1 wrote 1 to "x" (lines 1 to 2); process 2 read that (lines 3 to 4), and later '
            'wrote 2 to "x" (lines 5 to 6)'])

    def test_who_and_when(self) -> None:
        events = [{**line, "client": "ann" if line["process"] == 1 else "bob", "time": 1000 * place}
                  for place, line in enumerate(FLAG)]
        said = causal_fault(subject_of(events, *OF_FLAG))
        self.assertIn('process 2, client bob, at 0.0 ms, read 1 from "y"', said[0])

    def test_operations_that_know_of_themselves(self) -> None:
        events = [read(1, "x"), read(2, "y"), gave(1, 1), gave(2, 1)]
        events += [*written(1, 1, "y"), *written(2, 1, "x")]
        circle = [step(1, 5, "process"), step(5, 2, "read"), step(2, 7, "process"), step(7, 1, "read")]
        for turn in range(4):
            said = causal_fault(subject_of(events, *circle[turn:], *circle[:turn]))
            self.assertEqual(len(said), 1)
            self.assertRegex(said[0], 'read 1 from "." .*, and later wrote 1 to "." .*; process . read that '
                                      '.*, and later wrote 1 to "." .*, which is what was read first$')

    def test_long_ways_and_cycles(self) -> None:
        events, way, steps = written(0, 1, "r0"), [1], []
        for number in range(1, MOST_SESSIONS + 1):
            way += [len(events) + 1, len(events) + 3]
            events += [*was_read(number, 1, f"r{number - 1}"), *written(number, 1, f"r{number}")]
        last = MOST_SESSIONS + 1
        way += [len(events) + 1, len(events) + 3]
        events += [*was_read(last, 1, f"r{last - 1}"), *was_read(last, None, "r0")]
        said = causal_fault(subject_of(events, hidden(1, 0, *way), step(0, 1, "initial")))
        self.assertIn("how it knew: by a way of 13 operations: reglevel's report names them", said[1])
        events, count = [], 5
        for number in range(count):
            events += written(number, number + 1, "x")
        for number in range(count):
            other = (number + 1) % count
            begin = len(events) + 1
            events += [*was_read(9 + number, number + 1, "x"), *was_read(9 + number, other + 1, "x")]
            steps.append(hidden(2 * number + 1, 2 * other + 1, 2 * number + 1, begin, begin + 2))
        said = causal_fault(subject_of(events, *steps))
        self.assertEqual(said, [
            "the history isn't causal: 5 operations would each have to come before the next, and the last before "
            "the first: reglevel's report names them"])

    def test_one_register(self) -> None:
        """Then it isn't sequential either, and that is told."""
        self.assertEqual(causal_fault(subject_of(FLAG, *OF_FLAG, registers=["x"])), [])

    def test_steps_that_the_history_doesnt_have(self) -> None:
        first = step(0, 1, "initial")
        table = [[hidden(1, 0, 1, 3, 5, 7), step(0, 3, "initial")], [hidden(1, 0, 1, 3, 5, 5), first],
                 [hidden(3, 0, 3, 5, 7), step(0, 3, "initial")], [step(1, 5, "read"), step(5, 1, "process")],
                 [first, step(1, 0, "process")], [step(3, 1, "process"), step(1, 3, "process")]]
        for steps in table:
            subject = subject_of(FLAG, *steps)
            with self.subTest(steps), self.assertRaises((ValueError, KeyError)):
                parts_of(subject.history, subject.levels.summary["causal_fault"])


class Words(Placed):
    def said(self, summary: Dict[str, Any], *words: str, status: int) -> Ran:
        *rows, old = (EXAMPLES / f"{QUESTION}.report").read_text(encoding="utf-8").splitlines()
        told = {key: value for key, value in json.loads(old).items() if not key.startswith("causal")}
        stale = [{**json.loads(row), "stale_reads": [[9, 1]] if "question" in row else []} for row in rows]
        report = "".join(json.dumps(row) + "\n" for row in (*stale, {**told, **summary}))
        with self.in_place(report.encode(), status):
            return run("levels", *words, str(EXAMPLES / f"{QUESTION}.jsonl"))

    def fault(self) -> Dict[str, Any]:
        last = (EXAMPLES / f"{QUESTION}.report").read_text(encoding="utf-8").splitlines()[-1]
        return dict(json.loads(last)["causal_fault"])

    def test_required(self) -> None:
        table: List[Tuple[Dict[str, Any], int, str]] = [
            ({"causal": "yes"}, 0, "keeps session and causal; not linearizable or regular: 5 operations on 2 "
             "registers\n  required: causal, and that holds\n"),
            ({"causal": "no", "causal_fault": self.fault()}, 1, "keeps session; not linearizable, regular or "
             "causal: 5 operations on 2 registers\n  required: causal, which doesn't hold\n"),
            ({"causal": "unknown"}, 6, "keeps session; not linearizable or regular; causal is unknown: 5 "
             "operations on 2 registers\n  required: causal, which is unknown\n")]
        for summary, status, words in table:
            ran = self.said(summary, "--require", "causal", status=status)
            self.assertEqual((ran[0], ran[2]), (status, ""))
            self.assertIn(words, ran[1])
            self.assertEqual(UNKNOWN in ran[1], status == 6)
            self.assertEqual(self.words()[-1], "--stale --require causal")
            for other in {0, 1, 6} - {status}:
                ran = self.said(summary, "--require", "causal", status=other)
                self.assertEqual(ran[:2], (4, ""))
                self.assertIn(f"its exit status is {other}, and by its report {status}", ran[2])

    def test_the_account_of_the_example(self) -> None:
        ran = self.said({"causal": "no", "causal_fault": self.fault()}, status=1)
        self.assertIn("""\
  the history isn't causal: process 3, client cat, node west, at 4.0 ms, read 1 from "answer" (lines 7 to 8), \
so it knew of 1 in "question" (lines 1 to 2), and later read null from "question" (lines 9 to 10)
    how it knew: process 1, client ann, node east, at 0.0 ms, wrote 1 to "question" (lines 1 to 2); process 2, \
client bob, node east, at 1.0 ms, read that (lines 3 to 4), and later wrote 1 to "answer" (lines 5 to 6)
""", ran[1])

    def test_a_fault_of_another_history(self) -> None:
        wrong = {"kind": "cycle", "steps": [hidden(1, 0, 1, 3, 5, 7), step(0, 1, "initial")]}
        ran = self.said({"causal": "no", "causal_fault": wrong}, status=1)
        self.assertEqual(ran[:2], (4, ""))
        self.assertIn("isn't of this history", ran[2])

    def test_a_report_that_says_nothing_of_it(self) -> None:
        """As one that was joined."""
        ran = self.said({}, status=1)
        self.assertIn("keeps session; not linearizable or regular: 5", ran[1])


class Pages(unittest.TestCase):
    def page(self, name: str, **summary: Any) -> str:
        data = (EXAMPLES / f"{name}.jsonl").read_bytes()
        *rows, last = map(json.loads, (EXAMPLES / f"{name}.report").read_bytes().splitlines())
        for row in rows:
            old = row.get("stale_read")
            row["stale_reads"] = [[old["read"], old["newer"]]] if old else []
        report = "".join(json.dumps(row) + "\n" for row in (*rows, {**last, **summary}))
        subject = Subject(read_history(data), read_levels(report.encode()), Places(data, read_history(data)))
        return levels_page(subject, name)

    def box(self, page: str) -> List[str]:
        pattern = 'class="level (\\w+)">((?!class="level ).)*?causal</text>.*?level-note".*?>(.*?)<'
        found = re.search(pattern, page)
        return [] if found is None else [found[1], found[3]]

    def test_the_box_of_the_ladder(self) -> None:
        table: List[Tuple[Dict[str, Any], List[str]]] = [
            ({}, ["lacking", "not kept"]),
            ({"causal": "yes"}, ["kept", "kept, by all registers together"]),
            ({"causal": "unknown"}, ["unknown", "unknown: it was given up"])]
        for summary, box in table:
            self.assertEqual(self.box(self.page(QUESTION, **summary)), box)

    def test_the_picture(self) -> None:
        """Numbered arrows, and bars that name their registers."""
        page = self.page(QUESTION)
        words = words_of(page)
        self.assertIn("All registers together", words)
        self.assertIn("Not kept: causal", words)
        self.assertIn("Process 3, client cat, node west, at 4.0 ms, read 1 from &quot;answer&quot;", page)
        for label in ("question: w 1", "question: r null", "answer: w 1", "answer: r 1", "question: 1 → null",
                      "question: null → 1"):
            self.assertIn(f">{label}<", page)
        self.assertIn("Null in &quot;question&quot; comes before all that is written there.", page)
        elements = Elements(page)
        self.assertEqual((elements.odd, elements.open), ([], []))
        self.assertNotIn("All registers together", self.page("news_in_both_orders"))

    def test_a_write_that_was_never_answered(self) -> None:
        events = [write(1, 1, "x"), crash(1), *was_read(3, 1, "x"), *written(3, 1, "y"), *was_read(2, 1, "y"),
                  *was_read(2, None, "x")]
        subject = subject_of(events, hidden(1, 0, 1, 3, 5, 7, 9), step(0, 1, "initial"))
        self.assertIn("x: w 1", levels_page(subject, "h"))

    def test_all_that_the_steps_name_is_drawn(self) -> None:
        """However far apart: the chain by which a read knew, and both reads, with arrows that end at them."""
        own = (written(1, 1, "x"), written(2, 2, "x"), written(1, 1, "y"), was_read(3, 1, "y"),
               was_read(3, 2, "x"), was_read(2, 1, "x"))
        events = [event for number, each in enumerate(own, 1) for event in
                  (*each, *(event for value in range(30) for event in written(9, 100 * number + value, "x")))]
        of_y, told, late, other = 125, 187, 249, 311
        subject = subject_of(events, hidden(1, 63, 1, of_y, told, late), hidden(63, 1, 63, other))
        page = levels_page(subject, "h")
        figure = page[page.index("<figure><svg", page.index("Not kept: causal")):]
        figure = figure[:figure.index("</figure>")]
        strong = re.findall('class="bar [^"]*strong[^"]*" data-line="(\\d+)"', figure)
        self.assertEqual([int(line) for line in strong], [1, 63, of_y, told, late, other])
        self.assertEqual([figure.count(f'class="head {cluster}"') for cluster in ("first", "second")], [3, 1])
        self.assertEqual(figure.count("one of the reads with this sign is stale"), 2)
        self.assertIn(">record line<", figure)
        self.assertIn('class="long"', figure)
        self.assertIn("The picture goes on to the right.", figure)

    def test_all_are_drawn_that_are_open_at_once(self) -> None:
        """Though a picture has no more than 24 lanes for calls that no step names."""
        size = 14
        begun = [write(2 * n, n, f"r{n}") for n in range(1, size + 1)]
        heard = [read(2 * n + 1, f"r{n}") for n in range(1, size + 1)]
        replies = [each for n in range(1, size + 1) for each in (gave(2 * n + 1, n), reply(2 * n))]
        history = read_history(text(*begun, *heard, *replies))
        marks = AcrossRegisters()
        for number, call in enumerate(history.calls[:size], 1):
            reader = history.calls[size + number - 1]
            marks.arrows.append(Arrow(call, reader, "step", number, "x", "y"))
            marks.name(call)
            marks.name(reader)
        author = Author(history, {"register": ""}, ShrinkSettings(), history.calls)
        self.assertEqual(author.windows(marks, "it").count('class="head step"'), size)

    def test_the_read_that_knew(self) -> None:
        """A single one is stale, and the arrow that leads along what it knew ends there."""
        subject = subject_of(FLAG, *OF_FLAG)
        marks = marks_of(parts_of(subject.history, subject.levels.summary["causal_fault"]), Teller(subject))
        assert marks is not None
        self.assertEqual([[(before.line, after.line) for before, after in arrow.hops]
                          for arrow in marks.arrows], [[(1, 3), (3, 5), (5, 7)], [(0, 1)]])
        self.assertEqual((marks.stale_lines, marks.doubted_lines), ({7}, set()))
        self.assertIn("a stale read: it gave an older value", levels_page(subject, "h"))

    def test_where_arrows_stand(self) -> None:
        """From an end to a beginning; where two operations overlap, still from left to right if it can be."""
        for events, ends in [
                ([*written(1, 1, "x"), *was_read(2, 1, "x")], (2, 3)),
                ([write(1, 1, "x"), read(2, "x"), gave(2, 1), reply(1)], (1, 2)),
                ([read(2, "x"), write(1, 1, "x"), gave(2, 1), reply(1)], (2, 3)),
                ([write(1, 1, "x"), crash(1), *was_read(2, 1, "x")], (1, 3))]:
            calls = read_history(text(*events)).calls
            source, target = sorted(calls, key=lambda call: call.kind, reverse=True)
            self.assertEqual((foot_of(source, target), head_of(source, target)), ends)

    def test_initial_writes_of_two_registers_have_no_picture(self) -> None:
        events = [*written(1, 1, "x"), *was_read(1, None, "y"), *written(2, 1, "y"), *was_read(2, None, "x")]
        steps = [hidden(1, 0, 1, 7), step(0, 5, "initial"), hidden(5, 0, 5, 3), step(0, 1, "initial")]
        page = levels_page(subject_of(events, *steps), "h")
        self.assertIn("Not kept: causal", words_of(page))
        self.assertEqual(page.count("<figure>"), 1)


# ---- verify


def report_of(name: str = QUESTION) -> str:
    return (EXAMPLES / f"{name}.report").read_text(encoding="utf-8")


HIDDEN = '{"from":1,"knew":[1,3,5,7,9],"read":9,"to":0,"why":"hidden"}'
FIRST = '{"from":0,"to":1,"why":"initial"}'
CYCLE = f'"causal":"no","causal_fault":{{"kind":"cycle","steps":[{FIRST},{HIDDEN}]}}'
# What stands in the place of the cycle of the example, and a part of what verify then says.
WRONG: List[Tuple[str, str]] = [
    ('"causal":"yes"', "`causal` is yes, and the read of line 9 gives line 0, and knows of line 1, which"),
    ('"causal":"yes","causal_order":[1,5]', "`causal_order` is there if the registers have their orders"),
    ('"causal":"unknown"', "`causal` is unknown, and the history isn't so large"),
    ('"causal":"maybe"', "`causal` is neither yes, no nor unknown"),
    ('"causal":"no"', "`causal_fault` is there if `causal` is no"),
    ('"inverted":1', "`causal` is neither yes, no nor unknown"),
    ('"causal":"no","causal_fault":[]', "`causal_fault` is not an object"),
    ('"causal":"no","causal_fault":{"kind":"early","read":9,"write":1}', "is of no kind that there is"),
    ('"causal":"no","causal_fault":{"kind":"unwritten","read":9}', "line 9 is no read of a value that nobody"),
    ('"causal":"no","causal_fault":{"kind":"unwritten","read":1}', "line 1 is no read of a value that nobody"),
    ('"causal":"no","causal_fault":{"kind":"cycle","steps":[]}', "has no steps"),
    ('"causal":"no","causal_fault":{"kind":"cycle","steps":[' + HIDDEN + "]}",
     "a step begins at line 0, where the one before it ends"),
    (CYCLE.replace('"why":"initial"', '"why":"process"'), "line 0 doesn't come before line 1 in a session"),
    (CYCLE.replace('"why":"initial"', '"why":"read"'), "line 1 doesn't give the value of line 0"),
    (CYCLE.replace('"why":"initial"', '"why":"known"'), "has no reason that there is"),
    (CYCLE.replace('"why":"initial"', '"read":9,"why":"initial"'), "the keys of a step are not from, to"),
    (CYCLE.replace("[1,3,5,7,9]", "[1,5,7,9]"), "line 5 doesn't learn of line 1"),
    (CYCLE.replace("[1,3,5,7,9]", "[1,3,5,7]"), "`knew` doesn't lead from line 1 to line 9"),
    (CYCLE.replace("[1,3,5,7,9]", "[3,5,7,9]"), "`knew` doesn't lead from line 1 to line 9"),
    (CYCLE.replace("[1,3,5,7,9]", "[1,3,5,true,9]"), "`knew` is not a list of lines"),
    (CYCLE.replace('"read":9,"to":0', '"read":7,"to":0'), "line 7 doesn't give the value of line 0"),
    (CYCLE.replace('"to":1', '"to":5').replace('"from":1', '"from":5'),
     "line 5 is not another write to the register of line 9"),
    (CYCLE.replace('"to":1', '"to":2'), "2 in `causal_fault` is not the line of a call"),
]


class Checked(unittest.TestCase):
    def verified(self, report: str, name: str = QUESTION) -> verify.Verified:
        return verify.verify((EXAMPLES / f"{name}.jsonl").read_bytes(), report.encode())

    def planted(self, part: str) -> str:
        """The report of the example with other words of causal."""
        summary = report_of().splitlines()[-1]
        begin, end = summary.index('"causal":'), summary.index(',"gap"')
        return report_of().replace(summary[begin:end], part.replace('"inverted":1', '"operations":5'))

    def test_the_example(self) -> None:
        turned = CYCLE.replace(f"{FIRST},{HIDDEN}", f"{HIDDEN},{FIRST}")
        for cycle in (CYCLE, turned, CYCLE.replace('"knew":[1,3,5,7,9],', "")):
            self.assertEqual((self.verified(self.planted(cycle)).kept or [])[:1], ["session"])

    def test_what_is_wrong_is_named(self) -> None:
        for part, said in WRONG:
            with self.subTest(part), self.assertRaises(verify.Wrong) as caught:
                self.verified(self.planted(part).replace('"operations":5,"gap"', '"gap"'))
            self.assertIn(said, str(caught.exception))

    def test_a_reader_that_knows_of_nothing(self) -> None:
        """The cycle is that of the other example, whose reader never heard of the write."""
        summary = report_of("news_in_both_orders").replace('"causal":"yes"', (
            '"causal":"no","causal_fault":{"kind":"cycle","steps":[{"from":1,"read":10,"to":0,"why":"hidden"},'
            '{"from":0,"to":1,"why":"initial"}]}'))
        with self.assertRaisesRegex(verify.Wrong, "line 10 doesn't know of line 1"):
            self.verified(summary, "news_in_both_orders")

    def test_orders(self) -> None:
        """Of the two writes any comes first."""
        *rows, summary = map(json.loads, report_of("news_in_both_orders").splitlines())
        own = {"x": [10, 1, 5], "y": [9, 3, 6]}  # the stale read before the write, which is session
        for row in rows:
            row.update(order=own[row["register"]], order_of="session")
        table: List[Tuple[Any, str]] = [
            ([1, 3], ""), ([3, 1], ""), ([1], "its order lacks a write"), ([1, 5, 3], "has another: line 5"),
            ([1, 3, 3], "its order has a write twice"), ([1, True], "`causal_order` is not a list of lines"),
            ([0, 1, 3], "its order lacks a write, or has another: line 0"),
            (None, "`causal_order` is there if the registers")]
        for order, said in table:
            told = summary if order is None else {**summary, "causal_order": order}
            report = "".join(json.dumps(row) + "\n" for row in (*rows, told))
            with self.subTest(order):
                if not said:
                    self.assertIn("causal", self.verified(report, "news_in_both_orders").kept or [])
                    continue
                with self.assertRaisesRegex(verify.Wrong, said):
                    self.verified(report, "news_in_both_orders")

    def test_without_causal_if_it_was_joined(self) -> None:
        data = (EXAMPLES / f"{QUESTION}.jsonl").read_bytes()
        left_out = ("gap", "causal", "causal_fault")
        rows = [{key: value for key, value in json.loads(line).items() if key not in left_out}
                for line in report_of().splitlines()]
        report = "".join(json.dumps(row) + "\n" for row in rows).encode()
        self.assertNotIn("causal", verify.verify(data, report, joined=True).kept or [])
        self.assertRaises(verify.Wrong, verify.verify, data, report)

    def test_what_would_take_too_long(self) -> None:
        with mock.patch("regkit.verify.causal.MOST_WORK", 10):
            ran = run("verify", str(EXAMPLES / "lost_write.jsonl"), str(EXAMPLES / "lost_write.report"))
        self.assertEqual(ran, (6, "not all checked: keeps session and causal; not linearizable or regular: 5 "
                                  "operations on 1 register; that it is causal would take too long to check\n", ""))


# ---- By all orders


def two_registers(seed: int) -> List[Line]:
    """Up to six operations of three processes, with reads of any value that there may be."""
    chance = random.Random(seed)
    lines: List[Line] = []
    written = {"x": 0, "y": 0}
    for _ in range(chance.randint(3, 6)):
        process, register = chance.randrange(3), chance.choice("xy")
        if chance.random() < 0.5:
            written[register] += 1
            lines += [write(process, written[register], register), reply(process)]
        else:
            value = chance.choice([None, *range(1, written[register] + 2)])
            lines += [read(process, register), gave(process, value)]
    return lines


def is_known(a: Operation, b: Operation, calls: Sequence[Operation], seen: Set[int]) -> bool:
    """Whether b knows of a, by the definition."""
    if b.process is None:
        return False

    def is_learnt(c: Operation) -> bool:
        in_session = c.process == b.process and c.line < b.line
        is_source = c.is_write and not b.is_write and (c.register, c.value) == (b.register, b.value)
        return c.process is None or in_session or is_source

    learnt = [c for c in calls if c is not b and is_learnt(c) and c.line not in seen]
    return a in learnt or any(is_known(a, c, calls, seen | {c.line}) for c in learnt if c.process is not None)


def is_causal(calls: Sequence[Operation], order: Sequence[Operation]) -> bool:
    place = {write: number for number, write in enumerate(order)}
    if any(is_known(a, b, calls, set()) and place[a] >= place[b] for a in order for b in order):
        return False
    for r in calls:
        if not r.is_write:
            known = [w for w in order if w.register == r.register and is_known(w, r, calls, set())]
            if not known or max(known, key=place.__getitem__).value != r.value:
                return False
    return True


class ByAllOrders(unittest.TestCase):
    def test_an_order_is_checked_and_built_as_it_is_defined(self) -> None:
        seen: List[bool] = []
        for seed in range(150):
            whole = Whole(read_strictly(text(*two_registers(seed)), True))
            calls = [*(initial_write(name) for name in whole.initial), *whole.calls]
            writes = [a for a in whole.calls if a.is_write]
            initial = [a for a in calls if a.process is None]
            found = []
            ordered = by_knowledge(whole)
            for order in itertools.permutations(writes):
                due = is_causal(calls, [*initial, *order])
                found.append(due)
                try:
                    if ordered is None or any(source is None for source in whole.source_of.values()):
                        raise verify.Wrong
                    check_order(whole, ordered, [a.line for a in order])
                    self.assertTrue(due, (seed, order))
                except verify.Wrong:
                    self.assertFalse(due, (seed, order))
            seen.append(any(found))
            if ordered is not None and all(whole.source_of.values()):
                try:
                    check_order(whole, ordered, built(whole, ordered))
                    self.assertTrue(any(found), seed)
                except verify.Wrong:
                    self.assertFalse(any(found), seed)
        self.assertGreater(min(seen.count(True), seen.count(False)), 30)


class Names(unittest.TestCase):
    def test_account_and_heading_of_a_level_without_registers(self) -> None:
        summary: Dict[str, Any] = {**dict.fromkeys(REQUIRED, "yes"), "operations": 0, "registers": 0}
        history = read_history(b"")
        empty = Subject(history, read_levels(json.dumps(summary).encode() + b"\n"), Places(b"", history))
        self.assertEqual(account(empty), [])
        self.assertIn("it keeps every level", heading(summary))


if __name__ == "__main__":
    unittest.main()
