"""`regkit verify` of reports of `reglevel`: each claim that is changed is found out, and said by name."""
import itertools
import json
import pathlib
import unittest
from typing import Any, Dict, List, Optional, Set, Tuple

from regkit import verify
from regkit.checker.programs import LEVEL, find_program, judge_levels
from regkit.verify.clusters import check_kept
from regkit.verify.guarantees import GUARANTEES, Guarantee, Places, check_order, within
from regkit.verify.levels import first_unclean
from regkit.verify.old_reads import find_old
from regkit.verify.operations import Operation, initial_write, read_history
from regkit.verify.register import Register

from .events import gave, random_history, read, reply, run, text, write

EXAMPLES = pathlib.Path(__file__).resolve().parents[2] / "examples" / "levels"
NAMES = sorted(path.stem for path in EXAMPLES.glob("*.report"))


def history_of(name: str) -> bytes:
    return (EXAMPLES / f"{name}.jsonl").read_bytes()


def report_of(name: str) -> str:
    return (EXAMPLES / f"{name}.report").read_text(encoding="utf-8")


# The example, a part of its report, what stands there instead, and a part of what verify then says.
Planted = Tuple[str, str, str, str]
OWN = '{"kind":"cycle","steps":[[5,7],[1,5]],"writes":[5,1]}'
BACK = '{"kind":"cycle","steps":[[5,7],[1,3]],"writes":[3,1]}'
APART = '{"kind":"cycle","steps":[[9,11],[5,7]],"writes":[2,1]}'
WRONG_LEVELS: List[Planted] = [
    ("own_write_missed", f'"own_writes":"no","own_writes_fault":{OWN}',
     f'"own_writes":"yes","session_fault":{OWN}',
     "`own_writes` is yes, and each order of its writes breaks it"),
    ("own_write_missed",
     '"sequential":"no","sequential_fault":{"kind":"cycle","steps":[[5,7],[7,9]],"writes":[5,1]}',
     '"sequential":"yes"', "`sequential` is yes, and each order of its writes breaks it"),
    ("read_goes_back", f'"monotonic":"no","monotonic_fault":{BACK}',
     f'"monotonic":"yes","session_fault":{BACK}',
     "`monotonic` is yes, and each order of its writes breaks it"),
    ("other_session_behind",
     '"atomic":"no","back":0,"gap":{"events":1,"first":[1,5],"second":[5,7],"writes":[1,5]}',
     '"atomic":"yes","back":0', "`atomic` is yes, and line 5 stands behind line 7 in an order"),
    ("other_session_behind", '"session":"yes"', '"session":"maybe"', "`session` is neither yes nor no"),
    ("other_session_behind", '"session":"yes"', '"session":"no"',
     "`session` is no, and `own_writes` is neither yes nor no"),
    ("other_session_behind", '"regular":"no"', '"regular":"yes"', "`regular` is no, by `stale`"),
    ("new_old_across_sessions", '"regular":"yes"', '"regular":"no"', "`regular` is yes, by `stale`"),
    ("one_guarantee_each",
     '"session":"no","session_fault":{"kind":"cycle","steps":[[7,9],[1,5]],"writes":[2,1]}',
     '"session":"no"', "its keys are not"),
]
# A session that may go back, own writes without those in real time, and steps that a level doesn't ask for.
WRONG_CYCLES: List[Planted] = [
    ("own_write_missed", f'"own_writes_fault":{OWN}',
     '"own_writes_fault":{"kind":"cycle","steps":[[3,7],[1,5]],"writes":[5,1]}',
     "line 3 is not of the cluster of line 5"),
    ("own_write_missed", f'"own_writes_fault":{OWN}',
     '"own_writes_fault":{"kind":"cycle","steps":[[5,7],[3,9]],"writes":[5,1]}',
     "line 3 doesn't have to come before line 9"),
    ("order_against_time", '"own_writes_fault":{"kind":"cycle","steps":[[3,5],[1,3]]',
     '"own_writes_fault":{"kind":"cycle","steps":[[7,9],[1,3]]', "line 7 doesn't have to come before line 9"),
    ("order_against_time", '"monotonic_fault":{"kind":"cycle","steps":[[7,9],[1,3]]',
     '"monotonic_fault":{"kind":"cycle","steps":[[3,5],[1,3]]', "line 3 doesn't have to come before line 5"),
    ("order_against_time", '"sequential":"yes"',
     '"sequential":"no","sequential_fault":{"kind":"cycle","steps":[[7,9],[1,3]],"writes":[3,1]}',
     "line 1 doesn't have to come before line 3"),
    ("other_session_behind", '"sequential":"yes"',
     '"sequential":"no","sequential_fault":{"kind":"cycle","steps":[[5,7],[1,5]],"writes":[5,1]}',
     "line 5 doesn't have to come before line 7"),
    ("readers_disagree", f'"monotonic_fault":{APART}',
     '"monotonic_fault":{"kind":"cycle","steps":[[9,11]],"writes":[2]}', "a cycle needs two writes"),
    ("readers_disagree", f'"monotonic_fault":{APART}',
     '"monotonic_fault":{"kind":"cycle","steps":[[9,11],[5,7]],"writes":[1,1]}',
     "lines 1 and 1 are not two writes"),
    ("readers_disagree", f'"monotonic_fault":{APART}', '"monotonic_fault":{"kind":"unwritten","read":5}',
     "the value of line 5 was written"),
    ("readers_disagree", f'"monotonic_fault":{APART}', '"monotonic_fault":{"kind":"early","read":5,"write":1}',
     "line 5 doesn't have to come before line 1"),
]
WRONG_COUNTS: List[Planted] = [
    ("order_against_time", '"stale":2,"stale_read"', '"stale":3,"stale_read"', "`stale` is 2"),
    ("order_against_time", '"own":1,"own_read"', '"own":0,"own_read"', "`own` is 1"),
    ("order_against_time", '"back":1,"back_read"', '"back":2,"back_read"', "`back` is 1"),
    ("order_against_time", '"inverted":1,"inverted_read"', '"inverted":true,"inverted_read"',
     "`inverted` is 1"),
    ("lost_write", '"lost":1,"lost_write":5', '"lost":0', "`lost` is 1"),
    ("lost_write", '"lost_write":5', '"lost_write":1', "`lost_write` is line 5"),
    ("other_session_behind", '"lost":0', '"lost":1,"lost_write":5', "`lost` is 0"),
    ("lost_write", '"stale_read":{"newer":5,"read":7,"seen":1}', '"stale_read":{"newer":5,"read":9,"seen":1}',
     "`read` of `stale_read` is line 7"),
    ("lost_write", '"stale_read":{"newer":5,"read":7,"seen":1}', '"stale_read":{"newer":1,"read":7,"seen":1}',
     "`newer` of `stale_read` is line 5"),
    ("lost_write", '"stale_read":{"newer":5,"read":7,"seen":1}', '"stale_read":{"newer":5,"read":7,"seen":3}',
     "`seen` of `stale_read` is line 1"),
    ("own_write_missed", '"own_read":{"newer":5,"read":7,"seen":1}', '"own_read":{"newer":5,"read":9,"seen":1}',
     "`read` of `own_read` is line 7"),
    ("read_goes_back", '"back_read":{"earlier":5,', '"back_read":{"earlier":3,',
     "`earlier` of `back_read` is line 5"),
    ("follower_behind", '"inverted_read":{"earlier":9,', '"inverted_read":{"earlier":17,',
     "`earlier` of `inverted_read` is line 9"),
    ("follower_behind", '"reads":5,', '"reads":4,', "`reads` is 5"),
]
WRONG_GAPS: List[Planted] = [
    ("read_goes_back", '"gap":{"events":3,', '"gap":{"events":2,', "`gap` is greater than 2 events"),
    ("read_goes_back", '"gap":{"events":3,', '"gap":{"events":4,',
     "`gap` is less than 4 events, by `second`"),
    ("read_goes_back", '"second":[3,7],"writes":[1,3]}', '"second":[5,7],"writes":[1,3]}',
     "line 5, in `second` of `gap`, isn't the first of its cluster to end"),
    ("read_goes_back", '"first":[1,3],"second":[3,7],"writes":[1,3]}',
     '"first":[1,7],"second":[3,7],"writes":[1,3]}', "`first` of `gap` is not of the two clusters"),
    ("read_goes_back", '"first":[1,3],"second":[3,7],"writes":[1,3]}',
     '"first":[1,3],"second":[3,7],"writes":[1,7]}', "`writes` of `gap` is not two writes"),
]
WRONG_SUMMARIES: List[Planted] = [
    ("follower_behind", '"gap":5,', '"gap":4,', "the summary's `gap` is 5"),
    ("follower_behind", '"inverted":1,"lost":0,"operations":9', '"inverted":2,"lost":0,"operations":9',
     "the summary's `inverted` is 1"),
    ("follower_behind", '"operations":9', '"operations":8', "the summary's `operations` is 9"),
    ("follower_behind", '"registers":2,"regular":"no"', '"registers":2,"regular":"yes"',
     "the summary's `regular` is no"),
    ("follower_behind", '"sequential":"yes","session":"yes","stale":2}',
     '"sequential":"yes","session":"no","stale":2}',
     "the summary's `session` is yes"),
    ("one_guarantee_each", '"monotonic":"yes","operations":5', '"monotonic":"no","operations":5',
     "the summary's `monotonic` is yes"),
    ("follower_behind", '"registers":2', '"registers":2,"unclean":1', "the summary has other keys: unclean"),
]


class Planting(unittest.TestCase):
    def refused(self, table: List[Planted]) -> None:
        for name, old, new, part in table:
            with self.subTest(name, new=new):
                written = report_of(name)
                self.assertIn(old, written)
                with self.assertRaises(verify.Wrong) as caught:
                    verify.verify(history_of(name), written.replace(old, new, 1).encode())
                self.assertIn(part, str(caught.exception))

    def test_levels(self) -> None:
        self.refused(WRONG_LEVELS)

    def test_cycles(self) -> None:
        self.refused(WRONG_CYCLES)

    def test_counts_and_first_reads(self) -> None:
        self.refused(WRONG_COUNTS)

    def test_gaps(self) -> None:
        self.refused(WRONG_GAPS)

    def test_summaries(self) -> None:
        self.refused(WRONG_SUMMARIES)

    def test_registers(self) -> None:
        lines = report_of("follower_behind").splitlines(keepends=True)
        for wrong in ([lines[1], lines[0], lines[2]], [lines[0], lines[2]]):
            with self.assertRaisesRegex(verify.Wrong, "in the order of their first calls"):
                verify.verify(history_of("follower_behind"), "".join(wrong).encode())

    def test_the_history_of_another_report(self) -> None:
        with self.assertRaises(verify.Wrong):
            verify.verify(history_of("lost_write"), report_of("own_write_missed").encode())


class Shown(unittest.TestCase):
    """What a report tells with --stale and --orders."""

    def told(self, key: str, value: Any, name: str = "order_against_time") -> verify.Verified:
        row, summary = map(json.loads, report_of(name).splitlines())
        row.update({key: value} if key != "order" else {"order": value, "order_of": "sequential"})
        summary.update({"causal_order": [3, 1]} if key == "order" else {})
        return verify.verify(history_of(name), f"{json.dumps(row)}\n{json.dumps(summary)}\n".encode())

    def test_stale_reads(self) -> None:
        self.assertEqual(self.told("stale_reads", [[5, 3], [9, 3]]).kept, ["sequential", "causal"])
        for wrong in ([[5, 3]], [[9, 3], [5, 3]], [[5, 3], [9, 1]], [[5, 3], [9, 3], [9, 3]], [[5, 3], 9]):
            with self.assertRaisesRegex(verify.Wrong, r"`stale_reads` is \[\[5, 3\], \[9, 3\]\]"):
                self.told("stale_reads", wrong)

    def test_orders(self) -> None:
        self.assertEqual(self.told("order", [3, 7, 1, 5, 9]).kept, ["sequential", "causal"])
        table: List[Tuple[List[Any], str]] = [
            ([1, 5, 9, 3, 7], "line 7 stands behind line 9 in an order, and has to come before it"),
            ([3, 7, 5, 1, 9], "the read of line 5 doesn't give the value of the last write"),
            ([3, 7, 1, 5], "an order lacks line 9"),
            ([3, 7, 1, 5, 9, 9], "an order has an operation twice"),
            ([0, 3, 7, 1, 5, 9], "an order has line 0, which doesn't belong there"),
            ([3, 7, 1, 5, True], "`order` is not a list of lines"),
        ]
        for order, part in table:
            with self.subTest(order), self.assertRaises(verify.Wrong) as caught:
                self.told("order", order)
            self.assertIn(part, str(caught.exception))

    def test_pending_operations_in_an_order(self) -> None:
        """They stand there by choice. A pending read is given any value; a pending write gives its own."""
        history = text(write(1, 1), reply(1), read(2), write(3, 2), read(1), gave(1, 1))
        levels = dict.fromkeys(("atomic", "regular", "session", "sequential"), "yes")
        counts = dict.fromkeys(("stale", "own", "back", "inverted", "lost"), 0)
        row: Dict[str, Any] = {**levels, **counts, "register": "x", "pending": 2, "reads": 2, "writes": 2}
        summary = {key: row[key] for key in row if key not in ("register", "pending", "writes")}
        summary.update(operations=4, registers=1, causal="yes", causal_order=[1])
        table = [([1, 5], True), ([1, 5, 3], True), ([1, 3, 5], True), ([1, 3, 5, 4], True),
                 ([1, 4, 5], False), ([3, 1, 5], False)]
        for order, holds in table:
            rows = ({**row, "order": order, "order_of": "atomic"}, summary)
            report = "".join(json.dumps(each) + "\n" for each in rows).encode()
            with self.subTest(order):
                if holds:
                    self.assertTrue(verify.verify(history, report).atomic)
                else:
                    self.assertRaises(verify.Wrong, verify.verify, history, report)

    def test_the_level_of_an_order(self) -> None:
        row, summary = map(json.loads, report_of("order_against_time").splitlines())
        for level in ("session", "own_writes", "regular", None):
            row.update(order=[3, 7, 1, 5, 9], order_of=level)
            with self.assertRaisesRegex(verify.Wrong, "`order_of` is sequential"):
                verify.verify(history_of("order_against_time"),
                              f"{json.dumps(row)}\n{json.dumps(summary)}\n".encode())

    def test_all_registers_or_none(self) -> None:
        first, second, summary = map(json.loads, report_of("follower_behind").splitlines())
        second["stale_reads"] = []
        rows = "".join(json.dumps(row) + "\n" for row in (first, second, summary))
        with self.assertRaisesRegex(verify.Wrong, "1 of 2 lines that could have `stale_reads` have it"):
            verify.verify(history_of("follower_behind"), rows.encode())


class Holding(unittest.TestCase):
    def test_the_examples(self) -> None:
        kept = {name: verify.verify(history_of(name), report_of(name).encode()).kept for name in NAMES}
        strongest = {"follower_behind": {"session", "causal"}, "lost_write": {"session", "causal"},
                     "answer_before_question": {"session"}, "news_in_both_orders": {"session", "causal"},
                     "other_session_behind": {"session", "causal"}, "order_against_time": {"causal"},
                     "new_old_across_sessions": {"session", "regular", "causal"},
                     "own_write_missed": {"monotonic"}, "read_goes_back": {"own_writes"},
                     "readers_disagree": {"own_writes", "regular"},
                     "one_guarantee_each": {"own_writes", "monotonic", "regular"}}
        below = {"session": {"own_writes", "monotonic", "sequential"}, "causal": {"sequential"}}
        self.assertEqual(set(kept), set(strongest))
        for name, own in strongest.items():
            due = own.union(*(below.get(level, set()) for level in own))
            self.assertEqual(set(kept[name] or ()), due, name)

    def test_blank_lines_are_no_events(self) -> None:
        """The gap counts events, and everything else is identified by lines."""
        lines = history_of("read_goes_back").splitlines(keepends=True)
        spread = b"".join(line + b"\n\n" for line in lines)  # line n becomes line 3n-2
        moved = report_of("read_goes_back")
        rows = [json.loads(line) for line in moved.splitlines()]

        def spaced(value: Any, key: str) -> Any:
            if isinstance(value, dict):
                return {name: spaced(part, name) for name, part in value.items()}
            if isinstance(value, list):
                return [spaced(part, key) for part in value]
            is_line = key in ("earlier", "newer", "read", "seen", "first", "second", "writes", "steps",
                              "from", "to", "knew")
            return 3 * value - 2 if is_line and value else value

        for row in rows:
            row.update({key: spaced(part, key) for key, part in row.items() if isinstance(part, dict)})
        report = "".join(json.dumps(row) + "\n" for row in rows).encode()
        self.assertEqual(verify.verify(spread, report).kept, ["own_writes"])

    def test_unclean_registers(self) -> None:
        """Reads of a value before it was written, or that nobody wrote: there are no counts."""
        early = ('{"atomic":"no","early":{"read":1,"write":3},"monotonic":"no","monotonic_fault":{"kind":"early",'
                 '"read":1,"write":3},"own_writes":"no","own_writes_fault":{"kind":"early","read":1,"write":3},'
                 '"pending":0,"reads":1,"register":"x","regular":"no","sequential":"yes","session":"no","writes":1}\n'
                 '{"atomic":"no","back":0,"inverted":0,"lost":0,"monotonic":"no","operations":2,"own":0,'
                 '"own_writes":"no","reads":1,"registers":1,"regular":"no","sequential":"yes","session":"no",'
                 '"causal":"yes","stale":0,"unclean":1}\n')
        history = text(read(1), gave(1, 5), write(2, 5), reply(2))
        self.assertEqual(verify.verify(history, early.encode()).kept, ["sequential", "causal"])
        table = [('"early":{"read":1,"write":3},"mono', '"early":{"read":1,"write":1},"mono', "`write` of `early`"),
                 ('"early":{"read":1,"write":3},"mono', '"unwritten":1,"mono', "`early` is"),
                 (',"unclean":1', "", "the summary's `unclean` is 1"),
                 ('"regular":"no","sequential":"yes","session":"no","writes"',
                  '"regular":"yes","sequential":"yes","session":"no","writes"',
                  "a read gave a value before it was written"),
                 ('"own_writes_fault":{"kind":"early","read":1,"write":3}',
                  '"own_writes_fault":{"kind":"unwritten","read":1}', "the value of line 1 was written")]
        for old, new, part in table:
            with self.subTest(new), self.assertRaises(verify.Wrong) as caught:
                self.assertEqual(early.count(old), 1)
                verify.verify(history, early.replace(old, new).encode())
            self.assertIn(part, str(caught.exception))

    def test_an_early_read_of_its_own_session(self) -> None:
        """Only then it breaks `sequential` too."""
        history = text(read(1), gave(1, 5), write(1, 5), reply(1))
        row = {"atomic": "no", "regular": "no", "session": "no", "own_writes": "no", "monotonic": "no",
               "sequential": "no", "early": {"read": 1, "write": 3}, "pending": 0, "reads": 1, "writes": 1,
               "register": "x", **{f"{level}_fault": {"kind": "early", "read": 1, "write": 3}
                                   for level in ("own_writes", "monotonic", "sequential")}}
        summary: Dict[str, Any] = {level: "no" for level in ("atomic", "regular", "session", "own_writes",
                                                             "monotonic", "sequential")}
        summary.update(dict.fromkeys(("stale", "own", "back", "inverted", "lost"), 0), reads=1, operations=2,
                       registers=1, unclean=1, causal="no", causal_fault={"kind": "cycle", "steps": [
                           {"from": 1, "to": 3, "why": "process"}, {"from": 3, "to": 1, "why": "read"}]})
        rows = "".join(json.dumps(each) + "\n" for each in (row, summary)).encode()
        self.assertEqual(verify.verify(history, rows).kept, [])
        apart = text(read(1), gave(1, 5), write(2, 5), reply(2))
        with self.assertRaisesRegex(verify.Wrong, "line 1 doesn't have to come before line 3"):
            verify.verify(apart, rows)

    def test_an_empty_history(self) -> None:
        counts = ("stale", "own", "back", "inverted", "lost", "reads", "operations", "registers")
        levels = dict.fromkeys(("atomic", "regular", "session", "sequential", "causal"), "yes")
        summary: Dict[str, Any] = {**levels, **dict.fromkeys(counts, 0)}
        self.assertTrue(verify.verify(b"", json.dumps(summary).encode() + b"\n").atomic)

    def test_what_it_says(self) -> None:
        words = [("lost_write",
                  "holds: keeps session and causal; not linearizable or regular: 5 operations on 1 register\n"),
                 ("readers_disagree", "holds: keeps regular and read your writes; not linearizable, session, "
                                      "monotonic reads, sequential or causal: 6 operations on 1 register\n")]
        for name, said in words:
            ran = run("verify", str(EXAMPLES / f"{name}.jsonl"), str(EXAMPLES / f"{name}.report"))
            self.assertEqual(ran, (0, said, ""))


# ---- By all orders


def must_come_before(level: str, a: Operation, b: Operation, places: Places, age: int) -> bool:
    """The definition, as docs/levels.md has it."""
    if not a.end < b.line:
        return False
    session = b.process is not None and a.process in (None, b.process)
    if level == "sequential":
        return session
    if b.is_write or level == "atomic":
        return True
    if level == "within":
        return places[b.line] - places[int(a.end)] >= age
    return session and {"session": True, "own_writes": a.is_write, "monotonic": not a.is_write}[level]


def is_legal(order: List[Operation], level: str, places: Places, age: int) -> bool:
    value: Optional[int] = None
    for place, a in enumerate(order):
        if any(must_come_before(level, a, b, places, age) for b in order[:place]):
            return False
        if a.is_write:
            value = a.value
        elif a.value != value:
            return False
    return True


def some_order(operations: List[Operation], level: str, places: Places, age: int = 0) -> bool:
    """Whether some order of the completed operations, and of any of the pending writes, is legal. A pending
    read asks for nothing."""
    start = initial_write("x")
    pending = [a for a in operations if a.is_write and not a.completed]
    for chosen in itertools.chain.from_iterable(
            itertools.combinations(pending, count) for count in range(len(pending) + 1)):
        there = [a for a in operations if a.completed or a in chosen]
        if any(is_legal([start, *order], level, places, age) for order in itertools.permutations(there)):
            return True
    return False


def is_kept(register: Register, guarantee: Guarantee, places: Places) -> bool:
    try:
        check_kept(register, guarantee, places)
    except verify.Wrong:
        return False
    return True


class ByAllOrders(unittest.TestCase):
    def test_an_order_is_found_if_there_is_one(self) -> None:
        seen: Set[Tuple[Any, bool]] = set()
        for seed in range(150):
            history = read_history(text(*random_history(seed, 11)), True)
            places = {line: line for line in range(12)}
            for name, operations in history.registers.items():
                if len(operations) > 5:
                    continue
                register = Register(name, operations)
                for level, guarantee in GUARANTEES.items():
                    found = is_kept(register, guarantee, places)
                    seen.add((level, found))
                    self.assertEqual(found, some_order(operations, level, places), (seed, level))
                for age in (1, 2, 4, 9):
                    found = is_kept(register, within(age), places)
                    seen.add((age, found))
                    self.assertEqual(found, some_order(operations, "within", places, age), (seed, age))
        self.assertEqual(len(seen), 2 * (len(GUARANTEES) + 4))

    def test_an_order_is_checked_as_it_is_defined(self) -> None:
        seen = set()
        for seed in range(60):
            history = read_history(text(*random_history(seed, 10)), True)
            places = {line: line for line in range(11)}
            for name, operations in history.registers.items():
                completed = [a for a in operations if a.completed]
                if len(operations) > 5 or not completed:
                    continue
                for order in itertools.permutations(completed):
                    for level, guarantee in GUARANTEES.items():
                        due = is_legal([initial_write(name), *order], level, places, 0)
                        seen.add((level, due))
                        try:
                            lines = [a.line for a in order]
                            check_order(Register(name, operations), lines, guarantee, places)
                            self.assertTrue(due, (seed, level, order))
                        except verify.Wrong:
                            self.assertFalse(due, (seed, level, order))
        self.assertEqual(len(seen), 2 * len(GUARANTEES))


def old_by_definition(operations: List[Operation]) -> Dict[str, List[int]]:
    """The old reads and the lost writes of a clean register, by their lines, looking at every pair."""
    everything = [initial_write("x"), *operations]
    reads = [a for a in operations if a.completed and not a.is_write]
    since = {w.value: min(a.end for a in everything if a.value == w.value and (a.is_write or a.completed))
             for w in everything if w.is_write}
    source = {w.value: w for w in everything if w.is_write}

    def old(having: List[Operation], in_session: bool) -> List[int]:
        def comes_earlier(a: Operation, r: Operation) -> bool:
            return a.process == r.process and a.line < r.line if in_session else a.end < r.line

        return [r.line for r in reads if any(comes_earlier(a, r) and since[r.value] < source[a.value].line
                                             for a in having)]

    writes = [w for w in everything if w.is_write]
    after = {w.line: [r for r in reads if w.end < r.line] for w in writes}
    lost = [w.line for w in writes if after[w.line] and all(since[r.value] < w.line for r in after[w.line])]
    return {"stale": old(writes, False), "own": old(writes, True), "back": old(reads, True),
            "inverted": old(reads, False), "lost": lost}


class OldReads(unittest.TestCase):
    def test_by_every_pair(self) -> None:
        seen: Dict[str, int] = {}
        for seed in range(300):
            history = read_history(text(*random_history(seed, 40)), True)
            for name, operations in history.registers.items():
                register = Register(name, operations)
                if first_unclean(register) != (None, None):
                    continue
                found = find_old(register)
                due = old_by_definition(operations)
                for kind in ("stale", "own", "back", "inverted"):
                    self.assertEqual([old.read.line for old in getattr(found, kind)], due[kind], (seed, kind))
                    seen[kind] = seen.get(kind, 0) + len(due[kind])
                self.assertEqual([write.line for write in found.lost], due["lost"], seed)
                seen["lost"] = seen.get("lost", 0) + len(due["lost"])
        self.assertTrue(all(count > 20 for count in seen.values()), seen)

    def test_what_is_named(self) -> None:
        """Of newer writes and reads that precede, the first to end; of those of the session, the newest."""
        history = read_history(text(
            write(1, 1), reply(1), write(1, 2), write(2, 3), reply(2), reply(1),  # 3 ended before 2
            read(4), gave(4, 2), read(3), gave(3, 3), read(4), gave(4, 3), read(4), gave(4, 1), read(4),
            gave(4, 1)), True)
        found = find_old(Register("x", history.registers["x"]))
        named = {kind: [(old.read.line, old.newer.line, old.earlier.line) for old in getattr(found, kind)]
                 for kind in ("stale", "own", "back", "inverted")}
        self.assertEqual(named, {"stale": [(13, 4, 4), (15, 4, 4)], "own": [],
                                 "back": [(13, 4, 11), (15, 4, 11)], "inverted": [(13, 3, 7), (15, 3, 7)]})


@unittest.skipUnless(find_program(LEVEL), "reglevel isn't built")
class Honest(unittest.TestCase):
    def test_its_own_reports_hold(self) -> None:
        """With all that it tells, and with no more than it must."""
        for seed in range(60):
            history = text(*random_history(seed, 24))
            for all_of_it in (False, True):
                with self.subTest(seed, all_of_it=all_of_it):
                    answer = judge_levels(history, stale=all_of_it, orders=all_of_it)
                    found = verify.verify(history, answer.report)
                    self.assertEqual(found.atomic, answer.status == 0)

    def test_a_level_that_is_turned_is_refused(self) -> None:
        for seed in range(40):
            history = text(*random_history(seed, 24))
            *rows, summary = map(json.loads, judge_levels(history).report.splitlines())
            for level in ("atomic", "regular", "session", "sequential"):
                turned = [{**rows[0], level: "no" if rows[0][level] == "yes" else "yes"}, *rows[1:], summary]
                with self.subTest(seed, level=level), self.assertRaises(verify.Wrong):
                    verify.verify(history, "".join(json.dumps(row) + "\n" for row in turned).encode())


if __name__ == "__main__":
    unittest.main()
