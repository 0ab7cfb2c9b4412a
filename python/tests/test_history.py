"""Histories read into operations, and what a yes rests on."""
import random
import unittest
from typing import List, Tuple

from regkit.checker.report import read_report
from regkit.evidence.evidence import Evidence, count_evidence, count_overlapping
from regkit.history.operations import NotAHistory, Operation, initial_write, operations, read_history
from regkit.words.quoting import plain, quoted

from .events import Line, crash, fail, gave, random_history, read, reply, text, write


def ends(call: Operation) -> str:
    """Which of the three a call is."""
    return "/".join(word for word in ("completed", "failed", "pending") if getattr(call, word))


class Endings(unittest.TestCase):
    def test_each_ending(self) -> None:
        history = read_history(text(write(1, 5), reply(1), read(2), gave(2, 5), write(1, 6), fail(1),
                                    read(2), fail(2),
                                    write(1, 7), crash(1), read(3), crash(4)))
        found = [(call.line, call.kind, call.value, ends(call), call.end_line) for call in history.calls]
        self.assertEqual(found,
                         [(1, "write", 5, "completed", 2), (3, "read", 5, "completed", 4),
                          (5, "write", 6, "failed", 6),
                          (7, "read", None, "failed", 8), (9, "write", 7, "pending", 10),
                          (11, "read", None, "pending", None)])
        self.assertEqual(history.crashes, {1: 10, 4: 12})
        self.assertEqual((history.events, history.last_line), (12, 12))
        self.assertEqual([call.line for call in operations(history.calls)], [1, 3, 9, 11])

    def test_a_crash_is_read_no_further(self) -> None:
        line = {**crash(2), "value": 7, "op": "write", "register": "y"}
        history = read_history(text(read(2), line))
        found = [(call.value, call.register, call.ending) for call in history.calls]
        self.assertEqual(found, [(None, "x", "crash")])

    def test_blank_lines_count(self) -> None:
        history = read_history(b"\n \t\r\n" + text(write(1, 5)) + b"\n" + text(reply(1)))
        self.assertEqual([(call.line, call.end_line) for call in history.calls], [(3, 5)])
        self.assertEqual((history.events, history.last_line), (2, 5))

    def test_the_last_of_two_members_counts(self) -> None:
        line = b'{"process":9,"process":1,"event":"call","op":"write","register":"x","value":1,"value":2}'
        call = read_history(line).calls[0]
        self.assertEqual((call.process, call.value), (1, 2))

    def test_registers_by_their_first_call_even_a_failed_one(self) -> None:
        history = read_history(text(write(1, 5, "b"), fail(1), read(1, "a"), gave(1, None), read(2, "b")))
        self.assertEqual(list(history.registers), ["b", "a"])
        self.assertEqual([call.line for call in history.registers["b"]], [1, 5])

    def test_operations_by_line(self) -> None:
        history = read_history(text(write(1, 5), reply(1)))
        self.assertEqual(history.operation("x", 1).value, 5)
        initial = history.operation("x", 0)
        self.assertEqual((initial.line, initial.end_line, initial.kind, initial.value, initial.completed),
                         (0, 0, "write", None, True))
        self.assertEqual(initial_write("y").register, "y")

    def test_what_is_no_history(self) -> None:
        for data in (b"[1]", b"{", b'{"process":1}', b'{"event":"call","process":1}', b"\xff"):
            with self.subTest(data=data), self.assertRaises(NotAHistory):
                read_history(data)

    def test_a_watcher_hears_of_lines(self) -> None:
        heard: List[int] = []
        read_history(text(*[each for n in range(9000) for each in (write(1, n), reply(1))]), heard.append)
        self.assertEqual(heard, [8192, 16384])


def quadratic(calls: List[Operation]) -> int:
    """Overlapping reads by the definition: neither precedes the other."""
    def precedes(one: Operation, other: Operation) -> bool:
        return one.completed and (one.end_line or 0) < other.line

    return sum(any(write.kind == "write" and not write.failed and not precedes(write, read)
                   and not precedes(read, write) for write in calls)
               for read in calls if read.kind == "read" and read.completed)


class Counting(unittest.TestCase):
    def test_hand_made(self) -> None:
        table: List[Tuple[str, List[Line], Evidence]] = [
            ("nothing", [], Evidence(0, 0, 0, 0)),
            ("a pending read is not completed", [write(1, 5), reply(1), read(2)], Evidence(2, 1, 0, 0)),
            ("a read after a write", [write(1, 5), reply(1), read(2), gave(2, 5)], Evidence(2, 1, 1, 0)),
            ("a read before a write", [read(2), gave(2, None), write(1, 5), reply(1)], Evidence(2, 1, 1, 0)),
            ("a read in a write", [write(1, 5), read(2), gave(2, 5), reply(1)], Evidence(2, 1, 1, 1)),
            ("a write in a read", [read(2), write(1, 5), reply(1), gave(2, 5)], Evidence(2, 1, 1, 1)),
            ("a pending write overlaps what comes after", [write(1, 5), read(2), gave(2, None)],
             Evidence(2, 1, 1, 1)),
            ("so does that of a process that crashed", [write(1, 5), crash(1), read(2), gave(2, None)],
             Evidence(2, 1, 1, 1)),
            ("a failed write is none", [write(1, 5), read(2), gave(2, None), fail(1)], Evidence(1, 1, 1, 0)),
            ("a failed read is none", [write(1, 5), read(2), fail(2), reply(1)], Evidence(1, 1, 0, 0)),
            ("another register's write", [write(1, 5, "y"), read(2), gave(2, None), reply(1)],
             Evidence(2, 2, 1, 0)),
            ("a register of failed calls alone", [write(1, 5), fail(1)], Evidence(0, 1, 0, 0)),
        ]
        for name, events, expected in table:
            with self.subTest(name):
                self.assertEqual(count_evidence(read_history(text(*events))), expected)

    def test_against_the_definition(self) -> None:
        some = 0
        for seed in range(300):
            calls = read_history(text(*random_history(seed, random.Random(seed).randrange(2, 40)))).calls
            self.assertEqual(count_overlapping(calls), quadratic(calls), f"seed {seed}")
            some += quadratic(calls) > 0
        self.assertGreater(some, 100)


class Reports(unittest.TestCase):
    def test_rows_and_summary(self) -> None:
        report = read_report(b'{"atomic":"yes","register":"x"}\n{"atomic":"no","register":"y"}\n'
                             b'{"atomic":"no","operations":3,"registers":2}\n')
        self.assertEqual([row["register"] for row in report.rows], ["x", "y"])
        self.assertEqual([row["register"] for row in report.faulty], ["y"])
        self.assertFalse(report.atomic)

    def test_what_is_no_report(self) -> None:
        for data in (b"", b"no", b'{"atomic":"yes","register":"x"}\n', b"[1]\n", b'{"registers":1}'):
            with self.subTest(data=data), self.assertRaises(ValueError):
                read_report(data)


class Quoting(unittest.TestCase):
    def test_characters_that_a_terminal_obeys(self) -> None:
        table = [
            ("user:1", '"user:1"'), ('a"b\\c', '"a\\"b\\\\c"'), ("\x1b[31m", '"\\u001b[31m"'),
            ("a\nb\r\t", '"a\\u000ab\\u000d\\u0009"'), ("\x00\x7f\x85\x9b", '"\\u0000\\u007f\\u0085\\u009b"'),
            ("a\u202eb\u2066c\u200f", '"a\\u202eb\\u2066c\\u200f"'),
            ("\u05d0", '"\\u05d0"'), ("\u0627\u0661", '"\\u0627\\u0661"'), ("\u2028", '"\\u2028"'),
            ("\U000e0041", '"\\U000e0041"'), ("", '""'),
            ("caf\u00e9 \u6f22 \U0001f600", '"caf\u00e9 \u6f22 \U0001f600"'),
        ]
        for name, expected in table:
            with self.subTest(expected):
                self.assertEqual(quoted(name), expected)

    def test_every_character(self) -> None:
        for number in list(range(0x3000)) + list(range(0xd7f0, 0xf910)) + list(range(0xfe00, 0x10000)):
            shown = plain(chr(number))
            self.assertTrue(shown.isprintable(), hex(number))
            self.assertEqual(shown.isascii() and len(shown) == 6, shown != chr(number), hex(number))


if __name__ == "__main__":
    unittest.main()
