"""Clients, nodes and times, from the lines of a history to what a person reads."""
import json
import re
import unittest
from typing import Any, Dict, List, Sequence, Tuple

from regkit.checker.programs import run_checker
from regkit.drawing.draw import draw_page
from regkit.drawing.figure import PAGE_WIDTH
from regkit.explain.explanation import explain_text
from regkit.history.lines import NotJson, json_of
from regkit.history.operations import Operation, read_history
from regkit.history.who import members, process_of

from . import convert_support
from .events import Line, crash, gave, read, reply, run, text, write

WORKER: Dict[str, Any] = {"client": "worker-3", "node": "replica-1"}


def named(line: Line, time: int, **who: Any) -> Line:
    return {**line, **who, "time": time}


STALE = [named(write(1, 5), 7 * 10**9, client="worker-1", node="leader"),
         named(reply(1), 7 * 10**9 + 999, client="worker-1", node="leader"),
         named(read(65), 19_031_999_999, **WORKER), named(gave(65, None), 19_050_000_000, **WORKER)]
SAID = "the read of null by process 65, client worker-3, node replica-1, at 12.031 s (lines 3 to 4)"


def first_call(*lines: Line) -> Operation:
    return read_history(text(*lines)).calls[0]


def report_of(history: bytes) -> bytes:
    return run_checker(history).report


def unfolded(page: str) -> str:
    return " ".join(page.split())


class Lines(unittest.TestCase):
    def test_members(self) -> None:
        for words, expected in [(("", "", None), ""), (("a", "", None), ',"client":"a"'),
                                (("", "b", 0), ',"node":"b","time":0'),
                                (("\u00e9\"", "b", 5), ',"client":"\\u00e9\\"","node":"b","time":5')]:
            self.assertEqual(members(*words), expected)

    def test_what_is_read(self) -> None:
        call = first_call(*STALE)
        self.assertEqual((call.client, call.node, call.time), ("worker-1", "leader", 0))
        table: List[Dict[str, Any]] = [{}, {"client": "", "node": ""}, {"client": 5, "node": ["n"]},
                                       {"client": None, "node": {}, "time": 1.5}, {"time": "5"}]
        for other in table:
            with self.subTest(other):
                call = first_call({**read(1), **other})
                self.assertEqual((call.client, call.node, call.time), (None, None, None))
                self.assertEqual(process_of(call), "process 1")

    def test_minus_zero_is_no_whole_number_and_in_a_name_it_is_nothing(self) -> None:
        for value, kind in [("-0", float), (" -0", float), ("\t-0", float), ("-0.0", float), ("0", int),
                            ("-10", int), ('"worker-0"', str), ('"a:-0"', str)]:
            with self.subTest(value):
                line = json_of(b'{"client":"worker-0","x":%s}' % value.encode())
                self.assertIs(type(line["x"]), kind)
                self.assertIs(type(json_of(b"[1,%s]" % value.encode())[1]), kind)
                self.assertIs(type(json_of(value.strip().encode())), kind)
        self.assertRaises(NotJson, json_of, b'{"client":"worker-0","x":-01}')

    def test_an_answer_may_tell_the_node(self) -> None:
        call = first_call({**read(1), "node": "any"}, {**gave(1, None), "node": "replica-2"})
        self.assertEqual(call.node, "replica-2")
        self.assertEqual(first_call({**read(1), "node": "any"}, crash(1)).node, "any")

    def test_times_begin_with_the_first_call(self) -> None:
        history = read_history(text(named(read(1), 50), named(read(2), 40), read(3), named(gave(1, None), 0)))
        self.assertEqual([call.time for call in history.calls], [10, 0, None])


class Words(unittest.TestCase):
    def test_a_process(self) -> None:
        table: List[Tuple[Dict[str, Any], str]] = [
            ({}, ""), ({"time": 12_031_999_999}, ", at 12.031 s"),
            ({"client": "worker-3"}, ", client worker-3"),
            ({"node": "replica-1"}, ", node replica-1"),
            ({**WORKER, "time": 999_999}, ", client worker-3, node replica-1, at 0.9 ms"),
            ({"time": 999_999_999}, ", at 999.9 ms"), ({"time": 10**9}, ", at 1.000 s")]
        for who, expected in table:
            history = read_history(text(named(read(1), 0), {**read(65), **who}))
            self.assertEqual(process_of(history.calls[1]), "process 65" + expected)

    def test_names_that_are_no_words_are_quoted(self) -> None:
        long = "x" * 60
        for name, shown in [("10.0.0.1:6379", "10.0.0.1:6379"), ("a b", '"a b"'), ("\u05d0", '"\\u05d0"'),
                            ("\u202e\x1b", '"\\u202e\\u001b"'), ('a"', '"a\\""'),
                            (long, f'"{long[:19]}\u2026{long[:20]}"')]:
            said = process_of(first_call({**read(1), "client": name}))
            self.assertEqual(said, f"process 1, client {shown}")

    def test_explain_and_check(self) -> None:
        history = text(*STALE)
        page = unfolded(explain_text(history, report_of(history)))
        self.assertIn("The write of 5 by process 1, client worker-1, node leader, at 0.0 ms (lines 1 to 2) "
                      f"ended before {SAID} began", page)
        self.assertIn(SAID, unfolded(run("explain", "-", given=history).out))
        self.assertIn(SAID, unfolded(run("check", "-", given=history).out))


class Pictures(unittest.TestCase):
    def page(self, lines: Sequence[Line]) -> str:
        return draw_page(text(*lines), report_of(text(*lines)), "h")

    def details(self, lines: Sequence[Line]) -> List[str]:
        return re.findall('<text class="gutter detail"[^>]*>([^<]*)</text>', self.page(lines))

    def test_below_the_process_and_in_the_titles(self) -> None:
        self.assertEqual(self.details(STALE),
                         ["client worker-1, node leader", "client worker-3, node replica-1"])
        self.assertIn(f"<title>T{SAID[1:]}", self.page(STALE))

    def test_only_what_all_calls_of_a_process_share(self) -> None:
        again = [named(read(65), 20 * 10**9, client="worker-3", node="replica-2"),
                 named(gave(65, None), 21 * 10**9, client="worker-3", node="replica-2")]
        self.assertEqual(self.details([*STALE, *again])[1], "client worker-3")
        other = [named(read(65), 20 * 10**9, client="worker-4", node="replica-1"), gave(65, None)]
        self.assertEqual(self.details([*STALE, *other])[1], "node replica-1")
        self.assertEqual(self.details([*STALE, read(65), gave(65, None)]), ["client worker-1, node leader"])

    def test_without_them_the_page_is_as_before(self) -> None:
        self.assertEqual(self.details([write(1, 5), reply(1), read(65), gave(65, None)]), [])

    def test_names_of_any_kind_leave_the_page_whole(self) -> None:
        for name in ["<b>&\"'", "\u202e\x00\u05d0", "w" * 255, "]]>"]:
            lines = [{**line, "client": name, "node": name} for line in STALE]
            page = self.page(lines)
            self.assertNotRegex(page, "[\u0000-\u0009\u000b-\u001f\u202e\u05d0]")
            self.assertNotIn("<b>&", page)
            width = float(re.findall(r'<svg width="([0-9.]+)"', page)[0])
            self.assertLess(width, PAGE_WIDTH + 1)


TABLE = "process,start,end,register,op,value\nalice,10,20.5,x,write,1\n7,20,30,x,read,1\n"


class Conversions(unittest.TestCase):
    def who(self, source: str, form: str, *options: str) -> List[Any]:
        """The client and the time of each line."""
        events = map(json.loads, convert_support.run(source, form, *options).history.splitlines())
        return [(event.get("client"), event.get("time")) for event in events]

    def test_clients_that_are_no_numbers_and_times_of_a_known_unit(self) -> None:
        clients = ["alice", None, "alice", None]
        self.assertEqual(self.who(TABLE, "csv"), [(client, None) for client in clients])
        for unit, times in [("us", [10_000, 20_000, 20_500, 30_000]), ("ns", [10, 20, 20, 30]),
                            ("s", [10 * 10**9, 20 * 10**9, 20_500_000_000, 30 * 10**9])]:
            self.assertEqual(self.who(TABLE, "csv", "--clock-unit", unit), list(zip(clients, times)))

    def test_the_clock_error_moves_no_time(self) -> None:
        times = [time for _, time in self.who(TABLE, "csv", "--clock-unit", "ns", "--clock-error", "100ns")]
        self.assertEqual(sorted(times), [10, 20, 20, 30])

    def test_dates_count_from_1970_and_what_is_beyond_64_bits_is_left_out(self) -> None:
        dates = "process,start,end,register,op,value\n1,{0}-01-01T00:00:01.5Z,{0}-01-01T00:00:02Z,x,write,1\n"
        for year, expected in [("1970", [1_500_000_000, 2_000_000_000]), ("1969", [None, None]),
                               ("2300", [None, None])]:
            self.assertEqual([time for _, time in self.who(dates.format(year), "csv")], expected)

    def test_an_initial_write_is_nobodys(self) -> None:
        told = self.who(TABLE, "csv", "--initial", "0", "--clock-unit", "ns")
        self.assertEqual(told[:3], [(None, None), (None, None), ("alice", 10)])

    def test_a_client_with_two_calls_open(self) -> None:
        rows = "process,start,end,register,op,value\n7,10,30,x,write,1\n7,20,40,x,read,1\n"
        self.assertEqual([client for client, _ in self.who(rows, "csv")], [None, "7", None, "7"])


if __name__ == "__main__":
    unittest.main()
