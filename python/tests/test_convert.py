"""Tests of `regkit convert`: the samples of each form, what each option does, and each refusal."""
import gzip
import json
import subprocess
import pathlib
import sys
import tempfile
import unittest
from typing import List, Sequence, Tuple

from regkit.checker.programs import run_checker
from regkit.convert.summary import too_large
from tests.convert_support import SAMPLES, run, short
from tests.events import run as command

TIMES = ("--columns", "process=client,register=key,outcome=status")
WORDS = ("--columns", "process=wer,start=wann,end=fertig,op=was,register=Schl\u00fcssel,value=Wert,"
         "outcome=Ergebnis", "--ops", "lies=read,setze=write",
         "--outcomes", "gut=ok,abgelehnt, zu alt=fail,Zeit um=unknown",
         "--ignore-member", "Knoten", "--ignore-member", "Version")
VERSIONS = ("--ignore-member", "Version", "--ok-when", "Err=OK", "--null", ",ErrNoKey",
            "--outcomes", "ErrVersion=fail")
OUTCOMES = ("--ops", "fetch=read", "--ok-when", "code=200", "--ignore-member", "value", "--null", "404",
            "--outcomes", "timeout=unknown,409=fail")

# A sample, its form and options, and the status of its check.
SAMPLE_RUNS: List[Tuple[str, str, Sequence[str], int]] = [
    ("jepsen_register.edn", "jepsen", (), 0),
    ("jepsen_independent.edn", "jepsen", (), 0),
    ("jepsen_console.log", "jepsen", (), 0),
    ("jepsen_console.log", "porcupine", (), 0),
    ("maelstrom_lin_kv.edn", "jepsen", (), 0),
    ("elle_rw_register.edn", "jepsen", (), 0),
    ("jepsen_nemesis.edn", "jepsen", (), 0),
    ("jepsen_nemesis.txt", "jepsen", (), 0),
    ("jepsen_nemesis.json", "jepsen", (), 0),
    ("jepsen_keys.json", "jepsen", (), 0),
    ("porcupine_kv.txt", "porcupine", (), 0),
    ("porcupine_operations.jsonl", "porcupine", (), 0),
    ("porcupine_events.json", "porcupine", (), 0),
    ("porcupine_versions.jsonl", "porcupine", VERSIONS, 0),
    ("times.csv", "csv", TIMES, 0),
    ("times.tsv", "csv", TIMES, 0),
    ("words.csv", "csv", WORDS, 0),
    ("machines.csv", "csv", ("--clock-error", "3ms", "--null", "none"), 0),
    ("operations.jsonl", "operations", (), 0),
    ("events.jsonl", "jsonl", (), 0),
    ("events_outcomes.jsonl", "jsonl", OUTCOMES, 0),
]


class Samples(unittest.TestCase):
    def test_each_becomes_the_history_that_was_worked_out_by_hand(self) -> None:
        for name, form, options, _ in SAMPLE_RUNS:
            with self.subTest(name, form=form):
                source = (SAMPLES / name).read_bytes()
                expected = (SAMPLES / name).with_suffix(".expected").read_text(encoding="utf-8")
                for packed in (source, gzip.compress(source)):
                    ran = run(packed, form, *options)
                    self.assertEqual((ran.status, ran.history), (0, expected), ran.told)

    def test_each_is_checked(self) -> None:
        for name, form, options, status in SAMPLE_RUNS:
            with self.subTest(name, form=form):
                ran = run((SAMPLES / name).read_text(encoding="utf-8"), form, *options)
                answer = run_checker(ran.history.encode())
                self.assertEqual((answer.status, answer.refusal), (status, ""))

    def test_what_is_told(self) -> None:
        for name, form, options, expected in [
            (
                "jepsen_register.edn",
                "jepsen",
                (),
                [
                    "read 4 operations of 4 clients on 1 register: "
                    "2 writes, 2 reads; 1 failed, 1 of unknown outcome",
                    "left out 1 line of process :nemesis, which is no client",
                ],
            ),
            (
                "jepsen_console.log",
                "jepsen",
                (),
                [
                    "read 4 operations of 3 clients on 1 register: "
                    "2 writes, 2 reads; 1 failed, 1 of unknown outcome",
                    "left out 1 line of process :nemesis, which is no client",
                    "left out 1 line of the log that record no operation",
                ],
            ),
            (
                "times.csv",
                "csv",
                TIMES,
                [
                    "read 8 operations of 4 clients on 2 registers: "
                    "4 writes, 4 reads; 1 failed, 1 of unknown outcome",
                    "put calls before replies at 2 time stamps that both have: those operations overlap",
                    "numbered 4 clients that had no process number",
                    "gave 1 operation another process, since a call of the same client was still open",
                    "numbered 4 values of 1 register; the history says what each number stands for",
                ],
            ),
        ]:
            with self.subTest(name):
                told = run((SAMPLES / name).read_text(encoding="utf-8"), form, *options).told
                self.assertEqual(told.splitlines(), [f"regkit convert: {line}" for line in expected])


def jepsen(*events: str) -> str:
    """EDN of events such as `0 invoke write 5`."""
    lines = []
    for event in events:
        process, kind, function, value = event.split(" ", 3)
        lines.append(f"{{:process {process}, :type :{kind}, :f :{function}, :value {value}}}\n")
    return "".join(lines)


class Jepsen(unittest.TestCase):
    def check(self, source: str, expected: List[str], *options: str) -> None:
        ran = run(source, "jepsen", *options)
        self.assertEqual((ran.status, short(ran.history)), (0, expected), ran.told)

    def test_words_for_reads_and_writes(self) -> None:
        self.check(
            jepsen("0 invoke w 5", "0 ok w 5", "0 invoke r nil", "0 ok r 5"),
            ["0 w x 5", "0 .", "0 r x", "0 = 5"],
        )

    def test_an_open_call_at_the_end_is_pending(self) -> None:
        self.check(jepsen("0 invoke write 5"), ["0 w x 5"])

    def test_a_number_that_goes_on_after_info_becomes_another_process(self) -> None:
        self.check(
            jepsen("0 invoke write 5", "0 info write 5", "0 invoke read nil", "0 ok read nil"),
            ["0 w x 5", "0 crash", "1 r x", "1 = None"],
        )

    def test_info_without_a_call_is_a_crash(self) -> None:
        self.check(
            jepsen("0 invoke read nil", "0 ok read nil", "0 info read nil"), ["0 r x", "0 = None", "0 crash"]
        )

    def test_values_of_failures_and_crashes_are_ignored(self) -> None:
        self.check(
            jepsen("0 invoke write [1 5]", "0 fail write :gone", "0 invoke read [1 nil]", "0 info read nil"),
            ["0 w 1 5", "0 fail", "0 r 1", "0 crash"],
        )

    def test_plain_values_may_be_pairs(self) -> None:
        self.check(
            jepsen("0 invoke write [1 2]", "0 ok write [1 2]", "0 invoke read nil", "0 ok read [1 2]"),
            ["0 w x 1", "0 .", "0 r x", "0 = 1"],
        )
        ran = run(jepsen("0 invoke write [1 2]", "1 invoke read [1 nil]", "2 invoke read nil"), "jepsen")
        self.assertIn("line 3: the value nil is no key with its value, as others are; if none is", ran.told)
        self.check(jepsen("0 invoke write [1 2]", "0 ok write [1 2]"), ["0 w x 1", "0 ."], "--keys", "none")
        self.check(
            jepsen("0 invoke write [1 2]", "0 ok write [1 2]"), ["0 w 1 2", "0 ."], "--keys", "independent"
        )

    def test_a_read_that_found_no_key(self) -> None:
        calls = jepsen("0 invoke read nil")
        for error, options, expected in [
            (':key-does-not-exist', (), "0 = None"),
            ('[:key-does-not-exist "x"]', (), "0 = None"),
            (":not-found", ("--null", "not-found"), "0 = None"),
            (":not-found", (), "0 fail"),
            ('["gone"]', ("--null", "gone,other"), "0 = None"),
            (":timeout", ("--null", ""), "0 fail"),
        ]:
            with self.subTest(error):
                end = f"{{:process 0, :type :fail, :f :read, :value nil, :error {error}}}"
                self.check(calls + end, ["0 r x", expected], *options)

    def test_console_lines_may_end_in_anything_after_a_failure(self) -> None:
        console = "jepsen.util - 0 {}\n"
        ends = [":fail :write {[", ":info :write Exception: ({", ":fail :write nil :x"]
        for end, expected in zip(ends, ["0 fail", "0 crash", "0 fail"]):
            with self.subTest(end):
                self.check(console.format(":invoke :write 1") + console.format(end), ["0 w x 1", expected])
        source = console.format(":invoke :read nil") + console.format(":fail :read nil :key-does-not-exist")
        self.check(source, ["0 r x", "0 = None"])

    def test_a_write_that_found_no_key_failed(self) -> None:
        self.check(
            jepsen("0 invoke write 1")
            + "{:process 0 :type :fail :f :write :value 1 :error [:key-does-not-exist]}",
            ["0 w x 1", "0 fail"],
        )

    def test_cas_skip_key(self) -> None:
        source = jepsen(
            "0 invoke write [1 5]",
            "0 ok write [1 5]",
            "1 invoke cas [2 [3 4]]",
            "1 fail cas [2 [3 4]]",
            "1 invoke write [2 9]",
            "1 info write [2 9]",
            "2 invoke read [1 nil]",
            "2 ok read [1 5]",
        )
        self.check(source, ["0 w 1 5", "0 .", "2 r 1", "2 = 5"], "--cas", "skip-key")
        told = run(source, "jepsen", "--cas", "skip-key").told
        self.assertIn("left out 2 of 4 operations, since something else than reads and writes touches "
                      "1 of 2 keys: 2\n", told)

    def test_plain_cas_isnt_taken_for_keys(self) -> None:
        ran = run(jepsen("0 invoke cas [1 2]", "0 ok cas [1 2]"), "jepsen", "--cas", "skip-key")
        self.assertEqual(ran.status, 2)
        self.assertIn("nothing is left to check: left out 1 of 1 operation, since", ran.told)

    def test_cas_skip_key_may_leave_too_little(self) -> None:
        """What is left is no yes: `regkit check` wants a completed read."""
        source = jepsen("0 invoke write [1 5]", "0 ok write [1 5]", "1 invoke cas [2 [3 4]]",
                        "2 invoke read [2 nil]", "2 ok read [2 3]")
        ran = run(source, "jepsen", "--cas", "skip-key")
        self.assertEqual(short(ran.history), ["0 w 1 5", "0 ."], ran.told)
        self.assertIn("left out 2 of 3 operations, since something else than reads and writes touches 1 ",
                      ran.told)
        self.assertIn("there is no completed read or cas, so a yes would say nothing: regkit check will",
                      ran.told)
        with tempfile.TemporaryDirectory() as folder:
            path = pathlib.Path(folder) / "left.jsonl"
            path.write_text(ran.history, encoding="utf-8")
            self.assertEqual(command("check", str(path)).status, 5)

    def test_an_append_transaction_of_several_operations_gets_one_refusal(self) -> None:
        """Even behind a transaction that is refused for another reason, and whatever the options say."""
        longer = (TXN % "[[:r 1 nil] [:r 2 nil]]"
                  + TXN.replace(":process 0", ":process 1") % "[[:append 3 1] [:r 3 nil]]")
        for options in [(), ("--cas", "skip-key"), ("--ops", "append=other"), ("--keys", "none")]:
            ran = run(longer, "jepsen", *options)
            self.assertEqual(ran.status, 2)
            self.assertIn("line 2: a transaction of 2 operations appends to a list", ran.told)
            self.assertIn("so no option converts it: let each transaction have one operation", ran.told)


def row(process: object, op: str, value: object, *times: object, **others: str) -> str:
    """A row of a table, with its start and its end, and perhaps with its outcome and its register."""
    start, end = times
    return f"{process},{start},{end},{others.get('register', 'x')},{op},{value},{others.get('outcome', '')}\n"


HEADER = "process,start,end,register,op,value,outcome\n"


class Timed(unittest.TestCase):
    def check(self, source: str, expected: List[str], *options: str) -> None:
        ran = run(HEADER + source, "csv", *options)
        self.assertEqual((ran.status, short(ran.history)), (0, expected), ran.told)

    def test_ties_put_calls_before_replies(self) -> None:
        self.check(
            row(0, "write", 1, 0, 5) + row(1, "read", "", 5, 9), ["0 w x 1", "1 r x", "0 .", "1 = None"]
        )

    def test_an_operation_may_take_no_time(self) -> None:
        self.check(row(0, "write", 1, 5, 5), ["0 w x 1", "0 ."])

    def test_a_client_whose_operations_overlap_gets_a_process_for_each(self) -> None:
        self.check(
            row(3, "write", 1, 0, 9)
            + row(3, "write", 2, 1, 8)
            + row(0, "read", "", 2, 3)
            + row(3, "read", 1, 10, 11),
            ["3 w x 1", "1 w x 2", "0 r x", "0 = None", "1 .", "3 .", "3 r x", "3 = 1"],
        )

    def test_an_unknown_outcome_keeps_its_process(self) -> None:
        for outcome, end in [("", ""), ("unknown", 9), ("info", ""), ("unknown", "")]:
            with self.subTest(outcome, end=end):
                self.check(
                    row(0, "write", 1, 0, end, outcome=outcome) + row(0, "read", 1, 10, 11),
                    ["0 w x 1", "1 r x", "1 = 1"],
                )

    def test_failures(self) -> None:
        self.check(
            row(0, "write", 1, 0, 5, outcome="fail") + row(0, "read", "", 6, 7, outcome="FAIL"),
            ["0 w x 1", "0 fail", "0 r x", "0 fail"],
        )
        self.check(
            row(0, "write", 1, 3, "", outcome="fail") + row(1, "read", "", 3, 7, outcome="ok"),
            ["0 w x 1", "1 r x", "0 fail", "1 = None"],
        )

    def test_clock_error_widens_both_ends(self) -> None:
        rows = row(0, "write", 1, 100, 200) + row(1, "read", "", 205, 300) + row(2, "read", 1, 311, 400)
        apart = ["0 w x 1", "0 .", "1 r x", "1 = None", "2 r x", "2 = 1"]
        overlap = ["0 w x 1", "1 r x", "0 .", "1 = None", "2 r x", "2 = 1"]
        for error, unit, expected in [
            ("2", "", apart),
            ("2.4", "", apart),
            ("2.5", "", overlap),
            ("5ms", "ms", overlap),
            ("5us", "ms", apart),
            ("2500ns", "us", overlap),
            ("0.005s", "ms", overlap),
            ("2499ns", "us", apart),
        ]:
            with self.subTest(error, unit=unit):
                options = ["--clock-error", error] + (["--clock-unit", unit] if unit else [])
                self.check(rows, expected, *options)

    def test_times_are_exact(self) -> None:
        for early, late in [
            ("9007199254740992", "9007199254740993"),
            ("0.1", "0.10000000000000000001"),
            ("1e3", "1000.5"),
            ("2026-11-23T05:49:42.123456789Z", "2026-11-23T05:49:42.12345679Z"),
            ("2026-11-23T05:49:42Z", "2026-11-23T05:49:43+00:00"),
            ("2026-03-01 00:00:00", "2026-03-01 00:00:00.5"),
            ("2026-11-23T23:59:59-01:00", "2026-11-24T01:00:00Z"),
            ("-5", "-4"),
        ]:
            with self.subTest(early):
                rows = row(0, "write", 1, early, early) + row(1, "read", 1, late, late)
                self.check(rows, ["0 w x 1", "0 .", "1 r x", "1 = 1"])

    def test_words_for_operations(self) -> None:
        self.check(
            row(0, " PUT", 1, 0, 1) + row(0, "Get", 1, 2, 3) + row(0, "set", 2, 4, 5),
            ["0 w x 1", "0 .", "0 r x", "0 = 1", "0 w x 2", "0 ."],
        )

    def test_columns_may_be_absent_and_have_other_names(self) -> None:
        ran = run(
            "t1,t2,who,what,v\n0,1,7,w,3\n",
            "csv",
            "--columns",
            "start=t1,end=t2,process=who,op=what,value=v",
            "--register",
            "r",
        )
        self.assertEqual(short(ran.history), ["7 w r 3", "7 ."], ran.told)

    def test_delimiters(self) -> None:
        rows = HEADER + row(0, "write", "a", 0, 1) + row(1, "read", "a", 2, 3)
        expected = run(rows, "csv").history
        for delimiter, options in [(";", ()), ("\t", ()), ("|", ()), (":", ("--delimiter", ":")),
                                   (";", ("--delimiter", ";")), ("\t", ("--delimiter", "tab")),
                                   ("\t", ("--delimiter", "\\t"))]:
            with self.subTest(delimiter, options=options):
                ran = run(rows.replace(",", delimiter), "csv", *options)
                self.assertEqual((ran.status, ran.history), (0, expected), ran.told)
        ran = run(rows.replace(",", ";").replace("a;", '"a,b;c";'), "csv", "--map")
        self.assertEqual(ran.map and ran.map["values"], {"x": {"1": "a,b;c"}})
        told = run(rows, "csv", "--delimiter", ";").told
        self.assertIn("say what stands between its fields with --delimiter C", told)

    def test_a_field_may_have_line_ends(self) -> None:
        ran = run(HEADER + row(0, "write", '"a\nb"', 0, 1) + row(0, "write", "c", 2, 3), "csv", "--map")
        self.assertEqual(
            ran.map and (ran.map["values"], ran.map["lines"]), ({"x": {"1": "a\nb", "2": "c"}}, [2, 2, 4, 4])
        )


class Values(unittest.TestCase):
    def test_whole_numbers_stay_and_all_else_is_numbered(self) -> None:
        source = jepsen(
            "0 invoke write 2",
            "0 ok write 2",
            "0 invoke write \"a\"",
            "0 ok write \"a\"",
            "1 invoke read nil",
            "1 ok read :a",
            "1 invoke read nil",
            "1 ok read \"a\"",
            "1 invoke read nil",
            "1 ok read 9223372036854775808",
            "1 invoke read nil",
            "1 ok read 1.5",
            "1 invoke read nil",
            "1 ok read true",
            "1 invoke read nil",
            "1 ok read -9223372036854775808",
        )
        ran = run(source, "jepsen", "--map", "--values", "exact")
        self.assertEqual(
            [event.get("value") for event in ran.events if "value" in event],
            [2, 1, 3, 1, 4, 5, 6, -9223372036854775808],
        )
        self.assertEqual(
            ran.map and ran.map["values"],
            {"x": {"1": "a", "3": ":a", "4": "9223372036854775808", "5": "1.5", "6": "true"}},
        )

    def test_each_register_numbers_for_itself(self) -> None:
        rows = (
            row(0, "write", "b", 0, 1, register="k")
            + row(0, "write", "a", 2, 3, register="l")
            + row(0, "read", "b", 4, 5, register="l")
            + row(0, "write", 7, 6, 7, register="m")
        )
        ran = run(HEADER + rows, "csv", "--map")
        self.assertEqual(
            short(ran.history), ["0 w k 1", "0 .", "0 w l 1", "0 .", "0 r l", "0 = 2", "0 w m 7", "0 ."]
        )
        self.assertEqual(ran.map and ran.map["values"], {"k": {"1": "b"}, "l": {"1": "a", "2": "b"}})

    def test_texts_of_numbers(self) -> None:
        """In a table and in Porcupine's logs all values are texts; in EDN and JSON a text isn't a number."""
        self.assertEqual(short(run(HEADER + row(0, "write", "41", 0, 1), "csv").history), ["0 w x 41", "0 ."])
        self.assertEqual(short(run(HEADER + row(0, "write", "041", 0, 1), "csv").history), ["0 w x 1", "0 ."])
        source = jepsen('0 invoke write "41"', '0 ok write "41"', "0 invoke write 41", "0 ok write 41")
        ran = run(source, "jepsen", "--map")
        self.assertEqual(short(ran.history), ["0 w x 1", "0 .", "0 w x 41", "0 ."])
        self.assertEqual(ran.map and ran.map["values"], {"x": {"1": '"41"'}})

    def test_null(self) -> None:
        reads = '{"process":0,"op":"read","register":"x","value":%s,"start":0,"end":1}'
        value_as_it_is = ("--initial", "null")
        for value, options, expected in [
            ("null", (), "None"),
            ('""', value_as_it_is, "1"),
            ('""', ("--null", ""), "None"),
            ('""', ("--null", '""'), "None"),
            ('""', ("--null", "nil,,gone"), "None"),
            ('"nil"', ("--null", "nil,,gone"), "None"),
            ('"gone"', ("--null", "gone"), "None"),
            ('"gone"', (), "1"),
            ("-1", ("--null=-1",), "None"),
            ("-1", value_as_it_is, "-1"),
            ("0", value_as_it_is, "0"),
            ("0", ("--null", "nil", *value_as_it_is), "0"),
            ("0", ("--initial", "7"), "0"),
        ]:
            with self.subTest(value, options=options):
                ran = run(reads % value, "operations", *options)
                self.assertEqual(short(ran.history)[-2:], ["0 r x", f"0 = {expected}"], ran.told)
        for form, source in [
            ("csv", HEADER + row(0, "read", "", 0, 1)),
            (
                "porcupine",
                '{:process 0 :type :invoke :f :get :key "x"}\n'
                '{:process 0 :type :ok :f :get :key "x" :value ""}',
            ),
        ]:
            with self.subTest(form):
                self.assertEqual(short(run(source, form).history), ["0 r x", "0 = None"])
                ran = run(source, form, "--null", "nil", *value_as_it_is)
                self.assertEqual(short(ran.history), ["0 r x", "0 = 1"], ran.told)

    def test_initial(self) -> None:
        source = jepsen(
            "5 invoke read [:a nil]", "5 ok read [:a 0]", "3 invoke write [:a 1]", "4 invoke read [:b nil]"
        )
        ran = run(source, "jepsen", "--initial", "0", "--map")
        self.assertEqual(
            short(ran.history),
            ["3 w :a 0", "3 .", "4 w :b 0", "4 .", "5 r :a", "5 = 0", "3 w :a 1", "4 r :b"],
        )
        self.assertEqual(ran.map and ran.map["lines"], [0, 0, 0, 0, 1, 2, 3, 4])
        for word, read in [("v", '"v"'), (":v", ":v"), ('"0"', '"0"')]:
            history = run(
                jepsen("5 invoke read nil", f"5 ok read {read}"), "jepsen", "--initial", word
            ).history
            self.assertEqual(short(history), ["5 w x 1", "5 .", "5 r x", "5 = 1"])

    def test_a_single_writer_stays_one(self) -> None:
        source = jepsen("1 invoke write 5", "1 ok write 5", "2 invoke read nil", "2 ok read 5")
        report = run_checker(run(source, "jepsen", "--initial", "0").history.encode()).report
        self.assertEqual(json.loads(report.splitlines()[0])["regular"], "yes")


class Suspects(unittest.TestCase):
    """Reads of values that nothing writes, where the conversion may be wrong and not the store."""

    def test_what_may_spell_null_or_be_there_from_the_start(self) -> None:
        for value in ("nil", "None", "(nil)", "NULL", "not found", "-1", "0", "undefined", "b'none'"):
            with self.subTest(value):
                ran = run(HEADER + row(0, "write", 7, 0, 1) + row(1, "read", value, 0, 3), "csv")
                self.assertEqual(ran.status, 2, ran.history)
                self.assertIn("which nothing writes to x: say ", ran.told)
                self.assertIn("or --initial=null if the store was wrong to give it", ran.told)

    def test_a_value_that_is_written_is_a_value(self) -> None:
        for value in ("nil", "-1", "0", "undefined"):
            with self.subTest(value):
                ran = run(HEADER + row(0, "write", value, 0, 1) + row(1, "read", value, 0, 3), "csv")
                self.assertEqual(ran.status, 0, ran.told)

    def test_a_value_that_no_one_may_mean_is_a_fault(self) -> None:
        ran = run(HEADER + row(0, "write", "v1", 0, 1) + row(1, "read", "v2", 0, 3), "csv")
        self.assertEqual(short(ran.history), ["0 w x 1", "1 r x", "0 .", "1 = 2"], ran.told)

    def test_values_that_are_spelled_alike(self) -> None:
        for written, read in [("1", '"1"'), ('"1"', "1"), (":a", '"a"'), ("1", "1.0"),
                              ('"v"', "\"b'v'\""), ('" v"', '"v"')]:
            source = jepsen(f"0 invoke write {written}", f"0 ok write {written}", "1 invoke read nil",
                            f"1 ok read {read}")
            with self.subTest(source):
                told = run(source, "jepsen").told
                self.assertIn("a value of another kind that is spelled alike is written there", told)
                self.assertEqual(len(set(short(run(source, "jepsen", "--values", "exact").history))), 4)
                alike = short(run(source, "jepsen", "--values", "alike").history)
                self.assertEqual(alike[0].split()[-1], alike[-1].split()[-1], alike)

    def test_a_value_with_its_version(self) -> None:
        for written, read in [("[nil 3]", "[7 3]"), ("3", "[7 3]"), ("{:value 3}", "{:version 7, :value 3}")]:
            source = jepsen(f"0 invoke write {written}", "0 ok write nil", "1 invoke read nil",
                            f"1 ok read {read}")
            with self.subTest(source):
                told = run(source, "jepsen").told
                self.assertIn("a value that has a part of it in common is written there", told)
                self.assertEqual(run(source, "jepsen", "--values", "exact").status, 0)
        apart = jepsen("0 invoke write [7 3]", "0 ok write nil", "1 invoke read nil", "1 ok read [8 4]")
        self.assertEqual(run(apart, "jepsen").status, 0)

    def test_a_pair_that_finds_nothing(self) -> None:
        """[7 nil] is key 7 with nothing in it, or a value that nobody wrote: one is right, one isn't."""
        source = jepsen("0 invoke write [7 3]", "0 info write [7 3]", "1 invoke read nil",
                        "1 ok read [7 nil]")
        ran = run(source, "jepsen")
        self.assertEqual(ran.status, 2, ran.history)
        self.assertIn("[7 nil] may be a key with its value", ran.told)

    def test_keys_that_are_spelled_alike(self) -> None:
        source = jepsen("0 invoke write [5 1]", "0 ok write [5 1]", '1 invoke read ["5" nil]',
                        '1 ok read ["5" 1]')
        told = run(source, "jepsen").told
        self.assertIn('line 3: the key "5" is spelled like 5, the key of line 1, and of another kind: say '
                      "--values alike", told)
        ran = run(source, "jepsen", "--values", "alike")
        self.assertEqual(short(ran.history), ["0 w 5 1", "0 .", "1 r 5", "1 = 1"], ran.told)
        ran = run(source, "jepsen", "--values", "exact")
        self.assertEqual(short(ran.history), ["0 w 5 1", "0 .", '1 r "5"', "1 = 1"], ran.told)

    def test_faults_that_may_be_of_the_recording_are_told(self) -> None:
        unwritten = jepsen("0 invoke read nil", "0 ok read 17")
        told = run(unwritten, "jepsen").told
        self.assertIn("1 read gave a value that nothing writes: was the store empty before", told)
        failed = jepsen("0 invoke write 1", "0 fail write 1", "1 invoke read nil", "1 ok read 1")
        ran = run(failed, "jepsen")
        self.assertEqual(short(ran.history), ["0 w x 1", "0 fail", "1 r x", "1 = 1"])
        self.assertIn("1 read gave a value of a failed write: is it sure that such a write has no", ran.told)
        ran = run(failed, "jepsen", "--outcomes", "fail=unknown")
        self.assertEqual(short(ran.history), ["0 w x 1", "0 crash", "1 r x", "1 = 1"])
        self.assertNotIn("failed write", ran.told)

    def test_values_that_are_alike_are_one(self) -> None:
        source = jepsen("0 invoke write 1", "0 ok write 1", '0 invoke write "1"', '0 ok write "1"')
        alike = run(source, "jepsen", "--values", "alike")
        self.assertEqual(short(alike.history), ["0 w x 1", "0 .", "0 w x 1", "0 ."])
        self.assertIn("the history has repeated values, so it is one for regsearch", alike.told)
        exact = run(source, "jepsen")
        self.assertEqual(short(exact.history), ["0 w x 1", "0 .", "0 w x 2", "0 ."])
        self.assertNotIn("regsearch", exact.told)

    def test_an_object_is_no_value(self) -> None:
        for value in ('#object[a.b 0x1f "a.b@1f"]', '#error {:cause nil}'):
            read, write = jepsen("0 invoke read nil", f"0 ok read {value}"), jepsen(f"0 invoke write {value}")
            for source in (read, write):
                with self.subTest(source):
                    self.assertIn("only names an object of Clojure", run(source, "jepsen").told)
        ran = run(jepsen('0 invoke write #inst "2026-11-28"', "0 ok write nil"), "jepsen")
        self.assertEqual(short(ran.history), ["0 w x 1", "0 ."], ran.told)


class Names(unittest.TestCase):
    def names(self, *keys: str) -> List[str]:
        source = jepsen(*(f"{place} invoke write [{key} 1]" for place, key in enumerate(keys)))
        return [event["register"] for event in run(source, "jepsen", "--values", "exact").events]

    def test_forms(self) -> None:
        for keys, expected in [
            (
                ["5", ":k", '"s"', "[1 :a]", "nil", "2.50", "true", "foo"],
                ["5", ":k", "s", "[1 :a]", "nil", "2.5", "true", "foo"],
            ),
            (["5", '"5"', '"s"'], ["5", '"5"', '"s"']),
            ([":k", '":k"'], [":k", '":k"']),
            (["nil", '"nil"'], ["nil", '"nil"']),
            (['"5"'], ["5"]),
            (['""'], ['""']),
            (["5N", "5"], ["5", "5"]),
            (['"\\"5\\""', '"5"', "5"], ['"\\"5\\""', '"5"', "5"]),
            (["5.0", "5"], ["5.0", "5"]),
            (["[1]", "(1)"], ["[1]", "[1]"]),
        ]:
            with self.subTest(keys):
                self.assertEqual(self.names(*keys), expected)

    def test_a_name_of_255_bytes_is_taken(self) -> None:
        self.assertEqual(self.names('"' + "\u00e9" * 127 + 'a"'), ["\u00e9" * 127 + "a"])

    def test_clients(self) -> None:
        rows = "".join(
            row(client, "read", "", time, time)
            for time, client in enumerate(["alice", 2, "0", "alice", 4294967296, -1])
        )
        ran = run(HEADER + rows, "csv", "--map")
        self.assertEqual(
            [event["process"] for event in ran.events if event["event"] == "call"], [1, 2, 0, 1, 3, 4]
        )
        self.assertEqual(ran.map and ran.map["processes"], {"1": "alice", "3": 4294967296, "4": -1})


CAS_HEADER = HEADER.strip() + ",from,to,ok\n"
CAS_CALL = '{"process":1,"event":"call","op":"cas","register":"x","from":1,"to":2}\n'
TXN = "{:process 0, :type :invoke, :f :txn, :value %s}\n"

# The form, the source, the options, and how the one line of standard error begins.
REFUSALS: List[Tuple[str, str, Sequence[str], str]] = [
    ("jepsen", jepsen("0 invoke write nil"), (),
     "line 1: a write of null to x: only the initial value is null"),
    ("csv", HEADER + row(0, "write", "", 0, 1), (),
     "line 2: a write of null to x: only the initial value is null"),
    ("jepsen", jepsen("0 invoke cas [1 2]"), ("--cas", "refuse"),
     "line 1: cas reads and writes at once, and by --cas refuse only reads and writes are taken"),
    ("jepsen", jepsen("0 invoke cas 1"), (),
     "line 1: the value 1 of a cas isn't [from to], what it asks for"),
    ("jepsen", jepsen("0 invoke cas [1 2 3]"), (), "line 1: the value [1 2 3] of a cas isn't [from to]"),
    ("jepsen", jepsen("0 invoke cas [1 nil]"), (), "line 1: a cas of null to x: only the initial value is"),
    ("jepsen", jepsen("0 invoke cas [1 2]", "0 ok cas [1 3]"), (),
     "line 2: the reply of a cas has the value [1 3], which isn't that of its call, at line 1: say "
     "--ok-when"),
    ("jepsen", jepsen("0 invoke cas [1 2]", "0 ok cas false"), (),
     "line 2: the reply of a cas has the value f"),
    ("jepsen", jepsen("0 invoke cas [0 2]", "0 ok cas [0 2]"), (),
     "line 2: a cas found 0, which nothing writes to x: say --initial=0 if registers start with it, "
     "--null=0"),
    ("jepsen", jepsen("0 invoke read nil", "0 ok read 0", "1 invoke write 0"), (),
     "line 2: a read gave 0, which nothing writes to x before: say --initial=0 if registers start with it"),
    ("jepsen", jepsen("0 invoke write 1", '1 invoke write "1"', "2 invoke read nil", "2 ok read 1"), (),
     "line 4: a read gave 1 of x: a value of another kind that is spelled alike is written there; say --val"),
    ("jepsen", jepsen("0 invoke cas [[1 2] [3 4]]"), (),
     "line 1: the value [[1 2] [3 4]] may be a key with [from to], or from and to: say --keys independent"),
    ("jepsen", jepsen("0 invoke read nil", "0 fail read nil"), ("--outcomes", "fail=missed"),
     "line 2: by --outcomes it missed, and it is a read, not a cas: say what the word means of all"),
    ("porcupine", '{:process 0, :type :invoke, :f :append, :key "5", :value "a"}', ("--cas", "refuse"),
     "line 1: append reads and writes at once, and by --cas refuse only reads and writes are taken: keep it "
     "for regsearch with --cas keep, leave it out of the workload, or leave out the keys that it touches"),
    ("porcupine", '{"Call":1,"Input":{"Op":"cas","From":1},"Output":{"Ok":true},"Return":2}', (),
     "line 1: the input of a cas has From and To, and no Value"),
    ("porcupine", '{"Call":1,"Input":{"Op":"cas","From":1,"To":2},"Output":{},"Return":2}', (),
     "line 1: the output of a cas has no Ok, true or false"),
    ("porcupine", '{"Call":1,"Input":{"Op":1,"Arg1":1},"Output":{"Ok":false},"Return":2}', (),
     "line 1: Ok is false, and this is a write: say --ok-when Ok=true if it took place only then"),
    ("porcupine", '{"Call":1,"Input":{"Op":0,"Arg1":0},"Output":{"Value":2},"Return":2}', (),
     "line 1: the output of a read has Exists, true or false"),
    ("porcupine", '{"Call":1,"Input":{"Op":1,"Arg1":0,"Arg2":3},"Output":{},"Return":2}', (),
     "line 1: Arg2 is 3, and only a cas, which is Op 2, has one"),
    ("porcupine", '{"Call":1,"Input":{"Op":2,"Arg1":0},"Output":{},"Return":2}', (),
     "line 1: the input of a cas has Arg1 and Arg2"),
    ("porcupine", '{"Call":1,"Input":{"Op":2,"Arg1":0,"Arg2":3},"Output":{"Unknown":"no"},"Return":2}', (),
     "line 1: Unknown is no, and true or false is expected"),
    ("csv", HEADER + row(0, "cas", "", 0, 1), (),
     "line 2: a cas has from and to: say which they are with --col"),
    ("csv", CAS_HEADER + "0,0,1,x,cas,7,ok,1,2,true\n", (),
     "line 2: a cas has from and to, and no value, but th"),
    ("csv", CAS_HEADER + "0,0,1,x,cas,,ok,1,2,yes\n", (), "line 2: ok is yes, and true or false is expected"),
    ("csv", CAS_HEADER + "0,0,1,x,cas,,fail,1,2,true\n", (),
     "line 2: ok is true, and the outcome is another"),
    ("csv", CAS_HEADER + "0,0,1,x,cas,,,1,2,\n", (),
     "line 2: the row of a cas doesn't say whether it took place"),
    ("csv", CAS_HEADER + "0,0,1,x,write,1,ok,,,false\n", (),
     "line 2: the column ok isn't understood, and it may"),
    ("csv", CAS_HEADER + "0,0,1,x,read,1,ok,5,,\n", (),
     "line 2: the column from isn't understood, and it may"),
    ("operations", '{"process":0,"start":1,"op":"write","value":1,"ok":true}', (),
     "line 1: the member ok isn't understood, and it may tell the outcome"),
    ("jsonl", '{"process":1,"event":"call","op":"cas","from":1}', (),
     "line 1: the call of a cas has from and to"),
    ("jsonl", '{"process":1,"event":"call","op":"cas","from":1,"to":2,"value":2}', (),
     "line 1: the call of a cas has from and to, and no value"),
    ("jsonl", CAS_CALL + '{"process":1,"event":"reply"}', (),
     "line 2: a cas's reply has no ok, true or false"),
    ("jsonl", CAS_CALL + '{"process":1,"event":"reply","ok":"true"}', (),
     "line 2: a cas's reply has no ok, tr"),
    ("jsonl", CAS_CALL + '{"process":1,"event":"reply","ok":true,"value":3}', (),
     "line 2: the reply of a cas has"),
    ("jsonl", CAS_CALL + '{"process":1,"event":"reply","ok":true,"from":3}', (),
     "line 2: from is 3, and the call"),
    ("jsonl", CAS_CALL + '{"process":1,"event":"fail","ok":true}', (),
     'line 2: the cas ends by "fail", and ok is true: did it take place or not?'),
    ("jsonl", '{"process":1,"event":"call","op":"read","from":1}', (),
     "line 1: the member from isn't understood"),
    ("jepsen", jepsen("0 invoke read nil", "1 invoke enqueue 1"), (),
     "line 2: enqueue is no word for a read (get, r, read) or a write (put, set, w, write) or a cas: say "
     "--ops enqueue=read or --ops enqueue=write or --ops enqueue=cas if it is one, leave out the keys that "
     "it touches with --ops enqueue=other --skip-key, or check queues, sets and counters with Knossos "
     "or Porcupine"),
    ("jepsen", jepsen("0 invoke read nil", "0 invoke read nil"), (),
     "line 2: client 0 calls while its call of line 1 is open"),
    ("jepsen", jepsen("0 ok read nil"), (), "line 1: client 0 has no open call that this could end"),
    ("jepsen", jepsen("0 invoke read nil", "0 ok write 1"), (),
     "line 2: :f is :write, and the open call of process 0, at line 1"),
    ("jepsen", jepsen("0 invoke write 1", "0 ok write 2"), (),
     "line 2: the reply of a write has the value 2, and its call, at l"),
    ("jepsen", jepsen("0 start read nil"), (),
     "line 1: :type is :start, and :invoke, :ok, :fail or :info is expected"),
    ("jepsen", '{:process "alice", :type :invoke, :f :write, :value 1}', (),
     'line 1: :process is "alice", and its :f is :write: give each client a whole number'),
    ("jepsen", "{:type :invoke, :f :read, :value 1}", (), "line 1: :process is nil, and its :f is :read"),
    ("jepsen", '{:process "bob", :f :push}', ("--ops", "push=other"), 'line 1: :process is "bob", and its'),
    ("jepsen", "[[1 2]]", (), "line 1: no operation: a map such as"),
    ("jepsen", jepsen("0 invoke read 4, :index 4", "0 ok read 4, :index 3"), (),
     "line 2: :index is 3, and an earlier line's 4: the order of the lines is the order of time"),
    ("jepsen", '[{"process":0,"type":"invoke","f":"read"}\n,7]', (),
     "line 2: no operation: an object such as"),
    ("jepsen", "INFO - :invoke :read nil", (), "line 1: an operation has a process, a type, a function and"),
    ("jepsen", "INFO 5 :begin :read nil", (), "line 1: an operation has a process, a type, a function and a"),
    ("jepsen", jepsen("0 invoke push 1"), ("--ops", "push=other"),
     "line 1: by --ops this is neither a read nor a write nor a cas: leave out the keys that it touches "
     "with"),
    ("jepsen", "{:process 0, :type :invoke, :f :read, :f :write}", (),
     "line 1: not EDN: a map with the key :f twice"),
    ("jepsen", "{:process 0, :type :invoke, :f 3}", (),
     "line 1: :f is 3, and a keyword such as :read is expected"),
    ("jepsen", "{:process 0}\n[1 2]", (), "line 1: :type is nil, and"),
    ("jepsen", ":invoke", (), "the source has no operation to check"),
    ("jepsen", "{:a 1}\n:invoke", (), "line 2: no operation: a map such as {:process 0, :type :invoke"),
    ("jepsen", "{:a", (), "line 1: not EDN: { is never closed"),
    ("jepsen", jepsen("0 invoke write [1 2]", "0 ok write [2 2]"), (),
     "line 2: the reply's value [2 2] doesn't have the key 1"),
    ("jepsen", jepsen("0 invoke write [1 2]", "0 ok write nil"), (),
     "line 2: the reply's value nil doesn't have the key 1"),
    ("jepsen", jepsen("0 invoke write [1 2]", "1 invoke write 3"), ("--keys", "independent"),
     "line 2: the value 3 is no key with"),
    ("jepsen", TXN % "[[:w 1 2] [:r 1 nil]]", (),
     "line 1: a transaction of 2 operations, and registers have single"),
    ("jepsen", TXN % "[[:append 1 2] [:append 1 3]]", (),
     "line 1: a transaction of 2 operations appends to a list, and registers have single operations"),
    ("jepsen", TXN % "7", (), "line 1: 7 is no transaction of one operation, such as [[:w 3 1]]"),
    ("jepsen", TXN % "[[:w 1 2]]" + "{:process 0, :type :ok, :f :txn, :value [[:r 1 2]]}", (),
     "line 2: the reply's transaction isn't"),
    ("jepsen", "", (), "the source has no operation to check: is it the right file, and of the form jepsen?"),
    ("jepsen", jepsen('0 invoke write ["' + "a" * 256 + '" 1]'), (),
     "line 1: a key's name has 256 bytes, and a register's name at"),
    ("jepsen", jepsen('0 invoke write ["' + "\u00e9" * 128 + '" 1]'), (),
     "line 1: a key's name has 256 bytes"),
    ("jepsen", jepsen('0 invoke write ["\\ud800" 1]'), (),
     "line 1: a key has half of a surrogate pair, which is no text"),
    ("jepsen", "INFO jepsen.util - 0 :invoke :read [", (), "line 1: no value of EDN behind :invoke, but ["),
    ("porcupine", '{"a":1}', (),
     "line 1: neither an operation with Call and Return nor an event with Kind, but a"),
    ("porcupine", '{"Call":1}', (),
     "line 1: the input has no member Op: let it have Op (get or put), Key and Value"),
    ("porcupine", '{"Kind":"start","Value":{}}', (),
     "line 1: Kind is start, and call or return (false or true) is expected"),
    ("porcupine", '{"Kind":0,"Value":{"Op":0}}\n{"Call":1,"Input":{"Op":0}}', (),
     "line 2: events and operations in one file"),
    ("porcupine", '[\n1]', (), "line 2: no operation: a map such as"),
    ("porcupine", '{"Call":1,"Input":{"Op":0}}\n1', (),
     "line 2: no operation and no event: an object is expected"),
    ("porcupine", '[{"Kind":0,"Value":{"Op":0}}\n', (), "line 2: not JSON: an array without its end"),
    ("porcupine", '[{"Kind":0,"Value":{"Op":0}}]\n1', (),
     "line 1: not JSON: there is something behind the array"),
    ("csv", HEADER + row(0, "write", 1, 5, 4), (),
     "line 2: the operation ends before it starts: are the columns"),
    ("csv", HEADER + row(0, "write", 1, "noon", 4), (),
     "line 2: start is 'noon', and a number or a date such as"),
    ("csv", HEADER + row(0, "write", 1, 3, "NaN"), (),
     "line 2: end is 'NaN', and a number or a date such as"),
    ("csv", HEADER + row(0, "write", 1, 3, "2026-02-30T00:00:00Z"), (),
     "line 2: end is '2026-02-30T00:00:00Z', and a number"),
    ("csv", HEADER + row(0, "write", 1, 3, "2026-02-03T00:00:00Z"), (),
     "line 2: end is a date with a time zone, and at line 2 a num"),
    ("csv", HEADER + row(0, "write", 1, 3, 4, outcome="maybe"), (),
     "line 2: the outcome is maybe, and ok, fail, unknown or info is expect"),
    ("csv", HEADER + "1,2\n", (), "line 2: the row has 2 fields, and the header 7: put a field"),
    ("csv", HEADER + '1,2,"a"b,,,,\n', (), "line 2: not CSV: "),
    ("csv", "process,end,op,value\n", (),
     "line 1: the header has no start, but process, end, op, value: say which column is the start"),
    ("csv", HEADER, ("--columns", "register=key"), "line 1: the header has no key, but"),
    ("csv", "op,op\n", (), "line 1: the header has no process, but op, op"),
    ("csv", "process,start,end,op,op,value\n", (), "line 1: the header has op twice: rename one of them"),
    ("operations", '{"process":1,"op":"read"}', (),
     "line 1: the object has no start, but process, op: say which member is the"),
    ("operations", "7", (), "line 1: no operation: an object such as"),
    ("operations", "{", (), "line 1: not JSON: "),
    ("operations", '{"process":1,"op":"read","start":NaN}', (), "line 1: not JSON: NaN is no JSON"),
    ("operations", '{"process":1,"op":"read","start":true}', (),
     "line 1: start is True, and a number or a date"),
    ("jsonl", '{"process":1,"event":"start"}', (),
     'line 1: event is "start", and call, reply, fail or crash is expected'),
    ("jsonl", '{"event":"call"}', (), "line 1: no event: an object such as"),
    ("jsonl", '{"process":1,"event":"call","register":"x"}', (),
     "line 1: a call has the member op, read, write or cas"),
    ("jsonl", '{"process":1,"event":"crash"}\n{"process":1,"event":"call","op":"read"}', (),
     "line 2: client 1 crashed at line 1"),
    ("jsonl", '{"process":1,"event":"call","op":"read"}\n{"process":1,"event":"reply"}', (),
     "line 2: a read's reply has no value"),
    ("jsonl", '{"process":1,"event":"call","op":"read"}\n{"process":1,"event":"reply","op":"write"}', (),
     'line 2: op is "write", and the call at line 1 has "read"'),
    ("jsonl", '{"process":1,"event":"crash"}\n\n{"process":1,"event":"reply"}', (),
     "line 3: client 1 crashed at line 1: let it go on under another number"),
    ("jsonl", '[{"process":1},\n{"process"]', (), "line 1: event is absent, and call, reply"),
    ("porcupine", '[{"Kind":0,"Value":{"Op":0}},\n{"Kind"]', (), "line 2: not JSON: "),
    ("jsonl", '{"process":1,"event":"reply"}', (), "line 1: client 1 has no open call that this could end"),
]

WRONG_WORDS: List[Tuple[str, Sequence[str], str]] = [
    ("jepsen", ("--clock-error", "5ms"), "--clock-error is for porcupine, csv, operations, not for jepsen"),
    ("jsonl", ("--columns", "process=a"), "--columns is for csv, operations, not for jsonl"),
    ("csv", ("--columns", "who=a"), "--columns who=a: COLUMN=NAME is expected, with one of process, start"),
    ("csv", ("--columns", "process"), "--columns process: COLUMN=NAME is expected"),
    ("csv", ("--clock-error", "soon"), "--clock-error soon: a number with ns, us, ms or s is expected"),
    ("csv", ("--clock-error", "5ms"), "--clock-error 5ms needs --clock-unit ns, us, ms or s"),
    ("jsonl", ("--delimiter", ";"), "--delimiter is for csv, not for jsonl"),
    ("csv", ("--delimiter", "::"), "--delimiter ::: one character is expected, or comma, semicolon or tab"),
    ("csv", ("--ops", "get"),
     "--ops get: WORD=MEANING,.. is expected, with one of read, write, cas, create, replace, swap"),
    ("csv", ("--ops", "get=fetch"), "--ops get=fetch: WORD=MEANING,.. is expected"),
    ("csv", ("--ops", "a=read,a=write"), "--ops: a is given two meanings"),
    ("csv", ("--ops", "CAS=write"), "--ops CAS=write: CAS reads and writes at once, so it is cas or other"),
    ("csv", ("--ops", "append=cas"), "--ops append=cas: append reads and writes at once, so it is other"),
    ("csv", ("--outcomes", "late=reply"),
     "--outcomes late=reply: WORD=MEANING,.. is expected, with one of ok, fail, un"),
    ("csv", ("--ok-when", "status"),
     "--ok-when status: MEMBER=WORD,.. is expected, such as status=200 or error="),
    ("csv", ("--to", "jepsen", "--map"), "--map describes a history for regcheck: leave out --to, or --map"),
]


class Refusals(unittest.TestCase):
    def test_sources(self) -> None:
        for form, source, options, words in REFUSALS:
            with self.subTest(words):
                ran = run(source, form, *options)
                self.assertEqual((ran.status, ran.history), (2, ""))
                self.assertEqual(ran.told[: 16 + len(words)], "regkit convert: " + words)
                self.assertEqual(ran.told.count("\n"), 1)

    def test_wrong_words(self) -> None:
        for form, options, words in WRONG_WORDS:
            with self.subTest(words):
                ran = run(HEADER + row(0, "read", 1, 0, 1), form, *options)
                self.assertEqual((ran.status, ran.history), (3, ""))
                self.assertEqual(ran.told[: 16 + len(words)], "regkit convert: " + words)

    def test_bytes_that_are_no_text(self) -> None:
        for data in (b"\xff", b'{"process":1,"event":"call","op":"read","register":"\xe9"}'):
            ran = run(data, "jsonl")
            self.assertEqual((ran.status, ran.history), (2, ""))
            self.assertTrue(ran.told.startswith("regkit convert: the source isn't UTF-8 ("), ran.told)

    @unittest.skipUnless(hasattr(sys, "get_int_max_str_digits"), "this Python reads numbers of any length")
    def test_a_number_of_thousands_of_digits(self) -> None:
        ran = run(jepsen("0 invoke write " + "1" * 5000), "jepsen")
        self.assertEqual((ran.status, ran.history), (2, ""))
        self.assertIn("regkit convert: a value of the source can't be read: ", ran.told)

    def test_a_mark_of_byte_order_and_line_ends_of_windows(self) -> None:
        for form, source in [
            ("csv", HEADER + row(0, "write", 1, 0, 1)),
            ("jepsen", jepsen("0 invoke write 1", "0 ok write 1")),
            ("jsonl", run(HEADER + row(0, "write", 1, 0, 1), "csv").history),
        ]:
            with self.subTest(form):
                ran = run("\ufeff" + source.replace("\n", "\r\n"), form)
                self.assertEqual(short(ran.history), ["0 w x 1", "0 ."], ran.told)

    def test_crash_of_a_client_between_others(self) -> None:
        """A crash ends nothing but its own process."""
        ran = run('{"process":1,"event":"crash"}\n{"process":2,"event":"call","op":"read"}', "jsonl")
        self.assertEqual(short(ran.history), ["1 crash", "2 r x"])


class CommandLine(unittest.TestCase):
    def test_standard_input_and_output(self) -> None:
        words = [sys.executable, "-m", "regkit", "convert", "--from", "jepsen"]
        source = (SAMPLES / "jepsen_register.edn").read_bytes()
        root = SAMPLES.parents[1]
        ran = subprocess.run(words, input=source, capture_output=True, cwd=root, check=False)
        self.assertEqual(ran.stdout, (SAMPLES / "jepsen_register.expected").read_bytes(), ran.stderr)
        self.assertEqual(ran.returncode, 0)
        refused = subprocess.run(words, input=b"[", capture_output=True, cwd=root, check=False)
        self.assertEqual((refused.returncode, refused.stdout), (2, b""))

    def test_a_warning_of_histories_that_are_too_large(self) -> None:
        self.assertEqual(list(too_large(1_048_576, 67_108_864)), [])
        for lines, size in [(1_048_577, 9), (9, 67_108_865)]:
            self.assertIn("divide it with regkit split", "".join(too_large(lines, size)))


if __name__ == "__main__":
    unittest.main()
