"""The lines that a recorder writes, and what it refuses to write."""
import asyncio
import contextlib
import io
import json
import os
import pathlib
import pickle
import random
import signal
import subprocess
import sys
import tempfile
import threading
import time
import unittest
from typing import Any, Callable, Dict, List, Optional, Set, Tuple, Type
from unittest import mock

from regkit.checker.programs import run_checker
from regkit.record import Recorder, RecordingError, Swap
from regkit.recording.journal import Failures

PYTHON = pathlib.Path(__file__).resolve().parents[1]


def lines(recorder: Recorder) -> List[str]:
    return recorder.history().decode("ascii").splitlines()


class Lost(Exception):
    """An answer that doesn't come."""


class Refused(Exception):
    """An answer that says that nothing was done."""


def told(history: List[str]) -> Dict[str, int]:
    """Checks by hand that the lines keep the rules of a history, and counts the events."""
    open_calls: Dict[int, Dict[str, Any]] = {}
    written: Set[Any] = set()
    crashed: Set[int] = set()
    counts = {"call": 0, "reply": 0, "fail": 0, "crash": 0}
    for line in history:
        event = json.loads(line)
        process, what = event["process"], event["event"]
        counts[what] += 1
        assert process not in crashed, line
        if what == "call":
            assert process not in open_calls, line
            open_calls[process] = event
            if event["op"] == "write":
                assert (event["register"], event["value"]) not in written, line
                written.add((event["register"], event["value"]))
        elif what == "crash":
            crashed.add(process)
        else:
            assert event["register"] == open_calls.pop(process)["register"], line
    return counts


class Lines(unittest.TestCase):
    def test_a_write_and_a_read(self) -> None:
        recorder = Recorder()
        with recorder.client() as client:
            with client.write("x") as write:
                self.assertEqual(write.value, 1)
            with client.read("x") as read:
                read.value = 1
        self.assertEqual(lines(recorder), [
            '{"process":1,"event":"call","op":"write","register":"x","value":1}',
            '{"process":1,"event":"reply","register":"x"}',
            '{"process":1,"event":"call","op":"read","register":"x"}',
            '{"process":1,"event":"reply","register":"x","value":1}'])

    def test_the_call_is_out_before_the_block_and_the_reply_is_not(self) -> None:
        recorder = Recorder()
        with recorder.write("x") as write:
            call = '{"process":1,"event":"call","op":"write","register":"x","value":%d}' % write.value
            self.assertEqual(lines(recorder), [call])
        self.assertEqual(len(lines(recorder)), 2)

    def test_each_register_counts_its_own_writes(self) -> None:
        recorder, values = Recorder(), []
        for register in ["x", "y", "x", "x", "y"]:
            with recorder.write(register) as write:
                values.append((register, write.value))
        self.assertEqual(values, [("x", 1), ("y", 1), ("x", 2), ("x", 3), ("y", 2)])

    def test_an_exception_leaves_the_call_pending(self) -> None:
        for exception in (Lost, KeyboardInterrupt, asyncio.CancelledError, GeneratorExit):
            with self.subTest(exception=exception):
                recorder = Recorder()
                client = recorder.client()
                with self.assertRaises(exception):
                    with client.write("x") as write:
                        raise exception(write.value)
                with client.read("x") as read:
                    read.value = None
                self.assertEqual(lines(recorder), [
                    '{"process":1,"event":"call","op":"write","register":"x","value":1}',
                    '{"process":2,"event":"call","op":"read","register":"x"}',
                    '{"process":2,"event":"reply","register":"x","value":null}'])

    def test_only_the_named_exceptions_are_failures(self) -> None:
        table: List[Tuple[Failures, Type[Exception], Optional[str]]] = [
            ((), Refused, None), (Refused, Refused, "fail"), ((Refused,), Lost, None),
            ((Refused, KeyError), KeyError, "fail"), (Exception, Lost, "fail")]
        for failures, raised, ending in table:
            with self.subTest(failures=failures, raised=raised):
                recorder = Recorder(failures=failures)
                with self.assertRaises(raised):
                    with recorder.write("x") as write:
                        raise raised(write.value)
                expected = [f'{{"process":1,"event":"{ending}","register":"x"}}'] if ending else []
                self.assertEqual(lines(recorder)[1:], expected)

    def test_what_the_caller_says_decides(self) -> None:
        for say, raised, ending in [("failed", None, "fail"), ("failed", Lost, "fail"),
                                    ("unknown", None, None), ("unknown", Refused, None)]:
            for op in ("write", "read"):
                with self.subTest(say=say, raised=raised, op=op):
                    recorder = Recorder(failures=Refused)
                    with contextlib.suppress(Lost, Refused):
                        with getattr(recorder, op)("x") as call:
                            getattr(call, say)()
                            if raised:
                                raise raised
                    expected = [f'{{"process":1,"event":"{ending}","register":"x"}}'] if ending else []
                    self.assertEqual(lines(recorder)[1:], expected)
                    self.assertEqual(recorder.mistakes, [])

    def test_a_failed_write_keeps_its_value(self) -> None:
        recorder = Recorder()
        with recorder.write("x") as write:
            write.failed()
        with recorder.write("x") as write:
            self.assertEqual(write.value, 2)

    def test_what_a_read_takes(self) -> None:
        greatest, least = "9223372036854775807", "-9223372036854775808"
        table: List[Tuple[object, str]] = [
            (5, "5"), (None, "null"), ("5", "5"), (b"-5", "-5"), (bytearray(b"007"), "7"), (0, "0"),
            (2**63 - 1, greatest), (greatest, greatest), (least, least)]
        for given, member in table:
            with self.subTest(given=given):
                recorder = Recorder()
                with recorder.read("x") as read:
                    read.value = given
                reply = f'{{"process":1,"event":"reply","register":"x","value":{member}}}'
                self.assertEqual(lines(recorder)[1], reply)
                self.assertEqual(read.value, None if member == "null" else int(member))

    def test_what_a_read_refuses(self) -> None:
        table: List[object] = ["", "five", " 5", "5 ", "5\n", "+5", "1_000", "\u0665", "1.0", 1.0, True,
                               b"\xff", 2**63, -2**63 - 1, "9223372036854775808", "9" * 10000, [5], object()]
        for given in table:
            with self.subTest(given=given):
                recorder = Recorder()
                with self.assertRaisesRegex(RecordingError, "a read of 'x' was refused: the store gave"):
                    with recorder.read("x") as read:
                        read.value = given
                self.assertEqual(len(lines(recorder)), 1)
                self.assertEqual(len(recorder.mistakes), 1)

    def test_names_of_registers(self) -> None:
        for name in ["x", "user:1", 'a "quoted" \\ one', "<b>é\u202e\x00\n", "x" * 255, "é" * 127]:
            with self.subTest(name=name):
                recorder = Recorder()
                with recorder.write(name) as write:
                    self.assertEqual(write.value, 1)
                self.assertEqual([json.loads(line)["register"] for line in lines(recorder)], [name, name])
                self.assertEqual(run_checker(recorder.history()).status, 0)
        wrong: List[Any] = ["", "x" * 256, "é" * 128, "\ud800", 7, b"x", None]
        for name in wrong:
            with self.subTest(name=name):
                recorder = Recorder()
                with self.assertRaisesRegex(RecordingError, "is no register"):
                    with recorder.write(name):
                        self.fail("the block of a refused call ran")
                self.assertEqual(lines(recorder), [])
                self.assertEqual(len(recorder.mistakes), 1)


class ValuesOfTheCaller(unittest.TestCase):
    def test_the_lines_of_writes_and_of_each_end_of_a_cas(self) -> None:
        recorder = Recorder(failures=Refused)
        with recorder.client() as client:
            for _ in range(2):
                with client.write("x", 0) as write:
                    self.assertEqual(write.value, 0)
            for from_, ok in [(None, False), (0, True)]:
                with client.cas("x", from_, 1) as cas:
                    cas.ok = ok
                self.assertEqual((cas.from_, cas.to, cas.ok), (from_, 1, ok))
            with contextlib.suppress(Refused), client.cas("x", 1, -2):
                raise Refused
            with contextlib.suppress(Lost), client.cas("x", 1, -2):
                raise Lost
        with recorder.cas("x", -2, 3) as cas:
            cas.ok = True
        reply = '{"process":1,"event":"reply","register":"x"'
        call = '{"process":%d,"event":"call","op":"%s","register":"x",%s}'
        self.assertEqual(lines(recorder), [
            call % (1, "write", '"value":0'), reply + "}", call % (1, "write", '"value":0'), reply + "}",
            call % (1, "cas", '"from":null,"to":1'), reply + ',"ok":false}',
            call % (1, "cas", '"from":0,"to":1'), reply + ',"ok":true}',
            call % (1, "cas", '"from":1,"to":-2'), '{"process":1,"event":"fail","register":"x"}',
            call % (1, "cas", '"from":1,"to":-2'),
            call % (2, "cas", '"from":-2,"to":3'), '{"process":2,"event":"reply","register":"x","ok":true}'])
        self.assertEqual(recorder.mistakes, [])

    def test_the_recorder_counts_its_own_values_alone(self) -> None:
        recorder, values = Recorder(), []
        for value in (None, 7, None):
            with recorder.write("x", value) as write:
                values.append(write.value)
        self.assertEqual(values, [1, 7, 2])

    def test_values_that_are_none(self) -> None:
        wrong: List[Any] = [True, 1.0, "1", 2**63, -2**63 - 1]
        for value in wrong:
            calls: List[Callable[[Recorder], Any]] = [
                lambda recorder: recorder.write("x", value), lambda recorder: recorder.cas("x", value, 1),
                lambda recorder: recorder.cas("x", 1, value)]
            for call in calls:
                recorder = Recorder()
                words = "can't be written: a value is a whole"
                with self.subTest(value), self.assertRaisesRegex(RecordingError, words):
                    call(recorder)
                self.assertEqual((lines(recorder), len(recorder.mistakes)), ([], 1))
        nothing: Any = None
        with self.assertRaisesRegex(RecordingError, "a cas of 'x' was refused: None can't be written"):
            Recorder().cas("x", 1, nothing)


class Processes(unittest.TestCase):
    def processes(self, recorder: Recorder) -> List[int]:
        return [json.loads(line)["process"] for line in lines(recorder) if '"call"' in line]

    def test_calls_of_their_own_share_numbers(self) -> None:
        recorder = Recorder()
        with recorder.write("x") as first, recorder.write("x") as second:
            self.assertEqual((first.value, second.value), (1, 2))
        with recorder.write("x") as third:
            self.assertEqual(third.value, 3)
        self.assertEqual(self.processes(recorder), [1, 2, 1])

    def test_a_client_keeps_its_number_and_gives_it_back(self) -> None:
        recorder = Recorder()

        def read(client: Any) -> None:
            with client.read("x") as call:
                call.value = None

        with recorder.client("ann") as first, recorder.client("bob") as second:
            for client in (first, second, recorder, first, second):
                read(client)
        for client in (recorder.client("bob"), recorder.client("ann"), recorder.client("ann")):
            read(client)
        self.assertEqual(self.processes(recorder), [1, 2, 3, 1, 2, 2, 1, 4])

    def test_a_number_is_given_to_no_other_client(self) -> None:
        """A picture has one lane for a number. Calls of their own are nobody's, so they share theirs."""
        recorder = Recorder()
        for name in ("ann", "bob", "", "", "ann", "bob"):
            with recorder.client(name) as client, client.read("x") as call:
                call.value = None
        for _ in range(2):
            with recorder.read("x") as call:
                call.value = None
        self.assertEqual(self.processes(recorder), [1, 2, 3, 4, 1, 2, 5, 5])

    def test_a_pending_number_is_never_given_out_again(self) -> None:
        recorder = Recorder(failures=Refused)
        for exception in (Lost, None, Refused, Lost, Refused, None):
            with contextlib.suppress(Lost, Refused), recorder.client("ann") as client:
                with contextlib.suppress(Lost, Refused), client.write("x") as write:
                    self.assertGreater(write.value, 0)
                    if exception:
                        raise exception
        self.assertEqual(self.processes(recorder), [1, 2, 2, 2, 3, 3])

    def test_a_client_that_dies_crashes(self) -> None:
        for inside in (True, False):
            with self.subTest(inside=inside):
                recorder = Recorder()
                with self.assertRaises(Lost):
                    with recorder.client() as client:
                        with client.write("x") as write:
                            self.assertEqual(write.value, 1)
                            if inside:
                                raise Lost
                        raise Lost
                self.assertEqual(lines(recorder)[-1], '{"process":1,"event":"crash"}')
                self.assertEqual(len(lines(recorder)), 2 if inside else 3)
                with recorder.read("x") as read:
                    read.value = 1
                self.assertEqual(self.processes(recorder), [1, 2])

    def test_a_client_that_called_nothing_crashes_in_silence(self) -> None:
        recorder = Recorder()
        with self.assertRaises(Lost):
            with recorder.client():
                raise Lost
        self.assertEqual(lines(recorder), [])

    def test_a_crash_within_a_call(self) -> None:
        recorder = Recorder()
        client = recorder.client()
        with client.write("x") as write:
            self.assertEqual(write.value, 1)
            client.crash()
            client.crash()
        self.assertEqual(lines(recorder)[1:], ['{"process":1,"event":"crash"}'])
        with self.assertRaisesRegex(RecordingError, "closed or crashed"):
            with client.read("x"):
                pass


class Ticks:
    """A clock that goes on by 5 at each look."""

    def __init__(self) -> None:
        self.now = 0

    def __call__(self) -> int:
        self.now += 5
        return self.now


class WhoAndWhen(unittest.TestCase):
    def test_each_line_says_it_behind_its_other_members(self) -> None:
        recorder = Recorder(failures=Refused, clock=Ticks())
        with contextlib.suppress(Lost), recorder.client("worker-3", node="replica-1") as client:
            with client.write("x") as write:
                self.assertEqual(write.value, 1)
            with client.read("x") as read:
                read.value = 1
            with contextlib.suppress(Refused), client.read("x"):
                raise Refused
            raise Lost
        who = ',"client":"worker-3","node":"replica-1","time":'
        self.assertEqual(lines(recorder), [
            '{"process":1,"event":"call","op":"write","register":"x","value":1' + who + "5}",
            '{"process":1,"event":"reply","register":"x"' + who + "10}",
            '{"process":1,"event":"call","op":"read","register":"x"' + who + "15}",
            '{"process":1,"event":"reply","register":"x","value":1' + who + "20}",
            '{"process":1,"event":"call","op":"read","register":"x"' + who + "25}",
            '{"process":1,"event":"fail","register":"x"' + who + "30}",
            '{"process":1,"event":"crash"' + who + "35}"])
        self.assertEqual(run_checker(recorder.history()).status, 0)

    def test_what_is_not_known_is_left_out(self) -> None:
        for words, members in [((), ""), (("a",), ',"client":"a"'), (("", "b"), ',"node":"b"')]:
            with self.subTest(words):
                recorder = Recorder()
                with recorder.client(*words) as client, client.read("x") as read:
                    read.value = None
                self.assertEqual(lines(recorder), [
                    '{"process":1,"event":"call","op":"read","register":"x"' + members + "}",
                    '{"process":1,"event":"reply","register":"x","value":null' + members + "}"])

    def test_the_node_may_change_within_a_call(self) -> None:
        recorder = Recorder()
        with recorder.client(node="any") as client:
            with client.read("x") as read:
                read.value, client.node = None, "replica-2"
            with client.read("x") as read:
                read.value, client.node = None, ""
        nodes = [json.loads(line).get("node") for line in lines(recorder)]
        self.assertEqual(nodes, ["any", "replica-2", "replica-2", None])

    def test_names_are_texts_of_any_letters(self) -> None:
        for name in ["\u00e9\u202e\x00\n\"\\", "x" * 255]:
            recorder = Recorder()
            with recorder.client(name, name) as client, client.read("x") as read:
                read.value = None
            event = json.loads(lines(recorder)[0])
            self.assertEqual((event["client"], event["node"]), (name, name))
        wrong: List[Any] = ["x" * 256, "\ud800", 7, b"x", None]
        for name in wrong:
            for words, what in (((name,), "client"), (("", name), "node")):
                with self.subTest(words):
                    recorder = Recorder()
                    with self.assertRaisesRegex(RecordingError, f"is no {what}: name it by a text"):
                        recorder.client(*words)
                    self.assertEqual(len(recorder.mistakes), 1)

    def test_a_clock_of_another_kind_is_refused_and_the_call_not_recorded(self) -> None:
        wrong: List[Any] = [1.5, -1, True, None, 2**63, "5"]
        for given in wrong:
            with self.subTest(given):
                clock: Any = lambda: given
                recorder = Recorder(clock=clock)
                with self.assertRaisesRegex(RecordingError, "give Recorder a clock of whole nanoseconds"):
                    with recorder.write("x"):
                        self.fail("the block of a refused call ran")
                self.assertEqual((lines(recorder), len(recorder.mistakes)), ([], 1))

    def test_the_times_of_all_threads_follow_the_lines(self) -> None:
        self.addCleanup(sys.setswitchinterval, sys.getswitchinterval())
        sys.setswitchinterval(1e-6)
        recorder, store = Recorder(clock=time.monotonic_ns), Store(1, 0.0)
        clients = [threading.Thread(target=use, args=(recorder, store, seed, 50)) for seed in range(4)]
        for client in clients:
            client.start()
        for client in clients:
            client.join()
        times = [json.loads(line)["time"] for line in lines(recorder)]
        self.assertEqual(len(times), 400)
        self.assertEqual(times, sorted(times))


class OneOfSeveral(unittest.TestCase):
    def test_a_prefix_is_on_each_register(self) -> None:
        recorder = Recorder(prefix="run-7/")
        with recorder.write("x") as write, recorder.read("y") as read:
            self.assertEqual((write.value, write.register, read.register), (1, "run-7/x", "run-7/y"))
            read.value = None
        registers = [json.loads(line)["register"] for line in lines(recorder)]
        self.assertEqual(registers, ["run-7/x", "run-7/y", "run-7/y", "run-7/x"])
        self.assertEqual(recorder.read("x").register, "run-7/x")

    def test_a_name_is_refused_for_its_whole_length(self) -> None:
        recorder = Recorder(prefix="x" * 255)
        with self.assertRaisesRegex(RecordingError, "is no register"):
            with recorder.write("y"):
                self.fail("the block of a refused call ran")
        wrong: List[Any] = [7, "x" * 256, b"run"]
        for prefix in wrong:
            with self.assertRaisesRegex(RecordingError, "is no prefix"):
                Recorder(prefix=prefix)

    def test_values_begin_where_they_should(self) -> None:
        recorder = Recorder(values_after=1_000_000)
        for expected in (1_000_001, 1_000_002):
            with recorder.write("x") as write:
                self.assertEqual(write.value, expected)
        wrong: List[Any] = [-1, 2**63, 1.0, True, "5"]
        for values_after in wrong:
            with self.subTest(values_after), self.assertRaisesRegex(RecordingError, "values_after is"):
                Recorder(values_after=values_after)


class Misuse(unittest.TestCase):
    """Each wrong use raises, is kept, and leaves the call pending."""

    def check(self, recorder: Recorder, count: int) -> None:
        self.assertEqual(len(lines(recorder)), count)
        self.assertEqual(len(recorder.mistakes), 1)

    def test_a_read_without_a_value(self) -> None:
        recorder = Recorder()
        with self.assertRaisesRegex(RecordingError, "a read of 'x' was given no value"):
            with recorder.read("x"):
                pass
        self.check(recorder, 1)

    def test_a_cas_without_an_end(self) -> None:
        recorder = Recorder()
        with self.assertRaisesRegex(RecordingError, "a cas of 'x' wasn't told how it ended: set `cas.ok`"):
            with recorder.cas("x", None, 1):
                pass
        self.check(recorder, 1)

    def test_a_cas_that_ended_otherwise(self) -> None:
        wrong: List[Any] = [1, None, "OK"]
        for ok in wrong:
            recorder = Recorder()
            words = "`cas.ok` is True if it took place"
            with self.subTest(ok), self.assertRaisesRegex(RecordingError, words):
                with recorder.cas("x", None, 1) as cas:
                    cas.ok = ok
            self.check(recorder, 1)
        recorder = Recorder()
        cas = recorder.cas("x", None, 1)
        with self.assertRaisesRegex(RecordingError,
                                    r"is used outside its block: `with client.cas\('x', from_, to\) as cas"):
            cas.ok = True
        self.check(recorder, 0)

    def test_a_write_of_another_value(self) -> None:
        recorder, store = Recorder(), {}
        with self.assertRaisesRegex(RecordingError, "a write of 'x' never asked for its value"):
            with recorder.write("x"):
                store["x"] = 5
        self.check(recorder, 1)

    def test_two_calls_of_one_client(self) -> None:
        recorder = Recorder()
        client = recorder.client()
        with client.write("x") as write:
            self.assertEqual(write.value, 1)
            with self.assertRaisesRegex(RecordingError, "has a call open .* take a client for each thread"):
                with client.read("x"):
                    self.fail("the block of a refused call ran")
        self.check(recorder, 2)

    def test_a_call_entered_twice(self) -> None:
        recorder = Recorder()
        call = recorder.write("x")
        with call as write:
            self.assertEqual(write.value, 1)
        with self.assertRaisesRegex(RecordingError, "make each call anew"):
            with call:
                self.fail("the block of a refused call ran")
        self.check(recorder, 2)

    def test_use_outside_the_block(self) -> None:
        recorder = Recorder()
        uses: List[Callable[[], Any]] = [
            lambda: recorder.write("x").value, lambda: recorder.read("x").value, recorder.read("x").failed,
            recorder.write("x").unknown, lambda: setattr(recorder.read("x"), "value", 5)]
        for use in uses:
            with self.assertRaises(RecordingError):
                use()
        self.assertEqual(lines(recorder), [])
        self.assertEqual(len(recorder.mistakes), len(uses))

    def test_after_the_end(self) -> None:
        recorder = Recorder()
        with recorder.write("x") as write:
            self.assertEqual(write.value, 1)
            recorder.close()
        with self.assertRaisesRegex(RecordingError, "the recorder is closed"):
            with recorder.read("x"):
                self.fail("the block of a refused call ran")
        self.assertEqual(len(lines(recorder)), 1)


class Slow(io.RawIOBase):
    """A file that takes a few bytes at a time, and none after the limit."""

    def __init__(self, limit: int) -> None:
        self.taken, self.limit = b"", limit

    def writable(self) -> bool:
        return True

    def write(self, data: Any) -> int:
        if len(self.taken) >= self.limit:
            raise OSError(28, "No space left on device")
        self.taken += bytes(data[:3])
        return min(3, len(data))


class Narrow(io.RawIOBase):
    """A file that takes its time, and notes how many threads write at once."""

    def __init__(self) -> None:
        self.inside = self.most = 0

    def write(self, data: Any) -> int:
        self.inside += 1
        self.most = max(self.most, self.inside)
        time.sleep(0.0005)
        self.inside -= 1
        return len(data)


class Files(unittest.TestCase):
    def test_the_file_is_whole_after_each_event(self) -> None:
        with tempfile.TemporaryDirectory() as directory:
            path = pathlib.Path(directory) / "history.jsonl"
            path.write_text("what was here before\n")
            with Recorder(path) as recorder:
                self.assertEqual(recorder.path, path)
                for count in range(1, 20, 2):
                    with recorder.write("x") as write:
                        self.assertEqual(path.read_bytes().count(b"\n"), count)
                        self.assertGreater(write.value, 0)
                    self.assertEqual(path.read_bytes().count(b"\n"), count + 1)
                    self.assertEqual(path.read_bytes(), recorder.history())
            self.assertEqual(run_checker(recorder.history()).status, 0)

    def test_a_killed_program_leaves_whole_lines(self) -> None:
        program = ("import sys\nfrom regkit.record import Recorder\nrecorder = Recorder(sys.argv[1])\n"
                   "for n in range(10**7):\n    with recorder.write('x') as write: write.value\n"
                   "    if n == 1000: print('ready', flush=True)\n")
        with tempfile.TemporaryDirectory() as directory:
            path = pathlib.Path(directory) / "history.jsonl"
            with subprocess.Popen([sys.executable, "-c", program, str(path)], cwd=PYTHON,
                                  stdout=subprocess.PIPE) as child:
                assert child.stdout is not None
                child.stdout.readline()
                child.kill()
                self.assertEqual(child.wait(), -signal.SIGKILL)
            history = path.read_bytes()
            self.assertTrue(history.endswith(b"}\n"))
            self.assertGreater(told(history.decode("ascii").splitlines())["call"], 1000)

    def test_a_file_that_takes_little_gets_all(self) -> None:
        file = Slow(10**6)
        recorder = Recorder(file)
        with recorder.write("x") as write:
            self.assertEqual(write.value, 1)
        counts = told(file.taken.decode("ascii").splitlines())
        self.assertEqual(counts, {"call": 1, "reply": 1, "fail": 0, "crash": 0})

    def test_a_full_disk_ends_the_history(self) -> None:
        file = Slow(90)  # within the first reply
        recorder = Recorder(file)
        with self.assertRaises(OSError):
            with recorder.write("x") as write:
                self.assertEqual(write.value, 1)
        with self.assertRaises(RecordingError):
            with recorder.write("x"):
                self.fail("the block of a call that couldn't be recorded ran")
        self.assertEqual(file.taken.count(b"\n"), 1)
        self.assertIn("could not be written", str(recorder.mistakes[0]))

    def test_a_relative_path_stays_where_it_was(self) -> None:
        here = os.getcwd()
        with tempfile.TemporaryDirectory() as directory:
            os.chdir(directory)
            try:
                with Recorder("history.jsonl") as recorder:
                    os.chdir(here)
                    with recorder.write("x") as write:
                        self.assertEqual(write.value, 1)
                self.assertEqual(len(lines(recorder)), 2)
                self.assertEqual(str(recorder.path), "history.jsonl")
            finally:
                os.chdir(here)

    def test_a_stream(self) -> None:
        file = Slow(10**6)
        recorder = Recorder(io.TextIOWrapper(io.BufferedWriter(file)))
        with recorder.write("x") as write:
            self.assertEqual(file.taken.count(b"\n"), write.value)
        self.assertEqual(file.taken.count(b"\n"), 2)
        with self.assertRaisesRegex(RecordingError, "went to a stream"):
            Recorder(Slow(0)).history()


class Store:
    """A register store behind one lock. Half of its lost and refused answers are lies of the kind allowed."""

    def __init__(self, seed: int, trouble: float) -> None:
        self.values: Dict[str, int] = {}
        self.lock, self.random, self.trouble = threading.Lock(), random.Random(seed), trouble

    def write(self, register: str, value: int) -> None:
        with self.lock:
            luck = self.random.random() / self.trouble if self.trouble else 1.0
            if luck < 0.3:
                raise Refused
            if luck < 0.6:
                raise Lost
            self.values[register] = value
            if luck < 0.9:
                raise Lost

    def read(self, register: str) -> Optional[int]:
        with self.lock:
            if self.trouble and self.random.random() < self.trouble / 2:
                raise Lost
            return self.values.get(register)


def use(recorder: Recorder, store: Store, seed: int, calls: int) -> None:
    """One client after the other, each until it dies."""
    choose = random.Random(seed)
    while calls:
        with contextlib.suppress(ZeroDivisionError), recorder.client() as client:
            while calls:
                calls -= 1
                with contextlib.suppress(Lost, Refused):
                    register = choose.choice("xy")
                    if choose.random() < 0.5:
                        with client.write(register) as write:
                            store.write(register, write.value)
                    else:
                        with client.read(register) as read:
                            read.value = store.read(register)
                if store.trouble and choose.random() < 0.02:
                    raise ZeroDivisionError


def threads_record(trouble: float, threads: int = 8, calls: int = 200) -> Recorder:
    recorder, store = Recorder(failures=Refused), Store(1, trouble)
    clients = [threading.Thread(target=use, args=(recorder, store, seed, calls)) for seed in range(threads)]
    for client in clients:
        client.start()
    for client in clients:
        client.join()
    return recorder


def wrongly_failed() -> Recorder:
    """Each lost write is called failed, though some took effect."""
    recorder = Recorder(failures=Lost)
    use(recorder, Store(1, 0.4), 1, 400)
    return recorder


class Threads(unittest.TestCase):
    def setUp(self) -> None:
        self.addCleanup(sys.setswitchinterval, sys.getswitchinterval())
        sys.setswitchinterval(1e-6)  # threads take turns as often as they can

    def test_one_thread_writes_at_a_time(self) -> None:
        file = Narrow()
        recorder, store = Recorder(file), Store(1, 0.0)
        clients = [threading.Thread(target=use, args=(recorder, store, seed, 5)) for seed in range(4)]
        for client in clients:
            client.start()
        for client in clients:
            client.join()
        self.assertEqual(file.most, 1)

    def test_a_right_store_is_atomic(self) -> None:
        recorder = threads_record(0.0)
        self.assertEqual(told(lines(recorder)), {"call": 1600, "reply": 1600, "fail": 0, "crash": 0})
        self.assertEqual(run_checker(recorder.history()).status, 0)

    def test_a_troubled_store_is_recorded_well(self) -> None:
        counts = told(lines(threads_record(0.4)))
        self.assertEqual(counts["call"], 1600)
        for what in ("reply", "fail", "crash"):
            self.assertGreater(counts[what], 0, what)
        self.assertLess(counts["reply"] + counts["fail"], counts["call"])

    def test_a_troubled_store_is_atomic(self) -> None:
        answer = run_checker(threads_record(0.4).history())
        self.assertEqual((answer.status, answer.refusal), (0, ""))

    def test_a_failure_that_was_none_is_found(self) -> None:
        answer = run_checker(wrongly_failed().history())
        self.assertEqual((answer.status, answer.refusal), (1, ""))


class Forked(unittest.TestCase):
    """A child shares the file of its parent, and no number and no lock."""

    @unittest.skipUnless(hasattr(os, "fork"), "there is no fork")
    def in_child(self, work: Callable[[], object]) -> str:
        """What some work of a child says, or raises."""
        reading, writing = os.pipe()
        child = os.fork()
        if child == 0:
            try:
                work()
                said = "fine"
            except BaseException as error:
                said = f"{type(error).__name__}: {error}"
            os.write(writing, said.encode())
            os._exit(0)
        os.close(writing)
        with open(reading, "rb") as pipe:
            said = pipe.read().decode()
        os.waitpid(child, 0)
        return said

    def test_a_call_in_a_child_says_so_and_writes_nothing(self) -> None:
        with tempfile.TemporaryDirectory() as folder:
            recorder = Recorder(pathlib.Path(folder) / "h.jsonl")
            self.addCleanup(recorder.close)
            client = recorder.client()

            def call() -> None:
                with client.read("x"):
                    pass

            self.assertIn("RecordingError: a recorder stays in the process that made it", self.in_child(call))
            with client.read("x") as read:
                read.value = None
            self.assertEqual(len(lines(recorder)), 2)
            self.assertEqual(recorder.mistakes, [])

    def test_a_block_that_a_child_leaves_is_still_open_in_its_parent(self) -> None:
        for raised in (None, Lost, Refused):
            with self.subTest(raised=raised):
                recorder = Recorder(failures=Refused)

                def leave() -> None:
                    with recorder, client:
                        read.value = None
                        read.__exit__(raised, None, None)
                        if raised:
                            raise raised

                with recorder.client("ann") as client, client.read("x") as read:
                    said = self.in_child(leave)
                    self.assertEqual(len(lines(recorder)), 1)
                    read.value = None
                self.assertEqual(lines(recorder)[1:], [
                    '{"process":1,"event":"reply","register":"x","value":null,"client":"ann"}'])
                self.assertIn("stays in the process" if raised is None else raised.__name__, said)

    def test_a_lock_that_a_thread_held_stops_no_child(self) -> None:
        recorder = Recorder()
        with recorder._journal._lock:
            works: List[Callable[[], object]] = [
                recorder.close, recorder.history, recorder.read("x").__enter__]
            for work in works:
                self.assertNotEqual(self.in_child(work), "")

    def test_it_is_not_sent_to_another_process(self) -> None:
        with self.assertRaisesRegex(RecordingError, "make a Recorder in each process"):
            pickle.dumps(Recorder())


EXPIRY = {"event": "call", "op": "cas", "to": None}
WRONG_USES: List[Tuple[str, Callable[[Recorder], object]]] = [
    ("a swap of 'x' wasn't told what it found", lambda recorder: recorder.swap("x", 1).__enter__()),
    ("None can't be written", lambda recorder: recorder.create("x", None)),  # type: ignore[arg-type]
    ("None can't be written", lambda recorder: recorder.unlock("x", None)),  # type: ignore[arg-type]
    ("None can't expire", lambda recorder: recorder.expires("x", None)),  # type: ignore[arg-type]
    ("`delete.found` is True if there was", lambda recorder: setattr(recorder.delete("x"), "found", 1))]


class Changes(unittest.TestCase):
    """Changes by the names that stores give them."""

    def test_their_lines(self) -> None:
        recorder = Recorder()
        with recorder.client("a") as client:
            for call, ok in ((client.create("x", 5), True), (client.replace("x", 6), False),
                             (client.lock("x", 7), False), (client.unlock("x", 7), True)):
                with call:
                    call.ok = ok
            with client.delete("x"):
                pass
            with client.delete("x") as delete:
                delete.found = False
            with client.delete("x") as delete:
                setattr(delete, "old", b"5")
            with client.swap("x") as swap:
                self.assertEqual(swap.value, 1)
                swap.old = None
            with client.swap("x", 5) as swap:
                swap.found = True
            client.expires("x", 5)
            with self.assertRaises(Lost), client.delete("x"):
                raise Lost
        recorder.expires("y", 1)
        own = [line for line in lines(recorder) if '"process":1,' in line]
        self.assertEqual([line.partition('"x"')[2].replace(',"client":"a"', "").strip() for line in own], [
            ',"from":null,"to":5}', ',"ok":true}', ',"unless":null,"to":6}', ',"ok":false}',
            ',"from":null,"to":7}', ',"ok":false}', ',"from":7,"to":null}', ',"ok":true}',
            "}", "}", "}", ',"found":false}', "}", ',"old":5}', ',"value":1}', ',"old":null}',
            ',"value":5}', ',"found":true}', "}"])
        self.assertEqual([json.loads(line) for line in lines(recorder) if '"process":1,' not in line], [
            {**EXPIRY, "process": 2, "register": "x", "from": 5, "client": "a"},
            {**EXPIRY, "process": 3, "register": "y", "from": 1}])
        self.assertEqual((recorder.mistakes, recorder.counts), ([], (0, 6, 6, 9, 0)))

    def test_wrong_uses(self) -> None:
        for words, use in WRONG_USES:
            recorder = Recorder()
            with self.subTest(words), self.assertRaisesRegex(RecordingError, words):
                call = use(recorder)
                if isinstance(call, Swap):
                    call.__exit__(None, None, None)
            self.assertEqual(len(recorder.mistakes), 1)

    def test_what_contradicts_itself(self) -> None:
        recorder = Recorder()
        with self.assertRaisesRegex(RecordingError, "that there was a value, and that there was none"):
            with recorder.delete("x") as delete:
                delete.found = True
                delete.old = None


class Counting(unittest.TestCase):
    def test_calls_by_kind_and_how_they_ended(self) -> None:
        recorder = Recorder()
        self.assertEqual(str(recorder.counts), "0 calls: 0 reads, 0 writes; 0 answered, 0 failed, "
                                               "0 open or unknown")
        with recorder.write("x") as write:
            self.assertEqual(recorder.counts.unanswered, write.value)
        with recorder.read("x") as read:
            read.failed()
        with contextlib.suppress(Lost), recorder.cas("x", 1, 2):
            raise Lost
        with recorder.client() as client:
            client.crash()
        counts = recorder.counts
        self.assertEqual(counts, (1, 1, 1, 1, 1))
        self.assertEqual((counts.calls, counts.unanswered), (3, 1))
        self.assertEqual(str(counts), "3 calls: 1 read, 1 write, 1 cas; 1 answered, 1 failed, 1 open or "
                                      "unknown")

    def test_a_call_that_is_refused_is_not_counted(self) -> None:
        recorder = Recorder()
        with self.assertRaises(RecordingError):
            with recorder.read(""):
                pass
        self.assertEqual(recorder.counts.calls, 0)

    def test_a_line_on_a_terminal(self) -> None:
        screen = io.StringIO()
        with mock.patch.object(screen, "isatty", lambda: True), mock.patch("sys.stderr", screen), \
                mock.patch.multiple("regkit.words.progress", PATIENCE=0.0, PAUSE=0.01):
            with Recorder(progress=True) as recorder, recorder.write("x") as write:
                self.assertEqual(write.value, 1)
                for _ in range(500):
                    if "recording 1 call" in screen.getvalue():
                        break
                    time.sleep(0.01)
        self.assertRegex(screen.getvalue(), r"recording 1 call: 0 reads, 1 write; 0 answered, 0 failed, "
                                            r"1 open or unknown, \d+ s")
        self.assertTrue(screen.getvalue().endswith("\r\x1b[K"))

    def test_no_line_elsewhere(self) -> None:
        screen = io.StringIO()
        with mock.patch("sys.stderr", screen), Recorder(progress=True):
            pass
        self.assertEqual(screen.getvalue(), "")


if __name__ == "__main__":
    unittest.main()
