"""Tests of regkit split: which part a line goes to, line numbers, refusals and limits."""
import io
import json
import os
import pathlib
import random
import shutil
import tempfile
import unittest
from typing import Any, Dict, List, Mapping, Optional, Tuple
from unittest import mock

from regkit import cli
from regkit.checker.programs import CHECK, SEARCH, NoChecker, find_checker, find_program
from regkit.commands import split as command
from regkit.parts import blocks, reading, routing, sizes, writing
from regkit.parts.answers import line_map
from regkit.parts.blocks import BLOCK, blocks_of
from regkit.parts.folder import BLANK, MAP, LineMap, file_of, read_manifest
from regkit.parts.routing import CertainRefusal, Router
from regkit.parts.splitting import split
from regkit.parts.writing import Plan
from tests import split_support
from tests.split_support import random_history, random_search_history, run_command


def has_checker() -> bool:
    try:
        find_checker()
    except NoChecker:
        return False
    return True


def call(process: int, register: str, value: Optional[int] = None) -> str:
    """A write of the value, or a read."""
    members: Dict[str, object] = {"process": process, "event": "call", "op": "read", "register": register}
    if value is not None:
        members.update(op="write", value=value)
    return json.dumps(members)


def cas(process: int, register: str, asked: Optional[int] = None, to: int = 1) -> str:
    return json.dumps({"process": process, "event": "call", "op": "cas", "register": register,
                       "from": asked, "to": to})


def end(process: int, event: str = "reply", **members: object) -> str:
    return json.dumps({"process": process, "event": event, **members})


def history_of(*lines: str) -> bytes:
    return "".join(line + "\n" for line in lines).encode("utf-8")


class Folder(unittest.TestCase):
    """Tests that split into a folder of their own."""

    def setUp(self) -> None:
        folder = tempfile.TemporaryDirectory()
        self.addCleanup(folder.cleanup)
        self.directory = os.path.join(folder.name, "parts")
        self.path = os.path.join(folder.name, "history.jsonl")

    def write(self, history: bytes) -> str:
        pathlib.Path(self.path).write_bytes(history)
        return self.path

    def split(self, history: bytes, parts: int, lines: str = BLANK) -> None:
        split(io.BytesIO(history), Plan("history", self.directory, parts, lines), lambda read: None)

    def part(self, part: int) -> bytes:
        return file_of(self.directory, part, "jsonl").read_bytes()

    def numbered(self, parts: int) -> List[Tuple[int, bytes]]:
        """Each line of each part that isn't blank, with its line number in the whole."""
        found = []
        for part in range(parts):
            line_of = line_map(self.directory, part, read_manifest(self.directory))
            for number, line in enumerate(self.part(part).split(b"\n"), 1):
                if line.strip(b" \t\r"):
                    found.append((line_of(number), line))
        return found


class Routes(unittest.TestCase):
    """Which part a line goes to. The first three registers go to one part each: x to 0, y to 1, z to 2."""

    def routed(self, *lines: str) -> Tuple[List[Optional[int]], List[int]]:
        """The parts of the lines, and the parts that a last line goes to that is sure to be refused."""
        router = Router(3)
        parts: List[Optional[int]] = []
        for line in lines:
            try:
                router.route(line.encode("utf-8") + b"\n")
            except CertainRefusal as refusal:
                return parts, [part.number for part in refusal.parts]
            parts.append(next((part.number for part in router.parts if part.lines), None))
        return parts, []

    def test_accepted(self) -> None:
        start = [call(1, "x"), call(2, "y"), call(3, "z")]
        table: List[Tuple[str, List[str], List[Optional[int]]]] = [
            ("a reply goes to the part of its call", [end(3), end(1), end(2)], [2, 0, 1]),
            ("a fail too", [end(3, "fail"), call(3, "x"), end(3)], [2, 0, 0]),
            ("a reply that names another register", [end(3, register="x", op="read")], [2]),
            ("a crash goes where the open call is", [end(2, "crash"), end(3, "crash")], [1, 2]),
            ("a crash without an open call", [end(1), end(1), end(9, "crash")], []),
            ("blank lines go nowhere", ["", " \t\r"], [None, None]),
            ("an escaped name", [end(1), call(1, "z").replace("z", "\\u007a"), end(1)], [0, 2, 2]),
            ("other orders of members", ['{"value":null,"event":"reply","process":2,"op":"read"}'], [1]),
            ("the last of equal members counts", ['{"process":1,"process":3,"event":"reply"}'], [2]),
            ("spaces and other members", [' { "process" : 2 , "event":"reply", "x":{"process":3}} '], [1]),
            ("a cas and its reply", [end(2), cas(2, "z"), end(2, ok=True)], [1, 2, 2]),
            ("a cas in compact form", [end(2), cas(2, "z").replace(" ", ""), end(2, ok=False)], [1, 2, 2]),
            ("other orders of its members",
             [end(2), '{"to":1,"op":"cas","from":null,"register":"z","process":2,"event":"call"}',
              '{"ok":true,"event":"reply","process":2}', cas(2, "x"), end(2, "fail")], [1, 2, 2, 0, 0]),
        ]
        for name, lines, expected in table:
            with self.subTest(name):
                found, refused = self.routed(*start, *lines)
                if expected:
                    self.assertEqual(([0, 1, 2, *expected], []), (found, refused))
                else:
                    self.assertEqual(([0, 1, 2, 0], [0]), (found, refused))

    def test_sure_to_be_refused(self) -> None:
        start = [call(1, "x"), call(2, "y"), call(3, "z")]
        crashed = [end(1), end(1, "crash")]  # process 1 without an open call: part 1, the emptiest
        for name, lines, expected in [
            ("a call goes to the open call of its process", [call(3, "x")], [2]),
            ("after a crash, to the part of the crash", [end(3, "crash"), end(3)], [2]),
            ("a second crash too", [end(3, "crash"), end(3, "crash")], [2]),
            ("a call also to its register, for repeated values", [end(3, "crash"), call(3, "x", 1)], [0, 2]),
            ("a call of a new register has no such part", [end(3, "crash"), call(3, "new", 1)], [2]),
            ("after a crash without an open call", [*crashed, call(1, "z", 1)], [1, 2]),
            ("a reply without a call goes to any part", [end(4)], [0]),
            ("a fail without a call", [end(4, "fail")], [0]),
            ("a second reply", [end(2), end(2)], [0]),
        ]:
            with self.subTest(name):
                self.assertEqual(expected, self.routed(*start, *lines)[1])

    def test_faulty_for_themselves(self) -> None:
        for line in ["not json", "[]", "7", "null", '{"process":1}', '{"event":"reply"}',
                     '{"process":1.0,"event":"reply"}', '{"process":true,"event":"reply"}',
                     '{"process":4294967296,"event":"reply"}', '{"process":1,"event":"reply","x":NaN}',
                     '{"process":1,"event":"stop"}', '{"process":1,"event":["call"]}',
                     '{"process":1,"event":"call","op":"read"}', call(1, ""), call(1, "y" * 256),
                     call(1, "\u00e9" * 128), call(1, "x").replace("x", "\\ud800"), "\ufeff" + call(1, "x"),
                     call(1, "x").replace("}", " " * 65536 + "}")]:
            with self.subTest(line[:60]):
                self.assertEqual(([], [0]), self.routed(line))

    def test_registers_go_to_the_part_with_the_fewest_events(self) -> None:
        router = Router(2)
        pairs = [call(1, "x"), end(1), call(1, "x"), end(1), call(1, "y"), end(1)]
        router.route(history_of(*pairs, call(1, "z")))
        self.assertEqual([[0, 1, 2, 3], [4, 5, 6]], [part.lines for part in router.parts])
        router.route(history_of(call(2, "v")))
        self.assertEqual([[], [0]], [part.lines for part in router.parts])
        self.assertEqual([4, 4], [part.count for part in router.parts])


def usual_lines(chance: random.Random) -> bytes:
    """A line of the usual form, in one of its spellings."""
    members: Dict[str, object] = {"process": chance.choice([0, 7, 12, 999_999_999])}
    value = chance.choice([0, 5, -3, None, 10**17])
    if chance.random() < 0.6:
        op = chance.choice(["read", "write", "cas"])
        members.update(event="call", op=op, register=chance.choice(["x", "key 7", "\u00e9"]))
        members.update({"from": value, "to": 2} if op == "cas" else {"value": value} if op == "write" else {})
    else:
        members["event"] = chance.choice(["reply", "fail"])
        members.update(chance.choice([{}, {"op": "read"}, {"register": "x"}, {"op": "cas", "register": "x"}]))
        members.update(chance.choice([{}, {"value": value}, {"ok": True}]))
    members.update((name, what) for name, what in split_support.WHO if chance.random() < 0.3)
    separators = chance.choice([(",", ":"), (", ", ": ")])
    return json.dumps(members, ensure_ascii=False, separators=separators).encode("utf-8")


def spoiled(line: bytes, chance: random.Random) -> bytes:
    """The line with up to three bytes changed, added or removed."""
    for _ in range(chance.randrange(4)):
        at = chance.randrange(len(line) + 1)
        new = chance.choice([b"", b"0", b"1", b"-", b".", b" ", b",", b":", b'"', b"\\", b"{", b"}", b"e",
                             b"\r", b"\t", b"\x00", b"\x7f", b"\xc3", b"\xa9", b"\xff", b"null", b'"x":1,',
                             b"}\n{"])
        line = line[:at] + new + line[at + chance.randrange(2):]
    return line


class BothWays(unittest.TestCase):
    """What the pattern for lines of the usual form finds is what reading them as JSON finds."""

    def test_spoiled_lines(self) -> None:
        chance = random.Random(5)
        usual = 0
        for _ in range(30_000):
            for line in spoiled(usual_lines(chance), chance).split(b"\n"):
                for with_cas in (False, True):
                    rows = reading.form_of(line + b"\n", with_cas).findall(line + b"\n")
                    self.assertEqual(1, len(rows), line)
                    process, register, value, rest = rows[0]
                    if rest:
                        self.assertEqual(line + b"\n", rest)
                        continue
                    event = reading.read_event(line + b"\n")
                    assert event is not None, line
                    self.assertEqual((process, register), event[:1] + event[2:3], line)
                    self.assertEqual(event.event == "call", register != b"", line)
                    self.assertIn(event.event, ("call", "reply", "fail"), line)
                    if not with_cas:
                        self.assertEqual((value, False), event[3:], line)
                    usual += 1
        self.assertGreater(usual, 10_000)

    def routed(self, history: bytes) -> List[object]:
        """Where the lines of a history go, and what is known at the end."""
        router = Router(3)
        told: List[object] = []
        for block in blocks_of(io.BytesIO(history)):
            try:
                router.route(block)
            except CertainRefusal as refusal:
                told.append([part.number for part in refusal.parts])
            told.append([part.lines[:] for part in router.parts])
        writes = [] if router.is_searched else [sorted(part.writes) for part in router.parts]
        tables: List[Mapping[bytes, Optional[routing.Part]]] = [router.registers, router.open, router.crashed]
        owners = [[(name, part and part.number) for name, part in table.items()] for table in tables]
        return [told, router.lines, router.is_searched, writes, owners]

    def test_random_histories(self) -> None:
        for seed in range(30_000, 31_000):
            history = (random_history, random_search_history)[seed % 2](seed)
            both = self.routed(history)
            with self.subTest(seed), mock.patch.object(routing, "form_of", lambda *_: reading.NO_FORM):
                self.assertEqual(self.routed(history), both)


class Program(Folder):
    """The manifest names the program that takes all parts."""

    def test_program(self) -> None:
        swap, other = [cas(1, "x"), end(1, ok=True)], [call(2, "y", 5), end(2)]
        for name, lines, expected in [
            ("distinct values", [call(1, "x", 5), end(1), call(1, "x", 6), end(1), *other], CHECK),
            ("a cas", [*other, *swap], SEARCH),
            ("a delete", [*other, call(1, "x").replace("read", "delete"), end(1)], SEARCH),
            ("a read that only tells of a value", [*other, call(1, "x"), end(1, found=True)], SEARCH),
            ("a cas in compact form", [*other, swap[0].replace(" ", ""), swap[1]], SEARCH),
            ("other orders of its members",
             ['{"op":"cas","register":"x","process":1,"from":null,"to":1,"event":"call"}', *other], SEARCH),
            ("a value again", [*other, *other], SEARCH),
            ("a value again, of a write that failed", [other[0], end(2, "fail"), *other], SEARCH),
            ("a value again, spelled in another way",
             [*other, '{"value":5,"event":"call","op":"write","register":"\\u0079","process":3}'], SEARCH),
            ("a value again, without spaces", [*other, other[0].replace(" ", ""), other[1]], SEARCH),
            ("a value again, below 0", [call(1, "x", -5), end(1), call(1, "x", -5)], SEARCH),
            ("a value that is read again", [*other, call(1, "y"), end(1, value=5), call(1, "y")], CHECK),
            ("a value again in the line that is refused",
             [*other, call(1, "z"), end(1, "crash"), call(1, "y", 5)], SEARCH),
            ("a cas in the line that is refused", [call(1, "z"), cas(1, "y")], SEARCH),
        ]:
            with self.subTest(name), tempfile.TemporaryDirectory() as self.directory:
                self.split(history_of(*lines), 2)
                self.assertEqual(expected, read_manifest(self.directory).program)
                self.assertEqual([], list(pathlib.Path(self.directory).glob("*.writes")))

    def test_many_writes(self) -> None:
        """More than are kept in memory: the first value again, at the end."""
        lines = [line for value in range(20_000) for line in (call(1, "x", value), end(1))]
        for again, expected in [(0, SEARCH), (20_000, CHECK)]:
            with self.subTest(expected), tempfile.TemporaryDirectory() as self.directory:
                self.split(history_of(*lines, call(1, "x", again)), 2)
                self.assertEqual(expected, read_manifest(self.directory).program)
                self.assertEqual([], list(pathlib.Path(self.directory).glob("*.writes")))


class Parts(Folder):
    """Parts are histories of whole registers, with the line numbers of the whole."""

    def test_line_numbers(self) -> None:
        history = history_of(call(1, "x"), "", call(2, "y"), end(2), end(1))
        self.split(history, 2)
        lines = history.split(b"\n")
        self.assertEqual(lines[0] + b"\n\n\n\n" + lines[4] + b"\n", self.part(0))
        self.assertEqual(b"\n\n" + lines[2] + b"\n" + lines[3] + b"\n", self.part(1))

    def test_map(self) -> None:
        history = history_of(call(1, "x"), "", call(2, "y"), end(2), end(1))
        self.split(history, 2, MAP)
        lines = history.split(b"\n")
        self.assertEqual(lines[0] + b"\n" + lines[4] + b"\n", self.part(0))
        line_of = LineMap(file_of(self.directory, 0, "lines"))
        self.assertEqual([0, 1, 5], [line_of(line) for line in (0, 1, 2)])
        self.assertEqual(["3", "4"], file_of(self.directory, 1, "lines").read_text().split())

    def test_each_line_is_in_one_part(self) -> None:
        for seed in range(60):
            history = random_history(seed)
            lines = enumerate(history.split(b"\n"), 1)
            expected = [(number, line) for number, line in lines if line.strip(b" \t\r")]
            with self.subTest(seed), tempfile.TemporaryDirectory() as self.directory:
                self.split(history, 3, (BLANK, MAP)[seed % 2])
                stopped = read_manifest(self.directory).stopped
                found = sorted(self.numbered(3))
                if stopped is not None:
                    expected = [each for each in expected if each[0] <= stopped]
                    found = sorted(set(found))
                self.assertEqual([(number, line[:60]) for number, line in expected],
                                 [(number, line[:60]) for number, line in found])

    def test_many_blank_lines(self) -> None:
        """More blank lines than a buffer holds."""
        count = 3 * writing.BUFFER + 5
        self.split(b"\n" * count + history_of(call(1, "x")), 2)
        self.assertEqual(b"\n" * count + history_of(call(1, "x")), self.part(0))
        self.assertEqual(b"", self.part(1))

    def test_manifest(self) -> None:
        self.split(history_of(call(1, "x"), call(2, "y"), call(3, "z"), call(4, "x"), ""), 2)
        manifest = read_manifest(self.directory)
        self.assertEqual([0, 1, 0], manifest.registers)
        self.assertEqual((4, 5, None), (manifest.events, manifest.last_line, manifest.stopped))

    def test_memory(self) -> None:
        """A long line is never held as a whole."""
        long = b"x" * 10_000_000
        blank = b" " * 1_000_000
        blocks = list(blocks_of(io.BytesIO(long + b"\n" + blank + b"\n\n" + blank + b"x\nlast")))
        self.assertLess(max(map(len, blocks)), 5 * BLOCK)
        lines = b"".join(blocks).split(b"\n")
        self.assertEqual([True, False, False, True, True], [bool(line.strip(b" ")) for line in lines])
        self.assertEqual([True, True, False, True, False], [len(line) > 65_536 for line in lines])
        self.assertEqual(b"last", lines[-1])

    def test_blocks_are_whole_lines(self) -> None:
        """Wherever a block would end: in a line, behind its line feed, and at the end of the history."""
        history = b"".join(b"%d\n" % number for number in range(40_000)) + b"last"
        for start in range(9):
            blocks = list(blocks_of(io.BytesIO(history[start:])))
            self.assertEqual(history[start:], b"".join(blocks))
            self.assertTrue(all(block.endswith(b"\n") for block in blocks[:-1]))
            self.assertGreater(len(blocks), 2)


class Limits(Folder):
    """What is too large for the checker is named, and no part is left."""

    def ask(self, history: bytes, *options: str) -> split_support.Ran:
        with mock.patch.object(sizes, "MAX_EVENTS", 4):
            return run_command(command, self.write(history), self.directory, *options)

    def test_events(self) -> None:
        pair = [call(1, "x"), end(1)]
        four = history_of(*pair, *pair)
        self.assertEqual(0, self.ask(four, "--parts", "1").status)

    def test_too_many_events_of_a_register(self) -> None:
        pair = [call(1, "x\t"), end(1)]
        ran = self.ask(history_of(*pair, call(2, "y"), *pair, call(1, "x\t")), "--parts", "2")
        self.assertEqual((5, b""), ran[:2])
        self.assertIn('line 6: register "x\\u0009" has more than 4 events of its own', ran.words)
        self.assertIn("head -n 5", ran.words)
        self.assertEqual([], os.listdir(self.directory))

    def test_too_many_bytes_of_a_register(self) -> None:
        """Blank lines and other registers don't count. The lines before can be split."""
        lines = [call(2, "y"), end(2), "", call(1, "x"), end(1), call(1, "x"), end(1)]
        history = history_of(*lines)
        most = sum(len(line) + 1 for line in lines[3:6])
        for form in (BLANK, MAP):
            with self.subTest(form), mock.patch.object(sizes, "MAX_BYTES", most):
                ran = self.ask(history, "--parts", "1", "--lines", form)
                self.assertEqual(5, ran.status)
                self.assertIn(f'line 7: register "x" has more than {most} bytes of its own', ran.words)
                self.assertIn("head -n 6", ran.words)
                self.assertEqual([], os.listdir(self.directory))
                first = history_of(*lines[:6])
                self.assertEqual(0, self.ask(first, "--parts", "2", "--lines", MAP).status)
                shutil.rmtree(self.directory)

    def test_a_register_is_found_late(self) -> None:
        """The part is past the limit long before its largest register is."""
        pair = [call(1, "x"), end(1)]
        other = [[call(2, name), end(2)] for name in "abcdefgh"]
        lines = [*pair, *other[0], *other[1], *other[2], *pair, *other[3], *other[4], *pair]
        with mock.patch.object(blocks, "BLOCK", 1):
            ran = self.ask(history_of(*lines), "--parts", "1")
        self.assertEqual(5, ran.status)
        self.assertIn(f'line {len(lines) - 1}: register "x" has more than 4 events', ran.words)

    def test_too_many_events_of_a_part(self) -> None:
        history = history_of(*(line for name in "uvxyz" for line in (call(1, name), end(1))))
        ran = self.ask(history, "--parts", "2")
        self.assertEqual(5, ran.status)
        self.assertIn("a part has 6 events", ran.words)
        self.assertIn("try --parts 4", ran.words)
        self.assertEqual([], os.listdir(self.directory))
        self.assertEqual(0, self.ask(history, "--parts", "4").status)

    def test_too_many_bytes_of_a_part(self) -> None:
        """Blank lines count, so a map helps."""
        history = b"\n" * 500 + history_of(call(1, "x"), end(1))
        with mock.patch.object(sizes, "MAX_BYTES", 300):
            ran = self.ask(history, "--parts", "2")
            self.assertEqual(5, ran.status)
            self.assertIn("--lines map", ran.words)
            self.assertEqual(0, self.ask(history, "--parts", "2", "--lines", "map").status)

    def test_length_of_a_line(self) -> None:
        start = call(1, "x")[:-1] + ',"note":"'
        fits = start + "y" * (65_536 - len(start) - 2) + '"}'
        for lines, stopped in [((fits,), None), ((fits[:-2] + 'y"}',), 1), ((" " * 70_000, fits), None)]:
            with self.subTest(stopped), tempfile.TemporaryDirectory() as self.directory:
                self.split(history_of(*lines), 1)
                self.assertEqual(stopped, read_manifest(self.directory).stopped)


class CommandLine(Folder):
    """Words, input and output of the command."""

    def test_number_of_parts(self) -> None:
        parser = cli.Parser()
        command.add_arguments(parser)
        for word in ("0", "1001", "-1", "two", "1.5"):
            with self.subTest(word), mock.patch("sys.stderr", io.StringIO()) as words:
                with self.assertRaises(SystemExit) as ended:
                    parser.parse_args(["h", "d", "--parts", word])
                self.assertEqual(3, ended.exception.code)
                self.assertIn("1 to 1000", words.getvalue() if word != "-1" else "1 to 1000")

    def test_folder_that_is_not_empty(self) -> None:
        """What to do depends on what is there."""
        os.mkdir(self.directory)
        for name, words in [("notes", "name a new folder"), ("part-000.jsonl", "that was killed: delete"),
                            ("split.json", "has the parts of a history")]:
            pathlib.Path(self.directory, name).touch()
            with self.subTest(name), self.assertRaisesRegex(FileExistsError, words):
                run_command(command, self.write(b""), self.directory, "--parts", "2")

    def test_interrupted(self) -> None:
        """No part is left, and the same command begins again."""
        path = self.write(history_of(call(1, "x")))
        with mock.patch.object(Router, "route", side_effect=KeyboardInterrupt):
            ran = run_command(command, path, self.directory, "--parts", "2")
        self.assertEqual(130, ran.status)
        self.assertIn("interrupted: no part is left", ran.words)
        self.assertEqual([], os.listdir(self.directory))
        self.assertEqual(0, run_command(command, path, self.directory, "--parts", "2").status)

    def test_standard_input(self) -> None:
        """A pipe of unknown length gets a map."""
        reading, writing = os.pipe()
        with os.fdopen(writing, "wb") as out:
            out.write(history_of(call(1, "x")))
        with os.fdopen(reading) as pipe, mock.patch("sys.stdin", pipe):
            ran = run_command(command, "-", self.directory, "--parts", "2")
        expected = f"{self.directory}: 1 events on 1 registers in 2 parts, for regcheck\n"
        self.assertEqual((0, expected), (ran.status, ran.words))
        self.assertEqual(MAP, read_manifest(self.directory).lines)

    def test_form_of_line_numbers(self) -> None:
        gibibyte = 1 << 30
        for asked, size, expected in [("auto", 0, BLANK), ("auto", gibibyte, BLANK),
                                      ("auto", gibibyte + 1, MAP), ("auto", None, MAP),
                                      (BLANK, None, BLANK), (MAP, 0, MAP)]:
            with self.subTest(asked=asked, size=size):
                self.assertEqual(expected, command.line_form(asked, size))

    def test_refused_without_a_checker(self) -> None:
        with mock.patch.dict(os.environ, {"REGCHECK": "/nowhere/regcheck"}):
            ran = run_command(command, self.write(b"not json\n"), self.directory, "--parts", "2")
        self.assertEqual(4, ran.status)
        self.assertIn("line 1 can't be accepted", ran.words)
        self.assertIn("REGCHECK", ran.words)


def without_search() -> Any:
    """As on a machine that has no regsearch."""
    return mock.patch.object(command, "find_program", lambda name: None)


@unittest.skipUnless(has_checker(), "regcheck is not built")
class Refusals(Folder):
    """What no part by itself would see is refused in the words of one run."""

    def test_refused(self) -> None:
        for name, lines, expected in [
            ("open in another part", [call(1, "x"), call(2, "y"), call(1, "y")],
             "line 3: the process has an open call at line 1"),
            ("an earlier fault that only the checker sees",
             [call(1, "x", 5), end(1), call(2, "x", 5), call(2, "y")],
             "line 3: value already written to this register at line 1"),
            ("an earlier fault of another part",
             [call(1, "x", 5), end(1, value=6), call(2, "y"), call(2, "x")],
             "line 2: reply disagrees with its call"),
            ("a lower number on the same line",
             [call(1, "x"), call(2, "y"), call(1, "y").replace("read", "add")],
             "line 3: op is neither read nor write"),
            ("no JSON", [call(1, "x"), "", "{"], "line 3: not JSON"),
            ("a reply to nothing", [call(1, "x"), end(2)], "line 2: reply without an open call"),
        ]:
            path = self.write(history_of(*lines))
            for form in (BLANK, MAP):
                with self.subTest(name, form=form), tempfile.TemporaryDirectory() as folder, without_search():
                    directory = os.path.join(folder, "parts")
                    ran = run_command(command, path, directory, "--parts", "3", "--lines", form)
                    self.assertEqual((2, b"", expected + "\n"), ran)

    @unittest.skipUnless(find_program(SEARCH), "regsearch is not built")
    def test_by_regsearch_where_it_takes_what_regcheck_refuses(self) -> None:
        twice = [call(1, "x", 5), end(1), call(1, "x", 5), end(1)]
        for name, lines, expected, without in [
            ("a value that is written again", [*twice, call(2, "y"), "{"], "line 6: not JSON", 3),
            ("a cas", [cas(1, "x"), end(1, ok=True), call(2, "y"), call(2, "x")],
             "line 4: the process has an open call at line 3", 1),
            ("an earlier fault of a cas", [cas(1, "x"), end(1), end(7)],
             "line 2: a cas's reply has no ok, true or false", 1),
            ("a cas without its values",
             [call(1, "x"), call(2, "y"), call(1, "y").replace("read", "cas")],
             "line 3: from, unless or to does not fit the event", 3),
            ("an earlier fault that is one for both", [call(1, "x"), end(1), *twice, "{"],
             "line 2: a read's reply has no value", 2),
        ]:
            path = self.write(history_of(*lines))
            for form in (BLANK, MAP):
                with self.subTest(name, form=form), tempfile.TemporaryDirectory() as folder:
                    words = [path, os.path.join(folder, "parts"), "--parts", "3", "--lines", form]
                    self.assertEqual((2, b"", expected + "\n"), run_command(command, *words))
                    words[1] += "2"
                    with without_search():
                        self.assertIn(f"line {without}: ", run_command(command, *words).words)


if __name__ == "__main__":
    unittest.main()
