"""`regkit check`: verdicts, evidence, statuses, refusals and what to do about them."""
import io
import gzip
import json
import os
import pathlib
import pty
import random
import stat
import tempfile
import threading
import time
import unittest
from typing import Any, Dict, List, Tuple
from unittest import mock

from regkit.checker.programs import find_checker, run_checker
from regkit.drawing.page import DrawSettings
from regkit.explain.advice import advice
from regkit.history import inputs
from regkit.judging.outcome import gravest
from regkit.words import progress

from .events import Line, gave, read, reply, run, stale, text, write
from .folders import InFolder

ROOT = pathlib.Path(__file__).resolve().parents[2]
EXAMPLES = ROOT / "examples"
FINE = [write(1, 5), read(2), gave(2, 5), reply(1), read(2), gave(2, 5)]
STALE = [write(1, 5), reply(1), read(2), gave(2, None)]


class Files(InFolder):
    def file(self, name: str, data: bytes) -> str:
        path = self.folder / name
        path.parent.mkdir(exist_ok=True)
        path.write_bytes(data)
        return str(path)

    def checker(self, script: str) -> Any:
        """Puts a shell script in the place of regcheck."""
        path = self.folder / "checker"
        path.write_text(f"#!/bin/sh\n{script}\n")
        path.chmod(path.stat().st_mode | stat.S_IXUSR)
        return mock.patch.dict(os.environ, {"REGCHECK": str(path)})


class Verdicts(Files):
    def test_linearizable(self) -> None:
        ran = run("check", self.file("h.jsonl", text(*FINE)))
        self.assertEqual(ran, (0, f"{self.folder}/h.jsonl: linearizable: 3 operations on 1 register; 2 "
                                  "completed reads, 1 overlaps a write\n", ""))

    def test_not_linearizable(self) -> None:
        ran = run("check", given=text(*STALE))
        self.assertEqual((ran.status, ran.err), (1, ""))
        self.assertEqual(ran.out, """\
standard input: not linearizable: 1 faulty register; 2 operations on 1 register; \
1 completed read, 0 overlap a write
  register "x": the initial write of null came before the write of 5 by process 1 (lines 1 to 2), \
so null comes before 5
    the write of 5 by process 1 (lines 1 to 2) ended before the read of null by process 2 (lines 3 to 4) \
began, so 5 comes before null
  it keeps session and causal: `regkit levels` says more
""")

    def test_the_examples(self) -> None:
        atomic = {"atomic", "crashed_client", "dropped_write", "merged_order", "pending_write",
                  "retried_write"}
        too_little = {"refused", "failed_value_again"}  # regcheck refuses them, and regsearch takes them
        for path in sorted(EXAMPLES.glob("*.jsonl")):
            status = 0 if path.stem in atomic else 5 if path.stem in too_little else 1
            with self.subTest(path.stem):
                self.assertEqual(run("check", str(path)).status, status)
        inversion = run("check", str(EXAMPLES / "new_old_inversion.jsonl")).out
        self.assertIn("this is a new-old inversion: the read of line 4 gave 2", inversion)

    def test_at_most_so_many(self) -> None:
        events = stale("a", "b", "c", "d")
        table = [(4, 4, ""), (3, 3, "  and 1 more register: --m"), (0, 0, "  and 4 more registers: --m")]
        for most, shown, last in table:
            ran = run("check", "--most", str(most), given=text(*events))
            self.assertIn("4 faulty registers; 8 operations on 4 registers", ran.out)
            self.assertEqual(ran.out.count('register "'), shown)
            self.assertIn(f"\n{last}", ran.out)
            self.assertEqual("more register" in ran.out, bool(last))

    def test_evidence(self) -> None:
        """A yes needs reads; a no needs nothing."""
        table: List[Tuple[List[str], List[Line], int, str]] = [
            ([], [], 5, "0 operations on 0 registers; 0 completed reads, 0 overlap a write; --least-reads "
                        "asks for 1 completed read\n  did the recorder stop before the first read was "
                        "answered?"),
            (["--least-reads", "0"], [], 0, ": linearizable: 0 operations"),
            ([], [write(1, 5), reply(1), read(2)], 5, "0 completed reads"),
            ([], FINE, 0, "2 completed reads"),
            (["--least-reads", "2"], FINE, 0, "2 completed reads"),
            (["--least-reads", "3"], FINE, 5, "; --least-reads asks for 3 completed reads\n"),
            (["--least-overlaps", "1"], FINE, 0, "1 overlaps"),
            (["--least-overlaps", "2"], FINE, 5, "--least-overlaps asks for 2 reads that overlap a write\n  "
                                                 "let more clients"),
            (["--least-reads", "9", "--least-overlaps", "9"], STALE, 1, "not linearizable"),
        ]
        for words, events, status, said in table:
            with self.subTest(words=words, events=len(events)):
                ran = run("check", *words, given=text(*events))
                self.assertEqual((ran.status, ran.err), (status, ""))
                self.assertIn(said, ran.out)
                self.assertEqual(": too little evidence: " in ran.out, status == 5)

    def test_a_hint_only_if_nothing_was_read(self) -> None:
        self.assertNotIn("recorder", run("check", "--least-reads", "3", given=text(*FINE)).out)


class SeveralFiles(Files):
    def test_the_gravest(self) -> None:
        table: List[Tuple[List[int], int]] = [
            ([], 0), ([0, 0], 0), ([0, 5], 5), ([5, 1, 0], 1), ([1, 2, 5], 2), ([0, 4, 2, 1], 4), ([4, 3], 4),
            ([3, 2], 3)]
        for statuses, status in table:
            self.assertEqual(gravest(statuses), status)
            self.assertEqual(gravest(statuses[::-1]), status)

    def test_each_is_told(self) -> None:
        names = [self.file("fine", text(*FINE)), self.file("empty", b""), self.file("stale", text(*STALE)),
                 self.file("twice", text(write(1, 5), reply(1), reply(1)))]
        for count, status in [(1, 0), (2, 5), (3, 1), (4, 2)]:
            self.assertEqual(run("check", *names[:count]).status, status)
        ran = run("check", str(self.folder / "none"), *names)
        self.assertEqual(ran.status, 4)
        self.assertEqual([line.split(": ")[1] for line in ran.out.splitlines() if line.startswith("/")],
                         ["linearizable", "too little evidence", "not linearizable"])
        self.assertEqual(ran.err.splitlines()[0], f"{self.folder}/none: failed: No such file or directory")
        self.assertIn(f"{self.folder}/twice: refused: line 3: reply without an open call",
                      ran.err.splitlines()[1])

    def test_standard_input_once(self) -> None:
        self.assertEqual(run("check", "-", given=text(*FINE)).out.split(":")[0], "standard input")
        ran = run("check", "-", "-", given=text(*FINE))
        self.assertEqual((ran.status, ran.out), (3, ""))

    def test_quiet(self) -> None:
        twice = self.file("twice", text(write(1, 5), reply(1), reply(1)))
        self.assertEqual(run("check", "--quiet", given=text(*STALE)), (1, "", ""))
        self.assertEqual(run("check", "--quiet", given=text(*FINE)), (0, "", ""))
        self.assertEqual(run("check", "--quiet", given=b""), (5, "", ""))
        self.assertIn("refused", run("check", "--quiet", twice).err)


class Json(Files):
    def objects(self, *words: str) -> List[Dict[str, Any]]:
        ran = run("check", "--json", *words)
        self.assertEqual(ran.err, "")
        return [json.loads(line) for line in ran.out.splitlines()]

    def test_each_kind(self) -> None:
        names = [self.file("fine", text(*FINE)), self.file("stale\x1b", text(*STALE))]
        names += [self.file("empty", b""), self.file("none.csv", b"a,b\n"), str(self.folder / "none")]
        fine, wrong, empty, csv, none = self.objects(*names)
        self.assertEqual(fine, {"file": names[0], "status": 0, "verdict": "linearizable", "operations": 3,
                                "registers": 1, "completed_reads": 2, "overlapping_reads": 1,
                                "at_least": False, "faulty_registers": 0, "faults": [],
                                "verified": False, "program": "regcheck",
                                "reason": "3 operations on 1 register; 2 completed reads, 1 overlaps a "
                                          "write"})
        self.assertEqual((wrong["file"], wrong["status"], wrong["verdict"], wrong["faulty_registers"]),
                         (names[1], 1, "not linearizable", 1))
        self.assertEqual(wrong["faults"][0]["register"], "x")
        self.assertEqual(wrong["faults"][0]["fault"],
                         {"kind": "zones", "writes": [0, 1], "first": [0, 1], "second": [1, 3]})
        self.assertEqual(len(wrong["faults"][0]["sentences"]), 2)
        self.assertEqual((empty["status"], empty["completed_reads"]), (5, 0))
        self.assertEqual(empty["verdict"], "too little evidence")
        self.assertEqual((csv["status"], csv["reason"]), (2, "line 1: not JSON"))
        self.assertIn("a table", csv["advice"])
        self.assertEqual(none, {"file": names[4], "status": 4, "verdict": "failed",
                                "reason": "No such file or directory"})

    def test_no_raw_control_characters(self) -> None:
        events = [write(1, 5, "\x1b\x7f\u202e"), reply(1), read(2, "\x1b\x7f\u202e"), gave(2, None)]
        out = run("check", "--json", given=text(*events)).out
        self.assertTrue(out.rstrip("\n").isprintable() and out.isascii())
        self.assertEqual(json.loads(out)["faults"][0]["register"], "\x1b\x7f\u202e")


class Refusals(unittest.TestCase):
    def told(self, history: bytes, name: str = "-") -> str:
        """What `check` would say, by a real refusal."""
        answer = run_checker(history)
        self.assertEqual(answer.status, 2, history)
        return advice(history, answer.refusal, name)

    def test_other_forms(self) -> None:
        table = [
            (b"#{" * 30_000, "the last line is cut short"),
            (b'"who";"did"\n1;read\n', "a table: `regkit convert --from csv` says what its columns have"),
            (b"who\tdid\n1\tread\n", "a table: `regkit convert --from csv` says what its columns have to be"),
            (b'[{"who":1,"did":"read"}]', "a JSON array: write each event on one line, as `jq -c "),
            (b"\x1f\x8b\x08\x00abc", "gzip: unpack it, as in `gzip -dc h.x | regkit check`"),
            (b"\x28\xb5\x2f\xfdabc", "zstd -dc"), (b"BZh9abc", "bzip2 -dc"), (b"\xfd7zXZ\x00a", "xz -dc"),
            (b"PK\x03\x04abc", "zip"),
            (b"\xff\xfe{\x00", "UTF-16"), (b"\xfe\xff\x00{", "UTF-16"),
            (b'{\n  "process": 1\n}\n', "over several lines"),
            (text(*FINE).replace(b"}\n", b"},\n"), "ends with a comma"),
            (b"{'process': 1, 'event': 'reply'}\n", "single quotes"),
            (text(*FINE)[:-9], "the last line is cut short"),
            (b"hello\nworld\n", 'one JSON object, such as {"process":1,"event":"reply"}'),
            (b"7\n", "one JSON object"),
        ]
        for history, said in table:
            with self.subTest(history[:40]):
                self.assertIn(said, self.told(history, "h.x"))

    def test_binary_data(self) -> None:
        chance = random.Random(1)
        for data in (bytes(chance.randrange(256) for _ in range(5000)), b"\x7fELF\x02\x01\x01" + bytes(90),
                     b"\xfe" * 70_000):
            self.assertIn("this looks like binary data: a history is text", self.told(data))
        for data in (b"caf\xe9 au lait, with sugar\n", "\u00e4\u00f6\u00fc\n".encode(),
                     b"\x1b[31mred\x1b[0m and so on, for a line\n"):
            self.assertNotIn("binary", self.told(data))

    def test_what_gzip_packed_is_read(self) -> None:
        """Its verdict is that of the same history unpacked, and so is its advice."""
        with tempfile.TemporaryDirectory() as folder:
            path, made = pathlib.Path(folder) / "h.gz", pathlib.Path(folder) / "made"
            path.write_bytes(gzip.compress(text(*FINE)))
            self.assertEqual(run("check", "--quiet", str(path)).status, 0)
            path.write_bytes(gzip.compress(b"{:process 0, :type :invoke, :f :write, :value 1}\n"))
            self.assertIn("taken for Jepsen's history as EDN (--from jepsen)\n", run("check", str(path)).out)
            self.assertEqual(run("convert", str(path), "-o", str(made)).status, 0)
            path.write_bytes(gzip.compress(text(*FINE))[:-9])
            ran = run("check", str(path))
            self.assertEqual((ran.status, "gzip can't unpack it" in ran.err), (4, True), ran.err)

    def test_names_of_files_in_commands(self) -> None:
        self.assertIn("`gzip -dc 'a b\\u001b' | regkit check`", self.told(b"\x1f\x8b", "a b\x1b"))
        self.assertIn("`gzip -dc FILE | regkit check`", self.told(b"\x1f\x8b"))

    def test_members(self) -> None:
        call: Line = {"process": 1, "event": "call", "op": "write", "register": "x", "value": 5}

        def but(**said: Any) -> bytes:
            event = {name: value for name, value in {**call, **said}.items() if value != "none"}
            return json.dumps(event).encode() + b"\n"

        table = [
            (but(process="none", client=1), "has `client` where `process` is meant: rename it"),
            (but(process="none"), "the line has no `process`: add it"),
            (but(process="1"), 'the process is the text "1": write it as a number, without quotes'),
            (but(process="al\x1b"), 'the process is "al\\u001b": give each client a whole number'),
            (but(event="none", type="invoke"), "has `type` where `event` is meant"),
            (but(event="invoke"), 'the event is "invoke": write `call`'),
            (but(event="ok"), 'the event is "ok": write `reply`'),
            (but(event="info"), "leave it out, as a call whose outcome is unknown stays pending"),
            (but(event="error"), "a call that certainly had no effect is ended by `fail`"),
            (but(event=3), "the event is 3: write one of these"),
            (but(op="none", f="write"), "has `f` where `op` is meant"),
            (but(op="put"), 'the op is "put": write `write`'), (but(op="get"), "write `read`"),
            (but(op="cas"), 'the op is "cas": regcheck takes reads and writes alone'),
            (but(op="append"), 'the op is "append": only reads, writes, deletes, swaps'),
            (but(op="incr"), "take it for what it is: incr adds to a value, which is a cas from the old"),
            (but(register="none", key="x"), "has `key` where `register` is meant: rename it"),
            (but(register=7), "the register is 7: write its name as a text, in quotes"),
            (but(register=""), "give the register a name"), (but(register="x" * 256), "shorten the name"),
            (but(value="none", val=3), "has `val` where `value` is meant"),
            (but(value=None), "a write of null has no form"),
            (but(value="v"), 'the value is "v": values are whole numbers: number them'),
            (but(value=True), "the value is true"), (but(value=1.5), "without a fraction"),
            (but(value=2 ** 63), "it has to fit into 64 bits"), (but(value=["v" * 100]), "..: values are"),
            (but(op="read"), "a read's call has no value"),
        ]
        for history, said in table:
            with self.subTest(said):
                self.assertIn(said, self.told(history))

    def test_events_that_do_not_fit(self) -> None:
        table = [
            ([write(3, 1), read(3)], "process 3 called again before the answer to line 1"),
            ([reply(3)], "process 3 made no call before"),
            ([write(3, 1), reply(3), reply(3)], "the last call of process 3 was answered already"),
            ([write(3, 1), {**reply(3), "value": 2}], "its `value` is 2, the call's is 1"),
            ([write(3, 1), reply(3), write(3, 2), {**reply(3), "value": 1}], "is 1, the call's is 2"),
            ([write(3, 1), {**reply(3), "op": "read", "value": 1}], 'its `op` is "read", the call\'s is "wr'),
            ([read(3), {**gave(3, 1), "register": "y"}], 'its `register` is "y", the call\'s is "x"'),
            ([read(3), reply(3)], "give the value that the read got, or null"),
            ([write(1, 5, "\x1b"), reply(1), write(1, 5, "\x1b")],
             '5 is written to "\\u001b" twice: number the writes of each register, so that the n-th writes '
             'n'),
        ]
        for events, said in table:
            with self.subTest(said):
                self.assertIn(said, self.told(text(*events)))

    def test_refusals_of_crashes_or_of_the_run(self) -> None:
        table = [
            ("line 2: the process crashed at line 1", "needs a new number: process 1 does nothing more"),
            ("input is longer than 67108864 bytes", "regkit split"),
            ("line 9: more than 1048576 events", "regkit split"),
            ("no memory or no thread", "more memory"), ("output could not be written", "disk"), ("what?", ""),
            ("line 2: event is not call, reply, fail or crash", 'the event is "call": write `call`'),
            ("line 1: line is longer than 65536 bytes", "one JSON object"),
        ]
        history = b'{"process":1,"event":"crash"}\n{"process":1,"event":"call","op":"read","register":"x"}\n'
        for refusal, said in table:
            with self.subTest(refusal):
                self.assertIn(said, advice(history, refusal))

    def test_too_long(self) -> None:
        limits = (mock.patch.object(inputs, "MAX_BYTES", 10),
                  mock.patch.object(inputs.read_input, "__defaults__", (10,)))
        with limits[0], limits[1]:
            ran = run("check", given=text(*FINE))
        self.assertEqual(ran.status, 2)
        self.assertIn("input is longer than 10 bytes\n  check parts of it: `regkit split`", ran.err)


class Failures(Files):
    def test_no_checker(self) -> None:
        with mock.patch.dict(os.environ, {"REGCHECK": str(self.folder / "nowhere")}):
            ran = run("check", given=text(*FINE))
        self.assertEqual((ran.status, ran.out), (4, ""))
        self.assertIn("nowhere could not be started: No such file or directory. Is REGCHECK right?", ran.err)

    def test_a_checker_that_fails(self) -> None:
        table = [("echo 'no memory or no thread' >&2; exit 4", "4: no memory or no thread\n  give it more"),
                 ("kill -9 $$", "ended by signal 9: was there too little memory?"),
                 ("exit 7", "ended with status 7")]
        for script, said in table:
            with self.subTest(script), self.checker("cat > /dev/null; " + script):
                ran = run("check", given=text(*FINE))
                self.assertEqual((ran.status, ran.out), (4, ""))
                self.assertIn(said, ran.err)

    def test_unreadable_input_of_one_file_is_its_own(self) -> None:
        ran = run("check", str(self.folder), self.file("fine", text(*FINE)))
        self.assertEqual(ran.status, 4)
        self.assertIn("Is a directory", ran.err)
        self.assertIn("fine: linearizable", ran.out)


class Extras(Files):
    def test_first_asks_the_checker_for_it(self) -> None:
        events = stale("a", "b")
        early = run_checker(text(*events)).report.splitlines()[0].decode()
        script = f"""
[ "$1" = --first ] || exit 7
cat > /dev/null
echo '{early}'
echo '{{"atomic":"no","operations":4,"registers":2}}'
exit 1"""
        with self.checker(script):
            ran = run("check", "--first", given=text(*events))
        self.assertEqual(ran.status, 1)
        self.assertIn("not linearizable: the first faulty register; 4 operations on 2 registers;", ran.out)
        self.assertIn('register "a"', ran.out)
        self.assertNotIn("more register", ran.out)

    def test_first(self) -> None:
        """The program's own early answer: one register of two is named, and the answer is verified."""
        ran = run("check", "--first", "--verify", given=text(*stale("a", "b")))
        self.assertEqual((ran.status, ran.out.count('register "')), (1, 1))
        self.assertEqual(run("check", "--first", "--verify", given=text(*FINE)).status, 0)

    def test_first_with_a_checker_that_does_not_know_it(self) -> None:
        events = stale("a", "b")
        with self.checker(f'[ "$1" != --first ] || exit 3\nexec {find_checker()} "$@"'):
            ran = run("check", "--first", given=text(*events))
        self.assertEqual((ran.status, ran.out.count('register "')), (1, 1))
        with self.checker(f'[ "$1" != --first ] || exit 3\nexec {find_checker()} "$@"'):
            self.assertEqual(run("check", "--first", given=text(*FINE)).status, 0)

    def test_verify(self) -> None:
        for events, status in [(FINE, 0), (STALE, 1)]:
            ran = run("check", "--verify", given=text(*events))
            self.assertEqual(ran.status, status)
            self.assertIn("; the report was verified\n", ran.out)
        self.assertEqual(run("check", "--verify", given=b"no\n").status, 2)
        self.assertTrue(json.loads(run("check", "--verify", "--json", given=text(*FINE)).out)["verified"])

    def test_verify_takes_what_the_checker_was_given(self) -> None:
        failed = [b'{"process":1,"event":"call","op":"write","register":"y","value":5}',
                  b'{"process":1,"event":"fail"}']
        read = [b'{"process":1,"event":"call","op":"read","register":"x"}',
                b'{"process":1,"event":"reply","value":null}']
        self.assertEqual(run("check", "--verify", given=b"\n".join([*failed, *read])).status, 0)
        self.assertEqual(run("check", "--verify", given=b'{"process":1,"event":"info"}\n').status, 2)

    def test_verify_finds_a_wrong_answer(self) -> None:
        false = '{"atomic":"yes","operations":2,"order":[1,3],"registers":1}'
        table = [(f"cat > /dev/null; echo '{false}'", text(*STALE)),
                 ("cat > /dev/null; echo 'line 1: not JSON' >&2; exit 2", text(*FINE))]
        for script, history in table:
            with self.checker(script):
                self.assertNotEqual(run("check", given=history).status, 4)
                ran = run("check", "--verify", given=history)
            self.assertEqual((ran.status, ran.out), (4, ""))
            self.assertIn("the answer of regcheck is wrong: ", ran.err)

    def test_a_report_that_is_none(self) -> None:
        table: List[List[str]] = [[], ["--verify"]]
        for words in table:
            with self.checker("cat > /dev/null; echo 'no report'"):
                ran = run("check", *words, given=text(*FINE))
            self.assertEqual((ran.status, ran.out), (4, ""))
            self.assertIn("the answer of regcheck is wrong: ", ran.err)

    def test_draw(self) -> None:
        def drawn(history: bytes, report: bytes, title: str, settings: DrawSettings) -> str:
            return f"<p>{title} {len(history)} {len(report)}"

        pages = self.folder / "new" / "pages"
        names = [self.file("a/h.jsonl", text(*FINE)), self.file("b/h.jsonl", text(*STALE))]
        names.append(self.file("no", b"no"))
        with mock.patch("regkit.drawing.draw.draw_page", drawn):
            ran = run("check", "--draw", str(pages), *names, "-", given=text(*FINE))
        self.assertEqual(ran.status, 2)
        self.assertEqual(sorted(path.name for path in pages.iterdir()), ["h-2.html", "h.html", "stdin.html"])
        report = run_checker(text(*FINE)).report
        self.assertEqual((pages / "h.html").read_text(), f"<p>{names[0]} {len(text(*FINE))} {len(report)}")
        self.assertIn(f"  drawn: {pages}/h-2.html\n", ran.out)

    def test_a_page_that_cannot_be_written(self) -> None:
        with mock.patch("regkit.drawing.draw.draw_page", lambda *_: ""):
            ran = run("check", "--draw", self.file("file", b""), given=text(*FINE))
        self.assertEqual((ran.status, ran.out), (4, ""))
        self.assertEqual(ran.err, f"standard input: failed: {self.folder}/file: File exists\n")


class Bar(unittest.TestCase):
    def drawn(self, patience: float, wait_for: bytes) -> bytes:
        """What a terminal gets of some work, which goes on until `wait_for` is on the screen."""
        leader, follower = pty.openpty()
        seen = b""
        with os.fdopen(follower, "w") as stream, mock.patch.object(progress, "PATIENCE", patience):
            with mock.patch.object(progress, "PAUSE", 0.01), progress.Progress(stream) as bar:
                bar.step("reading h.jsonl", 200)
                bar.reach(50)
                while wait_for not in seen:
                    seen += os.read(leader, 65536)
                time.sleep(0.05)
                bar.say("a verdict", stream)
            # The bar may have been drawn once more, below the verdict.
            while b"verdict\r\n" not in seen:
                seen += os.read(leader, 65536)
        os.close(leader)
        return seen

    def test_long_work(self) -> None:
        seen = self.drawn(0.0, b"25%")
        self.assertIn(b"\r\x1b[Kreading h.jsonl [" + b"#" * 7 + b" " * 23 + b"]  25%, ", seen)
        self.assertRegex(seen, rb" s\r\x1b\[Ka verdict\r\n")

    def test_short_work(self) -> None:
        self.assertEqual(self.drawn(60.0, b""), b"a verdict\r\n")

    def test_no_terminal(self) -> None:
        stream = io.StringIO()
        with mock.patch.object(progress, "PATIENCE", 0.0), progress.Progress(stream) as bar:
            bar.step("reading")
            self.assertEqual(threading.active_count(), 1)
        self.assertEqual(stream.getvalue(), "")

    def test_words(self) -> None:
        bar = progress.Progress(io.StringIO())
        bar.step("checking h.jsonl")
        self.assertEqual(bar.line(3.4), "checking h.jsonl, 3 s")
        bar.step("reading", 10)
        bar.reach(20)
        self.assertIn("] 100%, 3 s", bar.line(3.4))


if __name__ == "__main__":
    unittest.main()
