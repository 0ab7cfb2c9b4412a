"""A source is taken for what it is, whoever asks; one that may be two things is refused by name."""
import contextlib
import gzip
import json
import pathlib
import random
import tempfile
import unittest
from typing import Iterator, List, Tuple

from regkit.convert.forms import forms_of
from regkit.explain.advice import advice
from tests.convert_sources import FORMS, faulty_history, is_atomic, right_history
from tests.convert_support import run as converted
from tests.events import gave, read, reply, run, stale, text, write

FINE = text(write(1, 1), read(2), gave(2, 1), reply(1), read(2), gave(2, 1))

# How a source begins, its form, and what it is called. A write of 1 is followed by a read of it.
SOURCES: List[Tuple[str, str, str]] = [
    ("{:process 0, :type :invoke, :f :write, :value 1}\n{:process 0, :type :ok, :f :write, :value 1}\n"
     "{:process 0, :type :invoke, :f :read, :value nil}\n{:process 0, :type :ok, :f :read, :value 1}\n",
     "jepsen", "Jepsen's history as EDN"),
    ("; a comment\n[#jepsen.history.Op{:index 0, :process 0, :type :invoke, :f :write, :value 1}\n"
     "{:process 0, :type :ok, :f :write, :value 1}{:process 0, :type :invoke, :f :read, :value nil}\n"
     "{:process 0, :type :ok, :f :read, :value 1}]", "jepsen", "Jepsen's history as EDN"),
    ('[{"process":0,"type":"invoke","f":"write","value":1},{"process":0,"type":"ok","f":"write","value":1},\n'
     '{"process":0,"type":"invoke","f":"read"},{"process":0,"type":"ok","f":"read","value":1}]',
     "jepsen", "Jepsen's history as JSON"),
    ("0\t:invoke\t:write\t1\n0\t:ok\t:write\t1\n0\t:invoke\t:read\tnil\n0\t:ok\t:read\t1\n", "jepsen",
     "lines of Jepsen's log"),
    ("Starting up\nINFO jepsen.util - 0 :invoke :write 1\nINFO jepsen.util - 0 :ok :write 1\n"
     "INFO jepsen.util - 0 :invoke :read nil\nINFO jepsen.util - 0 :ok :read 1\n", "jepsen",
     "lines of Jepsen's log"),
    ('{:process 0, :type :invoke, :f :put, :key "x", :value "1"}\n'
     '{:process 0, :type :ok, :f :put, :key "x", :value "1"}\n'
     '{:process 0, :type :invoke, :f :get, :key "x", :value nil}\n'
     '{:process 0, :type :ok, :f :get, :key "x", :value "1"}\n', "porcupine",
     "Porcupine's log of a key-value store"),
    ('{"ClientId":0,"Input":{"Op":"put","Key":"x","Value":"1"},"Call":1,"Output":{},"Return":2}\n'
     '{"ClientId":0,"Input":{"Op":"get","Key":"x"},"Call":3,"Output":{"Value":"1"},"Return":4}\n',
     "porcupine", "Porcupine's operations as JSON"),
    ('{"ClientId":0,"Kind":"call","Value":{"Op":"put","Value":"1"},"Id":1}\n'
     '{"ClientId":0,"Kind":"return","Value":{},"Id":1}\n'
     '{"ClientId":0,"Kind":"call","Value":{"Op":"get"},"Id":2}\n'
     '{"ClientId":0,"Kind":"return","Value":{"Value":"1"},"Id":2}\n', "porcupine",
     "Porcupine's events as JSON"),
    ("process,start,end,op,value\n0,1,2,write,1\n0,3,4,read,1\n", "csv", "a table"),
    ('"Process";"Start";"End";"Op";"Value"\r\n0;1;2;write;1\r\n0;3;4;read;1\r\n', "csv", "a table"),
    ("process\tevent\top\tvalue\n0\tcall\twrite\t1\n0\treply\t\t\n0\tcall\tread\t\n0\treply\t\t1\n",
     "csv", "a table"),
    ('[\n {"process":0,"start":1,"end":2,"op":"write","value":1},\n'
     ' {"process":0,"start":3,"end":4,"op":"read","value":1}\n]', "operations", "operations, a JSON object "
                                                                                "each"),
    ('{"process":"a","event":"call","op":"write","register":"x","value":1}\n{"process":"a","event":"reply"}\n'
     '{"process":"a","event":"call","op":"read","register":"x"}\n{"process":"a","event":"reply","value":1}\n',
     "jsonl", "events, a JSON object a line"),
]
TWO: List[Tuple[str, str]] = [  # a source that may be two things, and which
    ("process\ttype\tf\tvalue\n0\t:invoke\t:write\t1\n0\t:ok\t:write\t1\n",
     "a table (--from csv) or lines of Jepsen's log (--from jepsen)"),
    ('{"process":0,"event":"call","op":"write","start":1,"end":2,"value":1}',
     "events, a JSON object a line (--from jsonl) or operations, a JSON object each (--from operations)"),
    ('{"process":0,"type":"invoke","f":"write","event":"call","value":1}',
     "Jepsen's history as JSON (--from jepsen) or events, a JSON object a line (--from jsonl)"),
]


def faulty(source: str) -> str:
    """The same, whose read gave a value that an earlier read can't have seen: it found none."""
    where = source.rindex("1")
    for end in ('"Value":"1"', '"value":1', ":value 1", ':value "1"', ":read 1", ":read\t1", "\t1", "read;1",
                "read,1"):
        place = source.rfind(end)
        if 0 <= place <= where < place + len(end):
            none = {'"Value":"1"': '"Value":""', '"value":1': '"value":null', ':value "1"': ':value ""'}
            empty = none.get(end, end[:-1] + ("nil" if ":" in end else ""))
            return source[:place] + empty + source[place + len(end):]
    raise AssertionError(source)


@contextlib.contextmanager
def file(data: bytes, name: str = "source") -> Iterator[str]:
    with tempfile.TemporaryDirectory() as folder:
        path = pathlib.Path(folder) / name
        path.write_bytes(data)
        yield str(path)


class Detection(unittest.TestCase):
    def test_each_form(self) -> None:
        for source, form, words in SOURCES:
            for data in (source.encode(), b"\xef\xbb\xbf" + source.encode(), b"\n \n" + source.encode()):
                with self.subTest(words, data=data[:40]):
                    self.assertEqual([tuple(found) for found in forms_of(data)], [(form, words)])

    def test_convert_says_what_it_took(self) -> None:
        for source, form, words in SOURCES:
            for right in (True, False):
                with self.subTest(words, right=right):
                    ran = converted(source if right else faulty(source), "auto")
                    named = converted(source if right else faulty(source), form)
                    self.assertEqual((ran.status, ran.history), (0, named.history), ran.told)
                    self.assertEqual(is_atomic(ran.history), right)
                    self.assertEqual(ran.told.splitlines()[0], f"regkit convert: taken for {words} (--from "
                                                               f"{form})")

    def test_two_forms_are_refused_by_name(self) -> None:
        for source, words in TWO:
            with self.subTest(words):
                ran = converted(source, "auto")
                self.assertEqual((ran.status, ran.history), (2, ""))
                self.assertIn(f"the source may be {words}: say to `regkit convert` which it is", ran.told)
                with file(source.encode()) as name:
                    for command in (["check", name], ["explain", name], ["draw", name, "-o", "-"]):
                        asked = run(*command)
                        self.assertEqual((asked.status, asked.out), (2, ""), command)
                        self.assertIn(f"the source may be {words}", asked.err)
                        self.assertIn(f"regkit convert OPTIONS.. {name} | regkit {command[0]}", asked.err)

    def test_no_form(self) -> None:
        for source, words in [("", "the source is empty: is it the right file?"),
                              (" \n", "the source is empty"),
                              ("Dear all, this is, well, no history\n", "none of the forms that --from "
                                                                        "names. If"),
                              ('{"who":1,"did":2}', "none of the forms that --from names: its first object "
                                                    "has who, d"),
                              ("{'process': 1}", "none of the forms"), ("a,b,c\n1,2,3\n", "none of the "
                                                                                          "forms")]:
            with self.subTest(source):
                ran = converted(source, "auto")
                self.assertEqual((ran.status, words in ran.told), (2, True), ran.told)

    def test_options_are_those_of_the_form_that_was_found(self) -> None:
        ran = converted(SOURCES[0][0], "auto", "--columns", "process=who")
        self.assertEqual(ran.status, 3)
        self.assertIn("--columns is for csv, operations, not for jepsen", ran.told)
        ran = converted("who,start,end,op,value\n0,1,2,write,1\n", "auto", "--columns", "process=who")
        self.assertEqual(ran.status, 0, ran.told)

    def test_the_whole_of_a_long_source_is_read(self) -> None:
        rows = "".join(f"{place % 7},{2 * place},{2 * place + 1},write,{place}\n" for place in range(9_000))
        source = "process,start,end,op,value\n" + rows
        self.assertGreater(len(source), 2 * 65_536)
        ran = converted(source, "auto")
        self.assertEqual((ran.status, len(ran.events)), (0, 18_000))
        self.assertEqual(ran.history, converted(source, "csv").history)

    def test_random_histories_of_every_tool(self) -> None:
        """Each is taken for one form, that of its tool, and one that needs no options keeps its verdict."""
        chance = random.Random(62)
        for name, writer in FORMS.items():
            for calls, right in [(right_history(chance), True), (faulty_history(chance), False)] * 3:
                source = writer.write(calls, chance) if calls else ""
                if not source or name == "csv in other words":
                    continue
                with self.subTest(name, source=source):
                    self.assertEqual([form.name for form in forms_of(source.encode())], [writer.form])
                    ran = converted(source, "auto", *writer.options)
                    self.assertEqual((ran.status, is_atomic(ran.history)), (0, right), ran.told)


class Commands(unittest.TestCase):
    def test_check(self) -> None:
        for source, form, words in SOURCES:
            for right, verdict in [(True, "linearizable"), (False, "not linearizable")]:
                with self.subTest(words, right=right):
                    ran = run("check", given=(source if right else faulty(source)).encode())
                    self.assertEqual((ran.status, ran.err), (0 if right else 1, ""), ran.out)
                    self.assertTrue(ran.out.startswith(f"standard input: {verdict}: "), ran.out)
                    self.assertIn(f"\n  taken for {words} (--from {form})\n", ran.out)
                    self.assertIn("  read 2 operations of 1 client on 1 register: 1 write, 1 read; ", ran.out)

    def test_explain_and_draw(self) -> None:
        for source, form, words in SOURCES:
            with self.subTest(words), file(gzip.compress(faulty(source).encode())) as name:
                ran = run("explain", name)
                self.assertEqual(ran.status, 1, ran.err)
                self.assertIn(": not linearizable: 1 of 1 register\n", ran.out)
                self.assertTrue(ran.err.startswith(f"regkit explain: taken for {words} (--from "
                                                   f"{form})\n"), ran.err)
                ran = run("draw", name, "-o", f"{name}.html")
                self.assertEqual(ran.status, 0, ran.err)
                self.assertTrue(ran.err.startswith(f"regkit draw: taken for {words} (--from "
                                                   f"{form})\n"), ran.err)
                self.assertIn("Not linearizable", pathlib.Path(f"{name}.html").read_text(encoding="utf-8"))

    def test_json_names_the_form(self) -> None:
        said = json.loads(run("check", "--json", given=SOURCES[8][0].encode()).out)
        self.assertEqual((said["status"], said["form"]), (0, "csv"))
        self.assertEqual(said["conversion"][0], "taken for a table (--from csv)")
        self.assertNotIn("form", json.loads(run("check", "--json", given=FINE).out))

    def test_annotations_have_no_line_of_another_file(self) -> None:
        with file(faulty(SOURCES[8][0]).encode()) as name:
            self.assertRegex(run("check", "--annotate", name).out, r"::error file=[^,]*,title=")

    def test_a_refusal_says_what_it_was_taken_for(self) -> None:
        source = b"process,start,end,op,value,rc\n0,1,2,write,1,0\n"
        for command, status in [(["check"], 2), (["explain", "-"], 2), (["draw", "-", "-o", "-"], 2)]:
            ran = run(*command, given=source)
            self.assertEqual((ran.status, ran.out), (status, ""))
            self.assertIn("taken for a table (--from csv), and line 2: the column rc isn't "
                          "understood", ran.err)
            said = f"\n  to say more of it: `regkit convert OPTIONS.. FILE | regkit {command[0]}"
            self.assertIn(said, ran.err)

    def test_a_long_file_is_converted_first(self) -> None:
        """A source that is too long for one run is no history yet, so it can't be split."""
        refusal = "input is longer than 67108864 bytes"
        for source, _, words in SOURCES:
            said = advice(source.encode(), refusal, "log")
            with self.subTest(words):
                self.assertIn("`regkit split`", said)
                self.assertEqual("`regkit convert log -o h.jsonl`" in said, words != SOURCES[-1][2])

    def test_our_own_form_stays_what_it_is(self) -> None:
        """It is never converted if it is accepted, nor if it is wrong in another way than by names and
        values: the refusal is the checker's."""
        self.assertNotIn("taken", run("check", given=FINE).out)
        self.assertNotIn("taken", run("check", given=text(*stale("x"))).out)
        for data, words in [(FINE + b'{"process":1,"event":"reply"}', "reply without an open call"),
                            (FINE + b'{"process":1,"event":"call","op":"read"}', "register is not a text"),
                            (FINE + b'{"process":1,"event":"done"}', "event is not call, reply, fail or "
                                                                     "crash"),
                            (FINE + b'{"process":1,"ev', "not JSON"),
                            (FINE + text(read(1)) + b'{"process":1,"event":"reply"}', "a read's reply has no "
                                                                                      "value"),
                            (FINE + text(write(1, 7)) + b'{"process":"1","event":"reply"}', "process is not "
                                                                                            "a whole")]:
            with self.subTest(words):
                ran = run("check", given=data)
                self.assertEqual(ran.status, 2)
                self.assertIn(words, ran.err)
                self.assertNotIn("taken for", ran.err)


if __name__ == "__main__":
    unittest.main()
