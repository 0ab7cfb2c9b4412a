"""What a conversion doesn't understand: each form, with something planted that tells how an operation ended.

In each source a write of 1 is answered and a read of null follows. That is a fault if the write took place,
and none if it failed or if its outcome is unknown.
"""
import json
import unittest
from typing import Callable, Dict, List, Tuple

from tests.convert_sources import is_atomic
from tests.convert_support import run

Plant = Callable[[str, object], str]  # by a member's name and its value, a source


def _edn(name: str, value: object) -> str:
    member = f", :{name} {'nil' if value is None else json.dumps(value)}"
    return (f"{{:process 0, :type :invoke, :f :write, :value 1, :index 0}}\n"
            f"{{:process 0, :type :ok, :f :write, :value 1, :index 1{member}}}\n"
            "{:process 0, :type :invoke, :f :read, :value nil}\n"
            "{:process 0, :type :ok, :f :read, :value nil}")


def _jepsen_json(name: str, value: object) -> str:
    return json.dumps([
        {"process": 0, "type": "invoke", "f": "write", "value": 1},
        {"process": 0, "type": "ok", "f": "write", "value": 1, name: value},
        {"process": 0, "type": "invoke", "f": "read", "value": None},
        {"process": 0, "type": "ok", "f": "read", "value": None}])


def _go(name: str, value: object, place: str) -> str:
    write: Dict[str, object] = {"ClientId": 0, "Call": 1, "Return": 2, "Output": {}}
    write["Input"] = {"Op": "put", "Key": "x", "Value": "1"}
    where = write if place == "beside" else write[place]
    assert isinstance(where, dict)
    where[name] = value
    read = {**write, "Input": {"Op": "get", "Key": "x"}, "Call": 3, "Return": 4, "Output": {"Value": ""}}
    read.pop(name, None)
    return json.dumps([write, read])


def _go_event(name: str, value: object) -> str:
    rows = [{"ClientId": 0, "Kind": "call", "Value": {"Op": "put", "Key": "x", "Value": "1"}, "Id": 1},
            {"ClientId": 0, "Kind": "return", "Value": {name: value}, "Id": 1},
            {"ClientId": 0, "Kind": "call", "Value": {"Op": "get", "Key": "x"}, "Id": 2},
            {"ClientId": 0, "Kind": "return", "Value": {"Value": ""}, "Id": 2}]
    return "\n".join(map(json.dumps, rows))


def _beside_event(name: str, value: object) -> str:
    lines = _go_event(name, value).split("\n")
    lines[1] = json.dumps({"ClientId": 0, "Kind": "return", "Value": {}, "Id": 1, name: value})
    return "\n".join(lines)


def _log(name: str, value: object) -> str:
    return _edn(name, value).replace(":write", ":put").replace(":read, :value nil", ':get, :key "x"').replace(
        ':get, :key "x"}', ':get, :key "x", :value ""}').replace(":value 1", ':key "x", :value "1"')


def _csv(name: str, value: object) -> str:
    shown = "" if value is None else value
    return (f"process,start,end,op,value,{name}\n0,1,2,write,1,{shown}\n0,3,4,read,,\n")


def _objects(name: str, value: object) -> str:
    return json.dumps([{"process": 0, "start": 1, "end": 2, "op": "write", "value": 1, name: value},
                       {"process": 0, "start": 3, "end": 4, "op": "read", "value": None}])


def _events(name: str, value: object) -> str:
    rows = [{"process": 0, "event": "call", "op": "write", "register": "x", "value": 1},
            {"process": 0, "event": "reply", name: value},
            {"process": 0, "event": "call", "op": "read", "register": "x"},
            {"process": 0, "event": "reply", "value": None}]
    return "\n".join(map(json.dumps, rows))


PLANTS: List[Tuple[str, str, Plant]] = [
    ("jepsen", "EDN", _edn), ("jepsen", "JSON", _jepsen_json), ("porcupine", "log", _log),
    ("porcupine", "output", lambda name, value: _go(name, value, "Output")),
    ("porcupine", "input", lambda name, value: _go(name, value, "Input")),
    ("porcupine", "beside", lambda name, value: _go(name, value, "beside")),
    ("porcupine", "event", _go_event), ("porcupine", "beside event", _beside_event),
    ("csv", "", _csv), ("operations", "", _objects),
    ("jsonl", "", _events)]
OUTPUTS = [row for row in PLANTS if row[1] != "input"]  # an input tells no outcome
MEMBERS: List[Tuple[str, object]] = [
    ("Err", "ErrVersion"), ("Version", 0), ("ok", False), ("status", "timeout"), ("rc", 0), ("Err", "")]


class Members(unittest.TestCase):
    def told(self, source: str, form: str, *options: str) -> Tuple[bool, str]:
        """Whether a source's history is linearizable, and what the conversion says."""
        ran = run(source, form, *options)
        self.assertEqual(ran.status, 0, (source, ran.told))
        return is_atomic(ran.history), ran.told

    def test_a_member_that_is_not_understood_is_refused_by_name(self) -> None:
        for form, place, plant in PLANTS:
            for name, value in MEMBERS:
                with self.subTest(form, place=place, name=name):
                    ran = run(plant(name, value), form)
                    what = "column" if form == "csv" else "member"
                    self.assertEqual((ran.status, ran.history), (2, ""))
                    self.assertRegex(ran.told, f"line .: the {what} {name} isn't understood, and it may tell "
                                               f"the outcome .*--ok-when {name}=WORD,.. .*--ignore-member "
                                               f"{name} if")

    def test_all_that_is_not_understood_is_named(self) -> None:
        source = _go("Err", "ErrVersion", "Output").replace('"Err"', '"Version": 3, "Err"')
        self.assertIn("if it means nothing; likewise Err\n", run(source, "porcupine").told)

    def test_it_is_what_the_options_say(self) -> None:
        for form, place, plant in OUTPUTS:
            source = plant("Err", "ErrVersion")
            with self.subTest(form, place=place):
                self.assertFalse(self.told(source, form, "--ignore-member", "Err")[0])
                self.assertFalse(self.told(source, form, "--ok-when", "Err=,OK,ErrVersion")[0])
                atomic, told = self.told(source, form, "--ok-when", "Err=,OK")
                self.assertIn("1 of unknown outcome", told)
                self.assertIn("with err ErrVersion as of unknown outcome", told)
                self.assertIn("say --outcomes ErrVersion=fail", told)
                self.assertTrue(atomic)
                failed = ("--ok-when", "Err=,OK", "--outcomes", "ErrVersion=fail")
                atomic, told = self.told(source, form, *failed)
                self.assertIn("1 failed, 0 of unknown outcome", told)
                self.assertTrue(atomic)

    def test_no_member_counts_as_the_empty_word(self) -> None:
        for form, place, plant in OUTPUTS:
            for value, words, atomic in [("", "ok", True), ("", "", False),
                                         (None, "", False), (None, "ok", True)]:
                with self.subTest(form, place=place, value=value, words=words):
                    read_well = ("--outcomes", "=unknown") if words else ()
                    found = self.told(plant("Err", value), form, "--ok-when", f"Err={words}", *read_well)[0]
                    self.assertEqual(found, atomic)

    def test_harmless_members(self) -> None:
        for form, name in [("jepsen", "time"), ("jepsen", "node"), ("csv", "node"), ("csv", "index"),
                           ("jsonl", "client"), ("jsonl", "node"), ("jsonl", "time")]:
            plant = next(row[2] for row in PLANTS if row[0] == form)
            with self.subTest(form, name=name):
                self.assertFalse(self.told(plant(name, 7), form)[0])

    def test_names_of_members_may_be_of_any_case(self) -> None:
        for form, place, plant in OUTPUTS:
            with self.subTest(form, place=place):
                self.assertFalse(self.told(plant("Err", ""), form, "--ignore-member", "ERR")[0])
                self.assertFalse(self.told(plant("err", ""), form, "--ok-when", ":Err=")[0])


# A form, its source, the options, and whether it is linearizable or what it is refused for. A write of 1 was
# answered before a read of null: that is linearizable only if the write isn't taken for one that took place.
ENDS: List[Tuple[str, str, Tuple[str, ...], object]] = []


def _end(form: str, source: str, expected: object, *options: str) -> None:
    ENDS.append((form, source, options, expected))


_READ = "{:process 1, :type :invoke, :f :read, :value nil}\n{:process 1, :type :ok, :f :read, :value nil}"
_WRITE = ("{:process 0, :type :invoke, :f :write, :value 1}\n"
          "{:process 0, :type :%s, :f :write, :value %s}\n" + _READ)
_end("jepsen", _WRITE % ("ok", "1"), False)
_end("jepsen", _WRITE % ("fail", "1"), True)
_end("jepsen", _WRITE % ("info", ":timeout"), True)
_end("jepsen", _WRITE % ("timeout", "1"), ":type is :timeout, and :invoke, :ok, :fail or :info is expected")
_end("jepsen", _WRITE % ("timeout", "1"), True, "--outcomes", "timeout=unknown")
_end("jepsen", _WRITE % ("ok", '1, :error "timeout"'), "the operation is :ok and has :error \"timeout\": say")
_end("jepsen", _WRITE % ("ok", '1, :error "timeout"'), True, "--ok-when", "error=")
_end("jepsen", _WRITE % ("ok", '1, :error "timeout"'), False, "--ignore-member", "error")
_end("jepsen", _WRITE % ("ok", '"no"'), "the reply of a write has the value no, and its call, at line 1, 1")
_end("jepsen", _WRITE % ("ok", '"no"'), True, "--ok-when", "value=ok")
_end("jepsen", _WRITE % ("ok", '"OK"'), False, "--ok-when", "value=ok")
_end("jepsen", _WRITE % ("ok", '"no"'), False, "--ignore-member", "value")
_end("jepsen", (_WRITE % ("ok", "1")).replace(", :value nil}\n{:process 1, :type :ok, :f :read, :value nil}",
                                             "}\n{:process 1, :type :ok, :f :read}"),
     "the reply of a read has no :value: let it be nil if the read found none")
_CONSOLE = "0 :invoke :write 1\n0 %s\n1 :invoke :read nil\n1 :ok :read nil"
_end("jepsen", _CONSOLE % ":ok :write 1", False)
_end("jepsen", _CONSOLE % ":fail :write 1", True)
_end("jepsen", _CONSOLE % ":info :write :timeout", True)
_end("jepsen", _CONSOLE % ":ok :write 1 :timeout", "the operation is :ok and has :error :timeout: say")
_end("jepsen", _CONSOLE % ":ok :write 1 2 :timeout", "3 values behind :ok, and one is expected")
_end("jepsen", _CONSOLE % ":ok :write 1\n2 :invoke :read nil\n2 :ok :read",
     "the reply of a read has no :value")
_end("jepsen", "0 invoke write 1\n0 fail write 1\n1 invoke read nil\n1 ok read nil", True)
_GO = ('{"ClientId":0,"Input":{"Op":1,"Key":"x","Value":"1"},"Call":1,%s}\n'
       '{"ClientId":0,"Input":{"Op":0,"Key":"x"},"Call":3,"Output":{"Value":""},"Return":4}')
_end("porcupine", _GO % '"Output":{},"Return":2', False)
_end("porcupine", _GO % '"Output":0,"Return":2', False)
_end("porcupine", _GO % '"Output":{},"Return":null', True)
_end("porcupine", _GO % '"Output":{"Err":"x"},"Return":9223372036854775807', True)
_end("porcupine", _GO % '"Output":false,"Return":2', "the reply of a write has the value false, and its call")
_end("porcupine", _GO % '"Output":false,"Return":2', True,
     "--ok-when", "Output=true", "--outcomes", "false=fail")
_end("porcupine", _GO % '"Output":true,"Return":2', False, "--ok-when", "Output=true")
_end("porcupine", _GO % '"Output":{"Value":"old"},"Return":2', "the reply of a write has the value old")
_end("porcupine", _GO % '"Output":{"Value":"old"},"Return":2', False, "--ignore-member", "Output")
_end("porcupine", (_GO % '"Output":{},"Return":2').replace('{"Value":""}', "{}"),
     "the output of a get has no member Value: write one")
_end("porcupine", (_GO % '"Output":{},"Return":2').replace('{"Value":""}', "null"),
     "the output of a get has no member Value: write one")
_end("porcupine", (_GO % '"Output":{},"Return":2').replace('{"Value":""}', '{"Value":"","Err":"timeout"}'),
     "the member Err isn't understood, and it may tell the outcome (here it is \"timeout\")")
_end("porcupine", (_GO % '"Output":{},"Return":2').replace('{"Value":""}', '{"Value":"","Err":"timeout"}'),
     True, "--ok-when", "Err=")
_end("porcupine", (_GO % '"Output":{},"Return":2').replace('{"Value":""}', '{"Value":"","Err":"ErrNoKey"}'),
     False, "--ok-when", "Err=", "--null", ",ErrNoKey")
_end("porcupine", _GO % '"Output":{},"Return":2,"return":3', "two members have one name, among ClientId")
_end("porcupine", _GO % '"Output":{},"Return":2,"Return":3', "not JSON: an object has the member Return ")
_CSV = "process,start,end,op,value,outcome\n0,1,2,write,1,%s\n0,3,4,read,,%s\n"
_end("csv", _CSV % ("ok", "ok"), False)
_end("csv", _CSV % ("", ""), False)
_end("csv", _CSV % ("fail", "ok"), True)
_end("csv", _CSV % ("fail", ""), True)
_end("csv", _CSV % ("unknown", "ok"), True)
_end("csv", _CSV % ("timeout", "ok"), "the outcome is timeout, and ok, fail, unknown or info is expected")
_end("csv", _CSV % ("timeout", "ok"), True, "--outcomes", "timeout=unknown")
_end("csv", _CSV % ("timeout", "ok"), True, "--outcomes", "TIMEOUT=fail")
_end("csv", _CSV % ("", "ok"), "the outcome is empty, and at line 3 it is ok: say --outcomes =ok if empty ")
_end("csv", _CSV % ("", "ok"), True, "--outcomes", "=unknown")
_end("csv", _CSV % ("", "ok"), False, "--outcomes", "=ok")
_end("csv", _CSV % ("ok", "timeout"), "the outcome is timeout")
_end("csv", _CSV % ("ok", "gone"), True, "--outcomes", "gone=unknown")
_OBJECT = ('{"process":0,"start":1,"end":2,"op":"write","value":1%s}\n'
           '{"process":0,"start":3,"end":4,"op":"read"%s}')
_end("operations", _OBJECT % ("", ',"value":null'), False)
_end("operations", _OBJECT % ("", ""), "a read without value: write null if it found none")
_end("operations", _OBJECT % ("", ',"outcome":"unknown"'), True)
_end("operations", _OBJECT % (',"outcome":"fail"', ',"value":null'), True)
_end("operations", _OBJECT % (',"outcome":"info"', ',"value":null'), True)
_end("operations", _OBJECT % (',"outcome":"late"', ',"value":null'), "the outcome is late")
_end("operations", _OBJECT % (',"outcome":false', ',"value":null'), "the outcome is false")
_end("operations", _OBJECT % (',"outcome":false', ',"value":null'), True, "--outcomes", "false=fail")
_JSONL = ('{"process":0,"event":"call","op":"write","register":"x","value":1}\n{"process":0,"event":%s}\n'
          '{"process":%d,"event":"call","op":"read","register":"x"}\n'
          '{"process":%d,"event":"reply","value":null}')
_end("jsonl", _JSONL % ('"reply"', 0, 0), False)
_end("jsonl", _JSONL % ('"fail"', 0, 0), True)
_end("jsonl", _JSONL % ('"crash"', 1, 1), True)
_end("jsonl", _JSONL % ('"timeout"', 0, 0), 'event is "timeout", and call, reply, fail or crash is expected')
_end("jsonl", _JSONL % ('"timeout"', 0, 0), True, "--outcomes", "timeout=unknown")
_end("jsonl", _JSONL % ('"reply","value":"no"', 0, 0), "the reply of a write has the value no")
_end("jsonl", _JSONL % ('"reply","value":"no"', 0, 0), True, "--ok-when", "value=yes")


class Ends(unittest.TestCase):
    def test_a_failure_and_an_unknown_outcome(self) -> None:
        for form, source, options, expected in ENDS:
            with self.subTest(form, source=source, options=options):
                ran = run(source, form, *options)
                if type(expected) is str:
                    self.assertEqual(ran.status, 2, ran.history)
                    self.assertIn(f": {expected}", ran.told)
                else:
                    self.assertEqual(ran.status, 0, ran.told)
                    self.assertEqual(is_atomic(ran.history), expected)


if __name__ == "__main__":
    unittest.main()
