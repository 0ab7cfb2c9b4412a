"""Forms in which people record keys and values, each with its verdict or its refusal.

Each source is of a right history, unless it says otherwise, so a verdict of no would be a wrong one.
"""
import json
import unittest
from typing import List, Tuple

from tests.convert_sources import is_atomic
from tests.convert_support import run, short
from tests.test_convert import jepsen

# A form, its source, the options, and whether it is linearizable or what it is refused for.
FORMS: List[Tuple[str, str, Tuple[str, ...], object]] = []


def _form(form: str, source: str, expected: object, *options: str) -> None:
    FORMS.append((form, source, options, expected))


def _two(written: str, read: str, gave: str, *more: str) -> str:
    """Jepsen's events: two writes, whose %s is a key and a value, and a read of the first."""
    writes = [written % (key, value) for key, value in ((1, 5), (2, 6))]
    return jepsen(*(f"0 {kind} write {value}" for value in writes for kind in ("invoke", "ok")),
                  f"1 invoke read {read}", f"1 ok read {gave}", *more)


# ---- a read's call has the key alone, a map or a transaction

_form("jepsen", _two("[%s %s]", "1", "[1 5]"), True)
_form("jepsen", _two("[:k%s %s]", ":k1", "[:k1 5]"), True)
_form("jepsen", _two("[%s %s]", "1", "[1 5]", "1 invoke read 1", "1 info read 1"), True)
_form("jepsen", _two("[%s %s]", "1", "[2 6]"),
      "a read is called with the value 1, and gave [2 6]: if that tells")
_form("jepsen", _two("[%s %s]", "1", "5"),
      "a read is called with the value 1, and gave 5: if that tells the key")
_form("jepsen", _two("[%s %s]", "1", "5"), "the value 1 is no key with its value", "--keys", "independent")
_form("jepsen", _two("[%s %s]", "nil", "[1 5]"),
      "the value [1 5] may be a key with its value, but the read is")
_form("jepsen", _two("[%s %s]", "nil", "[2 6]"), True, "--keys", "none")
_form("jepsen", _two("[%s :a %s]", "[1 :a nil]", "[1 :a 5]"),
      "a read is called with the value [1 :a nil], and")
_form("jepsen", _two("{:k %s :v %s}", "{:k 1}", "{:k 1 :v 5}"), True)
_form("jepsen", _two("{:key %s :value %s}", "{:key 1 :value nil}", "{:key 1 :value 5}"), True)
_form("jepsen", _two("{:table 1 :id %s :v %s}", "{:table 1 :id 1}", "{:table 1 :id 1 :v 5}"),
      "a read is called ")
_form("jepsen", _two("[[:w %s %s]]", "[[:r 1 nil]]", "[[:r 1 5]]"),
      "the value [[:w 1 5]] of a write looks like a")
_form("jepsen", _two("[%s %s]", "[[:r 1 nil]]", "[[:r 1 5]]"),
      "the value [[:r 1 nil]] of a read looks like a t")
_form("jepsen", _two("[%s [[:w 0 1] [:w 1 %s]]]", "[1 [[:r 0 nil] [:r 1 nil]]]", "[1 [[:r 0 1] [:r 1 5]]]"),
      "the value [[:w 0 1] [:w 1 5]] of a write looks like a transaction, which may touch several keys")
_form("jepsen", _two("[%s %s]", "[1 7]", "[1 5]"),
      "a read is called with the value 7, and gave 5: if that tells ")
_form("jepsen", _two("[%s %s]", "[1 7]", "[1 5]"), True, "--ignore-member", "value")
_form("jepsen", jepsen("0 invoke write 1", "0 ok write 1", "1 invoke read 7"),
      "a read is called with the value 7")
_form("porcupine", '{"Input":{"Op":"put","Key":"x","Value":"1"},"Call":1,"Output":{},"Return":2}\n'
      '{"Input":{"Op":"get","Key":"x","Value":"y"},"Call":3,"Output":{"Value":"1"},"Return":4}',
      'a read is called with the value "y", and gave "1"')
_form("jsonl",
      '{"process":0,"event":"call","op":"read","value":"k"}\n{"process":0,"event":"reply","value":null}',
      'a read is called with the value "k", and gave nil')

# ---- an answer says more than is used: of a write of 1, before a read of null

_EDN = ("{:process 0 :type :invoke :f :write :key 5 :value 1%s}\n"
        "{:process 0 :type :%s :f :write :value 1%s}\n"
        "{:process 1 :type :invoke :f :read :key 5}\n{:process 1 :type :ok :f :read :key 5 :value nil}")
_form("jepsen", _EDN % ("", "ok", ""), False)
_form("jepsen", _EDN % ("", "ok", " :key 5"), False)
_form("jepsen", _EDN % ("", "ok", " :key 6"),
      ":key is 6, and the call at line 1 has 5: is a line of the log missing")
_form("jepsen", _EDN % ("", "info", " :key 6"), ":key is 6, and the call at line 1 has 5")
_form("jepsen", _EDN % ("", "ok", " :k 6"),
      "key is the key in this source, and there is a member k too, which is 6")
_form("jepsen", _EDN % (" :error :late", "ok", ""), "the operation is :invoke and has :error :late")
_form("jepsen", _EDN % ("", "ok", ' :Error "late"'), 'the operation is :ok and has :error "late"')
_form("jepsen", _EDN % ("", "ok", " :note nil"), False)
_form("jepsen", (_EDN % ("", "fail", "")).replace("write :value 1", "write :value 2"),
      "the value is 2, and the call ")
_form("jepsen", (_EDN % ("", "info", "")).replace("write :value 1", "write :value :timeout"), True)
_form("jepsen", jepsen("0 invoke write [5 1]", "0 info write [6 1]"),
      "the value is [6 1], and the call at line 1")
_form("jepsen", jepsen("0 invoke write [5 1]", "0 info write [6 1]"), True, "--ignore-member", "value")
_form("jepsen", (_EDN % ("", "ok", "")).replace(":process 0", ":process :loader"),
      ":process is :loader, and its :f")
_form("jepsen", '{"process":0,"type":"ok","f":"read","value":1,":value":2}',
      "two members have one name, among")
_form("jepsen", "{:process 0 :type :invoke :f :txn :key 5 :value [[:w 1 2]]}",
      "a transaction names the key in its")
_form("jepsen",
      jepsen("0 invoke write [1 5]", "1 invoke read [1 nil]") + "{:process 2 :type :invoke :f :write :key 2 "
      ":value [1 6]}",
      "the values have keys, as [1 6] may have, and the operation has a member that is the key too")
_form("jepsen", jepsen("0 invoke write [5 [3 1]]"), "the value [3 1] of a write asks for a version",
      "--drop-versions")
_GO = '{"ClientId":0,"Input":{"Op":%s,"Key":"x"%s},"Call":1,"Output":{%s},"Return":%s}'
_form("porcupine", _GO % ('"get"', "", '"Value":"1"', "null"),
      "the operation has an answer, 1, and no Return")
_form("porcupine", _GO % ('"get"', "", '"Value":""', "null"), True)
_form("porcupine", _GO % ('"cas"', ',"From":"","To":"1"', '"Ok":true', "null"),
      "the operation has an answer, true, ")
_form("porcupine", _GO % ('"put"', ',"Value":"1"', '"Err":"OK"', '2,"Err":"late"'),
      "err is late, and OK in the output",
      "--ok-when", "Err=OK")
_form("porcupine", _GO % ('"get"', ',"Version":3', '"Value":"","Version":0', "2"),
      "the input of a get has the version 3",
      "--versions", "Version")
_form("porcupine", '{"ClientId":0,"Kind":"call","Id":1,"Value":{"Op":"put","Value":"1"}}\n'
      '{"ClientId":1,"Kind":"return","Id":1,"Value":{}}',
      "ClientId is 1, and the call with this Id, at line 1, has 0")
_ETCD = ('{"Input":{"Op":%d,"Arg1":%d,"Arg2":0},"Call":1,"Return":2,'
         '"Output":{"Ok":false,"Exists":%s,"Value":%d,"Unknown":false}}')
_form("porcupine", _ETCD % (0, 0, "false", 0), True)
_form("porcupine", _ETCD % (0, 7, "false", 0), "Arg1 is 7, and a read, which is Op 0, has none")
_form("porcupine", _ETCD % (0, 0, "false", 7), "Exists is false, and Value is 7: did the read find it?")
_form("porcupine", _ETCD % (1, 7, "true", 0),
      "Exists is true, and only a read has found a value: this is a write")
_CSV = "process,start,end,register,op,value,outcome,from,to,ok\n0,1,2,x,cas,,unknown,1,2,%s\n"
_form("csv", _CSV % "true", "ok is true, and the outcome is another: did the cas take place or not?")
_JSONL = ('{"process":0,"event":"call","op":"write","register":"x","value":1}\n{"process":0,"event":%s}\n'
          '{"process":1,"event":"call","op":"read","register":"x"}\n'
          '{"process":1,"event":"reply","value":null}')
_form("jsonl", _JSONL % '"reply","REGISTER":"x","Value":1', False)
_form("jsonl", _JSONL % '"reply","register":"y"',
      'register is "y", and the call at line 1 has "x": is it the answer')
_form("jsonl", _JSONL % '"crash","register":"y"', 'register is "y", and the call at line 1 has "x"')
_form("jsonl", _JSONL % '"fail","value":2',
      'the write ends by "fail", and there is a value, 2: say --ignore-member value')
_form("jsonl", _JSONL % '"crash","value":2', 'the write ends by "crash", and there is a value, 2')
_form("jsonl", _JSONL % '"fail","value":1', True)
_form("jsonl",
      (_JSONL % '"crash","ok":true').replace('"write"', '"cas"').replace('"value":1', '"from":null,"to":1'),
      'the cas ends by "crash", and ok is true: did it take place or not?')

# ---- kinds of values: what was written, and what a read gave

_ALIKE = "a value of another kind that is spelled alike is written there"
_PART = "a value that has a part of it in common is written there"


def _kinds(form: str, written: str, gave: str, expected: object, *options: str) -> None:
    source = jepsen(f"0 invoke write {written}", f"0 ok write {written}", "1 invoke read nil",
                    f"1 ok read {gave}")
    if form == "csv":
        source = f"process;start;end;op;value\n0;1;2;write;{written}\n1;3;4;read;{gave}\n"
    _form(form, source, expected, *options)


for _written, _gave, _refusal in [
        ("3", "3M", _ALIKE), ("3", "3.0", _ALIKE), ("1.5", '"1.50"', _ALIKE), ("true", '"True"', _ALIKE),
        ('"{\\"a\\":1}"', '"{ \\"a\\": 1 }"', _ALIKE), ('"{\\"a\\":1}"', "{:a 1}", _ALIKE),
      ("3", "({:val 3})", _PART),
        ("[3 7]", "3", _PART), ("{:val 3}", "#my.Row{:val 3}", _PART), ("3", "#{3}", _PART),
        ("3", "[]", "say '--null=[]' if it stands for none"),
      ("3", "()", "say '--null=[]' if it stands for none"),
        ("3", "{}", "say '--null={}' if it stands for none"),
      ("[1 2]", "[]", "say '--null=[]' if it stands for none"),
        ('"abc"', "[97 98 99]", "it is one of the vectors, and only texts are written there; say "),
        ("3", '"abc"', "it is one of the texts, and only whole numbers are written there"),
        ("3", '"4"', "it is one of the texts of numbers, and only whole numbers are written there"),
        ("3", "4.5", "it is one of the other numbers, and only whole numbers are written there"),
        (":a", '"b"', "it is one of the texts, and only keywords are written there"),
        ('"a"', '"{b}"', "it is one of the texts of collections, and only texts are written there")]:
    _kinds("jepsen", _written, _gave, _refusal)
_kinds("jepsen", "3", "3M", True, "--values", "alike")
_kinds("jepsen", "3", "3M", False, "--values", "exact")
_kinds("jepsen", "3", "({:val 3})", _PART, "--values", "alike")
_kinds("jepsen", "3", "[]", False, "--null=[]")
_kinds("jepsen", "3", "4", False)
for _written, _gave in [("1", "01"), ("1", "1.0"), ("1", "+1"), ("1.5", "1.50"), ("true", "True"),
                        ("v1", "b'v1'"), ('{"a":1}', '{"a": 1}'), ("[1,2]", "[1, 2]"), ("1000", "1e3"),
                        ("v1", ":v1")]:
    _kinds("csv", _written, _gave, _ALIKE)
    _kinds("csv", _written, _gave, True, "--values", "alike")
    _kinds("csv", _written, _gave, False, "--values", "exact")
_kinds("csv", "1", "v2", "it is one of the texts, and only whole numbers are written there")
_kinds("csv", "v1", "v2", False)
_kinds("csv", "1.00000000000000000000000000001", "1.00000000000000000000000000002", False)
_kinds("jepsen", "1.00000000000000000000000000001", "1.00000000000000000000000000002", False)
_form("jepsen", jepsen("0 invoke write 1", '0 info cas ["1" 2]').replace(":info", ":invoke").replace(
    ":process 0, :type :invoke, :f :cas", ":process 1, :type :invoke, :f :cas"),
      f'a cas asks for "1", which nothing writes to x: {_ALIKE}')

# ---- keys

_TABLE = "process,start,end,register,op,value\n0,1,2,%s,write,1\n0,3,4,%s,write,2\n1,5,6,%s,%s,%s\n"
_form("jsonl", '{"process":0,"event":"call","op":"write","register":5,"value":1}\n'
      '{"process":1,"event":"call","op":"read","register":"5"}',
      'the key "5" is spelled like 5, the key of line 1, and of another kind: say --values alike')
_form("jepsen", jepsen("0 invoke write [:x 1]", '1 invoke read ["x" nil]'),
      'the key "x" is spelled like :x, the key of')
_form("jepsen", jepsen("0 invoke write [:x 1]", '1 invoke read ["x" nil]'), True, "--values", "alike")
_form("csv", _TABLE % ("x", "y", "01", "read", "") + "1,7,8,1,read,\n",
      'the key "1" is spelled like "01", the key of')
_form("csv", _TABLE % ("x", "y", '"x,y"', "mget", '"1,2"'),
      'the key "x,y" lists keys that other operations have')
_form("csv", _TABLE % ("x", "y", '"x,y"', "mget", '"1,2"') + "0,7,8,z,write,3\n", True, "--skip-key")
_form("csv", _TABLE % ("x", "y", '"x,y"', "mget", '"1,2"') + "0,7,8,z,write,3\n", True, "--ops", "mget=other",
      "--cas", "skip-key")
_form("csv", _TABLE % ("x", "y", '"[""x"",""y""]"', "read", '"1,2"'), "lists keys that other operations have")
_form("csv", _TABLE % ("x", "y", '"x,y"', "read", ""), True, "--values", "exact")
_form("csv", _TABLE % ("k", "y", '"k,2"', "read", ""), True)
_form("csv", _TABLE % ("x", "y", "", "read", "2"), "the read has no key, and the operation of line 2 has")
_form("csv", _TABLE % ("x", "y", "", "read", ""), True, "--register", "z")
_form("csv", _TABLE % ("x", "y", "", "flush", ""),
      "other names no key, and the operation of line 2 does: it may touch "
      "every key, so leave it out of the workload", "--ops", "flush=other", "--skip-key")
_form("operations", '[{"process":0,"start":1,"end":2,"register":"x","op":"write","value":1},'
      '{"process":0,"start":3,"end":4,"register":"y","op":"write","value":2},'
      '{"process":0,"start":5,"end":6,"register":["x","y"],"op":"read","value":[1,2]}]',
      "lists keys that other")
_form("jepsen", jepsen("0 invoke write [:x 1]", "0 ok write [:x 1]", "1 invoke mset [[:x 2] [:y 3]]",
                       "2 invoke read [:x nil]", "2 ok read [:x 2]", "2 invoke write [:z 1]"), True,
      "--ops", "mset=other", "--skip-key")
_form("jepsen",
      "{:process 0 :type :invoke :f :write :key 1 :value 1}\n{:process 1 :type :invoke :f :read :value nil}",
      "the read has no key, and the operation of line 1 has 1: say --key NAME if another member is the key")


class Forms(unittest.TestCase):
    def test_each_has_its_verdict_or_its_refusal(self) -> None:
        for form, source, options, expected in FORMS:
            with self.subTest(form, source=source, options=options):
                ran = run(source, form, *options)
                if type(expected) is str:
                    self.assertEqual(ran.status, 2, ran.history)
                    self.assertIn(expected, ran.told)
                else:
                    self.assertEqual(ran.status, 0, ran.told)
                    self.assertEqual(is_atomic(ran.history), expected, ran.history)


def _keyed(name: str) -> List[Tuple[str, str]]:
    """In each form a write of 1 to a, and a read of 2 from b, whose key is in a member or a column."""
    events = [("call", "write", "a", 1), ("reply", "", "", None), ("call", "read", "b", None),
              ("reply", "", "", 2)]
    rows = [{"process": 0, "event": what, **({"op": op, name: key} if op else {}),
             **({"value": value} if value else {})} for what, op, key, value in events]
    edn = "".join(f"{{:process 0 :type :{'ok' if what == 'reply' else 'invoke'} :f :{op or before} "
                  f":value {value or 'nil'} :{name} :{key or 'nil'}}}\n" for (what, op, key, value), before
                  in zip(events, ["", "write", "", "read"]))
    go = [{"Input": {"Op": op, name: key, "Value": value}, "Call": at, "Return": at + 1,
           "Output": {"Value": answer}}
          for op, key, value, answer, at in [("put", "a", "1", "", 1), ("get", "b", "", "2", 3)]]
    return [("jsonl", "\n".join(map(json.dumps, rows))), ("jepsen", edn.replace(":nil", "nil")),
            ("porcupine", "\n".join(map(json.dumps, go))),
            ("csv", f"process,start,end,op,value,{name}\n0,1,2,write,1,a\n0,3,4,read,2,b\n"),
            ("operations", json.dumps([{"process": 0, "start": at, "end": at + 1, "op": op, "value": value,
                                        name: key} for op, value, key,
      at in [("write", 1, "a", 1), ("read", 2, "b", 3)]]))]


class Keys(unittest.TestCase):
    def registers(self, source: str, form: str, *options: str) -> List[str]:
        ran = run(source, form, *options)
        self.assertEqual(ran.status, 0, ran.told)
        return [line.split()[2].lstrip(":") for line in short(ran.history) if line.split()[1] in ("w", "r")]

    def test_the_key_has_the_name_that_the_options_give(self) -> None:
        for name in ("bucket", "Bucket", "register", "key", "k", "Key"):
            for form, source in _keyed(name):
                with self.subTest(form, name=name):
                    self.assertEqual(self.registers(source, form, "--key", name), ["a", "b"])

    def test_its_usual_names_are_known(self) -> None:
        for name in ("register", "key", "k", "Key", "REGISTER"):
            for form, source in _keyed(name):
                with self.subTest(form, name=name):
                    self.assertEqual(self.registers(source, form), ["a", "b"])

    def test_another_name_is_asked_for(self) -> None:
        for form, source in _keyed("bucket"):
            with self.subTest(form):
                told = run(source, form).told
                self.assertRegex(told, "the (member|column) bucket isn't understood, .*: say --(key |columns "
                                       "register=)bucket if it is the key, ")

    def test_one_name_is_the_key(self) -> None:
        for form, source in _keyed("register"):
            doubled = source.replace('"register"', '"key": "c", "register"').replace(
                " :register", " :key 7 :register")
            if form == "csv":
                doubled = source.replace("register\n", "register,key\n").replace(",a\n", ",a,c\n").replace(
                    ",b\n", ",b,c\n")
            with self.subTest(form):
                ran = run(doubled, form)
                self.assertEqual(ran.status, 2, ran.history)
                self.assertRegex(ran.told, "there is a member key too|(column|member) key isn't understood")

    def test_keys_are_left_out_and_a_cas_stays(self) -> None:
        source = jepsen("0 invoke cas [1 [2 3]]", "1 invoke append [2 4]", "2 invoke write [3 1]")
        kept = run(source, "jepsen", "--ops", "append=other", "--skip-key", "--null=2").history
        self.assertEqual(short(kept), ["0 c 1 None 3", "2 w 3 1"])
        self.assertEqual(short(run(source, "jepsen", "--cas", "skip-key").history), ["2 w 3 1"])


if __name__ == "__main__":
    unittest.main()
