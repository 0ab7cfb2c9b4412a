"""What a refusal advises: each option that it names is tried, and none of them is refused again."""
import re
import shlex
import unittest
from typing import Dict, List, Optional, Tuple

from tests.acts import is_atomic
from tests.convert_support import run

Words = Tuple[str, ...]

_WORD = r"""(?:'[^']*'|"[^"]*"|[^\s'"()])+"""
_ADVISED = re.compile(rf"(?:'--[^']*'|--[a-z-]+(?:[ =](?!--){_WORD})?(?: (?=--))?)+")
_TXN = "{:process %d, :type :%s, :f :txn, :value %s}\n"
_JEPSEN = "{:process 0, :type :%s, :f :%s, :value %s}\n"
_READ = ("{:process 1, :type :invoke, :f :read, :value %s}\n{:process 1, :type :ok, :f :read, :value %s}\n")
_HEADER = "process,start,end,register,op,value"


def _written(value: str, read: str) -> str:
    return _JEPSEN % ("invoke", "write", value) + _JEPSEN % ("ok", "write", value) + _READ % ("nil", read)


# A form, a source, what to put in the place of a word in capitals, and each way out with its verdict. A way
# out that asks for one more word has no verdict.
WAYS_OUT: List[Tuple[str, str, Dict[str, str], Dict[Words, Optional[bool]]]] = [
    ("jepsen", _JEPSEN % ("invoke", "fetch", "[1 nil]") + _JEPSEN % ("ok", "fetch", "[1 nil]")
     + "{:process 1, :type :invoke, :f :write, :value [2 5]}\n", {},
     {("--ops", "fetch=read"): True, ("--ops", "fetch=other", "--skip-key"): True}),
    ("jepsen", _JEPSEN % ("invoke", "store", "[1 4]") + _JEPSEN % ("ok", "store", "[1 4]")
     + _READ % ("[2 nil]", "[2 nil]"), {},
     {("--ops", "store=write"): True, ("--ops", "store=other", "--skip-key"): True}),
    ("csv", "process,start,end,register,op,input,output\n1,1,2,x,set nx,v,OK\n2,3,4,y,get,,\n", {},
     {("--store", "redis"): True, ("--ops", "set nx=other", "--skip-key"): True}),
    ("jepsen", _JEPSEN % ("invoke", "append", "[1 4]")
     + (_JEPSEN % ("invoke", "append", "[1 4]")).replace(":process 0", ":process 5")
     + _READ % ("[2 nil]", "[2 nil]"), {},
     {("--ops", "append=other", "--skip-key"): True}),
    ("jepsen", _written("1", "1").replace(":ok, :f :write", ':ok, :err "late", :f :write'), {"WORD": "late"},
     {("--ok-when", "err=late"): True, ("--ignore-member", "err"): True}),
    ("jepsen", _written("1", "1").replace(":ok, :f :write", ":done, :f :write"), {},
     {("--outcomes", "done=unknown"): True}),
    ("jepsen", _written("1", "1").replace(":ok, :f :write", ':ok, :error :late, :f :write'), {},
     {("--ok-when", "error="): True, ("--ignore-member", "error"): True}),
    ("jepsen", _written("1", "1").replace(":ok, :f :write, :value 1", ":ok, :f :write, :value :done"),
     {"WORD": "done"}, {("--ok-when", "value=done"): True, ("--ignore-member", "value"): True}),
    ("jepsen", _READ % ("nil", "0"), {},
     {("--initial=0",): True, ("--null=0",): True, ("--initial=null",): False}),
    ("jepsen", _READ % ("nil", ":none"), {}, {("--null=:none",): True, ("--initial=null",): False}),
    ("jepsen", _READ % ("nil", "false"), {},
     {("--initial=false",): True, ("--null=false",): True, ("--initial=null",): False}),
    ("jepsen", _READ % ("nil", '"0"'), {},
     {('--initial="0"',): True, ("--null=0",): True, ("--initial=null",): False}),
    ("jepsen", _written("1", '"1"'), {}, {("--values", "alike"): True, ("--values", "exact"): False}),
    ("jepsen", _written(":a", '"a"'), {}, {("--values", "alike"): True, ("--values", "exact"): False}),
    ("jepsen", _JEPSEN % ("invoke", "write", "[1 2]") + _JEPSEN % ("ok", "write", "nil"), {},
     {("--keys", "none"): True}),
    ("porcupine", '{"Input":{"Op":0,"Key":"x","Value":"5"},"Call":1,"Output":{},"Return":2}\n'
     '{"Input":{"Op":1,"Key":"x"},"Call":3,"Output":{"Value":"5"},"Return":4}', {},
     {("--ops", "0=write,1=read"): True}),
    ("porcupine", '{"Input":{"Op":true,"Value":5},"Call":1,"Output":0,"Return":2}\n'
     '{"Input":{"Op":false},"Call":3,"Output":5,"Return":4}', {}, {("--ops", "true=write,false=read"): True}),
    ("porcupine", '{"Input":{"Op":1,"Value":"5"},"Call":1,"Output":"OK","Return":2}', {"WORD": "OK"},
     {("--ok-when", "Output=OK"): True, ("--ignore-member", "Output"): True}),
    ("porcupine", '{"Input":{"Op":0},"Call":1,"Output":{"Value":"nil"},"Return":2}', {},
     {("--null=,nil",): True, ("--initial=null",): False}),
    ("csv", f"{_HEADER},status\n0,1,2,x,write,1,ok\n", {"WORD": "ok"},
     {("--columns", "outcome=status"): True, ("--ok-when", "status=ok"): True,
      ("--ignore-member", "status"): True}),
    ("csv", f"{_HEADER},time taken\n0,1,2,x,write,1,7\n", {"WORD": "7"},
     {("--columns", "outcome=time taken"): None, ("--ok-when", "time taken=7"): True,
      ("--ignore-member", "time taken"): True}),
    ("csv",
     f"{_HEADER}\n0,1,2,x,write,1\n0,3,4,y,write,2\n0,5,6,x,read,1\n".replace("register", "object"), {},
     {("--columns", "register=object"): True, ("--ignore-member", "object"): False}),
    ("csv", f"{_HEADER},outcome\n0,1,2,x,write,1,it's late\n", {},
     {("--outcomes", "it's late=unknown"): True}),
    ("csv", f"{_HEADER},outcome\n0,1,2,x,write,1,ok\n0,3,4,x,write,2,\n", {},
     {("--outcomes", "=ok"): True, ("--outcomes", "=unknown"): True}),
    ("csv", f"{_HEADER}\n0,1,2,x,write,v,\n".replace("value", "value,outcome") + "1,3,4,x,read,b'v',\n", {},
     {("--values", "alike"): True, ("--values", "exact"): False}),
    ("csv", f"{_HEADER}\n0,1,2,x,read,none\n", {}, {("--null=,none",): True, ("--initial=null",): False}),
    ("csv", "process:start:end:op:value\n0:1:2:read:\n", {"C": ":"}, {("--delimiter", ":"): True}),
    ("csv", "who,start,end,op,value\n0,1,2,read,\n", {"NAME": "who"}, {("--columns", "process=who"): True}),
    ("operations", '{"who":0,"start":1,"end":2,"op":"read","value":null}', {"NAME": "who"},
     {("--columns", "process=who"): True}),
    ("operations", '{"process":0,"start":1,"end":2,"op":"read","result":7}\n'
     '{"process":0,"start":0,"end":2,"op":"write","result":7}', {"WORD": "7"},
     {("--ok-when", "result=7"): None, ("--ignore-member", "result"): None}),
    ("operations", '{"process":0,"start":1,"end":2,"object":"x","op":"write","value":1}', {},
     {("--columns", "register=object"): True}),
    ("jsonl", '{"process":0,"event":"call","op":"write","register":"x","value":1}\n'
     '{"process":0,"event":"lost"}', {},
     {("--outcomes", "lost=unknown"): True}),
]


def advised(told: str, fill: Dict[str, str]) -> List[Words]:
    """The options that a refusal names, those that belong together as one."""
    ways = []
    for found in _ADVISED.findall(told):
        words = shlex.split(found.rstrip(" ,.:"))
        for blank, word in fill.items():
            words = [each.replace(blank, word) for each in words]
        ways.append(tuple(words))
    return ways


class Advice(unittest.TestCase):
    def test_each_way_out_works(self) -> None:
        for form, source, fill, ways in WAYS_OUT:
            refused = run(source, form)
            self.assertEqual(refused.status, 2, (source, refused.told))
            named = advised(refused.told, fill)
            with self.subTest(form, source=source, told=refused.told):
                self.assertLessEqual(set(ways), set(named), refused.told)
            for words, verdict in ways.items():
                with self.subTest(form, source=source, words=words):
                    if verdict is not None:
                        ran = run(source, form, *words)
                        found = ran.status or is_atomic(ran.history)
                        self.assertEqual((ran.status, found), (0, verdict), ran.told)


if __name__ == "__main__":
    unittest.main()
