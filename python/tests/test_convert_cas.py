"""Conversions of compare-and-swap: its words in each form, and how it ended, with what may tell so "
  "planted."""
import json
import random
import unittest
from typing import List, Tuple

from tests.convert_sources import plain
from tests.convert_support import SAMPLES, run, short
from tests.search_sources import find_regsearch, right_search_history, verdicts
from tests.test_convert import CAS_CALL, CAS_HEADER, jepsen

REGSEARCH = find_regsearch()

# A form, its source, the options, and whether it is atomic or what it is refused for. A cas from null to 1
# ended before a read of null. That is atomic only if the cas isn't taken for one that took place, nor for one
# that missed.
ENDS: List[Tuple[str, str, Tuple[str, ...], object]] = []


def _end(form: str, source: str, expected: object, *options: str) -> None:
    ENDS.append((form, source, options, expected))


_READ = jepsen("1 invoke read nil", "1 ok read nil")
_LOG = jepsen("0 invoke cas [nil 1]") + "{:process 0, :type :%s, :f :cas, :value %s}\n" + _READ
_end("jepsen", _LOG % ("ok", "[nil 1]"), False)
_end("jepsen", _LOG % ("ok", "nil"), False)
_end("jepsen", _LOG % ("fail", "[nil 1]"), True)
_end("jepsen", _LOG % ("fail", "[nil 1]"), False, "--failed-cas", "missed")
_end("jepsen", _LOG % ("fail", "[nil 1], :error :timeout"), True, "--failed-cas", "missed")
_end("jepsen", _LOG % ("fail", '[nil 1], :error [:not-leader "n2"]'), True, "--failed-cas", "missed")
_end("jepsen", _LOG % ("fail", "[nil 1], :exception {:via []}"), True, "--failed-cas", "missed")
_end("jepsen", _LOG % ("fail", "[nil 1], :error :old"), False, "--outcomes", "old=missed")
_end("jepsen", _LOG % ("fail", "[nil 1], :error :late"), True, "--outcomes", "old=missed")
_end("jepsen", _LOG % ("info", "[nil 1], :error :late"), True, "--outcomes", "late=missed")
_end("jepsen", _LOG % ("fail", '[nil 1], :error [:precondition-failed "1"]'), False, "--failed-cas", "missed")
_end("jepsen", _LOG % ("fail", '[nil 1], :error :precondition-failed'), True)
_end("jepsen", _LOG % ("fail", '[nil 1], :error [:key-does-not-exist "x"]'), True, "--failed-cas", "missed")
_end("jepsen", (_LOG % ("fail", ":none, :error :key-does-not-exist")).replace("[nil 1]", "[:none 1]"), True,
     "--failed-cas", "missed", "--null", "none")
_end("jepsen", (_LOG % ("fail", "[9 1], :error :key-does-not-exist")).replace("read nil", "read 9").replace(
    "[nil 1]", "[9 1]").replace(":ok, :f :read, :value nil", ":ok, :f :read, :value 9"), True,
     "--failed-cas", "missed", "--initial", "9")
_end("jepsen", jepsen("0 invoke cas [1 0]", "0 fail cas [1 0]", "1 invoke read nil", "1 ok read 0"),
     "a read gave 0, which nothing writes to x: say --initial=0", "--failed-cas", "missed")
_end("jepsen", _LOG % ("fail", "[nil 1], :reason :full"), "the member reason isn't "
                                                          "understood", "--failed-cas",
     "missed")
_end("jepsen", _LOG % ("info", "[nil 1]"), True)
_end("jepsen", _LOG % ("info", ":timeout"), True, "--failed-cas", "missed")
_end("jepsen", _LOG % ("ok", "[nil 1], :error :timeout"), "the operation is :ok and has :error :timeout: say")
_end("jepsen", _LOG % ("ok", "[nil 1], :error :timeout"), True, "--ok-when", "error=")
_end("jepsen", _LOG % ("ok", "[nil 1], :error :late"), True, "--ok-when", "error=", "--outcomes", "late=fail")
_end("jepsen", _LOG % ("ok", "[nil 1], :error :old"), False, "--ok-when", "error=", "--outcomes",
     "old=missed")
_end("jepsen", _LOG % ("ok", "false"), "the reply of a cas has the value false, which isn't that of its call")
_end("jepsen", _LOG % ("ok", "false"), True, "--ok-when", "value=true")
_end("jepsen", _LOG % ("ok", "false"), False, "--ok-when", "value=true", "--outcomes", "false=missed")
_end("jepsen", _LOG % ("ok", "true"), False, "--ok-when", "value=true")
_end("jepsen", _LOG % ("no", "nil"), ":type is :no, and :invoke, :ok, :fail or :info is expected")
_end("jepsen", _LOG % ("no", "nil"), True, "--outcomes", "no=fail", "--failed-cas", "missed")
_end("jepsen", "0 :invoke :cas [nil 1]\n0 :fail :cas [nil 1]\n1 :invoke :read nil\n1 :ok :read nil", True)
_end("jepsen", "0 :invoke :cas [nil 1]\n0 :fail :cas [nil 1]\n1 :invoke :read nil\n1 :ok :read nil", False,
     "--failed-cas", "missed")
_end("jepsen", "0 :invoke :cas [nil 1]\n0 :fail :cas [nil 1] :late\n1 :invoke :read nil\n1 :ok :read "
               "nil", True,
     "--failed-cas", "missed")
_end("jepsen", "0 :invoke :cas [nil 1]\n0 :fail :cas {[\n1 :invoke :read nil\n1 :ok :read nil", True)
_PORCUPINE = (
    '{:process 0, :type :invoke, :f :cas, :key "x", :value ["" "1"]}\n'
    '{:process 0, :type :%s, :f :cas, :key "x"}\n'
    '{:process 1, :type :invoke, :f :get, :key "x"}\n{:process 1, :type :ok, :f :get, :key "x", :value ""}')
_end("porcupine", _PORCUPINE % "ok", False)
_end("porcupine", _PORCUPINE % "fail", True)
_end("porcupine", _PORCUPINE % "info", True)
_end("porcupine", _PORCUPINE % "fail", False, "--failed-cas", "missed")
_GO = ('{"ClientId":0,"Input":{"Op":"cas","Key":"x","From":"","To":"1"},"Call":1,%s}\n'
       '{"ClientId":0,"Input":{"Op":0,"Key":"x"},"Call":3,"Output":{"Value":""},"Return":4}')
_end("porcupine", _GO % '"Output":{"Ok":true},"Return":2', False)
_end("porcupine", _GO % '"Output":{"Ok":false},"Return":2', False)
_end("porcupine", _GO % '"Output":{"Ok":false},"Return":null', True)
_end("porcupine", _GO % '"Output":{"Ok":false},"Return":9223372036854775807', True)
_end("porcupine", _GO % '"Output":{"Ok":true,"Err":"late"},"Return":2', "the member Err isn't understood")
_end("porcupine", _GO % '"Output":{"Ok":true,"Err":"late"},"Return":2', True, "--ok-when", "Err=OK")
_end("porcupine", _GO % '"Output":{"Ok":false,"Err":"late"},"Return":2', True, "--ok-when", "Err=OK")
_end("porcupine", _GO % '"Output":{"Err":"late"},"Return":2', True, "--ok-when", "Err=OK", "--outcomes",
     "late=fail")
_end("porcupine", _GO % '"Output":{"Err":"old"},"Return":2', False, "--ok-when", "Err=OK", "--outcomes",
     "old=missed")
_end("porcupine", _GO % '"Output":{"Ok":false},"Return":2', True, "--ok-when", "Ok=true")
_end("porcupine", _GO % '"Output":true,"Return":2', "the output of a cas has no Ok, true or false")
_end("porcupine", _GO % '"Output":{"Ok":true,"Value":"2"},"Return":2', "the output of a cas has the value 2")
_end("porcupine", _GO % '"Output":{"Value":"2","Err":"OK"},"Return":2', "the output of a cas has the value 2",
     "--ok-when", "Err=OK")
_end("porcupine", _GO % '"Output":{"Ok":true},"Version":0,"Return":2', "the member Version isn't understood")
_ETCD = ('{"ClientId":0,"Input":{"Op":2,"Arg1":null,"Arg2":1},"Call":1,"Output":%s,"Return":2}\n'
         '{"ClientId":0,"Input":{"Op":0,"Arg1":0,"Arg2":0},"Call":3,"Output":{"Exists":false},"Return":4}')
_end("porcupine", _ETCD % '{"Ok":true,"Exists":false,"Value":0,"Unknown":false}', False)
_end("porcupine", _ETCD % '{"Ok":false,"Exists":false,"Value":0,"Unknown":false}', False)
_end("porcupine", _ETCD % '{"Ok":false,"Exists":false,"Value":0,"Unknown":true}', True)
_end("porcupine", _ETCD % '{"Ok":true,"Value":5}', "the output of a cas has the value 5")
_MIXED = ('{"Input":{"Op":1,"Arg1":1,"Arg2":0},"Call":1,"Return":2,'
          '"Output":{"Ok":false,"Exists":false,"Value":0,"Unknown":false}}\n'
          '{"Input":{"Op":1,"Arg1":2,"Arg2":0},"Call":3,"Return":4,'
          '"Output":{"Ok":%s,"Exists":false,"Value":0,"Unknown":false}}\n'
          '{"Input":{"Op":0,"Arg1":0,"Arg2":0},"Call":5,"Return":6,'
          '"Output":{"Ok":%s,"Exists":true,"Value":2,"Unknown":false}}')
_end("porcupine", _MIXED % ("false", "false"), True)
_end("porcupine", _MIXED % ("true", "true"), "Ok is true at line 2 and false at line 1, and this is a write")
_end("porcupine", _MIXED % ("true", "true"), True, "--ok-when", "Ok=true")
_end("porcupine", _ETCD.replace('"Exists":false}', '"Exists":true}') % '{"Ok":true}',
     "the output of a read has Exists, true or false, and Value")
_end("porcupine", _ETCD % '{"Exists":false}', "the output of a cas has no Ok, true or false")
_end("porcupine", _ETCD % '{"Ok":true,"Error":"late"}', "the member Error isn't understood")
_end("porcupine", _GO.replace('"Call":3', '"Call":2') % '"Output":{"Ok":true},"Return":2', True)  # a tie
_PUT = ('{"ClientId":0,"Input":{"Op":1,"Key":"x","Value":"a","Version":0},"Call":1,"Output":%s,"Return":2}\n'
        '{"ClientId":0,"Input":{"Op":0,"Key":"x","Value":"","Version":0},"Call":3,'
        '"Output":{"Value":"","Version":0,"Err":"ErrNoKey"},"Return":4}')
VERSIONS = ("--versions", "Version", "--ok-when", "Err=OK", "--null", ",ErrNoKey")
_end("porcupine", _PUT % '{"Value":"","Version":0,"Err":"OK"}', False, *VERSIONS)
_end("porcupine", _PUT % '{"Value":"","Version":1,"Err":"OK"}', False, *VERSIONS)
_end("porcupine", _PUT % '{"Value":"","Version":0,"Err":"ErrMaybe"}', True, *VERSIONS)
_end("porcupine", _PUT % '{"Value":"","Version":0,"Err":"ErrVersion"}', True, *VERSIONS)
_end("porcupine", _PUT % '{"Err":"ErrVersion"}', True, *VERSIONS, "--outcomes", "ErrVersion=fail")
_end("porcupine", _PUT % '{"Err":"ErrVersion"}', False, *VERSIONS, "--outcomes", "ErrVersion=missed")
_end("porcupine", _PUT % '{"Err":"OK","Version":7}', "the answer to a put has the version 7, and the put",
     *VERSIONS)
_end("porcupine", _PUT % '{"Err":"OK","Leader":7}', "the member Leader isn't understood", *VERSIONS)
_end("porcupine", (_PUT % '{"Err":"OK"}').replace(',"Version":0', ""), "the put has no version in",
     *VERSIONS)
_end("porcupine", (_PUT % '{"Err":"OK"}').replace("ErrNoKey", "OK").replace(',"Version":0,"Err"', ',"Err"'),
     "the answer to a get has no version in version", *VERSIONS)
_end("porcupine", (_PUT % '{"Err":"OK"}').replace('"Version":0}', '"Version":"0"}'), "the put has the version 0 in",
     *VERSIONS)
_end("porcupine", _PUT % "{}", "the output of a cas has no Ok", "--versions", "Version", "--ignore-member",
     "Err")
_TABLE = CAS_HEADER + "0,1,2,x,cas,,%s\n0,3,4,x,read,,%s,,,\n"
_end("csv", _TABLE % ("ok,,1,true", "ok"), False)
_end("csv", _TABLE % ("ok,,1,false", "ok"), False)
_end("csv", _TABLE % ("ok,,1,", "ok"), False)
_end("csv", _TABLE % ("missed,,1,", "ok"), False)
_end("csv", _TABLE % ("fail,,1,", "ok"), True)
_end("csv", _TABLE % ("fail,,1,false", "ok"), True)
_end("csv", _TABLE % ("fail,,1,false", "ok"), False, "--failed-cas", "missed")
_end("csv", _TABLE % ("unknown,,1,false", "ok"), True, "--failed-cas", "missed")
_end("csv", _TABLE % (",,1,false", ""), False)
_end("csv", _TABLE % (",,1,", ""), "the row of a cas doesn't say whether it took place")
_end("csv", _TABLE % (",,1,", ""), False, "--outcomes", "=ok")
_end("csv", _TABLE % ("old,,1,", "ok"), "the outcome is old, and ok, fail, unknown or info is expected, or "
                                        "miss")
_end("csv", _TABLE % ("old,,1,", "ok"), True, "--outcomes", "old=fail", "--failed-cas", "missed")
_end("csv", _TABLE % ("ok,,1,error", "ok"), "ok is error, and true or false is expected")
_end("csv", _TABLE % ("ok,,1,error", "ok"), True, "--ok-when", "ok=true,", "--outcomes", "error=fail")
_end("csv", _TABLE.replace("0,1,2", "0,1,") % ("missed,,1,", "ok"), True)
_end("csv", _TABLE.replace("0,1,2", "0,1,") % ("fail,,1,", "ok"), True, "--failed-cas", "missed")
_end("csv", _TABLE.replace("0,3,4", "0,2,4") % ("ok,,1,true", "ok"), True)  # a tie
_end("csv", _TABLE.replace("0,3,4", "0,2,4") % ("ok,2,1,false", "ok"), True)
_OBJECT = ('{"process":0,"start":1,"end":2,"op":"cas","from":null,"to":1%s}\n'
           '{"process":0,"start":3,"end":4,"op":"read","value":null}')
_end("operations", _OBJECT % ',"ok":true', False)
_end("operations", _OBJECT % ',"ok":false', False)
_end("operations", _OBJECT % ',"outcome":"fail"', True)
_end("operations", _OBJECT % ',"outcome":"unknown","ok":false', True)
_end("operations", _OBJECT % ',"outcome":"missed"', False)
_end("operations", _OBJECT % "", "the row of a cas doesn't say whether it took place")
_end("operations", _OBJECT % ',"ok":"late"', "ok is late, and true or false is expected")
_end("operations", _OBJECT % ',"ok":1', "ok is 1, and true or false is expected")
_end("operations", _OBJECT % ',"ok":true,"error":"late"', "the member error isn't understood")
_end("operations", _OBJECT % ',"ok":true,"error":"late"', True, "--ok-when", "error=")
_end("operations", _OBJECT % ',"error":""', "the row of a cas doesn't say whether it took place", "--ok-when",
     "error=")
_TWO = ("--ok-when", "error=", "--ok-when", "code=200", "--outcomes", "412=missed,409=fail")
_end("operations", (_OBJECT % ',"code":412,"error":"late"').replace("null}", 'null,"code":200}'), True, *_TWO)
_end("operations", (_OBJECT % ',"code":412,"error":"409"').replace("null}", 'null,"code":200}'), True, *_TWO)
_end("operations", (_OBJECT % ',"code":412').replace("null}", 'null,"code":200}'), False, *_TWO)
_end("operations", (_OBJECT % ',"code":200').replace("null}", 'null,"code":200}'), False, "--ok-when",
     "code=200")
_end("operations", _OBJECT.replace('"start":3', '"start":2') % ',"ok":true', True)  # a tie
_EVENTS = (CAS_CALL.replace('"from":1,"to":2', '"from":null,"to":1') + '{"process":1,"event":%s}\n'
           '{"process":2,"event":"call","op":"read","register":"x"}\n'
           '{"process":2,"event":"reply","value":null}')
_end("jsonl", _EVENTS % '"reply","ok":true', False)
_end("jsonl", _EVENTS % '"reply","ok":false', False)
_end("jsonl", _EVENTS % '"fail"', True)
_end("jsonl", _EVENTS % '"fail","ok":false', True)
_end("jsonl", _EVENTS % '"fail"', False, "--failed-cas", "missed")
_end("jsonl", _EVENTS % '"crash"', True, "--failed-cas", "missed")
_end("jsonl", _EVENTS % '"old"', 'event is "old", and call, reply, fail or crash is expected')
_end("jsonl", _EVENTS % '"old"', False, "--outcomes", "old=missed")
_end("jsonl", _EVENTS % '"late"', True, "--outcomes", "late=unknown")
_end("jsonl", _EVENTS % '"reply","ok":true,"error":"late"', "the member error isn't understood")
_end("jsonl", _EVENTS % '"reply","ok":true,"error":"late"', True, "--ok-when", "error=")
_end("jsonl", _EVENTS % '"reply","ok":false,"error":"late"', True, "--ok-when", "error=", "--outcomes",
     "late=fail")
_end("jsonl", _EVENTS % '"reply","ok":"late"', "a cas's reply has no ok, true or false")
_end("jsonl", _EVENTS % '"reply","ok":false', True, "--ok-when", "ok=true")
_end("jsonl", _EVENTS % '"reply"', "a cas's reply has no ok, true or false", "--ok-when", "ok=true,")
_end("jsonl", _EVENTS % '"reply","ok":true', "a cas's reply has no ok", "--ignore-member", "ok")
_end("jsonl", _EVENTS % '"reply","ok":true,"to":2', "to is 2, and the call at line 1 has 1: is it the answer")


@unittest.skipUnless(REGSEARCH, "bin/regsearch isn't built, and REGSEARCH names none")
class Ends(unittest.TestCase):
    def test_how_a_cas_ended(self) -> None:
        for form, source, options, expected in ENDS:
            with self.subTest(form, source=source, options=options):
                ran = run(source, form, *options)
                if type(expected) is str:
                    self.assertEqual(ran.status, 2, ran.history)
                    self.assertIn(f": {expected}", ran.told)
                else:
                    self.assertEqual(ran.status, 0, ran.told)
                    self.assertEqual(verdicts([ran.history], REGSEARCH or ""), [expected], ran.history)


MISSED = ("--failed-cas", "missed")
PUTS = (*VERSIONS, "--outcomes", "ErrVersion=missed")
SAMPLE_RUNS: List[Tuple[str, str, Tuple[str, ...]]] = [
    ("jepsen_cas.edn", "jepsen", MISSED), ("knossos_cas_register.edn", "jepsen", ()),
    ("maelstrom_cas.edn", "jepsen", MISSED), ("porcupine_etcd.log", "porcupine", MISSED),
    ("porcupine_model.jsonl", "porcupine", ()), ("porcupine_puts.jsonl", "porcupine",
                                                 (*PUTS, "--ignore-member", "Value")),
    ("jepsen_etcd.edn", "jepsen", ("--drop-versions", "--outcomes", "did-not-succeed=missed")),
    ("cas.csv", "csv", ()), ("cas_events.jsonl", "jsonl", ()),
]


class Samples(unittest.TestCase):
    def test_each_becomes_the_history_that_was_worked_out_by_hand(self) -> None:
        for name, form, options in SAMPLE_RUNS:
            with self.subTest(name):
                expected = (SAMPLES / name).with_suffix(".expected").read_text(encoding="utf-8")
                ran = run((SAMPLES / name).read_text(encoding="utf-8"), form, *options)
                self.assertEqual((ran.status, ran.history), (0, expected), ran.told)

    @unittest.skipUnless(REGSEARCH, "bin/regsearch isn't built, and REGSEARCH names none")
    def test_each_is_atomic(self) -> None:
        histories = [run((SAMPLES / name).read_text(encoding="utf-8"), form, *options).history
                     for name, form, options in SAMPLE_RUNS]
        self.assertEqual(verdicts(histories, REGSEARCH or ""), [True] * len(SAMPLE_RUNS))


class Words(unittest.TestCase):
    def check(self, form: str, source: str, expected: List[str], *options: str) -> None:
        ran = run(source, form, *options)
        self.assertEqual((ran.status, short(ran.history)), (0, expected), ran.told)

    def test_keys(self) -> None:
        source = jepsen("0 invoke cas [:k [1 2]]", "0 fail cas [:k [1 2]]", "1 invoke cas [:j [nil 2]]",
                        "1 ok cas [:j [nil 2]]")
        self.check("jepsen", source, ["0 c :k 1 2", "0 False", "1 c :j None 2", "1 True"], "--failed-cas",
                   "missed")
        self.check("jepsen", jepsen("0 invoke cas [1 2]", "1 invoke write [1 2]"), ["0 c x 1 2", "1 w x 3"],
                   "--values", "exact")
        self.check("jepsen", jepsen("0 invoke cas [[1 2] [3 4]]"), ["0 c x 1 2"], "--keys", "none")
        self.check("jepsen", jepsen("0 invoke cas [[1 2] [3 4]]"), ["0 c [1 2] 3 4"], "--keys", "independent")

    def test_texts_are_numbered_alike_wherever_they_stand(self) -> None:
        source = jepsen('0 invoke write "a"', '0 ok write "a"',
                        '0 invoke cas ["a" "b"]', '0 ok cas ["a" "b"]',
                        "0 invoke cas [3 1]", "0 info cas [3 1]", "1 invoke read nil", '1 ok read "b"')
        ran = run(source, "jepsen", "--map")
        self.assertEqual(short(ran.history), ["0 w x 2", "0 .", "0 c x 2 4", "0 True", "0 c x 3 1", "0 crash",
                                              "1 r x", "1 = 4"])
        self.assertEqual(ran.map and ran.map["values"], {"x": {"2": "a", "4": "b"}})

    def test_values_may_repeat(self) -> None:
        source = jepsen("0 invoke write 5", "0 ok write 5", "0 invoke write 5", "0 fail write 5")
        self.check("jepsen", source, ["0 w x 5", "0 .", "0 w x 5", "0 fail"])
        self.check("jepsen", jepsen("0 invoke write 5"), ["0 w x 5", "0 .", "0 w x 5"], "--initial", "5")

    def test_other_words(self) -> None:
        source = CAS_HEADER.replace("from,to", "old,new") + "0,1,2,x,SWAP,,done,1,2,\n"
        self.check("csv", source, ["0 c x 1 2", "0 True"], "--columns", "from=old,to=new", "--ops",
                   "swap=cas", "--outcomes", "done=ok")

    def test_columns_of_these_names_may_be_the_times(self) -> None:
        source = "process,from,to,op,value\n0,1,2,write,1\n"
        self.check("csv", source, ["0 w x 1", "0 ."], "--columns", "start=from,end=to")

    def test_what_is_told(self) -> None:
        source = jepsen("0 invoke cas [nil 1]", "0 ok cas [nil 1]", "0 invoke cas [2 3]", "0 fail cas [2 3]",
                        "0 invoke write 1", "0 ok write 1", "0 invoke write 1", "0 ok write 1")
        source += ("{:process 0 :type :invoke :f :cas :value [1 2]}\n"
                   "{:process 0 :type :fail :f :cas :error :late}")
        told = run(source, "jepsen", "--failed-cas", "missed").told
        self.assertIn("read 5 operations of 1 client on 1 register: 2 writes, 0 reads, 3 cas; 1 failed, 1 "
                      "missed, 0 of unknown outcome\n", told)
        self.assertIn("the history has cas and repeated values, so it is one for regsearch; regkit "
                      "check", told)
        self.assertIn("took 1 cas with an error such as late as failed, and not as missed: --outcomes "
                      "ERROR=missed is for an error by which the store found another value\n", told)

    def test_versions_are_told_of(self) -> None:
        source = (SAMPLES / "porcupine_puts.jsonl").read_text(encoding="utf-8")
        self.assertIn("each register has the versions of its key, and a put is a cas from its version to the "
                      "next: the values aren't checked",
                      run(source, "porcupine", *PUTS, "--ignore-member", "Value").told)
        self.assertIn("each value of the history is [version value], and a put is a cas from the value of "
                      "its version to the next\n", run(source, "porcupine", *PUTS).told)
        log = run('{:process 0, :type :invoke, :f :put, :key "x", :value "1"}', "porcupine", *PUTS)
        self.assertEqual((log.status, log.history), (3, ""))
        self.assertIn("--versions and --revisions are for Go's values as JSON (--from porcupine), for tables "
                      "and for operations as JSON: here, record a put by version as a cas from its version to "
                      'the next one, as in :f :cas, :value ["3" "4"]\n', log.told)
        self.assertIn("isn't understood, and it may tell the outcome (here it is 0): say --versions Version "
                      "if a put takes place only if its key has this version, --ok-when Version=WORD,.. with",
                      run(source, "porcupine").told)
        for form, example in [("jepsen", ":f :cas, :value [3 4]"), ("jsonl", '"op":"cas","from":3,"to":4')]:
            ran = run("", form, "--versions", "Version")
            self.assertEqual((ran.status, ran.history), (3, ""))
            self.assertIn(f"a cas from its version to the next one, as in {example}\n", ran.told)


class ValuesWithVersions(unittest.TestCase):
    """[version value], as Jepsen's test of etcd records them."""

    def test_they_are_told_of(self) -> None:
        ran = run(jepsen("0 invoke write [nil 3]", "0 ok write [1 3]"), "jepsen", "--drop-versions")
        self.assertEqual(short(ran.history), ["0 w x 3", "0 ."])
        self.assertIn("each value is [version value], and the versions are left out: they aren't checked",
                      ran.told)

    def test_with_keys_or_without(self) -> None:
        calls = ["0 invoke read %s", "0 ok read %s", "0 invoke write %s", "0 ok write %s", "0 invoke cas %s",
                 "0 ok cas %s"]
        values = ["[nil nil]", "[nil nil]", "[nil 3]", "[1 3]", "[nil [3 4]]", "[2 [3 4]]"]
        expected = ["0 r {}", "0 = None", "0 w {} 3", "0 .", "0 c {} 3 4", "0 True"]
        for form, name in [("{}", "x"), ("[7 {}]", "7")]:
            lines = [line % form.format(value) for line, value in zip(calls, values)]
            for keys in ("auto", "none" if name == "x" else "independent"):
                with self.subTest(form, keys=keys):
                    ran = run(jepsen(*lines), "jepsen", "--drop-versions", "--keys", keys)
                    self.assertEqual(short(ran.history), [line.format(name) for line in expected], ran.told)

    def test_what_has_none_is_refused(self) -> None:
        """But for a read that is called with nil, or found nothing at all."""
        read = jepsen("0 invoke read nil", "0 ok read nil", "0 invoke read [nil nil]", "0 ok read [nil nil]")
        self.assertEqual(short(run(read, "jepsen", "--drop-versions", "--keys", "none").history),
                         ["0 r x", "0 = None"] * 2)
        for lines, line, words in [
                (["0 invoke write 3"], 1, "3 of a write isn't [version value]"),
                (["0 invoke write [1 2 3]"], 1, "[1 2 3] of a write isn't [version value]"),
                (["0 invoke write [nil 3]", "0 ok write nil"], 2, "nil of a write isn't [version value]"),
                (["0 invoke read nil", "0 ok read 3"], 2, "3 of a read isn't [version value]"),
                (["0 invoke cas [1 2]"], 1, "[1 2] of a cas isn't [version [from to]]"),
                (["0 invoke cas [nil [1 2]]", "0 ok cas [3 4]"], 2,
                 "[3 4] of a cas isn't [version [from to]]")]:
            with self.subTest(lines):
                ran = run(jepsen(*lines), "jepsen", "--drop-versions", "--keys", "none")
                self.assertEqual((ran.status, ran.history), (2, ""))
                self.assertIn(f"line {line}: the value {words}, as --drop-versions says\n", ran.told)

    def test_the_option_is_named_where_values_may_have_versions(self) -> None:
        read = ("1 invoke read [7 nil]", "1 ok read [7 nil]")  # so there are keys
        for lines, words in [
                (["0 invoke write [7 [nil 3]]", "0 ok write [7 [2 3]]"],
                 "write has the value [2 3], and its call, at line 3, [nil 3]: say --drop-versions if each"),
                (["0 invoke write [7 [nil 3]]", "0 ok write [7 [nil 3]]", "0 invoke read [7 nil]",
                  "0 ok read [7 [2 3]]"],
                 "is written there; say --drop-versions if each value is [version value], let the"),
                (["0 invoke cas [7 [nil [3 4]]]", "0 fail cas [7 [nil [3 4]]]"],
                 "the value [nil [3 4]] of a cas may be [version [from to]]: say --drop-versions if it is")]:
            with self.subTest(lines):
                ran = run(jepsen(*read, *lines), "jepsen")
                self.assertEqual((ran.status, ran.history), (2, ""))
                self.assertIn(words, ran.told)

    def test_a_cas_that_asks_for_nil(self) -> None:
        """[nil [3 4]] is a cas from nil to the vector [3 4], if a person says so or another cas shows it."""
        lines = ["0 invoke cas [nil [3 4]]", "0 ok cas [nil [3 4]]"]
        exact = run(jepsen(*lines), "jepsen", "--values", "exact", "--keys", "none")
        self.assertEqual(short(exact.history), ["0 c x None 1", "0 True"])
        lines += ["0 invoke cas [[3 4] [5 6]]", "0 fail cas [[3 4] [5 6]]"]
        self.assertEqual(short(run(jepsen(*lines), "jepsen", "--keys", "none").history),
                         ["0 c x None 1", "0 True", "0 c x 1 2", "0 fail"])

    def test_keys_that_are_skipped_need_not_be_understood(self) -> None:
        lines = ["0 invoke cas [7 [nil [3 4]]]", "0 fail cas [7 [nil [3 4]]]", "0 invoke write [8 3]"]
        ran = run(jepsen(*lines), "jepsen", "--cas", "skip-key", "--keys", "independent")
        self.assertEqual(short(ran.history), ["0 w 8 3"], ran.told)

    def test_for_jepsen_alone(self) -> None:
        ran = run(CAS_HEADER, "csv", "--drop-versions")
        self.assertEqual(ran.status, 3)
        self.assertIn("--drop-versions is for jepsen, not for csv", ran.told)


class RoundTrips(unittest.TestCase):
    def test_random_histories_there_and_back(self) -> None:
        """In each form, with failures apart from misses."""
        chance = random.Random(4)
        for calls in (right_search_history(chance) for _ in range(100)):
            history = run(plain(calls), "jsonl").history if calls else ""
            for form in ("jepsen", "porcupine", "csv", "operations") if calls else ():
                options = ("--failed-cas", "missed") if form in ("jepsen", "porcupine") else ()
                with self.subTest(form, history=history):
                    there = run(history, "jsonl", "--to", form)
                    back = run(there.history, form, *options)
                    self.assertEqual(back.history, history, (there.history, back.told))
            if calls:
                self.assertEqual([json.loads(line) for line in plain(calls).splitlines()],
                                 [json.loads(line) for line in history.splitlines()])


if __name__ == "__main__":
    unittest.main()
