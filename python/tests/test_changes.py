"""Operations that read and write at once, as the cas that they are, and what is advised of others."""
import json
import unittest
from typing import Any, Dict, List, Optional, Tuple

from tests.convert_support import run, short
from tests.search_sources import find_regsearch, verdicts

REGSEARCH = find_regsearch()

# A word for an operation, what --ops says, what is asked and what is answered by two operations in turn, the
# lines of the history, and whether a store may answer so, from an initial 0.
Asked = Tuple[Any, Any]
CHANGES: List[Tuple[str, str, List[Asked], List[str], bool]] = [
    ("incr", "add", [(None, 1), (None, 2)], ["0 c x 0 1", "0 True", "1 c x 1 2", "1 True"], True),
    ("incr", "add", [(None, 1), (None, 1)], ["0 c x 0 1", "0 True", "1 c x 0 1", "1 True"], False),
    ("incrby", "add", [(5, 5), (2, 7)], ["0 c x 0 5", "0 True", "1 c x 5 7", "1 True"], True),
    ("incrby", "add", [(-3, -3), (2, -2)], ["0 c x 0 -3", "0 True", "1 c x -4 -2", "1 True"], False),
    ("getincr", "fetch-add", [(None, 0), (None, 1)], ["0 c x 0 1", "0 True", "1 c x 1 2", "1 True"], True),
    ("getincr", "fetch-add", [(3, 0), (3, 0)], ["0 c x 0 3", "0 True", "1 c x 0 3", "1 True"], False),
    ("decr", "subtract", [(None, -1), (None, -2)], ["0 c x 0 -1", "0 True", "1 c x -1 -2", "1 True"], True),
    ("decrby", "subtract", [(3, -3), (2, -2)], ["0 c x 0 -3", "0 True", "1 c x 0 -2", "1 True"], False),
    ("getdecr", "fetch-subtract", [(None, 0), (2, -1)],
     ["0 c x 0 -1", "0 True", "1 c x -1 -3", "1 True"], True),
    ("getset", "swap", [(7, 0), (8, 7)], ["0 c x 0 7", "0 True", "1 c x 7 8", "1 True"], True),
    ("getset", "swap", [(7, 0), (8, 0)], ["0 c x 0 7", "0 True", "1 c x 0 8", "1 True"], False),
]
START = ("--initial", "0")


def jepsen(word: str, operations: List[Asked]) -> str:
    lines = []
    for process, (asked, answered) in enumerate(operations):
        given = "nil" if asked is None else asked
        lines += [f"{{:process {process}, :type :invoke, :f :{word}, :value {given}}}",
                  f"{{:process {process}, :type :ok, :f :{word}, :value {answered}}}"]
    return "\n".join(lines)


def porcupine(word: str, operations: List[Asked]) -> str:
    return "\n".join(json.dumps({
        "ClientId": place, "Input": {"Op": word, "Key": "x", **({} if asked is None else {"Value": asked})},
        "Call": 10 * place, "Output": {"Value": answered}, "Return": 10 * place + 5})
        for place, (asked, answered) in enumerate(operations))


def csv(word: str, operations: List[Asked]) -> str:
    return "\n".join(["process,start,end,op,input,output", *(
        f"{place},{10 * place},{10 * place + 5},{word},{'' if asked is None else asked},{answered}"
        for place, (asked, answered) in enumerate(operations))])


def jsonl(word: str, operations: List[Asked]) -> str:
    lines: List[Dict[str, Any]] = []
    for process, (asked, answered) in enumerate(operations):
        value = {} if asked is None else {"value": asked}
        lines += [{"process": process, "event": "call", "op": word, "register": "x", **value},
                  {"process": process, "event": "reply", "value": answered}]
    return "\n".join(map(json.dumps, lines))


FORMS = {"jepsen": jepsen, "porcupine": porcupine, "csv": csv, "jsonl": jsonl}


def history(form: str, source: str, *options: str) -> str:
    ran = run(source, form, *options)
    assert ran.status == 0, ran.told
    return ran.history


class Changes(unittest.TestCase):
    def test_each_is_the_cas_that_it_is(self) -> None:
        for word, op, operations, lines, _ in CHANGES:
            for form, write in FORMS.items():
                with self.subTest(word, form=form, operations=operations):
                    made = history(form, write(word, operations), "--ops", f"{word}={op}", *START)
                    self.assertEqual(short(made)[2:], lines)

    @unittest.skipUnless(REGSEARCH, "bin/regsearch isn't built, and REGSEARCH names none")
    def test_verdicts(self) -> None:
        assert REGSEARCH is not None
        for form, write in FORMS.items():
            made = [history(form, write(word, operations), "--ops", f"{word}={op}", *START)
                    for word, op, operations, _, _ in CHANGES]
            self.assertEqual(verdicts(made, REGSEARCH), [row[4] for row in CHANGES], form)

    def test_create(self) -> None:
        """A cas from null, which took place or found a value, by what the form says of a cas."""
        rows = "process,start,end,op,value,ok\n1,1,2,setnx,7,true\n2,3,4,setnx,8,false\n"
        lines = ["1 c x None 7", "1 True", "2 c x None 8", "2 False"]
        log = ("{:process 1, :type :invoke, :f :setnx, :value 7}\n{:process 1, :type :ok, :f :setnx, :value "
               "7}\n{:process 2, :type :invoke, :f :setnx, :value 8}\n{:process 2, :type :fail, :f :setnx, "
               ":value 8}")
        go = "\n".join(json.dumps({"ClientId": place, "Input": {"Op": "setnx", "Value": value},
                                   "Call": place * 9,
                                   "Output": {"Ok": value == "7"}, "Return": place * 9 + 1})
                       for place, value in ((1, "7"), (2, "8")))
        own = "\n".join(['{"process":1,"event":"call","op":"setnx","register":"x","value":7}',
                         '{"process":1,"event":"reply","ok":true}',
                         '{"process":2,"event":"call","op":"setnx","register":"x","value":8}',
                         '{"process":2,"event":"reply","ok":false}'])
        for form, source, more in [("csv", rows, ()), ("csv", rows.replace(",value,ok", ",input,output"), ()),
                                   ("jepsen", log, ("--failed-cas", "missed")), ("porcupine", go, ()),
                                   ("jsonl", own, ())]:
            with self.subTest(form, source=source):
                self.assertEqual(short(history(form, source, "--ops", "setnx=create", *more)), lines)

    def test_a_create_has_to_say_whether_it_took_place(self) -> None:
        for form, source, words in [
                ("csv", "process,start,end,op,value\n1,1,2,setnx,7\n", "doesn't say whether it took place"),
                ("jsonl",
                 '{"process":1,"event":"call","op":"setnx","value":7}\n{"process":1,"event":"reply"}',
                 "reply has no ok, true or false"),
                ("porcupine", '{"Input":{"Op":"setnx","Value":7},"Call":1,"Output":{},"Return":2}',
                 "the output of a cas has no Ok"),
                ("jepsen", "{:process 1, :type :invoke, :f :setnx, :value 7}\n"
                 "{:process 1, :type :ok, :f :setnx, :value 0}", "the reply of a create has the value 0")]:
            with self.subTest(form):
                ran = run(source, form, "--ops", "setnx=create")
                self.assertEqual(ran.status, 2)
                self.assertIn(words, ran.told)

    def test_without_a_reply(self) -> None:
        """A swap is a write then. An addition has no value that could be named, unless it had no effect."""
        begin = "{:process 0, :type :invoke, :f :%s, :value 7}\n"
        end = begin + "{:process 0, :type :%s, :f :%s, :value 7}\n"
        self.assertEqual(short(history("jepsen", begin % "getset", "--ops", "getset=swap")), ["0 w x 7"])
        for kind, line in [("info", "0 crash"), ("fail", "0 fail")]:
            made = history("jepsen", end % ("getset", kind, "getset"), "--ops", "getset=swap")
            self.assertEqual(short(made), ["0 w x 7", line])
        for source in (begin % "incr", end % ("incr", "info", "incr")):
            ran = run(source, "jepsen", "--ops", "incr=add")
            self.assertEqual(ran.status, 2)
            self.assertIn("line 1: an addition of unknown outcome: nobody saw the value that it wrote, and",
                          ran.told)
            self.assertIn("NP-complete question. Record the value that the store answers", ran.told)
        ran = run(end % ("incr", "fail", "incr") + end.replace("0", "1") % ("write", "ok", "write"), "jepsen",
                  "--ops", "incr=add")
        self.assertEqual(short(ran.history), ["1 w x 7", "1 ."])
        self.assertIn("left out 1 addition that failed, since they had no effect", ran.told)

    def test_a_reply_that_may_repeat_its_call(self) -> None:
        for word, op, operations in [("incr", "add", [(1, 1), (1, 1)]), ("getset", "swap", [(7, 7), (8, 8)])]:
            for form in ("jepsen", "jsonl", "porcupine"):
                ran = run(FORMS[form](word, operations), form, "--ops", f"{word}={op}", *START)
                with self.subTest(word, form=form):
                    self.assertEqual(ran.status, 2)
                    self.assertIn(f"each reply of a {op} has the value of its call", ran.told)
            self.assertEqual(run(csv(word, operations), "csv", "--ops", f"{word}={op}", *START).status, 0)

    def test_what_an_addition_cannot_be(self) -> None:
        table: List[Tuple[Optional[object], object, str]] = [
            (0, 5, "an addition adds 0"), ("v", 5, "an addition adds v, and a whole number is expected"),
            (1, "v", "an addition was answered v, and"), (1, -2**63, "which doesn't fit into 64 bits"),
            (1, "", "an addition was answered no value, and")]
        for asked, answered, words in table:
            with self.subTest(words):
                ran = run(csv("incr", [(asked, answered)]), "csv", "--ops", "incr=add")
                self.assertEqual((ran.status, words in ran.told), (2, True), ran.told)
        for word in ("decr", "decrby", "subtract"):
            ran = run("", "csv", "--ops", f"{word}=add")
            self.assertEqual(ran.status, 3)
            self.assertIn(f"{word} takes away, and add adds: say {word}=subtract", ran.told)

    def test_an_answer_that_is_not_there(self) -> None:
        for word, op in [("getset", "swap"), ("incr", "add")]:
            told = run(f"process,start,end,op,value\n1,1,2,{word},7\n", "csv", "--ops", f"{word}={op}").told
            self.assertIn(f"line 2: a {op} without output: write null if it found none, or say which", told)
        for word, op in [("getset", "swap"), ("incr", "add")]:
            call = (f"{{:process 0, :type :invoke, :f :{word}, :value 7}}\n"
                    f"{{:process 0, :type :ok, :f :{word}}}")
            told = run(call, "jepsen", "--ops", f"{word}={op}").told
            self.assertIn(f"the reply of a {op} has no :value", told)


# By a word for an operation, what is advised, and what isn't.
ADVICE: List[Tuple[str, List[str], List[str]]] = [
    ("setnx", ["--ops setnx=create if its reply tells", "a cas from null"], ["=read", "=write"]),
    ("putIfAbsent", ["--ops putIfAbsent=create", "a cas from null"], ["=read", "=write"]),
    ("getset", ["--ops getset=swap if its reply has the old value"], ["=read", "=write", "=cas"]),
    ("incr", ["--ops incr=add if its reply has the new value", "incr=fetch-add if it has the old one"],
     ["=read", "=write", "=cas"]),
    ("decr", ["--ops decr=subtract if its reply has the new value", "decr=fetch-subtract if"],
     ["=read", "=write", "=cas", "decr=add"]),
    ("rpush", ["--ops rpush=append if what is appended stands behind all"], ["=read", "=write", "=cas"]),
    ("acquire", ["--ops acquire=lock if nobody gets it while", "--ops WORD=unlock"],
     ["=read", "=write", "=cas"]),
    ("unlock", ["--ops unlock=unlock if it gives back"], ["=read", "=write", "=cas"]),
    ("lock", ["a reentrant lock or a semaphore is no register"], ["=read", "=write", "=cas"]),
    ("del", ["--ops del=delete if", "del=count-delete if", "del=fetch-delete if", "del=delete-if if"],
     ["=read", "=write", "=cas"]),
    ("setxx", ["--ops setxx=replace if its reply tells"], ["=read", "=write", "=cas"]),
    ("contains", ["--ops contains=exists if its reply tells"], ["=read", "=write", "=cas"]),
    ("expire", ["may take values away at a moment", "docs/recipes.md"], ["=read", "=write", "=cas"]),
    ("fetch", ["--ops fetch=read or --ops fetch=write or --ops fetch=cas if it is one"], []),
]


class Advice(unittest.TestCase):
    def test_what_operations_are(self) -> None:
        for word, said, unsaid in ADVICE:
            ran = run(f"{{:process 0, :type :invoke, :f :{word}, :value 7}}", "jepsen")
            with self.subTest(word, told=ran.told):
                self.assertEqual(ran.status, 2)
                for words in [*said, "--skip-key"]:
                    self.assertIn(words, ran.told)
                for words in unsaid:
                    self.assertNotIn(words, ran.told)

    def test_a_transaction_under_a_key(self) -> None:
        """One of one operation is that operation; one of two is called so."""
        line = "{:process 0, :type :%s, :f :txn, :value [5 [%s]]}\n"
        made = history("jepsen", line % ("invoke", "[:w 0 1]") + line % ("ok", "[:w 0 1]"))
        self.assertEqual(short(made), ["0 w [5 0] 1", "0 ."])
        told = run(line % ("invoke", "[:w 0 1] [:w 1 2]"), "jepsen").told
        self.assertIn("a transaction of 2 operations", told)
        told = run(line % ("invoke", "[:w 0 1] [:w 1 2] [:r 1 nil]"), "jepsen").told
        self.assertIn("a transaction of 3 operations", told)

    def test_a_late_answer(self) -> None:
        log = ("{:process 0, :type :invoke, :f :write, :value 1}\n{:process 0, :type :info, :f :write, "
               ":value 1}\n{:process 0, :type :ok, :f :write, :value 1}\n")
        ran = run(log, "jepsen")
        self.assertEqual(ran.status, 2)
        self.assertIn("line 3: client 0 has no open call: that of line 1 ended at line 2 with an unknown "
                      "outcome. If this is its late answer, delete line 2 to take the answer, or this line "
                      "to leave the outcome unknown", ran.told)
        for left in (0, 1, 2), (0, 2), (0, 1):
            lines = [log.splitlines()[place] for place in left]
            self.assertEqual(run("\n".join(lines), "jepsen").status, 2 if len(left) == 3 else 0)

    def test_a_binary_file_of_jepsen(self) -> None:
        for form in ("jepsen", "auto"):
            ran = run(b"JEPSEN\x00\x00\x00\x01\xff\xfe", form)
            self.assertEqual(ran.status, 2)
            self.assertIn("the binary file that Jepsen keeps for itself: take history.edn, which is in the "
                          "same",
                          ran.told)
            self.assertNotIn("UTF-8", ran.told)

    def test_evidence_of_cas_alone(self) -> None:
        log = ("{:process 0, :type :invoke, :f :cas, :value [nil 1]}\n"
               "{:process 0, :type :%s, :f :cas, :value [nil 1]}\n")
        self.assertNotIn("too little evidence", run(log % "ok", "jepsen").told)
        self.assertIn("too little evidence", run(log % "info", "jepsen").told)

    def test_times_that_go_back(self) -> None:
        log = ("{:process 0, :type :invoke, :f :write, :value 1, :time 5%s}\n"
               "{:process 0, :type :ok, :f :write, :value 1, :time 3%s}\n")
        ran = run(log % ("", ""), "jepsen")
        self.assertEqual(ran.status, 2)
        self.assertIn("line 2: :time is 3, and an earlier line's 5, and there is no :index", ran.told)
        self.assertEqual(run(log % ("", ""), "jepsen", "--ignore-member", "time").status, 0)
        self.assertEqual(run(log % (", :index 0", ", :index 1"), "jepsen").status, 0)
        self.assertEqual(run(log.replace("time 3", "time 5") % ("", ""), "jepsen").status, 0)


if __name__ == "__main__":
    unittest.main()
