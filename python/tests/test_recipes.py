"""Tests that docs/recipes.md is right: its commands, and its table of machines."""
import argparse
import pathlib
import re
import shlex
import textwrap
import unittest
from typing import List, Optional

from regkit.checker.programs import SEARCH, find_program, run_checker
from regkit.commands import convert
from regkit.convert.words import AUTO, choices_of
from regkit.record import Recorder
from tests import acts
from tests.convert_support import run
from tests.events import run as command

RECIPES = pathlib.Path(__file__).parents[2] / "docs" / "recipes.md"


def commands() -> List[List[str]]:
    """The words of each `regkit convert` in the page's consoles, up to a pipe."""
    lines = re.findall(r"^ *\$ regkit convert (.*?)(?: \| .*)?$", RECIPES.read_text(encoding="utf-8"), re.M)
    return [shlex.split(line) for line in lines]


def block(name: str) -> str:
    """The text of a block that is named as a file."""
    page = RECIPES.read_text(encoding="utf-8")
    found = re.search(rf"^```\w+ {re.escape(name)}\n(.*?)^```$", page, re.M | re.S)
    assert found is not None, f"{name} isn't in recipes.md"
    return found[1]


def examples() -> List[List[str]]:
    """The words of each example in the command's help."""
    lines = re.findall(r"^  regkit convert (.*?)(?: \| .*)?$", convert.EPILOG.replace("\\\n", ""), re.M)
    return [shlex.split(line) for line in lines]


class Recipes(unittest.TestCase):
    def test_commands_are_taken(self) -> None:
        parser = argparse.ArgumentParser()
        convert.add_arguments(parser)
        for found in (commands(), examples()):
            self.assertGreater(len(found), 5)
            for words in found:
                with self.subTest(words):
                    parsed = parser.parse_args(words)
                    if parsed.form != AUTO:
                        choices_of(parsed, parsed.form)

    def test_machines(self) -> None:
        """By the time stamps a read is stale; with clocks that may be wrong by 3 ms it may not be."""
        machines = block("machines.csv")
        runs = [words for words in commands() if "machines.csv" in words]
        statuses = []
        for words in runs:
            words.remove("machines.csv")
            ran = run(machines, AUTO, *words)
            statuses.append(run_checker(ran.history.encode()).status)
        self.assertEqual(statuses, [1, 0])

    def test_requests_and_events(self) -> None:
        """Both tables need no option, and are right unless their read is one of null."""
        for name, end in [("requests.csv", ",,1\n"), ("events.csv", ",1\n")]:
            table = block(name)
            self.assertTrue(table.endswith(end))
            for source, status in [(table, 0), (table[:-2] + "\n", 1)]:
                with self.subTest(name, source=source):
                    self.assertEqual(command("check", given=source.encode()).status, status)

    def test_what_stores_do_to_a_key(self) -> None:
        """Each table as it is on the page is right, and with a change it isn't."""
        for name, old, new in [
                ("redis-log.csv", "v2,(nil)", "v2,OK"),
                ("redis-log.csv", "getset,job,v3,v1", "getset,job,v3,"),
                ("redis-log.csv", "del,job,,1", "del,job,,0"), ("redis-log.csv", "runs,,2", "runs,,1"),
                ("etcd.csv", "b,,,missed", "b,,4,ok"), ("etcd.csv", "e,6,,missed", "e,6,9,ok"),
                ("etcd.csv", "delete,x,1", "delete,x,0"), ("etcd.csv", "66,get,x,,", "66,get,x,d,8"),
                ("expiry.csv", "60,,delete-if", "72,,delete-if"),
                ("calls.jsonl", '"output":0', '"output":1')]:
            table = block(name)
            words, = [words for words in commands() if name in words]
            words.remove(name)
            self.assertEqual(table.count(old), 1)
            for source, is_right in [(table, True), (table.replace(old, new), False)]:
                with self.subTest(name, old=old, is_right=is_right):
                    ran = run(source, AUTO, *words)
                    self.assertEqual((ran.status, acts.is_atomic(ran.history)), (0, is_right), ran.told)

    @unittest.skipUnless(find_program(SEARCH), "regsearch isn't built")
    def test_calls(self) -> None:
        """An increment, a put-if-absent that missed, and a read of what the increment left."""
        calls = block("calls.jsonl")
        words, = [words for words in commands() if "calls.jsonl" in words]
        words.remove("calls.jsonl")
        read = '"op":"get","key":"x","output":'
        self.assertIn(f"{read}2", calls)
        for source, status in [(calls, 0), (calls.replace(f"{read}2", f"{read}1"), 1)]:
            ran = run(source, AUTO, *words)
            self.assertEqual(command("check", given=ran.history.encode()).status, status)

    @unittest.skipUnless(find_program(SEARCH), "regsearch isn't built")
    def test_lock(self) -> None:
        """Two cas of which one is told that it missed. Both can't take place."""
        lock = block("lock.csv")
        words, = [words for words in commands() if "lock.csv" in words]
        words.remove("lock.csv")
        for source, status in [(lock, 0), (lock.replace("2,false", "2,true"), 1)]:
            ran = run(source, AUTO, *words)
            checked = command("check", given=ran.history.encode())
            self.assertEqual(checked.status, status)
            self.assertEqual(checked.out in RECIPES.read_text(encoding="utf-8"), status == 0)


class Cache(unittest.TestCase):
    def checked(self, answers: List[Optional[str]]) -> int:
        """The verdict on a write of 1 and one of 2, and then reads by the page's own lines."""
        page = RECIPES.read_text(encoding="utf-8")
        snippet = re.search(r"## A cache that may forget\n.*?```python\n(.*?)```", page, re.S)
        assert snippet is not None
        lines = compile(textwrap.dedent(snippet[1]), "recipes.md", "exec")
        recorder = Recorder()
        with recorder.client() as client:
            for _ in range(2):
                with client.write("x") as write:
                    self.assertIsNotNone(write.value)
            for answer in answers:
                exec(lines, {"client": client, "cache": {"x": answer}})
        return run_checker(recorder.history()).status

    def test_a_miss_is_no_fault_and_an_old_value_is_one(self) -> None:
        self.assertEqual(self.checked(["2", None, "2"]), 0)
        self.assertEqual(self.checked([None, "1"]), 1)


if __name__ == "__main__":
    unittest.main()
