"""Values that expire, as docs/recipes.md says how to record them."""
import re
import unittest

from regkit.checker.programs import SEARCH, find_program
from regkit.record import Recorder
from tests.convert_support import history_of
from tests.acts import is_atomic
from tests.events import run as command
from tests.test_recipes import RECIPES, block, commands


def block_of(words: str) -> str:
    """The block of Python that has some words, for a cache that is a dict."""
    blocks = re.findall(r"^```python\n(.*?)^```$", RECIPES.read_text(encoding="utf-8"), re.M | re.S)
    found, = [each for each in blocks if words in each]
    return str(found).replace("cache.set(", "cache.setdefault(")


class Table(unittest.TestCase):
    """A put at 10 that may expire from 60 on, and gets."""

    def verdict(self, *gets: str) -> bool:
        table = "\n".join([*block("expiry.csv").splitlines()[:3], *gets]) + "\n"
        words, = [words for words in commands() if "expiry.csv" in words]
        words.remove("expiry.csv")
        return is_atomic(history_of(table, "csv", *words))

    def test_the_table_of_the_page(self) -> None:
        self.assertTrue(self.verdict(*block("expiry.csv").splitlines()[3:]))

    def test_a_value_is_gone_once_and_not_before_its_time(self) -> None:
        present, gone = "bob,{0},{0}.5,get,x,v1,ok", "bob,{0},{0}.5,get,x,none,ok"
        self.assertTrue(self.verdict(gone.format(5), present.format(70), gone.format(80), gone.format(90)))
        self.assertFalse(self.verdict(gone.format(40)))
        self.assertFalse(self.verdict(gone.format(70), present.format(80)))

    def test_a_deleted_value_is_gone_before_its_time(self) -> None:
        deleted = "ann,20,21,delete,x,,ok"
        self.assertTrue(self.verdict(deleted, "bob,30,31,get,x,none,ok"))
        self.assertFalse(self.verdict(deleted, "bob,30,31,get,x,v1,ok"))


@unittest.skipUnless(find_program(SEARCH), "regsearch isn't built")
class Recorded(unittest.TestCase):
    def status(self, *found: int) -> int:
        """Of a put that may expire, and of gets that found the value, as 1, or nothing, as 0."""
        recorder = Recorder()
        with recorder.client() as client:
            lines = compile(block_of("client.expires"), "recipes.md", "exec")
            exec(lines, {"client": client, "cache": {}})
            for value in found:
                with client.read("x") as read:
                    read.value = value or None
        return command("check", "--least-reads", "1", given=recorder.history()).status

    def test_the_lines_of_the_page(self) -> None:
        self.assertEqual([self.status(1, 0, 0), self.status(0), self.status(0, 1)], [0, 0, 1])


if __name__ == "__main__":
    unittest.main()
