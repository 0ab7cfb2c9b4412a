"""Random histories in the form of each tool: no right one is called faulty, and no fault is lost.

    REGKIT_HISTORIES=2000 python3 -m unittest tests.test_convert_random    more of them, in some minutes
"""
import itertools
import os
import random
import unittest
from typing import Iterable, List, Tuple

from regkit.convert.whole import READERS
from tests.convert_sources import (CAS_FORMS, FORMS, VERSION_FORM, Call, Form, faulty_history, is_atomic,
                                   plain, right_history)
from tests.convert_support import history_of
from tests.search_sources import (changed_search_history, find_regsearch, right_search_history, verdicts,
                                  without_misses)

MANY = int(os.environ.get("REGKIT_HISTORIES", "400"))  # histories of each kind


class Conversions(unittest.TestCase):
    right: List[List[Call]]
    faulty: List[List[Call]]

    @classmethod
    def setUpClass(cls) -> None:
        chance = random.Random(51)
        cls.right = [calls for calls in (right_history(chance) for _ in range(MANY)) if calls]
        cls.faulty = [faulty_history(chance) for _ in range(MANY)]

    def test_the_histories_are_what_they_should_be(self) -> None:
        """By the form of `regcheck`, without a conversion; and they have what conversions may get wrong."""
        self.assertTrue(all(is_atomic(plain(calls)) for calls in self.right))
        self.assertFalse(any(is_atomic(plain(calls)) for calls in self.faulty))
        everything = [call for calls in self.right for call in calls]
        for op in ("read", "write"):
            for outcome in ("ok", "fail", "unknown"):
                self.assertGreater(sum(call[2:7:4] == (op, outcome) for call in everything), MANY // 5)

    def test_each_keeps_its_verdict(self) -> None:
        """In each form all of them, in turn as each tool or person writes the form."""
        for form in READERS:
            writers = [each for each in FORMS.values() if each.form == form]
            chance = random.Random(form)
            for verdict, histories in [(True, self.right), (False, self.faulty)]:
                with self.subTest(form, right=verdict):
                    for calls, writer in zip(histories, itertools.cycle(writers)):
                        source = writer.write(calls, chance)
                        history = history_of(source, form, *writer.options)
                        self.assertEqual(is_atomic(history), verdict, (source, history))


REGSEARCH = find_regsearch()


@unittest.skipUnless(REGSEARCH, "bin/regsearch isn't built, and REGSEARCH names none")
class SearchConversions(unittest.TestCase):
    """Histories with cas and repeated values, in every form that can say them."""

    histories: List[List[Call]]
    right: int  # how many of them are right, the first ones
    expected: List[bool]  # of each history as it is
    weaker: List[bool]  # of each history without what its misses say

    @classmethod
    def setUpClass(cls) -> None:
        chance = random.Random(52)
        cls.histories = [calls for calls in (right_search_history(chance) for _ in range(MANY // 2)) if calls]
        cls.right = len(cls.histories)
        while len(cls.histories) < MANY:
            cls.histories.append(changed_search_history(chance))
        cls.expected = cls.verdicts(map(plain, cls.histories))
        cls.weaker = cls.verdicts(plain(without_misses(calls)) for calls in cls.histories)

    @staticmethod
    def verdicts(histories: Iterable[str]) -> List[bool]:
        assert REGSEARCH is not None
        return verdicts(histories, REGSEARCH)

    def test_the_histories_are_what_they_should_be(self) -> None:
        self.assertTrue(all(self.expected[:self.right]))
        self.assertTrue(all(weak or not strict for strict, weak in zip(self.expected, self.weaker)))
        faulty = self.expected.count(False)
        self.assertGreater(faulty, MANY // 4)
        self.assertGreater(faulty - self.weaker.count(False), MANY // 50)
        everything = [call for calls in self.histories for call in calls]
        for outcome in ("ok", "fail", "unknown", "missed"):
            self.assertGreater(sum(call[2:7:4] == ("cas", outcome) for call in everything), MANY // 5)
        self.assertGreater(sum(call[2:8:5] == ("cas", None) for call in everything), MANY // 5)

    def test_each_keeps_its_verdict(self) -> None:
        for name, writer in CAS_FORMS.items():
            for expected, options in self.readings(writer):
                with self.subTest(name, options=options):
                    chance = random.Random(name)
                    sources = [writer.write(calls, chance) for calls in self.histories]
                    found = self.verdicts(history_of(source, writer.form, *writer.options, *options)
                                          for source in sources)
                    differing = [place for place in range(MANY) if found[place] != expected[place]]
                    self.assertFalse(differing, sources[differing[0]] if differing else "")

    def test_puts_by_version(self) -> None:
        """They are a cas on the version."""
        chance = random.Random(53)
        histories = [right_search_history(chance, True) for _ in range(MANY // 2)]
        right = len(histories)
        histories += [changed_search_history(chance, True) for _ in range(MANY // 2)]
        expected = self.verdicts(map(plain, histories))
        self.assertTrue(all(expected[:right]))
        self.assertGreater(expected.count(False), MANY // 4)
        found = self.verdicts(history_of(VERSION_FORM.write(calls, chance), VERSION_FORM.form,
                                         *VERSION_FORM.options) if calls else "" for calls in histories)
        self.assertEqual(found, expected)

    def readings(self, writer: Form) -> List[Tuple[List[bool], Tuple[str, ...]]]:
        """What is expected, by the options. A form that has one word for a miss and a failure needs one."""
        if writer.tells_misses:
            return [(self.expected, ())]
        return [(self.weaker, ()), (self.expected, ("--failed-cas", "missed"))]


if __name__ == "__main__":
    unittest.main()
