"""Nothing that an event says is passed over: a part that no history has is changed, in the form of each tool.

The conversion refuses the source then, or the verdict stays.

    REGKIT_MUTATIONS=5000 nice python3 -m unittest tests.test_convert_mutations    more, in some minutes
"""
import os
import random
import unittest
from functools import partial
from typing import Any, Callable, Iterator, List, Tuple

from regkit.convert.edn import NotEdn
from regkit.convert.model import Refused
from tests import test_convert_counters, test_convert_lists, test_convert_versions
from tests.convert_mutations import mutated, taken_apart
from tests.convert_sources import (CAS_FORMS, FORMS, VERSION_FORM, Call, Form, faulty_history, is_atomic,
                                   right_history)
from tests.convert_support import history_of
from tests.sequential import is_atomic as is_legal
from tests.search_sources import changed_search_history, find_regsearch, right_search_history, verdicts

MANY = int(os.environ.get("REGKIT_MUTATIONS", "150"))  # of each form
REGSEARCH = find_regsearch()

Pair = Tuple[str, str, str]  # a history, the changed source, and its history


class Mutations(unittest.TestCase):
    def pairs(self, name: str, form: Form, right: Callable[[random.Random], List[Call]],
              faulty: Callable[[random.Random], List[Call]]) -> List[Pair]:
        """Histories and what became of them by a change. Some changes are refused, and some aren't."""
        chance = random.Random(name)
        pairs: List[Pair] = []
        refused = 0
        while len(pairs) + refused < MANY:
            text = form.write((right if chance.random() < 0.5 else faulty)(chance), chance)
            if not text.strip("[] \n"):
                continue
            source = taken_apart(text, name)
            plain, changed = source.write(source.records), mutated(source, chance)
            history = history_of(plain, form.form, *form.options)
            try:
                pairs.append((history, changed, history_of(changed, form.form, *form.options)))
            except (Refused, NotEdn):
                refused += 1
        self.assertGreater(refused, MANY // 50)
        self.assertGreater(len(pairs), MANY // 50)
        return pairs

    def test_reads_and_writes(self) -> None:
        for name, form in FORMS.items():
            with self.subTest(name):
                for history, source, changed in self.pairs(name, form, right_history, faulty_history):
                    self.assertEqual(is_atomic(changed), is_atomic(history), (source, history, changed))

    @unittest.skipUnless(REGSEARCH, "bin/regsearch isn't built, and REGSEARCH names none")
    def test_cas_and_repeated_values(self) -> None:
        for name, form in {**CAS_FORMS, "puts by version": VERSION_FORM}.items():
            by_version = form is VERSION_FORM
            with self.subTest(name):
                pairs = self.pairs(name, form, lambda chance: right_search_history(chance, by_version),
                                   lambda chance: changed_search_history(chance, by_version))
                before, after = (verdicts((pair[at] for pair in pairs), REGSEARCH or "") for at in (0, 2))
                self.assertEqual([], [each for each, one, other in zip(pairs, before, after) if one != other])

    def test_appends_versions_and_counters(self) -> None:
        for name, form, made in stores():
            history = partial(taken, form, made)
            with self.subTest(name, options=form.options):
                for before, source, after in self.pairs(name, form, history, history):
                    self.assertEqual(is_legal(after), is_legal(before), (source, before, after))


def stores() -> Iterator[Tuple[str, Form, Callable[[random.Random], Any]]]:
    """By the name of a form, how it is written, and what makes histories of it."""
    for name, lists in test_convert_lists.WAYS.items():
        if name != "transactions of one append":  # whose values have all that they say
            yield name, _form(lists.form, lists.write, lists.options), partial(_listed, lists)
    for name, way in test_convert_versions.WAYS.items():
        for skips, option in enumerate(("--versions", "--revisions")):
            yield name, _form(way.form, way.write, (*way.options, option, way.member)), partial(
                test_convert_versions.made, skips=bool(skips), tells=way.tells)
    for name, (write, options) in test_convert_counters.FORMS.items():
        form = _form(name, write, (*options, *test_convert_counters.OPS, "--initial", "null"))
        yield ("jepsen's EDN" if name == "jepsen" else name), form, test_convert_counters.made


def _form(form: str, write: Callable[[Any], str], options: Tuple[str, ...]) -> Form:
    return Form(form, lambda done, _: write(done), options)


def _listed(way: test_convert_lists.Way, chance: random.Random) -> Any:
    return test_convert_lists.made(chance, way)


def taken(form: Form, made: Callable[[random.Random], Any], chance: random.Random) -> Any:
    """A history whose source isn't refused."""
    while True:
        done = made(chance)
        try:
            history_of(form.write(done, chance), form.form, *form.options)
        except (Refused, NotEdn):
            continue
        return done


if __name__ == "__main__":
    unittest.main()
