"""Which operations of a contradiction are named."""
import random
import unittest
from typing import List, Optional, Tuple

from regkit.explain.nearest import Pair, precedence_between, with_reads
from regkit.history.operations import Operation, initial_write, read_history

from .events import gave, random_history, read, reply, text, write


def by_all_pairs(before: List[Operation], after: List[Operation]) -> Optional[Pair]:
    """The same, by looking at every pair: the most writes first, and then the least way between the two."""
    pairs = [(one, other) for one in before for other in after
             if one.completed and (one.end_line or 0) < other.line]
    return min(pairs, key=ease) if pairs else None


def ease(pair: Pair) -> Tuple[int, int]:
    return -sum(each.kind == "write" for each in pair), pair[1].line - (pair[0].end_line or 0)


class Nearest(unittest.TestCase):
    def test_against_all_pairs(self) -> None:
        found = 0
        for seed in range(400):
            calls = [call for call in read_history(text(*random_history(seed, 40))).calls if not call.failed]
            writes = [initial_write("x"), *(call for call in calls if call.kind == "write")]
            values = [with_reads(write, calls) for write in writes[:6]]
            for before in values:
                for after in values:
                    if before is not after:
                        pair, expected = precedence_between(before, after), by_all_pairs(before, after)
                        found += pair is not None
                        self.assertEqual(pair and ease(pair), expected and ease(expected), seed)
        self.assertGreater(found, 2000)

    def test_the_writes_themselves(self) -> None:
        calls = read_history(text(write(1, 1), reply(1), read(2), gave(2, 1), write(1, 2), reply(1),
                                  read(2), gave(2, 2))).calls
        pair = precedence_between(with_reads(calls[0], calls), with_reads(calls[2], calls))
        self.assertEqual(pair, (calls[0], calls[2]))  # though the read of 1 ended nearer to the write of 2

    def test_a_value_that_came_first_for_good(self) -> None:
        calls = read_history(text(write(1, 1), reply(1), read(2), gave(2, None))).calls
        initial = with_reads(initial_write("x"), calls)
        self.assertEqual([each.line for each in precedence_between(initial, [calls[0]]) or ()], [0, 1])
        self.assertIsNone(precedence_between([calls[1]], [calls[0]]))


if __name__ == "__main__":
    unittest.main()
