"""Tests of the reader and the writer of EDN."""
import random
import unittest
from decimal import Decimal
from typing import Any, List

from regkit.convert import edn


def read(text: str, elements: bool = False) -> List[Any]:
    """The values of a text, without their lines."""
    return [value for _, value in edn.values(text.splitlines(keepends=True), elements)]


class Reading(unittest.TestCase):
    def test_values(self) -> None:
        for text, expected in [
            ("nil true false", [None, True, False]),
            ("0 7 -7 +7 9007199254740993 12N", [0, 7, -7, 7, 9007199254740993, 12]),
            ("1.50 -2e3 1.0", [Decimal("1.5"), Decimal("-2000"), Decimal("1")]),
            ('"a, [b]" ";" "#_"', ["a, [b]", ";", "#_"]),
            (r'"\"\\\n\t\r\u0041\ud83d\ude00"', ['"\\\n\t\rA\U0001f600']),
            ('"a  \nb " ["c, \n\n d"]', ["a  \nb ", ("c, \n\n d",)]),
            ('"two\nlines" 1', ["two\nlines", 1]),
            ('["two\n\\"\n" :a]', [("two\n\"\n", ":a")]),
            (":a :a/b :!?", [":a", ":a/b", ":!?"]),
            ("[1 [2 ()]] (3)", [(1, (2, ())), (3,)]),
            ("{:a 1, :b {:c [2]}}", [{":a": 1, ":b": {":c": (2,)}}]),
            ('{:a"b"}', [{":a": "b"}]),
            ('{"b":a}', [{"b": ":a"}]),
            ('{:a [] :b ["c" 0] }', [{":a": (), ":b": ("c", 0)}]),
            ("{:a []}", [{":a": ()}]),
            ("[\n{:a 1}\n#_{:b 1}]", [({":a": 1},)]),
            ("#_\n{:a 1}\n{:b 1}", [{":b": 1}]),
            ("0x5c29bfd -0xFFN 0X0", [96639997, -255, 0]),
            ("{[1 {2 3}] 4}", [{(1, edn.Map({2: 3})): 4}]),
            ("#{1 2} 3", [(1, 2), 3]),
            ("1 ; no 2\n3;no\n;\n", [1, 3]),
            ("#_ 1 2 #_#_ 3 [4] 5 [#_ 6 7]", [2, 5, (7,)]),
            ("#_ #tag {:a 1} 2", [2]),
            (r"\a \newline \[ 1", ["\\a", "\\newline", "\\[", 1]),
            ("1/2 1.5M ##Inf", ["1/2", "1.5M", "##Inf"]),
            (':a"b"', [":a", "b"]),
            ('"a":b', ["a", ":b"]),
            (':a"b"[:c]:d', [":a", "b", (":c",), ":d"]),
            (' , \t\r ', []),
        ]:
            with self.subTest(text):
                self.assertEqual(read(text), expected)

    def test_kinds_are_told_apart(self) -> None:
        kinds = [type(value) for value in read(':a ":a" a \\a 1 1.0 true #{1} [1] #t 1')]
        self.assertEqual(
            kinds, [edn.Keyword, str, edn.Symbol, edn.Symbol, int, Decimal, bool, edn.Set, tuple, edn.Tagged]
        )

    def test_tags(self) -> None:
        (tagged,) = read('#jepsen.history.Op{:index 0}')
        self.assertEqual((tagged.tag, tagged.value), ("jepsen.history.Op", {":index": 0}))
        self.assertEqual(edn.write(read('#a #b [1]')[0]), "#a #b [1]")
        for text in ['#object[jepsen.os$fn__1 0x5c29bfd "jepsen.os$fn__1@5c29bfd"]', "#inst \"2026-11-28\"",
                     "#error {:cause nil, :trace [[a.b$c invoke \"c.clj\" 829]]}", '#"\\d+\\["',
                     "[#'a.b/c 1]", "#:a{:b 1}"]:
            with self.subTest(text):
                value, = read(text)
                self.assertEqual(list(map(edn.write, read(edn.write(value)))), [edn.write(value)])

    def test_lines_are_those_of_the_beginning(self) -> None:
        text = '1\n{:a\n 2}\n\n#tag{:b\n3} "x\ny" 4\n5'
        self.assertEqual([line for line, _ in edn.values(text.splitlines(keepends=True))], [1, 2, 5, 6, 6, 8])

    def test_elements_of_a_vector_at_the_top(self) -> None:
        for text, expected in [
            ("[1 [2]\n3] 4", [(1, 1), (1, (2,)), (2, 3), (2, 4)]),
            ("(1)", [(1, 1)]),
            ("#history [1]", [(1, 1)]),
            ("#_ [1] 2", [(1, 2)]),
            ("[[1]]", [(1, (1,))]),
        ]:
            with self.subTest(text):
                self.assertEqual(list(edn.values(text.splitlines(), elements=True)), expected)

    def test_depth_is_no_matter(self) -> None:
        (value,) = read("[" * 5000 + "]" * 5000)
        self.assertEqual(len(value), 1)

    def test_refusals(self) -> None:
        for text, words in [
            ("\n]", "line 2: not EDN: ] closes nothing"),
            ("1\n[2", "line 2: not EDN: [ is never closed"),
            ("[1}", "line 1: not EDN: } closes nothing"),
            ("{:a}", "line 1: not EDN: a map with a key and no value"),
            ("\n{:a 1 [2] 3 :a 2}", "line 2: not EDN: a map with the key :a twice"),
            ("{:a 1 :b [2] :a 2}", "line 1: not EDN: a map with the key :a twice"),
            ("0x", "line 1: not EDN: 0x is no number"),
            ('1\n"a\nb', "line 2: not EDN: a text without its closing quote"),
            ('"\\x"', "line 1: not EDN: \\x is no escape"),
            ("007", "line 1: not EDN: 007 is no number"),
            ("1x", "line 1: not EDN: 1x is no number"),
            ("1 #_", "line 1: not EDN: #_ stands before no value"),
            ("[#tag]", "line 1: not EDN: #tag stands before no value"),
            (":", "line 1: not EDN: a colon without a name"),
            ("\\", "line 1: not EDN: \\ without a character"),
        ]:
            with self.subTest(text), self.assertRaises(edn.NotEdn) as raised:
                read(text)
            self.assertEqual(str(raised.exception), words)
        with self.assertRaisesRegex(edn.NotEdn, r"line 1: not EDN: \[ is never closed"):
            read("[1", elements=True)


class Writing(unittest.TestCase):
    def test_forms(self) -> None:
        for text, expected in [
            ("nil", "nil"),
            ("true", "true"),
            ("7N", "7"),
            ("1.50", "1.5"),
            ("1.0", "1.0"),
            ("2e0", "2.0"),
            (":a", ":a"),
            ('"a\\"\\n"', '"a\\"\\n"'),
            ("(1 [2])", "[1 [2]]"),
            ("#{2 1}", "#{1 2}"),
            ("{:b 1 :a 2}", "{:a 2, :b 1}"),
            ("#t [1]", "#t [1]"),
            ("1.5M", "1.5M"),
        ]:
            with self.subTest(text):
                self.assertEqual(edn.write(read(text)[0]), expected)

    def test_equal_exactly_where_written_alike(self) -> None:
        texts = [
            "1",
            "1.0",
            "1.5",
            "1.5M",
            '"1"',
            ":1",
            "true",
            "nil",
            '"true"',
            '"nil"',
            ":a",
            '":a"',
            "a",
            '"a"',
            '""',
            "[1]",
            '["1"]',
            "[[1]]",
            "[1 1]",
            "#{1}",
            "{1 1}",
            "#t 1",
            "\\a",
            '"[1]"',
            "1/2",
        ]
        self.assertEqual(len({edn.write(read(text)[0]) for text in texts}), len(texts))

    def test_written_values_read_back(self) -> None:
        chance = random.Random(1)
        for _ in range(2000):
            value = some_value(chance, 3)
            written = edn.write(value)
            self.assertEqual(edn.write(read(written)[0]), written)
            self.assertEqual(edn.write(read(spaced(written, chance))[0]), written)


def some_value(chance: random.Random, depth: int) -> Any:
    """A value of any kind, with texts that look like something else."""
    leaves: List[Any] = [
        None,
        True,
        chance.randrange(-9, 10**20),
        Decimal(chance.randrange(999)) / 8,
        edn.Keyword(":k"),
        "".join(chance.choices('ab "\\;#[]{}(),:\n\t\u00e9\U0001f600', k=chance.randrange(6))),
        edn.Symbol("s"),
    ]
    if depth == 0 or chance.random() < 0.4:
        return chance.choice(leaves)
    items = [some_value(chance, depth - 1) for _ in range(chance.randrange(4))]
    return chance.choice(
        [tuple(items), edn.Map(zip(map(edn.write, items), items)), edn.Tagged("t", tuple(items))]
    )


def spaced(written: str, chance: random.Random) -> str:
    """The same value behind a comment or a discarded value, with texts over several lines if that is easy."""
    if "\\\\" not in written:
        written = written.replace("\\n", "\n")
    before = chance.choice(["; [\n", "#_ [1 2] ", ",,\n\t", "#_ #t {:a \"]\"}\n"])
    return before + written + chance.choice(["", " ;x", "\n"])


if __name__ == "__main__":
    unittest.main()
