"""What was a text in the source is said and drawn as that text, whatever became of the file's lines since."""
import json
import unittest
from typing import Any, Callable, Dict, List, Optional

from regkit.convert import edn
from regkit.drawing.bars import Bar
from regkit.explain.excerpt import excerpt
from regkit.history.operations import History, read_history
from regkit.history.texts import LONGEST, Contradictory, kept, refuse_contradictory
from regkit.merge import Unmergeable, merge
from regkit.words.quoting import columns

from .convert_support import run as convert
from .events import Line, fail, gave, read, reply, run, text, write
from .folders import InFolder

HEADER = "process,start,end,register,op,value,outcome\n"
STALE = HEADER + "1,0,1,k,write,apple,ok\n1,2,3,k,write,pear,ok\n2,4,5,k,read,apple,ok\n"
SAID = ('the write of "pear" by process 1 (lines 3 to 4) ended before the read of "apple" by process 2 '
        '(lines 5 to 6) began, so "pear" comes before "apple"')
# A cas and values that repeat, so that regsearch decides: bob asks for what he never had.
LOCK: List[Line] = [
    {"process": 1, "event": "call", "op": "cas", "register": "l", "from": None, "to": "ann"},
    {"process": 1, "event": "reply", "ok": True},
    {"process": 2, "event": "call", "op": "cas", "register": "l", "from": None, "to": "bob"},
    {"process": 2, "event": "reply", "ok": True}]


def converted(source: str, form: str = "csv", *options: str) -> bytes:
    ran = convert(source, form, *options)
    assert ran.status == 0, ran.told
    return ran.history.encode()


def with_text(line: Line, **texts: str) -> Line:
    return {**line, "texts": {number.lstrip("_"): said for number, said in texts.items()}}


def values(history: History) -> List[str]:
    return [str(call.value) for call in history.calls]


class Lines(unittest.TestCase):
    """What the lines of a conversion say."""

    def said(self, source: str, form: str = "csv", *options: str) -> List[Optional[Dict[str, str]]]:
        return [json.loads(line).get("texts") for line in converted(source, form, *options).splitlines()]

    def test_each_number_is_said_once_where_it_comes_first(self) -> None:
        source = STALE + "2,6,7,k,read,pear,ok\n2,8,9,k,write,apple,ok\n2,10,11,l,write,apple,ok\n"
        said = [each for each in self.said(source) if each]
        self.assertEqual(said, [{"1": '"apple"'}, {"2": '"pear"'}, {"1": '"apple"'}])  # the last is of l

    def test_a_reply_that_says_one_names_its_register(self) -> None:
        read_first = converted(HEADER + "1,0,1,k,read,plum,ok\n", "csv", "--values", "exact")
        last = json.loads(read_first.splitlines()[-1])
        self.assertEqual((last["register"], last["value"], last["texts"]), ("k", 1, {"1": '"plum"'}))

    def test_numbers_and_null_stand_for_themselves(self) -> None:
        self.assertEqual(self.said(HEADER + "1,0,1,k,write,7,ok\n1,2,3,k,read,7,ok\n1,4,5,l,read,,ok\n"),
                         [None] * 6)

    def test_both_values_of_a_cas(self) -> None:
        lines: List[Line] = [{**LOCK[0], "from": "ann", "to": "bob"}, LOCK[1]]
        source = "".join(json.dumps(line) + "\n" for line in lines)
        self.assertEqual(self.said(source, "jsonl", "--values", "exact"),
                         [{"1": '"ann"', "2": '"bob"'}, None])

    def test_an_initial_value(self) -> None:
        self.assertEqual(self.said(STALE, "csv", "--initial", "apple")[0], {"1": '"apple"'})

    def test_long_values_keep_what_tells_them_apart(self) -> None:
        one, other = ("a" * 200 + end + "z" * 200 for end in "xy")
        self.assertEqual(kept("b" * LONGEST), "b" * LONGEST)
        self.assertNotEqual(kept(one), kept(other))
        self.assertLess(len(kept(one)), LONGEST + 30)
        self.assertTrue(kept(one).startswith("aaa"))

    def test_any_character(self) -> None:
        for value in ('"', "\\", "\n", "\u202e", "\U0001f600", "\ud800", "}", '","register":"y'):
            line = json.dumps({"process": 1, "event": "call", "op": "write", "register": "k", "value": value})
            history = converted(line + "\n", "jsonl")
            self.assertEqual(json.loads(history)["texts"], {"1": edn.quote(value)})
            self.assertTrue(values(read_history(history))[0].isprintable())


class Reading(unittest.TestCase):
    """What is made of the lines."""

    def test_values_show_as_texts_and_are_numbers(self) -> None:
        history = read_history(converted(STALE))
        self.assertEqual(values(history), ['"apple"', '"pear"', '"apple"'])
        self.assertEqual([call.value for call in history.calls], [1, 2, 1])

    def test_what_a_cas_asks_for(self) -> None:
        third = {**LOCK[0], "from": "bob", "process": 3}
        source = "".join(json.dumps(line) + "\n" for line in [*LOCK, third])
        last = read_history(converted(source, "jsonl")).calls[-1]
        self.assertEqual((str(last.asked), str(last.value)), ('"bob"', '"ann"'))

    def test_members_of_another_form_say_nothing(self) -> None:
        table: List[Any] = [5, None, [], "1", {"x": "a"}, {"1": 2}, {"1": ""}, {"": "a"}, {"\u0661": "a"}]
        for odd in table:
            history = read_history(text({**write(1, 1), "texts": odd}))
            self.assertEqual(values(history), ["1"], odd)

    def test_two_conversions_in_one_file_are_refused(self) -> None:
        apple, pear = (converted(HEADER + f"{process},0,1,k,write,{value},ok\n")
                       for process, value in ((1, "apple"), (2, "pear")))
        swapped = converted(HEADER + "3,0,1,k,write,pear,ok\n3,2,3,k,write,apple,ok\n")
        readers: List[Callable[[bytes], object]] = [read_history, refuse_contradictory]
        for both in (apple + pear, apple + swapped):
            for reads in readers:
                with self.assertRaises(Contradictory) as caught:
                    reads(both)
                self.assertIn('line 3: in register "k", 1 stands for "pear", and before that for "apple": '
                              "lines of two conversions were put together", str(caught.exception))
        both = apple + text(with_text(write(2, 2, "k"), _2='"apple"'))
        with self.assertRaises(Contradictory) as caught:
            read_history(both)
        self.assertIn('2 stands for "apple", and before that 1 did', str(caught.exception))

    def test_other_registers_have_texts_of_their_own(self) -> None:
        lines = [with_text(write(1, 1), _1="a"), reply(1), with_text(write(1, 1, "y"), _1="b")]
        history = read_history(text(*lines))
        self.assertEqual(values(history), ["a", "b"])

    def test_an_excerpt_finds_them_wherever_they_stand(self) -> None:
        lines = [with_text(write(1, 5, "y"), _5="other"), reply(1),
                 with_text(write(1, 5), _5="mine"), reply(1), read(2), gave(2, 5),
                 read(2), {**gave(2, 9), "register": "x", "texts": {"9": "never"}}, read(2), gave(2, 9)]
        row = {"register": "x", "fault": {"kind": "unwritten", "read": 9}}
        found = excerpt(text(*lines), [row])
        self.assertEqual(str(found.operation("x", 9).value), "never")
        row["fault"] = {"kind": "early", "read": 5, "write": 3}
        self.assertEqual(str(excerpt(text(*lines), [row]).operation("x", 5).value), "mine")


class Commands(InFolder):
    """All commands that say or draw values."""

    def file(self, name: str, data: bytes) -> str:
        (self.folder / name).write_bytes(data)
        return str(self.folder / name)

    def test_check_explain_draw_and_index(self) -> None:
        path = self.file("h.jsonl", converted(STALE))
        self.assertIn(SAID, run("check", path).out)
        self.assertIn(SAID, json.loads(run("check", "--json", path).out)["faults"][0]["sentences"])
        self.assertIn(SAID[4:40], " ".join(run("explain", path).out.split()))
        page = self.folder / "h.html"
        run("draw", path, "-o", str(page))
        self.assertIn('w &quot;pear&quot;</text>', page.read_text())
        run("index", str(self.folder))
        listed = (self.folder / "index.html").read_text()
        self.assertIn("so &quot;apple&quot; comes before &quot;pear&quot;", listed)

    def test_what_a_search_found(self) -> None:
        path = self.file("h.jsonl", converted("".join(json.dumps(line) + "\n" for line in LOCK), "jsonl"))
        for command in ("check", "explain"):
            self.assertIn('the cas from null to "bob" that took place', run(command, path).out)
        page = self.folder / "h.html"
        run("draw", path, "-o", str(page))
        self.assertIn("c null\u2192&quot;bob&quot;", page.read_text())

    def test_what_split_makes(self) -> None:
        path = self.file("h.jsonl", converted(STALE + "3,0,1,other,write,plum,ok\n"))
        for lines in ("blank", "map"):
            parts = self.folder / lines
            self.assertEqual(run("split", path, "--parts", "2", "--lines", lines, str(parts)).status, 0)
            told = "".join(run("check", str(part)).out for part in sorted(parts.glob("*.jsonl")))
            self.assertIn('so "pear" comes before "apple"', told)

    def test_two_conversions_in_one_file_have_no_verdict(self) -> None:
        path = self.file("h.jsonl", converted(STALE) + converted(STALE.replace("apple", "plum")))
        for command in ("check", "explain"):
            ran = run(command, path)
            self.assertEqual(ran.status, 2)
            self.assertIn("lines of two conversions were put together", ran.out + ran.err)
        self.assertEqual(run("draw", path, "-o", str(self.folder / "h.html")).status, 2)

    def test_a_text_may_be_anything(self) -> None:
        hostile = "v\u202e9\u001b\u009b<b>&\u05d0"
        path = self.file("h.jsonl", converted(STALE.replace("apple", hostile)))
        for out in (run("check", path).out, run("explain", path).out):
            self.assertIn('"v\\u202e9\\u001b\\u009b<b>&\\u05d0"', out)
            self.assertTrue(all(character.isprintable() or character == "\n" for character in out))
        page = self.folder / "h.html"
        run("draw", path, "-o", str(page))
        self.assertNotIn("<b>&", page.read_text())


class Merging(unittest.TestCase):
    """Numbers of two conversions are compared only if they stand for the same values."""

    def history(self, client: int, *written: str, first: int = 0) -> bytes:
        rows = "".join(f"{client},{first + 2 * place},{first + 2 * place + 1},k,write,{value},ok\n"
                       for place, value in enumerate(written))
        return converted(HEADER + rows, "csv", "--clock-unit", "ms")

    def test_texts_stay_with_their_lines(self) -> None:
        merged = merge([("a", self.history(1, "apple", "pear")), ("b", self.history(2, "apple", first=9))])
        self.assertEqual(values(read_history(merged)), ['"apple"', '"pear"', '"apple"'])

    def test_other_numbers_are_refused(self) -> None:
        own = self.history(2, "7", first=9)
        for other, why in [
                (self.history(2, "pear", first=9), '1 stands for "pear", and before that for "apple"'),
                (self.history(2, "pear", "apple", first=9), "1 stands for"),
                (own.replace(b'"value":7', b'"value":1'), '1 stands for 1, and before that for "apple"')]:
            with self.assertRaises(Unmergeable) as caught:
                merge([("a", self.history(1, "apple")), ("b", other)])
            self.assertIn("b: in register \"k\"", str(caught.exception))
            self.assertIn(why, str(caught.exception))
        self.assertIn(b'"value":7', merge([("a", self.history(1, "apple")), ("b", own)]))


class Width(unittest.TestCase):
    def test_wide_letters_take_two_columns(self) -> None:
        for shown, width in [("abc", 3), ("\u4e2d\u6587", 4), ("e\u0301", 1), ("\U0001f600", 2), ("", 0)]:
            self.assertEqual(columns(shown), width)
        call = read_history(text(write(1, 1), fail(1))).calls[0]
        narrow, wide = (Bar(call, 1, 2, label, "", "", "", [], False)
                        for label in ("w ab", "w \u4e2d\u6587"))
        self.assertLess(narrow.label_width, wide.label_width)


if __name__ == "__main__":
    unittest.main()
