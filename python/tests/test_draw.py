"""`regkit draw`: names stay text, labels fit their bars, windows say what they leave out, and the signs
are there."""
import json
import pathlib
import random
import re
import tempfile
import unittest
from html.parser import HTMLParser
from typing import Any, Dict, List, Optional, Sequence, Tuple

from regkit.checker.programs import run_checker
from regkit.checker.report import read_report
from regkit.drawing import svg, text
from regkit.drawing.draw import Mismatch, draw_page, page_of
from regkit.drawing.figure import PAGE_WIDTH, RIGHT, gutter_of
from regkit.drawing.lanes import MOST_LANES, Span
from regkit.drawing.marks import Marks, marks_of_fault, overlapped_writes
from regkit.drawing.page import DrawSettings
from regkit.drawing.scene import Register, Scene, fitted, strips
from regkit.drawing.windows import Window, count_left_out, windows_around
from regkit.history.operations import History, NoRegister, read_history

from .events import Line, crash, fail, gave, read, reply, run, write

EXAMPLES = pathlib.Path(__file__).resolve().parent.parent.parent / "examples"
INVERSION = [write(1, 1), reply(1), write(1, 2), read(2), gave(2, 2), read(2), gave(2, 1), reply(1)]
HOSTILE = ["</title><script>document.title=1</script>", "</svg><style>*{display:none}</style>",
           "a\"b'c&d<e>&lt;", "\" onload=\"alert(1)", "\u202egnp.exe", "\u05d0\u05d1\u05d2",
           "nul\u0000\u001b[31m\u007f\u0085", "line\nbreak\ttab", "\u2066\u200f\ufeff\u061c",
           "a" + "".join(map(chr, range(0x300, 0x330))), "w" * 255, "<!--", "]]>", "\\u202e"]
# What moves, hides or turns around the text beside it: controls, and the direction marks of Unicode.
DANGEROUS = re.compile("[\u0000-\u0009\u000b-\u001f\u007f-\u009f\u061c\u200b-\u200f"
                       "\u2028-\u202e\u2060-\u206f\ufeff]")
BAD_ATTRIBUTES = ["style", "src", "href", "srcdoc", "action"]
ELEMENTS = set("html head meta title style body svg defs pattern rect path circle text tspan g h1 h2 h3 p b "
               "bdi span ol ul li section figure figcaption script".split())


def data(lines: Sequence[Line]) -> bytes:
    return "".join(json.dumps(line) + "\n" for line in lines).encode()


def report(*rows: Dict[str, Any], atomic: str = "no") -> bytes:
    summary = {"atomic": atomic, "operations": 0, "registers": len(rows)}
    return "".join(json.dumps(row) + "\n" for row in (*rows, summary)).encode()


def zones(first: List[int], second: List[int], writes: List[int], register: str = "x") -> Dict[str, Any]:
    fault = {"first": first, "kind": "zones", "second": second, "writes": writes}
    return {"atomic": "no", "fault": fault, "register": register, "regular": "yes", "safe": "yes"}


def stale(name: str) -> List[Line]:
    """A register that is read as null after a write."""
    return [write(1, 1, name), reply(1), read(2, name), gave(2, None)]


class Elements(HTMLParser):
    """The elements of a page as a browser sees them, and the text of each."""

    def __init__(self, page: str) -> None:
        super().__init__()
        self.found: List[Tuple[str, Dict[str, Optional[str]]]] = []
        self.open: List[str] = []
        self.texts: List[Tuple[str, str]] = []
        self.names: List[str] = []
        self.odd: List[str] = []
        self.feed(page)
        self.close()

    def handle_starttag(self, tag: str, attrs: List[Tuple[str, Optional[str]]]) -> None:
        self.found.append((tag, dict(attrs)))
        if tag != "meta":
            self.open.append(tag)
        if tag == "bdi":
            self.names.append("")

    def handle_startendtag(self, tag: str, attrs: List[Tuple[str, Optional[str]]]) -> None:
        self.found.append((tag, dict(attrs)))

    def handle_endtag(self, tag: str) -> None:
        if not self.open or self.open.pop() != tag:
            self.odd.append(tag)

    def handle_data(self, data: str) -> None:
        self.texts.append((self.open[-1] if self.open else "", data))
        if "bdi" in self.open:
            self.names[-1] += data

    def handle_comment(self, data: str) -> None:
        self.odd.append(data)

    def count(self, word: str) -> int:
        """How many elements are of a class."""
        return sum(word in (attributes.get("class") or "").split() for _, attributes in self.found)


class Names(unittest.TestCase):
    """Nothing of a name is markup, or moves or turns around what stands beside it."""

    def test_name(self) -> None:
        def escape(word: str) -> str:
            return f'<span class="escape">{word}</span>'

        for given, expected in [
                ("plain", "plain"), ("<b>&\"'", "&lt;b&gt;&amp;&quot;&#x27;"), ("\\u202e", "\\u202e"),
                ("\u202ex", escape("\\u202e") + "x"), ("a\nb", "a" + escape("\\u000a") + "b"),
                ("\u0000", escape("\\u0000")), ("\U000e0001", escape("\\U000e0001")),
                ("\u05d0 1", "\u05d0 1"), ("\u0301", escape("\\u0301")), ("e\u0301", "e\u0301"),
                ("e\u0301\u0301\u0301", "e\u0301\u0301" + escape("\\u0301")),
                ("\udc80", escape("\\udc80")), ("w" * 300, "w" * 47 + "\u2026" + "w" * 48)]:
            self.assertEqual(text.name(given), f'<bdi class="name">{expected}</bdi>', repr(given))

    def test_attribute(self) -> None:
        for given, expected in [("a\"<'&", "a&quot;&lt;&#x27;&amp;"), ("\u05d0", "\\u05d0"),
                                ("\u202e", "\\u202e")]:
            self.assertEqual(text.attribute(given), expected)
        self.assertEqual(svg.tag("g", class_="a\"b<c>", x=1.25), '<g class="a&quot;b&lt;c&gt;" x="1.2"/>')
        self.assertEqual(svg.title("<b>&"), "<title>&lt;b&gt;&amp;</title>")
        self.assertIn("&lt;i&gt;", svg.text(0, 0, "<i>", "label"))

    def test_pages(self) -> None:
        """Each name as that of a faulty register, of one that isn't drawn, of another register, and of the
        file."""
        for name in HOSTILE:
            third = [write(4, 7, name), read(3, "third"), gave(3, 7), reply(4)]
            history = data(stale(name) + stale("other") + third)
            rows = [zones([0, 1], [1, 3], [0, 1], name), zones([0, 5], [5, 7], [0, 5], "other")]
            rows.append({"atomic": "no", "register": "third", "fault": {"kind": "unwritten", "read": 10}})
            for shown in (DrawSettings(), DrawSettings(registers=["other"])):
                page = page_of(read_history(history), read_report(report(*rows)), name, shown)
                self.check(page, name)

    def check(self, page: str, name: str) -> None:
        elements = Elements(page)
        self.assertEqual(elements.odd, [], name)
        self.assertEqual(elements.open, [], name)
        self.assertLessEqual({tag for tag, _ in elements.found}, ELEMENTS, name)
        self.assertEqual([tag for tag, _ in elements.found].count("style"), 1)
        for tag, attributes in elements.found:
            bad = [key for key in attributes if key.startswith("on") or key in BAD_ATTRIBUTES]
            self.assertEqual(bad, [], f"{name!r} {tag}")
        self.assertIsNone(DANGEROUS.search(page), name)
        shown = "".join(re.findall("<title>(.*?)</title>", page, re.DOTALL)[:1])
        self.assertNotRegex(shown, "[\u0590-\u08ff]", "a title can't be isolated")
        if len(name) < 90 and name.isprintable() and name.isascii():
            self.assertIn(name, elements.names)

    def test_right_to_left_is_isolated(self) -> None:
        name = "\u05d0\u05d1\u05d2"
        page = draw_page(data(stale(name)), report(zones([0, 1], [1, 3], [0, 1], name)), "h")
        self.assertNotRegex(re.sub("<bdi.*?</bdi>", "", page), "[\u0590-\u08ff]")
        self.assertIn(name, page)


class Policy(unittest.TestCase):
    """The page stands alone."""

    def setUp(self) -> None:
        self.page = draw_page(data(INVERSION), report(zones([1, 4], [4, 6], [1, 3])), "h.jsonl")

    def test_nothing_loaded(self) -> None:
        for word in ("http:", "https:", "<link", "<iframe", "@import", "javascript:", " src=", " href="):
            self.assertNotIn(word, self.page.lower())
        self.assertEqual({found[0] for found in re.findall(r"url\((.*?)\)", self.page)}, {"#"}, "of the page")

    def test_style(self) -> None:
        for word in ("prefers-color-scheme:dark", "@media print", "#0072b2", "#d55e00", "#cc79a7", "#009e73"):
            self.assertIn(word, self.page)


def random_lines(chance: random.Random, count: int, processes: int) -> List[Line]:
    """Calls and their ends by chance; the reads give whatever was written."""
    lines: List[Line] = []
    open_calls: Dict[int, str] = {}
    written = 0
    while len(lines) < count:
        process = chance.randrange(1, processes + 1)
        if process not in open_calls:
            open_calls[process] = chance.choice(["read", "write"])
            written += open_calls[process] == "write"
            lines.append(write(process, written) if open_calls[process] == "write" else read(process))
        elif chance.random() < 0.95:
            is_read = open_calls.pop(process) == "read"
            lines.append(gave(process, chance.randint(0, written) or None) if is_read else reply(process))
        else:
            del open_calls[process]
            lines.append(fail(process))
    return lines


def register_of(history: History) -> Register:
    return Register(history.registers["x"], [], [])


class Layout(unittest.TestCase):
    """Labels fit, bars don't overlap, windows hold what they must."""

    def check(self, scene: Scene, say: str) -> None:
        axis = scene.axis
        spans: Dict[int, List[Span]] = {}  # of each lane
        for bar in scene.bars:
            span = axis.begin_at(bar.begin), axis.end_at(bar.end)
            if axis.has(bar.begin) and (axis.has(bar.end) or bar.end is None):
                self.assertGreaterEqual(span[1] - span[0], bar.width - 0.01, f"{say}: {bar.label}")
            if bar.begin in scene.lanes.lane_of:
                spans.setdefault(scene.lanes.lane_of[bar.begin], []).append(span)
        for lane in spans.values():
            for one, other in zip(sorted(lane), sorted(lane)[1:]):
                self.assertLessEqual(one[1], other[0] + 0.01, say)
        self.assertEqual(sorted(axis.places.values()), [axis.places[line] for line in sorted(axis.lines)])
        self.assertLessEqual(len(spans), MOST_LANES)

    def test_random_pictures(self) -> None:
        faulty = 0
        for seed in range(120):
            chance = random.Random(seed)
            size, processes = chance.choice([6, 30, 200, 900]), chance.choice([1, 3, 8, 12, 60])
            history = data(random_lines(chance, size, processes))
            calls = read_history(history)
            answer = run_checker(history)
            rows = read_report(answer.report).rows
            marks = marks_of_fault(calls, rows[0]) if rows[0]["atomic"] == "no" else Marks()
            register = register_of(calls)
            if marks.named:
                faulty += 1
                room = PAGE_WIDTH - gutter_of(marks, ["process 60"]) - RIGHT
                scene = fitted(register, marks, room)
                self.check(scene, f"seed {seed}")
                drawn = sum(line > 0 for line in scene.axis.lines)
                self.assertEqual(drawn + scene.left_out, len(register.events))
                for arrow in marks.arrows:
                    end, begin = arrow.before.end_line, arrow.after.line
                    self.assertTrue(scene.axis.has(end) and scene.axis.has(begin))
                    self.assertGreaterEqual(scene.axis.begin_at(begin) - scene.axis.end_at(end), 40)
            found = strips(register, marks.without_arrows(), 300, 1000.0)
            self.assertEqual([line for scene in found for line in scene.axis.lines], register.events[:300])
            for scene in found:
                self.check(scene, f"strip of seed {seed}")
        self.assertGreater(faulty, 60)

    def test_windows(self) -> None:
        events = list(range(10, 1010, 10))
        table: List[Tuple[List[int], List[Window]]] = [
            ([500], [(47, 52)]), ([500, 540], [(47, 56)]), ([10], [(0, 3)]), ([], []),
            ([500, 580], [(47, 60)]), ([500, 590], [(47, 52), (56, 61)]), ([60], [(0, 8)]),
            ([950], [(92, 100)])]
        for lines, expected in table:
            self.assertEqual(windows_around(events, lines, 2), expected)
        self.assertEqual(count_left_out([(47, 52), (56, 61)], 100), 90)

    def test_overlapped_writes(self) -> None:
        lines = [write(1, 1), reply(1), write(6, 6), crash(6), write(7, 7), write(1, 2), read(2), write(3, 3),
                 reply(1), write(4, 4), fail(4), gave(2, 1), write(5, 5), reply(5), crash(3)]
        calls = read_history(data(lines)).registers["x"]
        stale_read = next(call for call in calls if call.kind == "read")
        self.assertEqual([call.value for call in overlapped_writes(stale_read, calls)], [2, 3, 7, 6])


class Signs(unittest.TestCase):
    """What the pictures show."""

    def page(self, lines: Sequence[Line], *rows: Dict[str, Any], atomic: str = "no") -> Elements:
        return Elements(draw_page(data(lines), report(*rows, atomic=atomic), "h.jsonl"))

    def words(self, page: Elements) -> str:
        return " ".join(data for tag, data in page.texts if tag not in ("style", "title"))

    def test_inversion(self) -> None:
        page = self.page(INVERSION, zones([1, 4], [4, 6], [1, 3]))
        words = self.words(page)
        for sentence in ["Not linearizable: ", "4 operations on 1 register.",
                         "The write of 1 by process 1 (lines 1 to 2) ended before the write of 2 by process 1 "
                         "(lines 3 to 8) began, so 1 comes before 2.",
                         "The read of 2 by process 2 (lines 4 to 5) ended before the read of 1 by process 2 "
                         "(lines 6 to 7) began, so 2 comes before 1.",
                         "new-old inversion", "linearizable  no ",
                         "The read of 2 by process 2 (lines 4 to 5) is the fresh read, and the read of 1 by "
                         "process 2 (lines 6 to 7) the stale one.",
                         "The first read that can't be explained is the read of 1 by process 2 (lines 6 to "
                         "7). It overlaps the write of 2 by process 1 (lines 3 to 8).",
                         "zone of 1", "zone of 2", "1 \u2192 2", "2 \u2192 1",
                         "The zone of 2 lies within the other one, so no moment is left for it."]:
            self.assertIn(sentence, words)
        # In the picture and in the legend. The numbers stand before their sentences too. Four bars are
        # strong, and their eight lines.
        for word, count in [("zone", 2 + 1), ("badge", 2 + 2 + 1), ("alarm", 1 + 1), ("fine", 1 + 1),
                            ("stale-ring", 1 + 1), ("parallel", 1 + 1), ("strong", 4 + 8)]:
            self.assertEqual(page.count(word), count, word)

    def test_two_forward_zones(self) -> None:
        """Both values are read after a read of the other one."""
        lines = [write(1, 1), reply(1), write(1, 2), reply(1), read(2), gave(2, 1), read(2), gave(2, 2)]
        page = self.page(lines, zones([1, 3], [3, 5], [1, 3]))
        words = self.words(page)
        for sentence in ["The zone of 1 is forward: from its first reply at line 2 to its last call at line "
                         "5, the register has to hold this value.",
                         "The zone of 2 is forward: from its first reply at line 4 to its last call at line 7, ",
                         "Both overlap, and the register can't hold two values at once.",
                         "zone of a value, explained below the picture"]:
            self.assertIn(sentence, words)

    def test_the_stale_read_has_a_mark_of_its_own(self) -> None:
        """The first wrong reply is to the read of line 6; the read of line 5 is as stale."""
        lines = [write(1, 1), reply(1), write(1, 2), reply(1), read(2), read(3), gave(3, 1), gave(2, 1)]
        page = self.page(lines, zones([1, 3], [3, 5], [1, 3]))
        titles = [words for tag, words in page.texts if tag == "title"]
        for title in ["The read of 1 by process 2 (lines 5 to 8); a stale read: it gave an older value.",
                      "The read of 1 by process 3 (lines 6 to 7); the first read that can't be explained."]:
            self.assertIn(title, titles)
        self.assertEqual((page.count("alarm"), page.count("stale-ring")), (1 + 1, 1 + 1))
        self.assertIn("first unexplained read stale read", self.words(page))

    def test_numbers_and_colours(self) -> None:
        """The first arrow leaves the cluster that has to come first, and so on."""
        page = draw_page(data(INVERSION), report(zones([1, 4], [4, 6], [1, 3])), "h")
        badges = re.findall('class="badge (first|second)"><circle.*?/><text.*?>([12])</text>', page)
        self.assertEqual(sorted(set(badges)), [("first", "1"), ("second", "2")])
        arrows = re.findall('class="arrow (first|second)" d="M ([0-9.]+).*? H ([0-9.]+)', page)[-2:]
        self.assertEqual([cluster for cluster, _, _ in arrows], ["first", "second"])
        pattern = 'class="bar (?:read|write) (first|second) strong".*?class="label".*?>([rw] [12])<'
        bars = re.findall(pattern, page)
        self.assertEqual(bars, [("first", "w 1"), ("second", "w 2"), ("second", "r 2"), ("first", "r 1")])

    def test_titles(self) -> None:
        page = self.page(INVERSION, zones([1, 4], [4, 6], [1, 3]))
        titles = [words for tag, words in page.texts if tag == "title"]
        for title in ["The read of 1 by process 2 (lines 6 to 7); the first read that can't be explained; "
                      "a stale read: it gave an older value.",
                      "The zone of 1 is forward: from its first reply at line 2 to its last call at line 6, "
                      "the register has to hold this value.",
                      "The zone of 2 is backward: all its operations were open together from line 4 to line "
                      "5, and one moment in it is enough for them."]:
            self.assertIn(title, titles)

    def test_the_fresh_read_is_far_from_the_write(self) -> None:
        """The fault names the write of the newer value. The last read of it is marked as the fresh one."""
        lines = [write(1, 1), reply(1), write(1, 2), reply(1), read(3), gave(3, 2), read(2), gave(2, 1)]
        page = self.page(lines, zones([1, 3], [3, 7], [1, 3]))
        titles = [words for tag, words in page.texts if tag == "title"]
        self.assertIn("The read of 2 by process 3 (lines 5 to 6); the fresh read: it gave the newer value.",
                      titles)
        self.assertEqual((page.count("fine"), page.count("alarm")), (1 + 1, 1 + 1))

    def test_what_to_ask(self) -> None:
        early = {"atomic": "no", "register": "x", "fault": {"kind": "early", "read": 1, "write": 3}}
        page = self.page([read(2), gave(2, 5), write(1, 5), reply(1)], early)
        self.assertIn("Was the store empty when the recording began?", self.words(page))
        lines = [write(1, 1), reply(1), write(1, 2), reply(1), write(1, 3), reply(1), read(2), gave(2, 1)]
        page = self.page(lines, zones([1, 3], [3, 7], [1, 3]))
        self.assertIn("2 answered writes may be lost: the read of line 7 ignored them, and nothing came "
                      "after it: the write of 2 by process 1 (lines 3 to 4) and the write of 3 by process 1 "
                      "(lines 5 to 6).", self.words(page))

    def test_endings(self) -> None:
        lines = [write(1, 1), reply(1), write(2, 2), fail(2), write(3, 3), crash(3), write(4, 4), read(5),
                 read(6), gave(6, 3), read(6), gave(6, 1), crash(6), read(7), gave(7, 1)]
        page = self.page(lines, zones([1, 9], [9, 14], [1, 5]))
        self.assertIn("7 operations on 1 register; 1 call failed; 2 processes crashed.", self.words(page))
        for word, count in [("cross", 1 + 1), ("bolt", 2 + 1), ("failed", 1 + 1), ("pending", 3 + 1)]:
            self.assertEqual(page.count(word), count, word)
        torn = [attributes for _, attributes in page.found if " -7 " in (attributes.get("d") or "")]
        self.assertEqual([attributes.get("class") for attributes in torn].count("edge"), 3 + 1)

    def test_atomic(self) -> None:
        lines = [read(1), write(2, 1), gave(1, 1), reply(2), read(1), gave(1, 1), write(3, 2)]
        row = {"atomic": "yes", "order": [2, 1, 5], "points": [2, 2, 5], "register": "x"}
        page = self.page(lines, row, atomic="yes")
        self.assertIn("Linearizable: ", self.words(page))
        self.assertEqual(page.count("point"), 3 + 1)
        self.assertEqual([data for tag, data in page.texts if tag == "tspan"], ["2", "1", "3"])
        self.assertEqual(page.count("thread"), 1)

    def test_other_kinds(self) -> None:
        early = {"atomic": "no", "register": "x", "fault": {"kind": "early", "read": 1, "write": 3}}
        page = self.page([read(2), gave(2, 5), write(1, 5), reply(1)], early)
        self.assertIn("ended before the write of its value began", self.words(page))
        self.assertEqual(page.count("arrow"), 1 + 1)
        unwritten = {"atomic": "no", "register": "x", "fault": {"kind": "unwritten", "read": 1}}
        page = self.page([read(2), gave(2, 5), write(1, 5, "y"), reply(1)], unwritten)
        self.assertIn("gave a value that nobody wrote to this register", self.words(page))
        self.assertEqual(page.count("arrow"), 0)

    def test_far(self) -> None:
        """The first read that can't be explained is shown too, if the report names another one."""
        lines = [write(1, 1), reply(1), write(1, 2), reply(1), write(1, 3), reply(1), read(2), gave(2, 2)]
        for value in range(4, 400):
            lines += [write(1, value), reply(1)]
        lines += [read(2), gave(2, 1)]
        page = self.page(lines, zones([1, 3], [3, len(lines) - 1], [1, 3]))
        words = self.words(page)
        self.assertIn("The first read that can't be explained is the read of 2 by process 2 (lines 7 to 8). "
                      "2 reads in all can't be explained. It overlaps no write.", words)
        self.assertEqual(page.count("left-out"), 2, "a number and two words, over one gap")
        self.assertIn("all lines", words)
        self.assertEqual((page.count("alarm"), page.count("stale-ring")), (1 + 1, 1 + 1))

    def test_read_of_its_own(self) -> None:
        lines = [write(1, 1), reply(1), write(1, 2), reply(1), read(2), gave(2, 1)]
        for value in range(3, 900):
            lines += [write(1, value), reply(1)]
        last, middle = len(lines), 7 + 2 * (450 - 3)  # the lines of the last write, and of that of 450
        lines += [read(2), gave(2, 450), read(2), gave(2, 899)]
        row = zones([middle, last - 1], [last - 1, last + 1], [middle, last - 1])
        page = self.page(lines, row)
        self.assertEqual([tag for tag, _ in page.found].count("figure"), 2)
        self.assertIn(("h3", "The first read that can't be explained"), page.texts)

    def test_many_registers(self) -> None:
        names = [f"user:{number}" for number in range(30)]
        lines = [line for name in names for line in stale(name)] + [read(9, "fine"), gave(9, None)]
        rows = [zones([0, call], [call, call + 2], [0, call], name)
                for call, name in zip(range(1, 121, 4), names)]
        page = self.page(lines, *rows, {"atomic": "yes", "register": "fine", "order": [121], "points": [121]})
        words = self.words(page)
        self.assertEqual([tag for tag, _ in page.found].count("figure"), 5)
        self.assertIn("61 operations on 31 registers; 30 of them not linearizable.", words)
        self.assertIn("25 more registers are not linearizable", words)
        self.assertIn(", and 13 more.", words)
        self.assertIn("1 other register is not drawn", words)

    def test_early_answer(self) -> None:
        """A report of --first names one register and has no order."""
        page = self.page(stale("x") + stale("y"), zones([0, 1], [1, 3], [0, 1]))
        self.assertIn("an early answer", self.words(page))
        self.assertEqual([tag for tag, _ in page.found].count("figure"), 1)
        atomic = report(atomic="yes")
        self.assertIn("figure", draw_page(data(stale("x")), atomic, "h"))

    def test_nothing(self) -> None:
        self.assertIn("nothing to draw", draw_page(b"", report(atomic="yes"), "h"))

    def test_pending_crowd_leaves_room(self) -> None:
        """Calls that were never answered don't push out those near the fault."""
        lines: List[Line] = [write(100 + number, 1000 + number) for number in range(200)]
        lines += [write(1, 1), reply(1), write(2, 2), reply(2), read(3), write(4, 3), gave(3, 1), reply(4)]
        page = self.page(lines, zones([201, 203], [203, 205], [201, 203]))
        labels = [data for tag, data in page.texts if tag == "text"]
        for label in ("w 1", "w 2", "r 1", "w 3"):
            self.assertIn(label, labels)
        self.assertRegex(self.words(page), r"\d+ of 204 calls drawn.*\d+ more that were open at the")

    def test_examples(self) -> None:
        """Each shipped history with its report."""
        for path in sorted(EXAMPLES.glob("*.report")):
            page = draw_page(path.with_suffix(".jsonl").read_bytes(), path.read_bytes(), path.name)
            self.assertGreaterEqual([tag for tag, _ in Elements(page).found].count("figure"), 1, path.name)

    def test_mismatch(self) -> None:
        for row in (zones([1, 4], [4, 6], [1, 3], "other"), zones([1, 40], [4, 6], [1, 3]),
                    {"atomic": "yes", "register": "other"}):
            with self.assertRaises(Mismatch):
                self.page(INVERSION, row)
        with self.assertRaises(NoRegister):
            page_of(read_history(data(INVERSION)), read_report(report(zones([1, 4], [4, 6], [1, 3]))), "h",
                    DrawSettings(registers=["y"]))


class Command(unittest.TestCase):
    """The command and its statuses."""

    def setUp(self) -> None:
        folder = tempfile.TemporaryDirectory()
        self.addCleanup(folder.cleanup)
        self.folder = pathlib.Path(folder.name)
        self.history = self.folder / "<h>.jsonl"
        self.history.write_bytes(data(INVERSION))
        self.out = self.folder / "out.html"

    def test_draws(self) -> None:
        ran = run("draw", str(self.history), "-o", str(self.out))
        self.assertEqual((ran.status, ran.out, ran.err), (0, "", ""))
        page = self.out.read_text("utf-8")
        self.assertIn("&lt;h&gt;.jsonl", page)
        made = self.folder / "h.report"
        made.write_bytes(run_checker(data(INVERSION)).report)
        ran = run("draw", str(self.history), str(made), "-o", str(self.folder / "again.html"))
        self.assertEqual(ran.status, 0, ran.err)
        self.assertEqual((self.folder / "again.html").read_text("utf-8"), page)

    def test_statuses(self) -> None:
        other = self.folder / "other.report"
        other.write_bytes(report(zones([1, 4], [4, 6], [1, 3], "other")))
        refused = self.folder / "refused.jsonl"
        refused.write_bytes(data([reply(1)]))
        out = ["-o", str(self.out)]
        for words, status, says in [
                ([str(refused), *out], 2, "line 1: reply without an open call"),
                ([str(self.history), str(other), *out], 2, "the report isn't of this history"),
                ([str(self.history), str(self.history), *out], 2, "summary"),
                ([str(self.history), "--register", "y", *out], 3, 'no register has the name "y"'),
                ([str(self.history)], 3, "-o"), (["-", "-", *out], 3, "standard input"),
                ([str(self.history), "--most", "0", *out], 3, "--most"),
                ([str(self.folder / "none.jsonl"), *out], 4, "none.jsonl")]:
            ran = run("draw", *words)
            self.assertEqual(ran.status, status, words)
            self.assertIn(says, ran.err)
            self.assertFalse(self.out.exists())


if __name__ == "__main__":
    unittest.main()
