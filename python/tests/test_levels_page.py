"""`regkit levels --page`: nothing is drawn that the report and the history don't say, and all that they say
is. A script gives the report in the place of reglevel."""
import json
import os
import re
import unittest
from collections import Counter
from typing import Any, Dict, List, Optional, Tuple
from unittest import mock

from regkit.checker.levels import LEVELS, read_levels
from regkit.checker.programs import LEVEL, find_program
from regkit.history.operations import read_history
from regkit.levels.ages import Age
from regkit.levels.subject import Places, Subject
from regkit.pictures.bursts import MOST_ROWS, Extent, bursts_of, extent_of
from regkit.pictures.faults import write_of_stale
from regkit.pictures.histogram import Histogram, histogram_of
from regkit.pictures.page import levels_page, title_of
from regkit.pictures.reasons import from_first_write, reasons_of
from regkit.pictures.registers import table
from regkit.pictures.ticks import round_step, shown
from regkit.pictures.timeline import timeline

from .events import Line, gave, read, reply, run, stale, text, write
from .test_draw import BAD_ATTRIBUTES, DANGEROUS, ELEMENTS, HOSTILE, Elements
from .test_levels import EXAMPLES, FOLLOWER, Placed, stored

COUNTS = ("stale", "own", "back", "inverted", "lost")
TABLES = {"div", "table", "tr", "td", "th"}
HEADS = ["Written", "Verdict", "Run", "What came out"]
STALE_READS: Dict[str, List[List[int]]] = {  # of the examples, by hand; the others have none
    "follower_behind": [[7, 5], [11, 5]], "lost_write": [[7, 5], [9, 5]], "own_write_missed": [[7, 5]],
    "other_session_behind": [[7, 5]], "read_goes_back": [[7, 3]], "order_against_time": [[5, 3], [9, 3]],
    "answer_before_question": [[9, 1]], "news_in_both_orders": [[10, 1], [9, 3]]}


def subject_of(events: List[Line], *rows: Dict[str, Any]) -> Subject:
    """Each row has the levels that it doesn't say as no, and the summary what follows from the rows."""
    data = text(*events)
    history = read_history(data)
    whole = [{**dict.fromkeys(LEVELS, "no"), **row} for row in rows]
    summary: Dict[str, Any] = {
        level: "yes" if all(row[level] == "yes" for row in whole) else "no" for level in LEVELS}
    counts = {key: sum(row.get(key, 0) for row in rows) for key in COUNTS}
    sizes = {"operations": len(history.calls), "registers": len(rows), "reads": 1}
    report = "".join(json.dumps(row) + "\n" for row in (*whole, {**summary, **counts, **sizes}))
    return Subject(history, read_levels(report.encode()), Places(data, history))


def of_example(name: str) -> Subject:
    """The stale reads are listed in the line of their register."""
    data = (EXAMPLES / f"{name}.jsonl").read_bytes()
    history = read_history(data)
    *rows, summary = (EXAMPLES / f"{name}.report").read_text(encoding="utf-8").splitlines()
    told = []
    for row in map(json.loads, rows):
        lines = {call.line for call in history.registers[row["register"]]}
        told.append({**row, "stale_reads": [pair for pair in STALE_READS.get(name, []) if pair[0] in lines]})
    report = "".join(f"{each}\n" for each in (*map(json.dumps, told), summary)).encode()
    return Subject(read_history(data), read_levels(report), Places(data, read_history(data)))


def row_of(stale_reads: List[List[int]], register: str = "x", **more: Any) -> Dict[str, Any]:
    """A register with counts, of which only the stale reads matter here."""
    return {"register": register, **dict.fromkeys(COUNTS, 0), "stale": len(stale_reads),
            "stale_reads": stale_reads, **more}


def words_of(page: str) -> str:
    return " ".join(said for tag, said in Elements(page).texts if tag not in ("style", "title"))


class Pages(Placed):
    def test_the_page_beside_the_words(self) -> None:
        path = self.folder / "p.html"
        with self.in_place(stored("follower_behind", stale_reads=STALE_READS["follower_behind"])):
            ran, without = run("levels", "--page", str(path), FOLLOWER), run("levels", FOLLOWER)
        self.assertEqual(ran, without)
        page = path.read_text(encoding="utf-8")
        self.assertIn("<title>Keeps session and causal: follower_behind.jsonl</title>", page)
        self.assertIn("Not linearizable or regular: 9 operations on 2 registers.", words_of(page))
        self.assertNotIn("Keeps session and causal; ", words_of(page))
        for line in without.out.splitlines()[1:]:
            said = line.strip()
            self.assertIn(said[:1].upper() + said[1:] + ".", words_of(page))

    def test_every_example(self) -> None:
        for path in sorted(EXAMPLES.glob("*.jsonl")):
            page = levels_page(of_example(path.stem), path.name)
            elements = Elements(page)
            self.assertEqual((elements.odd, elements.open), ([], []), path)
            figures = [attributes for tag, attributes in elements.found if attributes.get("role") == "img"]
            self.assertEqual(len(figures), page.count("<figure>"), path)
            self.assertTrue(all(attributes["aria-label"] for attributes in figures))
            for heading in ("How old stale reads were", "When reads were stale"):
                self.assertEqual(heading in page, path.stem in STALE_READS, path)

    def test_it_is_of_one_history(self) -> None:
        path = self.folder / "p.html"
        ran = run("levels", "--page", str(path), FOLLOWER, FOLLOWER)
        self.assertEqual((ran.status, ran.out), (3, ""))
        self.assertIn("--page is of one history", ran.err)

    def test_no_page_without_an_answer(self) -> None:
        path = self.folder / "p.html"
        refused = [self.in_place(b"", 2, "line 1: not JSON"), self.in_place(stored("lost_write")),
                   self.in_place(stored("follower_behind", stale_reads=[[99, 5]]))]
        for place, status in zip(refused, (2, 4, 4)):
            with place:
                self.assertEqual(run("levels", "--page", str(path), given=b"no\n" if status == 2 else
                                     (EXAMPLES / "follower_behind.jsonl").read_bytes()).status, status)
            self.assertFalse(path.exists())

    def test_a_page_that_cannot_be_written(self) -> None:
        with self.in_place(stored("follower_behind", stale_reads=STALE_READS["follower_behind"])):
            ran = run("levels", "--page", str(self.folder), FOLLOWER)
        self.assertEqual((ran.status, ran.out), (4, ""))
        self.assertIn(f"{self.folder}: Is a directory", ran.err)

    def test_linearizable(self) -> None:
        subject = subject_of([write(1, 1), reply(1)], {"register": "x", **dict.fromkeys(LEVELS, "yes")})
        page = levels_page(subject, "h")
        self.assertIn("Linearizable: ", words_of(page))
        self.assertIn("It keeps every level: 1 operation on 1 register.", words_of(page))
        self.assertEqual((page.count("<figure>"), Elements(page).count("kept")), (1, len(LEVELS)))
        self.assertNotIn("<h2>Register", page)

    def test_no_level(self) -> None:
        page = levels_page(subject_of([write(1, 1), reply(1)], row_of([])), "h")
        self.assertIn("Keeps no level: ", words_of(page))
        self.assertEqual(Elements(page).count("lacking"), len(LEVELS))

    def test_hostile_names(self) -> None:
        for name in HOSTILE:
            who = {"client": name, "node": name}
            events: List[Line] = [{**each, **who} for each in stale(name)] + stale("y")
            rows = [row_of([[3, 1]], register, stale_read={"newer": 1, "read": 3, "seen": 0}, lost=0)
                    for register in (name, "y")]
            rows[1]["stale_reads"], rows[1]["stale_read"] = [[7, 5]], {"newer": 5, "read": 7, "seen": 0}
            page = levels_page(subject_of(events, *rows), name)
            elements = Elements(page)
            self.assertEqual((elements.odd, elements.open), ([], []), name)
            self.assertLessEqual({tag for tag, _ in elements.found}, ELEMENTS | TABLES)
            for tag, attributes in elements.found:
                bad = [key for key in attributes if key.startswith("on") or key in BAD_ATTRIBUTES]
                self.assertEqual(bad, [], f"{name!r} {tag}")
            self.assertIsNone(DANGEROUS.search(page), name)
            self.assertNotRegex(re.sub("<bdi.*?</bdi>", "", page), "[\u0590-\u08ff]", name)


class Levels(unittest.TestCase):
    def boxes(self, page: str) -> Dict[str, Tuple[str, str]]:
        """Of each level in words, whether it was kept and by how many registers. Another name that --require
        takes is in the words."""
        pattern = 'class="level (kept|lacking)">.*?level-name".*?>(.*?)</text>.*?level-note".*?>(.*?)<'
        found = re.findall(pattern, page)
        return {re.sub("<.*?>", "", name): (held, note) for held, name, note in found}

    def test_the_ladder(self) -> None:
        boxes = self.boxes(levels_page(of_example("own_write_missed"), "h"))
        self.assertEqual({name for name, (held, _) in boxes.items() if held == "kept"},
                         {"monotonic reads (monotonic)"})
        self.assertEqual(boxes["regular"], ("lacking", "not kept"))
        boxes = self.boxes(levels_page(of_example("follower_behind"), "h"))
        self.assertEqual({name for name, (held, _) in boxes.items() if held == "lacking"},
                         {"linearizable (atomic)", "regular"})
        self.assertIn("read your writes (own_writes)", boxes)
        self.assertEqual(boxes["regular"][1], "not kept by 1 of 2 registers")
        self.assertEqual(boxes["session"][1], "kept by both registers")
        page = levels_page(of_example("lost_write"), "h")
        self.assertIn(">no read misses a write that had ended</text>", page)
        events = [line for name in "ab" for line in (write(1, 1, name), reply(1))]
        boxes = self.boxes(levels_page(subject_of(events, row_of([], "a"), row_of([], "b")), "h"))
        self.assertEqual(boxes["session"], ("lacking", "kept by no register"))

    def test_the_registers(self) -> None:
        """The worst comes first, and one that kept all isn't there."""
        page = levels_page(of_example("follower_behind"), "h")
        rows = re.findall("<tr>(.*?)</tr>", page)[1:]
        cells = [re.sub("<.*?>", " ", row).split() for row in rows]
        self.assertEqual([" ".join(cell) for cell in cells],
                         ["cart no no yes yes yes yes 2 0 0 1 0 12.3 ms (5 events)"])
        session = {"session": "yes", "own_writes": "yes", "monotonic": "yes", "sequential": "yes"}
        events = [line for name in "abc" for line in (write(1, 1, name), reply(1))]
        subject = subject_of(events, row_of([], "a", **session), row_of([], "b"),
                             {"register": "c", "unwritten": 5})
        subject.levels.rows[2].update(unwritten=5)
        rows = re.findall("<tr>(.*?)</tr>", table(subject))[1:]
        self.assertEqual([re.sub("<.*?>", " ", row).split()[0] for row in rows], ["b", "c", "a"])
        self.assertIn("not counted", rows[1])

    def test_gaps(self) -> None:
        """By the clock if the lines have times; above the picture too."""
        for name, allowed in [("follower_behind", "only if reads might be 12.3 ms old or more (5 events)"),
                              ("read_goes_back", "if reads might be 3 events old, and no less")]:
            words = words_of(levels_page(of_example(name), "h"))
            self.assertIn(f"The register would be linearizable {allowed}. That is its gap.", words)
        calls = [write(1, 1), reply(1), write(1, 2), reply(1), read(2), gave(2, 1)]
        gap = {"events": 1, "first": [1, 3], "second": [3, 5], "writes": [1, 3]}
        subject = subject_of(calls, row_of([], gap=gap), row_of([], "y"))
        last_cells = re.findall("<td class=.number.>([^<]*)</td></tr>", table(subject))
        self.assertEqual(last_cells, ["1 event", "none"])

    def test_one_register_needs_no_table(self) -> None:
        self.assertNotIn("<table", levels_page(of_example("read_goes_back"), "h"))

    def test_meanings(self) -> None:
        """Of what is broken only the weakest: the rest follows."""
        for name, said in [
                ("follower_behind", "Kept: each session only moves forward; no read misses a write that "
                                    "it knew of. Broken: some read missed a finished write."),
                ("answer_before_question",
                 "Kept: each session only moves forward. Broken: some read missed a finished write; some "
                 "read missed a write that it knew of."),
                ("read_goes_back", "Kept: no session misses its own write. Broken: some read missed a "
                                   "finished write; some session went back to an older value; no one order "
                                   "of the writes fits all sessions."),
                ("new_old_across_sessions", "Kept: no read misses a write that had ended; each session only "
                                            "moves forward; no read misses a write that it knew of. "
                                            "Broken: some read didn't give the latest write.")]:
            self.assertIn(said, words_of(levels_page(of_example(name), "h")))

    def test_titles(self) -> None:
        for name, title in [("readers_disagree", "Keeps regular and read your writes"),
                            ("order_against_time", "Keeps causal"),
                            ("lost_write", "Keeps session and causal")]:
            self.assertEqual(title_of(of_example(name)), title)


class Reasons(unittest.TestCase):
    def test_of_examples(self) -> None:
        """Each with the levels that it breaks, its steps, and the gap if it is that of the register."""
        table: List[Tuple[str, List[Tuple[str, List[List[int]], Optional[int]]]]] = [
            ("follower_behind", [("atomic", [[1, 5], [5, 11]], 5), ("regular", [[1, 5], [5, 7]], None)]),
            ("lost_write", [("atomic", [[1, 5], [5, 9]], 3), ("regular", [[1, 5], [5, 7]], None)]),
            ("own_write_missed", [("atomic regular session own_writes", [[1, 5], [5, 7]], 1),
                                  ("sequential", [[7, 9], [5, 7]], None)]),
            ("read_goes_back", [("atomic regular", [[1, 3], [3, 7]], 3),
                                ("session monotonic sequential", [[1, 3], [5, 7]], None)]),
            ("one_guarantee_each", [("atomic", [[1, 7], [2, 9]], 4),
                                    ("session sequential", [[1, 5], [7, 9]], None)]),
            ("readers_disagree", [("atomic", [[1, 9], [2, 11]], 6),
                                  ("session monotonic sequential", [[5, 7], [9, 11]], None)]),
        ]
        for name, expected in table:
            subject = of_example(name)
            row = subject.levels.rows[0]
            found = [(" ".join(reason.levels), reason.fault["steps"], reason.gap)
                     for reason in reasons_of(row, write_of_stale(subject, row))]
            self.assertEqual(found, expected, name)

    def test_a_cycle_is_shown_once_wherever_it_begins(self) -> None:
        subject = of_example("read_goes_back")
        row = subject.levels.rows[0]
        turned = {"kind": "cycle", "steps": [[5, 7], [1, 3]], "writes": [3, 1]}
        row["monotonic_fault"] = turned
        found = reasons_of(row, write_of_stale(subject, row))
        self.assertEqual([reason.levels for reason in found],
                         [["atomic", "regular"], ["session", "monotonic", "sequential"]])
        self.assertEqual(found[1].fault, {"kind": "cycle", "steps": [[1, 3], [5, 7]], "writes": [1, 3]})
        self.assertEqual(from_first_write({"kind": "unwritten", "read": 3}), {"kind": "unwritten", "read": 3})

    def test_the_write_that_a_stale_read_gave(self) -> None:
        subject = of_example("order_against_time")
        self.assertEqual(write_of_stale(subject, subject.levels.rows[0]), 1)
        initial = subject_of(stale("x"), row_of([[3, 1]], stale_read={"newer": 1, "read": 3, "seen": 0}))
        self.assertEqual(write_of_stale(initial, initial.levels.rows[0]), 0)
        words = words_of(levels_page(initial, "h"))
        self.assertIn("The initial write of null came before the write of 5", words)

    def test_reads_before_their_writes(self) -> None:
        """They break all levels, and are shown once."""
        events = [read(1), gave(1, 5), write(2, 5), reply(2)]
        early = {"kind": "early", "read": 1, "write": 3}
        faults = {f"{level}_fault": early for level in ("own_writes", "monotonic")}
        page = levels_page(subject_of(events, {"register": "x", "early": {"read": 1, "write": 3}, **faults,
                                               "sequential": "yes", "unclean": 1}), "h")
        self.assertIn("Not kept: linearizable, regular, session, read your writes and monotonic reads",
                      words_of(page))
        self.assertEqual((page.count("<figure>"), page.count("<h3>")), (2, 1))
        unwritten = {"kind": "unwritten", "read": 1}
        faults = {f"{level}_fault": unwritten for level in ("own_writes", "monotonic", "sequential")}
        page = levels_page(subject_of(events[:2], {"register": "x", "unwritten": 1, **faults}), "h")
        self.assertIn("gave a value that nobody wrote to this register", words_of(page))
        self.assertEqual((page.count("<figure>"), page.count("<h3>")), (2, 1))

    def cycle(self, size: int, turn: int = 1) -> str:
        """A page whose register has a cycle of some writes, which are open together. After them, each value
        is read before the next one by a process of its own."""
        values = list(range(1, size + 1))
        events = [write(value, value) for value in values] + [reply(value) for value in values]
        steps = []
        for value in values:
            steps.append([len(events) + 1, len(events) + 3][::turn])
            events += [read(size + value), gave(size + value, value)]
            events += [read(size + value), gave(size + value, value % size + 1)]
        fault = {"kind": "cycle", "writes": values, "steps": steps}
        levels = {"own_writes": "yes", "monotonic": "yes", "session": "yes"}
        return levels_page(subject_of(events, {"register": "x", "sequential_fault": fault, **levels}), "h")

    def test_steps_that_the_history_doesnt_have(self) -> None:
        with self.assertRaisesRegex(ValueError, "the step from line 7 to line 5"):
            self.cycle(2, -1)
        gap = {"events": 1, "first": [1, 3], "second": [5, 3], "writes": [1, 3]}
        events = [write(1, 1), reply(1), write(1, 2), reply(1), read(2), gave(2, 1)]
        with self.assertRaisesRegex(ValueError, "the step from line 5 to line 3"):
            levels_page(subject_of(events, row_of([], gap=gap)), "h")

    def test_numbered_steps(self) -> None:
        """Each arrow has its number, with the same colour before its sentence."""
        pattern = 'class="badge (\\w+)"><circle.*?/><text.*?>(\\d+)</text>'
        for size, colours in [(2, ["first", "second"]), (4, ["first", "second", "third", "fourth"])]:
            badges = Counter(re.findall(pattern, self.cycle(size)))
            del badges["first", "1"]  # which is in the legend too
            self.assertEqual(badges, {(colour, str(number)): 2 for number, colour in enumerate(colours, 1)
                                      if number > 1})
        self.assertIn("another value", words_of(self.cycle(3)))

    def test_long_cycles(self) -> None:
        """More steps than are told in words have arrows without colours, and very many have no picture."""
        page = self.cycle(5)
        self.assertEqual(re.findall('class="arrow (\\w+)"', page)[-5:], ["step"] * 5)
        self.assertIn("5 writes would each have to come before the next", words_of(page))
        self.assertEqual((self.cycle(12).count("<figure>"), self.cycle(13).count("<figure>")), (2, 1))

    def test_all_stale_reads_are_marked(self) -> None:
        """In both pictures, that of the gap and that of the first stale read, and no other read is."""
        for name in ("lost_write", "own_write_missed"):
            page, lines = levels_page(of_example(name), "h"), [line for line, _ in STALE_READS[name]]
            pattern = r"The read of [^<]*?\(lines (\d+) to \d+\); a stale read: it gave an older value\."
            self.assertEqual(re.findall(pattern, page), [str(line) for line in lines] * 2, name)
        self.assertNotIn("a stale read", levels_page(of_example("readers_disagree"), "h"))

    def test_the_registers_that_arent_drawn(self) -> None:
        names = [f"r{number}" for number in range(7)]
        rows = [row_of([], name) for name in names]
        events = [line for name in names for line in (write(1, 1, name), reply(1))]
        page = levels_page(subject_of(events, *rows), "h")
        self.assertEqual(page.count("<h2>Register "), 5)
        words = re.sub(" +", " ", words_of(page))
        self.assertIn("The faults of 2 more registers aren't drawn: r5 , r6", words)


class Ages(unittest.TestCase):
    def test_histograms(self) -> None:
        def drawn(spans: List[int], unit: Optional[int] = None) -> Histogram:
            return histogram_of([Age(span, None if unit is None else span * unit) for span in spans])

        self.assertEqual(drawn([3, 1, 3]), Histogram([0, 1, 2, 3, 4], [0, 1, 0, 2], False, True))
        self.assertEqual(drawn([40, 50]), Histogram(list(range(0, 56, 5)), [0] * 8 + [1, 0, 1], False, True))
        uneven = drawn([1, 1, 2, 30, 30, 2000, 1, 1])
        self.assertEqual(uneven.edges, [1, 2, 5, 10, 20, 50, 100, 200, 500, 1000, 2000, 5000])
        self.assertEqual((uneven.counts, uneven.is_even), ([4, 1, 0, 0, 2, 0, 0, 0, 0, 0, 1], False))
        timed = drawn([4, 5], 1000)
        self.assertEqual((timed.is_time, timed.edges[-2:], timed.counts[-1]), (True, [5000, 5500], 1))
        self.assertEqual(histogram_of([Age(7, 0), Age(7, 0), Age(9, 90)]).edges[:3], [0, 50, 100])

    def test_one_age_without_a_time(self) -> None:
        self.assertFalse(histogram_of([Age(9, 10**9), Age(2, None)]).is_time)

    def test_a_read_that_isnt_old(self) -> None:
        with self.assertRaises(ValueError):
            histogram_of([Age(3, None), Age(0, None)])

    def test_every_age_is_counted(self) -> None:
        for spans in ([1], [1, 10**6], list(range(1, 999)), [1] * 50 + [10**9, 5 * 10**9]):
            drawn = histogram_of([Age(span, None) for span in spans])
            self.assertEqual(sum(drawn.counts), len(spans))
            self.assertEqual(drawn.edges, sorted(set(drawn.edges)))
            for low, high, count in zip(drawn.edges, drawn.edges[1:], drawn.counts):
                self.assertEqual(count, sum(low <= span < high for span in spans))

    def test_numbers(self) -> None:
        table = [(0, True, "0"), (1500, True, "1.5 us"), (2 * 10**9, True, "2 s"), (7, True, "7 ns"),
                 (200_000_000, True, "200 ms"), (1500, False, "1,500")]
        for given, is_time, said in table:
            self.assertEqual(shown(given, is_time), said)
        self.assertEqual([round_step(length, 10) for length in (1, 10, 11, 99, 101)], [1, 1, 2, 10, 20])


class Bursts(unittest.TestCase):
    def events(self, reads: int, **members: Any) -> List[Line]:
        """A write of 1, and then reads of null by clients of several nodes, 1 us apart."""
        lines: List[Line] = [write(1, 1), reply(1)]
        for number in range(reads):
            lines += [{**read(2), **{key: value[number % len(value)] for key, value in members.items()}},
                      gave(2, None)]
        return [{**line, "time": 1000 * place} for place, line in enumerate(lines)]

    def test_rows(self) -> None:
        stale_reads = [[3, 1], [7, 1]]
        table: List[Tuple[Dict[str, List[str]], str, List[Optional[str]]]] = [
            ({"node": ["a", "b"], "client": ["c", "d"]}, "node", ["a", "b"]),
            ({"node": ["a"], "client": ["d", "c"]}, "client", ["d", "c"]), ({"node": ["a"]}, "", [None]),
            ({}, "", [None])]
        for members, what, names in table:
            subject = subject_of(self.events(4, **members), row_of(stale_reads))
            found = bursts_of(subject, [subject.history.by_line[line] for line, _ in stale_reads])
            self.assertEqual((found.what, [row.name for row in found.rows]), (what, names))
            self.assertEqual(sum(found.rows[0].stale.values()), 2)
            self.assertEqual(sum(sum(row.reads.values()) for row in found.rows), 4)

    def test_extents(self) -> None:
        timed = self.events(3)
        self.assertEqual(extent_of(read_history(text(*timed))), Extent(0, 7000, True))
        without = [*timed[:4], {key: value for key, value in timed[4].items() if key != "time"}, *timed[5:]]
        back = [*timed[:4], {**timed[4], "time": 0}, *timed[5:]]
        for events in (without, back):
            self.assertEqual(extent_of(read_history(text(*events))), Extent(1, 8, False))

    def test_parts(self) -> None:
        """Each moment is in one part, and the steps are round."""
        for extent in (Extent(0, 0, True), Extent(1, 8, False), Extent(0, 119, True), Extent(0, 120, True),
                       Extent(1, 10**6, False), Extent(0, 63 * 10**9 + 1, True)):
            self.assertLessEqual(extent.parts, 120)
            self.assertEqual((extent.last - extent.first) // extent.step, extent.parts - 1)
            self.assertRegex(str(extent.step), "^[125]0*$")

    def test_registers_whose_reads_arent_counted(self) -> None:
        events = self.events(2) + [read(3, "y"), gave(3, 9)]
        subject = subject_of(events, row_of([[3, 1]]), {"register": "y", "unwritten": 7})
        found = bursts_of(subject, [subject.history.by_line[3]])
        self.assertEqual(sum(found.rows[0].reads.values()), 2)

    def test_the_picture(self) -> None:
        stale_reads = [[3, 1], [7, 1]]
        row = row_of(stale_reads, stale_read={"newer": 1, "read": 3, "seen": 0})
        subject = subject_of(self.events(4, node=["a", "b"]), row)
        page = levels_page(subject, "h")
        titles = [words for tag, words in Elements(page).texts if tag == "title"]
        for span in ["from 2 us to 2.1 us", "from 6 us to 6.1 us"]:
            self.assertIn(f"Node a: 1 of 1 read stale, {span}", titles)
        self.assertIn("Time line of stale reads: node a 2 of 2 reads and node b 0 of 2 reads", page)
        self.assertNotIn("Node b: ", page)
        self.assertIn("began within 100 ns; the tallest counts 1. A strip", page)
        self.assertIn("A burst suggests a failover or a cut link; an even spread, a replica or cache", page)

    def test_many_rows(self) -> None:
        names = [f"c{number:02}" for number in range(MOST_ROWS + 3)]
        subject = subject_of(self.events(len(names), client=names), row_of([[3, 1]]))
        drawn = timeline(bursts_of(subject, [subject.history.by_line[3]]))
        self.assertIn("3 more clients aren&#x27;t shown.", drawn)
        self.assertEqual(drawn.count("gutter"), MOST_ROWS)

    def test_a_long_run_makes_no_long_page(self) -> None:
        """The size of a page doesn't grow with the number of stale reads."""
        def size(reads: int) -> int:
            events = self.events(reads, node=["a", "b", "c"])
            row = row_of([[line, 1] for line in range(3, 2 * reads + 3, 2)],
                         stale_read={"newer": 1, "read": 3, "seen": 0})
            return len(levels_page(subject_of(events, row), "h"))

        self.assertLess(size(20_000), 2 * size(200))
        self.assertLess(size(20_000), 200_000)


class Elsewhere(Placed):
    """The strongest level in the index of runs, and on the page of `regkit draw`."""

    def index(self) -> str:
        for name in ("order_against_time", "lost_write"):
            (self.folder / f"{name}.jsonl").write_bytes((EXAMPLES / f"{name}.jsonl").read_bytes())
        fine = text(write(1, 5), reply(1), read(1), gave(1, 5))
        (self.folder / "fine.jsonl").write_bytes(fine)
        self.assertEqual(run("index", str(self.folder)).status, 0)
        return (self.folder / "index.html").read_text(encoding="utf-8")

    def test_the_index(self) -> None:
        with self.in_place(stored("order_against_time")):
            page = self.index()
        self.assertEqual(re.findall("<th>(.*?)</th>", page), [*HEADS[:3], "Keeps", *HEADS[3:]])
        self.assertEqual(page.count("<td>causal; gap 5 events</td>"), 2)
        self.assertEqual(page.count("<td></td>") + page.count("<td/>"), 1, "of the linearizable one")
        drawn = (self.folder / "pictures" / "lost_write.html").read_text(encoding="utf-8")
        self.assertIn("It keeps causal: <code>regkit levels --page</code> draws more.", drawn)

    def test_without_reglevel(self) -> None:
        with mock.patch.dict(os.environ, {"REGLEVEL": "/nowhere"}):
            page = self.index()
        self.assertEqual(re.findall("<th>(.*?)</th>", page), HEADS)
        drawn = (self.folder / "pictures" / "lost_write.html").read_text(encoding="utf-8")
        self.assertNotIn("It keeps", drawn)

    def draw(self, given: bytes = b"") -> Tuple[int, str]:
        path = self.folder / "drawn.html"
        history = str(EXAMPLES / "order_against_time.jsonl")
        ran = run("draw", "-" if given else history, "-o", str(path), given=given)
        return ran.status, path.read_text(encoding="utf-8") if ran.status == 0 else ran.err

    def test_draw(self) -> None:
        with self.in_place(stored("order_against_time")):
            status, page = self.draw()
            self.assertEqual(status, 0)
            self.assertIn("It keeps causal: <code>regkit levels --page</code> draws more.", page)
            fine = text(write(1, 5), reply(1), read(1), gave(1, 5))
            self.assertNotIn("It keeps", self.draw(fine)[1])
        with mock.patch.dict(os.environ, {"REGLEVEL": "/nowhere"}):
            self.assertNotIn("It keeps", self.draw()[1])

    def test_two_programs_that_disagree(self) -> None:
        summary = json.dumps({**dict.fromkeys(LEVELS, "yes"), "registers": 0}) + "\n"
        with self.in_place(summary.encode(), 0):
            status, words = self.draw()
        self.assertEqual(status, 2)
        self.assertIn("reglevel calls the history atomic", words)


@unittest.skipUnless(find_program(LEVEL), "reglevel isn't built")
class Itself(Placed):
    def test_the_examples(self) -> None:
        for path in sorted(EXAMPLES.glob("*.jsonl")):
            page = self.folder / f"{path.stem}.html"
            ran = run("levels", "--page", str(page), str(path))
            self.assertEqual((ran.status, ran.err), (1, ""), path)
            self.assertIn("<h3>Not kept: linearizable", page.read_text(encoding="utf-8"))


if __name__ == "__main__":
    unittest.main()
