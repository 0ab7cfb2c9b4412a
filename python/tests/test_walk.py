"""The script by which a reader walks through pictures: the page lets in this script alone, what it knows
can't break out of its element, and without it the page is whole. tests/picture_test tries what it does."""
import base64
import hashlib
import json
import pathlib
import re
import shutil
import subprocess
import sys
import tempfile
import unittest
import zipfile
from typing import Any, Dict, List, Optional

from regkit.drawing.draw import draw_page
from regkit.drawing.walk import SCRIPT, Order, order_known, source_of, values_of
from regkit.history.operations import read_history
from regkit.pictures.page import levels_page

from .events import Line, fail, gave, read, reply, stale, text, write
from .test_draw import DANGEROUS, HOSTILE, INVERSION, Elements, data, report, zones
from .test_levels_page import of_example, row_of, subject_of

PYTHON = pathlib.Path(__file__).resolve().parent.parent
SEARCHES = PYTHON.parent / "examples/search"
ATOMIC: List[Line] = [write(1, 5), read(2), reply(1), gave(2, 5), write(1, 6), fail(1), read(2), gave(2, 5)]
FORBIDDEN = ("fetch", "XMLHttpRequest", "WebSocket", "EventSource", "sendBeacon", "eval", "Function(",
             "import", "innerHTML", "outerHTML", "insertAdjacentHTML", "document.write", "Storage",
             "indexedDB", "cookie", "setTimeout", "setInterval", "style.", "'style'", "location", "open(",
             "Worker")


def drawn() -> str:
    order = {"atomic": "yes", "order": [1, 2, 7], "points": [1, 2, 7], "register": "x"}
    return draw_page(data(ATOMIC), report(order, atomic="yes"), "h")


def known_of(page: str) -> Dict[str, Any]:
    """What a page tells its script."""
    found = re.findall('<script type="application/json" id="known">(.*?)</script>', page, re.DOTALL)
    assert len(found) == 1
    return dict(json.loads(found[0]))


class Policy(unittest.TestCase):
    def test_it_names_the_style_and_the_script_of_the_page(self) -> None:
        for page in (drawn(), draw_page(data(INVERSION), report(zones([1, 4], [4, 6], [1, 3])), "h"),
                     levels_page(of_example("follower_behind"), "h")):
            style, = re.findall("<style>(.*?)</style>", page, re.DOTALL)
            script, = re.findall('<script type="module">(.*?)</script>', page, re.DOTALL)
            policy, = re.findall('Content-Security-Policy" content="(.*?)"', page)
            self.assertEqual(script, SCRIPT)
            one, other = (base64.b64encode(hashlib.sha256(each.encode()).digest()).decode()
                          for each in (style, script))
            self.assertEqual(policy, f"default-src 'none'; style-src 'sha256-{one}'; "
                                     f"script-src 'sha256-{other}'; base-uri 'none'; form-action 'none'")
            self.assertEqual(Elements(page).found.count(("script", {"type": "module"})), 1)
            self.assertEqual(page.count("<script"), 2)

    def test_a_page_without_pictures_has_no_script(self) -> None:
        page = draw_page(b"", report(atomic="yes"), "h")
        self.assertNotIn("script", page)

    def test_what_the_script_doesnt_use(self) -> None:
        for word in FORBIDDEN:
            self.assertNotIn(word, SCRIPT)

    def test_the_script_is_text_that_no_page_can_misread(self) -> None:
        self.assertTrue(SCRIPT.isascii())
        self.assertIsNone(DANGEROUS.search(SCRIPT))
        for word in ("</script", "<script", "<!--"):
            self.assertNotIn(word, SCRIPT.lower())

    @unittest.skipUnless(shutil.which("node"), "node isn't here")
    def test_it_is_javascript(self) -> None:
        with tempfile.TemporaryDirectory() as folder:
            path = pathlib.Path(folder) / "walk.mjs"
            path.write_text(SCRIPT, encoding="ascii")
            subprocess.run(["node", "--check", str(path)], check=True)

    def test_the_archive_has_it(self) -> None:
        with tempfile.TemporaryDirectory() as folder:
            path = pathlib.Path(folder) / "regkit"
            subprocess.run([sys.executable, str(PYTHON / "make_archive"), str(path)], check=True)
            with zipfile.ZipFile(path) as archive:
                self.assertEqual(archive.read("regkit/drawing/walk.js").decode(), SCRIPT)
            code = "import regkit.drawing.walk as walk; print(walk.SCRIPT)"
            told = subprocess.run([sys.executable, "-c", code], env={"PYTHONPATH": str(path)}, cwd=folder,
                                  check=True, capture_output=True)
        self.assertEqual(told.stdout.decode(), SCRIPT + "\n")


class Without(unittest.TestCase):
    """A page that nothing runs in shows all."""

    def test_nothing_is_hidden_and_nothing_waits_for_the_script(self) -> None:
        for page in (drawn(), levels_page(of_example("follower_behind"), "h")):
            found = Elements(page).found
            tools = {"button", "input", "output", "details", "noscript"}
            self.assertEqual({tag for tag, _ in found} & tools, set())
            for _, attributes in found:
                self.assertEqual({"hidden", "tabindex", "style"} & set(attributes), set())
            classes = {name for _, attributes in found for name in (attributes.get("class") or "").split()}
            made = {"walk", "walking", "waits", "now", "found", "chosen", "stepping", "searching",
                    "meanwhile"}
            self.assertEqual(classes & made, set())

    def test_the_picture_is_an_image_with_a_label(self) -> None:
        pictures = [attributes for tag, attributes in Elements(drawn()).found if "data-from" in attributes]
        self.assertEqual([each["role"] for each in pictures], ["img"])


class Known(unittest.TestCase):
    def test_operations(self) -> None:
        events = [{**write(1, 5), "client": "ann", "node": "a", "time": 1_000_000}, read(2),
                  {**reply(1), "time": 3_500_000}, gave(2, 5), write(1, 6), fail(1), read(3)]
        page = draw_page(data(events), report({"atomic": "yes", "register": "x"}, atomic="yes"), "h")
        self.assertEqual(known_of(page)["operations"], [
            {"line": 1, "end": 3, "name": "write of 5", "lines": "lines 1 to 3", "process": 1,
             "client": "ann", "node": "a", "time": "0.0 ms to 2.5 ms", "values": ["5"]},
            {"line": 2, "end": 4, "name": "read of 5", "lines": "lines 2 to 4", "process": 2,
             "values": ["5"]},
            {"line": 5, "end": 6, "name": "write of 6", "lines": "lines 5 to 6, failed", "process": 1,
             "values": ["6"], "failed": True},
            {"line": 7, "name": "read", "lines": "line 7, never answered", "process": 3, "values": []}])

    def test_each_bar_has_what_is_known_of_it_once(self) -> None:
        for page in (drawn(), levels_page(of_example("follower_behind"), "h")):
            lines = [each["line"] for each in known_of(page)["operations"]]
            bars = {attributes.get("data-line") for tag, attributes in Elements(page).found
                    if "bar" in (attributes.get("class") or "").split()}
            self.assertEqual(lines, sorted(set(lines)))
            self.assertEqual(bars - {None, "0"}, set(map(str, lines)))

    def test_values(self) -> None:
        calls = read_history((SEARCHES / "two_winners.jsonl").read_bytes()).calls
        self.assertEqual([values_of(call) for call in calls if call.kind == "cas"], [["1", "0"], ["2", "0"]])

    def test_hostile_values(self) -> None:
        """They come to the script as they are, and to the page as nothing but letters."""
        for name in HOSTILE:
            who = {"client": name, "node": name}
            texts = {"texts": {"5": name}}
            events = [{**each, **who, **(texts if "op" in each and "value" in each else {})}
                      for each in stale(name)]
            drawn_page = draw_page(data(events), report(zones([0, 1], [1, 3], [0, 1], name)), name)
            levels = levels_page(subject_of(events, row_of([[3, 1]], name, lost=0, stale_read={
                "newer": 1, "read": 3, "seen": 0})), name)
            for page in (drawn_page, levels):
                self.assertEqual({(each["client"], each["node"]) for each in known_of(page)["operations"]},
                                 {(name, name)})
                elements = Elements(page)
                self.assertEqual((elements.odd, elements.open), ([], []), name)
                self.assertEqual([tag for tag, _ in elements.found].count("script"), 2)
                told, = re.findall('id="known">(.*?)</script>', page, re.DOTALL)
                self.assertTrue(told.isascii() and told.isprintable())
                self.assertEqual(set("<>&") & set(told), set())


class Orders(unittest.TestCase):
    def order(self, page: str) -> Optional[Dict[str, Any]]:
        found = known_of(page)["orders"]
        self.assertLessEqual(len(found), 1)
        return dict(found[0]) if found else None

    def test_of_a_yes(self) -> None:
        self.assertEqual(self.order(drawn()), {
            "name": "Order", "first": "null", "last": "", "of": 3,
            "steps": [[1, "5", 1], [2, "5", 2], [7, "5", 3]]})

    def test_before_a_reply_that_no_order_gives(self) -> None:
        history, row = ((SEARCHES / f"two_winners.{kind}").read_bytes() for kind in ("jsonl", "report"))
        self.assertEqual(self.order(draw_page(history, row, "h")), {
            "name": "Order until line 6", "first": "null", "of": 2, "steps": [[1, "0", 1], [3, "1", 2]],
            "last": "After that, no order gives the reply of line 6."})

    def test_of_a_level(self) -> None:
        subject = of_example("read_goes_back")
        subject.levels.rows[0].update(order_of="own_writes", order=[1, 7, 3, 5])
        order = self.order(levels_page(subject, "h"))
        assert order is not None
        self.assertEqual(order, {
            "name": "An order that keeps read your writes", "first": "null", "last": "", "of": 4,
            "steps": [[1, "1", 1], [7, "1", 2], [3, "2", 3], [5, "2", 4]]})

    def test_where_there_is_none(self) -> None:
        self.assertIsNone(self.order(draw_page(data(INVERSION), report(zones([1, 4], [4, 6], [1, 3])), "h")))
        self.assertIsNone(self.order(levels_page(of_example("follower_behind"), "h")))

    def test_steps_that_arent_drawn(self) -> None:
        """The values and the places are those of the whole order."""
        lines = [each for value in (5, 6, 7) for each in (write(1, value), reply(1))]
        calls = read_history(text(*lines)).calls
        known = order_known(Order("o", calls), {5})
        self.assertEqual(known, {"name": "o", "first": "6", "last": "", "of": 3, "steps": [(5, "7", 3)]})
        self.assertIsNone(order_known(Order("o", calls), set()))


class Sources(unittest.TestCase):
    def test_source_of(self) -> None:
        """The digest of an empty script, as any tool gives it."""
        self.assertEqual(source_of(""), "'sha256-47DEQpj8HBSa+/TImW+5JCeuQeRkm5NMpJWZG3hSuFU='")


if __name__ == "__main__":
    unittest.main()
