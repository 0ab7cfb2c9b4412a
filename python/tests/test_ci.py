"""What CI reads: JUnit's XML, GitHub's annotations, and the page of a folder's runs."""
import os
import re
import unittest
from typing import List
from unittest import mock
from urllib.parse import unquote
from xml.etree import ElementTree

from regkit.base.statuses import ExitStatus
from regkit.judging.annotations import annotations
from regkit.judging.junit import document
from regkit.judging.outcome import Outcome, TimedOutcome

from .events import Line, gave, read, reply, run, stale, text, write
from .folders import InFolder
from .test_draw import DANGEROUS, Elements

FINE = [write(1, 5), reply(1), read(2), gave(2, 5)]
INVERSION = [write(1, 1), reply(1), write(1, 2), read(2), gave(2, 2), read(2), gave(2, 1), reply(1)]
HOSTILE = "a\x1b\u202e<&\"'%,:\n]]>"


class Files(InFolder):
    def file(self, name: str, events: List[Line]) -> str:
        (self.folder / name).write_bytes(text(*events))
        return str(self.folder / name)


class JUnit(Files):
    def suite(self, *words: str) -> ElementTree.Element:
        out = self.folder / "results.xml"
        self.status = run("check", "--junit", str(out), *words).status
        suites = ElementTree.parse(out).getroot()
        self.assertEqual((suites.tag, len(suites)), ("testsuites", 1))
        return suites[0]

    def test_each_verdict(self) -> None:
        (self.folder / "none.jsonl").write_bytes(b"no\n")
        names = [self.file("fine", FINE), self.file("wrong", INVERSION), self.file("empty", []),
                 str(self.folder / "none.jsonl"), str(self.folder / "missing")]
        suite = self.suite(*names)
        self.assertEqual(self.status, 4)
        self.assertEqual([suite.get(key) for key in ("tests", "failures", "errors")], ["5", "2", "2"])
        self.assertEqual([case.get("name") for case in suite], names)
        self.assertEqual([(case[0].tag, case[0].get("type")) for case in suite],
                         [("system-out", None), ("failure", "not linearizable"),
                          ("failure", "too little evidence"), ("error", "refused"), ("error", "failed")])
        self.assertEqual(suite[0][0].text, "2 operations on 1 register; 1 completed read, 0 overlap a write")
        self.assertEqual(suite[1][0].get("message"),
                         "not linearizable: 1 faulty register; 4 operations on 1 register; "
                         "2 completed reads, 2 overlap a write")
        self.assertIn("this is a new-old inversion", suite[1][0].text or "")
        self.assertIn("one JSON object", suite[3][0].text or "")
        self.assertTrue(all(float(case.get("time", "")) >= 0 for case in suite))

    def test_hostile_names(self) -> None:
        suite = self.suite(self.file("h", stale(HOSTILE)))
        self.assertIn('register "a\\u001b\\u202e<&\\"\'%,:\\u000a]]>": ', suite[0][0].text or "")
        made = document([TimedOutcome(Outcome(HOSTILE + "\udc80", ExitStatus.REFUSED, "no"), 0.5)])
        self.assertIsNone(DANGEROUS.search(made.replace("\n", "")))
        case = ElementTree.fromstring(made.encode())[0][0]
        self.assertEqual((case.get("name"), case.get("time")),
                         ("a\\u001b\\u202e<&\"'%,:\\u000a]]>\\udc80", "0.500"))

    def test_a_file_that_cannot_be_written(self) -> None:
        ran = run("check", "--junit", str(self.folder), self.file("fine", FINE))
        self.assertEqual((ran.status, ran.err), (4, f"regkit: {self.folder}: Is a directory\n"))


class Annotations(Files):
    def test_lines(self) -> None:
        wrong = self.file("wrong", INVERSION)
        (self.folder / "none.jsonl").write_bytes(text(*FINE) + b"no\n\n")
        ran = run("check", "--quiet", "--annotate", self.file("fine", FINE), wrong, self.file("empty", []),
                  str(self.folder / "none.jsonl"))
        lines = ran.out.splitlines()
        self.assertEqual(len(lines), 3)
        begin = f"::error file={wrong},line=6,title=regkit%3A not linearizable::"
        self.assertTrue(lines[0].startswith(begin + 'register "x":%0Athe write of 1 by process 1'), lines[0])
        self.assertIn("::warning file=", lines[1])
        self.assertIn("title=regkit%3A too little evidence::0 operations", lines[1])
        self.assertIn("none.jsonl,line=5,title=regkit%3A refused::line 5: not JSON%0A", lines[2])

    def test_each_fault_and_standard_input(self) -> None:
        ran = run("check", "--annotate", "--most", "2", given=text(*stale("a", "b", "c")))
        found = [line for line in ran.out.splitlines() if line.startswith("::")]
        self.assertEqual([line.split("::")[1] for line in found],
                         ["error title=regkit%3A not linearizable"] * 2)
        ran = run("check", "--annotate", "--most", "0", given=text(*stale("a")))
        self.assertIn("::error title=regkit%3A not linearizable::1 faulty register; 2 operations", ran.out)
        self.assertNotIn("::", run("check", "--annotate", given=text(*FINE)).out)

    def test_hostile_names(self) -> None:
        for status in (ExitStatus.REFUSED, ExitStatus.FAILED, ExitStatus.TOO_LITTLE):
            line, = annotations(Outcome(HOSTILE, status, "50% of\nit::"))
            self.assertTrue(line.isprintable())
            self.assertIn(' file=a\\u001b\\u202e<&"\'%25%2C%3A\\u000a]]>,title=', line)
            self.assertTrue(line.endswith("::50%25 of\\u000ait::"))

    def test_not_with_json(self) -> None:
        ran = run("check", "--annotate", "--json", given=text(*FINE))
        self.assertEqual((ran.status, ran.out), (3, ""))
        self.assertIn("leave out one of --annotate and --json", ran.err)


class Index(Files):
    def page(self, name: str = "index.html") -> str:
        return (self.folder / name).read_text("utf-8", "surrogateescape")

    def runs(self) -> None:
        """Four runs, written one minute after the other."""
        hostile = os.fsdecode(b"<b> #%? \xff.jsonl")
        written = [("old.jsonl", FINE), (hostile, INVERSION), ("index.jsonl", FINE),
                   ("refused.jsonl", [reply(1)])]
        for minute, (name, events) in enumerate(written):
            os.utime(self.file(name, events), (60.0 * minute, 60.0 * minute))

    def test_newest_first_with_their_pictures(self) -> None:
        self.runs()
        self.file("notes.txt", [])
        with mock.patch.dict(os.environ, {"REGLEVEL": "/nowhere"}):
            ran = run("index", str(self.folder))
        self.assertEqual((ran.status, ran.out, ran.err),
                         (0, f"{self.folder}/index.html: 4 runs, 1 not linearizable\n", ""))
        page = self.page()
        elements = Elements(page.replace("<br>", " "))
        self.assertEqual((elements.odd, elements.open), ([], []))
        self.assertEqual(elements.names[1:],
                         ["refused.jsonl", "index.jsonl", "<b> #%? \\udcff.jsonl", "old.jsonl"])
        self.assertEqual(re.findall(r"1970-01-01 00:0(\d) UTC", page), ["3", "2", "1", "0"])
        links = [self.folder / unquote(link, errors="surrogateescape")
                 for link in re.findall('href="(.*?)"', page)]
        self.assertEqual([link.name for link in links],
                         ["index.html", os.fsdecode(b"<b> #%? \xff.html"), "old.html"])
        for link in links:
            self.assertIn("<svg", link.read_text("utf-8", "surrogateescape"))
        heads = re.findall("<th>(.*?)</th>", page)
        self.assertEqual(heads, ["Written", "Verdict", "Run", "What came out"])
        verdicts = re.findall('<td class="(?:yes|no)">(.*?)</td>', page)
        self.assertEqual(verdicts, ["refused", "linearizable", "not linearizable", "linearizable"])
        for words in ("4 runs; 1 not linearizable.", "The write of 1 by process 1",
                      "line 1: reply without an open call"):
            self.assertIn(words, page)
        self.assertNotIn("<script", page)

    def test_pictures_are_drawn_again_if_the_history_is_newer(self) -> None:
        self.runs()
        run("index", str(self.folder))
        picture = self.folder / "pictures" / "old.html"
        picture.write_text("kept")
        run("index", str(self.folder))
        self.assertEqual(picture.read_text(), "kept")
        os.utime(picture, (1.0, 1.0))
        os.utime(self.folder / "old.jsonl", (2.0, 2.0))
        run("index", str(self.folder))
        self.assertIn("<svg", picture.read_text())

    def test_the_newest(self) -> None:
        self.runs()
        (self.folder / "pages").mkdir()
        ran = run("index", "--most", "2", str(self.folder), "-o", str(self.folder / "pages" / "latest.html"))
        self.assertEqual(ran.status, 0)
        page = self.page("pages/latest.html")
        self.assertIn("The newest 2 of 4 runs; 0 not linearizable.", page)
        self.assertEqual(re.findall('href="(.*?)"', page), ["../pictures/index.html"])
        self.assertEqual([path.name for path in (self.folder / "pictures").iterdir()], ["index.html"])

    def test_an_empty_folder_and_none(self) -> None:
        self.assertEqual(run("index", str(self.folder)).status, 0)
        self.assertIn("0 runs; 0 not linearizable.", self.page())
        ran = run("index", str(self.folder / "none"))
        self.assertEqual((ran.status, ran.err),
                         (4, f"regkit: {self.folder}/none: No such file or directory\n"))


if __name__ == "__main__":
    unittest.main()
