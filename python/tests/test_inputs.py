"""Each command reads what gzip packed as it reads the same history unpacked."""
import gzip
import os
import pathlib
import tempfile
import unittest

from regkit.checker.programs import run_checker

from .events import gave, read, reply, run, text, write

HISTORY = text(write(1, 5), read(2), gave(2, 5), reply(1), read(2), gave(2, None))


class Packed(unittest.TestCase):
    def setUp(self) -> None:
        folder = tempfile.TemporaryDirectory()
        self.addCleanup(folder.cleanup)
        self.folder = pathlib.Path(folder.name)
        (self.folder / "h").write_bytes(HISTORY)
        (self.folder / "h.gz").write_bytes(gzip.compress(HISTORY))
        (self.folder / "h.report").write_bytes(run_checker(HISTORY).report)

    def path(self, name: str) -> str:
        return str(self.folder / name)

    def test_check_explain_and_draw(self) -> None:
        page = self.path("page.html")
        for words in (["check"], ["explain"], ["draw", "-o", page]):
            with self.subTest(words):
                plain, packed = run(*words, self.path("h")), run(*words, self.path("h.gz"))
                self.assertEqual(packed.status, plain.status)
                self.assertEqual(packed.out.replace("h.gz", "h"), plain.out)

    def test_standard_input(self) -> None:
        self.assertEqual(run("check", given=gzip.compress(HISTORY)), run("check", given=HISTORY))
        made = self.path("made")
        words = ("convert", "--from", "jsonl", "-o", made)
        self.assertEqual(run(*words, given=gzip.compress(HISTORY)).status, 0)
        self.assertEqual(pathlib.Path(made).read_bytes().count(b"\n"), HISTORY.count(b"\n"))

    def test_verify(self) -> None:
        ran = run("verify", self.path("h.gz"), self.path("h.report"))
        self.assertEqual(ran, run("verify", self.path("h"), self.path("h.report")))
        self.assertEqual(ran.status, 0)

    def test_a_refusal_is_of_the_packed_bytes(self) -> None:
        (self.folder / "h.err").write_text(run_checker(gzip.compress(HISTORY)).refusal, encoding="utf-8")
        self.assertEqual(run("verify", self.path("h.gz"), self.path("h.err")).status, 0)

    def test_split(self) -> None:
        ran = run("split", self.path("h.gz"), self.path("parts"), "--parts", "2")
        self.assertEqual(ran.status, 0, ran.err)
        parts = [self.folder / "parts" / name for name in sorted(os.listdir(self.path("parts")))]
        lines = b"".join(part.read_bytes() for part in parts if part.suffix == ".jsonl")
        self.assertEqual(lines, HISTORY)

    def test_damaged(self) -> None:
        whole = gzip.compress(HISTORY)
        for name, data in [("short", whole[:-9]), ("sum", whole[:-8] + b"\0" * 8),
                           ("bits", whole[:12] + b"\xff" * 40)]:
            (self.folder / name).write_bytes(data)
            for words in (["check"], ["explain"], ["convert", "--from", "jsonl"]):
                with self.subTest(name, words=words):
                    ran = run(*words, self.path(name))
                    self.assertEqual(ran.status, 4, ran)
                    self.assertIn(f"{self.path(name)}: ", ran.err)
                    self.assertIn("gzip can't unpack it", ran.err)


if __name__ == "__main__":
    unittest.main()
