"""What docs/regkit.1 says of options is what packaging/make_man_page makes of the parsers."""
import pathlib
import subprocess
import sys
import tempfile
import unittest
from typing import List, Tuple

ROOT = pathlib.Path(__file__).resolve().parents[2]
PAGE = ROOT / "docs/regkit.1"


def made(*words: str) -> Tuple[int, str]:
    """The exit status of packaging/make_man_page, and what it prints."""
    command = [sys.executable, "-B", str(ROOT / "packaging/make_man_page"), *words]
    ran = subprocess.run(command, stdout=subprocess.PIPE, stderr=subprocess.STDOUT, text=True, check=False)
    return ran.returncode, ran.stdout


class ManPage(unittest.TestCase):
    def spoiled(self, old: str, new: str) -> pathlib.Path:
        """A copy of the page in which the first of some words are others."""
        folder = tempfile.TemporaryDirectory()
        self.addCleanup(folder.cleanup)
        page = PAGE.read_text(encoding="utf-8")
        self.assertIn(old, page)
        path = pathlib.Path(folder.name) / "regkit.1"
        path.write_text(page.replace(old, new, 1), encoding="utf-8")
        return path

    def test_the_page_is_what_is_made(self) -> None:
        self.assertEqual(made("--check", str(PAGE)), (0, ""))

    def test_what_differs_is_named_and_mended(self) -> None:
        table: List[Tuple[str, str, str]] = [
            ("the synopsis", "[\\fB\\-\\-joined\\fR] ", "synopsis"),
            ("an option", ".TP\n\\fB\\-\\-joined\\fR\n", "options of verify"),
            ("the value of an option", "\\fB\\-\\-map\\fR \\fIFILE\\fR\n", "options of convert"),
            ("a help text", "merged history", "options of merge"),
        ]
        for name, old, part in table:
            with self.subTest(name):
                path = self.spoiled(old, "")
                status, told = made("--check", str(path))
                self.assertEqual((status, told.count("\n")), (1, 1))
                self.assertIn(f"{path}: {part} differs", told)
                self.assertEqual(made(str(path)), (0, ""))
                self.assertEqual(path.read_text(encoding="utf-8"), PAGE.read_text(encoding="utf-8"))

    def test_what_is_written_by_hand_stays(self) -> None:
        path = self.spoiled(".SH DESCRIPTION\n", ".SH DESCRIPTION\nBy hand.\n")
        before = path.read_text(encoding="utf-8")
        self.assertEqual(made(str(path)), (0, ""))
        self.assertEqual(path.read_text(encoding="utf-8"), before)

    def test_a_page_without_the_options_of_a_command_is_refused(self) -> None:
        path = self.spoiled(": options of join", ": options of nothing")
        status, told = made("--check", str(path))
        self.assertEqual(status, 1)
        self.assertIn("needs each of", told)


if __name__ == "__main__":
    unittest.main()
