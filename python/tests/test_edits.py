"""The scripts that look over and try wrong bodies, on a small repository and with a stand-in for the
toolchain."""
import os
import pathlib
import shutil
import subprocess
import sys
import tempfile
import unittest
from typing import Dict

ROOT = pathlib.Path(__file__).resolve().parents[2]
SOURCE = """pub fn one() -> u8 {
    1
}

pub fn two(
    given: u8,
) -> u8
    ensures { result ≡ 2 }
{
    2
}

impl Three {
    pub fn three(&self) -> u8 {
        3
    }
}
"""
# It says what a check says of a crate in which FALSE stands in place of a right answer. The function two
# waits for the proof of a callee, so that only a check of its edit by itself tells.
STAND_IN = """#!{python}
import pathlib, sys
if sys.argv[1] == "doc":
    print(pathlib.Path(__file__).parents[1] / "page.md")
    sys.exit(0)
text = pathlib.Path("src/lib.rt").read_text()
if sys.argv[1] == "lib" or "FALSE" not in text and "UNREAD" not in text:
    sys.exit(0)
if "UNREAD" in text:
    print("error[E0425]: UNREAD is not known")
    sys.exit(1)
for at, line in enumerate(text.splitlines(), 1):
    if "FALSE_ONE" in line:
        print("fn low::one: no proof: expected answers in ./proofs/one/Answers.antt")
    if "FALSE_THREE" in line:
        print(f"note: src/lib.rt:{{at}}:9: it is not proved that what the function ensures holds")
    if "BREAKS_THREE" in line:
        print("fn low::Three::three: not proved")
    if "FALSE_TWO" in line:
        print("fn low::two: no proof: it calls `low::one`, which is not proved")
print("logic=not-proved")
sys.exit(1)
"""
FALSE_ONE, FALSE_TWO = "old:     1\nnew:     FALSE_ONE", "old:     2\nnew:     FALSE_TWO"
FALSE_THREE, STILL_TWO = "old:         3\nnew:         FALSE_THREE", "old:     2\nnew:     1 + 1"
UNREAD, SIGNATURE = "old:     2\nnew:     UNREAD", "old:     given: u8,\nnew:     FALSE_ONE: u8,"


class Edits(unittest.TestCase):
    """Each test has a repository of one crate, `low`, with the edits that it names."""

    def setUp(self) -> None:
        room = tempfile.TemporaryDirectory()
        self.addCleanup(room.cleanup)
        self.root = pathlib.Path(room.name)
        for folder in ("bin", "docs", "packaging", "tests", "crates/low/src", "crates/low/must-fail",
                       "crates/low/more-edits"):
            (self.root / folder).mkdir(parents=True)
        for script in ("packaging/crates.py", "tests/edits.py", "tests/check_edits", "tests/try_edits"):
            shutil.copy(ROOT / script, self.root / script)
        stand_in = STAND_IN.format(python=sys.executable)
        texts = {"crates.txt": "low: std\n", "HANDLES": "Handles allowed: none.\n",
                 "crates/low/src/lib.rt": SOURCE, "bin/rt": stand_in, "bin/rattle": stand_in,
                 "docs/proofs.md": "## Wrong bodies\n\n| A | b | low: `named` |\n"}
        for name, text in texts.items():
            (self.root / name).write_text(text, encoding="utf-8")
        for program in ("rt", "rattle"):
            (self.root / "bin" / program).chmod(0o755)

    def write(self, tier: str, **texts: str) -> None:
        for name, text in texts.items():
            edit = self.root / "crates" / "low" / tier / f"{name}.edit"
            edit.write_text(f"file: src/lib.rt\n{text}\n", encoding="utf-8")

    def said(self, script: str, *words: str) -> "subprocess.CompletedProcess[str]":
        path: Dict[str, str] = {**os.environ, "PATH": f"{self.root / 'bin'}:{os.environ['PATH']}"}
        command = [sys.executable, "-B", str(self.root / "tests" / script), *words]
        return subprocess.run(command, env=path, text=True, capture_output=True, check=False)

    def test_refused_in_as_few_rounds_as_can_be(self) -> None:
        self.write("more-edits", one=FALSE_ONE, three=FALSE_THREE)
        said = self.said("try_edits")
        self.assertRegex(said.stdout, r"\Alow: 2 of 2 edits refused; rounds: 1; seconds: \d+\n\Z")
        self.assertEqual(said.returncode, 0)

    def test_one_that_waits_is_tried_alone(self) -> None:
        self.write("more-edits", one=FALSE_ONE, one_more=FALSE_ONE + " + 1", one_yet=FALSE_ONE + " + 2",
                   two=FALSE_TWO)
        self.assertRegex(self.said("try_edits").stdout, r"\Alow: 4 of 4 edits refused; rounds: 4; ")

    def test_one_outside_of_bodies_goes_alone(self) -> None:
        self.write("more-edits", signature=SIGNATURE, three=FALSE_THREE)
        self.assertRegex(self.said("try_edits").stdout, r"\Alow: 2 of 2 edits refused; rounds: 2; ")

    def test_one_that_breaks_another_proof_too_is_tried_alone(self) -> None:
        self.write("more-edits", one=FALSE_ONE + " + BREAKS_THREE", two=FALSE_TWO)
        self.assertRegex(self.said("try_edits").stdout, r"\Alow: 2 of 2 edits refused; rounds: 3; ")

    def test_let_through(self) -> None:
        self.write("more-edits", one=FALSE_ONE, two=STILL_TWO)
        said = self.said("try_edits")
        self.assertIn("low: 1 of 2 edits refused", said.stdout)
        self.assertIn("low/more-edits/two.edit: not refused: the crate is still proved", said.stdout)
        self.assertEqual(said.returncode, 1)

    def test_unread(self) -> None:
        self.write("more-edits", one=FALSE_ONE, two=UNREAD, three=FALSE_THREE)
        said = self.said("try_edits")
        self.assertIn("low: 2 of 3 edits refused", said.stdout)
        self.assertIn("low/more-edits/two.edit: the check can't read it, so no contract was tried: error[",
                      said.stdout)
        self.assertEqual(said.returncode, 1)

    def test_chosen(self) -> None:
        self.write("must-fail", one=FALSE_ONE)
        self.write("more-edits", two=FALSE_TWO, three=FALSE_THREE)
        for word, count in [("low", 2), ("--must-fail", 3), ("low/one", 1), ("low/two", 1)]:
            with self.subTest(word=word):
                self.assertIn(f"low: {count} of {count} edits refused", self.said("try_edits", word).stdout)
        self.assertEqual(self.said("try_edits", "low/four").returncode, 2)

    def test_a_crate_that_is_not_proved_judges_no_edit(self) -> None:
        self.write("more-edits", three=FALSE_THREE)
        source = self.root / "crates" / "low" / "src" / "lib.rt"
        source.write_text(SOURCE.replace("    1\n", "    FALSE_ONE\n"), encoding="utf-8")
        said = self.said("try_edits")
        self.assertIn("low: it isn't proved as it stands, so no edit was judged", said.stdout)
        self.assertEqual(said.returncode, 1)

    def test_looked_over(self) -> None:
        self.write("must-fail", named=FALSE_ONE)
        self.assertEqual(self.said("check_edits").stdout, "")
        self.write("more-edits", named=FALSE_TWO, other=FALSE_ONE, gone="old: 4\nnew: 5", half="old:     1")
        self.assertEqual(self.said("check_edits").stdout.splitlines(), [
            "crates/low/more-edits/gone.edit: its old text stands 0 times in src/lib.rt, and not once: 4",
            "crates/low/more-edits/half.edit: it doesn't end in lines 'old: TEXT' and 'new: TEXT'",
            "low/more-edits/named.edit: low/must-fail/named.edit has that name",
            "low/more-edits/other.edit: low/must-fail/named.edit makes the same change"])

    def test_public_functions_without_edits(self) -> None:
        said = self.said("check_edits")
        self.assertEqual(said.stdout.splitlines(), [
            "crates/low: it has public functions, and no edit in must-fail",
            "docs/proofs.md: low has no edit named"])
        self.assertEqual(said.returncode, 1)


if __name__ == "__main__":
    unittest.main()
