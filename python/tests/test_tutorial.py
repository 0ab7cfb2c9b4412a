"""docs/tutorial.md does what it says: its commands are run, and its code is that of the files, or is run too.

In python/, `python3 -m tests.test_tutorial` writes the outputs into it, but for those that have `...`."""
import doctest
import os
import pathlib
import re
import shutil
import subprocess
import sys
import tempfile
import textwrap
import unittest
from contextlib import suppress
from typing import Any, Dict, List, NamedTuple, Optional

from regkit.checker.programs import find_checker, run_checker
from regkit.record import Methods, Recorder
from regkit.testing import assert_atomic

ROOT = pathlib.Path(__file__).resolve().parents[2]
TUTORIAL = ROOT / "docs" / "tutorial.md"
BLOCK = re.compile(r"^```(\w+)(?: (\S+))?\n(.*?)^```$", re.MULTILINE | re.DOTALL)
MARK = "--- end of command, status "


class Block(NamedTuple):
    kind: str
    title: Optional[str]
    text: str


class Step(NamedTuple):
    command: str
    output: str


def blocks(kind: str) -> List[Block]:
    found = [Block(*match.groups()) for match in BLOCK.finditer(TUTORIAL.read_text(encoding="utf-8"))]
    return [block for block in found if block.kind == kind]


def steps(block: Block) -> List[Step]:
    """The commands of a console block, each with the output below it."""
    parts = re.split(r"^\$ ", block.text, flags=re.MULTILINE)
    assert parts[0] == "", f"output before the first command: {parts[0]}"
    return [Step(*part.split("\n", 1)) for part in parts[1:]]


def all_steps() -> List[Step]:
    return [step for block in blocks("console") for step in steps(block)]


def copied(directory: str) -> pathlib.Path:
    """A tree with what the tutorial uses of the repository, so that its files don't end up there."""
    root = pathlib.Path(directory) / "root"
    shutil.copytree(ROOT / "examples" / "tutorial", root / "examples" / "tutorial",
                    ignore=shutil.ignore_patterns("__pycache__", "history.*"))
    (root / "python").symlink_to(ROOT / "python")
    return root


def run(commands: List[str], root: pathlib.Path) -> List[str]:
    """The output of each command, all in one shell."""
    lines = ["exec 2>&1", f'python3() {{ "{sys.executable}" "$@"; }}']
    for command in commands:
        lines += [command, f"status=$?; printf '%s\\n' '{MARK}'$status; (exit $status)"]
    environment = {**os.environ, "REGCHECK": find_checker(), "NO_COLOR": "1", "PYTHONDONTWRITEBYTECODE": "1",
                   "PYTHONIOENCODING": "utf-8", "COLUMNS": "100"}
    environment.pop("PYTHONPATH", None)
    ran = subprocess.run(["bash", "-c", "\n".join(lines)], cwd=root, env=environment, stdout=subprocess.PIPE,
                         check=False)
    return re.split(f"^{MARK}\\d+\n", ran.stdout.decode("utf-8"), flags=re.MULTILINE)[:-1]


def agree(expected: str, output: str) -> bool:
    """Whether an output is as said, where `...` stands for anything."""
    flags = doctest.ELLIPSIS if "..." in expected else 0
    return doctest.OutputChecker().check_output(expected, output, flags)


class Commands(unittest.TestCase):
    root: pathlib.Path
    steps: List[Step]
    outputs: List[str]

    @classmethod
    def setUpClass(cls) -> None:
        directory = tempfile.TemporaryDirectory()
        cls.addClassCleanup(directory.cleanup)
        cls.root = copied(directory.name)
        cls.steps = all_steps()
        cls.outputs = run([step.command for step in cls.steps], cls.root)

    def test_each_output_is_as_said(self) -> None:
        self.assertEqual(len(self.outputs), len(self.steps))
        for step, output in zip(self.steps, self.outputs):
            with self.subTest(command=step.command):
                told = f"the tutorial says:\n{step.output}\nit gave:\n{output}"
                self.assertTrue(agree(step.output, output), told)

    def test_the_picture_is_there(self) -> None:
        page = (self.root / "examples" / "tutorial" / "history.html").read_text(encoding="utf-8")
        for words in ["<svg", "default-src 'none'", "user:2"]:
            self.assertIn(words, page)
        for words in ["http:", "https:", " src=", " href="]:
            self.assertNotIn(words, page)

    def test_the_story_is_told_by_these_runs(self) -> None:
        commands = [step.command for step in self.steps]
        for word in ["check", "explain", "draw"]:
            self.assertTrue(any(f"regkit {word} " in command for command in commands), word)
        by_command = {step.command: output for step, output in zip(self.steps, self.outputs)}
        self.assertIn("FAILED", by_command["python3 -m unittest test_cache.TestCache"])
        self.assertIn("FAILED", by_command["python3 -m unittest test_cache.TestCountingCache"])
        self.assertTrue(by_command["python3 -m unittest test_cache.TestLockingCache"].endswith("OK\n"))


class Said(unittest.TestCase):
    """What the text says of the runs in words."""

    def test_the_seeds(self) -> None:
        program = ("import sys; from cache import *; from workload import record\n"
                   "from regkit.checker.programs import run_checker\n"
                   "for kind, last in ((Cache, 11), (CountingCache, 176)):\n"
                   "    histories = [record(None, seed, kind).history() for seed in range(last + 1)]\n"
                   "    print(*(run_checker(history).status for history in histories))\n")
        environment = {**os.environ, "PYTHONPATH": str(ROOT / "python"), "PYTHONDONTWRITEBYTECODE": "1"}
        ran = subprocess.run([sys.executable, "-c", program], cwd=ROOT / "examples" / "tutorial",
                             env=environment, capture_output=True, text=True, check=True)
        self.assertEqual(ran.stdout.splitlines(), ["0 " * 11 + "1", "0 " * 176 + "1"])

    def test_the_links(self) -> None:
        links = re.findall(r"\]\(([^)#]+)\)", TUTORIAL.read_text(encoding="utf-8"))
        self.assertGreater(len(links), 2)
        for link in links:
            self.assertTrue((TUTORIAL.parent / link).exists(), link)


class Store:
    """What the code of the tutorial may use as the store under test."""

    def __init__(self) -> None:
        self.values: Dict[str, int] = {}

    def set(self, key: str, value: int) -> None:
        self.values[key] = value

    def try_set(self, key: str, value: int) -> bool:
        return False

    def get(self, key: str) -> Optional[int]:
        return self.values.get(key)


class ChangingStore:
    """The same with the methods of a client of Redis."""

    def __init__(self) -> None:
        self.values: Dict[str, int] = {}

    def set(self, key: str, value: int, nx: bool) -> Optional[bool]:
        if nx and key in self.values:
            return None
        self.values[key] = value
        return True

    def getset(self, key: str, value: int) -> Optional[int]:
        old = self.values.get(key)
        self.values[key] = value
        return old

    def delete(self, key: str) -> int:
        return 0 if self.values.pop(key, None) is None else 1


class Code(unittest.TestCase):
    def test_the_code_of_files(self) -> None:
        titled = [block for block in blocks("python") if block.title]
        self.assertGreater(len(titled), 3)
        for block in titled:
            with self.subTest(block=block.text):
                file = ROOT / "examples" / "tutorial" / str(block.title)
                self.assertIn(block.text, file.read_text(encoding="utf-8"))

    def recorder(self, *arguments: Any, **options: Any) -> Recorder:
        """The code leaves its recorders open, so each is closed after the test."""
        made = Recorder(*arguments, **options)
        self.addCleanup(made.close)
        return made

    def test_the_code_that_has_no_file_runs(self) -> None:
        """Each piece runs after the others, with a store, a recorder and a client at hand."""
        pieces = [block.text for block in blocks("python") if not block.title]
        self.assertGreater(len(pieces), 3)
        with tempfile.TemporaryDirectory() as directory:
            first = Recorder()
            names: Dict[str, Any] = {
                "suppress": suppress, "Recorder": self.recorder, "Methods": Methods,
                "assert_atomic": assert_atomic,
                "Store": Store, "store": Store(), "recorder": first, "client": first.client()}
            here = os.getcwd()
            os.chdir(directory)
            try:
                for piece in pieces:
                    with self.subTest(piece=piece):
                        exec(compile(textwrap.dedent(piece), "tutorial.md", "exec"), names)
            finally:
                os.chdir(here)
            self.assertEqual(run_checker(first.history()).status, 0)
            self.assertIn(b'"event":"fail"', (pathlib.Path(directory) / "history.jsonl").read_bytes())
        fixture = Recorder()
        names["test_store"](fixture)
        self.assertEqual(assert_atomic(fixture).completed_reads, 1)
        without_blocks = Recorder()
        self.assertEqual(names["wrapped"](without_blocks, Store()), 1)
        self.assertEqual(without_blocks.counts.answered, 2)
        changing = Recorder()
        names["use_changes"](changing, ChangingStore())
        self.assertEqual([line for line in changing.history().decode().splitlines() if "reply" in line], [
            '{"process":1,"event":"reply","register":"job","ok":true}',
            '{"process":1,"event":"reply","register":"job","old":7}',
            '{"process":1,"event":"reply","register":"job","found":true}'])


def accept() -> None:
    """Writes the outputs into the tutorial, and names those with `...` that don't agree."""
    with tempfile.TemporaryDirectory() as directory:
        outputs = iter(run([step.command for step in all_steps()], copied(directory)))
    told = TUTORIAL.read_text(encoding="utf-8")

    def filled(match: "re.Match[str]") -> str:
        block = Block(*match.groups())
        if block.kind != "console":
            return match.group()
        text = ""
        for step in steps(block):
            output = next(outputs)
            if "..." in step.output and not agree(step.output, output):
                print(f"by hand: {step.command}\n{output}", file=sys.stderr)
            text += f"$ {step.command}\n{step.output if '...' in step.output else output}"
        return f"```console\n{text}```"

    TUTORIAL.write_text(BLOCK.sub(filled, told), encoding="utf-8")


if __name__ == "__main__":
    accept()
