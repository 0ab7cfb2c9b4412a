"""The command line as a whole: help, statuses, output that fails, the installed command, where the checker
is found."""
import os
import pathlib
import re
import shutil
import subprocess
import sys
import tempfile
import unittest
from typing import Any, Dict, List, Tuple
from unittest import mock

from regkit import __version__
from regkit.checker import programs as checker
from regkit.cli import COMMANDS

from .events import gave, read, reply, run, text, write
from .folders import InFolder

PYTHON = pathlib.Path(__file__).resolve().parents[1]
FINE = text(write(1, 5), reply(1), read(2), gave(2, 5))
STALE = text(write(1, 5), reply(1), read(2), gave(2, None))


def started(*words: str, input: bytes = b"", stdout: Any = subprocess.PIPE, encoding: str = "utf-8"
            ) -> "subprocess.CompletedProcess[bytes]":
    """Runs `python3 -m regkit` as a process of its own."""
    environment = {**os.environ, "PYTHONPATH": str(PYTHON), "PYTHONIOENCODING": encoding}
    environment.pop("PYTHONUNBUFFERED", None)  # output is held back, as people have it
    return subprocess.run([sys.executable, "-m", "regkit", *words], env=environment, check=False, timeout=60,
                          input=input, stdout=stdout, stderr=subprocess.PIPE)


def ran_alone(*words: str, environment: Dict[str, str], input: bytes = b"") -> Tuple[int, bytes]:
    """Runs a program in the root folder: its exit status and its standard error."""
    ran = subprocess.run(words, input=input, env=environment, capture_output=True, cwd="/", timeout=60,
                         check=False)
    return ran.returncode, ran.stderr


class Help(unittest.TestCase):
    def test_on_standard_output_with_status_0(self) -> None:
        table: List[List[str]] = [[], *([name] for name in COMMANDS)]
        for words in table:
            for flag in ("-h", "--help"):
                ran = run(*words, flag)
                self.assertEqual((ran.status, ran.err), (0, ""))
                self.assertIn("usage: regkit", ran.out)
        self.assertTrue(all(f"\n    {name} " in run("--help").out for name in COMMANDS))

    def test_each_command_has_examples_and_statuses(self) -> None:
        for name in COMMANDS:
            with self.subTest(name):
                out = run(name, "--help").out
                self.assertIn("examples:\n", out)
                self.assertIn(f"regkit {name}", out)
                self.assertIn("exit status", out)

    def test_version(self) -> None:
        self.assertEqual(run("--version"), (0, f"regkit {__version__}\n", ""))


class WrongWords(unittest.TestCase):
    def test_status_3_and_nothing_on_standard_output(self) -> None:
        table: List[List[str]] = [
            [], ["nope"], ["--nope"], ["check", "--nope"], ["check", "--most", "-1"],
            ["check", "--most", "x"], ["check", "--most", "\u0663"], ["check", "--quiet", "--json"],
            ["check", "--least-reads"], ["explain"], ["explain", "a", "b", "c"]]
        for words in table:
            with self.subTest(words):
                ran = run(*words)
                self.assertEqual((ran.status, ran.out), (3, ""))
                self.assertIn("usage: regkit", ran.err)


class Output(unittest.TestCase):
    def test_standard_input(self) -> None:
        ran = started("check", input=FINE)
        self.assertEqual((ran.returncode, ran.stderr), (0, b""))
        self.assertEqual(ran.stdout, b"standard input: linearizable: 2 operations on 1 register; "
                                     b"1 completed read, 0 overlap a write\n")

    def test_a_closed_pipe(self) -> None:
        for command in (["check"], ["explain", "-"]):
            reader, writer = os.pipe()
            os.close(reader)
            ran = started(*command, input=STALE, stdout=writer)
            os.close(writer)
            self.assertEqual((ran.returncode, ran.stderr), (4, b""))

    @unittest.skipUnless(os.path.exists("/dev/full"), "no /dev/full")
    def test_a_full_disk(self) -> None:
        for command in (["check"], ["explain", "-"]):
            with open("/dev/full", "wb") as full:
                ran = started(*command, input=STALE, stdout=full)
            self.assertEqual((ran.returncode, ran.stderr), (4, b"regkit: output: No space left on device\n"))

    def test_an_encoding_without_the_characters(self) -> None:
        history = text(write(1, 5, "\u6f22"), reply(1), read(2, "\u6f22"), gave(2, None))
        ran = started("check", input=history, encoding="ascii")
        self.assertEqual((ran.returncode, ran.stderr), (1, b""))
        self.assertIn(b'register "\\u6f22": ', ran.stdout)

    def test_the_name_of_a_file_that_is_no_text(self) -> None:
        ran = started("check", b"\xff\x1b".decode("utf-8", "surrogateescape"))
        self.assertEqual(ran.stderr, b"\\udcff\\u001b: failed: No such file or directory\n")
        self.assertEqual(ran.returncode, 4)


class ManPage(unittest.TestCase):
    page = (PYTHON.parent / "docs" / "regkit.1").read_text().replace("\\-", "-")

    def test_every_option_is_there(self) -> None:
        for name in COMMANDS:
            options = re.findall(r"^  (?:-., |-. \S+, )?(--[a-z-]+)", run(name, "--help").out, re.MULTILINE)
            self.assertIn("--help", options)
            for option in options:
                with self.subTest(f"{name} {option}"):
                    self.assertIn(option, self.page)

    def test_its_example_is_what_is_printed(self) -> None:
        events = [write(1, 9), reply(1), read(4), write(3, 11), reply(3), gave(4, 9), read(2), gave(2, 9)]
        history = text(*({**event, "register": "user:1"} if "op" in event else event for event in events))
        with tempfile.TemporaryDirectory() as folder, mock.patch.dict(os.environ, {"COLUMNS": "64"}):
            path = pathlib.Path(folder) / "cache.jsonl"
            path.write_bytes(history)
            out = run("explain", str(path)).out.replace(folder + "/", "")
        self.assertIn(f"$ regkit explain cache.jsonl\n{out}.fi\n", self.page)


class Archive(InFolder):
    def make(self, name: str) -> pathlib.Path:
        subprocess.run([sys.executable, str(PYTHON / "make_archive"), str(self.folder / name)], check=True)
        return self.folder / name

    def test_it_runs_with_the_checker_beside_it(self) -> None:
        path = self.make("bin/regkit")
        shutil.copy(checker.find_checker(), path.parent / "regcheck")
        link = self.folder / "link"
        link.symlink_to(path)
        environment = {"PATH": f"{pathlib.Path(sys.executable).parent}:/usr/bin:/bin", "HOME": "/"}
        for command, history, status in [(path, FINE, 0), (link, STALE, 1)]:
            ended = ran_alone(str(command), "check", environment=environment, input=history)
            self.assertEqual(ended, (status, b""))
        for name in COMMANDS:
            self.assertEqual(ran_alone(str(path), name, "--help", environment=environment), (0, b""))

    def test_the_same_sources_give_the_same_bytes(self) -> None:
        self.assertEqual(self.make("one").read_bytes(), self.make("two").read_bytes())


class Checker(unittest.TestCase):
    def test_where_it_is_found(self) -> None:
        with tempfile.TemporaryDirectory() as folder:
            command, program = pathlib.Path(folder) / "regkit", pathlib.Path(folder) / "regcheck"
            command.write_text("")
            by_path = mock.patch.dict(os.environ, {"PATH": folder}, clear=True)
            with by_path, mock.patch.object(sys, "argv", [str(command)]):
                program.write_text("")
                program.chmod(0o644)
                with mock.patch.object(checker, "beside", lambda program: [program]):
                    self.assertRaises(checker.NoChecker, checker.find_checker)  # nobody may run it
                program.chmod(0o755)
                self.assertEqual(checker.find_checker(), str(program))
                with mock.patch.dict(os.environ, {"REGCHECK": "/other"}):
                    self.assertEqual(checker.find_checker(), "/other")

    def test_not_in_the_folder_where_python_was_started(self) -> None:
        with tempfile.TemporaryDirectory() as folder:
            program = pathlib.Path(folder) / "regcheck"
            program.write_text("")
            program.chmod(0o755)
            with mock.patch.object(sys, "argv", ["-c"]), mock.patch.object(os, "getcwd", lambda: folder):
                self.assertNotIn(str(program), [str(path) for path in checker.beside()])

    def test_nowhere(self) -> None:
        no_path = mock.patch.dict(os.environ, {"PATH": "/nowhere"}, clear=True)
        with no_path, mock.patch.object(checker, "beside", lambda program: []):
            self.assertRaises(checker.NoChecker, checker.find_checker)
            ran = run("check", given=FINE)
        self.assertEqual((ran.status, ran.err), (4, "standard input: failed: regcheck was not found: put it "
                                                    "on PATH, or set REGCHECK to its path\n"))


if __name__ == "__main__":
    unittest.main()
