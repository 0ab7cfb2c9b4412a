"""Tests of engines/: what a run of a part leaves; each engine runs all parts, and then again what failed."""
import json
import os
import pathlib
import shutil
import subprocess
import tempfile
import unittest
from typing import Dict, List, Sequence

from regkit.checker.programs import LEVEL, SEARCH, find_checker, find_program, judge_levels
from regkit.commands import join, split
from regkit.commands.join import WITHOUT_CAUSAL
from regkit.parts.folder import file_of
from tests.split_support import STAND_IN_SBATCH, Ran, python_with_dask, run_command, search, whole
from tests.test_split import Folder, call, cas, end, has_checker, history_of

ENGINES = pathlib.Path(__file__).parents[2] / "engines"
HISTORY = history_of(call(1, "x", 5), end(1), call(2, "y"), call(1, "z"), end(2, value=None), call(2, "x"),
                     end(2, value=5))
REPEATED = history_of(call(1, "x", 5), end(1), call(2, "y"), call(1, "z"), end(2, value=None),
                      call(2, "x", 5), cas(3, "y"), end(2), end(3, ok=True))
UNKNOWN = "the search gave up"


@unittest.skipUnless(has_checker(), "regcheck is not built")
class Engines(Folder):
    """Each test has a folder of three parts, and a checker that notes each run and can be told to fail."""

    history, variable = HISTORY, "REGCHECK"

    def setUp(self) -> None:
        super().setUp()
        self.split(self.history, 3)
        self.folder = pathlib.Path(self.path).parent
        self.checker = self.folder / "a checker"
        self.fails = self.folder / "fails"  # what it does in place of a run
        self.log = self.folder / "log"
        self.checker.write_text(f'#!/bin/sh\nfor part; do :; done\nbasename "$part" >> "{self.log}"\n'
                                f'if [ -f "{self.fails}" ]; then . "{self.fails}"; fi\n'
                                f'exec {self.program()} "$@"\n')
        self.checker.chmod(0o755)

    def program(self) -> str:
        return find_checker()

    def run_engine(self, *words: str, **more: str) -> "subprocess.CompletedProcess[bytes]":
        environment: Dict[str, str] = {**os.environ, self.variable: str(self.checker), **more}
        return subprocess.run(words, stdin=subprocess.DEVNULL, capture_output=True, check=False,
                              env=environment)

    def runs(self) -> List[str]:
        """The parts that were run since the last look."""
        found = sorted(self.log.read_text().split()) if self.log.exists() else []
        self.log.unlink(missing_ok=True)
        return found

    def whole(self, history: bytes) -> Ran:
        return whole(history)

    def must_join(self) -> None:
        self.assertEqual(self.whole(self.history), run_command(join, self.directory))

    def must_run_unknown_parts_again(self, *words: str, **more: str) -> None:
        """Of three parts one is unknown. With new bounds it runs again, and they are handed on."""
        file_of(self.directory, 1, "status").write_text("6\n")
        left = self.run_engine(*words, **more)
        self.assertEqual((0, []), (left.returncode, self.runs()))
        for said in (f"parts: 1 unknown, since {UNKNOWN}: --steps N runs", "every part has an answer"):
            self.assertIn(said, left.stderr.decode())
        self.fails.write_text('echo "$*" >> "$0.bounds"\n')
        again = self.run_engine(*words, "--steps", "7700000", "--configurations", "8800", **more)
        self.assertEqual((0, ["part-001.jsonl"]), (again.returncode, self.runs()), again.stderr)
        bounds = pathlib.Path(f"{self.checker}.bounds").read_text()
        self.assertIn("--steps 7700000 --configurations 8800", bounds)
        self.must_join()

    def must_resume(self, words: Sequence[str], again: Sequence[str] = (), **more: str) -> None:
        """Part 1 fails at first, by memory; then all is run once more, and only part 1 is."""
        self.fails.write_text('case $part in *part-001*) echo "no memory or no thread" >&2; exit 4 ;; esac\n')
        first = self.run_engine(*words, **more)
        parts = {f"part-00{part}.jsonl" for part in range(3)}
        self.assertEqual(parts, set(self.runs()), first.stderr)
        joined = run_command(join, self.directory)
        self.assertEqual(4, joined.status)
        self.assertIn("part-001 has no answer: status 4: no memory or no thread", joined.words)
        self.assertEqual(1, joined.words.count("no answer"))
        self.fails.unlink()
        second = self.run_engine(*(again or words), **more)
        self.assertEqual((0, ["part-001.jsonl"]), (second.returncode, self.runs()), second.stderr)
        self.must_join()

    def must_have_nothing_left(self, *words: str, **more: str) -> None:
        """Every part has an answer: nothing runs, and that is said. regcheck has no bounds."""
        done = self.run_engine(*words, **more)
        self.assertEqual((0, []), (done.returncode, self.runs()))
        self.assertIn(f"every part has an answer: regkit join {self.directory}", done.stderr.decode())
        bounds = self.run_engine(*words, "--steps", "7", **more)
        self.assertEqual((3, []), (bounds.returncode, self.runs()))
        self.assertIn("are for regcheck, which has no bounds: leave out --steps", bounds.stderr.decode())

    def programs(self, *names: str) -> str:
        """A PATH on which these programs are the stand-in for sbatch."""
        folder = self.folder / "programs"
        folder.mkdir()
        for name in names:
            (folder / name).write_text(STAND_IN_SBATCH)
            (folder / name).chmod(0o755)
        return f"{folder}:{os.environ['PATH']}"

    def check_part(self, history: bytes, *options: str, **more: str) -> "subprocess.CompletedProcess[bytes]":
        file_of(self.directory, 0, "jsonl").write_bytes(history)
        words = [str(ENGINES / "check_part"), str(file_of(self.directory, 0, "jsonl")), *options]
        return self.run_engine(*words, **more)

    def left(self, ending: str) -> str:
        return file_of(self.directory, 0, ending).read_text()

    def test_check_part(self) -> None:
        stale = history_of(call(1, "x", 5), end(1), call(2, "x"), end(2, value=None))
        for history, status in [(self.history, 0), (stale, 1), (b"not json", 2)]:
            with self.subTest(status):
                self.assertEqual(0, self.check_part(history).returncode)
                expected = self.whole(history)
                self.assertEqual((f"{status}\n", expected.words, expected.report.decode()),
                                 (self.left("status"), self.left("err"), self.left("report")))

    def test_check_part_that_fails(self) -> None:
        for what, status in [("exit 4", 4), ("kill -9 $$", 137)]:
            with self.subTest(what):
                self.fails.write_text(what + "\n")
                ran = self.check_part(self.history)
                self.assertEqual((status, f"{status}\n"), (ran.returncode, self.left("status")))
                self.assertIn(f"status {status}", ran.stderr.decode())
        self.fails.unlink()
        nowhere = {self.variable: "/nowhere/program"}
        self.assertEqual(3, self.check_part(self.history, "--no-such-option").returncode)
        self.assertEqual(127, self.check_part(self.history, **nowhere).returncode)
        self.assertEqual(3, self.run_engine(str(ENGINES / "check_part"), self.directory).returncode)
        self.assertEqual([], list(pathlib.Path(self.directory).glob("*.new.*")))

    def test_a_part_that_is_unknown(self) -> None:
        """It has an answer, and is not run again; standard error says what it is."""
        self.fails.write_text('echo "a report"; exit 6\n')
        ran = self.check_part(self.history)
        self.assertEqual((0, "6\n", "a report\n"), (ran.returncode, self.left("status"), self.left("report")))
        self.assertIn(f"part-000.jsonl: unknown, since {UNKNOWN}", ran.stderr.decode())

    def test_an_old_status_does_not_outlive_a_killed_run(self) -> None:
        self.check_part(self.history)
        self.fails.write_text("kill -9 $PPID\nexit 4\n")
        self.check_part(self.history)
        self.assertFalse(file_of(self.directory, 0, "status").exists())

    @unittest.skipUnless(shutil.which("parallel"), "GNU parallel is not installed")
    def test_with_parallel(self) -> None:
        words = [str(ENGINES / "with_parallel"), self.directory]
        self.must_resume([*words, "--jobs", "2"])
        self.must_have_nothing_left(*words)

    def test_with_slurm(self) -> None:
        """By a stand-in for sbatch: no cluster is needed, and none is tried."""
        words = [str(ENGINES / "with_slurm"), self.directory]
        path = self.programs("sbatch")
        self.must_resume(words, [*words, "--mem=2G"], PATH=path)
        self.must_have_nothing_left(*words, PATH=path)

    @unittest.skipUnless(python_with_dask(), "Dask's distributed is not installed")
    def test_with_dask(self) -> None:
        words = [str(python_with_dask()), str(ENGINES / "with_dask"), self.directory, "--workers", "1"]
        self.must_resume(words)
        self.must_have_nothing_left(*words)

    def test_folders_without_parts(self) -> None:
        with tempfile.TemporaryDirectory() as empty:
            programs = self.programs("sbatch", "parallel")
            for engine in ("with_parallel", "with_slurm"):
                with self.subTest(engine):
                    ran = self.run_engine(str(ENGINES / engine), empty, PATH=programs)
                    self.assertEqual(4, ran.returncode)
                    self.assertIn("split.json is missing", ran.stderr.decode())
                    self.assertEqual(3, self.run_engine(str(ENGINES / engine)).returncode)

    def test_a_manifest_without_a_program(self) -> None:
        pathlib.Path(self.directory, "split.json").write_text('{"format":"regkit split 1"}\n')
        ran = self.check_part(self.history)
        self.assertEqual((4, []), (ran.returncode, self.runs()))
        self.assertIn("names no program: split the history again", ran.stderr.decode())


@unittest.skipUnless(find_program(SEARCH), "regsearch is not built")
class SearchEngines(Engines):
    """The same with repeated values and cas: each engine takes regsearch, without being told."""

    history, variable = REPEATED, "REGSEARCH"

    def program(self) -> str:
        return str(find_program(SEARCH))

    def whole(self, history: bytes) -> Ran:
        return whole(history, search)

    def must_have_nothing_left(self, *words: str, **more: str) -> None:
        done = self.run_engine(*words, **more)
        self.assertEqual((0, []), (done.returncode, self.runs()))
        self.must_run_unknown_parts_again(*words, **more)


@unittest.skipUnless(find_program(LEVEL), "reglevel isn't built")
class Levels(Folder):
    """Parts for reglevel, as `split --levels` makes them."""

    def test_check_part_and_join(self) -> None:
        history = b"".join([history_of(call(1, "x", 5), end(1), call(2, "x"), end(2, value=None)),
                            history_of(call(1, "y", 5), end(1), call(2, "y"), end(2, value=5))])
        pathlib.Path(self.path).write_bytes(history)
        words = [self.path, self.directory, "--parts", "2", "--levels"]
        self.assertEqual(run_command(split, *words).status, 0)
        program = str(find_program(LEVEL))
        for part in range(2):
            path = str(file_of(self.directory, part, "jsonl"))
            ran = subprocess.run([str(ENGINES / "check_part"), path], env={**os.environ, "REGLEVEL": program},
                                 check=False, capture_output=True)
            self.assertEqual(ran.returncode, 0, ran.stderr)
        bounds = subprocess.run([str(ENGINES / "unanswered"), self.directory, "--steps", "7"], check=False,
                                capture_output=True, text=True)
        self.assertEqual(bounds.returncode, 3)
        self.assertIn("are for reglevel, which has no bounds: leave out --steps", bounds.stderr)
        *rows, summary = map(json.loads, judge_levels(history).report.splitlines())
        joined = run_command(join, self.directory)
        self.assertEqual((joined.status, joined.words), (1, f"regkit join: {WITHOUT_CAUSAL}\n"))
        for row in (*rows, summary):
            row.pop("gap", None)
        self.assertEqual(summary.pop("causal"), "yes")
        self.assertEqual([json.loads(line) for line in joined.report.splitlines()], [*rows, summary])


if __name__ == "__main__":
    unittest.main()
