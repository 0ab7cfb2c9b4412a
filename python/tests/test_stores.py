"""The scripts of examples/stores: each run comes out as expected where the server is installed, and no server
is left, however a run ends."""
import os
import pathlib
import signal
import subprocess
import sys
import tempfile
import time
import unittest
from typing import List, Sequence

from regkit.checker.programs import LEVEL, find_checker, find_program

STORES = pathlib.Path(__file__).resolve().parents[2] / "examples/stores"
NOT_HERE, INTERRUPTED = 5, 130
SECONDS = 300  # until a script is taken to hang
LAST = 12  # lines of a failed script that are shown


class Stores(unittest.TestCase):
    def setUp(self) -> None:
        folder = tempfile.TemporaryDirectory()
        self.addCleanup(folder.cleanup)
        self.pages = pathlib.Path(folder.name) / "pages"
        self.temporary = pathlib.Path(folder.name) / "temporary"  # where the servers' own files are
        self.temporary.mkdir()
        pathlib.Path(folder.name).chmod(0o711)  # a server may run as another user

    def start(self, store: str, *words: str, **more: str) -> "subprocess.Popen[str]":
        """Starts a script."""
        command = [sys.executable, "-B", str(STORES / f"{store}.py"), str(self.pages), *words]
        environment = {**os.environ, "REGCHECK": find_checker(), "TMPDIR": str(self.temporary), **more}
        script = subprocess.Popen(command, env=environment, stdout=subprocess.PIPE, stderr=subprocess.STDOUT,
                                  text=True, start_new_session=True)
        self.addCleanup(self.kill, script)
        return script

    @staticmethod
    def kill(script: "subprocess.Popen[str]") -> None:
        """Ends a script that a failed test has left."""
        if script.poll() is None:
            os.killpg(script.pid, signal.SIGKILL)
            script.communicate()

    def end(self, script: "subprocess.Popen[str]") -> str:
        """What the script printed. Nothing that it started is left."""
        try:
            told, _ = script.communicate(timeout=SECONDS)
        except subprocess.TimeoutExpired:
            self.fail(f"{script.args!r} hasn't ended after {SECONDS} seconds")
        self.assertEqual((list(self.temporary.iterdir()), self.left()), ([], []))
        return told

    def left(self) -> List[str]:
        """The logs that servers of this test are writing now, one for each process."""
        logs = []
        for output in pathlib.Path("/proc").glob("[0-9]*/fd/1"):
            try:
                logs.append(os.readlink(output))
            except OSError:  # it has ended since, or is somebody else's
                continue
        return [log for log in logs if log.startswith(str(self.temporary))]

    def comes_out(self, store: str, linearizable: Sequence[str], others: Sequence[str]) -> None:
        """Each run of a store is judged as the script says, which ends with 0 then."""
        script = self.start(store, "--seconds", "1")
        told = self.end(script)
        self.skip_if_not_here(script, told)
        self.assertEqual(script.returncode, 0, "\n".join(["", "…", *told.splitlines()[-LAST:]]))
        pages = {f"{store}-{run}.levels.html" for run in others if find_program(LEVEL)}
        self.assertEqual({path.name for path in self.pages.iterdir()}, pages | {
            f"{store}-{run}.{end}" for run in (*linearizable, *others) for end in ("jsonl", "txt", "html")})

    def skip_if_not_here(self, script: "subprocess.Popen[str]", told: str) -> None:
        if script.returncode == NOT_HERE:
            self.assertIn("apt-get install", told)
            self.skipTest(told.strip())

    def test_redis(self) -> None:
        self.comes_out("redis", ["one-server"], ["replica", "sticky", "roaming", "failover"])

    def test_postgresql(self) -> None:
        self.comes_out("postgresql", ["statements", "stop"], ["repeatable-read", "stop-without-sync"])

    def test_etcd(self) -> None:
        self.comes_out("etcd", ["linearizable"], ["serializable", "roaming"])

    def test_a_server_that_is_not_installed_is_named(self) -> None:
        script = self.start("redis", PATH="/nowhere")
        told = self.end(script)
        self.assertIn("redis: not run, since a program isn't here: apt-get install redis-server", told)
        self.assertEqual(script.returncode, NOT_HERE)
        self.assertFalse(self.pages.exists())

    def interrupted(self, number: signal.Signals) -> "subprocess.Popen[str]":
        """A script that got a signal while its clients used the servers."""
        history = self.pages / "redis-replica.jsonl"
        history.unlink(missing_ok=True)
        script = self.start("redis", "--seconds", "60", "--only", "replica")
        end = time.monotonic() + SECONDS
        while script.poll() is None and not (history.exists() and history.stat().st_size):
            self.assertLess(time.monotonic(), end)
            time.sleep(0.05)
        self.assertEqual(len(self.left()), 0 if script.returncode == NOT_HERE else 2)
        script.send_signal(number)
        return script

    def test_an_interrupt_stops_the_servers(self) -> None:
        for number in (signal.SIGINT, signal.SIGTERM):
            script = self.interrupted(number)
            told = self.end(script)
            self.skip_if_not_here(script, told)
            self.assertEqual(script.returncode, INTERRUPTED, told)

    def test_no_server_outlives_a_script_that_is_killed(self) -> None:
        script = self.interrupted(signal.SIGKILL)
        told, _ = script.communicate()
        self.skip_if_not_here(script, told)
        end = time.monotonic() + SECONDS
        while self.left() and time.monotonic() < end:
            time.sleep(0.05)
        self.assertEqual(self.left(), [])


if __name__ == "__main__":
    unittest.main()
