"""What the scripts of this folder share: servers that are always stopped, links between them that can be cut,
clients that record what they call, and what regkit says of it.

A script hands its scenarios to `main`. A scenario starts servers in a `Lab` and lets `clients` use them. What
it does to the servers meanwhile makes sure of the fault that it is to show: no run depends on luck."""
import argparse
import asyncio
import os
import pathlib
import pwd
import random
import shlex
import shutil
import signal
import socket
import subprocess
import sys
import tempfile
import threading
import time
from collections import Counter
from concurrent.futures import Future, ThreadPoolExecutor
from contextlib import ExitStack, closing, contextmanager, suppress
from typing import Any, Callable, Iterator, List, Mapping, NamedTuple, NoReturn, Optional, Sequence, Tuple

ROOT = pathlib.Path(__file__).resolve().parents[2]
if (ROOT / "python/regkit").is_dir():  # else regkit is installed, or named by PYTHONPATH
    sys.path.insert(0, str(ROOT / "python"))

from regkit.record import Client, Recorder  # noqa: E402

KEYS = ["x", "y"]
PAUSE = 0.002  # seconds between two calls of a client, on average
PATIENCE = 1.0  # seconds until a client gives up on an answer
MOST_SECONDS = 60.0  # until a server answers for the first time or has ended, or clients get on
AS_EXPECTED, OTHERWISE, COMMAND_LINE, FAILED, NOT_HERE, INTERRUPTED = 0, 1, 3, 4, 5, 130
LINEARIZABLE, NOT_LINEARIZABLE = 0, 1  # the statuses of `regkit check`
EPILOG = """\
example:
  examples/stores/{store}.py /tmp/{store}

Each run leaves its history in DIR, with an explanation and a page with a picture. The servers' own files are
temporary.

exit status:
  0    each run came out as expected
  1    one didn't
  3    wrong command line
  4    a server couldn't be started, or a file couldn't be written
  5    nothing was run, since the server isn't installed
  130  interrupted
"""
ENDS = [signal.SIGINT, signal.SIGTERM, signal.SIGHUP]  # the signals that end the script


class Unanswered(Exception):
    """The store gave no answer, or one that leaves open whether the call took effect."""


class Stuck(Exception):
    """A server doesn't start, or the clients get nowhere."""


class Interrupted(BaseException):
    """A signal asks the script to end."""


class Connection:
    """What a client does with a store. Whatever isn't answered raises OSError or Unanswered."""

    node = ""  # the server that it asks, if there are several

    def turn(self, writes: bool) -> None:
        """Comes before each call. A connection to several servers chooses one here, and names it."""

    def read(self, key: str) -> object:
        raise NotImplementedError

    def write(self, key: str, value: int) -> None:
        raise NotImplementedError

    def close(self) -> None:
        raise NotImplementedError


class Several(Connection):
    """Connections of which each call takes one by chance: some are for writes, some for reads."""

    def __init__(self, writers: Sequence[Connection], readers: Sequence[Connection]) -> None:
        self.writers, self.readers = writers, readers
        self.turn(writes=False)

    def turn(self, writes: bool) -> None:
        self.current = random.choice(self.writers if writes else self.readers)
        self.node = self.current.node

    def read(self, key: str) -> object:
        return self.current.read(key)

    def write(self, key: str, value: int) -> None:
        self.current.write(key, value)

    def close(self) -> None:
        for each in (*self.writers, *self.readers):
            each.close()


class User(NamedTuple):
    """A client: its name, how it connects, and the key that it alone writes, if any."""

    name: str
    connect: Callable[[], Connection]
    writes: str = ""


def five_users(writers: Callable[[], Connection], readers: Callable[[], Connection]) -> List[User]:
    """A client that writes x, one that writes y, and three that only read."""
    return [*(User(f"writer-{key}", writers, key) for key in KEYS),
            *(User(f"reader-{number}", readers) for number in (1, 2, 3))]


class Scenario(NamedTuple):
    """A run, and what `regkit check` has to say of it."""

    name: str
    about: str
    expected: int
    run: Callable[["Lab", Recorder, float], None]


def as_user(user: str, words: Sequence[str]) -> List[str]:
    """A command that runs as another user, if one is named. The system kills it if this script is killed."""
    become = ["--reuid", user, "--regid", str(pwd.getpwnam(user).pw_gid), "--clear-groups"] if user else []
    return ["setpriv", "--pdeathsig", "KILL", *become, "--", *words]


class Server:
    """A server that was started, with a log of its own."""

    def __init__(self, words: Sequence[str], log: pathlib.Path, last: signal.Signals) -> None:
        self.words, self.log, self.last = words, log, last
        with open(log, "ab") as output:
            self.process = subprocess.Popen(words, cwd="/", stdin=subprocess.DEVNULL, stdout=output,
                                            stderr=subprocess.STDOUT, start_new_session=True)

    def await_answer(self, ask: Callable[[], object]) -> None:
        """Waits until the server answers. Raises Stuck with the end of its log."""
        end = time.monotonic() + MOST_SECONDS
        while time.monotonic() < end and self.process.poll() is None:
            with suppress(OSError, Unanswered):
                ask()
                return
            time.sleep(0.05)
        told = self.log.read_text(errors="replace").splitlines()[-5:]
        raise Stuck("\n  ".join([f"{shlex.join(self.words)} does not answer:", *told]))

    def stop(self, how: Optional[signal.Signals] = None) -> None:
        """Ends the server by a signal, and waits until it is gone. One that still writes to a slow disk needs
        time. If it were killed, its parts would outlive it, and no other could be started over its files."""
        if self.process.poll() is None:
            self.process.send_signal(how or self.last)
        try:
            self.process.wait(MOST_SECONDS)
        except subprocess.TimeoutExpired:
            self.process.kill()
            self.process.wait()


class Network:
    """Links between servers. Each has a port of its own on loopback, and hands on what comes there."""

    def __init__(self) -> None:
        self._loop = asyncio.new_event_loop()
        self._thread = threading.Thread(target=self._loop.run_forever, daemon=True)
        self._thread.start()
        self._is_cut: Callable[[int, bytes], bool] = lambda port, head: False
        self._open: List[Tuple[int, bytes, List[asyncio.StreamWriter]]] = []
        self._servers: List[asyncio.AbstractServer] = []

    def link(self, port: int, delay: float = 0) -> int:
        """A new port that leads to the port of a server. What goes there or comes back waits some seconds."""
        async def listen() -> int:
            server = await asyncio.start_server(lambda *ends: self._carry(port, delay, *ends), "127.0.0.1", 0)
            self._servers.append(server)
            return int(server.sockets[0].getsockname()[1])
        return asyncio.run_coroutine_threadsafe(listen(), self._loop).result()

    def cut(self, which: Callable[[int, bytes], bool] = lambda port, head: True) -> None:
        """Breaks links, and keeps them broken: those to a port whose first bytes are such."""
        async def cut() -> None:
            self._is_cut = which
            for port, head, ends in self._open:
                if which(port, head):
                    for end in ends:
                        end.transport.abort()
        asyncio.run_coroutine_threadsafe(cut(), self._loop).result()

    def heal(self) -> None:
        self.cut(lambda port, head: False)

    async def _carry(self, port: int, delay: float, reader: asyncio.StreamReader,
                     writer: asyncio.StreamWriter) -> None:
        ends = [writer]
        with suppress(OSError):
            head = await reader.read(65536)
            answers, other = await asyncio.open_connection("127.0.0.1", port)
            ends.append(other)
            if not self._is_cut(port, head):
                self._open.append((port, head, ends))
                other.write(head)
                await asyncio.wait([asyncio.ensure_future(self._pump(*way, delay))
                                    for way in ((reader, other), (answers, writer))],
                                   return_when=asyncio.FIRST_COMPLETED)
        self._open = [link for link in self._open if link[2] is not ends]
        for end in ends:
            end.transport.abort()

    @staticmethod
    async def _pump(reader: asyncio.StreamReader, writer: asyncio.StreamWriter, delay: float) -> None:
        with suppress(OSError):
            while data := await reader.read(65536):
                await asyncio.sleep(delay)
                writer.write(data)
                await writer.drain()

    def close(self) -> None:
        async def end() -> None:
            for server in self._servers:
                server.close()
            tasks = asyncio.all_tasks() - {asyncio.current_task()}
            for task in tasks:
                task.cancel()
            await asyncio.gather(*tasks, return_exceptions=True)
        asyncio.run_coroutine_threadsafe(end(), self._loop).result()
        self._loop.call_soon_threadsafe(self._loop.stop)
        self._thread.join()
        self._loop.close()


class Lab:
    """A new folder for servers. At its end they are stopped, and it is removed."""

    def __init__(self) -> None:
        self._last = ExitStack()

    def __enter__(self) -> "Lab":
        self.folder = pathlib.Path(self._last.enter_context(tempfile.TemporaryDirectory(prefix="stores-")))
        self.folder.chmod(0o711)  # a server may run as another user
        return self

    def __exit__(self, *_: object) -> None:
        before = {each: signal.signal(each, signal.SIG_IGN) for each in ENDS}  # nothing disturbs the end
        self._last.close()
        for each, handler in before.items():
            signal.signal(each, handler)

    def new_folder(self, name: str, user: str = "") -> pathlib.Path:
        """A folder for one server. It belongs to the user that the server runs as."""
        path = self.folder / name
        path.mkdir(mode=0o700)
        if user:
            shutil.chown(path, user)
        return path

    def start(self, name: str, words: Sequence[str], user: str = "",
              last: signal.Signals = signal.SIGKILL) -> Server:
        """Starts a server, as another user if one is named. `last` is the signal that ends it."""
        server = Server(as_user(user, words), self.folder / f"{name}.log", last)
        self._last.callback(server.stop)
        return server

    def network(self) -> Network:
        return self._last.enter_context(closing(Network()))


def free_ports(number: int) -> List[int]:
    """Free ports on loopback, out of the range that the system takes for connections."""
    ports: List[int] = []
    with ExitStack() as stack:
        while len(ports) < number:
            port = random.randrange(20000, 30000)
            with suppress(OSError):
                stack.enter_context(socket.socket()).bind(("127.0.0.1", port))
                ports.append(port)
    return ports


class Load:
    """Clients at work. Whenever one loses its connection, another takes over."""

    def __init__(self, recorder: Recorder, users: Sequence[User]) -> None:
        self.recorder = recorder
        self.users = users
        self.over = threading.Event()
        self.written = {user.writes: 0 for user in users if user.writes}  # key -> its confirmed writes
        self.ended = dict.fromkeys(range(len(users)), 0)  # place -> its calls that ended, answered or lost
        self.lost: "Counter[str]" = Counter()

    def use(self, place: int) -> None:
        """The work of one user until the run is over."""
        user = self.users[place]
        while not self.over.is_set():
            try:
                with closing(user.connect()) as connection:
                    with self.recorder.client(user.name, connection.node) as client:
                        self.call(client, connection, place)
            except (OSError, Unanswered) as error:
                self.lost[str(error)] += 1
                self.ended[place] += 1
                self.over.wait(0.05)

    def call(self, client: Client, connection: Connection, place: int) -> None:
        """A client that has just come reads each key first, so that no write covers what was there."""
        for key in KEYS:
            self.read(client, connection, key)
        own = self.users[place].writes
        while not self.over.wait(random.uniform(0, 2 * PAUSE)):
            if own and random.random() < 0.6:
                self.turn(client, connection, writes=True)
                with client.write(own) as write:
                    connection.write(own, write.value)
                self.written[own] += 1
            else:
                self.read(client, connection, random.choice(KEYS))
            self.ended[place] += 1

    @staticmethod
    def turn(client: Client, connection: Connection, writes: bool) -> None:
        connection.turn(writes)
        client.node = connection.node

    def read(self, client: Client, connection: Connection, key: str) -> None:
        self.turn(client, connection, writes=False)
        with client.read(key) as read:
            read.value = connection.read(key)

    def go_on(self, seconds: float) -> None:
        """Lets the clients go on for some seconds, then until each key was written five times more, and then
        until each client has called twice more. So all meet what was written, however slow the machine is."""
        time.sleep(seconds)
        self.await_more(self.written, 5)
        self.await_more(self.ended, 2)

    @staticmethod
    def await_more(counts: Mapping[Any, int], more: int) -> None:
        wanted = {name: count + more for name, count in counts.items()}
        end = time.monotonic() + MOST_SECONDS
        while any(counts[name] < count for name, count in wanted.items()):
            if time.monotonic() > end:
                raise Stuck(f"the clients get nowhere: {counts} of {wanted} calls ended")
            time.sleep(0.01)


@contextmanager
def clients(recorder: Recorder, users: Sequence[User]) -> Iterator[Load]:
    """Lets clients use a store as long as the block runs."""
    load = Load(recorder, users)
    with ThreadPoolExecutor(len(users)) as pool:
        ran: "List[Future[None]]" = []
        try:
            ran += [pool.submit(load.use, place) for place in range(len(users))]
            yield load
        finally:
            load.over.set()
            for one in ran:
                one.result()
    for words, times in load.lost.most_common(3):
        print(f"{times:,} connection{'' if times == 1 else 's'} lost: {words}")


def regkit(*words: str, output: Optional[pathlib.Path] = None) -> int:
    """Runs a command of regkit, after it was shown. The output goes to a file if one is named."""
    target = f" > {shlex.quote(str(output))}" if output else ""
    print(f"$ {shlex.join(['regkit', *words])}{target}", flush=True)
    environment = {**os.environ, "PYTHONPATH": os.pathsep.join(filter(None, sys.path))}
    ran = subprocess.run([sys.executable, "-m", "regkit", *words], env=environment, check=False,
                         stdout=subprocess.PIPE if output else None)
    if output:
        output.write_bytes(ran.stdout)
    return ran.returncode


def run_scenario(scenario: Scenario, base: pathlib.Path, seconds: float) -> bool:
    """Runs a scenario, and leaves its history, explanation and pages. Whether it came out as expected."""
    print(f"\n{base.name}: {scenario.about}", flush=True)
    history = str(base.with_suffix(".jsonl"))
    with Recorder(history, clock=time.monotonic_ns) as recorder, Lab() as lab:
        scenario.run(lab, recorder, seconds)
    given = regkit("check", "--most", "1", "--least-overlaps", "1", history)
    regkit("explain", history, output=base.with_suffix(".txt"))
    regkit("draw", history, "-o", str(base.with_suffix(".html")))
    if given == NOT_LINEARIZABLE:
        regkit("levels", "--page", str(base.with_suffix(".levels.html")), history)
    if given != scenario.expected:
        print(f"{base.name}: regkit check ended with {given}, and not {scenario.expected}", file=sys.stderr)
    return given == scenario.expected


def stop_once(number: int, _: object) -> NoReturn:
    """Ends the script. Later signals don't disturb the end."""
    for each in ENDS:
        signal.signal(each, signal.SIG_IGN)
    raise Interrupted


def seconds_of(word: str) -> float:
    try:
        seconds = float(word)
    except ValueError:
        seconds = 0
    if not 1 <= seconds <= 60:
        raise argparse.ArgumentTypeError("a run takes 1 to 60 seconds")
    return seconds


def arguments_of(store: str, about: str, scenarios: Sequence[Scenario]) -> argparse.Namespace:
    names = [scenario.name for scenario in scenarios]
    parser = argparse.ArgumentParser(description=about, epilog=EPILOG.format(store=store),
                                     formatter_class=argparse.RawDescriptionHelpFormatter)
    parser.add_argument("folder", metavar="DIR", type=pathlib.Path, help="where histories and pages go")
    parser.add_argument("--seconds", metavar="N", type=seconds_of, default=3.0,
                        help="how long each run takes, 1 to 60 (default 3)")
    parser.add_argument("--only", metavar="NAME", choices=names, action="append",
                        help=f"one of these runs; may be given again: {', '.join(names)}")
    try:
        return parser.parse_args()
    except SystemExit as end:
        sys.exit(COMMAND_LINE if end.code else 0)


def main(store: str, about: str, package: str, programs: Sequence[Optional[str]],
         scenarios: Sequence[Scenario]) -> int:
    """Runs a store's scenarios. `programs` are the paths of what they start, None for one that isn't here."""
    arguments = arguments_of(store, about, scenarios)
    if None in programs or shutil.which("setpriv") is None:
        print(f"{store}: not run, since a program isn't here: apt-get install {package} util-linux")
        return NOT_HERE
    for number in ENDS:
        signal.signal(number, stop_once)
    wanted = [scenario for scenario in scenarios if scenario.name in (arguments.only or [scenario.name])]
    try:
        arguments.folder.mkdir(parents=True, exist_ok=True)
        right = [run_scenario(scenario, arguments.folder / f"{store}-{scenario.name}", arguments.seconds)
                 for scenario in wanted]
    except (OSError, Stuck) as error:
        print(f"{store}: {error}", file=sys.stderr)
        return FAILED
    except Interrupted:
        return INTERRUPTED
    return AS_EXPECTED if all(right) else OTHERWISE
