#!/usr/bin/env python3
"""PostgreSQL: single statements, transactions that repeat reads, and commits that don't wait for the disk.

    examples/stores/postgresql.py DIR"""
import os
import pathlib
import pwd
import shutil
import signal
import socket
import struct
import subprocess
import sys
from contextlib import closing
from typing import List, Optional, Tuple

from harness import (KEYS, LINEARIZABLE, MOST_SECONDS, NOT_LINEARIZABLE, PATIENCE, Connection, Lab, Scenario,
                     Server, Stuck, Unanswered, as_user, clients, five_users, main)
from regkit.record import Recorder  # harness has found it

PROTOCOL = 0x30000  # version 3.0
READS_IN_A_TRANSACTION = 5


def program(name: str) -> Optional[str]:
    """A program on PATH, or of the newest version where Debian puts all of them."""
    versions = sorted(pathlib.Path("/usr/lib/postgresql").glob("[0-9]*"), key=lambda path: float(path.name))
    folders = [os.environ.get("PATH", ""), *(str(path / "bin") for path in reversed(versions))]
    return shutil.which(name, path=os.pathsep.join(folders))


POSTGRES, INITDB = program("postgres"), program("initdb")


def other_user() -> str:
    """Whom the server runs as: PostgreSQL refuses to run as root."""
    names = {entry.pw_name for entry in pwd.getpwall()}
    return "" if os.getuid() else next(name for name in ("postgres", "nobody") if name in names)


class Postgres(Connection):
    """A connection that speaks PostgreSQL's protocol: a simple query, and the first column of its rows."""

    def __init__(self, path: str, patience: float = PATIENCE) -> None:
        self.socket = socket.socket(socket.AF_UNIX)
        self.socket.settimeout(patience)
        self.answers = self.socket.makefile("rb")
        try:
            self.socket.connect(path)
            self.ask(b"", struct.pack(">i", PROTOCOL) + b"user\0tester\0database\0postgres\0\0")
        except BaseException:
            self.close()
            raise

    def ask(self, kind: bytes, body: bytes) -> List[Optional[bytes]]:
        self.socket.sendall(kind + struct.pack(">i", len(body) + 4) + body)
        rows: List[Optional[bytes]] = []
        wrong = ""
        while kind != b"Z":  # ready for the next query
            kind, body = self.message(wrong)
            if kind == b"E":
                wrong = next(part[1:].decode() for part in body.split(b"\0") if part[:1] == b"M")
            elif kind == b"D":
                size, = struct.unpack_from(">i", body, 2)
                rows.append(None if size < 0 else body[6:6 + size])
        if wrong:
            raise Unanswered(wrong)
        return rows

    def message(self, wrong: str) -> Tuple[bytes, bytes]:
        head = self.answers.read(5)
        if len(head) < 5:
            raise ConnectionResetError(wrong or "the server ended the connection")
        return head[:1], self.answers.read(struct.unpack(">i", head[1:])[0] - 4)

    def query(self, words: str) -> List[Optional[bytes]]:
        return self.ask(b"Q", words.encode() + b"\0")

    def read(self, key: str) -> Optional[bytes]:
        value, = self.query(f"SELECT value FROM register WHERE name = '{key}'")
        return value

    def write(self, key: str, value: int) -> None:
        self.query(f"UPDATE register SET value = {value} WHERE name = '{key}'")

    def close(self) -> None:
        self.answers.close()
        self.socket.close()


class RepeatableReads(Postgres):
    """A connection with several reads in each transaction, which all see what the first of them saw."""

    left = 0

    def read(self, key: str) -> Optional[bytes]:
        if self.left == 0:
            self.query("BEGIN ISOLATION LEVEL REPEATABLE READ")
            self.left = READS_IN_A_TRANSACTION
        value = super().read(key)
        self.left -= 1
        if self.left == 0:
            self.query("COMMIT")
        return value


class Database:
    """A server with a table of registers. Its socket is in a folder of its own: it has no port.

    Only the server is ever stopped, not the machine, so what it hands to the system outlives it. It need not
    wait for the disk, which may be slow."""

    def __init__(self, lab: Lab, *settings: str) -> None:
        self.lab, self.user = lab, other_user()
        self.folder = lab.new_folder("postgresql", self.user)
        self.socket = str(self.folder / ".s.PGSQL.5432")
        self.settings = [word for setting in ("listen_addresses=", "fsync=off", *settings)
                         for word in ("-c", setting)]
        words = [INITDB or "", "-D", str(self.folder / "data"), "-U", "tester", "-A", "trust", "-E", "UTF8",
                 "--locale=C", "--no-sync"]
        made = subprocess.run(as_user(self.user, words), capture_output=True, cwd="/", check=False)
        if made.returncode:
            raise Stuck(f"initdb failed: {made.stderr.decode(errors='replace').strip()}")
        self.server = self.start()
        with closing(Postgres(self.socket, MOST_SECONDS)) as connection:
            connection.query("CREATE TABLE register (name text PRIMARY KEY, value bigint)")
            connection.query("INSERT INTO register VALUES " + ", ".join(f"('{key}')" for key in KEYS))

    def start(self) -> Server:
        words = [POSTGRES or "", "-D", str(self.folder / "data"), "-k", str(self.folder), *self.settings]
        server = self.lab.start("postgresql", words, self.user, last=signal.SIGQUIT)
        server.await_answer(lambda: self.connect().close())
        return server

    def connect(self) -> Postgres:
        return Postgres(self.socket)

    def connect_to_repeat(self) -> Postgres:
        return RepeatableReads(self.socket)


def statements(lab: Lab, recorder: Recorder, seconds: float) -> None:
    database = Database(lab)
    with clients(recorder, five_users(database.connect, database.connect)) as load:
        load.go_on(seconds)


def repeatable_read(lab: Lab, recorder: Recorder, seconds: float) -> None:
    database = Database(lab)
    with clients(recorder, five_users(database.connect, database.connect_to_repeat)) as load:
        load.go_on(seconds)


def stop_at_once(lab: Lab, recorder: Recorder, seconds: float, *settings: str) -> None:
    """The server is stopped as by `pg_ctl stop -m immediate`, and started again."""
    database = Database(lab, *settings)
    with clients(recorder, five_users(database.connect, database.connect)) as load:
        load.go_on(seconds / 2)
        database.server.stop(signal.SIGQUIT)
        database.start()
        load.go_on(seconds / 2)


def stop(lab: Lab, recorder: Recorder, seconds: float) -> None:
    stop_at_once(lab, recorder, seconds)


def stop_without_sync(lab: Lab, recorder: Recorder, seconds: float) -> None:
    """The log writer sleeps for long, so that no commit of the run reaches the disk by chance."""
    stop_at_once(lab, recorder, seconds, "synchronous_commit=off", "wal_writer_delay=10s")


SCENARIOS = [
    Scenario("statements", "each read and each write is a transaction of its own", LINEARIZABLE, statements),
    Scenario("repeatable-read", f"{READS_IN_A_TRANSACTION} reads in each transaction at repeatable read, "
             "recorded read by read", NOT_LINEARIZABLE, repeatable_read),
    Scenario("stop", "the server is stopped at once, and started again", LINEARIZABLE, stop),
    Scenario("stop-without-sync", "the same with synchronous_commit=off", NOT_LINEARIZABLE,
             stop_without_sync)]

if __name__ == "__main__":
    sys.exit(main("postgresql", __doc__, "postgresql", [POSTGRES, INITDB], SCENARIOS))
