#!/usr/bin/env python3
"""Redis: one server, replicas that are behind, and a failover that loses writes.

    examples/stores/redis.py DIR"""
import shutil
import socket
import sys
from contextlib import closing
from functools import partial
from typing import List, Optional

from harness import (LINEARIZABLE, MOST_SECONDS, NOT_LINEARIZABLE, PATIENCE, Connection, Lab, Scenario,
                     Server, Several, Unanswered, clients, five_users, free_ports, main)
from regkit.record import Recorder  # harness has found it

PROGRAM = shutil.which("redis-server")
LAGS = [0.02, 0.05]  # seconds that the links to two replicas take


class Redis(Connection):
    """A connection that speaks Redis's protocol."""

    def __init__(self, node: str, port: int, patience: float = PATIENCE) -> None:
        self.node = node
        self.socket = socket.create_connection(("127.0.0.1", port), patience)
        self.answers = self.socket.makefile("rb")

    def ask(self, *words: object) -> Optional[bytes]:
        """Sends a command, and gives its answer: a line, or a text of some length."""
        texts = [str(word).encode() for word in words]
        parts = [b"$%d\r\n%b\r\n" % (len(text), text) for text in texts]
        self.socket.sendall(b"*%d\r\n" % len(texts) + b"".join(parts))
        kind, line = self.answers.read(1), self.answers.readline()
        if not line.endswith(b"\r\n"):
            raise ConnectionResetError("the server ended the connection")
        if kind == b"-":
            raise Unanswered(line.decode().strip())
        if kind != b"$":
            return line.rstrip()
        return None if line == b"-1\r\n" else self.answers.read(int(line) + 2)[:-2]

    def read(self, key: str) -> Optional[bytes]:
        return self.ask("GET", key)

    def write(self, key: str, value: int) -> None:
        self.ask("SET", key, value)

    def close(self) -> None:
        self.answers.close()
        self.socket.close()


class Node:
    """A server of its own, or the replica of the one that a port leads to."""

    def __init__(self, lab: Lab, name: str, primary: int = 0) -> None:
        self.name, self.port = name, free_ports(1)[0]
        words = [PROGRAM or "", "--bind", "127.0.0.1", "--port", str(self.port), "--save", "",
                 "--repl-diskless-sync-delay", "0", "--dir", str(lab.new_folder(name))]
        words += ["--replicaof", f"127.0.0.1 {primary}"] if primary else []
        self.server: Server = lab.start(name, words)
        self.server.await_answer(self.in_step if primary else lambda: self.ask("PING"))

    def connect(self) -> Redis:
        return Redis(self.name, self.port)

    def ask(self, *words: object) -> Optional[bytes]:
        with closing(Redis(self.name, self.port, MOST_SECONDS)) as connection:
            return connection.ask(*words)

    def in_step(self) -> None:
        """Raises Unanswered while the replica hasn't its primary's data."""
        if b"master_link_status:up" not in (self.ask("INFO", "replication") or b""):
            raise Unanswered("the replica isn't in step")


def one_server(lab: Lab, recorder: Recorder, seconds: float) -> None:
    node = Node(lab, "redis")
    with clients(recorder, five_users(node.connect, node.connect)) as load:
        load.go_on(seconds)


def replica(lab: Lab, recorder: Recorder, seconds: float) -> None:
    """The replica answers without its primary, as it does by default."""
    network = lab.network()
    primary = Node(lab, "primary")
    second = Node(lab, "replica", network.link(primary.port))
    with clients(recorder, five_users(primary.connect, second.connect)) as load:
        load.go_on(seconds / 3)
        network.cut()
        load.go_on(seconds / 3)
        network.heal()
        load.go_on(seconds / 3)


def behind(lab: Lab, recorder: Recorder, seconds: float, is_sticky: bool) -> None:
    """Two replicas are behind by the time that their links take. Each client keeps to one of them, or reads
    from any."""
    network = lab.network()
    primary = Node(lab, "primary")
    replicas = [Node(lab, f"replica-{number}", network.link(primary.port, lag))
                for number, lag in enumerate(LAGS, 1)]

    def connect(read: List[Node]) -> Several:
        return Several([primary.connect()], [node.connect() for node in read])

    users = [user._replace(connect=partial(connect, [replicas[place % 2]] if is_sticky else replicas))
             for place, user in enumerate(five_users(primary.connect, primary.connect))]
    with clients(recorder, users) as load:
        load.go_on(seconds)


def sticky(lab: Lab, recorder: Recorder, seconds: float) -> None:
    behind(lab, recorder, seconds, is_sticky=True)


def roaming(lab: Lab, recorder: Recorder, seconds: float) -> None:
    behind(lab, recorder, seconds, is_sticky=False)


def failover(lab: Lab, recorder: Recorder, seconds: float) -> None:
    """The primary confirms writes that the replica hasn't got, and is killed."""
    network = lab.network()
    primary = Node(lab, "primary")
    second = Node(lab, "replica", network.link(primary.port))
    current = [primary]

    def connect() -> Redis:
        return current[-1].connect()

    with clients(recorder, five_users(connect, connect)) as load:
        load.go_on(seconds / 3)
        network.cut()
        load.go_on(seconds / 6)
        primary.server.stop()
        second.ask("REPLICAOF", "NO", "ONE")
        current.append(second)
        load.go_on(seconds / 2)


SCENARIOS = [
    Scenario("one-server", "all calls go to one server", LINEARIZABLE, one_server),
    Scenario("replica", "reads go to a replica, which loses its primary for a while", NOT_LINEARIZABLE,
             replica),
    Scenario("sticky", "each client writes to the primary, and reads from one replica, which is behind",
             NOT_LINEARIZABLE, sticky),
    Scenario("roaming", "the same, but each read goes to any of two replicas", NOT_LINEARIZABLE, roaming),
    Scenario("failover", "the replica is behind when the primary is killed, and takes over", NOT_LINEARIZABLE,
             failover)]

if __name__ == "__main__":
    sys.exit(main("redis", __doc__, "redis-server", [PROGRAM], SCENARIOS))
