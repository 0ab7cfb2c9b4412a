#!/usr/bin/env python3
"""etcd: linearizable and serializable reads from a cluster of three, one of which is cut off for a while.

    examples/stores/etcd.py DIR"""
import base64
import http.client
import json
import shutil
import sys
from contextlib import closing
from functools import partial
from typing import Any, Dict, NamedTuple, Optional, Tuple

from harness import (KEYS, LINEARIZABLE, MOST_SECONDS, NOT_LINEARIZABLE, PATIENCE, Connection, Lab, Scenario,
                     Server, Several, Unanswered, User, clients, five_users, free_ports, main)
from regkit.record import Recorder  # harness has found it

PROGRAM = shutil.which("etcd")
DELAY = 0.05  # seconds that links between nodes take, where clients read from any node


def encoded(text: str) -> str:
    return base64.b64encode(text.encode()).decode()


class Etcd(Connection):
    """A connection to a node's JSON gateway. A serializable read is answered by the node alone."""

    def __init__(self, node: str, port: int, serializable: bool, patience: float = PATIENCE) -> None:
        self.node = node
        self.http = http.client.HTTPConnection("127.0.0.1", port, timeout=patience)
        self.serializable = serializable

    def ask(self, path: str, **members: object) -> Dict[str, Any]:
        """Sends a request with some members, and gives those of the answer."""
        try:
            self.http.request("POST", f"/v3/{path}", json.dumps(members).encode())
            answer = self.http.getresponse()
            told: Dict[str, Any] = json.loads(answer.read())
        except (http.client.HTTPException, ValueError) as error:
            raise Unanswered(repr(error)) from error
        if answer.status != 200:
            raise Unanswered(f"{answer.status} {told.get('error')}")
        return told

    def read(self, key: str) -> Optional[bytes]:
        found = self.ask("kv/range", key=encoded(key), serializable=self.serializable).get("kvs")
        return base64.b64decode(found[0]["value"]) if found else None

    def write(self, key: str, value: int) -> None:
        self.ask("kv/put", key=encoded(key), value=encoded(str(value)))

    def close(self) -> None:
        self.http.close()


class Node(NamedTuple):
    """A node, the ports where it listens to clients and to other nodes, and the link that those take."""

    name: str
    port: int
    peer: int
    link: str

    def connect(self, serializable: bool = False) -> Etcd:
        return Etcd(self.name, self.port, serializable)

    def ask(self, path: str, **members: object) -> Dict[str, Any]:
        with closing(Etcd(self.name, self.port, False, MOST_SECONDS)) as connection:
            return connection.ask(path, **members)

    def status(self) -> Tuple[int, int]:
        """Which member of the cluster it is, and which one leads."""
        told = self.ask("maintenance/status")
        return int(told["header"]["member_id"]), int(told["leader"])

    def start(self, lab: Lab, members: str) -> Server:
        own = f"http://127.0.0.1:{self.port}"
        options = {"name": self.name, "data-dir": lab.new_folder(self.name), "initial-cluster": members,
                   "listen-client-urls": own, "advertise-client-urls": own,
                   "listen-peer-urls": f"http://127.0.0.1:{self.peer}",
                   "initial-advertise-peer-urls": self.link,
                   "pre-vote": "true"}  # a node that was cut off doesn't stop the others when it is back
        words = [f"--{option}={value}" for option, value in options.items()]
        return lab.start(self.name, [PROGRAM or "", *words])


class Cluster:
    """Three nodes, which reach each other by links of a network alone."""

    def __init__(self, lab: Lab, delay: float = 0) -> None:
        self.network = lab.network()
        ports = free_ports(6)
        self.nodes = [Node(f"etcd-{number}", port, peer, f"http://127.0.0.1:{self.network.link(peer, delay)}")
                      for number, port, peer in zip((1, 2, 3), ports[:3], ports[3:])]
        members = ",".join(f"{node.name}={node.link}" for node in self.nodes)
        for node, server in [(node, node.start(lab, members)) for node in self.nodes]:
            server.await_answer(partial(node.ask, "kv/range", key=encoded(KEYS[0])))

    def follower(self) -> Node:
        """A node that doesn't lead. Without it, the others go on at once."""
        told = {node: node.status() for node in self.nodes}
        return next(node for node, (member, leader) in told.items() if member != leader)

    def cut_off(self, alone: Node) -> None:
        """Lets only the other nodes reach each other. In a request's head, each says which member it is."""
        others = [b"X-Server-From: %x\r\n" % node.status()[0] for node in self.nodes if node != alone]
        self.network.cut(lambda port, head: port == alone.peer or not any(other in head for other in others))


def cut_off(lab: Lab, recorder: Recorder, seconds: float, serializable: bool) -> None:
    """Each client keeps to one node, and those that write to the nodes that aren't cut off."""
    cluster = Cluster(lab)
    alone = cluster.follower()
    others = [node for node in cluster.nodes if node != alone]
    writers = [User(f"writer-{key}", partial(node.connect, serializable), key)
               for node, key in zip(others, KEYS)]
    readers = [User(f"reader-{number}", partial(node.connect, serializable))
               for number, node in enumerate(cluster.nodes, 1)]
    with clients(recorder, writers + readers) as load:
        load.go_on(seconds / 3)
        cluster.cut_off(alone)
        load.go_on(seconds / 3)
        cluster.network.heal()
        load.go_on(seconds / 3)


def linearizable(lab: Lab, recorder: Recorder, seconds: float) -> None:
    cut_off(lab, recorder, seconds, serializable=False)


def serializable(lab: Lab, recorder: Recorder, seconds: float) -> None:
    cut_off(lab, recorder, seconds, serializable=True)


def roaming(lab: Lab, recorder: Recorder, seconds: float) -> None:
    """What a node has, the others have only after the time that their links take."""
    cluster = Cluster(lab, DELAY)

    def connect() -> Several:
        nodes = [node.connect(serializable=True) for node in cluster.nodes]
        return Several(nodes, nodes)

    with clients(recorder, five_users(connect, connect)) as load:
        load.go_on(seconds)


SCENARIOS = [
    Scenario("linearizable", "reads as they are by default; a node is cut off for a while", LINEARIZABLE,
             linearizable),
    Scenario("serializable", "the same with serializable reads", NOT_LINEARIZABLE, serializable),
    Scenario("roaming", "each serializable read goes to any node, and the links are slow", NOT_LINEARIZABLE,
             roaming)]

if __name__ == "__main__":
    sys.exit(main("etcd", __doc__, "etcd-server", [PROGRAM], SCENARIOS))
