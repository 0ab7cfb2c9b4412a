"""The clusters of a register, and orders built of them. Nothing rests on how, since each order is checked."""
from bisect import bisect_left
from collections import deque
from typing import Iterator, NamedTuple, Optional

from regkit.verify.guarantees import Guarantee, Places, check_order
from regkit.verify.operations import Operation
from regkit.verify.register import Register
from regkit.verify.rows import Lines, Wrong, need


class Cluster(NamedTuple):
    """A write with the completed reads of its value, by their calls."""

    write: Operation
    reads: list[Operation]

    @property
    def operations(self) -> list[Operation]:
        return [self.write, *self.reads]

    @property
    def first_reply(self) -> Operation:
        return min(self.operations, key=lambda a: a.end)

    @property
    def last_call(self) -> int:
        return max(a.line for a in self.operations)


def clusters_of(register: Register) -> list[Cluster]:
    """Those of the writes that were completed or read, the initial one first. Each read needs its write."""
    found = {value: Cluster(write, []) for value, write in register.write_of.items()}
    for read in register.completed_reads:
        need(read.value in found, f"nobody wrote the value of line {read.line}")
        found[read.value].reads.append(read)
    return [cluster for cluster in found.values() if cluster.write.completed or cluster.reads]


def lines_of_clusters(clusters: list[Cluster]) -> Lines:
    return [a.line for cluster in clusters for a in cluster.operations if a.line]


def check_kept(register: Register, guarantee: Guarantee, places: Places) -> None:
    """Builds an order that keeps a guarantee, and checks it. Raises Wrong if it finds none."""
    clusters = clusters_of(register)
    ordered = by_time(clusters, guarantee, places) if guarantee.all_before_reads else (
        by_sessions(register, clusters, guarantee))
    check_order(register, lines_of_clusters(ordered), guarantee, places)


def by_time(clusters: list[Cluster], guarantee: Guarantee, places: Places) -> list[Cluster]:
    """By the first reply, or by the reply before which all that must come before the cluster has ended,
    whichever is first."""
    def key(cluster: Cluster) -> tuple[int, bool]:
        reply = places[int(cluster.first_reply.end)]
        latest = max(places[cluster.write.line], places[cluster.last_call] - max(guarantee.age - 1, 0))
        return min(reply, latest), reply < latest

    return sorted(clusters, key=key)


# ---- By sessions: a graph

Edges = dict[int, list[int]]  # from a node to others; the clusters are the first nodes


def by_sessions(register: Register, clusters: list[Cluster], guarantee: Guarantee) -> list[Cluster]:
    """The clusters in an order in which each edge leads forward. Raises Wrong if there is none."""
    edges: Edges = {}
    for one, other in session_edges(register, clusters, guarantee):
        edges.setdefault(one, []).append(other)
    timed = time_edges(clusters) if guarantee.all_before_writes else ((0, k) for k in range(1, len(clusters)))
    for one, other in timed:
        edges.setdefault(one, []).append(other)
    order = sorted_nodes(2 * len(clusters), edges)
    if order is None:
        raise Wrong("each order of its writes breaks it")
    return [clusters[node] for node in order if node < len(clusters)]


def session_edges(register: Register, clusters: list[Cluster],
                  guarantee: Guarantee) -> Iterator[tuple[int, int]]:
    """From the last write and the last read of a session to what comes next in it: those before them come
    before these."""
    number = {a.line: place for place, cluster in enumerate(clusters) for a in cluster.operations}
    last: dict[tuple[Optional[int], bool], int] = {}
    for b in register.operations:
        if b.line not in number:
            continue
        own = number[b.line]
        for is_write in (True, False):
            before = last.get((b.process, is_write), own)
            if guarantee.keeps_own(is_write) and before != own:
                yield before, own
        last[b.process, b.is_write] = own


def time_edges(clusters: list[Cluster]) -> Iterator[tuple[int, int]]:
    """From each cluster to those whose write began after its first reply, by a chain of further nodes: the
    node behind the first k replies leads to the writes that begin after these."""
    count = len(clusters)
    ranked = sorted((cluster.first_reply.end, place) for place, cluster in enumerate(clusters))
    replies = [reply for reply, _ in ranked]
    for rank, (_, place) in enumerate(ranked):
        yield place, count + rank
        if rank:
            yield count + rank - 1, count + rank
    for place, cluster in enumerate(clusters):
        earlier = bisect_left(replies, cluster.write.line)
        if earlier:
            yield count + earlier - 1, place


def sorted_nodes(count: int, edges: Edges) -> Optional[list[int]]:
    """The nodes in an order in which each edge leads forward; None if there is a cycle."""
    entering = [0] * count
    for others in edges.values():
        for other in others:
            entering[other] += 1
    ready = deque(node for node in range(count) if not entering[node])
    order = []
    while ready:
        node = ready.popleft()
        order.append(node)
        for other in edges.get(node, ()):
            entering[other] -= 1
            if not entering[other]:
                ready.append(other)
    return order if len(order) == count else None
