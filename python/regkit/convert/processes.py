"""The clients as processes, which have at most one open call each."""
import heapq
from typing import NamedTuple

from regkit.base.limits import MAX_PROCESS
from regkit.convert.model import Client, Source, SourceOperation


class Given(NamedTuple):
    """What was renamed."""

    renamed: int  # clients whose number isn't their own, since they have none or none that fits
    split: int  # operations that got another process of their client, since one was busy


class _Clients:
    """The processes of each client, and which of them are free."""

    def __init__(self, taken: set[Client]) -> None:
        self.taken = taken  # the clients that are numbers
        self.next = 0
        self.processes: dict[Client, list[int]] = {}
        self.free: dict[Client, list[int]] = {}  # by client, a heap of places in its list of processes

    def fresh(self) -> int:
        """The lowest number that nobody has had."""
        while self.next in self.taken:
            self.next += 1
        self.next += 1
        return self.next - 1

    def take(self, client: Client) -> int:
        """The place of the first process of the client that is free; a new one if none is."""
        free = self.free.setdefault(client, [])
        if free:
            return heapq.heappop(free)
        mine = self.processes.setdefault(client, [])
        mine.append(client if not mine and _is_number(client) else self.fresh())  # type: ignore[arg-type]
        return len(mine) - 1


def _is_number(client: Client) -> bool:
    return type(client) is int and 0 <= client <= MAX_PROCESS


def give_processes(source: Source) -> Given:
    """Gives each operation the first process of its client that is free.

    A client keeps its own number if it is one. A process is free again after a reply or a failure. After a
    crash or an unknown outcome it never is.
    """
    clients = _Clients({step.client for step in source.steps if _is_number(step.client)})
    places: dict[SourceOperation, int] = {}
    split = 0
    for operation, is_call in source.moments():
        if is_call:
            place = clients.take(operation.client)
            operation.process = clients.processes[operation.client][place]
            split += place > 0
            places[operation] = place
        elif operation.ending != "crash":
            heapq.heappush(clients.free[operation.client], places.pop(operation))
    return Given(sum(not _is_number(client) for client in clients.processes), split)
