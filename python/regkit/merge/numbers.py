"""The process numbers of a merged history.

Each process of each file gets a number of its own, file by file and by their numbers there. If the merged
history has a call of a process before the reply to its last one, that call gets another number: that of an
earlier such call of the process which is free again, or a new one.
"""
import heapq
from collections import deque
from typing import Deque, Sequence

from regkit.merge.recorded import Recorded, RecordedEvent


class Process:
    """The numbers of one process of a file."""

    def __init__(self, own: int) -> None:
        self.own = own
        self.free: list[int] = [own]  # a heap
        self.open: Deque[int] = deque()  # of its open calls, in the order in which they end


class Numbers:
    """Gives each event its process number."""

    def __init__(self, files: Sequence[Recorded]) -> None:
        self.processes: dict[tuple[int, int], Process] = {}
        for number, file in enumerate(files):
            for process in file.processes:
                self.processes[number, process] = Process(len(self.processes) + 1)
        self.last = len(self.processes)
        self.moved = 0  # calls that got another number than their process's own

    def number(self, file: int, event: RecordedEvent) -> int:
        process = self.processes[file, event.process]
        if event.what == "call":
            number = heapq.heappop(process.free) if process.free else self._new()
            self.moved += number != process.own
            process.open.append(number)
            return number
        if event.what == "crash":
            return process.open[0] if process.open else process.own
        number = process.open.popleft()
        heapq.heappush(process.free, number)
        return number

    def _new(self) -> int:
        self.last += 1
        return self.last
