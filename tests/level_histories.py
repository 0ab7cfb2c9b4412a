"""Random histories of up to 8 operations by up to 3 processes on up to 2 registers, with distinct values and
old reads of all kinds, for tests.

A history is a function of its seed. The store is that of tests/histories.py, but most of its reads may be
old: by how much, and in which sessions and registers, is random. So are calls without a reply, fails and
crashes. Some lines are odd, and some wrong, as there.
"""
import random
from typing import Optional

import histories
from histories import Call, Line

MOST = 8  # operations
NOBODYS = 99  # a value that is never written


class OldStore(histories.Store):
    """A store whose copies are behind, each by its own number of writes of each register."""

    def __init__(self, chance: random.Random) -> None:
        super().__init__(chance, True)
        self.registers = ["x", "y"][:chance.choice([1, 1, 2, 2, 2])]
        self.values = {register: None for register in self.registers}
        self.written = {register: 0 for register in self.registers}
        self.processes = chance.choice([1, 2, 2, 3, 3, 3])
        self.single = chance.random() < 0.25
        self.lies = 0
        self.calls = chance.choice([3, 4, 5, 6, 7, MOST, MOST, MOST])
        self.is_old = chance.random() < 0.85
        self.is_same = chance.random() < 0.3  # whether a process is always as far behind
        self.behind = [{register: chance.choice([0, 1, 1, 2, 3]) for register in self.registers}
                       for _ in range(self.processes)]
        self.has_news = len(self.registers) == 2 and chance.random() < 0.4
        if self.has_news:
            self.be_late_with_x(chance)
        self.odd = chance.choice([0, 0, 0, 0.1])  # how often a read gives what isn't written yet, or never is
        self.left = chance.choice([0, 0, 0, 0.05, 0.2])  # how often a process leaves its open call

    def be_late_with_x(self, chance: random.Random) -> None:
        """Process 1 mostly writes, and the others mostly read. They see all of y and the rest late, so that
        they learn by y of what they don't see in x."""
        self.calls, self.processes = MOST, chance.choice([2, 2, 3])
        self.is_old = self.is_same = True
        self.behind = [{"x": chance.choice([1, 1, 2]), "y": 0} for _ in range(self.processes)]

    def writes(self, process: int) -> bool:
        if not self.has_news:
            return super().writes(process)
        return self.chance.random() < (0.9 if process == 1 else 0.15)

    def call(self, process: int) -> None:
        if self.calls:
            self.calls -= 1
            super().call(process)

    def take_effect(self, call: Call) -> None:
        if self.is_old and call.write is None and not call.done:
            call.done, call.value = True, self.old_value(call.line)
        super().take_effect(call)

    def old_value(self, read: Line) -> Optional[int]:
        newest = self.written[read["register"]]
        if self.chance.random() < self.odd:
            return self.chance.choice([newest + 1, newest + 1, NOBODYS])
        most = self.behind[read["process"] - 1][read["register"]]
        number = newest - (most if self.is_same else self.chance.randint(0, most))
        return number if number > 0 else None

    def end(self, process: int) -> None:
        if self.chance.random() < self.left:
            self.crashed.add(process)  # nothing more is heard of it
        else:
            super().end(process)


def random_history(seed: int) -> bytes:
    chance = random.Random(f"levels {seed}")
    store = OldStore(chance)
    for _ in range(8 * MOST):
        store.step()
    histories.reorder(chance, store.lines)
    return histories.input_of(chance, store.lines, 0.1)
