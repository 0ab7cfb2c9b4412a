"""Histories for the pages that `picture_test` looks at. They are always the same, so that pages can be
compared."""
import json
import pathlib
import random
from typing import Any, Callable, Dict, List, NamedTuple, Optional, Tuple

ROOT = pathlib.Path(__file__).resolve().parent.parent
HOSTILE = ["</title><script>document.title='taken'</script>", "</svg></style><style>*{display:none}</style>",
           "a\"b'c&d<e>&lt;f", "\u202egnp.exe\u202c", "\u05d0\u05d1\u05d2 1 2 3",
           "\u0627\u0644\u0639\u0631\u0628\u064a\u0629 4", "nul\u0000 bell\u0007 escape\u001b[31m red",
           "line\nbreak\ttab", "  two spaces  ", "a" + "".join(map(chr, range(0x0301, 0x0320))),
           "\u2066isolate \u200f mark \ufeff", "w" * 255, "<!--", "]]>", "\\u202e"]


class Case(NamedTuple):
    """A history, and a report of its own if the checker can't give one."""

    history: bytes
    report: Optional[bytes]
    faulty: bool


class Run:
    """Clients of one register, recorded. Each operation takes effect at some moment while it is open."""

    def __init__(self, seed: int, processes: int, writers: Optional[int] = None) -> None:
        self.chance = random.Random(seed)
        self.processes = processes
        self.writers = processes if writers is None else writers
        self.lines: List[str] = []
        self.open: Dict[int, Dict[str, Any]] = {}
        self.value: Optional[int] = None
        self.written = 0

    def emit(self, **members: Any) -> None:
        self.lines.append(json.dumps(members, separators=(",", ":")))

    def call(self, process: int) -> None:
        if process < self.writers and self.chance.random() < 0.4:
            self.written += 1
            self.open[process] = {"write": self.written}
            self.emit(process=process, event="call", op="write", register="balance", value=self.written)
            return
        self.open[process] = {}
        self.emit(process=process, event="call", op="read", register="balance")

    def take_effect(self, process: int) -> None:
        operation = self.open[process]
        if "done" not in operation:
            operation["done"] = True
            self.value = operation.get("write", self.value)
            operation["gave"] = self.value

    def reply(self, process: int, gave: Optional[int] = None) -> None:
        self.take_effect(process)
        operation = self.open.pop(process)
        if "write" in operation:
            self.emit(process=process, event="reply")
        else:
            self.emit(process=process, event="reply", value=operation["gave"] if gave is None else gave)

    def go_on(self, events: int) -> None:
        """Runs until there are so many lines."""
        while len(self.lines) < events:
            process = self.chance.randrange(self.processes)
            if process not in self.open:
                self.call(process)
            elif self.chance.random() < 0.5:
                self.reply(process)
            else:
                self.take_effect(process)

    def stale_read(self, value: int) -> None:
        """A read of a value that was overwritten long ago."""
        process = next(each for each in range(self.processes) if "write" not in self.open.get(each, {}))
        if process not in self.open:
            self.open[process] = {}
            self.emit(process=process, event="call", op="read", register="balance")
        self.reply(process, value)

    def history(self) -> bytes:
        return ("\n".join(self.lines) + "\n").encode("ascii")


def atomic() -> Case:
    run = Run(seed=1, processes=4)
    run.go_on(160)
    return Case(run.history(), None, False)


def long_atomic() -> Case:
    """More operations than are drawn, by more processes than there are lanes for."""
    run = Run(seed=6, processes=30)
    run.go_on(4000)
    return Case(run.history(), None, False)


def two_hundred() -> Case:
    run = Run(seed=2, processes=5)
    for place in (180, 260, 330):
        run.go_on(place)
        run.stale_read(run.written - 8)
    run.go_on(400)
    return Case(run.history(), None, True)


def far(events: int, seed: int) -> Case:
    """A value that comes back when half of the history has gone by."""
    run = Run(seed, processes=4)
    run.go_on(events // 4)
    value = run.written - 1
    run.go_on(events * 3 // 4)
    run.stale_read(value)
    run.go_on(events)
    return Case(run.history(), None, True)


def hundred_processes() -> Case:
    run = Run(seed=5, processes=100)
    run.go_on(3000)
    run.stale_read(run.written - 300)
    run.go_on(6000)
    return Case(run.history(), None, True)


def lines_of(*events: Tuple[Any, ...]) -> bytes:
    """Events as (process, event, members)."""
    lines = [{"process": process, "event": event, **(rest[0] if rest else {})}
             for process, event, *rest in events]
    return b"".join(json.dumps(line).encode("utf-8") + b"\n" for line in lines)


def write(value: int, register: str = "x") -> Dict[str, Any]:
    return {"op": "write", "register": register, "value": value}


def read(register: str = "x") -> Dict[str, Any]:
    return {"op": "read", "register": register}


def hostile() -> Case:
    events: List[Tuple[Any, ...]] = []
    for name in HOSTILE:
        events += [(1, "call", write(1, name)), (1, "reply"),
                   (2, "call", read(name)), (2, "reply", {"value": None})]
    return Case(lines_of(*events), None, True)


def endings() -> Case:
    """Pending calls, a failed write and read, a crash in the midst of a write, and one of an idle process."""
    history = lines_of(
        (1, "call", write(1)), (1, "reply"), (2, "call", write(2)), (3, "call", read()), (2, "fail"),
        (3, "reply", {"value": 1}), (4, "call", write(3)), (1, "call", write(4)), (3, "call", read()),
        (4, "crash"), (3, "reply", {"value": 3}), (2, "call", read()), (2, "fail"), (5, "call", write(5)),
        (2, "call", read()), (2, "reply", {"value": 1}), (6, "call", read()), (2, "crash"),
        (3, "call", read()), (3, "reply", {"value": 3}))
    fault = {"first": [1, 19], "kind": "zones", "second": [9, 15], "writes": [1, 7]}
    row = {"atomic": "no", "fault": fault, "pending": 4, "reads": 5, "register": "x",
           "regular": "several writers", "safe": "several writers", "writes": 4}
    report = [row, {"atomic": "no", "operations": 9, "registers": 1}]
    return Case(history, b"".join(json.dumps(line).encode("ascii") + b"\n" for line in report), True)


def large_numbers() -> Case:
    """Values and processes as long as they may be."""
    one, two, process = 9223372036854775807, -9223372036854775808, 4294967295
    other = process - 1
    return Case(lines_of((process, "call", write(one)), (process, "reply"), (process, "call", write(two)),
                         (other, "call", read()), (other, "reply", {"value": two}), (process, "reply"),
                         (other, "call", read()), (other, "reply", {"value": one})), None, True)


def many_registers() -> Case:
    events: List[Tuple[Any, ...]] = []
    for number in range(40):
        name = f"user:{number}"
        events += [(1, "call", write(1, name)), (1, "reply"), (2, "call", read(name)),
                   (2, "reply", {"value": None if number % 2 else 1})]
    return Case(lines_of(*events), None, True)


def crowd() -> Case:
    """More operations open at once than there are lanes, and a contradiction in their midst."""
    events: List[Tuple[Any, ...]] = [(process, "call", write(process)) for process in range(10, 70)]
    events += [(1, "call", write(1)), (1, "reply"), (2, "call", write(2)), (2, "reply"), (3, "call", read()),
               (3, "reply", {"value": 1})]
    return Case(lines_of(*events, *[(process, "reply") for process in range(10, 70)]), None, True)


def unwritten() -> Case:
    """A value that was written to another register."""
    return Case(lines_of((1, "call", write(1)), (1, "reply"), (1, "call", write(7, "y")), (2, "call", read()),
                         (2, "reply", {"value": 7}), (1, "reply")), None, True)


def many_pending() -> Case:
    """Hundreds of calls that were never answered, each by its own process, and a contradiction after them."""
    events: List[Tuple[Any, ...]] = []
    for number in range(300):
        events += [(10 + number, "call", write(100 + number) if number % 2 else read())]
        events += [(1, "call", read()), (1, "reply", {"value": None})]
    events += [(1, "call", write(1)), (1, "reply"), (2, "call", write(2)), (2, "reply"), (3, "call", read()),
               (4, "call", write(3)), (3, "reply", {"value": 1}), (4, "reply")]
    return Case(lines_of(*events), None, True)


def example(name: str, faulty: bool) -> Case:
    return Case((ROOT / "examples" / f"{name}.jsonl").read_bytes(), None, faulty)


def cases() -> Dict[str, Callable[[], Case]]:
    """All pages, by name."""
    return {
        "small_fault": lambda: example("new_old_inversion", True),
        "early": lambda: example("early_read", True), "unwritten": unwritten,
        "two_hundred": two_hundred, "far_100000": lambda: far(100_000, 3),
        "far_1000000": lambda: far(1_000_000, 4), "hostile_names": hostile,
        "hundred_processes": hundred_processes,
        "atomic": atomic, "two_registers": lambda: example("merged_order", False), "endings": endings,
        "many_pending": many_pending, "large_numbers": large_numbers, "many_registers": many_registers,
        "crowd": crowd, "long_atomic": long_atomic}
