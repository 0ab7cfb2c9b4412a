"""Random histories of a few operations, for tests: a small store is run at random, and its clients recorded.

A history is a function of its seed. Some stores are sound and others lie now and then, so that there are
atomic histories and faults of each kind. Mostly the values that are written ascend, as from a counter. Some
lines are odd, and some wrong, so that each refusal comes up.
"""
import json
import random
from typing import Any, Dict, List, Optional, Set

Line = Dict[str, Any]


class Call:
    """An open call, and what it has done to the store so far."""

    def __init__(self, line: Line, write: Optional[int]) -> None:
        self.line = line
        self.write = write  # the value that a write writes; None for a read
        self.done = False
        self.value: Optional[int] = None  # what a read will give


class Store:
    """Registers with clients that call at random. Each open call takes effect at a random moment."""

    def __init__(self, chance: random.Random, fails: bool) -> None:
        self.chance = chance
        self.fails = fails
        self.registers = ["x", "y", "\u00e4 \"\\\t"][:chance.choice([1, 1, 1, 2, 2, 3])]
        self.processes = chance.choice([1, 2, 2, 3, 3, 4])
        self.single = chance.random() < 0.5  # only process 1 writes
        self.lies = chance.choice([0, 0, 0.1, 0.4])  # how often a read gives some other value
        self.weak = chance.random() < 0.4  # a read gives the old value or that of an open write, at random
        self.hasty = chance.choice([0.2, 0.5, 0.9])  # how often a process ends its open call when it can
        self.values: Dict[str, Optional[int]] = {register: None for register in self.registers}
        self.written = {register: 0 for register in self.registers}
        self.open: Dict[int, Call] = {}
        self.crashed: Set[int] = set()
        self.lines: List[Line] = []

    def step(self) -> None:
        for call in list(self.open.values()):
            if not self.weak and self.chance.random() < 0.3:
                self.take_effect(call)
        process = self.chance.randint(1, self.processes)
        if process in self.crashed:
            return
        if process not in self.open:
            self.call(process)
        elif self.chance.random() < self.hasty:
            self.end(process)
        if self.fails and self.chance.random() < 0.01:
            self.crash(process)

    def take_effect(self, call: Call) -> None:
        register = call.line["register"]
        if call.done:
            return
        call.done = True
        if call.write is not None:
            self.values[register] = call.write
        elif self.chance.random() < self.lies:
            call.value = self.lie(self.written[register])
        else:
            calls = self.open.values() if self.weak else []
            writes = [other.write for other in calls if other.write and other.line["register"] == register]
            call.value = self.chance.choice([self.values[register], *writes])

    def lie(self, written: int) -> Optional[int]:
        """Mostly an older value; else that of the next write, or one that nobody writes."""
        what = self.chance.random()
        if what < 0.7:
            return self.chance.choice([None, *range(max(1, written - 2), written + 1)])
        return written + 1 if what < 0.85 else 99

    def call(self, process: int) -> None:
        register = self.chance.choice(self.registers)
        line: Line = {"process": process, "event": "call", "op": "read", "register": register}
        write = None
        if self.writes(process):
            self.written[register] += 1
            line["op"], write = "write", self.written[register]
            line["value"] = write
        elif self.chance.random() < 0.1:
            line["value"] = None
        self.open[process] = Call(line, write)
        self.lines.append(line)

    def writes(self, process: int) -> bool:
        """Whether its next call is a write."""
        return self.chance.random() < 0.45 and (process == 1 or not self.single)

    def end(self, process: int) -> None:
        call = self.open.pop(process)
        may_fail = self.fails and (not call.done or self.chance.random() < self.lies)
        failed = may_fail and self.chance.random() < 0.1
        line: Line = {"process": process, "event": "fail" if failed else "reply"}
        if not failed:
            self.take_effect(call)
        if call.write is None and not failed:
            line["value"] = call.value
        elif self.chance.random() < 0.1:
            line["value"] = self.chance.choice([None, call.write])
        for member in ("op", "register"):
            if self.chance.random() < 0.1:
                line[member] = call.line[member]
        self.lines.append(line)

    def crash(self, process: int) -> None:
        self.open.pop(process, None)
        self.crashed.add(process)
        self.lines.append({"process": process, "event": "crash"})


def reorder(chance: random.Random, lines: List[Line]) -> None:
    """Mostly leaves the values as they are: those of a register's writes ascend. Else they descend, or
    stand in no order."""
    order = chance.choice(["ascending", "ascending", "descending", "none"])
    for line in lines:
        value = line.get("value")
        if value is not None and order == "descending":
            line["value"] = -value
        elif value is not None and order == "none":
            line["value"] = value * 37 % 101


# What may stand in a member of a wrong line; most of it is of no form, some is a form of another member.
WRONG: Dict[str, List[Any]] = {
    "process": [None, -1, 1.0, 1e0, "1", 4294967296, 4294967295, True, [], 0],
    "event": [None, "Call", "invoke", "ok", 5, True, [], "reply", "call"],
    "op": [None, "cas", "Read", 7, False, {}, "read", "write"],
    "register": [None, "", "z" * 255, "z" * 256, "\u00e4" * 128, 3, [], "y", "x"],
    "value": [None, 1.0, "5", True, [], {}, 2**63 - 1, 2**63, -2**63, -2**63 - 1, 2**64, 10**30, 1, 0],
}

# Texts that take the place of a whole line.
NO_EVENTS = ["", " \t\r", "[]", "null", "5", "{", "{}", "\x0b", "\u00a0", "nul", "\ufeff{}", "NaN", "'a'",
             "[1,]", '{"a":Infinity}', '{"process":1,}', '{"process":-0,"event":"reply"}',
             '{"process":1,"event":"reply","clock":1e999}', '{"process":1,"event":"reply","z":"\\ud800"}',
             '{"process":1,"event":"reply","z":"\\ud83d\\ude00","z":01}', '{"process":1,"event":"reply"} {}',
             '{"process":1,"event":"reply","z":"\x01"}', '{"process":1,"event":"reply","\\ud800":1,"z":1}',
             '{"z":"\\udc00","z":1,"process":1,"event":"reply"}',
             '{"process":1,"event":"reply","z":' + "9" * 400 + "}",
             '{"process":1,"event":"reply","z":' + "[" * 126 + "]" * 126 + "}",
             '{"process":1,"event":"reply","z":' + "[" * 127 + "]" * 127 + "}",
             '{"process":1,"event":"reply","z":' + "[" * 2000 + "]" * 2000 + "}"]


def spoil(chance: random.Random, lines: List[Line], forms: Dict[str, List[Any]]) -> None:
    """Makes one line wrong, or at least strange, if there is one."""
    if not lines:
        return
    line = chance.choice(lines)
    what = chance.random()
    writes = [other for other in lines if other.get("op") == "write" and other.get("event") == "call"]
    if what < 0.15 and writes:
        chance.choice(writes)["value"] = chance.choice(writes).get("value")
    elif what < 0.25:
        lines.append({"process": line.get("process"), "event": chance.choice(["reply", "fail", "crash"])})
    elif what < 0.4:
        line.pop(chance.choice(list(line)))
    elif what < 0.75:
        member = chance.choice(list(forms))
        line[member] = chance.choice(forms[member])
    elif what < 0.85:
        lines.insert(chance.randrange(len(lines) + 1), dict(line))
    elif what < 0.92:
        lines.remove(line)
    else:
        other = chance.choice(lines)
        line["process"], other["process"] = other.get("process"), line.get("process")


def text_of(chance: random.Random, line: Line) -> str:
    """A line as JSON, now and then written in another of the ways in which it can be."""
    members = list(line.items())
    if chance.random() < 0.1:
        chance.shuffle(members)
    if chance.random() < 0.05:
        members.append(("clock", chance.choice([1.5, "\U0001f600", [{"process": 7}], {"event": None}])))
    tight = chance.random() < 0.8
    separators = (",", ":") if tight else None
    text = json.dumps(dict(members), ensure_ascii=chance.random() < 0.5, separators=separators)
    if chance.random() < 0.02:
        text = '{"process":"first",' + text[1:]
    if chance.random() < 0.03:
        text = chance.choice([" ", "\t"]) + text + chance.choice([" ", "\r", " \t\r"])
    if chance.random() < 0.001:
        text = text.ljust(chance.choice([65535, 65536, 65537]))
    return text


def random_history(seed: int, fails: bool = True) -> bytes:
    """The history of a seed: 2 to 24 events by 1 to 4 processes on 1 to 3 registers. Most are accepted."""
    chance = random.Random(seed)
    store = Store(chance, fails)
    events = max(chance.randint(2, 24), chance.randint(2, 24))
    for _ in range(4 * events):
        if len(store.lines) < events:
            store.step()
    reorder(random.Random(f"order {seed}"), store.lines)
    return input_of(chance, store.lines)


def input_of(chance: random.Random, lines: List[Line], share: float = 0.3,
             forms: Dict[str, List[Any]] = WRONG) -> bytes:
    """The lines as an input, a share of which is spoiled; these forms may then stand in members."""
    wrong = bool(lines) and chance.random() < share
    if wrong:
        for _ in range(chance.choice([1, 1, 2])):
            spoil(chance, lines, forms)
    texts = [text_of(chance, line) for line in lines]
    if wrong and chance.random() < 0.2 and texts:
        texts[chance.randrange(len(texts))] = chance.choice(NO_EVENTS)
    for _ in range(chance.choice([0, 0, 0, 1, 3])):
        texts.insert(chance.randrange(len(texts) + 1), chance.choice(["", "", " ", "\r", "\t "]))
    end = chance.choice(["\n", "\n", "\n", "\r\n"])
    whole = end.join(texts) + chance.choice([end, end, ""])
    data = whole.encode("utf-8")
    if wrong and chance.random() < 0.03:
        place = chance.randrange(len(data) + 1)
        data = data[:place] + chance.choice([b"\xff", b"\xed\xa0\x80", b"\xc0\x80"]) + data[place:]
    return data
