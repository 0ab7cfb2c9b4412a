"""Random histories of up to 12 operations with cas, deletes, swaps and repeated values, for tests.

A history is a function of its seed. In half of them a right store is run at random and its clients
recorded, so that many are atomic; of these some have one answer changed. In the others the answers are
random. One in ten is a history of tests/histories.py, which regcheck knows too. Some lines are odd, and
some wrong, as there.
"""
import random
from typing import Any, Dict, List, Optional

import histories
from histories import Line

Value = Optional[int]

MOST = 12  # operations
NOBODYS = 9  # a value that is hardly ever written
CAS_FORMS: List[Any] = [None, 1.0, "a", True, [], {}, 2**63 - 1, 2**63, -2**63 - 1, 10**30, 1, 2]
TRUTHS: List[Any] = [None, 1, 0, "true", [], True, False]
WRONG: Dict[str, List[Any]] = {**histories.WRONG,
                               "op": [*histories.WRONG["op"], "cas", "Cas", "delete", "swap", "del"],
                               "from": CAS_FORMS, "unless": CAS_FORMS, "to": CAS_FORMS, "old": CAS_FORMS,
                               "ok": TRUTHS, "found": TRUTHS}


class Call:
    """An open call, and what it has done to the store so far."""

    def __init__(self, line: Line) -> None:
        self.line = line
        self.done = False
        self.told: Line = {}  # what its reply says


class Store:
    """Registers with clients that call at random. Each call takes effect at a random moment, if it has a
    client or not."""

    def __init__(self, chance: random.Random, plain: bool) -> None:
        self.chance = chance
        names = ["x", "y", "\u00e4 \"\\\t"][:chance.choice([1, 1, 1, 1, 2, 3])]
        self.values: Dict[str, Value] = {name: None for name in names}
        self.written = list(range(1, chance.choice([2, 3, 3, 4, 5])))
        self.cas = chance.choice([0, 0.2, 0.4, 0.7])  # how many calls are cas,
        others = chance.choice([0, 0, 0.2, 0.5])
        self.others = 0 if plain else others  # and how many of the others are deletes or swaps
        self.forms = chance.random() < 0.5 and not plain  # whether cas and reads have forms of all kinds
        self.right = chance.random() < 0.5  # else what it answers is random
        self.quiet = chance.choice([0, 0, 0.1, 0.3])  # how often a client leaves its call
        self.prompt = chance.choice([0.2, 0.5, 0.8])  # how often an open call takes effect
        self.calls = max(chance.randint(1, MOST), chance.randint(1, MOST))
        self.free = list(range(1, chance.choice([2, 3, 4, 4, 5, 6])))  # processes without an open call
        self.process = len(self.free)  # the latest number of a process
        self.open: Dict[int, Call] = {}
        self.left: List[Call] = []  # calls whose clients have left
        self.lines: List[Line] = []

    def a_value(self) -> Value:
        return NOBODYS if self.chance.random() < 0.02 else self.chance.choice([None, *self.written])

    def run(self) -> None:
        for _ in range(8 * MOST):
            for call in [*self.open.values(), *self.left]:
                if self.chance.random() < self.prompt / 2:
                    self.take_effect(call)
            if self.calls and self.free and self.chance.random() < 0.6:
                self.call()
            elif self.open and self.chance.random() < 0.7:
                self.end(self.chance.choice(list(self.open)))

    def call(self) -> None:
        self.calls -= 1
        process = self.free.pop(self.chance.randrange(len(self.free)))
        register = self.chance.choice(list(self.values))
        line: Line = {"process": process, "event": "call", "op": "read", "register": register}
        if self.chance.random() < self.cas:
            expected = self.values[register] if self.chance.random() < 0.5 else self.a_value()
            line.update({"op": "cas", "from": expected, "to": self.chance.choice(self.written)})
            if self.forms:
                self.give_form(line)
        elif self.chance.random() < self.others:
            line.update(self.chance.choice([{"op": "delete"},
                                            {"op": "swap", "value": self.chance.choice(self.written)}]))
        elif self.chance.random() < 0.5:
            line.update({"op": "write", "value": self.chance.choice(self.written)})
        self.open[process] = Call(line)
        self.lines.append(line)

    def give_form(self, line: Line) -> None:
        """Perhaps the cas takes place at any value but one, deletes, or asks for the old value."""
        if self.chance.random() < 0.4:
            line["unless"] = line.pop("from")
        if self.chance.random() < 0.3:
            line["to"] = None
        if self.chance.random() < 0.4:
            line["old"] = self.chance.choice([True, True, True, False, None])

    def take_effect(self, call: Call) -> None:
        if call.done:
            return
        call.done = True
        register, op = call.line["register"], call.line["op"]
        found = self.values[register] if self.right else self.a_value()
        if op == "cas":
            if self.take_place(call, found):
                self.values[register] = call.line["to"]
            return
        call.told = self.told_of(op, found)
        if op != "read":
            self.values[register] = call.line.get("value")

    def take_place(self, call: Call, found: Value) -> bool:
        """Whether a cas does so, which its reply tells."""
        has_from = "from" in call.line
        suits: bool = found == call.line["from"] if has_from else found != call.line["unless"]
        if not self.right and call.line.get("old") is not True:
            suits = self.chance.random() < 0.5
        call.told = {"ok": suits}
        if "old" in call.line and self.chance.random() < 0.8:
            call.told["old"] = found
        return suits

    def told_of(self, op: str, found: Value) -> Line:
        """What a reply says of the value that a read, a write, a delete or a swap found."""
        if op == "write":
            return {}
        if op == "read":
            tells = self.forms and self.chance.random() < 0.2
            return {"found": found is not None} if tells else {"value": found}
        ways: List[Line] = [{"old": found}, {"found": found is not None},
                            {"old": found, "found": found is not None}]
        return self.chance.choice([*ways, {}] if op == "delete" else ways)

    def end(self, process: int) -> None:
        """The client gets its answer, learns that there is none to come, or leaves."""
        call = self.open.pop(process)
        if self.chance.random() < self.quiet:
            self.left.append(call)
            if self.chance.random() < 0.5:
                self.lines.append({"process": process, "event": "crash"})
            self.process += 1
            self.free.append(self.process)
            return
        self.free.append(process)
        if not call.done and self.chance.random() < 0.15:
            self.lines.append({"process": process, "event": "fail"})
            return
        self.take_effect(call)
        self.lines.append({"process": process, "event": "reply", **call.told, **self.more(call)})

    def more(self, call: Call) -> Line:
        """Members that a reply may have, and that say nothing new."""
        found: Line = {}
        if call.line["op"] != "read" and self.chance.random() < 0.1:
            found["value"] = self.chance.choice([None, call.line.get("value")])
        if call.line["op"] in ("read", "write") and "found" not in call.told and self.chance.random() < 0.03:
            found[self.chance.choice(["found", "old"])] = self.chance.choice([None, "a", 1, True])
        for member in ("op", "register"):
            if self.chance.random() < 0.1:
                found[member] = call.line[member]
        if self.chance.random() < 0.1:
            found["from" if call.line["op"] == "cas" else "ok"] = self.chance.choice([None, "a", 1, False])
        return found


def change(chance: random.Random, lines: List[Line], store: Store) -> None:
    """Makes one line say something else."""
    line = chance.choice(lines)
    if "found" in line and "old" not in line:
        line["found"] = not line["found"]
    elif "old" in line and line.get("op") != "cas" and "ok" not in line and "found" not in line:
        line["old"] = store.a_value()
    elif isinstance(line.get("ok"), bool):
        line["ok"] = not line["ok"]
    elif line.get("op") == "cas" and "to" in line:
        line["from" if "from" in line else "unless"] = store.a_value()
    elif "value" in line and not (line.get("op") == "write" and line["value"] is None):
        line["value"] = chance.choice(store.written)


def random_history(seed: int, plain: bool = False) -> bytes:
    """A plain one has only reads, writes and cas from one value to another, but for what is wrong in it."""
    chance = random.Random(f"search {seed}")
    if chance.random() < 0.1:
        return histories.random_history(seed)
    store = Store(chance, plain)
    store.run()
    if store.lines and store.right and chance.random() < 0.3:
        for _ in range(chance.choice([1, 2])):
            change(chance, store.lines, store)
    return histories.input_of(chance, store.lines, 0.1, WRONG)
