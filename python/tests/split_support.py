"""For the tests of split and join: random histories, good and bad, and runs of the two commands."""
import argparse
import io
import json
import pathlib
import random
import subprocess
import sys
import tempfile
from contextlib import redirect_stderr, redirect_stdout
from typing import Any, Callable, Dict, List, NamedTuple, Optional, Tuple

from regkit.checker.programs import CHECK, SEARCH, Answer, find_program, run_checker, run_search
from regkit.commands import join, split
from regkit.history.lines import NotJson, json_of, numbered_lines
from regkit.parts.folder import file_of, read_manifest

Check = Callable[[bytes], Answer]
Line = Dict[str, Any]

NAMES = (["a", "b", "c"], ["x", "\u00e9\"", "\\u0041", "A", " ", "a\tb", "<b>", "\u2028\x7f\x00\x1f/"],
         [f"r{number}" for number in range(9)], ["only"])
ODD_LINES = ["", " \t", "\r", "[]", "null", "7", "{}", "not json", "\ufeff{}", '{"process":1}',
             '{"process":1,"event":"stop"}', '{"process":1,"event":["call"]}',
             '{"process":-1,"event":"reply"}', '{"process":1,"event":"reply","op":0}',
             '{"process":1,"event":"call","op":"cas","register":"a"}',
             '{"process":1,"event":"call","op":"read","register":""}',
             '{"process":1,"event":"call","op":"write","register":"a","value":1.0}']
WHO: List[Tuple[str, Any]] = [("client", "w-3"), ("node", "\u00e9"), ("time", 12031000000)]


class Ran(NamedTuple):
    """What a command answers."""

    status: int
    report: bytes
    words: str


# ---- the commands


def run_command(module: Any, *words: str) -> Ran:
    """Runs a command in this process."""
    parser = argparse.ArgumentParser()
    module.add_arguments(parser)
    report, err = io.BytesIO(), io.StringIO()
    out = io.TextIOWrapper(report, encoding="utf-8", newline="")
    with redirect_stdout(out), redirect_stderr(err):
        status = module.run(parser.parse_args(words))
    out.flush()
    return Ran(status, report.getvalue(), err.getvalue())


def check_part(directory: str, part: int, check: Check = run_checker) -> None:
    """Leaves the answer of a part beside it, as engines/check_part does."""
    answer = check(file_of(directory, part, "jsonl").read_bytes())
    file_of(directory, part, "report").write_bytes(answer.report)
    words = answer.refusal + "\n" if answer.refusal else ""
    file_of(directory, part, "err").write_text(words, encoding="utf-8")
    file_of(directory, part, "status").write_text(f"{answer.status}\n", encoding="ascii")


def check_parts(directory: str, check: Check = run_checker) -> None:
    for part in range(read_manifest(directory).parts):
        check_part(directory, part, check)


def whole(history: bytes, check: Check = run_checker) -> Ran:
    """What one run over the whole history answers."""
    answer = check(history)
    return Ran(answer.status, answer.report, answer.refusal + "\n" if answer.refusal else "")


def search(history: bytes) -> Answer:
    """The answer of regsearch."""
    program = find_program(SEARCH)
    assert program is not None
    return run_search(history, (), program)


def program_for(history: bytes, stopped: Optional[int]) -> str:
    """Which program takes a history up to the line that is certain to be refused: by a set of its writes."""
    written = set()
    for number, line in numbered_lines(history):
        if stopped is not None and number > stopped:
            break
        try:
            event = json_of(line)
        except NotJson:
            break
        if isinstance(event, dict) and event.get("event") == "reply" and "found" in event and (
                "value" not in event and event.get("op", "read") not in ("write", "cas")):
            return SEARCH
        if not isinstance(event, dict) or event.get("event") != "call":
            continue
        write = (str(event.get("register")), event.get("value"))
        if event.get("op") in ("cas", "delete", "swap") or write in written:
            return SEARCH
        if event.get("op") == "write" and type(write[1]) is int:
            written.add(write)
    return CHECK


# ---- what the tests of the engines need


def python_with_dask() -> Optional[str]:
    for python in (sys.executable, "/usr/bin/python3"):
        ran = subprocess.run([python, "-c", "import distributed"], capture_output=True, check=False)
        if ran.returncode == 0:
            return python
    return None


STAND_IN_SBATCH = r'''#!/usr/bin/env python3
"""What sbatch does with an array, without a cluster: the script runs from a copy, once for each task."""
import os, shutil, subprocess, sys, tempfile
words = sys.argv[1:]
options = [words.pop(0) for _ in range(next(i for i, word in enumerate(words) if not word.startswith("-")))]
array = [option.split("=")[1] for option in options if option.startswith("--array=")][-1]
tasks = array.split(",")
with tempfile.TemporaryDirectory() as spool:
    script = shutil.copy(words[0], os.path.join(spool, "slurm_script"))
    for task in tasks:
        environment = {**os.environ, "SLURM_ARRAY_TASK_ID": task}
        subprocess.run([script, *words[1:]], check=False, cwd="/", env=environment)
'''


# ---- random histories


class Client:
    """The open call of a process."""

    def __init__(self, op: str, register: str, value: Optional[int]) -> None:
        self.op, self.register, self.value = op, register, value


class Maker:
    """Records clients of a store that is right most of the time.

    `ends` says how often calls fail and clients crash."""

    def __init__(self, seed: int, ends: float) -> None:
        self.chance = random.Random(seed)
        self.ends = ends
        self.names = self.chance.choice(NAMES)
        self.lies = self.chance.choice([0, 0, 0.2, 0.5])
        self.open: Dict[int, Client] = {}
        self.crashed: List[int] = []
        self.values: Dict[str, int] = {}
        self.lines: List[str] = []

    def history(self) -> bytes:
        for _ in range(self.chance.randrange(2, 60)):
            self.step(self.chance.randrange(6))
        for _ in range(self.chance.choice([0, 0, 0, 1, 1, 2])):
            self.spoil(self.chance.randrange(len(self.lines)))
        end = self.chance.choice(["\n", "\n", "", "\r\n", "\n\n \n"])
        return ("\n".join(self.lines) + end).encode("utf-8", "surrogatepass")

    def step(self, process: int) -> None:
        if process in self.crashed:
            return
        if self.chance.random() < self.ends / 3:
            self.crash(process)
        elif process not in self.open:
            self.call(process)
        elif self.chance.random() < 0.9:
            self.end(process, self.open.pop(process))
        if self.chance.random() < 0.05:
            longest = 70_000 if self.chance.random() < 0.02 else 1
            self.lines.append(self.chance.choice(["", " \t", "\r", " " * longest]))

    def crash(self, process: int) -> None:
        self.open.pop(process, None)
        self.crashed.append(process)
        self.say({"process": process, "event": "crash", **self.chance.choice([{}, {"op": 7, "value": "x"}])})

    def call(self, process: int) -> None:
        name = self.chance.choice(self.names)
        if self.chance.random() < 0.4:
            value = self.values[name] = self.values.get(name, 0) + 1
            self.open[process] = Client("write", name, value)
            self.say({"process": process, "event": "call", "op": "write", "register": name, "value": value})
        else:
            self.open[process] = Client("read", name, None)
            self.say({"process": process, "event": "call", "op": "read", "register": name})

    def end(self, process: int, client: Client) -> None:
        line: Line = {"process": process, "event": "reply"}
        if self.chance.random() < self.ends:
            line["event"] = "fail"
        elif client.op == "read":
            line["value"] = self.read(client.register)
        if self.chance.random() < 0.3:
            line.update(op=client.op, register=client.register)
        self.say(line)

    def read(self, name: str) -> Optional[int]:
        value = self.values.get(name)
        if self.chance.random() < self.lies:
            return self.chance.choice([None, 1, 2, value])
        return value

    def say(self, line: Line) -> None:
        members = list(line.items())
        if self.chance.random() < 0.3:
            members += [member for member in WHO if self.chance.random() < 0.7]
        if self.chance.random() < 0.1:
            note = self.chance.choice([1.5, "\U0001f600", [{}]])
            members.insert(self.chance.randrange(len(members)), ("note", note))
        if self.chance.random() < 0.1:
            self.chance.shuffle(members)
        spaces = self.chance.choice([(",", ":"), (",", ":"), (", ", ": "), (" , ", " :\t")])
        escaped = self.chance.random() < 0.5
        self.lines.append(json.dumps(dict(members), ensure_ascii=escaped, separators=spaces))

    # ---- faults

    def spoil(self, at: int) -> None:
        how = self.chance.choice([self.remove, self.repeat, self.swap, self.cut, self.change, self.add_member,
                                  self.odd_line, self.event_of_someone, self.event_of_someone,
                                  self.write_again, self.write_again, self.event_of_crashed,
                                  self.event_of_crashed])
        how(at)

    def remove(self, at: int) -> None:
        del self.lines[at]
        self.lines = self.lines or [""]

    def repeat(self, at: int) -> None:
        self.lines.insert(self.chance.randrange(len(self.lines) + 1), self.lines[at])

    def swap(self, at: int) -> None:
        other = self.chance.randrange(len(self.lines))
        self.lines[at], self.lines[other] = self.lines[other], self.lines[at]

    def cut(self, at: int) -> None:
        place = self.chance.randrange(len(self.lines[at]) + 1)
        self.lines[at] = self.lines[at][:place] + self.lines[at][place + 1:]

    def change(self, at: int) -> None:
        old, new = self.chance.choice([
            ('"process":', ["1", "-", "0", "1.", '"', "99999999999",
                            '4294967296,"x":', '1e0,"x":', '-0,"x":']),
            ('"value":', ["1", "-", "0", "null", '"', '9223372036854775808,"x":', '1e0,"x":', '-0,"x":']),
            ('"register":"', ["", "\\ud800", "x", "\\u0000", "y" * 255, "\u00e9" * 128]),
            ('"event":"', ["", 'call","x":"', 'reply","x":"', 'fail","x":"', 'crash","x":"'])])
        self.lines[at] = self.lines[at].replace(old, old + self.chance.choice(new), 1)

    def add_member(self, at: int) -> None:
        member = self.chance.choice(['"process":3', '"register":"b"', '"event":"call"', '"value":NaN',
                                     '"value":1', '"op":"read"', '"extra":[1,{"register":"q"}]', '"x":1e999',
                                     '"x":"\\ud800"', '"x":' + "[" * 200 + "]" * 200, '"x":' + "9" * 5000,
                                     '"x":"' + "y" * 65536 + '"'])
        self.lines[at] = self.lines[at].replace("}", "," + member + "}")

    def odd_line(self, at: int) -> None:
        self.lines.insert(at, self.chance.choice(ODD_LINES))

    def event_of_someone(self, at: int) -> None:
        """An event that may not fit: a call while one is open, a reply to nothing, another value."""
        name, value = self.chance.choice(self.names), self.chance.randrange(1, 4)
        events: List[Line] = [{"event": "call", "op": "read", "register": name}, {"event": "reply"},
                              {"event": "call", "op": "write", "register": name, "value": value},
                              {"event": "reply", "value": value}, {"event": "reply", "register": name}]
        said = self.chance.choice(events)
        self.lines.insert(at, json.dumps({"process": self.chance.randrange(7), **said}))

    def write_again(self, at: int) -> None:
        """A value that was perhaps written, by a process of its own."""
        name = self.chance.choice(self.names)
        value = self.chance.randrange(1, self.values.get(name, 1) + 1)
        line = {"process": 6, "event": "call", "op": "write", "register": name, "value": value}
        self.lines.insert(at, json.dumps(line))

    def event_of_crashed(self, at: int) -> None:
        """A crash, and an event of the same process after it, which often writes a value again."""
        process = self.chance.randrange(7)
        if self.ends:
            self.lines.insert(at, json.dumps({"process": process, "event": "crash"}))
        name, value = self.chance.choice(self.names), self.chance.randrange(1, 3)
        events: List[Line] = [{"event": "call", "op": "write", "register": name, "value": value},
                              {"event": "call", "op": "read", "register": name},
                              {"event": "reply"}, {"event": "fail"}, {"event": "crash"}]
        said = self.chance.choice(events)
        place = self.chance.randrange(at, len(self.lines)) + 1
        self.lines.insert(place, json.dumps({"process": process, **said}))


class SearchMaker(Maker):
    """The same with cas, deletes and swaps, and values that repeat. A call takes effect with its reply."""

    def __init__(self, seed: int, ends: float) -> None:
        super().__init__(seed, ends)
        self.store: Dict[str, Optional[int]] = {}
        self.asked: Dict[int, Optional[int]] = {}  # what the open cas of a process asks for

    def call(self, process: int) -> None:
        name = self.chance.choice(self.names)
        op = self.chance.choice(["read", "write", "cas", "cas", "delete", "swap"])
        line: Line = {"process": process, "event": "call", "op": op, "register": name}
        value = None if op in ("read", "delete") else self.chance.randrange(1, 4)
        if op == "cas":
            asked = self.asked[process] = self.chance.choice([None, 1, 2, 3])
            unless = self.chance.random() < 0.3
            op = "unless" if unless else op
            value = self.chance.choice([value, value, None])
            line.update({"unless" if unless else "from": asked, "to": value})
            line.update({"old": True} if self.chance.random() < 0.3 else {})
        elif value is not None:
            line["value"] = value
        self.open[process] = Client(op, name, value)
        self.say(line)

    def end(self, process: int, client: Client) -> None:
        line: Line = {"process": process, "event": "reply"}
        if self.chance.random() < self.ends:
            line["event"] = "fail"
        elif client.op == "read":
            value = self.read(client.register)
            line.update({"value": value} if self.chance.random() < 0.7 else {"found": value is not None})
        elif client.op in ("cas", "unless"):
            line["ok"] = self.swap_in(process, client)
        else:
            self.answer_change(line, client)
        self.say(line)

    def answer_change(self, line: Line, client: Client) -> None:
        """Lets a write, a delete or a swap take effect, and says what the last two found."""
        old, told = self.read(client.register), self.chance.random()
        if client.op != "write" and (told < 0.4 or client.op == "swap"):
            line["old"] = old
        elif client.op == "delete" and told < 0.8:
            line["found"] = old is not None
        self.store[client.register] = client.value

    def read(self, name: str) -> Optional[int]:
        if self.chance.random() < self.lies:
            return self.chance.choice([None, 1, 2, 3])
        return self.store.get(name)

    def swap_in(self, process: int, client: Client) -> bool:
        """Whether a cas takes place."""
        if self.chance.random() < self.lies:
            return self.chance.random() < 0.5
        found = (self.store.get(client.register) == self.asked[process]) == (client.op == "cas")
        if found:
            self.store[client.register] = client.value
        return found

    def change(self, at: int) -> None:
        old, new = self.chance.choice([
            ('"from":', ["", '"', "1.5,", '0,"x":']), ('"to":', ["null,", '"', '0,"x":']),
            ('"old":', ["1,", "null,", '"x"']), ('"found":', ["1,", "null,"]), ('"unless":', ["", "1.5,"]),
            ('"ok":', ["1,", "null,", '"true","x":']), ('"cas"', [" ", '"x":"cas",'])])
        if old in self.lines[at]:
            self.lines[at] = self.lines[at].replace(old, old + self.chance.choice(new), 1)
        else:
            super().change(at)


def random_history(seed: int) -> bytes:
    """A history of the seed, often with failed calls and crashes."""
    return Maker(seed, random.Random(-seed - 1).choice([0, 0.1, 0.3])).history()


def random_search_history(seed: int) -> bytes:
    """The same with cas and repeated values."""
    return SearchMaker(seed, random.Random(-seed - 1).choice([0, 0.1, 0.3])).history()


def differences(parts: int, lines: str, history: bytes, by_check: Check = run_checker,
                by_search: Check = search) -> List[str]:
    """How the answers by parts differ from that of one run, in words; empty if they don't."""
    with tempfile.TemporaryDirectory() as folder:
        path, directory = pathlib.Path(folder) / "history.jsonl", str(pathlib.Path(folder) / "parts")
        path.write_bytes(history)
        said = run_command(split, str(path), directory, "--parts", str(parts), "--lines", lines)
        manifest = read_manifest(directory)
        program = program_for(history, manifest.stopped)
        check = by_search if program == SEARCH else by_check
        check_parts(directory, check)
        joined = run_command(join, directory)
    expected = whole(history, check)
    found = []
    if manifest.program != program:
        found.append(f"split: for {manifest.program}, in place of {program}")
    if joined != expected:
        found.append(f"join: {joined}")
    if said.status and said != Ran(expected.status, b"", expected.words):
        found.append(f"split: {said}")
    if found:
        found.append(f"one run: {expected}")
        found.append(f"{parts} parts, {lines}, of {history!r}")
    return found
