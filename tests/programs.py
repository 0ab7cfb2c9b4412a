"""What differs between the programs that tests run: regcheck; regsearch, which knows cas and repeated values;
and reglevel, which says what weaker levels hold.

A script is told the file of a program, and knows by its name which of them it is. And how a program is kept
on one processor."""
import json
import os
import pathlib
from typing import Any, Dict, List, NamedTuple, Tuple

NAMES = ("regcheck", "regsearch", "reglevel")
Answer = Tuple[int, str, str]  # exit status, standard output, standard error
Row = Dict[str, Any]
COMPACT = json.JSONEncoder(sort_keys=True, separators=(",", ":"), ensure_ascii=False)


class Program(NamedTuple):
    path: str
    name: str
    numbers: Dict[str, int]  # the options with a number from 1 on, and the greatest; --workers not among them
    harmless: List[str]  # an option that changes no report of an atomic history
    long: List[str]  # an option with which the report is about as long as the history

    def answer(self, answer: Answer) -> Answer:
        """What the program answers where this is regcheck's answer to a history without cas, and no other
        order is legal. Of reglevel, the history has to be atomic or refused."""
        if self.name == "regcheck":
            return answer
        status, report, error = answer
        rows = [json.loads(line) for line in report.splitlines()]
        rows = of_reglevel(rows) if self.name == "reglevel" else list(map(of_regsearch, rows))
        return status, "".join(map(dumped, rows)), error


def to_one_processor() -> None:
    """Keeps this process, and those that it starts, on one processor."""
    os.sched_setaffinity(0, {min(os.sched_getaffinity(0))})


def program(path: str) -> Program:
    whole = os.path.abspath(path)
    name = pathlib.Path(path).name
    if name == "regsearch":
        return Program(whole, name, {"--steps": 1_000_000_000_000, "--configurations": 1_048_576},
                       ["--steps", "1000"], [])
    if name == "reglevel":
        return Program(whole, name, {}, ["--require", "sequential"], ["--orders"])
    return Program(whole, "regcheck", {"--cut": 1_048_576}, ["--cut", "1000"], [])


def dumped(value: Any) -> str:
    return COMPACT.encode(value) + "\n"


def of_regsearch(row: Row) -> Row:
    """A line of a report that says that all is atomic, without safe, regular and the order of the whole, and
    with a count of cas."""
    left: List[str] = ["safe", "regular"] if "register" in row else ["order"]
    kept = {key: value for key, value in row.items() if key not in left}
    return {"cas": 0, **kept} if "register" in row else kept


def of_reglevel(rows: List[Row]) -> List[Row]:
    """The lines of a report that says that all is atomic: so all weaker levels hold, and nothing is old."""
    if not rows:
        return []
    *registers, summary = rows
    clean: Row = {**{level: "yes" for level in ("atomic", "regular", "session", "sequential")},
                  **{count: 0 for count in ("stale", "own", "back", "inverted", "lost")}}
    lines = [{**clean, **{key: row[key] for key in ("register", "reads", "writes", "pending")}}
             for row in registers]
    summary = {"causal": "yes", "operations": summary["operations"], "registers": summary["registers"],
               "reads": sum(row["reads"] for row in registers)}
    return [*lines, {**clean, **summary}]
