"""Small histories that several test scripts use, and what the program has to answer to each: regcheck by
tests/reference.py, and the others anything that tests/search_judge.py or tests/level_judge.py finds right.

They are written in a short form: `p1 W x 5` calls a write, `p2 R x` a read, `p1 C x 1 2` a cas from 1 to 2,
`p1 U x 1 2` a cas unless 1 to 2, `p1 D x` a delete, `p1 S x 5` a swap; a cas that ends in `old` asks for the
old value. `p1 ok`, `p2 = 5` and, for a cas, `p1 true` and `p1 false` are replies, the last two with the old
value behind them if it is told; `p1 found`, `p1 missing` and `p1 old 5` tell what a delete, a swap or a read
met; `p1 fail` and `p1 crash` are events of these names."""
import functools
import json
import os
from typing import Any, Dict, List, NamedTuple, Tuple

import judging
import level_judge
import reference
import search_judge

WRITE_AND_READ = "p1 W x 5; p1 ok; p2 R x; p2 = 5"
INVERSION = "p1 W x 1; p1 ok; p1 W x 2; p2 R x; p2 = 2; p2 R x; p2 = 1; p1 ok"
MERGED = "p1 R x; p2 R y; p3 W x 1; p4 W y 2; p1 = 1; p2 = 2; p3 ok; p4 ok"
WRITTEN_TWICE = "p1 W x 5; p1 ok; p1 W x 5"
CAS = "p1 W x 1; p1 ok; p1 C x 1 2; p2 C x null 3; p1 true; p2 false; p2 R x; p2 = 2"
CAS_MISSED = "p1 W x 1; p1 ok; p2 C x 1 2; p3 W x 2; p2 false; p3 ok; p2 C x 3 4; p3 R x; p3 = 4"
GIVEN_UP = "p1 C x null 1; p2 C x null 2; p3 W x 5; p3 ok; p1 true; p2 true"  # if one configuration is held
TWO_REGISTERS = INVERSION + "; p1 W y 1; p1 ok; p2 W y 2; p2 ok; p3 R y; p3 = 2; p3 R y; p3 = 1"
OLD = "p1 W x 1; p1 ok; p1 W x 2; p1 ok; p2 R x; p2 = 1; p3 R x; p3 = null"
HIDDEN = "p1 W x 1; p1 ok; p1 W y 1; p1 ok; p2 R y; p2 = 1; p2 R x; p2 = null"  # not causal
BOTH_HALVES = "p1 W x 1; p2 W x 2; p1 ok; p2 ok; p1 R x; p1 = 2; p3 R x; p3 = 2; p3 R x; p3 = 1"
EARLY = "p1 R x; p1 = 1; p2 W x 1; p2 ok"
BLOCK = b"\n" * 3_000_000  # blank lines, more than the program reads at once
BAD_WORDS = b"""error: invalid value '17' for '--workers <N>': 17 is not in 1..=16

For more information, try '--help'.
"""


OPS = {"W": "write", "R": "read", "C": "cas", "U": "cas", "D": "delete", "S": "swap"}
NAMES = {"W": ("value",), "S": ("value",), "C": ("from", "to"), "U": ("unless", "to")}


def call(what: str, rest: List[str]) -> Dict[str, Any]:
    values = [json.loads(word) for word in rest[1:] if word != "old"]
    asks: Dict[str, Any] = {"old": True} if "old" in rest[1:] else {}
    named = dict(zip(NAMES.get(what, ()), values))
    return {"event": "call", "op": OPS[what], "register": rest[0], **named, **asks}


def end(what: str, rest: List[str]) -> Dict[str, Any]:
    if what in ("true", "false"):
        return {"event": "reply", "ok": what == "true", **({"old": json.loads(rest[0])} if rest else {})}
    if what in ("found", "missing"):
        return {"event": "reply", "found": what == "found"}
    if what in ("=", "old"):
        return {"event": "reply", {"=": "value"}.get(what, what): json.loads(rest[0])}
    return {"event": {"ok": "reply"}.get(what, what)}


def event(words: str) -> str:
    """The line of one event in short form."""
    process, what, *rest = words.split()
    members = (call if what in OPS else end)(what, rest)
    return json.dumps({"process": int(process[1:]), **members}, separators=(",", ":")) + "\n"


def history(text: str) -> bytes:
    return "".join(event(words) for words in text.split(";")).encode()


def sixteen_registers() -> bytes:
    """Each of 16 processes writes to its own register and reads its neighbour's, in turns."""
    lines = [f"p{n} {what}" for turn in (1, 2) for what in (f"W r{{}} {turn}", "ok", "R s{}", "= 0")
             for n in range(16)]
    texts = []
    for line in lines:
        number = int(line.split()[0][1:])
        texts.append(line.format(number).replace(f"R s{number}", f"R r{(number + 1) % 16}"))
    latest, shown = {}, []
    for text in texts:
        process, what, *rest = text.split()
        if what == "W":
            latest[rest[0]] = rest[1]
        register = f"r{(int(process[1:]) + 1) % 16}"
        shown.append(f"{process} = {latest.get(register, 'null')}" if what == "=" else text)
    return history("; ".join(shown))


def in_two_blocks(given: bytes) -> bytes:
    """The same events, with so many blank lines among them that the program doesn't read them at once."""
    lines = given.splitlines(keepends=True)
    half = len(lines) // 2
    return b"".join(lines[:half]) + BLOCK + b"".join(lines[half:])


class Case(NamedTuple):
    name: str
    words: Tuple[str, ...]  # of the command line
    history: bytes
    answer: Tuple[int, bytes, bytes]  # exit status, standard output, standard error
    threaded: bool = False  # whether a run starts a thread for sure
    named: bool = False  # whether the history comes by the name of a file
    alone: bool = False  # whether a run has one processor alone


def case(name: str, words: Tuple[str, ...], given: bytes) -> Case:
    status, report, refusal = reference.answer(given, reference.Options("--first" in words))
    return Case(name, words, given, (status, report, (refusal + "\n").encode() if refusal else b""))


def refused_cases() -> List[Case]:
    """What is run while memory is refused."""
    named = {"write_and_read": WRITE_AND_READ, "inversion": INVERSION, "merged": MERGED,
             "written_twice": WRITTEN_TWICE, "two_registers": TWO_REGISTERS}
    cases = [case(f"{name} --workers {workers}", ("--workers", workers), history(text))
             for name, text in named.items() for workers in ("1", "2")]
    cases.append(case("as it is", (), history(WRITE_AND_READ)))
    cases.append(case("by name", ("--workers", "2"), history(INVERSION))._replace(named=True))
    cases.append(Case("bad words", ("--workers", "17"), history(INVERSION), (3, b"", BAD_WORDS)))
    cases.append(case("two_registers --cut 1", ("--workers", "4", "--cut", "1"),
                      history(TWO_REGISTERS))._replace(threaded=True))
    cases.append(case("sixteen_registers", ("--workers", "4"), sixteen_registers())._replace(threaded=True))
    cases.append(case("inversion in two blocks", ("--workers", "2"),
                      in_two_blocks(history(INVERSION)))._replace(threaded=True))
    first = case("two_registers --first", ("--workers", "2", "--first"),
                 history(TWO_REGISTERS))._replace(threaded=True)
    by_two = case("two_registers --workers 2", ("--workers", "2"),
                  history(TWO_REGISTERS))._replace(threaded=True)
    alone = (one._replace(name=f"{one.name}, one processor", alone=True) for one in (first, by_two))
    cases.extend([first, *alone])
    # On one processor a history that is refused starts no thread.
    several = len(os.sched_getaffinity(0)) > 1
    cases.append(case("written_twice before a block", (),
                      history(WRITTEN_TWICE) + BLOCK)._replace(threaded=several))
    return cases


def judged_case(judge: judging.Complaint, program: str, name: str, words: Tuple[str, ...],
                given: bytes) -> Case:
    """The answer is the program's own, if nothing is wrong with it: more than one may be right."""
    ended = judging.run([program, *words], given)
    why = judge(given, ended, words)
    if why:
        raise SystemExit(f"{name}: {why}")
    return Case(name, words, given, ended)


search_case = functools.partial(judged_case, search_judge.complaint_about)
level_case = functools.partial(judged_case, level_judge.complaint)


def refused_search_cases(program: str) -> List[Case]:
    """What regsearch is run on while memory is refused."""
    named = {"cas": CAS, "cas that missed": CAS_MISSED, "two registers": TWO_REGISTERS,
             "written twice": WRITTEN_TWICE, "no ok": "p1 C x 1 2; p1 ok",
             "unwritten": "p1 W x 1; p1 ok; p2 C x 9 2; p2 true"}
    cases = [search_case(program, name, ("--workers", "2"), history(text)) for name, text in named.items()]
    cases.append(search_case(program, "cas, one worker", ("--workers", "1"), history(CAS)))
    cases.append(search_case(program, "as it is", (), history(MERGED)))
    cases.append(search_case(program, "given up", ("--configurations", "1"), history(GIVEN_UP)))
    for name, text in {"by zones": WRITE_AND_READ, "not atomic, by zones": INVERSION}.items():
        cases.append(search_case(program, name, ("--steps", "1"), history(text)))
    cases.append(search_case(program, "by name", (), history(CAS))._replace(named=True))
    for name, given in {"in two blocks": in_two_blocks(history(CAS)),
                        "no ok before a block": history("p1 C x 1 2; p1 ok") + BLOCK}.items():
        cases.append(search_case(program, name, ("--workers", "2"), given)._replace(threaded=True))
    cases.append(Case("bad words", ("--workers", "17"), history(CAS), (3, b"", BAD_WORDS)))
    cases.append(search_case(program, "sixteen_registers", ("--workers", "4"),
                             sixteen_registers())._replace(threaded=True))
    cases.append(search_case(program, "two registers, one processor", (),
                             history(TWO_REGISTERS))._replace(alone=True))
    return cases


def refused_level_cases(program: str) -> List[Case]:
    """What reglevel is run on while memory is refused."""
    named = {"write_and_read": WRITE_AND_READ, "inversion": INVERSION, "two registers": TWO_REGISTERS,
             "written twice": WRITTEN_TWICE, "both halves": BOTH_HALVES, "early": EARLY, "hidden": HIDDEN,
             "unwritten": "p1 R x; p1 = 9"}
    cases = [level_case(program, name, ("--workers", "2"), history(text)) for name, text in named.items()]
    cases.append(level_case(program, "inversion, one worker", ("--workers", "1"), history(INVERSION)))
    cases.append(level_case(program, "as it is", (), history(MERGED)))
    for name, text in {"session": OLD, "both halves": BOTH_HALVES, "sequential": EARLY}.items():
        words = ("--orders", "--stale", "--require", "session")
        cases.append(level_case(program, f"{name}, with orders", words, history(text)))
    cases.append(level_case(program, "causal, with its order", ("--orders", "--require=causal"),
                            history(MERGED)))
    cases.append(level_case(program, "by name", (), history(INVERSION))._replace(named=True))
    cases.append(level_case(program, "in two blocks", ("--workers", "2"), in_two_blocks(history(INVERSION))))
    cases.append(Case("bad words", ("--workers", "17"), history(INVERSION), (3, b"", BAD_WORDS)))
    cases.append(level_case(program, "sixteen_registers", ("--workers", "4"),
                            sixteen_registers())._replace(threaded=True))
    cases.append(level_case(program, "two registers, one processor", (),
                            history(TWO_REGISTERS))._replace(alone=True))
    return cases
