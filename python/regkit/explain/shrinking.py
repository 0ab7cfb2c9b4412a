"""Makes a no of `regsearch` small: fewer operations, and fewer replies, that still have no order.

Each step claims less. An order of more, without a read, or without a cas that missed, is an order of
less; and a write or a cas whose reply is left out may still stand where it stood. What was answered
before a write that overlaps nothing else that was answered comes before that write, which hides it: an
order of all is, from that write on, one of the rest. So if there is no order of less, there is none of
more either, and the answer to each step is asked of regsearch itself."""
import json
from typing import Callable, NamedTuple, Optional, Sequence

from regkit.base.statuses import ExitStatus
from regkit.checker.programs import SEARCH, NoChecker, find_program, run_checker
from regkit.history.operations import Guard, Operation

MOST_RUNS = 200  # of regsearch
STEPS = 20_000_000  # of each run, unless fewer were asked for


class Kept(NamedTuple):
    """An operation that is still there. Without its reply it may take effect from its call on, or never."""

    call: Operation
    replied: bool


class Small(NamedTuple):
    """What is left of a no."""

    kept: list[Kept]
    whole: int  # how many operations were called before the reply
    runs: int  # of regsearch
    ended: bool  # whether each step was tried that was left
    fence: Optional[Operation] = None  # the write that hides what was answered before it and was left out


def until(calls: Sequence[Operation], reply: int) -> list[Kept]:
    """What was called before a reply, with the replies up to it. What replied later is kept only if it may
    have changed the value by then: a read, or a cas that missed, changes no order of the others."""
    called = [call for call in calls if call.line < reply and not call.failed]
    kept = [Kept(call, call.completed and (call.end_line or 0) <= reply) for call in called]
    return [each for each in kept if each.replied or each.call.writes]


def guards_of(kept: Sequence[Kept]) -> list[Guard]:
    """Which values are asked for, by replies that count and by calls."""
    found = (each.call.guard if each.replied else each.call.asks for each in kept)
    return [guard for guard in found if guard is not None]


def without_idle(kept: list[Kept]) -> list[Kept]:
    """The same without the changes that have no reply and leave a value for which nobody asks. In an order
    nothing that asks stands between such a one and the next change, so it may be left out, unless something
    asks for any value but one, as a cas that missed does."""
    while not any(guard.is_other for guard in guards_of(kept)):
        asked = {guard.value for guard in guards_of(kept)}
        fewer = [each for each in kept if each.replied or each.call.value in asked]
        if len(fewer) == len(kept):
            break
        kept = fewer
    return kept


def fences(kept: Sequence[Kept]) -> list[Operation]:
    """The writes, and deletes of whatever there is, that overlap nothing else that was answered, by line."""
    answered = sorted((each.call for each in kept if each.replied), key=lambda call: call.line)
    found, latest = [], 0
    for call, following in zip(answered, [*answered[1:], None]):
        end = call.end_line or 0
        if call.guard is None and latest < call.line and (following is None or end < following.line):
            found.append(call)
        latest = max(latest, end)
    return found


def since(kept: list[Kept], fence: Operation) -> list[Kept]:
    """The same without what was answered before a write that overlaps nothing else that was answered."""
    return without_idle([each for each in kept if not each.replied or each.call.line >= fence.line])


def less(kept: list[Kept], chosen: Sequence[Operation]) -> list[Kept]:
    """The same without some reads and misses, and without the replies of some writes and cas."""
    lines = {call.line for call in chosen}
    changed = [Kept(each.call, each.replied and each.call.line not in lines) for each in kept
               if each.call.writes or each.call.line not in lines]
    return without_idle(changed)


def events_of(process: int, each: Kept) -> list[tuple[int, str]]:
    """The lines of an operation: it has a process of its own, since one without a reply stays open."""
    call = each.call
    said = {"process": process, "event": "call", "op": call.kind, "register": "x"}
    if call.kind == "cas":
        said.update({"unless" if call.unless else "from": call.asked, "to": call.value})
    elif call.kind in ("write", "swap"):
        said["value"] = call.value
    if call.kind == "cas" and call.asks_old:
        said["old"] = True
    lines = [(call.line, json.dumps(said))]
    if each.replied and call.end_line is not None:
        end = {"process": process, "event": "reply"}
        lines.append((call.end_line, json.dumps({**end, **answer_of(call)})))
    return lines


def answer_of(call: Operation) -> dict[str, Optional[int]]:
    """The members of a reply that say what a call found."""
    answer: dict[str, Optional[int]] = {"ok": bool(call.took)} if call.kind == "cas" else {}
    if call.kind == "read" and call.found is None:
        answer["value"] = call.value
    if call.found is not None:
        answer["found"] = call.found
    if call.tells_old:
        answer["old"] = call.old
    return answer


def history_of(kept: Sequence[Kept]) -> bytes:
    """A history of these operations alone, on the lines that they have."""
    events = dict(event for process, each in enumerate(kept) for event in events_of(process, each))
    return "".join(events.get(line, "") + "\n" for line in range(1, max(events, default=0) + 1)).encode()


def asker(bounds: Sequence[str]) -> Callable[[list[Kept]], int]:
    """How regsearch ends with some operations. Raises NoChecker if it isn't there."""
    program = find_program(SEARCH)
    if program is None:
        raise NoChecker("regsearch was not found: put it beside regcheck or on PATH, or set REGSEARCH to its "
                        "path")
    options = list(bounds)
    if "--steps" in options:
        place = options.index("--steps") + 1
        options[place] = str(min(STEPS, int(options[place])))
    else:
        options += ["--steps", str(STEPS)]
    return lambda kept: run_checker(history_of(kept), options, program).status


class NoFault(ValueError):
    """What was called before the reply has an order."""


class ShrinkSettings(NamedTuple):
    """How to make a no small."""

    bounds: Sequence[str] = ()  # options of regsearch
    reach: Callable[[int], None] = lambda runs: None  # is told the number of runs so far


class Shrinker:
    """Asks regsearch about less and less."""

    def __init__(self, kept: list[Kept], ask: Callable[[list[Kept]], int],
                 reach: Callable[[int], None]) -> None:
        self.kept = kept
        self.ask = ask
        self.reach = reach
        self.runs = 0
        self.fence: Optional[Operation] = None  # its reply has to stay

    @property
    def may_ask(self) -> bool:
        return self.runs < MOST_RUNS

    def try_out(self, fewer: list[Kept]) -> bool:
        """Keeps no more than this if there is no order of it."""
        self.runs += 1
        self.reach(self.runs)
        if self.ask(fewer) != ExitStatus.NOT_ATOMIC:
            return False
        self.kept = fewer
        return True

    def forget(self) -> None:
        """Leaves out what was answered before some write: the last one that does, of a few."""
        found = [fence for fence in fences(self.kept) if any(
            each.replied and each.call.line < fence.line for each in self.kept)]
        back = 1
        while back <= len(found) and self.may_ask:
            if self.try_out(since(self.kept, found[-back])):
                self.fence = found[-back]
                return
            back *= 2

    def drop(self, writes: bool, reply: int) -> None:
        """Leaves out reads and misses, or the replies of writes and other cas: all, half of them, and
        so on to each by itself."""
        left = [each.call for each in self.kept if each.replied and each.call.writes == writes
                and each.call.end_line != reply and each.call is not self.fence]
        size = len(left)
        while size and self.may_ask:
            place = 0
            while place < len(left) and self.may_ask:
                if self.try_out(less(self.kept, left[place:place + size])):
                    del left[place:place + size]
                else:
                    place += size
            size = 0 if size == 1 else (size + 1) // 2


def shrink(calls: Sequence[Operation], reply: int, ask: Callable[[list[Kept]], int],
           reach: Callable[[int], None] = lambda runs: None) -> Optional[Small]:
    """The no of a reply, made small. None if regsearch doesn't decide it in few steps. Raises NoFault."""
    whole = sum(call.line < reply and not call.failed for call in calls)
    shrinker = Shrinker(without_idle(until(calls, reply)), ask, reach)
    first = ask(shrinker.kept)
    shrinker.runs = 1
    if first == ExitStatus.ATOMIC:
        raise NoFault
    if first != ExitStatus.NOT_ATOMIC:
        return None
    shrinker.forget()
    for writes in (False, True):
        shrinker.drop(writes, reply)
        shrinker.forget()
    return Small(shrinker.kept, whole, shrinker.runs, shrinker.may_ask, shrinker.fence)
