"""What may be behind a fault: the fresh read beside the stale one, lost writes, and what to ask."""
from typing import NamedTuple, Optional

from regkit.explain.sentences import failed_write, named
from regkit.explain.surroundings import FOREVER, SUSPECT, end_of, find_surroundings
from regkit.explain.unexplained import Unexplained
from regkit.history.operations import History, Operation
from regkit.words.phrases import counted

EMPTY = ("was the store empty when the recording began? A value that an earlier run wrote looks like this: "
         "start with an empty store, or with keys that no run has used")
FORGETS = ("may the store forget, by expiry (TTL) or when its memory is full (maxmemory)? A value that it "
           "forgot reads as null: docs/recipes.md says how to test a cache that may forget")
FAILOVER = ("did a server stop, or another one take its place? Writes that are answered before they are on "
            "disk, or on the other servers, are lost then")


class StalePair(NamedTuple):
    """A read that gave an older value, and an operation that had ended with the newer one before it began."""

    fresh: Operation
    stale: Operation

    def in_words(self) -> str:
        if self.fresh.kind == "write":
            return f"so {named(self.stale)} is stale"
        return f"{named(self.fresh)} is the fresh read, and {named(self.stale)} the stale one"


def ended_before(call: Operation, other: Operation) -> bool:
    return call.completed and (call.end_line or 0) < other.line


def stale_pair(pairs: list[tuple[Operation, Operation]], calls: list[Operation],
               read: Optional[Operation] = None) -> Optional[StalePair]:
    """The stale read of a contradiction: `read` if that is one, else the later read of the second precedence.
    The fresh operation is the last read of the newer value that ended before it, or else that of the
    precedence."""
    found = [(before, after) for before, after in reversed(pairs) if after.kind == "read" and before.line]
    if not found:
        return None
    fresh, stale = next((pair for pair in found if pair[1] is read), found[0])
    reads = [call for call in calls
             if call.kind == "read" and call.value == fresh.value and ended_before(call, stale)]
    return StalePair(reads[-1] if reads else fresh, stale)


class Lost(NamedTuple):
    """Completed writes that a stale read ignored, and whose values no later read gave."""

    read: Operation
    writes: list[Operation]
    surely: bool  # another read ignored them too, before there was another write

    def in_words(self) -> str:
        """How many they are."""
        one = len(self.writes) == 1
        if self.surely:
            verb = "was" if one else "were"
            after = f"no later read gave {'its value' if one else 'their values'}"
        else:
            verb, after = "may be", "nothing came after it"
        number = counted(len(self.writes), "answered write")
        return (f"{number} {verb} lost: the read of line {self.read.line} ignored {'it' if one else 'them'}, "
                f"and {after}")


def find_lost(told: Unexplained, calls: list[Operation]) -> Optional[Lost]:
    """The writes that were lost. None if they may as well be overwritten, or if another read may have put the
    old value back."""
    old, read = told.write, told.read
    if told.kind != "zones" or old is None or not old.completed:
        return None
    writes = [call for call in calls
              if call.kind == "write" and ended_before(old, call) and ended_before(call, read)]
    values = {write.value for write in writes}
    later = [call for call in calls if call.kind == "read" and call.completed and call.line > read.line]
    if not writes or any(call.value in values for call in later):
        return None
    others = [call.line for call in calls
              if call.kind == "write" and not call.failed and end_of(call) > read.line]
    following = min(others, default=FOREVER)
    surely = any(end_of(call) < following for call in later)
    if following < end_of(read) or not (surely or not (later or others)):
        return None
    suspect = any(each.rank == SUSPECT for each in find_surroundings(told, calls).bystanders)
    return None if suspect and len(writes) == 1 else Lost(read, writes, surely)


def questions(history: History, told: Unexplained, lost: Optional[Lost]) -> list[str]:
    """What to ask before the store is blamed."""
    asked = []
    if told.kind in ("unwritten", "early") and failed_write(history, told.read) is None:
        asked.append(EMPTY)
    if told.kind == "zones" and told.read.value is None:
        asked.append(FORGETS)
    if lost:
        asked.append(FAILOVER)
    return asked
