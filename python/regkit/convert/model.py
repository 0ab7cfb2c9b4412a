"""What every reader gives: the source's operations, in the order in which they were called and ended."""
from collections import Counter
from functools import lru_cache
from typing import Any, Iterator, NamedTuple, Optional, Union

Client = Union[int, str]

# None is null, an int is a whole number of 64 bits, and a text is any other value, as EDN writes it.
Value = Union[None, int, str]

READS = frozenset({"read", "r", "get"})
WRITES = frozenset({"write", "w", "put", "set"})
CAS, APPEND = "cas", "append"
READ_AND_WRITE = frozenset({CAS, APPEND})  # operations that read and write at once
STATED = WRITES | {APPEND}  # whose calls have their values, which replies at most repeat
# What --ops makes a cas of: to write a value only where there is none, to write one and be answered the old
# one, to add or to subtract and be answered the new value, or the old one.
CREATE, SWAP, ADD, FETCH_ADD = "create", "swap", "add", "fetch-add"
SUBTRACT, FETCH_SUBTRACT = "subtract", "fetch-subtract"
ADDITIONS = frozenset({ADD, FETCH_ADD, SUBTRACT, FETCH_SUBTRACT})
# To write a value only where there is one, to delete one value alone, to take a lock and to give it back.
REPLACE, DELETE_IF, LOCK, UNLOCK = "replace", "delete-if", "lock", "unlock"
# To delete, and be answered nothing, how many values there were, or the old one; and to ask for no value.
DELETE, COUNT_DELETE, FETCH_DELETE, EXISTS = "delete", "count-delete", "fetch-delete", "exists"
DELETES = frozenset({DELETE, COUNT_DELETE, FETCH_DELETE})
UNASKED = READS | {COUNT_DELETE, FETCH_DELETE, EXISTS}  # whose calls have no value, but whose replies may
ANSWERED = READS | ADDITIONS | {SWAP, FETCH_DELETE, EXISTS}  # whose reply has a value that no call has
CHANGES = ADDITIONS | DELETES | {CREATE, SWAP, REPLACE, DELETE_IF, LOCK, UNLOCK, EXISTS}
CONDITIONAL = frozenset({CAS, CREATE, REPLACE, DELETE_IF, LOCK, UNLOCK})  # that need not take place
OTHER = "other"  # by --ops, an operation that is no read, no write and no cas
NO_KEY: Any = object()  # the key of an operation that names none
KEY_NAMES = ("register", "key", "k")  # members and columns that are the key, unless --key names another
KNOWN = READS | WRITES | READ_AND_WRITE | CHANGES
# By outcome, what ends an operation. A cas that missed found another value, and replied so.
ENDINGS = {"ok": "reply", "fail": "fail", "unknown": None, "missed": "missed"}


class Refused(Exception):
    """The source can't become a history: why, and what to do."""

    def __init__(self, why: str, line: Optional[int] = None) -> None:
        super().__init__(why if line is None else f"line {line}: {why}")


class WrongWords(Exception):
    """The options don't fit each other or the source."""


class SourceOperation:
    """A call with what ended it, as the source has it. `kind` is crash for a crash without an open call."""

    __slots__ = ("line", "end_line", "client", "kind", "key", "value", "expected", "unless", "clears",
                 "missed", "answer", "found", "old", "tells_old", "ending", "process", "time", "end_time",
                 "name", "node", "version", "told_version")

    def __init__(self, line: int, client: Client, kind: str, key: Any, value: Any) -> None:
        self.line = line
        self.client = client
        self.kind = kind  # "read", "write", "delete", "swap" or "cas" once it is settled
        self.key = key  # the source's own; once it is settled, the text by which EDN writes it
        self.value = value  # written; once it is settled, of a read what it gave. Of a cas both its values
        self.expected: Any = None  # once it is settled, the value that a cas asks for
        self.unless = False  # once it is settled, whether a cas asks for each value but that one
        self.clears = False  # once it is settled, whether a cas writes null, and so deletes
        self.missed = False  # once it is settled, whether a cas replied that it found another value
        self.found: Optional[bool] = None  # whether there was a value, if the reply says no more than that
        self.old: Any = None  # the value that a change met
        self.tells_old = False  # whether its reply says that
        self.answer: Any = None  # the value of the line that ended it
        self.ending: Optional[str] = None  # one of ENDINGS or "crash", and not "missed" once it is settled
        self.end_line: Optional[int] = None
        self.process = -1  # its number in the history
        self.time: Optional[int] = None  # of its call and of its end, in nanoseconds, if they are known
        self.end_time: Optional[int] = None
        self.name = ""  # of its client, if the source has one beside `client`
        self.node = ""  # that was asked, if the source says which
        self.version: Optional[int] = None  # that a put by version asks for, or that a read found
        self.told_version: Optional[int] = None  # that a put's reply tells

    @property
    def tells(self) -> bool:
        """Once it is settled, whether its reply says something of the value that it met."""
        told = self.kind in ("read", CAS) or self.tells_old or self.found is not None
        return told and self.ending == "reply"

    @property
    def values(self) -> tuple[Any, ...]:
        """Once it is settled, the values that its lines have."""
        return self.expected, self.value, self.old


class Choices(NamedTuple):
    """What the command line says of a source. Its words for operations, outcomes and members are folded."""

    form: str
    register: Optional[str] = None  # of operations without a key; by default "x", if none has a key
    key: Optional[str] = None  # the member or column that is the key
    keys: str = "auto"
    nulls: frozenset[str] = frozenset()
    initial: Optional[str] = None
    values: str = "auto"
    cas: str = "keep"
    skip_key: bool = False  # whether to leave out keys that something else touches than operations of one
    failed_cas: str = "fail"  # or missed
    versions: Optional[str] = None  # the member by which a put is a cas
    revisions: bool = False  # whether versions may skip numbers
    new_revisions: Optional[str] = None  # the member in which a put is answered the version that it gave
    drop_versions: bool = False  # whether each value is [version value]
    columns: dict[str, str] = {}
    delimiter: Optional[str] = None
    ops: dict[str, str] = {}  # the source's word for an operation -> read, write, cas or other
    outcomes: dict[str, str] = {}  # the source's word for an outcome -> one of ENDINGS
    ok_when: dict[str, frozenset[str]] = {}  # a member -> the words in it that say that all went well
    ignored: frozenset[str] = frozenset()  # members that mean nothing
    answers: dict[str, bool] = {}  # a word that a store answers -> whether the operation took place
    clock_error: Optional[str] = None
    clock_unit: Optional[str] = None
    duration_unit: Optional[str] = None

    def key_names(self) -> tuple[str, ...]:
        """The members that may be the key, folded."""
        names = KEY_NAMES if self.key is None else (self.key,)
        return tuple(name for name in names if not self.explains(name))

    def kind_of(self, word: str) -> str:
        """What a word of the source does, if the command line says so; else the word."""
        return self.ops.get(folded(word), word) if self.ops else word

    def failure_of(self, kind: str) -> str:
        """What a form's own word for a failure says of an operation."""
        return "missed" if kind in CONDITIONAL and self.failed_cas == "missed" else "fail"

    def explains(self, *members: str) -> bool:
        """Whether the command line says what one of some members means."""
        return any(member in self.ignored or member in self.ok_when for member in members)


@lru_cache(maxsize=10_000)  # a source says few words very often
def folded(word: str) -> str:
    """A word of the source or of the command line, as both are compared: in any case, with a colon or not."""
    return word.strip().lstrip(":").lower()


class Source:
    """The operations: each stands where it was called and, if anything ended it, again where it ended."""

    def __init__(self, steps: list[SourceOperation]) -> None:
        self.steps = steps
        self.left_out: dict[str, int] = Counter()  # which lines were left out -> how many
        self.skipped = ""  # which keys were left out, in words
        self.notes: list[str] = []  # what else a person should know
        self.lists: set[str] = set()  # the keys to which something is appended
        self.starts: dict[str, Value] = {}  # by key, the value with which alone it starts

    def moments(self) -> Iterator[tuple[SourceOperation, bool]]:
        """Each step, and whether it is the operation's call."""
        called: set[SourceOperation] = set()
        for operation in self.steps:
            if operation in called:
                called.remove(operation)
                yield operation, False
                continue
            if operation.ending is not None:
                called.add(operation)
            yield operation, True

    def operations(self) -> Iterator[SourceOperation]:
        """Each operation once, in the order of the calls. A crash without an open call is none."""
        return (step for step, is_call in self.moments() if is_call and step.kind != "crash")

    def leave_out(self, operations: set[SourceOperation]) -> None:
        """Leaves out operations, but for the crashes that ended them."""
        kept: list[SourceOperation] = []
        for step, is_call in self.moments():
            if step not in operations:
                kept.append(step)
            elif not is_call and step.ending == "crash":
                crash = SourceOperation(step.end_line or step.line, step.client, "crash", None, None)
                crash.process, crash.time, crash.name, crash.node = (
                    step.process, step.end_time, step.name, step.node)
                kept.append(crash)
        self.steps = kept
