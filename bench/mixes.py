"""The operations of the histories of register_histories.py: when each takes place, and what its lines say.

A mix is the operations of a workload, each as often as it is called. `create` deletes and puts if absent, and
`kv` does all that a key-value store does to one key. Those of `append`, `versions` and `incr` have lines once
they are converted (converted.py)."""
from typing import Callable, Dict, List, NamedTuple, Optional

Value = Optional[int]


class Operation(NamedTuple):
    """What is done to a register. Members of lines are given behind the others."""

    word: str  # its op
    takes_place: Callable[[Value, Value], bool]  # by the value that it finds, and the one that it asks for
    asked: Callable[[Value, Value], str]  # the members of its call, by what it asks for and what it writes
    told: Callable[[Value, bool], str]  # those of its reply, by what it finds and whether it took place
    clears: bool = False  # whether it writes null
    left: Callable[[Value, Value], Value] = lambda _, new: new  # by what it finds and what it writes

    @property
    def looks(self) -> bool:
        """Whether a store that is at fault may do it to an old value."""
        return self.word in ("cas", "append", "put", "incr")


def shown(value: Value) -> str:
    return "null" if value is None else str(value)


def nothing(*_: object) -> str:
    return ""


def always(*_: object) -> bool:
    return True


def written(_: Value, new: Value) -> str:
    return f',"value":{new}'


def change(asks: str, asked: Callable[[Value], Value], old: bool = False) -> Callable[[Value, Value], str]:
    """The members of a cas."""
    return lambda expected, new: (f',"{asks}":{shown(asked(expected))},"to":{shown(new)}'
                                  + (',"old":true' if old else ""))


def took_place(_: Value, took: bool) -> str:
    return f',"ok":{"true" if took else "false"}'


OPERATIONS: Dict[str, Operation] = {
    "read": Operation("read", lambda *_: False, nothing, lambda found, _: f',"value":{shown(found)}'),
    "write": Operation("write", always, written, nothing),
    "cas": Operation("cas", lambda found, asked: found == asked, change("from", lambda asked: asked),
                     took_place),
    "cas-old": Operation(
        "cas", lambda found, asked: found == asked, change("from", lambda asked: asked, old=True),
        lambda found, took: took_place(found, took) + f',"old":{shown(found)}'),
    "clear": Operation("cas", lambda found, asked: found == asked, change("from", lambda asked: asked),
                       took_place, clears=True),
    "create": Operation("cas", lambda found, _: found is None, change("from", lambda _: None), took_place),
    "replace": Operation("cas", lambda found, _: found is not None, change("unless", lambda _: None),
                         took_place),
    "swap": Operation("swap", always, written, lambda found, _: f',"old":{shown(found)}'),
    "delete": Operation("delete", always, nothing, nothing, clears=True),
    "delete-found": Operation("delete", always, nothing, lambda found, _: (
        f',"found":{"false" if found is None else "true"}'), clears=True),
    # These aren't operations of a history. A value is the put or the append that made it, or a count.
    "append": Operation("append", always, nothing, nothing),
    "put": Operation("put", lambda found, asked: found == asked, nothing, nothing),
    "incr": Operation("incr", always, nothing, nothing, left=lambda found, _: (found or 0) + 1),
}

# How often of ten and of twenty calls each operation is called.
MIXES: Dict[str, List[str]] = {
    "create": 3 * ["read"] + 3 * ["delete-found"] + ["delete"] + 3 * ["create"],
    "kv": (6 * ["read"] + 2 * ["write"] + ["delete"] + 2 * ["delete-found"] + 3 * ["create"] + 2 * ["replace"]
           + ["swap", "cas-old", "clear", "cas"]),
    "append": ["read", "append"],
    "versions": ["read", "put"],
    "incr": 3 * ["read"] + 7 * ["incr"],
}
CONVERTED = frozenset({"append", "versions", "incr"})  # whose histories are those of conversions
NULL_ASKED = 6  # one cas of these asks for null, in a mix
