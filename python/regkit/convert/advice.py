"""What to do about an operation that is none of a register, as far as the options say."""
import shlex

from regkit.convert import stores
from regkit.convert.model import OTHER, READS, READ_AND_WRITE, WRITES, folded

# Words of stores for operations, by what they are.
_CREATES = frozenset({"create", "insert", "insertifabsent", "insert-if-absent", "put-if-absent",
                      "put_if_absent", "putifabsent", "setnx"})
_SWAPS = frozenset({"exchange", "get-and-set", "get_and_set", "getandput", "getandset", "getset", "swap",
                    "xchg"})
_ADDS = frozenset({"add", "addandget", "fetch-add", "fetch_add", "fetchadd", "getandadd", "getandincrement",
                   "inc", "incr", "incrby", "increment", "incrementandget"})
_TAKES = ("dec", "sub")  # how words begin for what takes away from a number
_APPENDS = frozenset({"addlast", "concat", "push", "rpush", "strappend"})
_REPLACES = frozenset({"put-if-present", "put_if_present", "putifpresent", "setxx"})
_LOCKS = frozenset({"acquire", "lock", "try-lock", "try_lock", "trylock"})
_UNLOCKS = frozenset({"release", "unlock"})
_DELETES = frozenset({"del", "erase", "getanddelete", "getandremove", "getdel", "remove", "rm", "unlink",
                      "unset"})
_ASKS = frozenset({"contains", "contains-key", "contains_key", "containskey", "has"})
_FORGETS = frozenset({"clear", "evict", "expire", "expireat", "flush", "flushall", "invalidate", "persist",
                      "ttl"})


def takes_away(word: str) -> bool:
    """Whether a word of the source is one for a subtraction."""
    return folded(word).startswith(_TAKES)


def not_taken(kind: str) -> str:
    """What to say of it."""
    if kind in READ_AND_WRITE:
        return (f"{kind} reads and writes at once, and by --cas refuse only reads and writes are taken: keep "
                "it for regsearch with --cas keep, leave it out of the workload, or leave out the keys that it "
                "touches with --cas skip-key")
    if kind == OTHER:
        return ("by --ops this is neither a read nor a write nor a cas: leave out the keys that it touches "
                "with --skip-key")
    option = f"--ops {shlex.quote(kind + '=')}"
    word, tools = folded(kind), ", or check queues, sets and counters with Knossos or Porcupine"
    known = [store for store, words in stores.OPS.items() if word in words]
    named = " or ".join(known)
    what = f"is a word of {named}: say " if known and not _is_known(word) else _what(word, option)
    store = f"--store {named} in a table of its calls, or " if known else ""
    return (f"{kind} {what}{store}leave out the keys that it touches with {option}other "
            f"--skip-key{'' if known or _is_known(word) else tools}")


def _is_known(word: str) -> bool:
    return takes_away(word) or word in (_CREATES | _REPLACES | _SWAPS | _ADDS | _APPENDS | _LOCKS | _UNLOCKS
                                        | _DELETES | _ASKS | _FORGETS)


def _what(word: str, option: str) -> str:
    """What an operation by this word most often is, and what says so."""
    if word in _CREATES:
        return (f"writes only where there is no value, which is a cas from null: say {option}create if its "
                "reply tells whether it did, or ")
    if word in _SWAPS:
        return ("writes a value and is answered the old one, which is a cas from that to the new one: say "
                f"{option}swap if its reply has the old value, or ")
    if word in _ADDS:
        return (f"adds to a value, which is a cas from the old value to the new one: say {option}add if its "
                f"reply has the new value, {option}fetch-add if it has the old one, or ")
    if takes_away(word):
        return (f"takes from a value, which is a cas from the old value to the new one: say {option}subtract "
                f"if its reply has the new value, {option}fetch-subtract if it has the old one, or ")
    if word in _APPENDS:
        return (f"may append to a text or a list: say {option}append if what is appended stands behind all "
                "that was there, and reads give the whole, or ")
    return _what_without(word, option)


def _what_without(word: str, option: str) -> str:
    """The same of what takes a value away, asks for one, or is of a lock."""
    if word in _REPLACES:
        return (f"writes only where there is a value: say {option}replace if its reply tells whether it did, "
                "or ")
    if word in _LOCKS:
        return (f"is of a lock: say {option}lock if nobody gets it while anybody has it, the same client "
                "neither (a reentrant lock or a semaphore is no register), with --ops WORD=unlock for what "
                "gives it back, or ")
    if word in _UNLOCKS:
        return f"is of a lock: say {option}unlock if it gives back what --ops WORD=lock took, or "
    if word in _DELETES:
        return (f"may delete a value: say {option}delete if its reply tells nothing of what was there, "
                f"{option}count-delete if it has how many values there were, 1 or 0, {option}fetch-delete "
                f"if it has the old value, {option}delete-if if it deletes one value alone, or ")
    if word in _ASKS:
        return f"may ask whether there is a value: say {option}exists if its reply tells that, or "
    if word in _FORGETS:
        return ("may take values away at a moment that it doesn't say: a recorder writes that as "
                "docs/recipes.md says of expiry, or ")
    return (f"is no word for a read ({', '.join(sorted(READS))}) or a write ({', '.join(sorted(WRITES))}) or "
            f"a cas: say {option}read or {option}write or {option}cas if it is one, ")
