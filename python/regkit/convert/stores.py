"""The words of stores, by --store: what their operations are, and what a change is answered.

    redis       SET k v NX is `set nx` in a table, SET k v XX `set xx`, and SET k v GET `getset`
    memcached   gets and cas by token are puts by version: --revisions, with --ops cas=write
"""
from regkit.convert.model import (ADD, COUNT_DELETE, CREATE, DELETE, EXISTS, FETCH_DELETE, REPLACE, SUBTRACT,
                                  SWAP)

# By store and its word, what it is.
OPS = {
    "redis": {
        "get": "read", "set": "write", "setnx": CREATE, "set nx": CREATE, "set xx": REPLACE, "getset": SWAP,
        "set get": SWAP, "getdel": FETCH_DELETE, "del": COUNT_DELETE, "unlink": COUNT_DELETE,
        "exists": EXISTS, "incr": ADD, "incrby": ADD, "decr": SUBTRACT, "decrby": SUBTRACT},
    "memcached": {
        "get": "read", "set": "write", "add": CREATE, "replace": REPLACE, "delete": DELETE},
}
# By store, the words that a change is answered: whether it took place. Others aren't understood.
ANSWERS = {
    "redis": {"ok": True, "1": True, "0": False, "(nil)": False, "nil": False},
    "memcached": {"stored": True, "not_stored": False, "deleted": True, "not_found": False, "exists": False},
}
# By store, how it shows that there is no value.
NULLS = {"redis": "(nil)"}
