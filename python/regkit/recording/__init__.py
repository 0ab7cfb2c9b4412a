"""A history in the making. `regkit/record.py` says how to use it, and is what a test imports.

- `journal.py`: the lines, whole at every moment, and what all clients share.
- `values.py`: the values that a store gave, and those that a caller writes.
- `caller.py`: a thread or a task, which makes one call after another.
- `calls.py`: a call, open from the beginning of its `with` block to the end.
- `changes.py`: the calls of put-if-absent, replace, locks, delete and swap.
- `client.py`, `recorder.py`: what a test takes its calls from.
- `wrapped.py`: a client of a store whose calls record themselves."""
