"""Records a test's calls to a store, as a history that `regcheck` can check.

    with Recorder("history.jsonl") as recorder:
        with recorder.client() as client:
            with client.write("x") as write:
                store.set("x", write.value)
            with client.read("x") as read:
                read.value = store.get("x")

Entering a block writes the line of the call. How the block is left decides what is written then:

- Normally: a reply. By then a write must have been asked for its value, a read must have been given one, and
  a cas must have been told whether it took place.
- By an exception: nothing, since nobody knows what the store did. The call stays pending. Its process number
  is never used again; the client goes on under a new one.
- After `call.failed()`, or by one of the exceptions in `Recorder(failures=...)`: a fail. It says that the
  call certainly had no effect. Don't say it of a call that timed out: if the store did the write after all,
  that invents a fault.

The values of a register's writes are 1, 2, 3, and so on. A store of texts is given `str(write.value)`; a read
takes the number, its text, its bytes, or None if the store has no value.

A caller may choose the values itself, and repeat them, and may compare and swap (cas). `regsearch` checks
such a history, and `assert_atomic` chooses it:

    with client.write("lock", 0):
        store.set("lock", 0)
    with client.cas("lock", 0, 1) as cas:
        cas.ok = store.compare_and_set("lock", 0, 1)  # False only if the store found another value

A client has the other changes of a key-value store as well: `delete`, `swap`, `create` (put if absent),
`replace`, `lock` and `unlock`; and `expires` says that a value may be gone from then on:

    with client.create("lock", 7) as create:
        create.ok = store.set("lock", 7, nx=True)
    with client.delete("lock") as delete:
        delete.found = store.delete("lock") == 1

Threads and asyncio tasks share one recorder, and each takes a client of its own. No lock is held inside a
block, so a block may await; `async with` does the same as `with`.

A client of your store can be wrapped in place of blocks. It may be an async one, and tasks may share it:

    store = recorder.wrap(redis.Redis(), Methods(read="get", write="set", others=("ping",)))
    store.set("x", 1)

A program that forks needs a recorder in each of its processes, each with values of its own, and a clock:
`regkit merge` then makes one history of theirs. One that was carried over a fork refuses each call.

    Recorder(f"history-{number}.jsonl", clock=time.monotonic_ns, values_after=number * 1_000_000)

`recorder.counts` says how many calls there are, and `Recorder(progress=True)` shows it on the terminal.

A store that isn't empty gives values that this run never wrote. Empty it, or let the run use keys of its own:

    with Recorder("history.jsonl", prefix=f"run-{time.time_ns()}/") as recorder:
        with recorder.client("worker-3", node="replica-1") as client, client.write("x") as write:
            store.set(write.register, write.value)

A client's name and its node stand on its lines, so that `regkit explain` and `regkit draw` can show them.
"""
from regkit.recording.calls import Call, Cas, Read, Write
from regkit.recording.changes import Create, Delete, Lock, Replace, Swap, Unlock
from regkit.recording.client import Client
from regkit.recording.journal import Counts, RecordingError
from regkit.recording.recorder import Recorder
from regkit.recording.values import number_of
from regkit.recording.wrapped import Methods, Wrapped

__all__ = ["Call", "Cas", "Client", "Counts", "Create", "Delete", "Lock", "Methods", "Read", "Recorder",
           "RecordingError", "Replace", "Swap", "Unlock", "Wrapped", "Write", "number_of"]
