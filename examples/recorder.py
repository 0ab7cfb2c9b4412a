#!/usr/bin/env python3
"""Four clients use a store at once, and what they call and get is written to standard output.

    examples/recorder.py | bin/regcheck

The store is a dictionary behind a lock, so the history is atomic. Put the store under test in its place: what
times out there is `TimeoutError` here, and what certainly did nothing is `ConnectionRefusedError`. The line
with `sys.path` is for the repository. With a release, say `export PYTHONPATH=$(command -v regkit)` first."""
import pathlib
import random
import sys
import threading
import time
from contextlib import suppress

sys.path.insert(0, str(pathlib.Path(__file__).resolve().parents[1] / "python"))

from regkit.record import Recorder


class Killed(Exception):
    """The client stops in the middle of a call."""


class Store:
    """The store under test. At times no answer comes to a write, whether it took effect or not."""

    def __init__(self):
        self.values, self.lock = {}, threading.Lock()

    def set(self, register, value):
        luck = random.random()
        if luck < 0.1:
            raise ConnectionRefusedError
        with self.lock:
            if luck > 0.2:
                self.values[register] = value
        if luck < 0.3:
            raise TimeoutError

    def get(self, register):
        with self.lock:
            return self.values.get(register)


def call(client, store):
    """One call. A write that timed out stays pending, and the client goes on under a new number. A write that
    was refused has failed."""
    register = random.choice(["x", "y"])
    if random.random() < 0.5:
        with suppress(TimeoutError, ConnectionRefusedError), client.write(register) as write:
            store.set(register, write.value)
            if random.random() < 0.02:
                raise Killed
    else:
        with client.read(register) as read:
            read.value = store.get(register)


def use(recorder, store, name):
    """One client. If it is killed, its process crashes, and another client takes its place. Its lines have
    its name, and that of the server that it asks."""
    calls = 100
    while calls > 0:
        with suppress(Killed), recorder.client(name, node="store-1") as client:
            while calls > 0:
                calls -= 1
                call(client, store)


def main():
    store = Store()
    with Recorder(sys.stdout, failures=ConnectionRefusedError, clock=time.monotonic_ns) as recorder:
        clients = [threading.Thread(target=use, args=(recorder, store, f"worker-{n}")) for n in range(4)]
        for client in clients:
            client.start()
        for client in clients:
            client.join()


if __name__ == "__main__":
    main()
