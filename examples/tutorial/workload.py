"""Three clients use a cache at once, and what they see is recorded: workload.py HISTORY SEED"""
import asyncio
import random
import sys

from cache import Cache, Network
from regkit.record import Recorder


async def use(cache, client, own, choose):
    """One client: it reads any key, and writes its own."""
    for _ in range(6):
        key = choose.choice(["user:1", "user:2"])
        if key == own and choose.random() < 0.6:
            with client.write(key) as write:
                await cache.write(key, str(write.value))
        else:
            with client.read(key) as read:
                read.value = await cache.read(key)


async def use_by_three(cache, recorder, seed):
    with recorder.client() as one, recorder.client() as two, recorder.client() as three:
        await asyncio.gather(use(cache, one, "user:1", random.Random(f"{seed} one")),
                             use(cache, two, "user:2", random.Random(f"{seed} two")),
                             use(cache, three, None, random.Random(f"{seed} three")))


def record(output, seed, kind=Cache):
    """Records a run, to a path or in memory. The run depends on the seed alone."""
    with Recorder(output) as recorder:
        asyncio.run(use_by_three(kind(Network(seed)), recorder, seed))
    return recorder


if __name__ == "__main__":
    record(sys.argv[1], int(sys.argv[2]))
