"""A cache in front of a database, and two attempts to mend it."""
import asyncio
import random


class Network:
    """Delays that depend on the seed alone, so that two runs with the same seed are the same."""

    def __init__(self, seed):
        self.random = random.Random(seed)

    async def delay(self):
        for _ in range(self.random.randrange(10)):
            await asyncio.sleep(0)  # lets the other clients go on


class Cache:
    def __init__(self, network):
        self.network = network
        self.database = {}
        self.cache = {}

    async def write(self, key, value):
        await self.network.delay()
        self.database[key] = value
        await self.network.delay()
        self.cache.pop(key, None)  # the next read asks the database

    async def read(self, key):
        await self.network.delay()
        if key in self.cache:
            return self.cache[key]
        value = self.database.get(key)
        await self.network.delay()
        if value is not None:
            self.cache[key] = value  # the next read is fast
        return value


class CountingCache(Cache):
    """Doesn't keep what it read from the database if a write of the key ended meanwhile."""

    def __init__(self, network):
        super().__init__(network)
        self.writes = {}

    async def write(self, key, value):
        await super().write(key, value)
        self.writes[key] = self.writes.get(key, 0) + 1

    async def read(self, key):
        await self.network.delay()
        if key in self.cache:
            return self.cache[key]
        writes = self.writes.get(key)
        value = self.database.get(key)
        await self.network.delay()
        if value is not None and self.writes.get(key) == writes:
            self.cache[key] = value
        return value


class LockingCache(Cache):
    """Lets no write of a key come between asking the database and filling the cache."""

    def __init__(self, network):
        super().__init__(network)
        self.locks = {}

    def lock(self, key):
        return self.locks.setdefault(key, asyncio.Lock())

    async def write(self, key, value):
        async with self.lock(key):
            await super().write(key, value)

    async def read(self, key):
        if key in self.cache:
            return self.cache[key]
        async with self.lock(key):
            return await super().read(key)
