"""Runs each cache with many seeds. history.jsonl is the last run: the first that failed, if any did."""
import unittest

from cache import Cache, CountingCache, LockingCache
from regkit.testing import assert_atomic
from workload import record


class TestCache(unittest.TestCase):
    kind = Cache

    def test_many_runs(self):
        for seed in range(200):
            assert_atomic(record("history.jsonl", seed, self.kind))


class TestCountingCache(TestCache):
    kind = CountingCache


class TestLockingCache(TestCache):
    kind = LockingCache
