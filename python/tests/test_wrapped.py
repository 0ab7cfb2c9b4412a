"""What a recorder writes of a wrapped client, and of asyncio's tasks."""
import asyncio
import contextlib
import json
import unittest
from typing import Any, Callable, Dict, List, Tuple
from unittest import mock

from regkit.checker.programs import run_checker
from regkit.record import Methods, Recorder, RecordingError

from .test_record import Lost, Refused, lines, told


class Shop:
    """A client of a store, as many are made."""

    address = "10.0.0.1"

    def __init__(self) -> None:
        self.held: Dict[Any, Any] = {}

    def get(self, key: str) -> Any:
        return self.held.get(key)

    def set(self, key: str, value: Any, only: bool = False) -> Any:
        self.held[key] = str(value).encode()
        return True

    def swap(self, key: str, asked: Any, value: Any) -> Any:
        found = self.held.get(key) == (None if asked is None else str(asked).encode())
        if found:
            self.set(key, value)
        return found

    def delete(self, key: str) -> Any:
        return self.held.pop(key, None) is not None

    def clear(self) -> None:
        self.held.clear()

    def ping(self) -> str:
        return "pong"


class AsyncShop(Shop):
    """The same, whose answers are awaited."""

    async def later(self, answer: Any) -> Any:
        await asyncio.sleep(0.001)
        return answer

    def get(self, key: str) -> Any:  # a plain method that gives a coroutine
        return self.later(self.held.get(key))

    async def set(self, key: str, value: Any, only: bool = False) -> Any:
        await asyncio.sleep(0.001)
        self.held[key] = str(value).encode()
        return await self.later(None)

    def delete(self, key: str) -> Any:
        return self.later(self.held.pop(key, None) is not None)


class WrappedClients(unittest.TestCase):
    METHODS = Methods(cas="swap", others=("ping",))

    def test_each_call_is_recorded(self) -> None:
        recorder = Recorder(prefix="run/")
        store = Shop()
        shop = recorder.wrap(store, self.METHODS, name="ann", node="n1")
        self.assertEqual([shop.get("x"), shop.set("x", 1), shop.get("x"), shop.swap("x", 1, 2),
                          shop.swap("x", None, 3)], [None, True, b"1", True, False])
        self.assertEqual(store.held, {"run/x": b"2"})
        own = '"register":"run/x"'
        who = '"client":"ann","node":"n1"}'
        self.assertEqual(lines(recorder), [f'{{"process":1,"event":{line},{who}' for line in [
            f'"call","op":"read",{own}', f'"reply",{own},"value":null',
            f'"call","op":"write",{own},"value":1', f'"reply",{own}',
            f'"call","op":"read",{own}', f'"reply",{own},"value":1',
            f'"call","op":"cas",{own},"from":1,"to":2', f'"reply",{own},"ok":true',
            f'"call","op":"cas",{own},"from":null,"to":3', f'"reply",{own},"ok":false']])

    def test_what_is_not_understood_is_a_mistake_and_asks_nothing_of_the_store(self) -> None:
        recorder = Recorder()
        store = Shop()
        shop = recorder.wrap(store, self.METHODS)
        shop.set("x", 1)
        table: List[Tuple[Callable[[], Any], str]] = [
            (lambda: shop.clear(), r"clear isn't recorded.*delete=\.\."),
            (lambda: shop.delete("x", "y"), r"delete\('x', 'y'\) isn't understood: it takes the key and"),
            (lambda: shop.set("x", 2, True), r"set\('x', 2, True\) isn't understood"),
            (lambda: shop.set("x", 2, only=True), r"set\('x', 2, only=True\) isn't understood"),
            (lambda: shop.get(key="x"), r"get\(key='x'\) isn't understood"),
            (lambda: shop.set("x", "red"), "set was given 'red'"),
            (lambda: shop.set("x", None), "set writes None"),
            (lambda: shop.swap("x", 1.5, 2), "swap was given 1.5")]
        for call, why in table:
            with self.assertRaisesRegex(RecordingError, why):
                call()
        self.assertEqual((len(recorder.mistakes), len(lines(recorder)), store.held), (8, 2, {"x": b"1"}))

    def test_answers_that_are_not_understood_leave_the_call_pending(self) -> None:
        for odd in (False, "OK", 0):
            recorder, store = Recorder(), Shop()
            with mock.patch.object(store, "set", mock.Mock(return_value=odd)):
                with self.assertRaisesRegex(RecordingError, "let Methods.is_written"):
                    recorder.wrap(store).set("x", 1)
                self.assertEqual((len(lines(recorder)), recorder.counts.unanswered), (1, 1))
                shop = recorder.wrap(store, Methods(is_written=lambda answer: True))
                self.assertEqual(shop.set("x", 2), odd)
                self.assertEqual(recorder.counts.answered, 1)
        for answer in (None, 1, "yes"):
            recorder, store = Recorder(), Shop()
            with mock.patch.object(store, "swap", mock.Mock(return_value=answer)):
                with self.assertRaisesRegex(RecordingError, "True if it took place"):
                    recorder.wrap(store, self.METHODS).swap("x", 1, 2)
            self.assertEqual(recorder.counts.unanswered, 1)

    def test_what_a_delete_found(self) -> None:
        def nothing(answer: Any) -> None:
            """The answer doesn't tell."""

        table: List[Tuple[Any, Any, str]] = [
            (None, None, ""), (bool, 1, ',"found":true'), (bool, 0, ',"found":false'), (nothing, True, ""),
            (nothing, 1, "")]
        for found_of, answer, told in table:
            recorder, store = Recorder(), Shop()
            with mock.patch.object(store, "delete", mock.Mock(return_value=answer)) as delete:
                shop = recorder.wrap(store, Methods(found_of=found_of))
                self.assertEqual(shop.delete("x"), answer)
            delete.assert_called_once_with("x")
            self.assertEqual(lines(recorder), [
                '{"process":1,"event":"call","op":"delete","register":"x"}',
                f'{{"process":1,"event":"reply","register":"x"{told}}}'])

    def test_deletes_whose_answer_is_not_understood_stay_pending(self) -> None:
        table: List[Tuple[Methods, Any, str]] = [
            (Methods(), True, r"a delete of 'x' was answered True: say Methods\(found_of=bool\)"),
            (Methods(), 1, "a delete of 'x' was answered 1: say"),
            (Methods(found_of=mock.Mock(return_value=1)), 1, "a delete of 'x' was told 1: `delete.found` is")]
        for methods, answer, why in table:
            recorder, store = Recorder(), Shop()
            with mock.patch.object(store, "delete", mock.Mock(return_value=answer)):
                with self.assertRaisesRegex(RecordingError, why):
                    recorder.wrap(store, methods).delete("x")
            self.assertEqual((len(lines(recorder)), recorder.counts.unanswered), (1, 1))
            self.assertEqual(len(recorder.mistakes), 1)

    def test_the_value_in_an_answer(self) -> None:
        recorder, store = Recorder(), Shop()
        with mock.patch.object(store, "get", lambda key: ("7", "version 3")):
            found = recorder.wrap(store, Methods(value_of=lambda answer: answer[0])).get("x")
        self.assertEqual((found, json.loads(lines(recorder)[-1])["value"]), (("7", "version 3"), 7))

    def test_other_members_are_the_stores_own(self) -> None:
        recorder = Recorder()
        shop = recorder.wrap(Shop(), self.METHODS)
        self.assertEqual((shop.address, shop.ping()), ("10.0.0.1", "pong"))
        self.assertFalse(hasattr(shop, "none") or hasattr(shop, "_private"))
        self.assertTrue(callable(shop.clear))  # it is there, and only a call of it is a mistake
        self.assertEqual((recorder.mistakes, lines(recorder)), ([], []))

    def test_exceptions_end_calls_as_in_a_block(self) -> None:
        for raised, ending in [(Lost, []), (Refused, ['{"process":1,"event":"fail","register":"x"}'])]:
            recorder, store = Recorder(failures=Refused), Shop()
            with mock.patch.object(store, "get", mock.Mock(side_effect=raised)), self.assertRaises(raised):
                recorder.wrap(store).get("x")
            self.assertEqual(lines(recorder)[1:], ending)

    def test_tasks_share_an_async_client(self) -> None:
        async def use() -> Recorder:
            async with Recorder() as recorder:
                shop = recorder.wrap(AsyncShop(), Methods(found_of=bool), name="ann")
                await asyncio.gather(*(shop.set(key, value) for value, key in enumerate("xyxyxy", 1)))
                found = await asyncio.gather(*(shop.get(key) for key in "xyz"))
                self.assertIn(found[0], [b"1", b"3", b"5"])
                self.assertIsNone(found[2])
                self.assertEqual(await asyncio.gather(*(shop.delete(key) for key in "xz")), [True, False])
                return recorder

        recorder = asyncio.run(use())
        self.assertEqual(told(lines(recorder)), {"call": 11, "reply": 11, "fail": 0, "crash": 0})
        self.assertEqual({json.loads(line)["process"] for line in lines(recorder)}, set(range(1, 7)))

    def test_a_cancelled_task_leaves_its_call_pending(self) -> None:
        async def use(recorder: Recorder) -> None:
            store = AsyncShop()
            with mock.patch.object(store, "get", lambda key: asyncio.sleep(60)):
                await asyncio.wait_for(recorder.wrap(store).get("x"), 0.01)

        recorder = Recorder()
        with self.assertRaises(asyncio.TimeoutError):
            asyncio.run(use(recorder))
        self.assertEqual((recorder.counts.reads, recorder.counts.unanswered), (1, 1))


class Asyncio(unittest.TestCase):
    def test_tasks_await_within_their_calls(self) -> None:
        recorder, values = Recorder(), {"x": "0"}

        async def task() -> None:
            with recorder.client() as client:
                for _ in range(10):
                    with client.write("x") as write:
                        await asyncio.sleep(0)
                        values["x"] = str(write.value)
                        await asyncio.sleep(0)
                    with client.read("x") as read:
                        await asyncio.sleep(0)
                        read.value = values["x"]

        async def run() -> None:
            await asyncio.gather(*(task() for _ in range(5)))

        asyncio.run(run())
        history = [json.loads(line) for line in lines(recorder)]
        self.assertEqual([event["event"] for event in history[:5]], ["call"] * 5)  # all open at once
        self.assertEqual({event["process"] for event in history}, {1, 2, 3, 4, 5})
        self.assertEqual(told(lines(recorder))["reply"], 100)
        self.assertEqual(run_checker(recorder.history()).status, 0)

    def test_async_with(self) -> None:
        async def use() -> Recorder:
            async with Recorder() as recorder, recorder.client("ann") as client:
                async with client.write("x") as write:
                    await asyncio.sleep(0)
                    self.assertEqual(write.value, 1)
                with contextlib.suppress(Lost):
                    async with client.read("x"):
                        raise Lost
                async with client.cas("x", 1, 2) as cas:
                    cas.ok = True
                async with recorder.read("x") as read:
                    read.value = 2
            return recorder

        recorder = asyncio.run(use())
        self.assertEqual([json.loads(line)["process"] for line in lines(recorder)], [1, 1, 1, 2, 2, 3, 3])
        with self.assertRaisesRegex(RecordingError, "the recorder is closed"):
            recorder.client().read("x").__enter__()

    def test_a_client_that_dies_in_a_task_crashes(self) -> None:
        async def use(recorder: Recorder) -> None:
            async with recorder.client() as client, client.read("x"):
                raise Lost

        recorder = Recorder()
        with self.assertRaises(Lost):
            asyncio.run(use(recorder))
        self.assertEqual(lines(recorder)[1:], ['{"process":1,"event":"crash"}'])

    def test_a_time_out_is_pending(self) -> None:
        recorder = Recorder()

        async def run() -> None:
            with contextlib.suppress(asyncio.TimeoutError), recorder.write("x") as write:
                await asyncio.wait_for(asyncio.sleep(10, write.value), 0.001)
            with recorder.read("x") as read:
                read.value = None

        asyncio.run(run())
        self.assertEqual(told(lines(recorder)), {"call": 2, "reply": 1, "fail": 0, "crash": 0})

    def test_a_cancelled_task_crashes(self) -> None:
        recorder = Recorder()

        async def task() -> None:
            with recorder.client() as client, client.write("x") as write:
                await asyncio.sleep(10, write.value)

        async def run() -> None:
            running = asyncio.ensure_future(task())
            await asyncio.sleep(0)
            running.cancel()
            await asyncio.gather(running, return_exceptions=True)

        asyncio.run(run())
        self.assertEqual(lines(recorder)[1:], ['{"process":1,"event":"crash"}'])


if __name__ == "__main__":
    unittest.main()
