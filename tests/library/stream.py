"""Answers each history on standard input, by regkit's library. Its form is that of stream.c, with
the refusal's words.

With two arguments, of steps and configurations, it searches within these bounds; with the options of reglevel
it asks for the levels."""
import argparse
import os
import pathlib
import struct
import sys

sys.path.insert(0, str(pathlib.Path(__file__).resolve().parents[2] / "python"))
from regkit.library import Library, Told  # noqa: E402


def words() -> argparse.Namespace:
    reader = argparse.ArgumentParser()
    reader.add_argument("bounds", nargs="*", type=int)
    reader.add_argument("--require")
    reader.add_argument("--stale", action="store_true")
    reader.add_argument("--orders", action="store_true")
    return reader.parse_args()


def asked(library: Library, history: bytes, given: argparse.Namespace) -> Told:
    if given.require:
        return library.levels(history, given.require, stale=given.stale, orders=given.orders)
    return library.search(history, *given.bounds) if given.bounds else library.check(history)


def main() -> None:
    library, given = Library(os.environ["REGCHECK_LIBRARY"]), words()
    while head := sys.stdin.buffer.read(8):
        history = sys.stdin.buffer.read(*struct.unpack("<Q", head))
        told = asked(library, history, given)
        said = told.report or told.refusal.encode()
        numbers = struct.pack("<4IQ", told.status, told.number, told.line, told.other, len(said))
        sys.stdout.buffer.write(numbers + said)


if __name__ == "__main__":
    main()
