"""Kinds of values on the command line, and the bounds of a search."""
import argparse
from typing import Callable

from regkit.base.limits import DEFAULT_CONFIGURATIONS, DEFAULT_STEPS, MAX_CONFIGURATIONS, MAX_STEPS
from regkit.checker.bounds import bounds


def count(word: str) -> int:
    """A whole number from 0."""
    if not (word.isascii() and word.isdecimal()):
        raise argparse.ArgumentTypeError(f"{word!r} is not a whole number from 0")
    return int(word)


def whole(least: int, most: int) -> Callable[[str], int]:
    """A whole number within bounds."""
    def number(word: str) -> int:
        if not (word.isascii() and word.isdecimal() and least <= int(word) <= most):
            raise argparse.ArgumentTypeError(f"{word!r} is not a whole number from {least} to {most}")
        return int(word)

    return number


def add_bounds(parser: argparse.ArgumentParser) -> None:
    """The bounds of a search, which are handed on to regsearch."""
    parser.add_argument("--steps", metavar="N", type=whole(1, MAX_STEPS),
                        help=f"how many steps a search may take (default {DEFAULT_STEPS})")
    parser.add_argument("--configurations", metavar="N", type=whole(1, MAX_CONFIGURATIONS),
                        help="how many configurations a search may hold at once "
                             f"(default {DEFAULT_CONFIGURATIONS})")


def bounds_of(arguments: argparse.Namespace) -> list[str]:
    """The bounds that a command line asks for, as options of regsearch."""
    return bounds(arguments.steps, arguments.configurations)
