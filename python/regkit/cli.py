"""The command line: one module of `regkit.commands` for each command."""
import argparse
import os
import sys
from importlib import import_module
from typing import NoReturn, Optional, TextIO

from regkit import __version__
from regkit.base.statuses import ExitStatus

# Each module has HELP, EPILOG, add_arguments(parser) and run(arguments), which returns the exit status.
COMMANDS = ["check", "explain", "levels", "draw", "index", "verify", "convert", "merge", "split", "join"]


class Parser(argparse.ArgumentParser):
    """A parser that ends with the checker's own exit status for a wrong command line."""

    def error(self, message: str) -> NoReturn:
        self.print_usage(sys.stderr)
        self.exit(ExitStatus.COMMAND_LINE, f"{self.prog}: {message}\n")


def parser(words: list[str]) -> argparse.ArgumentParser:
    """The parser for a command line. It loads the command that is named, or else all of them."""
    top = Parser(prog="regkit",
                 description="Record, check, explain and draw histories of read/write registers.")
    top.add_argument("--version", action="version", version=f"regkit {__version__}")
    commands = top.add_subparsers(dest="command", metavar="COMMAND", required=True, parser_class=Parser)
    for name in words[:1] if words[:1] and words[0] in COMMANDS else COMMANDS:
        module = import_module(f"regkit.commands.{name}")
        sub = commands.add_parser(name, help=module.HELP, description=module.HELP, epilog=module.EPILOG,
                                  formatter_class=argparse.RawDescriptionHelpFormatter)
        module.add_arguments(sub)
        sub.set_defaults(run=module.run)
    return top


def escape_unprintable(stream: Optional[TextIO]) -> None:
    """A character that the stream's encoding doesn't have is escaped there. It is no reason to fail."""
    if hasattr(stream, "reconfigure"):
        stream.reconfigure(errors="backslashreplace")  # type: ignore[union-attr]


def silence(stream: TextIO) -> None:
    """Lets what is still to be written go nowhere, so that Python doesn't fail again when it ends."""
    try:
        os.dup2(os.open(os.devnull, os.O_WRONLY), stream.fileno())
    except (OSError, ValueError):
        pass  # the stream is no file, so nothing is held back


def main(words: Optional[list[str]] = None) -> int:
    """Runs a command and returns its exit status. It fails if output can't be written, even at the end."""
    escape_unprintable(sys.stdout)
    escape_unprintable(sys.stderr)
    try:
        words = sys.argv[1:] if words is None else words
        arguments = parser(words).parse_args(words)
        status = int(arguments.run(arguments))
        sys.stdout.flush()
        return status
    except BrokenPipeError:
        silence(sys.stdout)
        return ExitStatus.FAILED
    except OSError as error:
        silence(sys.stdout)
        print(f"regkit: {error.filename or 'output'}: {error.strerror or error}", file=sys.stderr)
        return ExitStatus.FAILED
    except MemoryError:
        print("regkit: no memory", file=sys.stderr)
        return ExitStatus.FAILED
    except KeyboardInterrupt:
        return ExitStatus.INTERRUPTED


def run_and_exit() -> NoReturn:
    """The installed command."""
    sys.exit(main())
