"""What the command lines take: built programs say it in their --help, and regkit in its parsers."""
import argparse
import pathlib
import re
import subprocess
import sys
from typing import Dict, List, NamedTuple

ROOT = pathlib.Path(__file__).resolve().parents[1]

# What a help text writes for a value that is a path. Other values, such as N, aren't paths.
FILES = {"FILE", "OUT", "OUT.html", "HISTORY", "REPORT"}
FOLDERS = {"DIR"}


class Option(NamedTuple):
    """An option. A flag has an empty value."""

    names: List[str]
    value: str
    choices: List[str]
    help: str


class Command(NamedTuple):
    """A command, or the whole program if its name is empty."""

    name: str
    help: str
    options: List[Option]
    words: List[str]  # what stands for each word that is no option


def brief(text: str) -> str:
    """The first clause of a help text."""
    return re.split(r"[;:([]|, or|, as ", " ".join(text.split()))[0].strip()


def help_of(action: argparse.Action) -> str:
    """The help text of an option or a word of regkit, as `--help` prints it."""
    return " ".join(((action.help or "") % {**vars(action), "prog": "regkit"}).split())


def shown(action: argparse.Action) -> str:
    """What stands for the value of an option, or for a word."""
    return action.metavar if isinstance(action.metavar, str) else action.dest.upper()


def built_options(said: str) -> List[Option]:
    """The options in the parser's own help: a line begins with the names, and two spaces end them."""
    options = []
    for line in said.split("Options:\n")[1].split("\n\n")[0].splitlines():
        names, _, text = line.strip().partition("  ")
        value = re.search(r"<(\S+)>", names)
        possible = re.search(r"\[possible values: (.*?)\]", text)
        choices = possible.group(1).split(", ") if possible else []
        spelled = re.findall(r"-[\w-]+", names.split("<")[0])
        options.append(Option(spelled, value.group(1) if value else "", choices, brief(text)))
    return options


def built(program: str) -> List[Command]:
    """The command line of a program that was built."""
    ran = subprocess.run([program, "--help"], capture_output=True, text=True, check=False)
    return [Command("", "", built_options(ran.stderr), ["FILE"])]


def command(name: str, parser: argparse.ArgumentParser) -> Command:
    """One parser of regkit, without the parsers below it. Only `_actions` lists what a parser takes."""
    options, words = [], []
    for action in parser._actions:
        if action.option_strings:
            value = "" if action.nargs == 0 else shown(action)
            choices = [str(it) for it in action.choices or []]
            options.append(Option(list(action.option_strings), value, choices, brief(help_of(action))))
        elif not isinstance(action, argparse._SubParsersAction):
            words.append(shown(action))
    return Command(name, brief(parser.description or ""), options, words)


def regkit_parsers() -> Dict[str, argparse.ArgumentParser]:
    """The parser of regkit itself, whose name is empty, and then that of each of its commands."""
    sys.path.insert(0, str(ROOT / "python"))
    from regkit.cli import COMMANDS, parser

    top = parser([])
    below = next(it for it in top._actions if isinstance(it, argparse._SubParsersAction)).choices
    return {"": top, **{name: below[name] for name in COMMANDS}}


def regkit() -> List[Command]:
    """The program itself, and then each of its commands."""
    return [command(name, parser) for name, parser in regkit_parsers().items()]
