"""Counts instructions by callgrind, which a loaded machine doesn't change."""
import os
import pathlib
import re
import subprocess
from typing import Union

from running import Command

COUNT = re.compile(r"Collected : (\d+)")


def instructions(command: Command, history: Union[str, pathlib.Path] = os.devnull) -> int:
    """The instructions of a command, all its threads together, with the history on standard input."""
    words = ["valgrind", "--tool=callgrind", "--callgrind-out-file=/dev/null", *command]
    with open(history, "rb") as given:
        ran = subprocess.run(words, stdin=given, stdout=subprocess.DEVNULL, stderr=subprocess.PIPE, text=True,
                             check=False)
    counted = COUNT.search(ran.stderr)
    if counted is None:
        raise OSError(f"{command[0]} wasn't counted: {ran.stderr[-500:]}")
    return int(counted[1])
