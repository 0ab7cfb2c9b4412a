"""What the scripts here know of the machine."""
import os
import pathlib
import platform


def machine() -> str:
    """The processor's name, where the system tells it, and its kind."""
    try:
        lines = pathlib.Path("/proc/cpuinfo").read_text().splitlines()
    except OSError:
        lines = []
    names = [line.split(":", 1)[1].strip() for line in lines if line.startswith("model name")]
    return ", ".join(names[:1] + [platform.machine()])


def to_one_core() -> None:
    """Keeps this process, and those that it starts, on one processor."""
    os.sched_setaffinity(0, {min(os.sched_getaffinity(0))})
