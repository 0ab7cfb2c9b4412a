"""The bounds of a search, as options of `regsearch`."""
from typing import Optional

from regkit.base.limits import MAX_CONFIGURATIONS, MAX_STEPS


def bounds(steps: Optional[int], configurations: Optional[int]) -> list[str]:
    """Bounds of a search as options of regsearch. Raises ValueError for one that it doesn't take."""
    words: list[str] = []
    for name, number, most in (("steps", steps, MAX_STEPS),
                               ("configurations", configurations, MAX_CONFIGURATIONS)):
        if number is None:
            continue
        if not 1 <= number <= most:
            raise ValueError(f"{name} is {number}, and a whole number from 1 to {most} is expected")
        words += [f"--{name}", str(number)]
    return words
