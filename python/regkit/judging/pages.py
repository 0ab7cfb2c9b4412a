"""The folder of the pages on which histories are drawn."""
import pathlib
from itertools import chain, count

from regkit.history.inputs import STANDARD_INPUT


class Pages:
    """Gives each history a page under a name of its own."""

    def __init__(self, folder: pathlib.Path) -> None:
        self.folder = folder
        self._taken: set[pathlib.Path] = set()

    def take(self, name: str) -> pathlib.Path:
        """The page for the history in a file. Makes the folder if it isn't there."""
        self.folder.mkdir(parents=True, exist_ok=True)
        stem = "stdin" if name == STANDARD_INPUT else pathlib.Path(name).stem
        paths = (self.folder / f"{stem}{end}.html" for end in chain([""], (f"-{n}" for n in count(2))))
        path = next(path for path in paths if path not in self._taken)
        self._taken.add(path)
        return path
