"""The checkers as a library in this process: `find_library()` has `check`, `search` and `levels`.

docs/embedding.md says more."""
from regkit.checker.library import Library, NoLibrary, Told, find_library

__all__ = ["Library", "NoLibrary", "Told", "find_library"]
