"""Tests that write files."""
import pathlib
import tempfile
import unittest


class InFolder(unittest.TestCase):
    """Each test has a new folder, which is removed at its end."""

    def setUp(self) -> None:
        folder = tempfile.TemporaryDirectory()
        self.addCleanup(folder.cleanup)
        self.folder = pathlib.Path(folder.name)
