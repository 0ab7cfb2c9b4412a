"""The floors of regkit: each imports from itself and those below, as `regkit/__init__.py` lists them."""
import ast
import pathlib
import pkgutil
import re
import unittest
from typing import Iterator

import regkit

ROOT = pathlib.Path(__file__).resolve().parents[2]
PACKAGE = pathlib.Path(regkit.__file__).parent
FLOORS = re.findall(r"^    (\w+) {2,}", regkit.__doc__ or "", re.M)
TOP = len(FLOORS)  # of the modules that are in no package


def floor_of(module: str) -> int:
    """The floor of `regkit.history.lines`, or of a module at the top; below all that of `regkit` itself."""
    name = f"{module}.".split(".")[1]
    if name in FLOORS:
        return FLOORS.index(name)
    return TOP if (PACKAGE / f"{name}.py").is_file() else -1


def imported(path: pathlib.Path) -> Iterator[str]:
    """The modules of regkit that a module imports, at its head or within a function."""
    for node in ast.walk(ast.parse(path.read_text(encoding="utf-8"))):
        if isinstance(node, ast.ImportFrom) and node.level:
            raise AssertionError(f"{path}: line {node.lineno}: a relative import hides its floor")
        if isinstance(node, ast.ImportFrom) and node.module == "regkit":
            yield from (f"regkit.{alias.name}" for alias in node.names)
        elif isinstance(node, ast.ImportFrom):
            yield node.module or ""
        elif isinstance(node, ast.Import):
            yield from (alias.name for alias in node.names)


def documented() -> Iterator[str]:
    """What the documents and the examples import or name, such as `regkit.record.Recorder`."""
    pages = [*ROOT.glob("*.md"), *ROOT.glob("docs/*.md"), *ROOT.glob("examples/**/*.py"),
             ROOT / "python" / "pyproject.toml"]
    text = "\n".join(page.read_text(encoding="utf-8") for page in pages)
    for module, names in re.findall(r"from (regkit[.\w]*) import ([\w, ]+)", text):
        yield from (f"{module}.{name.strip()}" for name in names.split(","))
    yield from re.findall(r"[`\" ](regkit(?:\.[a-zA-Z_]+)+)", text.replace(":", "."))


class Floors(unittest.TestCase):
    def test_each_package_is_a_floor(self) -> None:
        self.assertEqual(sorted(FLOORS), sorted(path.parent.name for path in PACKAGE.glob("*/__init__.py")))

    def test_imports_never_go_up(self) -> None:
        for path in sorted(PACKAGE.rglob("*.py")):
            module = ".".join(["regkit", *path.relative_to(PACKAGE).with_suffix("").parts])
            own = -1 if path == PACKAGE / "__init__.py" else floor_of(module)
            for name in imported(path):
                if name.split(".")[0] == "regkit":
                    self.assertLessEqual(floor_of(name), own, f"{module} imports {name}")

    def test_what_people_import_stays(self) -> None:
        """It is at the top, or in the package `merge`."""
        found = set(documented())
        self.assertLessEqual({"regkit.cli.run_and_exit", "regkit.library.find_library", "regkit.merge.merge",
                              "regkit.pytest_plugin", "regkit.record.Recorder",
                              "regkit.testing.assert_atomic"}, found)
        for name in sorted(found):
            pkgutil.resolve_name(name)
            self.assertIn(floor_of(name), (-1, FLOORS.index("merge"), TOP), name)


if __name__ == "__main__":
    unittest.main()
