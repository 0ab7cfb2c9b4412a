"""What packaging/ makes without the toolchain: the wheel, in which regkit finds the checker, and the sums."""
import base64
import csv
import hashlib
import importlib.metadata
import os
import pathlib
import subprocess
import sys
import tempfile
import unittest
import zipfile

from regkit import __version__
from regkit.checker.library import FILE

ROOT = pathlib.Path(__file__).resolve().parents[2]
NAME = f"regkit-{__version__}"
PROGRAMS = ("regcheck", "regsearch", "reglevel")
BILL = "regkit.spdx.json"
HEADS = {"x86_64": b"\x7fELF" + bytes(14) + b"\x3e\0",  # how programs for each machine begin
         "aarch64": b"\x7fELF" + bytes(14) + b"\xb7\0"}
FOUND = ("from regkit.checker import library, programs; print(programs.find_checker()); "
         "print(next(library._places()))")


def packed(name: str, *paths: pathlib.Path) -> str:
    """Runs a script of packaging/, and gives its words if it fails."""
    words = [sys.executable, "-B", str(ROOT / "packaging" / name), *map(str, paths)]
    ran = subprocess.run(words, stderr=subprocess.PIPE, text=True, check=False)
    return ran.stderr if ran.returncode else ""


class Wheel(unittest.TestCase):
    def setUp(self) -> None:
        folder = tempfile.TemporaryDirectory()
        self.addCleanup(folder.cleanup)
        self.folder = pathlib.Path(folder.name)
        self.stand_in("x86_64")
        self.wheel = self.made("first")

    def stand_in(self, machine: str, needs: str = "GLIBC_2.17") -> None:
        """Writes files of which pip asks nothing, and the wheel for which machine and C library they are."""
        for name in (*PROGRAMS, FILE, BILL):
            (self.folder / name).write_bytes(HEADS[machine] + f"stands in for {name}\0{needs}\0".encode())

    def made(self, name: str) -> pathlib.Path:
        """The wheel, made in a folder of that name."""
        self.assertEqual(self.refused(name), "")
        wheel, = (self.folder / name).iterdir()
        return wheel

    def refused(self, name: str) -> str:
        """What making a wheel in that folder says if it fails."""
        return packed("make_wheel", *(self.folder / it for it in (*PROGRAMS, FILE, BILL, name)))

    def installed(self) -> pathlib.Path:
        """The prefix of a tree with the files where pip puts them."""
        prefix = self.folder / "prefix"
        packages = prefix / "lib/python3.9/site-packages"
        with zipfile.ZipFile(self.wheel) as archive:
            archive.extractall(packages)
        (prefix / "bin").mkdir()
        program = prefix / "bin/regcheck"
        (packages / f"{NAME}.data/scripts/regcheck").rename(program)
        program.chmod(0o755)
        return prefix

    def test_the_same_files_give_the_same_bytes(self) -> None:
        before = os.umask(0o077)
        self.addCleanup(os.umask, before)
        self.assertEqual(self.wheel.read_bytes(), self.made("second").read_bytes())

    def test_its_name_says_for_which_machines_it_is(self) -> None:
        for machine in HEADS:
            self.stand_in(machine)
            wheel = self.made(machine)
            tags = [f"manylinux2014_{machine}", f"musllinux_1_2_{machine}"]
            self.assertEqual(wheel.name, f"{NAME}-py3-none-{'.'.join(tags)}.whl")
            with zipfile.ZipFile(wheel) as archive:
                lines = archive.read(f"{NAME}.dist-info/WHEEL").decode().splitlines()
            self.assertEqual(lines[-2:], [f"Tag: py3-none-{tag}" for tag in tags])

    def test_a_library_for_a_later_glibc_is_refused(self) -> None:
        self.stand_in("x86_64", "GLIBC_2.2.5")
        self.made("older")
        for needs in ("GLIBC_2.18", "GLIBC_2.34", "GLIBC_ABI_DT_RELR"):
            self.stand_in("x86_64", needs)
            words = f"needs glibc {needs.removeprefix('GLIBC_')}, and the wheel promises 2.17\n"
            self.assertTrue(self.refused("later").endswith(words))
            self.assertFalse((self.folder / "later").exists())

    def test_what_is_in_it(self) -> None:
        with zipfile.ZipFile(self.wheel) as archive:
            names = archive.namelist()
            listed = list(csv.reader(archive.read(f"{NAME}.dist-info/RECORD").decode().splitlines()))
            self.assertEqual([name for name, _, _ in listed], names)
            for name, digest, size in listed[:-1]:
                data = archive.read(name)
                wanted = base64.urlsafe_b64encode(hashlib.sha256(data).digest()).decode().rstrip("=")
                self.assertEqual((digest, size), (f"sha256={wanted}", str(len(data))))
            runs = [name for name in names if archive.getinfo(name).external_attr >> 16 & 0o100]
        self.assertEqual(runs,
                         [f"regkit/{FILE}", *(f"{NAME}.data/scripts/{program}" for program in PROGRAMS)])
        python = ROOT / "python"
        sources = {path.relative_to(python).as_posix() for path in python.glob("regkit/**/*")
                   if path.suffix in (".py", ".js")}
        self.assertEqual({name for name in names if name.endswith((".py", ".js"))}, sources)
        self.assertIn("regkit/py.typed", names)
        self.assertIn(f"{NAME}.dist-info/sboms/{BILL}", names)

    def test_what_it_says_of_itself(self) -> None:
        with zipfile.ZipFile(self.wheel) as archive:
            archive.extractall(self.folder / "unpacked")
        about, = importlib.metadata.distributions(path=[str(self.folder / "unpacked")])
        self.assertEqual((about.metadata["Name"], about.version), ("regkit", __version__))
        self.assertEqual(about.metadata["Requires-Python"], ">=3.9")
        self.assertEqual({(point.group, point.name, point.value) for point in about.entry_points},
                         {("console_scripts", "regkit", "regkit.cli:run_and_exit"),
                          ("pytest11", "regkit", "regkit.pytest_plugin")})

    def test_a_test_that_imports_it_finds_what_came_with_it(self) -> None:
        prefix = self.installed()
        packages = prefix / "lib/python3.9/site-packages"
        environment = {"PATH": "/nowhere", "PYTHONPATH": str(packages)}
        ran = subprocess.run([sys.executable, "-B", "-c", FOUND], env=environment, cwd=self.folder,
                             capture_output=True, text=True, check=True)
        found = [str(prefix / "bin/regcheck"), str(packages / "regkit" / FILE)]
        self.assertEqual(ran.stdout.splitlines(), found)


class Sums(unittest.TestCase):
    def test_they_are_of_all_files_that_are_there(self) -> None:
        with tempfile.TemporaryDirectory() as place:
            folder = pathlib.Path(place)
            for _ in range(2):  # the second time, the sums themselves are there
                (folder / "b").write_bytes(b"two")
                (folder / "a").write_bytes(b"one")
                self.assertEqual(packed("write_sums", folder), "")
                data = {"a": b"one", "b": b"two"}
                lines = [f"{hashlib.sha256(data[name]).hexdigest()}  {name}" for name in "ab"]
                self.assertEqual((folder / "SHA256SUMS").read_text().splitlines(), lines)


if __name__ == "__main__":
    unittest.main()
