"""What crates.txt says of the repository's crates, how `rt` says that it proved one, and how the toolchain is
asked to look at one itself, over what was proved of those below it."""
import pathlib
import re
import subprocess
from typing import Dict, Iterator, List, Set

ROOT = pathlib.Path(__file__).resolve().parents[1]
PROGRAMS = ("regcheck", "regsearch", "reglevel")  # those of a release that are built; regkit is Python
PROVED = re.compile(r"^logic=proved functions=(\d+)", re.MULTILINE)
LAST_LINES = 20  # of what `rt` said that are shown if a proof fails


def uses() -> Dict[str, List[str]]:
    """Each crate of the repository, lowest first, with the crates that it uses, the toolchain's too."""
    found: Dict[str, List[str]] = {}
    for line in (ROOT / "crates.txt").read_text().splitlines():
        head, colon, used = line.split("#")[0].partition(":")
        if colon:
            found[head.split()[0]] = used.split()
    return found


def waits_for(crate: str) -> Dict[str, Set[str]]:
    """The crate and all of the repository below it, each with those that it uses itself."""
    own = uses()
    found: Dict[str, Set[str]] = {}
    left = [crate]
    while left:
        name = left.pop()
        found[name] = {used for used in own[name] if used in own}
        left += found[name] - found.keys()
    return found


def below(crate: str) -> List[str]:
    """The crates of the repository on which the crate stands."""
    return sorted(waits_for(crate).keys() - {crate})


def toolchain() -> pathlib.Path:
    page = subprocess.run(["rt", "doc"], stdout=subprocess.PIPE, text=True, check=True).stdout.strip()
    return pathlib.Path(page).parent


def built(crate: str, root: pathlib.Path = ROOT) -> pathlib.Path:
    """The folder in which a crate of a copy of the repository keeps its library."""
    return root / "crates" / crate / "out/rlib"


def mark_of(crate: str) -> pathlib.Path:
    """The file that is there once a crate's library is built, and is as old as that."""
    return built(crate) / f"{crate}.rlib/format"


def is_program(crate: str, root: pathlib.Path = ROOT) -> bool:
    return (root / "crates" / crate / "src/main.rt").exists()


def libraries(crate: str, kit: pathlib.Path, root: pathlib.Path) -> Iterator[str]:
    """What the crate uses, and where all that those use is found."""
    own = uses()
    for name in [*own[crate], "std"]:
        folder = built(name, root) if name in own else kit / "rlibs"
        yield from ("--extern", f"{name}={folder / name}.rlib")
    for folder in [kit / "rlibs", *(built(low, root) for low in below(crate))]:
        yield from ("-L", f"dependency={folder}")


def asked_of(crate: str, verb: str, kit: pathlib.Path, root: pathlib.Path = ROOT) -> List[str]:
    """What asks the toolchain to check or to build a crate, in its folder. It keeps its work in out/."""
    return [str(kit / "bin/rattle"), verb, "--crate-name", crate,
            "src/main.rt" if is_program(crate, root) else "src/lib.rt", *libraries(crate, kit, root),
            "--antt-project", str(kit / "rattle/logic/antt-project.json"),
            "--logic-built", str(kit / "logic_built"), "--incremental", "out/incremental"]
