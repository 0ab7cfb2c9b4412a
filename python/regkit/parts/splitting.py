"""Cuts a history into parts that keep each register whole, in one pass over its lines."""
import errno
import os
from typing import BinaryIO, Callable, Optional, Sequence

from regkit.checker.programs import CHECK, LEVEL, SEARCH
from regkit.parts.blocks import blocks_of
from regkit.parts.folder import MANIFEST, Manifest, file_of, write_manifest
from regkit.parts.routing import CertainRefusal, Router
from regkit.parts.sizes import SizeWatch, check_parts
from regkit.parts.writing import PartWriter, Plan


def split(history: BinaryIO, plan: Plan, reach: Callable[[int], None]) -> Manifest:
    """Writes the parts and the manifest, and tells `reach` how many bytes are read.

    Raises CannotSplit, and OSError if the folder isn't empty or can't be written. If it doesn't come to an
    end, for whatever reason, no part is left."""
    os.makedirs(plan.directory, exist_ok=True)
    must_be_empty(plan.directory)
    writers = [PartWriter(plan, part) for part in range(plan.parts)]
    router = Router(plan.parts)
    try:
        manifest = write_parts(history, plan, router, writers, reach)
        check_parts(plan, router, writers)
        write_manifest(plan.directory, manifest)
    except BaseException:
        for writer in writers:
            writer.remove()
        raise
    return manifest


def must_be_empty(directory: str) -> None:
    """Raises FileExistsError, which says what to do."""
    names = os.listdir(directory)
    if MANIFEST in names:
        words = "it has the parts of a history: check them and join them, or name a new folder"
    elif file_of(directory, 0, "jsonl").name in names:
        words = "it has what is left of a split that was killed: delete it, and give the command again"
    else:
        words = "it is not empty: name a new folder for the parts"
    if names:
        raise FileExistsError(errno.EEXIST, words, directory)


def write_parts(history: BinaryIO, plan: Plan, router: Router, writers: Sequence[PartWriter],
                reach: Callable[[int], None]) -> Manifest:
    watch = SizeWatch(router, writers)
    read = again = 0
    stopped: Optional[int] = None
    for block in blocks_of(history):
        first = router.lines + 1
        try:
            router.route(block)
        except CertainRefusal as refusal:
            stopped, again = router.lines, len(refusal.parts) - 1
        lines = block.split(b"\n")
        for part, writer in zip(router.parts, writers):
            writer.put(first, part.lines, lines)
            writer.keep(part.writes)
        if stopped is not None:
            break
        watch.look()
        read += len(block)
        reach(read)
    for writer in writers:
        writer.close()
    events = sum(part.count for part in router.parts) - again
    registers = [part.number for part in router.registers.values()]
    program = LEVEL if plan.for_levels else program_for(router, writers)
    return Manifest(plan.name, plan.lines, plan.parts, program, events, router.lines, stopped, registers)


def program_for(router: Router, writers: Sequence[PartWriter]) -> str:
    """Which program takes all parts: regcheck, unless it doesn't take a line or a value is written again.

    Two different writes have one hash in fewer than one history of a hundred thousand, however large. Then
    regsearch checks what regcheck could, and decides it as well."""
    repeats = [writer.repeats(part.writes) for part, writer in zip(router.parts, writers)]
    return SEARCH if router.is_searched or any(repeats) else CHECK
