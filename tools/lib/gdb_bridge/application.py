"""An application made ready for a session: its image, its tasks, and the files that gdb reads symbols from."""

import json
import subprocess
from dataclasses import dataclass
from pathlib import Path
from typing import List, NamedTuple

from .assembly_elf import assembled
from .placed_elf import placed
from .places import Task, flash_of, read_places
from .refusal import Refused, refuse, refuse_told

_READ_AND_EXECUTE, _EXECUTE = 5, 4


class SymbolFile(NamedTuple):
    path: str
    address: int                # of the task's first byte of code


@dataclass
class Application:
    image: str
    tasks: List[Task]
    files: List[SymbolFile]     # first the one of all tasks in assembly; none where an image is given, which has no names


def prepared(program: str, app: str, folder: Path) -> Application:
    """What is made goes into `folder`. Refused where a source or an ELF is not as it should be."""
    if _is_image(app):
        listed = _listed(program, app)
        tasks = [Task(f"task{index}") for index in range(len(listed))]
        _note_code(tasks, listed)
        return Application(app, tasks, [])
    image, tasks = str(folder / "image"), read_places(app)
    hubris_told(program, "build", app, image)
    _note_code(tasks, _listed(program, image))
    return Application(image, tasks, _symbol_files(tasks, flash_of(Path(image).read_bytes()), folder))


def hubris_told(program: str, *words: str) -> str:
    """What the program writes for these words."""
    try:
        done = subprocess.run([program, *words], stdin=subprocess.DEVNULL, stdout=subprocess.PIPE, encoding="utf-8", errors="replace")
    except OSError as why:
        refuse(f"cannot start {program}: {why.strerror}")
    if done.returncode and done.stdout:
        refuse_told(done.stdout)
    if done.returncode:
        refuse(f"{program} ended with status {done.returncode}")
    return done.stdout


def _is_image(app: str) -> bool:
    with open(app, "rb") as file:
        return file.read(3) == b"HBI"


def _listed(program: str, image: str) -> list:
    """The tasks of an image, as `list` tells them."""
    try:
        return json.loads(hubris_told(program, "list", image))["tasks"]
    except (ValueError, KeyError, TypeError):
        refuse(f"{program} is no hubris: what it lists is no JSON")


def _note_code(tasks: List[Task], listed: list) -> None:
    """Notes where the code of each task is, if the task can write none of it."""
    for task, entry in zip(tasks, listed):
        code = [region for region in entry["regions"] if region["rights"] & _EXECUTE]
        if all(region["rights"] == _READ_AND_EXECUTE for region in code):
            task.code = [(region["base"], region["size"]) for region in code]


def _symbol_files(tasks: List[Task], flash: bytes, folder: Path) -> List[SymbolFile]:
    files, in_assembly = [], []
    for task in tasks:
        elf = Path(task.source).with_suffix(".elf")
        if elf == Path(task.source) or not elf.exists():
            in_assembly.append(task)
            continue
        made = folder / (task.name + ".elf")
        made.write_bytes(_placed_file(elf, task, flash))
        files.append(SymbolFile(str(made), task.flash))
    made = folder / "assembly.elf"
    made.write_bytes(assembled(in_assembly, flash))
    return [SymbolFile(str(made), 0)] + files


def _placed_file(elf: Path, task: Task, flash: bytes) -> bytes:
    try:
        return placed(elf.read_bytes(), task, flash)
    except OSError:
        refuse(f"cannot read {elf}")
    except Refused as why:
        refuse(f"{elf} {why}")
