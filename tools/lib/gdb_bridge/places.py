"""The tasks of an application: their names, where the builder places them, and the labels and lines of their sources."""

import os
import shlex
import struct
import subprocess
from dataclasses import dataclass, field
from typing import List, Optional, Tuple

from .refusal import TOOLS, refuse

FLASH, RAM = 0x08000000, 0x20000000
_AWK_PARTS = ("common", "app", "places", "gdb")


@dataclass
class Task:
    name: str
    source: str = ""
    flash: int = 0              # the address of its first byte of code
    stack_top: int = 0
    length: int = 0             # of what its source makes, in bytes
    labels: List[Tuple[int, str]] = field(default_factory=list)
    lines: List[Tuple[int, int]] = field(default_factory=list)      # the address of an instruction, and its line
    code: Optional[List[Tuple[int, int]]] = None    # base and size of its regions of code, where it can write none of them


def read_places(app: str) -> List[Task]:
    """The tasks of a description, by the awk of tools/lib."""
    tasks: List[Task] = []
    for line in _places_told(app).splitlines():
        word, *rest = line.split(" ", 5)
        if word == "task":
            flash, stack_top, length, name, source = rest
            tasks.append(Task(name, source, int(flash, 16), int(stack_top, 16), int(length)))
        elif word == "label":
            tasks[int(rest[0])].labels.append((int(rest[1], 16), rest[2]))
        else:
            tasks[int(rest[0])].lines.append((int(rest[1], 16), int(rest[2])))
    return tasks


def _places_told(app: str) -> str:
    awk = command_of("AWK", "awk")
    for part in _AWK_PARTS:
        awk += ["-f", str(TOOLS / "lib" / (part + ".awk"))]
    environment = {**os.environ, "LC_ALL": "C", "NAME": "gdb", "APP": app, "FILE": app}
    try:
        done = subprocess.run(awk, stdin=subprocess.DEVNULL, stdout=subprocess.PIPE, stderr=subprocess.PIPE, env=environment)
    except OSError as why:
        refuse(f"cannot start {awk[0]}: {why.strerror}")
    if done.returncode:
        said = os.fsdecode(done.stderr).strip()
        refuse(said[len("gdb: "):] if said.startswith("gdb: ") else said or f"{awk[0]} ended with status {done.returncode}")
    return os.fsdecode(done.stdout)


def command_of(variable: str, default: str) -> List[str]:
    """The program and words that a variable of the environment names."""
    text = os.environ.get(variable) or default
    try:
        words = shlex.split(text)
    except ValueError:
        words = []
    return words or refuse(f"{variable} is no command: {text}")


def flash_of(image: bytes) -> bytes:
    """The flash of an image, which is the end of its file."""
    length = struct.unpack_from("<I", image, 12 if image[:4] == b"HBI2" else 8)[0]
    return image[len(image) - length:]
