"""What the bridge refuses: one exception, whose text is the line behind `gdb: `."""

import subprocess
from pathlib import Path
from typing import NoReturn

TOOLS = Path(__file__).resolve().parents[2]


class Refused(Exception):
    """Bad input, or a program that is not there. Its text says what is wrong."""


def refuse(what: str) -> NoReturn:
    raise Refused(what)


def refuse_told(told: str) -> NoReturn:
    """Refuses by what `hubris` has written, put into words by tools/refusal."""
    words = subprocess.run([str(TOOLS / "refusal")], input=told, stdout=subprocess.PIPE, stderr=subprocess.STDOUT,
                           encoding="utf-8", errors="replace")
    raise Refused(words.stdout.strip() or told.strip())
