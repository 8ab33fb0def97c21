"""A session of `hubris live`: a command is written, and its answer is read."""

import os
import subprocess
from typing import List

from .refusal import refuse, refuse_told


class Live:
    def __init__(self, program: str, image: str, script: str) -> None:
        try:
            # of its own session, so that ^C in gdb does not reach it
            self._process = subprocess.Popen([program, "live", image, script, "/dev/stdin"], stdin=subprocess.PIPE,
                                             stdout=subprocess.PIPE, bufsize=0, start_new_session=True)
        except OSError as why:
            refuse(f"cannot start {program}: {why.strerror}")
        self._told = b""

    def ask(self, command: str) -> str:
        """The answer to a command that has one line."""
        return self.ask_lines(command)[0]

    def ask_lines(self, command: str) -> List[str]:
        """The answer to any command: a line, but two of `regs`, and those of a turn up to its `high` or `idle` of `notes`."""
        try:
            self._process.stdin.write(command.encode() + b"\n")
        except BrokenPipeError:
            pass                # what it has told before it ended says why
        lines = [self._line()]
        if command.startswith("regs ") and lines[0].startswith("low "):
            lines.append(self._line())
        elif command == "notes" and lines[0] != "none":
            while lines[-1].split(" ", 2)[1] not in ("high", "idle"):
                lines.append(self._line())
        return lines

    def close(self) -> None:
        self._process.stdin.close()
        try:
            self._process.wait(1)
        except subprocess.TimeoutExpired:
            self._process.kill()
            self._process.wait()
        self._process.stdout.close()

    def _line(self) -> str:
        while b"\n" not in self._told:
            more = os.read(self._process.stdout.fileno(), 65536)
            if not more:
                refuse(f"the session ended: {self._told.decode(errors='replace')}")
            self._told += more
        line, self._told = self._told.split(b"\n", 1)
        return _accepted(line.decode(errors="replace"))


def _accepted(line: str) -> str:
    """Refused where the image or the script is; `refused N` alone is the answer to one command."""
    if line.startswith(("cannot read ", "refused ")) and line.count(" ") > 1:
        refuse_told(line + "\n")
    return line
