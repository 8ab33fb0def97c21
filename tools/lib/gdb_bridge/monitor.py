"""The commands behind gdb's `monitor`: questions about a run in words. All but `goto` leave the run where it stands."""

from typing import Callable, Dict, List, Optional

from .answers import RUNNING, Told
from .cursor import Cursor, MOST
from .places import Task
from .words import fault_in_words, name_of, task_in_words

HELP = """\
turn            where the run stands, and who runs next
goto N, +N, -N  to that turn (then: maintenance flush register-cache; the command `goto` does both)
notes [N]       what the turn before told, or the N turns before
tasks           what each task waits for
who H [L]       which turn made the L bytes at H what they are
fault [next]    the last fault before here, or the next one
live WORDS ..   one command of `live` as it stands (docs/FORMATS.md, Commands)
"""
_OF_EVERY_TURN = ("insn", "low", "high", "idle")


class Monitor:
    def __init__(self, cursor: Cursor, tasks: List[Task]) -> None:
        self._cursor, self._tasks = cursor, tasks
        self._commands: Dict[str, Callable[[List[str]], str]] = {
            "turn": self._turn, "goto": self._goto, "notes": self._notes, "tasks": self._all_tasks, "who": self._who,
            "fault": self._fault, "live": self._live}

    def answer(self, words: List[str]) -> str:
        command = self._commands.get(words[0]) if words else None
        if command is None:
            return HELP
        here = self._cursor.turn
        try:
            return command(words[1:])
        except (ValueError, IndexError):
            return HELP
        finally:
            if words[0] != "goto":
                self._cursor.to(here)

    def task_in_words(self, task: int) -> str:
        return task_in_words(self._tasks, self._cursor.task_state(task), self._cursor.registers(task))

    def _turn(self, _: List[str]) -> str:
        cursor, task = self._cursor, self._cursor.who_runs()
        end = "" if cursor.end == RUNNING else f", where the run ends ({cursor.end})"
        runs = "" if task is None else f"; {name_of(self._tasks, task)} runs next"
        return f"turn {cursor.turn}, tick {cursor.now}{end}{runs}\n"

    def _goto(self, words: List[str]) -> str:
        cursor, number = self._cursor, int(words[0])
        to = cursor.turn + number if words[0][0] in "+-" else number
        cursor.to(max(0, min(MOST, to)))
        if cursor.turn == to:
            return ""
        return f"turn {cursor.turn}, where the run {'begins' if to < 0 else 'ends'}\n"

    def _notes(self, words: List[str]) -> str:
        cursor, here = self._cursor, self._cursor.turn
        count = int(words[0]) if words else 1
        lines: List[str] = []
        for turn in range(max(0, here - count) + 1, here + 1):
            cursor.to(turn)
            lines += [line for line in cursor.note_lines() if count == 1 or line.split(" ")[1] not in _OF_EVERY_TURN]
        return "\n".join(lines or ["nothing"]) + "\n"

    def _all_tasks(self, _: List[str]) -> str:
        return "".join(f"{index + 1} {task.name}: {self.task_in_words(index)}\n" for index, task in enumerate(self._tasks))

    def _who(self, words: List[str]) -> str:
        cursor = self._cursor
        address, length = int(words[0], 16), int(words[1]) if len(words) > 1 else 1
        if length < 1:
            return HELP
        now = cursor.memory(address, length)
        if len(now) < length:
            return "no bytes of flash or RAM\n"
        told = self._last_change(address, length)
        if told is None:
            return f"{now.hex()} from the start\n"
        cursor.to(told.turn)
        before = cursor.memory(address, length).hex()
        return f"turn {told.turn} of {name_of(self._tasks, told.task)} changed {address:08x} from {before} to {now.hex()}\n"

    def _last_change(self, address: int, length: int) -> Optional[Told]:
        """The last turn before here that changed one of these bytes."""
        cursor, here, last = self._cursor, self._cursor.turn, None
        for byte in range(address, address + length):
            cursor.to(here)
            last = cursor.back(last.turn + 1 if last else 0, f"change {byte:08x}") or last
        return last

    def _fault(self, words: List[str]) -> str:
        told = self._cursor.go(MOST, "fault") if words == ["next"] else self._cursor.back(0, "fault")
        return f"turn {told.turn}: {fault_in_words(self._tasks, told)}\n" if told else "none\n"

    def _live(self, words: List[str]) -> str:
        cursor, here = self._cursor, self._cursor.turn
        if words[0] in ("break", "clear"):
            return "breakpoints are gdb's own\n"
        if words[0].startswith("#"):
            return HELP         # a comment, to which `live` says nothing
        lines = cursor.live.ask_lines(" ".join(words))
        cursor.return_from(here)
        return (" " if words[0] == "regs" else "\n").join(lines) + "\n"
