"""A run by questions to `live`: a turn of it, and what is there. What was asked is kept until the turn is another one."""

from typing import Callable, Dict, List, Optional, Set, Tuple, TypeVar

from . import answers
from .answers import Hit, Moved, Position, RUNNING, TaskState, Told
from .live import Live
from .places import FLASH, RAM

MOST = 1_000_000_000            # turns of a run
ROW = 64                        # bytes that one `mem` tells
_LAST_ADDRESS = 0xFFFFFFFF
_Answer = TypeVar("_Answer")


class Cursor:
    def __init__(self, live: Live) -> None:
        self.live = live
        self.turn, self.now = 0, 0
        self.end: Optional[str] = RUNNING       # why the run ends here; None where it was not told
        self._seen: Dict[str, object] = {}
        self._flash: Dict[int, bytes] = {}
        self._breakpoints: Set[int] = set()
        self.move("step 0")

    # moves

    def move(self, command: str) -> Moved:
        """Carries out a command that moves; what it found, where it found something."""
        answer = answers.moved(self.live.ask(command))
        if answer is None:
            return None
        if isinstance(answer, Position):
            turn, self.now, self.end = answer.turn, answer.now, answer.end
        else:
            behind = isinstance(answer, Told) and command.startswith("go ")
            turn, self.end = answer.turn + behind, None
        if turn != self.turn:
            self.turn, self._seen = turn, {}
        return None if isinstance(answer, Position) else answer

    def go(self, limit: int, what: str) -> Optional[Told]:
        """On to behind the first turn below `limit` that tells this."""
        return self._found(f"go {limit - self.turn} {what}") if limit > self.turn else None

    def go_to_breakpoint(self, limit: int) -> Optional[Hit]:
        """On to behind the first turn below `limit` that runs a task at a breakpoint."""
        answer = self.move(f"go {limit - self.turn}") if limit > self.turn else None
        return answer if isinstance(answer, Hit) else None

    def back(self, limit: int, what: str) -> Optional[Told]:
        """Back to before the last turn from `limit` on that tells this."""
        return self._found(f"back {self.turn - limit} {what}") if limit < self.turn else None

    def to(self, turn: int) -> None:
        if turn != self.turn or self.end is None:
            self.move(f"at {turn}")

    def return_from(self, turn: int) -> None:
        """Back to a turn after `live` was asked past this cursor."""
        self.end, self._seen = None, {}
        self.to(turn)

    def set_breakpoints(self, addresses: Set[int]) -> None:
        for address in self._breakpoints - addresses:
            self.live.ask(f"clear {address:08x}")
        for address in addresses - self._breakpoints:
            self.live.ask(f"break {address:08x}")
        self._breakpoints = set(addresses)

    def _found(self, command: str) -> Optional[Told]:
        answer = self.move(command)
        return answer if isinstance(answer, Told) else None

    # what is here

    def registers(self, task: int) -> Tuple[int, ...]:
        """r0 to r15, and xPSR."""
        return self._once(f"regs {task}", lambda lines: answers.registers(*lines))

    def pc(self, task: int) -> int:
        return self.registers(task)[15]

    def task_state(self, task: int) -> TaskState:
        return self._once(f"task {task}", lambda lines: answers.task_state(lines[0]))

    def memory(self, address: int, length: int) -> bytes:
        """As many of these bytes as there are, up to the first that is in neither the flash nor the RAM."""
        found = b""
        while len(found) < length and address + len(found) <= _LAST_ADDRESS:
            row, skip = divmod(address + len(found), ROW)
            held = self._row(row * ROW)
            if held is None:
                break
            found += held[skip:skip + length - len(found)]
        return found

    def note_lines(self) -> List[str]:
        """What the turn before told."""
        return [] if self.turn == 0 else self._once("notes", lambda lines: lines)

    def notes(self) -> List[Told]:
        return [answers.told(line) for line in self.note_lines()]

    def fault_of(self, task: Optional[int]) -> Told:
        """The line of a fault of this task, which the turn before told."""
        return next(note for note in self.notes() if note.kind == "fault" and note.task == task)

    def who_ran(self) -> Optional[int]:
        """The task that ran in the turn before."""
        for note in self.notes():
            # a task whose instruction cannot be fetched or is none runs without a line of its own
            if note.kind == "insn" or note.kind == "fault" and note.words[1] in ("1", "2"):
                return note.task
        return None

    def who_runs(self) -> Optional[int]:
        """The task that runs in the turn here."""
        here, seen = self.turn, self._seen
        self.move("step 1")
        task = self.who_ran() if self.turn > here else None
        self.to(here)
        self._seen = seen
        return task

    def _row(self, address: int) -> Optional[bytes]:
        """The 64 bytes at an aligned address. Those of the flash never change."""
        if address not in self._flash:
            held = self._once(f"mem {address:08x} {ROW}", lambda lines: answers.memory(lines[0]))
            if held is None or not FLASH <= address < RAM:
                return held
            self._flash[address] = held
        return self._flash[address]

    def _once(self, command: str, parse: Callable[[List[str]], _Answer]) -> _Answer:
        if command not in self._seen:
            self._seen[command] = parse(self.live.ask_lines(command))
        return self._seen[command]
