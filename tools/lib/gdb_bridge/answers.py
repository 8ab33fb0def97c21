"""The answers of `live` (docs/FORMATS.md, Commands) as values."""

from dataclasses import dataclass
from typing import Optional, Tuple, Union

RUNNING = "-"                   # in the place of why a run ends, where it does not


@dataclass(frozen=True)
class Position:
    """`at`: where the cursor stands, the time there, and why the run ends there."""

    turn: int
    now: int
    end: str


@dataclass(frozen=True)
class Hit:
    """`hit`: behind the turn that ran a task at a breakpoint."""

    turn: int
    task: int
    pc: int


@dataclass(frozen=True)
class Told:
    """A line of the trace, or of a change, with the turn that tells it."""

    turn: int
    kind: str
    words: Tuple[str, ...]      # behind the kind

    @property
    def task(self) -> Optional[int]:
        """The task that the line begins with, where lines of its kind do."""
        return None if self.words[0] == "-" else int(self.words[0])


Moved = Union[Position, Hit, Told, None]


def moved(line: str) -> Moved:
    """The answer to a command that moves the cursor; None where it did not."""
    words = line.split(" ")
    if words[0] == "at":
        return Position(int(words[1]), int(words[2]), words[3])
    if words[0] == "hit":
        return Hit(int(words[1]), int(words[2]), int(words[3], 16))
    return None if words[0] in ("none", "refused") else told(line)


def told(line: str) -> Told:
    turn, kind, *words = line.split(" ")
    return Told(int(turn), kind, tuple(words))


def registers(low: str, high: str) -> Tuple[int, ...]:
    """r0 to r15, and xPSR with the flags and the Thumb bit. `low` and `high` are the lines of these names."""
    r0_to_r7, (*r8_to_r15, flags) = low.split(" ")[1:9], high.split(" ")[1:10]
    return (*(int(digits, 16) for digits in r0_to_r7 + r8_to_r15), int(flags, 2) << 28 | 1 << 24)


def memory(line: str) -> Optional[bytes]:
    """The bytes of an answer to `mem`, or None where there are none."""
    return None if line == "none" else bytes.fromhex(line.split(" ")[1])


@dataclass(frozen=True)
class TaskState:
    """The line `task`."""

    generation: int
    stopped: bool
    fault: Optional[int]        # by its number, of a task that has faulted
    waits: Optional[str]        # `listen`, or how its call stands
    call: Optional[str]         # of a task that waits for a call, its number
    posted: int
    timer: Optional[Tuple[str, str]]


def task_state(line: str) -> TaskState:
    _, _, generation, health, wait, posted, timer = line.split(" ")
    waits, _, call = wait.partition(":")
    deadline, _, bits = timer.partition(":")
    return TaskState(int(generation), health == "stopped", int(health[8:]) if health.startswith("faulted:") else None,
                     None if waits == "-" else waits, call or None, int(posted, 16), None if timer == "-" else (deadline, bits))
