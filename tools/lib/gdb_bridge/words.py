"""Faults, and how a task is, in words."""

from typing import List, NamedTuple, Optional, Tuple

from .answers import TaskState, Told
from .places import Task

_KERNEL = 0xFFFF


class Fault(NamedTuple):
    name: str
    signal: int                 # of gdb


# the faults of docs/FORMATS.md by number
FAULTS = {1: Fault("Illegal", 4), 2: Fault("IllegalText", 11), 3: Fault("Access", 11), 4: Fault("Unaligned", 10), 5: Fault("State", 4),
          6: Fault("Breakpoint", 5), 7: Fault("Usage", 12), 8: Fault("Panic", 6), 9: Fault("Injected", 15), 10: Fault("ReplyFault", 12)}
_ACCESS = ("load", "store", "read by a kernel call", "write by a kernel call")
_USAGE = ("", "BadCall", "BadTaskIndex", "InvalidSlice", "BadKernelMessage", "NotSupervisor", "NoIrq", "OffsetOutOfRange",
          "LeaseOutOfRange", "ReplyTooBig", "BadReason")
ENDS = {"still": "still: nobody is ready, and nothing more comes from outside", "supervisor": "the supervisor has faulted"}


def fault_number(fault: Told) -> int:
    return int(fault.words[1])


def name_of(tasks: List[Task], task: Optional[int]) -> str:
    if task is None:
        return "nobody"
    return tasks[task].name if task < len(tasks) else f"task {task}"


def fault_in_words(tasks: List[Task], fault: Told) -> str:
    """The line of a fault."""
    _, _, first, second = fault.words
    number, value = fault_number(fault), int(second, 16)
    text = f"{name_of(tasks, fault.task)} faults, {FAULTS[number].name}"
    if number in (3, 4):
        return text + f" at {first}, {_ACCESS[value]}"
    if number in (1, 2, 5):
        return text + f" at {first}"
    if number == 7:
        return text + f" {_USAGE[int(first, 16)]}"
    if number == 8:
        return text + f" {first} {second}"
    if number == 10:
        return text + f" of {name_of(tasks, int(first, 16) & 0x3FF)}, reason {value}"
    return text


def task_in_words(tasks: List[Task], state: TaskState, registers: Tuple[int, ...]) -> str:
    text = _activity(tasks, state, registers)
    if state.generation:
        text += f", generation {state.generation}"
    if state.posted:
        text += f", posted {state.posted:08x}"
    if state.timer:
        text += f", timer at {state.timer[0]} for {state.timer[1]}"
    return text


def _activity(tasks: List[Task], state: TaskState, registers: Tuple[int, ...]) -> str:
    if state.fault is not None:
        return "faulted, " + FAULTS[state.fault].name
    if state.stopped:
        return "stopped"
    if state.waits is None:
        return "ready"
    if state.waits == "listen":
        # a waiting task keeps the registers of its call
        mask, whom = registers[6:8]
        return f"listens to {_listened(tasks, whom)}" + (f", mask {mask:08x}" if mask else "")
    begins = "offers call" if state.waits == "offered" else "waits for the answer to call"
    return f"{begins} {state.call} to {name_of(tasks, registers[4] >> 16 & 0x3FF)}, operation {registers[4] & 0xFFFF}"


def _listened(tasks: List[Task], whom: int) -> str:
    if not whom >> 31:
        return "anyone"
    return "the kernel" if whom & 0xFFFF == _KERNEL else name_of(tasks, whom & 0x3FF)
