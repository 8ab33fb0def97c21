"""Searches of a run, forwards and back, for what gdb stops at. They go by stretches, between which gdb may interrupt."""

import time
from dataclasses import dataclass, field
from enum import IntEnum
from typing import Callable, Dict, Iterator, List, NamedTuple, Optional, Set, Tuple

from .cursor import Cursor, MOST
from .answers import RUNNING, Hit
from .places import Task
from .thumb import leading_to

BREAKPOINTS = 16                # that `live` has room for
APART = 65_536                  # turns between the states that `live` keeps
_MOST_AT_ONCE = 1 << 24
_NO_ADDRESSES = range(0)


class Reason(IntEnum):
    """Why a search stops. Of one turn the first counts."""

    FAULT = 0
    RESTART = 1
    WATCH = 2
    BREAK = 3
    STEPPED = 4
    END = 5


class Event(NamedTuple):
    turn: int                   # where the cursor stands then
    reason: Reason
    task: Optional[int]
    byte: int = 0               # of a change, its address


class Interrupted(Exception):
    """gdb asks to stop a search; the cursor is where it came to."""


class Stop(NamedTuple):
    """A breakpoint of a task, or of any."""

    task: Optional[int]
    behind: bool                # to stop behind the turn, not before it

    def is_of(self, task: int) -> bool:
        return self.task is None or self.task == task


Breaks = Dict[int, List[Stop]]  # by address; of those that a task meets the first counts


@dataclass
class Aim:
    """What a search forwards is for."""

    breaks: Breaks = field(default_factory=dict)
    watched: List[int] = field(default_factory=list)    # addresses of bytes
    faults: bool = False
    stepped: Optional[int] = None                       # a task that makes a step, which its birth ends too


def _groups(breaks: Breaks) -> List[Set[int]]:
    addresses = sorted(breaks)
    return [set(addresses[k:k + BREAKPOINTS]) for k in range(0, len(addresses), BREAKPOINTS)]


def _stretches() -> Iterator[int]:
    """How many turns to go between two looks at gdb: some tenths of a second."""
    size = APART
    while True:
        began = time.monotonic()
        yield size
        took = time.monotonic() - began
        if took < 0.1:
            size = min(size * 2, _MOST_AT_ONCE)
        elif took > 0.4:
            size = max(size // 2, APART)


class _First:
    """The first event of the turns from the cursor on and below a limit. Each kind is looked for below what the others found."""

    def __init__(self, cursor: Cursor, aim: Aim, limit: int) -> None:
        self.cursor, self.aim, self.limit = cursor, aim, limit
        self.start = cursor.turn
        self.best: Optional[Event] = None

    def found(self) -> Optional[Event]:
        """The event; the cursor is anywhere then."""
        aim = self.aim
        if aim.stepped is not None:
            makes_call = self.cursor.memory(self.cursor.pc(aim.stepped), 2)[1:] == b"\xdf"
            before = self._watched_bytes()
        for group in _groups(aim.breaks):
            self._look_for_hit(group)
        if aim.stepped is not None and not makes_call and self._is_one_instruction():
            self._look_at_instruction(before)
            return self.best
        for address in aim.watched:
            self._look_for(f"change {address:08x}", Reason.WATCH, address)
        if aim.faults:
            self._look_for("fault", Reason.FAULT)
        if aim.stepped is not None:
            self._look_for(f"restart {aim.stepped}", Reason.RESTART)
        return self.best

    def _note(self, event: Event) -> None:
        if self.best is None or event[:2] < self.best[:2]:
            self.best = event
            self.limit = min(self.limit, event.turn)

    def _look_for(self, what: str, reason: Reason, byte: int = 0) -> None:
        self.cursor.to(self.start)
        told = self.cursor.go(self.limit, what)
        if told:
            self._note(Event(self.cursor.turn, reason, told.task, byte))

    def _look_for_hit(self, group: Set[int]) -> None:
        self.cursor.to(self.start)
        self.cursor.set_breakpoints(group)
        while self.cursor.end in (RUNNING, None):
            hit = self.cursor.go_to_breakpoint(self.limit)
            if hit is None:
                return
            stop = next((stop for stop in self.aim.breaks[hit.pc] if stop.is_of(hit.task)), None)
            if stop and stop.behind:
                return self._note(Event(hit.turn, Reason.STEPPED, hit.task))
            if stop:
                return self._note(Event(hit.turn - 1, Reason.BREAK, hit.task))

    def _is_one_instruction(self) -> bool:
        return self.best is not None and self.best[:3] == (self.start + 1, Reason.STEPPED, self.aim.stepped)

    def _look_at_instruction(self, before: List[bytes]) -> None:
        """Of one turn of one task that makes no call: it changes nobody else, so no search is needed."""
        task = self.aim.stepped
        self.cursor.to(self.start + 1)
        for address, was, now in zip(self.aim.watched, before, self._watched_bytes()):
            if now != was:
                self._note(Event(self.start + 1, Reason.WATCH, task, address))
        if self.aim.faults and self.cursor.task_state(task).fault is not None:
            self._note(Event(self.start + 1, Reason.FAULT, task))

    def _watched_bytes(self) -> List[bytes]:
        return [self.cursor.memory(address, 1) for address in self.aim.watched]


class Searches:
    def __init__(self, cursor: Cursor, tasks: List[Task], interrupted: Callable[[], bool]) -> None:
        self._cursor, self._tasks, self._interrupted = cursor, tasks, interrupted

    def forward(self, aim: Aim) -> Event:
        """On to the first event, or to the end of the run."""
        cursor = self._cursor
        for size in _stretches():
            limit = min(MOST, (cursor.turn + size) // APART * APART)
            event = _First(cursor, aim, limit).found()
            cursor.to(event.turn if event else limit)
            if event:
                return event
            if cursor.end != RUNNING:
                return Event(cursor.turn, Reason.END, None)
            self._let_interrupt()

    def backward(self, low: int, breaks: Breaks, watched: List[int]) -> Optional[Event]:
        """Back to before the last event of the turns from `low` on and below the cursor; else to `low`."""
        cursor = self._cursor
        for size in _stretches():
            start = cursor.turn
            if start <= low:
                return None
            limit = max(low, (start - size + APART - 1) // APART * APART)
            event = self._last(limit, breaks, watched)
            cursor.to(event.turn if event else limit)
            if event:
                return event
            self._let_interrupt()

    def last_turn_of(self, task: int) -> Optional[int]:
        """The last turn before the cursor that ran a task. The cursor is anywhere then."""
        cursor, here = self._cursor, self._cursor.turn
        if here == 0:
            return None
        pc, generation = cursor.pc(task), cursor.task_state(task).generation
        cursor.to(here - 1)
        if cursor.pc(task) != pc and cursor.task_state(task).generation == generation:
            # none but the task itself or a restart changes its PC
            return here - 1
        cursor.to(here)
        if cursor.task_state(task).waits:
            # it began to wait in its own turn
            return cursor.turn if cursor.back(0, f"call {task}") else None
        code = self._tasks[task].code
        return self._last_turn_by_stretches(task) if code is None else self._last_turn_by_code(task, code)

    def _let_interrupt(self) -> None:
        if self._interrupted():
            raise Interrupted

    def _last(self, limit: int, breaks: Breaks, watched: List[int]) -> Optional[Event]:
        """The last event of the turns from `limit` on and below the cursor, which is anywhere then."""
        cursor, start = self._cursor, self._cursor.turn
        best: Optional[Event] = None
        for address in watched:
            cursor.to(start)
            told = cursor.back(limit, f"change {address:08x}")
            if told and (best is None or cursor.turn > best.turn):
                best = Event(cursor.turn, Reason.WATCH, told.task, address)
                limit = best.turn
        for group in _groups(breaks):
            event = self._last_hit(limit, start, group, breaks)
            if event and (best is None or event.turn > best.turn):
                best, limit = event, event.turn
        return best

    def _last_hit(self, low: int, high: int, group: Set[int], breaks: Breaks) -> Optional[Event]:
        """The last turn from `low` on and below `high` that runs a task at one of these breakpoints, by halves."""
        self._cursor.set_breakpoints(group)
        event, middle = None, low
        while low < high:
            hit = self._first_hit(middle, high, breaks)
            if hit:
                event = Event(hit.turn - 1, Reason.BREAK, hit.task)
                low = hit.turn
            else:
                high = middle
            middle = (low + high) // 2
        return event

    def _first_hit(self, low: int, high: int, breaks: Breaks) -> Optional[Hit]:
        self._cursor.to(low)
        while True:
            hit = self._cursor.go_to_breakpoint(high)
            if hit is None or any(stop.is_of(hit.task) for stop in breaks[hit.pc]):
                return hit

    def _last_turn_by_code(self, task: int, code: List[Tuple[int, int]]) -> Optional[int]:
        """Of a task that cannot write its code: the last turn since its birth ran one of the instructions that lead to its PC."""
        cursor, here, pc = self._cursor, self._cursor.turn, self._cursor.pc(task)
        birth = cursor.turn + 1 if cursor.back(0, f"restart {task}") else 0
        cursor.to(here)
        breaks = {address: [Stop(task, False)] for base, size in code
                  for address in leading_to(cursor.memory(base, size), base, pc)}
        event = self.backward(birth, breaks, [])
        if event:
            return event.turn
        if birth == 0:
            return None
        cursor.to(birth - 1)
        return self.last_turn_of(task)

    def _last_turn_by_stretches(self, task: int) -> Optional[int]:
        """Of a task that may write its code: who runs changes at a call, a fault, a restart, and where a call ends; as long as nothing
        of this was told, one task ran."""
        cursor = self._cursor
        while cursor.turn > 0:
            if cursor.who_ran() == task:
                return cursor.turn - 1
            cursor.to(self._stretch_of_one())
            self._let_interrupt()
        return None

    def _stretch_of_one(self) -> int:
        """From which turn on, as far as is known, the one task ran that ran in the turn before the cursor."""
        cursor, top = self._cursor, self._cursor.turn - 1
        if any(note.kind in ("ret", "restart") for note in cursor.notes()):
            return top
        low = 0
        for kind in ("call", "ret", "restart", "fault"):
            cursor.to(top)
            if cursor.back(low, kind):
                low = cursor.turn + 1
        return low
