"""What gdb asks a run for: to go on, to step, and both backwards; each ends in a halt that gdb is told."""

from typing import Callable, Dict, List, NamedTuple, Optional, Set

from .cursor import Cursor, MOST
from .places import Task
from .searches import Aim, Breaks, Event, Interrupted, Reason, Searches, Stop
from .thumb import exits
from .words import ENDS, FAULTS, fault_in_words, fault_number, name_of

SIGHUP, SIGINT, SIGTRAP = 1, 2, 5


class Halt(NamedTuple):
    """Where a run halts, as gdb is told."""

    signal: int
    reason: str = ""            # in the words of a stop reply
    said: str = ""              # a line for its user


class Point(NamedTuple):
    """A breakpoint of software or of hardware, or a watchpoint."""

    kind: str
    address: int
    length: int


class Points:
    """What gdb has set, in the order in which it did."""

    def __init__(self) -> None:
        self._breaks: Dict[Point, None] = {}
        self._watched: Dict[Point, None] = {}

    def set(self, point: Point) -> None:
        self._of(point)[point] = None

    def clear(self, point: Point) -> None:
        self._of(point).pop(point, None)

    def breaks(self) -> Breaks:
        return {point.address: [Stop(None, False)] for point in self._breaks}

    def watchpoints(self) -> List[Point]:
        return list(self._watched)

    def watched_bytes(self) -> List[int]:
        return sorted({point.address + k for point in self._watched for k in range(point.length)})

    def watching(self, byte: int) -> Point:
        return next(point for point in self._watched if point.address <= byte < point.address + point.length)

    def has_software_break(self, address: int) -> bool:
        return any(point.kind == "0" and point.address == address for point in self._breaks)

    def _of(self, point: Point) -> Dict[Point, None]:
        return self._watched if point.kind == "2" else self._breaks


def _watch_reason(point: Point) -> str:
    return f"watch:{point.address:x};"


class Steps:
    """`thread` is the task that the last halt is of."""

    def __init__(self, cursor: Cursor, tasks: List[Task], interrupted: Callable[[], bool]) -> None:
        self._cursor, self._tasks = cursor, tasks
        self._searches = Searches(cursor, tasks, interrupted)
        self.points = Points()
        self.passed: Set[int] = set()           # signals that gdb does not want to stop for
        self.thread = cursor.who_runs() or 0

    # forwards

    def go_on(self) -> Halt:
        return self._forward(self._aim())

    def step(self, task: int) -> Halt:
        """On to behind the next instruction of a task, whoever runs before."""
        self.thread = task
        aim = self._aim(task)
        aim.breaks.setdefault(self._cursor.pc(task), []).insert(0, Stop(task, True))
        return self._forward(aim)

    def step_over(self, task: int, begin: int, end: int) -> Halt:
        """On until a task has left a range of addresses."""
        self.thread = task
        code = self._cursor.memory(begin, end - begin) if begin <= self._cursor.pc(task) < end else b""
        if not code or len(code) < end - begin:
            return self.step(task)
        aim, ways_out = self._aim(task), exits(code, begin)
        for address in ways_out.targets:
            aim.breaks.setdefault(address, []).append(Stop(task, False))
        for address in ways_out.indirect:
            aim.breaks.setdefault(address, []).append(Stop(task, True))
        return self._forward(aim, range(begin, end))

    def _aim(self, stepped: Optional[int] = None) -> Aim:
        faults = any(fault.signal not in self.passed for fault in FAULTS.values())
        return Aim(self.points.breaks(), self.points.watched_bytes(), faults, stepped)

    def _forward(self, aim: Aim, within: range = range(0)) -> Halt:
        """On to an event that gdb wants; of a step, until the task is not at one of these addresses."""
        stepping = aim.stepped is not None
        try:
            while True:
                event = self._searches.forward(aim)
                if event.reason == Reason.STEPPED and self._cursor.pc(aim.stepped) in within:
                    continue
                if event.reason == Reason.FAULT and event.task != aim.stepped and self._is_passed(event):
                    continue
                return self._halt(event, stepping)
        except Interrupted:
            return self._interrupted(stepping)

    def _is_passed(self, event: Event) -> bool:
        return FAULTS[fault_number(self._cursor.fault_of(event.task))].signal in self.passed

    # backwards

    def begin(self) -> Halt:
        """To the beginning of the run."""
        self._cursor.to(0)
        self.thread = self._cursor.who_runs() or 0
        return Halt(SIGTRAP, "replaylog:begin;")

    def reverse(self) -> Halt:
        try:
            event = self._searches.backward(0, self.points.breaks(), self.points.watched_bytes())
        except Interrupted:
            return self._interrupted(False)
        return self._halt(event, False) if event else self.begin()

    def reverse_step(self, task: int) -> Halt:
        """Back to before the last instruction of a task, or behind what others did since."""
        self.thread = task
        here = self._cursor.turn
        try:
            last = self._searches.last_turn_of(task)
            event = self._since(0 if last is None else last + 1, here)
        except Interrupted:
            return self._interrupted(True)
        if event:
            return self._halt(event, True)
        if last is None:
            return self.begin()
        changed = self._changed_in(last)
        self._cursor.to(last)
        return Halt(SIGTRAP, _watch_reason(changed) if changed else "")

    def _since(self, low: int, here: int) -> Optional[Event]:
        """The last event of the turns from `low` on and below `here`."""
        breaks, watched = self.points.breaks(), self.points.watched_bytes()
        if low >= here or not breaks and not watched:
            return None
        self._cursor.to(here)
        return self._searches.backward(low, breaks, watched)

    def _changed_in(self, turn: int) -> Optional[Point]:
        """The first watchpoint whose bytes a turn changes."""
        points = self.points.watchpoints()
        if not points:
            return None
        self._cursor.to(turn + 1)
        behind = [self._cursor.memory(point.address, point.length) for point in points]
        self._cursor.to(turn)
        return next((point for point, bytes_behind in zip(points, behind)
                     if self._cursor.memory(point.address, point.length) != bytes_behind), None)

    # halts

    def _interrupted(self, stepping: bool) -> Halt:
        if not stepping:
            self._choose(self._cursor.who_ran())
        return Halt(SIGINT)

    def _halt(self, event: Event, stepping: bool) -> Halt:
        """The halt that an event is."""
        self._choose(self._cursor.who_ran() if event.task is None and not stepping else event.task)
        if event.reason == Reason.END:
            return self._end()
        if event.reason == Reason.WATCH:
            return Halt(SIGTRAP, _watch_reason(self.points.watching(event.byte)))
        if event.reason == Reason.RESTART:
            return Halt(SIGHUP, said=f"{name_of(self._tasks, event.task)} is born again in turn {self._cursor.turn - 1}.")
        if event.reason == Reason.FAULT:
            return self._fault(event)
        stops_at_break = event.reason == Reason.BREAK and self.points.has_software_break(self._cursor.pc(self.thread))
        return Halt(SIGTRAP, "swbreak:;" if stops_at_break else "")

    def _choose(self, task: Optional[int]) -> None:
        if task is not None:
            self.thread = task

    def _end(self) -> Halt:
        why = ENDS.get(self._cursor.end, f"{MOST} turns")
        return Halt(SIGTRAP, "replaylog:end;", f"The run ends in turn {self._cursor.turn}, {why}.")

    def _fault(self, event: Event) -> Halt:
        fault = self._cursor.fault_of(event.task)
        said = f"In turn {self._cursor.turn - 1} {fault_in_words(self._tasks, fault)}."
        return Halt(FAULTS[fault_number(fault)].signal, said=said)
