"""Answers gdb's packets about a run, until gdb has left."""

from typing import Callable, Dict, Optional

from .application import Application
from .cursor import Cursor
from .documents import Documents
from .live import Live
from .monitor import Monitor
from .packets import Connection, Gone, hexadecimal_of, number_of, word_of
from .steps import SIGTRAP, Halt, Point, Steps

_SUPPORTED = ("PacketSize=8000;QStartNoAckMode+;qXfer:features:read+;qXfer:threads:read+;qXfer:libraries:read+;"
              "qXfer:exec-file:read+;ReverseStep+;ReverseContinue+;vContSupported+;QPassSignals+;swbreak+;hwbreak+")
_ERROR, _READ_ONLY, _NO_DOCUMENT = "E01", "E.a run is only read", "E00"
_RUNS = 0x12                    # the register `runs`, behind those of a stop
_AT_ONCE = 8000                 # characters of a packet of text
_Answer = Optional[str]


class Server:
    """Thread N of gdb is task N - 1."""

    def __init__(self, connection: Connection, live: Live, application: Application) -> None:
        self._connection, self._tasks = connection, application.tasks
        self._cursor = Cursor(live)
        self._steps = Steps(self._cursor, self._tasks, connection.interrupted)
        self._monitor = Monitor(self._cursor, self._tasks)
        self._documents = Documents(self._tasks, application.files, self._monitor.task_in_words)
        self._asked = self._steps.thread        # the task whose registers gdb means
        read_only: Callable[[str], _Answer] = lambda _: _READ_ONLY
        error: Callable[[str], _Answer] = lambda _: _ERROR
        go_on: Callable[[str], _Answer] = lambda _: self._halted(self._steps.go_on())
        step: Callable[[str], _Answer] = lambda _: self._halted(self._steps.step(self._asked))
        self._kinds: Dict[str, Callable[[str], _Answer]] = {
            "q": self._query, "Q": self._query, "v": self._verbose, "?": lambda _: self._halted(Halt(SIGTRAP)),
            "g": lambda _: "".join(map(word_of, self._registers())), "p": self._register, "m": self._memory,
            "G": read_only, "P": read_only, "M": error, "X": error, "H": self._choose, "T": self._is_alive,
            "Z": self._point, "z": self._point, "c": go_on, "C": go_on, "s": step, "S": step, "b": self._reverse,
            "!": lambda _: "OK", "D": self._leave, "k": self._killed}

    def serve(self) -> None:
        self._connection.drop_repeats()
        while True:
            packet = self._connection.take()
            self._connection.give(self._answer(packet))
            if packet == "QStartNoAckMode":
                self._connection.acknowledges = False

    def _answer(self, packet: str) -> str:
        kind = self._kinds.get(packet[:1])
        try:
            return kind(packet) if kind else ""
        except (ValueError, IndexError):
            return _ERROR

    # what is asked

    def _registers(self) -> list:
        return [*self._cursor.registers(self._asked), self._cursor.turn]

    def _register(self, packet: str) -> str:
        number = number_of(packet[1:])
        if number == _RUNS:
            runs = self._cursor.who_runs()
            return word_of((self._asked if runs is None else runs) + 1)
        return word_of(self._registers()[number])

    def _memory(self, packet: str) -> str:
        address, length = map(number_of, packet[1:].split(","))
        return self._cursor.memory(address, length).hex() or _ERROR

    def _query(self, packet: str) -> str:
        name, _, rest = packet.partition(":")
        if name == "QPassSignals":
            self._steps.passed = {number_of(digits) for digits in rest.split(";") if digits}
            return "OK"
        if name == "qXfer":
            return self._document(rest)
        if name.startswith("qThreadExtraInfo,"):
            task = self._task(name[17:])
            return hexadecimal_of(f"{self._tasks[task].name}: {self._monitor.task_in_words(task)}")
        if name.startswith("qRcmd,"):
            return self._command(name[6:])
        simple = {"qSupported": _SUPPORTED, "QStartNoAckMode": "OK", "qSymbol": "OK", "qAttached": "1", "qsThreadInfo": "l",
                  "qC": f"QC{self._steps.thread + 1:x}",
                  "qfThreadInfo": "m" + ",".join(f"{task + 1:x}" for task in range(len(self._tasks)))}
        return simple.get(name, "")

    def _document(self, rest: str) -> str:
        name, _, _, place = rest.split(":")
        begin, length = map(number_of, place.split(","))
        part = self._documents.part(name, begin, length)
        return _NO_DOCUMENT if part is None else part

    def _command(self, digits: str) -> str:
        text = self._monitor.answer(bytes.fromhex(digits).decode("utf-8", "replace").split())
        for begin in range(0, len(text), _AT_ONCE):
            self._say(text[begin:begin + _AT_ONCE])
        return "OK"

    # threads and points

    def _task(self, digits: str) -> int:
        """The task of a thread's number."""
        task = number_of(digits) - 1
        if not 0 <= task < len(self._tasks):
            raise ValueError(f"no thread is {digits}")
        return task

    def _task_or_asked(self, digits: str) -> int:
        """The same; none, any (0) and all (-1) are the one whose registers gdb means."""
        if not digits or digits.startswith("-") or number_of(digits) == 0:
            return self._asked
        return self._task(digits)

    def _choose(self, packet: str) -> str:
        if packet[1] == "g":
            self._asked = self._task_or_asked(packet[2:])
        else:
            # what moves names its thread
            number_of(packet[2:].lstrip("-"))
        return "OK"

    def _is_alive(self, packet: str) -> str:
        self._task(packet[1:])
        return "OK"

    def _point(self, packet: str) -> str:
        kind, address, length = packet[1:].split(",")[:3]
        point = Point(kind, number_of(address), number_of(length.partition(";")[0]))
        if kind not in ("0", "1", "2"):
            return ""
        if kind == "2" and len(self._cursor.memory(point.address, point.length)) < point.length:
            return "E.no bytes of flash or RAM"
        if packet[0] == "Z":
            self._steps.points.set(point)
        else:
            self._steps.points.clear(point)
        return "OK"

    # what moves

    def _verbose(self, packet: str) -> _Answer:
        if packet == "vCont?":
            return "vCont;c;C;s;S;r"
        if packet.startswith("vCont;"):
            return self._halted(self._act(packet.split(";")[1]))
        if packet.startswith("vKill"):
            return self._leave(packet)
        return self._halted(self._steps.begin()) if packet.startswith("vRun") else ""

    def _act(self, action: str) -> Halt:
        """The first action of a vCont, which is the one of a thread that steps; the others run as they do."""
        action, _, thread = action.partition(":")
        task = self._task_or_asked(thread)
        if action[0] in "sS":
            return self._steps.step(task)
        if action[0] == "r":
            begin, end = map(number_of, action[1:].split(","))
            return self._steps.step_over(task, begin, end)
        return self._steps.go_on()

    def _reverse(self, packet: str) -> str:
        return self._halted(self._steps.reverse_step(self._asked) if packet == "bs" else self._steps.reverse())

    def _halted(self, halt: Halt) -> str:
        """The stop reply, with all registers, so that gdb asks for none."""
        if halt.said:
            self._say(halt.said + "\n")
        self._asked = self._steps.thread
        registers = "".join(f"{number:02x}:{word_of(value)};" for number, value in enumerate(self._registers()))
        return f"T{halt.signal:02x}thread:{self._asked + 1:x};{halt.reason}{registers}"

    def _say(self, text: str) -> None:
        self._connection.give("O" + hexadecimal_of(text))

    def _leave(self, _: str) -> str:
        self._connection.give("OK")
        raise Gone

    def _killed(self, _: str) -> str:
        raise Gone
