"""How the bridge is called: by a gdb that it starts itself, over a pipe, or at a port."""

import os
import re
import shlex
import signal
import socket
import subprocess
import sys
import tempfile
from dataclasses import dataclass
from pathlib import Path
from typing import List, Optional

from .application import prepared
from .cursor import Cursor
from .live import Live
from .packets import Connection, Gone
from .places import command_of
from .refusal import TOOLS, Refused, refuse
from .server import Server

_USAGE = "usage: gdb [--pipe or --port N] APP SCRIPT [GDB WORDS ..]"
_OWN_COMMANDS = Path(__file__).with_name("commands.gdb")
_LAST_PORT = 65535


@dataclass
class Call:
    """What the words of a call ask for."""

    mode: str                   # --pipe, --port, or nothing, which starts gdb
    port: int
    app: str
    script: str
    gdb_words: List[str]


def call_of(words: List[str]) -> Optional[Call]:
    """None where the words are none of a call."""
    mode, port = "", 0
    if words[:1] in (["--pipe"], ["--port"]):
        mode, *words = words
    if mode == "--port":
        digits, *words = words or [""]
        if not re.fullmatch("[0-9]{1,5}", digits) or int(digits) > _LAST_PORT:
            return None
        port = int(digits)
    if len(words) < 2 or mode and len(words) > 2:
        return None
    return Call(mode, port, words[0], words[1], words[2:])


def run(help_text: str, words: List[str]) -> int:
    """The status of a call with these words."""
    if words[:1] in (["-h"], ["--help"]):
        print(help_text)
        return 0
    call = call_of(words)
    if call is None:
        print(_USAGE, file=sys.stderr)
        return 2
    for number in (signal.SIGTERM, signal.SIGHUP):
        if signal.getsignal(number) == signal.SIG_DFL:
            signal.signal(number, _end)
    try:
        return _carried_out(call)
    except Refused as why:
        print(f"gdb: {why}", file=sys.stderr)
        return 1
    except KeyboardInterrupt:
        return 128 + signal.SIGINT


def _end(number: int, _: object) -> None:
    """By way of an exception, so that no folder and no session is left."""
    sys.exit(128 + number)


def _carried_out(call: Call) -> int:
    for name in (call.app, call.script):
        if not os.access(name, os.R_OK) or os.path.isdir(name):
            refuse(f"cannot read {name}")
    program = _program()
    if call.mode == "--pipe":
        signal.signal(signal.SIGINT, signal.SIG_IGN)
        _serve(program, call, Connection(0, 1))
        return 0
    return _serve_port(program, call) if call.mode == "--port" else _start_gdb(program, call)


def _program() -> str:
    program = os.environ.get("HUBRIS") or str(TOOLS.parent / "crates/hubris/out/hubris")
    if not os.access(program, os.X_OK) or os.path.isdir(program):
        refuse(f"no program at {program}: build it first, or set HUBRIS")
    return program


def _serve(program: str, call: Call, connection: Connection) -> None:
    """Answers one gdb."""
    with tempfile.TemporaryDirectory() as folder:
        application = prepared(program, call.app, Path(folder))
        live = Live(program, application.image, call.script)
        try:
            Server(connection, live, application).serve()
        except Gone:
            pass
        finally:
            live.close()


def _try_out(program: str, call: Call) -> None:
    """Opens a session and closes it, so that what is wrong is told before any gdb is there."""
    with tempfile.TemporaryDirectory() as folder:
        live = Live(program, prepared(program, call.app, Path(folder)).image, call.script)
        try:
            Cursor(live)
        finally:
            live.close()


def _serve_port(program: str, call: Call) -> int:
    """Answers one gdb after the other. The application is made ready for each, as its sources then are."""
    try:
        listening = socket.create_server(("127.0.0.1", call.port))
    except OSError as why:
        refuse(f"cannot listen at port {call.port}: {os.strerror(why.errno)}")
    with listening:
        _try_out(program, call)
        print(f"gdb: target remote :{listening.getsockname()[1]}", file=sys.stderr, flush=True)
        while True:
            accepted, _ = listening.accept()
            with accepted:
                accepted.setsockopt(socket.IPPROTO_TCP, socket.TCP_NODELAY, 1)
                try:
                    _serve(program, call, Connection(accepted.fileno(), accepted.fileno()))
                except Refused as why:
                    print(f"gdb: {why}", file=sys.stderr, flush=True)


def _start_gdb(program: str, call: Call) -> int:
    debugger = _debugger()
    _try_out(program, call)
    bridge = " ".join(map(shlex.quote, (sys.executable, str(TOOLS / "gdb"), "--pipe", call.app, call.script)))
    signal.signal(signal.SIGINT, lambda *_: None)
    return subprocess.call([*debugger, "-q", "-x", str(_OWN_COMMANDS), "-ex", f"target remote | {bridge}", *call.gdb_words])


def _debugger() -> List[str]:
    """The gdb to start. Refused where it is not there, or knows no Arm."""
    debugger = command_of("GDB", "gdb-multiarch")
    try:
        status = subprocess.call([*debugger, "-nx", "-batch", "-ex", "set architecture arm"], stdin=subprocess.DEVNULL,
                                 stdout=subprocess.DEVNULL, stderr=subprocess.DEVNULL)
    except FileNotFoundError:
        refuse(f"there is no {debugger[0]}: install it, or set GDB")
    except OSError as why:
        refuse(f"cannot start {debugger[0]}: {why.strerror}")
    if status:
        refuse(f"{debugger[0]} is no gdb that knows Arm: install gdb-multiarch, or set GDB")
    return debugger
