"""An ELF of the tasks in assembly: their code, a symbol TASK.LABEL for each label, and DWARF with the line of each instruction."""

import os
import struct
from typing import List, NamedTuple, Sequence, Tuple

from .places import FLASH, Task
from .thumb import called

_HEADER, _SEGMENT, _SECTION = struct.Struct("<HHIIIIIHHHHHH"), struct.Struct("<8I"), struct.Struct("<10I")
_SYMBOL = struct.Struct("<IIIBBH")
_IDENTIFICATION = b"\x7fELF\x01\x01\x01" + bytes(9)
_PROGRAM_BITS, _SYMBOL_TABLE, _STRING_TABLE = 1, 2, 3
_CODE_FLAGS = 6                 # allocated, and executable
_OBJECT, _FUNCTION = 1, 2
_MIPS_ASSEMBLER = 0x8001        # the language of DWARF that is one of assembly
# a unit: its name, folder, lines, first address, end and language; a label: its name, first address and end
_ABBREVIATIONS = (b"\x01\x11\x01\x03\x08\x1b\x08\x10\x06\x11\x01\x12\x01\x13\x05\0\0"
                  b"\x02\x2e\0\x03\x08\x11\x01\x12\x01\0\0\0")
# a CIE: code by halfwords in steps of 1, the return address in lr, the frame at sp
_FRAME_HEAD = b"\x0c\0\0\0\xff\xff\xff\xff\x01\0\x01\x7c\x0e\x0c\x0d\0"
_RETURN_UNDEFINED = b"\x07\x0e\0\0"
_LINES_HEAD = b"\x01\x01\xfb\x0e\x0a\0\x01\x01\x01\x01\0\0\0\x01\0"


class _Section(NamedTuple):
    name: str
    kind: int
    data: bytes
    flags: int = 0
    address: int = 0
    link: int = 0
    info: int = 0
    entry_size: int = 0


def assembled(tasks: Sequence[Task], flash: bytes) -> bytes:
    made = _Assembly(flash)
    for task in tasks:
        made.add(task)
    return _written(made.sections(), len(tasks), tasks[0].flash | 1 if tasks else 0)


def uleb(value: int) -> bytes:
    """A number of DWARF, without its sign."""
    out = bytearray()
    while True:
        value, low = value >> 7, value & 0x7F
        out.append(low | (0x80 if value else 0))
        if not value:
            return bytes(out)


def sleb(value: int) -> bytes:
    """A number of DWARF, with its sign."""
    out = bytearray()
    while True:
        value, low = value >> 7, value & 0x7F
        last = value == (-1 if low & 0x40 else 0)
        out.append(low | (0 if last else 0x80))
        if last:
            return bytes(out)


class _Assembly:
    """What sections hold of the tasks so far."""

    def __init__(self, flash: bytes) -> None:
        self.flash = flash
        self.texts: List[_Section] = []
        self.names, self.symbols = bytearray(b"\0"), [bytes(_SYMBOL.size)]
        self.info, self.lines, self.frames = b"", b"", _FRAME_HEAD

    def add(self, task: Task) -> None:
        begin, end = task.flash, task.flash + task.length
        code = self.flash[begin - FLASH:end - FLASH]
        self.texts.append(_Section(".text." + task.name, _PROGRAM_BITS, code, _CODE_FLAGS, begin))
        labels = sorted(task.labels if any(at == begin for at, _ in task.labels) else task.labels + [(begin, "start")])
        self._add_symbol("$t", begin, 0, 0)
        self.info += self._unit(task, labels, os.fsencode(task.source) + b"\0")
        self.frames += _frame(begin, end, labels, called(code, begin))
        self.lines += _line_program(task, os.fsencode(task.source) + b"\0")

    def sections(self) -> List[_Section]:
        strings = len(self.texts) + 6           # the index of .strtab: behind the null section, the texts and five more
        return self.texts + [
            _Section(".debug_abbrev", _PROGRAM_BITS, _ABBREVIATIONS), _Section(".debug_info", _PROGRAM_BITS, self.info),
            _Section(".debug_line", _PROGRAM_BITS, self.lines), _Section(".debug_frame", _PROGRAM_BITS, self.frames),
            _Section(".symtab", _SYMBOL_TABLE, b"".join(self.symbols), link=strings, info=len(self.symbols), entry_size=_SYMBOL.size),
            _Section(".strtab", _STRING_TABLE, bytes(self.names))]

    def _add_symbol(self, name: str, at: int, size: int, kind: int) -> None:
        self.symbols.append(_SYMBOL.pack(len(self.names), at, size, kind, 0, len(self.texts)))
        self.names += name.encode() + b"\0"

    def _unit(self, task: Task, labels: List[Tuple[int, str]], source: bytes) -> bytes:
        """The unit of a task in .debug_info; each of its labels is a symbol too."""
        begin, end = task.flash, task.flash + task.length
        instructions = {at for at, _ in task.lines}
        body = b"\x01" + source + os.fsencode(os.getcwd()) + b"\0" + struct.pack("<IIIH", len(self.lines), begin, end, _MIPS_ASSEMBLER)
        for index, (at, label) in enumerate(labels):
            until = next((other for other, _ in labels[index:] if other > at), end)
            name, is_code = f"{task.name}.{label}", at in instructions
            self._add_symbol(name, at | is_code, until - at, _FUNCTION if is_code else _OBJECT)
            if is_code:
                body += b"\x02" + name.encode() + b"\0" + struct.pack("<II", at, until)
        return struct.pack("<IHIB", 8 + len(body), 3, 0, 4) + body + b"\0"


def _frame(begin: int, end: int, labels: List[Tuple[int, str]], calls) -> bytes:
    """Nobody called what is before the first function, so a backtrace ends there."""
    first = min([end] + [at for at, _ in labels if at in calls])
    return struct.pack("<4I", 16, 0, begin, first - begin) + _RETURN_UNDEFINED


def _line_program(task: Task, source: bytes) -> bytes:
    header = _LINES_HEAD + source + b"\0\0\0\0"
    program = b"\0\x05\x02" + struct.pack("<I", task.flash)
    at, line = task.flash, 1
    for to, number in task.lines:
        program += b"\x02" + uleb(to - at) + b"\x03" + sleb(number - line) + b"\x01"
        at, line = to, number
    program += b"\x02" + uleb(task.flash + task.length - at) + b"\0\x01\x01"
    unit = struct.pack("<HI", 3, len(header)) + header + program
    return struct.pack("<I", len(unit)) + unit


def _written(sections: List[_Section], texts: int, entry: int) -> bytes:
    """An ELF with these sections, the first of which are segments too."""
    strings = b"\0" + b"".join(section.name.encode() + b"\0" for section in sections) + b".shstrtab\0"
    sections = sections + [_Section(".shstrtab", _STRING_TABLE, strings)]
    data_begins = 52 + _SEGMENT.size * texts
    data, table, segments = b"", _SECTION.pack(*[0] * 10), b""
    for index, section in enumerate(sections):
        data += bytes(-len(data) % 4)
        offset, size = data_begins + len(data), len(section.data)
        name = strings.index(b"\0" + section.name.encode() + b"\0") + 1
        table += _SECTION.pack(name, section.kind, section.flags, section.address, offset, size, section.link, section.info, 4,
                               section.entry_size)
        if index < texts:
            segments += _SEGMENT.pack(1, offset, section.address, section.address, size, size, 5, 2)
        data += section.data
    data += bytes(-len(data) % 4)
    header = _HEADER.pack(2, 40, 1, entry, 52 if texts else 0, data_begins + len(data), 0x05000200, 52, _SEGMENT.size, texts,
                          _SECTION.size, len(sections) + 1, len(sections))
    return _IDENTIFICATION + header + segments + data + table
