"""The ELF of a task in C or Rust, as it is where the builder has placed the task.

It was linked from 0 on, its RAM from 0x20000000 on, with its relocations kept (ld -q). So each address in its code, its DWARF, its
symbols and its headers can be moved, and the code then is compared with the flash of the image."""

import struct
from typing import Iterator, List, NamedTuple, Set

from .places import FLASH, RAM, Task
from .refusal import refuse

_SECTION, _SYMBOL, _RELOCATION = struct.Struct("<10I"), struct.Struct("<IIIBBH"), struct.Struct("<II")
_ARM = b"\x28\0"
_PROGRAM_BITS, _SYMBOL_TABLE, _RELOCATIONS = 1, 2, 9
_ALLOCATED = 2
_ABSOLUTE_WORD = 2              # R_ARM_ABS32, which alone tells an address


class _Section(NamedTuple):
    name: int
    kind: int
    flags: int
    address: int
    offset: int
    size: int
    link: int
    info: int
    alignment: int
    entry_size: int

    @property
    def is_code(self) -> bool:
        return self.kind == _PROGRAM_BITS and bool(self.flags & _ALLOCATED)


def placed(elf: bytes, task: Task, flash: bytes) -> bytes:
    """Refused where its code is not that of the image."""
    if elf[:6] != b"\x7fELF\x01\x01" or elf[18:20] != _ARM:
        refuse("is no ELF for Arm")
    try:
        move = _Move(elf, task)
        open_words = move.relocated_words()
        move.symbols()
        move.headers()
        code = move.filled_code(open_words, flash)
    except (struct.error, IndexError, ValueError):
        refuse("is no whole ELF")
    begin = task.flash - FLASH
    if flash[begin:begin + len(code)] != code or len(code) != task.length:
        refuse(f"is not of {task.source}: make both anew by to-source.sh")
    return bytes(move.made)


class _Move:
    """An ELF on its way from where it was linked to where its task is."""

    def __init__(self, elf: bytes, task: Task) -> None:
        self.elf, self.made = elf, bytearray(elf)
        self.in_flash, self.in_ram = task.flash, task.stack_top - RAM
        self.begin = task.flash - FLASH
        self.table, self.size, count = struct.unpack_from("<I", elf, 32)[0], *struct.unpack_from("<HH", elf, 46)
        self.sections: List[_Section] = [_Section(*_SECTION.unpack_from(elf, self.table + index * self.size)) for index in range(count)]

    def relocated_words(self) -> Set[int]:
        """Moves the words that hold an address. Those of code whose symbol the builder hands in are open: where they are in the file."""
        open_words = set()
        for section in self._of_kind(_RELOCATIONS):
            into, symbols = self.sections[section.info], self.sections[section.link]
            for place, what in _RELOCATION.iter_unpack(self.elf[section.offset:section.offset + section.size]):
                if what & 0xFF != _ABSOLUTE_WORD:
                    continue
                where = into.offset + place - into.address
                of = _SYMBOL.unpack_from(self.elf, symbols.offset + (what >> 8) * _SYMBOL.size)[5]
                self._add(where, self._distance(of))
                if of == 0 and into.flags & _ALLOCATED:
                    open_words.add(where)
        return open_words

    def symbols(self) -> None:
        for section in self._of_kind(_SYMBOL_TABLE):
            for at in range(section.offset, section.offset + section.size, _SYMBOL.size):
                self._add(at + 4, self._distance(_SYMBOL.unpack_from(self.elf, at)[5]))

    def headers(self) -> None:
        """Of sections, of segments, and the entry."""
        for index, section in enumerate(self.sections):
            if section.flags & _ALLOCATED:
                self._add(self.table + index * self.size + 12, self._distance(index))
        first = struct.unpack_from("<I", self.elf, 28)[0]
        size, count = struct.unpack_from("<HH", self.elf, 42)
        for at in range(first, first + count * size, size):
            distance = self._distance_of(struct.unpack_from("<I", self.elf, at + 8)[0])
            self._add(at + 8, distance)
            self._add(at + 12, distance)
        self._add(24, self.in_flash)

    def filled_code(self, open_words: Set[int], flash: bytes) -> bytes:
        """All its code and data, in which the open words are those of the image."""
        code = b""
        for section in self.sections:
            if not section.is_code:
                continue
            for where in open_words:
                if section.offset <= where < section.offset + section.size:
                    begin = self.begin + len(code) + where - section.offset
                    self.made[where:where + 4] = flash[begin:begin + 4].ljust(4, b"\0")
            code += self.made[section.offset:section.offset + section.size]
        return code

    def _of_kind(self, kind: int) -> Iterator[_Section]:
        return (section for section in self.sections if section.kind == kind)

    def _distance(self, index: int) -> int:
        """By how much what lies in a section moves."""
        if not 0 < index < len(self.sections) or not self.sections[index].flags & _ALLOCATED:
            return 0
        return self._distance_of(self.sections[index].address)

    def _distance_of(self, address: int) -> int:
        return self.in_ram if address >= RAM else self.in_flash

    def _add(self, at: int, distance: int) -> None:
        value = struct.unpack_from("<I", self.made, at)[0]
        struct.pack_into("<I", self.made, at, (value + distance) & 0xFFFFFFFF)
