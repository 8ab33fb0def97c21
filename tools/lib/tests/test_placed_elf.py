"""An ELF is moved to where its task is. A small one is made here, as the linker makes one from 0 on with its relocations kept."""

import struct
import unittest

from gdb_bridge.placed_elf import placed
from gdb_bridge.places import FLASH, RAM, Task
from gdb_bridge.refusal import Refused

SECTION, SYMBOL = struct.Struct("<10I"), struct.Struct("<IIIBBH")
TASK = Task("echo", "echo.s", flash=FLASH + 0x200, stack_top=RAM + 0x1C0, length=20)
TEXT, DATA, BSS, INFO = 1, 2, 3, 4              # indices of sections
ABSOLUTE, RELATIVE = 2, 10                      # R_ARM_ABS32, R_ARM_THM_CALL
# code; words with the addresses of the code's byte 4, of a variable at RAM + 8, and of what the builder hands in; data: a word
CODE = struct.pack("<HH3I", 0x4770, 0xBF00, 4, RAM + 8, 0)
PLACED_CODE = struct.pack("<HH3I", 0x4770, 0xBF00, FLASH + 0x204, RAM + 0x1C8, 0x40000000)
SYMBOLS = [bytes(16), SYMBOL.pack(1, 4, 0, 2, 0, TEXT), SYMBOL.pack(1, RAM + 8, 4, 1, 0, BSS), SYMBOL.pack(1, 0, 0, 0, 0, 0),
           SYMBOL.pack(1, 7, 0, 0, 0, 0xFFF1)]
IN_CODE = [(4, 1, ABSOLUTE), (8, 2, ABSOLUTE), (12, 3, ABSOLUTE), (0, 1, RELATIVE)]


def relocations(entries) -> bytes:
    return b"".join(struct.pack("<II", place, symbol << 8 | kind) for place, symbol, kind in entries)


def small_elf() -> bytes:
    # kind, flags, address, data, link, info
    sections = [(0, 0, 0, b"", 0, 0), (1, 6, 0, CODE, 0, 0), (1, 3, RAM, b"data", 0, 0), (8, 3, RAM + 8, b"", 0, 0),
                (1, 0, 0, struct.pack("<II", 99, 4), 0, 0), (9, 0, 0, relocations(IN_CODE), 7, TEXT),
                (9, 0, 0, relocations([(4, 1, ABSOLUTE)]), 7, INFO), (2, 0, 0, b"".join(SYMBOLS), 8, 1), (3, 0, 0, b"\0name\0", 0, 0)]
    begin, body, table = 52 + 32, b"", b""
    for kind, flags, address, data, link, info in sections:
        table += SECTION.pack(0, kind, flags, address, begin + len(body), len(data), link, info, 4, 0)
        body += data + bytes(-len(data) % 4)
    header = b"\x7fELF\x01\x01\x01" + bytes(9) + struct.pack("<HHIIIIIHHHHHH", 2, 40, 1, 1, 52, begin + len(body), 0, 52, 32, 1, 40,
                                                           len(sections), 8)
    return header + struct.pack("<8I", 1, begin, 0, 0, 20, 20, 5, 4) + body + table


def flash(code: bytes = PLACED_CODE + b"data") -> bytes:
    return bytes(0x200) + code + bytes(64)


class Placed(unittest.TestCase):
    def setUp(self):
        self.elf = placed(small_elf(), TASK, flash())
        table, = struct.unpack_from("<I", self.elf, 32)
        self.sections = [SECTION.unpack_from(self.elf, table + 40 * index) for index in range(9)]

    def data(self, index: int) -> bytes:
        offset, size = self.sections[index][4:6]
        return self.elf[offset:offset + size]

    def test_words_with_addresses(self):
        self.assertEqual(self.data(TEXT), PLACED_CODE)

    def test_debug_information(self):
        self.assertEqual(self.data(INFO), struct.pack("<II", 99, FLASH + 0x204))

    def test_symbols(self):
        values = [SYMBOL.unpack_from(self.data(7), 16 * index)[1] for index in range(5)]
        self.assertEqual(values, [0, FLASH + 0x204, RAM + 0x1C8, 0, 7])

    def test_sections_segments_and_entry(self):
        self.assertEqual([self.sections[index][3] for index in (TEXT, DATA, BSS, INFO)], [FLASH + 0x200, RAM + 0x1C0, RAM + 0x1C8, 0])
        self.assertEqual(struct.unpack_from("<II", self.elf, 52 + 8), (FLASH + 0x200, FLASH + 0x200))
        self.assertEqual(struct.unpack_from("<I", self.elf, 24), (FLASH + 0x201,))

    def test_nothing_else_is_changed(self):
        self.assertEqual(len(self.elf), len(small_elf()))
        self.assertEqual(self.data(DATA), b"data")


class NotPlaced(unittest.TestCase):
    def refused(self, elf: bytes, task: Task = TASK, of: bytes = flash()) -> str:
        with self.assertRaises(Refused) as caught:
            placed(elf, task, of)
        return str(caught.exception)

    def test_stale(self):
        stale = "is not of echo.s: make both anew by to-source.sh"
        self.assertEqual(self.refused(small_elf(), of=flash(PLACED_CODE.replace(b"\x70\x47", b"\x71\x47") + b"data")), stale)
        self.assertEqual(self.refused(small_elf(), of=flash(PLACED_CODE + b"date")), stale)
        self.assertEqual(self.refused(small_elf(), of=b""), stale)

    def test_source_is_longer(self):
        task = Task("echo", "echo.s", TASK.flash, TASK.stack_top, TASK.length + 4)
        self.assertIn("is not of echo.s", self.refused(small_elf(), task))

    def test_no_elf_for_arm(self):
        other = bytearray(small_elf())
        other[18] = 62
        for data in (b"", b"no ELF", bytes(other)):
            self.assertEqual(self.refused(data), "is no ELF for Arm")

    def test_cut(self):
        whole = small_elf()
        for length in range(20, len(whole), 7):
            self.refused(whole[:length])
