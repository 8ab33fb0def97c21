"""The ELF of tasks in assembly, read back."""

import struct
import unittest

from gdb_bridge.assembly_elf import assembled, sleb, uleb
from gdb_bridge.places import FLASH, Task

FLASH_BYTES = struct.pack("<4H", 0x2001, 0xE7FD, 0x1234, 0x5678)
TASK = Task("sup", "sup.s", flash=FLASH, length=8, labels=[(FLASH + 2, "again"), (FLASH + 4, "data")],
            lines=[(FLASH, 3), (FLASH + 2, 5)])


def sections_of(elf: bytes) -> dict:
    """Address and data of each section, by its name."""
    table, = struct.unpack_from("<I", elf, 32)
    count, names = struct.unpack_from("<HH", elf, 48)
    headers = [struct.unpack_from("<10I", elf, table + 40 * index) for index in range(count)]
    strings = elf[headers[names][4]:]
    return {strings[header[0]:strings.index(b"\0", header[0])].decode(): (header[3], elf[header[4]:header[4] + header[5]])
            for header in headers}


class Assembled(unittest.TestCase):
    def test_code(self):
        sections = sections_of(assembled([TASK], FLASH_BYTES))
        self.assertEqual(sections[".text.sup"], (FLASH, FLASH_BYTES))

    def test_symbols(self):
        sections = sections_of(assembled([TASK], FLASH_BYTES))
        names = sections[".strtab"][1]
        symbols = [(names[name:names.index(b"\0", name)].decode(), value, size, kind)
                   for name, value, size, kind, _, _ in struct.iter_unpack("<IIIBBH", sections[".symtab"][1])]
        self.assertEqual(symbols, [("", 0, 0, 0), ("$t", FLASH, 0, 0), ("sup.start", FLASH + 1, 2, 2), ("sup.again", FLASH + 3, 2, 2),
                                   ("sup.data", FLASH + 4, 4, 1)])

    def test_lines(self):
        program = sections_of(assembled([TASK], FLASH_BYTES))[".debug_line"][1]
        # the address; on by 0, to line 3; on by 2, to line 5; to the end
        self.assertTrue(program.endswith(b"\0\x05\x02" + struct.pack("<I", FLASH) + b"\x02\0\x03\x02\x01" + b"\x02\x02\x03\x02\x01"
                                         + b"\x02\x06\0\x01\x01"))
        self.assertEqual(struct.unpack_from("<I", program), (len(program) - 4,))

    def test_no_task(self):
        elf = assembled([], b"")
        self.assertEqual(struct.unpack_from("<II", elf, 24), (0, 0))
        self.assertNotIn(".text", " ".join(sections_of(elf)))


class Numbers(unittest.TestCase):
    def test_without_sign(self):
        self.assertEqual([uleb(n) for n in (0, 127, 128, 624485)], [b"\0", b"\x7f", b"\x80\x01", b"\xe5\x8e\x26"])

    def test_with_sign(self):
        self.assertEqual([sleb(n) for n in (2, -2, 63, 64, -64, -65, -123456)],
                         [b"\x02", b"\x7e", b"\x3f", b"\xc0\0", b"\x40", b"\xbf\x7f", b"\xc0\xbb\x78"])
