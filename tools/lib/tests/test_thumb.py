"""Ways out of Thumb code, and ways to an address."""

import struct
import unittest

from gdb_bridge.thumb import called, exits, leading_to

BASE = 0x08000100
NOP, BX_LR, BLX_R3, POP_R4, POP_PC, POP_R4_PC = 0xBF00, 0x4770, 0x4798, 0xBC10, 0xBD00, 0xBD10
MOV_PC_LR, ADD_PC_R0, MOV_R8_R0, MOV_R7_R8, SVC, UDF = 0x46F7, 0x4487, 0x4680, 0x4647, 0xDF00, 0xDE01


def code(*halves: int) -> bytes:
    return struct.pack(f"<{len(halves)}H", *halves)


def branch(here: int, to: int) -> int:
    return 0xE000 | (to - here - 4) // 2 & 0x7FF


def branch_if(condition: int, here: int, to: int) -> int:
    return 0xD000 | condition << 8 | (to - here - 4) // 2 & 0xFF


def call(here: int, to: int):
    """The halfwords of a `bl`, by the manual's encoding T1."""
    offset = (to - here - 4) // 2
    sign = offset >> 23 & 1
    j1, j2 = 1 - (offset >> 22 & 1) ^ sign, 1 - (offset >> 21 & 1) ^ sign
    return 0xF000 | sign << 10 | offset >> 11 & 0x3FF, 0xD000 | j1 << 13 | j2 << 11 | offset & 0x7FF


class Exits(unittest.TestCase):
    def check(self, halves, targets, indirect=()):
        """`targets` besides the address behind the range."""
        found = exits(code(*halves), BASE)
        self.assertEqual(found.targets, {BASE + 2 * len(halves), *targets})
        self.assertEqual(found.indirect, set(indirect))

    def test_straight_code_leaves_at_its_end(self):
        self.check([NOP, NOP, POP_R4], [])

    def test_branch_outside(self):
        self.check([NOP, branch(BASE + 2, BASE + 0x40)], [BASE + 0x40])
        self.check([branch(BASE, BASE - 0x20)], [BASE - 0x20])

    def test_farthest_branches(self):
        self.check([branch(BASE, BASE + 2050)], [BASE + 2050])
        self.check([branch(BASE, BASE - 2044)], [BASE - 2044])

    def test_branch_inside_is_no_way_out(self):
        self.check([NOP, branch(BASE + 2, BASE), NOP], [])
        self.check([branch(BASE, BASE)], [])

    def test_branch_to_the_end(self):
        self.check([branch(BASE, BASE + 4), NOP], [])

    def test_conditional_branches(self):
        for condition in range(14):
            self.check([branch_if(condition, BASE, BASE + 0x30)], [BASE + 0x30])
            self.check([branch_if(condition, BASE, BASE - 0x30)], [BASE - 0x30])
        self.check([branch_if(0, BASE, BASE + 258)], [BASE + 258])
        self.check([branch_if(0, BASE, BASE - 252)], [BASE - 252])

    def test_system_calls_and_undefined_are_no_branches(self):
        self.check([SVC, UDF], [])

    def test_call(self):
        for to in (BASE + 0x100, BASE - 0x80, BASE + 0x7FFFFE, BASE - 0x700000):
            self.check([*call(BASE, to), NOP], [to])

    def test_call_inside(self):
        self.check([*call(BASE, BASE + 4), NOP], [])

    def test_call_cut_by_the_end(self):
        high, _ = call(BASE + 2, BASE + 0x100)
        self.check([NOP, high], [], [BASE + 2])

    def test_without_a_target(self):
        for half in (BX_LR, BLX_R3, POP_PC, POP_R4_PC, MOV_PC_LR, ADD_PC_R0):
            self.check([NOP, half], [], [BASE + 2])

    def test_other_high_registers_are_none(self):
        self.check([MOV_R8_R0, MOV_R7_R8], [])

    def test_data_is_read_as_if_it_ran(self):
        self.check([NOP, branch(BASE + 2, BASE + 0x40), BX_LR], [BASE + 0x40], [BASE + 4])

    def test_odd_byte_at_the_end(self):
        found = exits(code(NOP) + b"\x70", BASE)
        self.assertEqual((found.targets, found.indirect), ({BASE + 3}, set()))

    def test_no_code(self):
        found = exits(b"", BASE)
        self.assertEqual((found.targets, found.indirect), ({BASE}, set()))


class LeadingTo(unittest.TestCase):
    def test_itself_and_before(self):
        pc = BASE + 8
        self.assertEqual(leading_to(code(*[NOP] * 8), BASE, pc), {pc, pc - 2, pc - 4})

    def test_branches_calls_and_those_without_a_target(self):
        pc = BASE + 0x10
        halves = [branch_if(1, BASE, pc), branch(BASE + 2, BASE), *call(BASE + 4, pc), BX_LR, NOP, NOP, NOP, NOP]
        self.assertEqual(leading_to(code(*halves), BASE, pc), {pc, pc - 2, pc - 4, BASE, BASE + 4, BASE + 8})


class Called(unittest.TestCase):
    def test_targets_of_calls(self):
        halves = [*call(BASE, BASE + 0x20), branch(BASE + 4, BASE + 0x30), *call(BASE + 6, BASE)]
        self.assertEqual(called(code(*halves), BASE), {BASE + 0x20, BASE})
        self.assertEqual(called(b"", BASE), set())
