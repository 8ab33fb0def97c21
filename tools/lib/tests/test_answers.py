"""The answers of `live`, as docs/FORMATS.md has them."""

import unittest

from gdb_bridge import answers
from gdb_bridge.answers import Hit, Position, TaskState, Told


class Moves(unittest.TestCase):
    def test_position(self):
        self.assertEqual(answers.moved("at 220 3 -"), Position(220, 3, "-"))
        self.assertEqual(answers.moved("at 34 0 supervisor"), Position(34, 0, "supervisor"))

    def test_hit(self):
        self.assertEqual(answers.moved("hit 2 1 08000002"), Hit(2, 1, 0x08000002))

    def test_line_of_the_trace(self):
        told = answers.moved("220 fault 1 3 676e696e 00000001")
        self.assertEqual(told, Told(220, "fault", ("1", "3", "676e696e", "00000001")))
        self.assertEqual(told.task, 1)

    def test_change(self):
        self.assertEqual(answers.moved("178 change 2 20000148 00 6e").task, 2)
        self.assertIsNone(answers.moved("178 change - 20000148 00 6e").task)

    def test_nothing(self):
        for line in ("none", "refused 2"):
            self.assertIsNone(answers.moved(line))

    def test_line_without_words(self):
        self.assertEqual(answers.told("12 idle"), Told(12, "idle", ()))

    def test_what_is_no_answer(self):
        for line in ("", "full", "at x 0 -", "hit 2 1"):
            with self.assertRaises((ValueError, IndexError)):
                answers.moved(line)


class Contents(unittest.TestCase):
    LOW = "low 00000001 00000002 00000003 00000004 00000005 00000006 00000007 00000008"
    HIGH = "high 00000009 0000000a 0000000b 0000000c 0000000d 20000000 ffffffff 08000000 "

    def test_registers(self):
        found = answers.registers(self.LOW, self.HIGH + "0000")
        self.assertEqual(found[:13], tuple(range(1, 14)))
        self.assertEqual(found[13:], (0x20000000, 0xFFFFFFFF, 0x08000000, 0x01000000))

    def test_flags_are_the_highest_bits(self):
        self.assertEqual(answers.registers(self.LOW, self.HIGH + "1010")[16], 0xA1000000)

    def test_memory(self):
        self.assertEqual(answers.memory("08000000 0120fee7"), b"\x01\x20\xfe\xe7")
        self.assertIsNone(answers.memory("none"))


class Tasks(unittest.TestCase):
    def test_ready(self):
        self.assertEqual(answers.task_state("task 0 0 well - 00000000 -"), TaskState(0, False, None, None, None, 0, None))

    def test_listens_with_a_timer(self):
        state = answers.task_state("task 1 3 well listen 80000001 120:00000001")
        self.assertEqual(state, TaskState(3, False, None, "listen", None, 0x80000001, ("120", "00000001")))

    def test_waits_for_a_call(self):
        state = answers.task_state("task 2 0 well offered:7 00000000 -")
        self.assertEqual((state.waits, state.call), ("offered", "7"))

    def test_faulted_and_stopped(self):
        self.assertEqual(answers.task_state("task 1 0 faulted:10 - 00000000 -").fault, 10)
        self.assertTrue(answers.task_state("task 1 0 stopped - 00000000 -").stopped)
