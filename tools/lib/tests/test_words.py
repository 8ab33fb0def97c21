"""Faults and tasks in words."""

import unittest

from gdb_bridge import answers
from gdb_bridge.places import Task
from gdb_bridge.words import fault_in_words, task_in_words

TASKS = [Task("sup"), Task("echo")]


def fault(line: str) -> str:
    return fault_in_words(TASKS, answers.told("220 fault " + line))


def task(line: str, **registers: int) -> str:
    values = [0] * 17
    for name, value in registers.items():
        values[int(name[1:])] = value
    return task_in_words(TASKS, answers.task_state(line), tuple(values))


class Faults(unittest.TestCase):
    def test_each_kind(self):
        self.assertEqual(fault("1 1 08000100 00000000"), "echo faults, Illegal at 08000100")
        self.assertEqual(fault("1 3 676e696e 00000001"), "echo faults, Access at 676e696e, store")
        self.assertEqual(fault("1 7 00000004 00000000"), "echo faults, Usage BadKernelMessage")
        self.assertEqual(fault("1 8 00000014 00000003"), "echo faults, Panic 00000014 00000003")
        self.assertEqual(fault("1 9 00000000 00000000"), "echo faults, Injected")
        self.assertEqual(fault("0 10 00000401 00000002"), "sup faults, ReplyFault of echo, reason 2")


class States(unittest.TestCase):
    def test_waits(self):
        self.assertEqual(task("task 0 0 well - 00000000 -"), "ready")
        self.assertEqual(task("task 0 0 well listen 00000000 -"), "listens to anyone")
        self.assertEqual(task("task 0 0 well listen 00000000 -", r6=1, r7=0x8000FFFF), "listens to the kernel, mask 00000001")
        self.assertEqual(task("task 0 0 well listen 00000000 -", r7=0x80000401), "listens to echo")
        self.assertEqual(task("task 0 0 well offered:3 00000000 -", r4=1 << 16 | 5), "offers call 3 to echo, operation 5")
        self.assertEqual(task("task 0 0 well taken:3 00000000 -", r4=0), "waits for the answer to call 3 to sup, operation 0")

    def test_besides(self):
        self.assertEqual(task("task 1 2 faulted:3 - 00000001 9:00000001"),
                         "faulted, Access, generation 2, posted 00000001, timer at 9 for 00000001")
        self.assertEqual(task("task 1 0 stopped - 00000000 -"), "stopped")
