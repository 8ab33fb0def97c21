"""The documents of a target, whole and in parts."""

import unittest
import xml.etree.ElementTree as tree

from gdb_bridge.application import SymbolFile
from gdb_bridge.documents import Documents
from gdb_bridge.places import Task

FILES = [SymbolFile("/a&b/assembly.elf", 0), SymbolFile("/a&b/echo.elf", 0x08000100)]


class Parts(unittest.TestCase):
    def setUp(self):
        self.documents = Documents([Task("sup"), Task("echo")], FILES, lambda task: f"<{task}>")

    def whole(self, name: str) -> str:
        answer = self.documents.part(name, 0, 0xFFFF)
        self.assertEqual(answer[0], "l")
        return answer[1:]

    def test_threads(self):
        threads = list(tree.fromstring(self.whole("threads")))
        self.assertEqual([(thread.get("id"), thread.get("name"), thread.text) for thread in threads],
                         [("1", "sup", "<0>"), ("2", "echo", "<1>")])

    def test_libraries_but_the_first_file(self):
        library, = tree.fromstring(self.whole("libraries"))
        self.assertEqual((library.get("name"), library[0].get("address")), ("/a&b/echo.elf", "0x8000100"))
        self.assertEqual(self.whole("exec-file"), "/a&b/assembly.elf")

    def test_registers(self):
        names = [register.get("name") for register in tree.fromstring(self.whole("features")).iter("reg")]
        self.assertEqual((names[13:], len(names)), (["sp", "lr", "pc", "xpsr", "turn", "runs"], 19))

    def test_parts_are_the_whole(self):
        whole, parts, at = self.whole("threads"), "", 0
        while not parts.startswith("l"):
            answer = self.documents.part("threads", at, 7)
            at += 7
            parts = answer[0] + parts[1:] + answer[1:]
        self.assertEqual(parts[1:], whole)

    def test_last_part_is_marked(self):
        length = len(self.whole("exec-file"))
        self.assertEqual([self.documents.part("exec-file", 0, size)[0] for size in (length - 1, length, length + 1)], ["m", "l", "l"])

    def test_what_is_none(self):
        self.assertIsNone(self.documents.part("memory-map", 0, 10))
        self.assertIsNone(Documents([], [], str).part("exec-file", 0, 10))
