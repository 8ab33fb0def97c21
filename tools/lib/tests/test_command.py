"""The words of a call."""

import unittest

from gdb_bridge.command import Call, call_of


class Words(unittest.TestCase):
    def test_calls(self):
        self.assertEqual(call_of(["a", "s", "-tui"]), Call("", 0, "a", "s", ["-tui"]))
        self.assertEqual(call_of(["--pipe", "a", "s"]), Call("--pipe", 0, "a", "s", []))
        self.assertEqual(call_of(["--port", "3333", "a", "s"]), Call("--port", 3333, "a", "s", []))

    def test_no_calls(self):
        for words in ([], ["a"], ["--pipe", "a"], ["--pipe", "a", "s", "-tui"], ["--port"], ["--port", "3333", "a"],
                      ["--port", "x", "a", "s"], ["--port", "65536", "a", "s"], ["--port", "-1", "a", "s"],
                      ["--port", "\u00b2", "a", "s"]):
            self.assertIsNone(call_of(words), words)
