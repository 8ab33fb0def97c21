"""The documents that gdb reads of a target: its registers, threads and libraries in XML, and where its symbols are."""

import os
from typing import Callable, List, Optional
from xml.sax.saxutils import escape, quoteattr

from .application import SymbolFile
from .places import Task

# `none`, since a gdb of Debian else takes GNU/Linux, and never asks for the symbols
_TARGET = (
    '<?xml version="1.0"?><!DOCTYPE target SYSTEM "gdb-target.dtd"><target><architecture>arm</architecture><osabi>none</osabi>'
    '<feature name="org.gnu.gdb.arm.m-profile">'
    + "".join(f'<reg name="r{number}" bitsize="32"/>' for number in range(13)) +
    '<reg name="sp" bitsize="32" type="data_ptr"/><reg name="lr" bitsize="32"/>'
    '<reg name="pc" bitsize="32" type="code_ptr"/><reg name="xpsr" bitsize="32"/></feature>'
    '<feature name="hubris.run"><reg name="turn" bitsize="32" type="uint32" group="general"/>'
    '<reg name="runs" bitsize="32" type="uint32" group="system"/></feature></target>')


class Documents:
    def __init__(self, tasks: List[Task], files: List[SymbolFile], in_words: Callable[[int], str]) -> None:
        self._tasks, self._files, self._in_words = tasks, files, in_words

    def part(self, name: str, begin: int, length: int) -> Optional[str]:
        """The answer to a question for a part of a document, or None where there is no such document."""
        text = self._text(name)
        if text is None:
            return None
        held = os.fsencode(text)
        last = begin + length >= len(held)
        return ("l" if last else "m") + held[begin:begin + length].decode("latin-1")

    def _text(self, name: str) -> Optional[str]:
        if name == "features":
            return _TARGET
        if name == "threads":
            return "<threads>" + "".join(map(self._thread, range(len(self._tasks)))) + "</threads>"
        if name == "libraries":
            return "<library-list>" + "".join(map(_library, self._files[1:])) + "</library-list>"
        return self._files[0].path if name == "exec-file" and self._files else None

    def _thread(self, task: int) -> str:
        name = quoteattr(self._tasks[task].name)
        return f'<thread id="{task + 1:x}" core="0" name={name}>{escape(self._in_words(task))}</thread>'


def _library(file: SymbolFile) -> str:
    return f'<library name={quoteattr(file.path)}><segment address="{file.address:#x}"/></library>'
