"""Packets of gdb's remote protocol: how one is framed and escaped, and the connection that they go over."""

import os
import re
import select
from dataclasses import dataclass
from typing import Optional

INTERRUPT = b"\x03"
_PACKET = re.compile(rb"\$([^#]*)#(..)", re.S)


class Gone(Exception):
    """gdb has left."""


@dataclass(frozen=True)
class Packet:
    """What stood between `$` and `#`, with its escapes undone."""

    payload: bytes
    intact: bool                # the checksum is that of the payload


def _turned(byte: int) -> bytes:
    return bytes([byte ^ 0x20])


def escaped(payload: bytes) -> bytes:
    return re.sub(rb"[#$*}]", lambda found: b"}" + _turned(found[0][0]), payload)


def unescaped(payload: bytes) -> bytes:
    return re.sub(rb"}(.)", lambda found: _turned(found[1][0]), payload, flags=re.S)


def checksum(payload: bytes) -> bytes:
    return b"%02x" % (sum(payload) & 0xFF)


def framed(payload: bytes) -> bytes:
    payload = escaped(payload)
    return b"$" + payload + b"#" + checksum(payload)


class PacketBuffer:
    """The bytes that gdb has sent and nobody has taken."""

    def __init__(self) -> None:
        self._held = b""

    def feed(self, data: bytes) -> None:
        self._held += data

    def take(self) -> Optional[Packet]:
        """The next whole packet. What stands before it is dropped: acknowledgements, and an interrupt while nothing runs."""
        found = _PACKET.search(self._held)
        if not found:
            return None
        self._held = self._held[found.end():]
        return Packet(unescaped(found[1]), found[2].lower() == checksum(found[1]))

    def take_interrupt(self) -> bool:
        """Whether gdb asks to stop what runs."""
        asked = INTERRUPT in self._held
        self._held = self._held.replace(INTERRUPT, b"")
        return asked

    def drop_repeats(self) -> None:
        """Of one packet that gdb said again, since it had no answer yet, keeps one."""
        packets = [found[0] for found in _PACKET.finditer(self._held)]
        if len(packets) > 1 and len(set(packets)) == 1:
            self._held = packets[0]


class Connection:
    """A gdb at two file descriptors."""

    def __init__(self, read: int, write: int) -> None:
        self._read, self._write = read, write
        self._buffer = PacketBuffer()
        self.acknowledges = True

    def take(self) -> str:
        """The next packet, waited for; each byte is a character."""
        while True:
            packet = self._buffer.take()
            if packet is None:
                self._receive()
                continue
            if self.acknowledges:
                self._send(b"+" if packet.intact else b"-")
            if packet.intact or not self.acknowledges:
                return packet.payload.decode("latin-1")

    def give(self, text: str) -> None:
        self._send(framed(text.encode("latin-1", "replace")))

    def interrupted(self) -> bool:
        """Whether gdb asks to stop a search."""
        self._receive_waiting()
        return self._buffer.take_interrupt()

    def drop_repeats(self) -> None:
        self._receive_waiting()
        self._buffer.drop_repeats()

    def _receive_waiting(self) -> None:
        while select.select([self._read], [], [], 0)[0]:
            self._receive()

    def _receive(self) -> None:
        try:
            data = os.read(self._read, 65536)
        except OSError:
            raise Gone from None
        if not data:
            raise Gone
        self._buffer.feed(data)

    def _send(self, data: bytes) -> None:
        try:
            while data:
                data = data[os.write(self._write, data):]
        except OSError:
            raise Gone from None


def hexadecimal_of(text: str) -> str:
    """A text as packets hold it, two digits a byte."""
    return text.encode("utf-8", "replace").hex()


def word_of(value: int) -> str:
    """A register as packets hold it, its lowest byte first."""
    return (value & 0xFFFFFFFF).to_bytes(4, "little").hex()


def number_of(digits: str) -> int:
    """A number of a packet: hexadecimal digits alone, where int() would take signs and blanks too."""
    if not re.fullmatch("[0-9a-fA-F]+", digits):
        raise ValueError(f"{digits!r} is no number of a packet")
    return int(digits, 16)
