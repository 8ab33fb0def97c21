"""Packets: framing, escapes, checksums, and what stands between them."""

import os
import unittest

from gdb_bridge.packets import Connection, Gone, PacketBuffer, escaped, framed, hexadecimal_of, number_of, unescaped, word_of


def buffer_of(data: bytes) -> PacketBuffer:
    buffer = PacketBuffer()
    buffer.feed(data)
    return buffer


class Framing(unittest.TestCase):
    def test_checksum_is_of_the_bytes_between(self):
        self.assertEqual(framed(b"OK"), b"$OK#9a")
        self.assertEqual(framed(b""), b"$#00")

    def test_escapes_what_frames(self):
        self.assertEqual(escaped(b"a#b$c*d}e"), b"a}\x03b}\x04c}\x0ad}]e")
        self.assertEqual(framed(b"#"), b"$}\x03#80")

    def test_every_byte_comes_back(self):
        every = bytes(range(256))
        self.assertEqual(unescaped(escaped(every)), every)
        self.assertEqual(buffer_of(framed(every)).take().payload, every)

    def test_escape_of_a_line_feed(self):
        self.assertEqual(unescaped(b"}*"), b"\n")


class Buffer(unittest.TestCase):
    def test_packet_in_pieces(self):
        buffer = PacketBuffer()
        for byte in b"+$vCont?#4":
            buffer.feed(bytes([byte]))
            self.assertIsNone(buffer.take())
        buffer.feed(b"9")
        packet = buffer.take()
        self.assertEqual(packet.payload, b"vCont?")
        self.assertTrue(packet.intact)

    def test_two_at_once(self):
        buffer = buffer_of(b"$a#61$b#62")
        self.assertEqual([buffer.take().payload, buffer.take().payload, buffer.take()], [b"a", b"b", None])

    def test_noise_before_a_packet_is_dropped(self):
        self.assertEqual(buffer_of(b"+-#00\x03+$g#67").take().payload, b"g")

    def test_checksum(self):
        self.assertFalse(buffer_of(b"$g#68").take().intact)
        self.assertFalse(buffer_of(b"$g#zz").take().intact)
        self.assertTrue(buffer_of(b"$m#6D").take().intact)

    def test_interrupt_is_taken_once(self):
        buffer = buffer_of(b"\x03$g#67")
        self.assertTrue(buffer.take_interrupt())
        self.assertFalse(buffer.take_interrupt())
        self.assertEqual(buffer.take().payload, b"g")

    def test_repeats_of_one_packet_are_one(self):
        buffer = buffer_of(b"+$a#61$a#61$a#61")
        buffer.drop_repeats()
        self.assertEqual([buffer.take().payload, buffer.take()], [b"a", None])

    def test_others_are_no_repeats(self):
        buffer = buffer_of(b"$a#61$b#62")
        buffer.drop_repeats()
        self.assertEqual([buffer.take().payload, buffer.take().payload], [b"a", b"b"])


class OverPipes(unittest.TestCase):
    def setUp(self):
        (read, self.to_bridge), (self.from_bridge, write) = os.pipe(), os.pipe()
        self.connection = Connection(read, write)
        self.open = {read, self.to_bridge, self.from_bridge, write}
        self.addCleanup(lambda: [os.close(number) for number in self.open])

    def hang_up(self):
        os.close(self.to_bridge)
        self.open.discard(self.to_bridge)

    def test_acknowledges_and_asks_again(self):
        os.write(self.to_bridge, b"$g#00$g#67")
        self.assertEqual(self.connection.take(), "g")
        self.assertEqual(os.read(self.from_bridge, 10), b"-+")

    def test_without_acknowledgements(self):
        self.connection.acknowledges = False
        os.write(self.to_bridge, b"$g#67")
        self.assertEqual(self.connection.take(), "g")
        self.connection.give("OK")
        self.assertEqual(os.read(self.from_bridge, 10), b"$OK#9a")

    def test_interrupted(self):
        self.assertFalse(self.connection.interrupted())
        os.write(self.to_bridge, b"\x03")
        self.assertTrue(self.connection.interrupted())
        self.assertFalse(self.connection.interrupted())

    def test_gone(self):
        self.hang_up()
        with self.assertRaises(Gone):
            self.connection.take()

    def test_gone_while_a_search_runs(self):
        self.hang_up()
        with self.assertRaises(Gone):
            self.connection.interrupted()


class Values(unittest.TestCase):
    def test_word_has_its_lowest_byte_first(self):
        self.assertEqual(word_of(0x08000102), "02010008")
        self.assertEqual(word_of(-1), "ffffffff")

    def test_text(self):
        self.assertEqual(hexadecimal_of("hi\n"), "68690a")

    def test_number(self):
        self.assertEqual(number_of("1fF"), 0x1FF)
        for digits in ("", "-1", "+1", "0x1", " 1", "1_0", "x"):
            with self.assertRaises(ValueError):
                number_of(digits)
