"""Tests of access to packets by number. It gives the same packets as a list of all packets."""

import io
import os
import random
import struct
import tempfile
import unittest
from pathlib import Path
from unittest.mock import patch

import pcapfile
from test_columns import option
from test_pcapfile import HEADER, INTERFACE, NANOSECONDS, SECTION, block, enhanced, interface, packet
from test_threads import CAPTURES

SIMPLE = block(3, struct.pack("<I", 5) + b"abcd")
MORE = {
    "all kinds of blocks": SECTION + INTERFACE + b"".join(
        enhanced(n % 3, n, bytes(n % 50)) + (SIMPLE if n % 3 == 0 else b"") + (block(99, bytes(n % 7 * 4)) if n % 5 == 0 else b"")
        + (interface(n % 200, 0, option(2, b"face")) if n % 40 == 0 else b"") + (SECTION + NANOSECONDS if n % 90 == 89 else b"")
        for n in range(400)
    ),
    "one packet": HEADER + packet(1, 2, b"abc"),
    "no packet": HEADER,
    "no interface": SECTION + enhanced(0, 1, b"abc") + INTERFACE + enhanced(0, 1, b"abc"),
}


def told(packets):
    return [(*(bytes(field) if isinstance(field, memoryview) else field for field in p), p.time_ns, p.comment) for p in packets]


class Indexes(unittest.TestCase):
    def setUp(self):
        room = tempfile.TemporaryDirectory()
        self.addCleanup(room.cleanup)
        self.path = Path(room.name, "capture")

    def test_they_are_those_of_a_list(self):
        chosen = random.Random(3)
        for name, data in {**CAPTURES, **MORE}.items():
            self.path.write_bytes(data)
            for opened in (lambda: pcapfile.parse(data), lambda: pcapfile.open(self.path)):
                with self.subTest(name), opened() as capture:
                    wanted, refusal = [], None
                    try:
                        for each in capture:
                            wanted.append(each)
                    except pcapfile.CaptureError as error:
                        refusal = str(error)
                    wanted, indexed = told(wanted), capture.indexed()
                    self.assertEqual((len(indexed), indexed.refusal and str(indexed.refusal)), (len(wanted), refusal))
                    for number in [*range(-3, 3), *(chosen.randrange(-len(wanted) - 2, len(wanted) + 2) for _ in range(20))]:
                        if -len(wanted) <= number < len(wanted):
                            self.assertEqual(told([indexed[number]]), [wanted[number]])
                        else:
                            self.assertRaises(IndexError, lambda: indexed[number])
                    ends = [None, -1, chosen.randrange(-len(wanted) - 2, len(wanted) + 2)]
                    for begin in ends:
                        for end in ends:
                            for step in (None, 1, 2, -1, 7, -3, 100):
                                self.assertEqual(told(indexed[begin:end:step]), wanted[begin:end:step])

    def test_a_part(self):
        self.path.write_bytes(CAPTURES["sections"])
        for part in pcapfile.parts(self.path, 5):
            with part.open() as capture:
                wanted, indexed = told(capture), capture.indexed()
                self.assertEqual(told(indexed), wanted)
                self.assertEqual(told(indexed[n] for n in range(len(indexed))), wanted)

    def test_one_packet_reads_no_other_one(self):
        """Each access is one read, of the packet record or block only. It duplicates no descriptor."""
        front = SECTION + INTERFACE + NANOSECONDS
        for data, first, length in (
            (HEADER + b"".join(packet(n, 0, bytes(100)) for n in range(10_000)), len(HEADER) + 16, 116),
            (front + b"".join(enhanced(n % 2, n, bytes(100)) for n in range(10_000)), len(front) + 28, 132),
        ):
            self.path.write_bytes(data)
            read, pread = [], os.pread

            def counting(descriptor, count, place):
                read.append(count)
                return pread(descriptor, count, place)

            with pcapfile.open(self.path) as capture:
                indexed = capture.indexed()
                self.assertEqual(indexed[0].offset, first)
                with patch("os.pread", counting), patch("os.preadv", None), patch("os.dup", None):
                    self.assertEqual([indexed[n].offset for n in (5000, 7)], [first + 5000 * length, first + 7 * length])
            self.assertEqual(read, [length, length])

    def test_a_packet_before_its_interface(self):
        """The interface of a packet is one that the capture describes before the packet."""
        data = SECTION + INTERFACE + enhanced(1, 5, b"abc") + NANOSECONDS + enhanced(1, 6, b"def")
        with pcapfile.parse(data) as capture:
            indexed = capture.indexed()
            self.assertEqual([(indexed[n].link, indexed[n].time_ns) for n in (1, 0)], [(p.link, p.time_ns) for p in list(capture)[::-1]])
            self.assertIsNone(indexed[0].interface)

    def test_a_file_that_becomes_shorter_is_incomplete(self):
        for data, begin, each in (
            (HEADER + packet(1, 0, b"abcd") * 10, len(HEADER), 20),
            (SECTION + INTERFACE + enhanced(0, 1, b"abcd") * 10, len(SECTION + INTERFACE), 36),
        ):
            self.path.write_bytes(data)
            with pcapfile.open(self.path) as capture:
                indexed = capture.indexed()
                os.truncate(self.path, begin + 5 * each + each - 2)
                self.assertEqual(bytes(indexed[4]), b"abcd")
                with self.assertRaises(pcapfile.Incomplete) as told:
                    indexed[5]
                self.assertEqual((told.exception.offset, told.exception.missing), (begin + 5 * each, 2))
                os.truncate(self.path, begin + 5 * each)
                self.assertEqual(bytes(indexed[4]), b"abcd")
                for number in (5, 9, slice(3, 8), slice(7, 9), slice(9, None, -17)):
                    with self.subTest(number=number):
                        got = []
                        with self.assertRaises(pcapfile.Incomplete):
                            got = indexed[number]
                            raise AssertionError(f"{got}")

    def test_many_interfaces_take_no_more_than_their_bytes_do(self):
        """The index keeps its state once for each section, and not once for each interface."""
        data = SECTION + b"".join(INTERFACE + enhanced(n, n, b"") for n in range(3000))
        with pcapfile.parse(data) as capture:
            indexed = capture.indexed()
            self.assertEqual([(p.timestamp, p.link) for p in indexed[2990:]], [(n, 113) for n in range(2990, 3000)])
            self.assertLessEqual(len({id(state.known) for state in indexed._states}), 1)

    def test_what_it_shows_and_refuses(self):
        with pcapfile.parse(HEADER + packet(1, 0, b"abc") + packet(2, 0, b"def")[:-1]) as capture:
            indexed = capture.indexed()
            self.assertEqual(repr(indexed), "<1 packets by number, before: 1 bytes are missing (at byte 43)>")
            for number in (1, -2):
                with self.assertRaisesRegex(IndexError, f"^number is {number}, and the capture has 1 packets$"):
                    indexed[number]
            with self.assertRaisesRegex(TypeError, "^number is of type str, and must be a whole number$"):
                indexed["a"]

    def test_streams_have_none(self):
        with self.assertRaises(ValueError):
            pcapfile.open(io.BytesIO(HEADER)).indexed()
        with self.assertRaises(ValueError):
            pcapfile.parse(HEADER, strict=False).indexed()

    def test_a_closed_file(self):
        self.path.write_bytes(CAPTURES["packets"])
        with pcapfile.open(self.path) as capture:
            indexed = capture.indexed()
        self.assertRaises(ValueError, lambda: indexed[0])


if __name__ == "__main__":
    unittest.main()
