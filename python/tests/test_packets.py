"""Tests of the attributes of packets and captures. Each expected value follows from the bytes beside it."""

import copy
import datetime
import io
import pickle
import struct
import tempfile
import unittest
from pathlib import Path

import pcapfile
from pcapfile import _extension
from test_columns import option
from test_pcapfile import HEADER, INTERFACE, SECTION, block, enhanced, interface, packet

UTC = datetime.timezone.utc
COMMENTED = block(6, struct.pack("<IIIII", 0, 0, 1_500_000, 3, 60) + b"abc\0" + option(1, b"seen") + option(1, b"again") + option(0, b""))
OLD = block(2, struct.pack("<HHIIII", 0, 7, 0, 5, 3, 9) + b"abc\0" + option(1, b"old") + option(0, b""))
SIMPLE = block(3, struct.pack("<I", 3) + b"abc\0")
NAMED = interface(113, 96, option(2, b"eth0") + option(3, b"the first") + option(12, b"Linux") + option(15, b"NIC") + option(1, b"hm") + option(0, b""))
BIG = (
    struct.pack(">IIIHHqI", 0x0A0D0D0A, 28, 0x1A2B3C4D, 1, 0, -1, 28)
    + struct.pack(">IIHHII", 1, 20, 1, 0, 0, 20)
    + struct.pack(">IIIIIII", 6, 48, 0, 0, 7, 3, 3)
    + b"xyz\0"
    + struct.pack(">HH4sHH", 1, 3, b"big\0", 0, 0)
    + struct.pack(">I", 48)
)


class Packets(unittest.TestCase):
    def all_ways(self, data):
        """Returns the capture in memory, and the same capture from a stream."""
        return pcapfile.parse(data), pcapfile.open(io.BytesIO(data))

    def test_pairs(self):
        for capture in self.all_ways(HEADER + packet(7, 500_000, b"abc", 5) + packet(9, 0, b"")):
            self.assertEqual(list(capture.pairs()), [(7.5, b"abc"), (9.0, b"")])
        for capture in self.all_ways(SECTION + INTERFACE + enhanced(0, 7_500_000, b"abc") + SIMPLE):
            self.assertEqual(list(capture.pairs()), [(7.5, b"abc"), (None, b"abc")])
        with self.assertRaises(pcapfile.Incomplete):
            list(pcapfile.parse(HEADER + packet(7, 0, b"abc")[:-1]).pairs())
        for data in (HEADER + packet(7, 500_000, b"abc"), SECTION + INTERFACE + enhanced(0, 7_500_000, b"abc")):
            self.assertEqual(list(pcapfile.parse(data, strict=False).pairs()), [(7.5, b"abc")])

    def test_length_and_bytes(self):
        for strict in (True, False):
            for data in (HEADER + packet(7, 0, b"abc", 5), SECTION + INTERFACE + enhanced(0, 1, b"abc")):
                (only,) = pcapfile.parse(data, strict=strict)
                self.assertEqual((only.length, bytes(only), bytes(only.data)), (3, b"abc", b"abc"))

    def test_datetime(self):
        (first,) = pcapfile.parse(HEADER + packet(1_335_958_313, 152_630, b""))
        self.assertEqual(first.datetime, datetime.datetime(2012, 5, 2, 11, 31, 53, 152_630, UTC))
        self.assertIsNone(next(iter(pcapfile.parse(SECTION + INTERFACE + SIMPLE))).datetime)
        (late,) = pcapfile.parse(SECTION + interface(options=option(9, b"\0") + option(0, b"")) + enhanced(0, 2**40, b""))
        with self.assertRaises(OverflowError):
            late.datetime
        self.assertEqual(late.seconds, 2**40)

    def test_nanoseconds_of_more_than_64_bits(self):
        (late,) = pcapfile.parse(SECTION + interface(options=option(9, b"\0") + option(0, b"")) + enhanced(0, 2**40, b""))
        self.assertEqual((late.time_ns, late.time), (2**40 * 10**9, 2.0**40))

    def test_comments(self):
        for data in (SECTION + NAMED + COMMENTED + OLD + SIMPLE + enhanced(0, 1, b"abc"), COMMENTED):
            if data is COMMENTED:
                data = BIG
            for capture in self.all_ways(data):
                got = [(p.comment, [(o.code, bytes(o.value)) for o in p.options]) for p in capture]
                if data is BIG:
                    self.assertEqual(got, [("big", [(1, b"big")])])
                    continue
                wanted = [("seen", [(1, b"seen"), (1, b"again")]), ("old", [(1, b"old")]), (None, []), (None, [])]
                self.assertEqual(got, wanted)
        (only,) = pcapfile.parse(HEADER + packet(1, 2, b"abc"))
        self.assertEqual((only.comment, only.options, only.block), (None, [], None))

    def test_a_simple_packet_is_not_taken_for_what_stands_before_it(self):
        """The end of the previous block looks like the head of an enhanced packet without a time, except for the block's length."""
        fake = struct.pack("<IIII", 6, 48, 0, 0)
        for before in (block(99, fake), block(99, fake[:-4]), block(99, fake[:-8])):
            (only,) = pcapfile.parse(SECTION + INTERFACE + before + SIMPLE)
            self.assertEqual((bytes(only.data), only.comment, only.options), (b"abc", None, []))

    def test_the_block_of_a_packet(self):
        data = SECTION + NAMED + COMMENTED
        with pcapfile.parse(data) as capture:
            (only,) = capture
            (*_, same) = capture.blocks()
            self.assertEqual((only.block.type, bytes(only.block.body), only.block.offset), (6, bytes(same.body), same.offset))
            self.assertEqual(only.block.byteorder, "little")

    def test_comments_that_are_no_text(self):
        bad = block(6, struct.pack("<IIIII", 0, 0, 1, 0, 0) + option(1, b"a\xff") + option(0, b""))
        (only,) = pcapfile.parse(SECTION + INTERFACE + bad, strict=False)
        self.assertEqual(only.comment, "a\\xff")

    def test_interfaces(self):
        data = SECTION + NAMED + COMMENTED + interface(1) + enhanced(1, 1, b"") + SECTION + interface(9) + enhanced(0, 1, b"")
        with pcapfile.parse(data) as capture:
            first, *others = capture.interfaces
            self.assertEqual((first.name, first.description, first.os, first.hardware, first.comment), ("eth0", "the first", "Linux", "NIC", "hm"))
            self.assertEqual((first.link, first.snaplen), (113, 96))
            self.assertEqual([(face.link, face.name) for face in others], [(1, None), (9, None)])
            self.assertEqual((capture.format, capture.link_types), ("pcapng", [113, 1, 9]))
            self.assertEqual([p.interface.name for p in capture], ["eth0", None, None])
        stream = pcapfile.open(io.BytesIO(data))
        list(stream)
        self.assertEqual([face.name for face in stream.interfaces], ["eth0", None, None])
        with pcapfile.parse(HEADER) as capture:
            self.assertEqual((capture.format, capture.link_types, capture.interfaces), ("pcap", [1], []))
        torn = pcapfile.parse((SECTION + NAMED + COMMENTED + interface(1))[:-1])
        self.assertEqual([face.name for face in torn.interfaces], ["eth0"])

    def test_interfaces_of_a_file(self):
        # The package reads the bytes before the interfaces and the bytes after them into the same buffer.
        data = SECTION + NAMED + COMMENTED + enhanced(0, 1, b"a") * 9000 + interface(9) + enhanced(1, 1, b"b")
        with tempfile.TemporaryDirectory() as folder:
            path = Path(folder, "capture.pcapng")
            path.write_bytes(data)
            with pcapfile.open(path) as capture:
                packets = capture.indexed()
                for first, second in (capture.interfaces, [packets[0].interface, packets[-1].interface]):
                    self.assertEqual((first.name, first.comment, first.block.offset), ("eth0", "hm", len(SECTION) + 8))
                    self.assertEqual(bytes(first.block.body), NAMED[8:-4])
                    self.assertEqual((second.name, second.link, second.block.offset), (None, 9, len(data) - 36 - 20 + 8))
                written = io.BytesIO()
                with pcapfile.Writer(written, like=capture) as writer:
                    writer.write_packet(packets[0])
        self.assertEqual(written.getvalue()[len(SECTION) :], NAMED + COMMENTED)

    def test_as_a_sequence(self):
        (only,) = pcapfile.parse(HEADER + packet(7, 8, b"abc", 5))
        seconds, nanoseconds, original, data, link, offset = only
        self.assertEqual((seconds, nanoseconds, original, bytes(data), link, offset), (7, 8000, 5, b"abc", 1, 40))
        self.assertEqual((len(only), only[0], only[-1], only[:3]), (6, 7, 40, (7, 8000, 5)))
        self.assertRaises(IndexError, lambda: only[6])
        self.assertEqual(only, (7, 8000, 5, b"abc", 1, 40))
        self.assertNotEqual(only, (7, 8000, 5, b"abd", 1, 40))
        self.assertEqual(only._asdict()["link"], 1)
        self.assertEqual(only._fields[:2], ("seconds", "nanoseconds"))
        (only,) = pcapfile.parse(SECTION + INTERFACE + enhanced(0, 1_000_002, b"abc"))
        *first, face, offset = only
        self.assertEqual((len(only), first, offset), (8, [1, 2000, 60, b"abc", 1_000_002, 0], len(SECTION + INTERFACE) + 28))
        self.assertEqual(face, (113, 96, 10, 6, 0))

    def test_packets_in_sets(self):
        data = HEADER + packet(7, 8, b"abc") + packet(7, 8, b"abd")
        with pcapfile.parse(data) as capture:
            once, again = list(capture), list(capture)
        self.assertEqual(once, again)
        self.assertEqual(len({*once, *again}), 2)
        self.assertEqual(hash(once[0]), hash(again[0]))
        self.assertEqual(sorted(pcapfile.parse(HEADER + packet(9, 0, b"") + packet(3, 0, b"")))[0].seconds, 3)

    def test_what_it_shows(self):
        (only,) = pcapfile.parse(HEADER + packet(7, 500_000, b"abc", 5))
        self.assertEqual(repr(only), "<packet of 3 bytes, 5 on the wire, time 7.5, link 1, at byte 40>")

    def test_pickles(self):
        data = SECTION + NAMED + COMMENTED + OLD + SIMPLE + enhanced(7, 1, b"abc") + enhanced(0, 1, b"")
        for strict in (True, False):
            for capture in (pcapfile.parse(data, strict=strict), pcapfile.parse(HEADER + packet(7, 8, b"abc", 5), strict=strict)):
                for each in capture:
                    for protocol in range(2, pickle.HIGHEST_PROTOCOL + 1):
                        same = pickle.loads(pickle.dumps(each, protocol))
                        self.assertIs(type(same), type(each))
                        self.assertEqual(tuple(same), tuple(each))
                        self.assertEqual((same.time_ns, same.comment, same.link, same.length), (each.time_ns, each.comment, each.link, each.length))
                        self.assertEqual(getattr(same.interface, "name", None), getattr(each.interface, "name", None))
                    self.assertEqual(copy.deepcopy(each), each)
        # A pickled packet contains its own bytes, and not the capture.
        with pcapfile.parse(HEADER + packet(1, 2, b"abc") + packet(3, 4, bytes(100_000))) as capture:
            self.assertLess(len(pickle.dumps(next(iter(capture)))), 500)

    def test_blocks_pickle(self):
        with pcapfile.parse(SECTION + NAMED + COMMENTED) as capture:
            for each in capture.blocks():
                same = pickle.loads(pickle.dumps(each))
                self.assertEqual((same, same.options), (each, each.options))
            (described,) = capture.interfaces
        self.assertEqual(pickle.loads(pickle.dumps(described)).name, "eth0")

    @unittest.skipIf(_extension.native is None, "the extension is missing")
    def test_packets_lend_their_bytes(self):
        for data in (HEADER + packet(7, 0, b"abc"), SECTION + INTERFACE + enhanced(0, 1, b"abc")):
            (only,) = pcapfile.parse(data)
            self.assertEqual((memoryview(only).tobytes(), b"".join([only])), (b"abc", b"abc"))
            self.assertTrue(memoryview(only).readonly)

    def test_what_a_capture_shows(self):
        with pcapfile.parse(HEADER + packet(7, 500_000, b"<b>", 5)) as capture:
            self.assertEqual(repr(capture), "<pcap capture, 43 bytes>")
            shown = capture._repr_html_()
            self.assertIn("<p>pcap capture, 43 bytes, link type 1</p>", shown)
            self.assertIn("<td>7.5</td><td>3</td><td>5</td><td>1</td><td>3c 62 3e</td>", shown)
        names = interface(1, 0, option(2, b"<script>") + option(0, b""))
        with pcapfile.parse(SECTION + names + enhanced(0, 1, b"abc") + b"\1") as capture:
            shown = capture._repr_html_()
        self.assertIn("&lt;script&gt;", shown)
        self.assertNotIn("<script>", shown)
        self.assertIn("bytes are missing", shown)
        stream = pcapfile.open(io.BytesIO(HEADER + packet(7, 0, b"")))
        self.assertIn("a stream", stream._repr_html_())
        self.assertEqual(len(list(stream)), 1)

    def test_what_a_closed_capture_shows(self):
        classic, blocks = HEADER + packet(7, 0, b"abc"), SECTION + NAMED + COMMENTED
        with tempfile.TemporaryDirectory() as room:
            for data, wanted, link in ((classic, "pcap capture, closed", ", link type 1"), (blocks, "pcapng capture, closed", "")):
                path = Path(room, "capture")
                path.write_bytes(data)
                for strict in (True, False):
                    for opened, source in ((pcapfile.parse, data), (pcapfile.open, path), (pcapfile.open, io.BytesIO(data))):
                        with opened(source, strict=strict) as capture:
                            self.assertNotIn("closed", repr(capture) + capture._repr_html_())
                        self.assertEqual(repr(capture), f"<{wanted}>")
                        self.assertEqual(capture._repr_html_(), f"<p>{wanted}{link}</p>")


if __name__ == "__main__":
    unittest.main()
