"""Tests of lenient reading of PcapNg captures. Each expected value follows from the bytes beside it, or comes from the model."""

import io
import random
import struct
import sys
import unittest
from pathlib import Path

import pcapfile
from pcapfile import Flaw, Rule

TOP = Path(__file__).resolve().parents[2]


def block(number, body, order="<"):
    body += bytes(-len(body) % 4)
    length = struct.pack(order + "I", len(body) + 12)
    return struct.pack(order + "I", number) + length + body + length


def option(code, value):
    return struct.pack("<HH", code, len(value)) + value + bytes(-len(value) % 4)


def interface(*options):
    return block(1, struct.pack("<HHI", 1, 0, 6) + b"".join(options))


def packet(number, units, data, *options, stored=None):
    head = struct.pack("<IIIII", number, units >> 32, units & 0xFFFFFFFF, len(data) if stored is None else stored, 98)
    return block(6, head + data + bytes(-len(data) % 4) + b"".join(options))


SECTION = block(0x0A0D0D0A, struct.pack("<IHHq", 0x1A2B3C4D, 1, 0, -1))
# The first interface has a malformed comment, a malformed resolution, and a resolution of a nanosecond. The second
# description is too short. The third interface has no options.
INTERFACES = interface(option(1, b"\xff"), option(9, b"\t\t"), option(9, b"\t")) + block(1, b"\x01\0\0\0") + interface()
CAPTURE = SECTION + INTERFACES


class BlocksAsTheyStand(unittest.TestCase):
    def packets(self, data):
        for capture in (pcapfile.parse(data, strict=False), pcapfile.open(io.BytesIO(data), strict=False)):
            found = list(capture)
        return found

    def test_times_are_by_the_clocks_that_hold(self):
        data = CAPTURE + packet(0, 10**9 + 5, b"abc") + packet(2, 10**6 + 5, b"d") + packet(1, 7, b"e") + packet(3, 7, b"f")
        found = self.packets(data)
        self.assertEqual([(p.seconds, p.nanoseconds) for p in found], [(1, 5), (1, 5000), (None, 0), (None, 0)])
        self.assertEqual([bytes(p.data) for p in found], [b"abc", b"d", b"e", b"f"])
        self.assertEqual([p.link for p in found], [1, 1, None, None])
        self.assertEqual([p.flaws for p in found], [()] * 4)
        self.assertEqual(found[0].offset, len(CAPTURE) + 28)

    def test_flaws_of_packets_stand_in_order(self):
        data = CAPTURE + packet(0, 1, b"abc", option(2, b"ab"), option(1, b"\xff"), option(4, b""))
        (found,) = self.packets(data)
        named = [(it.rule, it.code) for it in found.flaws]
        self.assertEqual(named, [(Rule.ENHANCED_FLAGS_LENGTH, 2), (None, 1), (Rule.ENHANCED_DROP_COUNT_LENGTH, 4)])
        self.assertEqual(found.flaws[1].text, "a string in the block is not UTF-8")
        self.assertEqual((bytes(found.data), found.original_length, found.seconds), (b"abc", 98, 0))

    def test_a_body_without_room_for_a_packet(self):
        found = self.packets(CAPTURE + block(6, bytes(16)) + packet(0, 1, b"ab", stored=5) + block(3, b"") + packet(0, 2, b"a"))
        rules = [Rule.ENHANCED_TOO_SHORT, Rule.ENHANCED_CUT, Rule.SIMPLE_TOO_SHORT]
        self.assertEqual([[it.rule for it in p.flaws] for p in found], [*([rule] for rule in rules), []])
        self.assertEqual([(p.seconds, bytes(p.data)) for p in found[:3]], [(None, b"")] * 3)

    def test_simple_and_obsolete_packets(self):
        old = struct.pack("<HHIIII", 0, 3, 0, 9, 1, 1) + b"q\0\0\0"
        found = self.packets(CAPTURE + block(3, struct.pack("<I", 60) + b"abcdefgh") + block(2, old))
        self.assertEqual([(p.seconds, p.nanoseconds, bytes(p.data)) for p in found], [(None, 0, b"abcdef"), (0, 9, b"q")])

    def test_blocks_and_their_flaws(self):
        blocks = list(pcapfile.parse(CAPTURE, strict=False).blocks())
        self.assertEqual([it.type for it in blocks], [0x0A0D0D0A, 1, 1, 1])
        named = [[(flaw.rule, flaw.code) for flaw in it.flaws] for it in blocks]
        resolution = Rule.INTERFACE_RESOLUTION_LENGTH
        self.assertEqual(named, [[], [(None, 1), (resolution, 9)], [(Rule.INTERFACE_TOO_SHORT, None)], []])

    def test_more_flaws_than_there_is_place_for_at_first(self):
        data = SECTION + interface(*[option(9, b"")] * 40) + packet(0, 1, b"a", *[option(2, b"")] * 300)
        self.assertEqual([len(it.flaws) for it in pcapfile.parse(data, strict=False).blocks()], [0, 40, 300])
        section = block(0x0A0D0D0A, struct.pack(">IHHq", 0x1A2B3C4D, 1, 0, -1) + (struct.pack(">HH", 1, 1) + b"\xff\0\0\0") * 50, ">")
        section = section[:4] + struct.pack(">I", len(section)) + section[8:-4] + struct.pack(">I", len(section))
        (first, second) = pcapfile.parse(SECTION + section, strict=False).blocks()
        self.assertEqual((len(first.flaws), len(second.flaws), second.byteorder), (0, 50, "big"))

    def test_columns(self):
        data = CAPTURE + packet(0, 5, b"abc", option(2, b"")) + packet(2, 6, b"d")
        for threads in (1, 2):
            batches = pcapfile.parse(data, strict=False).columns(1, threads)
            self.assertEqual([list(columns["time_ns"]) for columns in batches], [[5], [6000]])

    def test_what_it_cannot_read_is_a_gap(self):
        good = CAPTURE + packet(0, 1, b"good", option(2, b""))
        for bad, rule in ((struct.pack("<III", 6, 17, 0), Rule.BLOCK_UNALIGNED), (packet(0, 1, b"")[:-1], None)):
            data = good + bad
            for capture in (pcapfile.parse(data, strict=False, gaps=True), pcapfile.open(io.BytesIO(data), strict=False, gaps=True)):
                found, gap = capture
                self.assertEqual(len(found.flaws), 1)
                self.assertEqual(gap, pcapfile.Gap(len(good), len(bad), rule, "1 byte is missing" if rule is None else rule.text))

    def test_strict_stops_at_the_flawed_interface(self):
        with self.assertRaises(pcapfile.CaptureError) as told:
            list(pcapfile.parse(CAPTURE + packet(0, 1, b"a")))
        self.assertEqual((told.exception.status, told.exception.offset), (4, len(SECTION)))

    @unittest.skipUnless((TOP / "tests" / "model").exists(), "the model lies in the repository alone")
    def test_as_the_model_reads_them(self):
        sys.path.append(str(TOP / "tests" / "c"))
        import blocks_as_is

        for seed in range(10):
            made = blocks_as_is.Made("little", random.Random(seed))
            data = made.data + b"".join(made.any() for _ in range(40))
            wanted, got = [], []
            for line in blocks_as_is.lines(data):
                kind, *rest = line.split(" ")
                if kind == "flaw":
                    wanted[-1].append(int(rest[1]) or None)
                elif kind.isdigit():
                    wanted.append([])
            for found in pcapfile.parse(data, strict=False, gaps=True).blocks():
                if isinstance(found, pcapfile.Gap):
                    break
                got.append([flaw.code for flaw in found.flaws])
            self.assertEqual(got, wanted)


if __name__ == "__main__":
    unittest.main()
