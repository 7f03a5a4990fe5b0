"""Tests of lenient reading of classic captures. Each expected value follows from the bytes beside it."""

import io
import struct
import sys
import unittest
from pathlib import Path

import pcapfile
from pcapfile import Rule
from pcapfile._library import rule_text

MODEL = Path(__file__).resolve().parents[2] / "tests" / "model"


def header(order="<", magic=0xA1B2C3D4):
    return struct.pack(order + "IHHiIII", magic, 2, 4, 0, 0, 65535, 1)


def packet(seconds, fraction, data, original, order="<"):
    return struct.pack(order + "IIII", seconds, fraction, len(data), original) + data


# Packets of a capture with microseconds, each with its time in nanoseconds and the rules that it breaks.
ROWS = [
    (packet(7, 8, b"abc", 5), 7_000_008_000, ()),
    (packet(7, 1_999_999, b"", 0), 8_999_999_000, ()),
    (packet(7, 4_294_968, b"a", 1), 11_294_968_000, (Rule.FRACTION_TOO_LARGE,)),
    (packet(7, 0xFFFFFFFF, b"ab", 1), 4_301_967_295_000, (Rule.FRACTION_TOO_LARGE, Rule.INCLUDED_PAST_ORIGINAL)),
    (packet(0, 1, b"ab", 262145), 1_000, (Rule.ORIGINAL_TOO_LONG,)),
    (packet(0, 1, bytes(262145), 262145), 1_000, (Rule.INCLUDED_TOO_LONG, Rule.ORIGINAL_TOO_LONG)),
    (packet(0, 1, bytes(262145), 7), 1_000, (Rule.INCLUDED_TOO_LONG, Rule.INCLUDED_PAST_ORIGINAL)),
]


class PacketsAsTheyStand(unittest.TestCase):
    def test_each(self):
        for data, time, flaws in ROWS:
            (found,) = pcapfile.parse(header() + data, strict=False)
            self.assertEqual((found.time_ns, found.flaws, found.offset), (time, flaws, 40))
            self.assertEqual((bytes(found.data), found.original_length), (data[16:], struct.unpack("<I", data[12:16])[0]))

    def test_strict_stops_at_the_first_flaw(self):
        for data, _, flaws in ROWS:
            capture = pcapfile.parse(header() + data)
            if flaws:
                with self.assertRaises(pcapfile.Invalid) as told:
                    list(capture)
                self.assertEqual(told.exception.number, flaws[0])
            else:
                self.assertEqual(len(list(capture)), 1)

    def test_all_of_them_from_memory_and_from_a_stream(self):
        data = header() + b"".join(row[0] for row in ROWS)
        for capture in (pcapfile.parse(data, strict=False), pcapfile.open(io.BytesIO(data), strict=False)):
            self.assertEqual([(p.time_ns, p.flaws) for p in capture], [row[1:] for row in ROWS])

    def test_orders_and_nanoseconds(self):
        data = header(">", 0xA1B23C4D) + packet(1, 4_294_967_295, b"ab", 1, ">")
        (found,) = pcapfile.parse(data, strict=False)
        self.assertEqual((found.seconds, found.nanoseconds), (5, 294_967_295))
        self.assertEqual(found.flaws, (Rule.INCLUDED_PAST_ORIGINAL,))

    @unittest.skipUnless(MODEL.exists(), "the model lies in the repository alone")
    def test_as_the_model_reads_them(self):
        sys.path.insert(0, str(MODEL))
        from as_is import answers

        data = header() + b"".join(row[0] for row in ROWS[:5])
        lines = []
        for found in pcapfile.parse(data, strict=False):
            flaw = rule_text(found.flaws[0]) if found.flaws else "no flaw"
            lengths = f"{len(found.data)} of {found.original_length} bytes"
            lines.append(f"{found.seconds}.{found.nanoseconds:09} {lengths}: {flaw}")
        self.assertEqual(lines, answers(data))

    def test_columns(self):
        data = header() + b"".join(row[0] for row in ROWS)
        for threads in (1, 2):
            batches = pcapfile.parse(data, strict=False).columns(2, threads)
            times = [time for columns in batches for time in columns["time_ns"].tolist()]
            self.assertEqual(times, [row[1] for row in ROWS])

    def test_what_it_cannot_read_is_a_gap(self):
        cut, too_long = packet(0, 0, b"", 0)[:15], struct.pack("<IIII", 0, 0, (1 << 24) + 1, 0)
        texts = "1 byte is missing", Rule.INCLUDED_TOO_LONG.text
        for bad, rule, text in ((cut, None, texts[0]), (too_long, Rule.INCLUDED_TOO_LONG, texts[1])):
            data = header() + ROWS[2][0] + bad
            for capture in (pcapfile.parse(data, strict=False, gaps=True), pcapfile.open(io.BytesIO(data), strict=False, gaps=True)):
                found, gap = capture
                self.assertEqual(found.flaws, ROWS[2][2])
                self.assertEqual(gap, pcapfile.Gap(41, len(bad), rule, text))


if __name__ == "__main__":
    unittest.main()
