"""Tests of packets as columns. Each expected value follows from the bytes beside it."""

import contextlib
import os
import re
import struct
import tempfile
import unittest
from pathlib import Path

import pcapfile
from pcapfile import _columns
from test_pcapfile import HEADER, INTERFACE, NANOSECONDS, SECTION, block, enhanced, interface, packet

try:
    import pandas
except ImportError:
    pandas = None
try:
    import matplotlib
except ImportError:
    matplotlib = None

PAGE = Path(__file__).parents[2] / "docs" / "PYTHON.md"

NAMES = ["time_ns", "len", "orig_len", "interface", "link", "offset"]
NONE = -(2**63)


def option(code, value):
    return struct.pack("<HH", code, len(value)) + value + bytes(-len(value) % 4)


def rows(capture, batch=65536):
    """Returns the rows of all columns, and the CaptureError after them, or None."""
    got = []
    try:
        for columns in capture.columns(batch):
            got += zip(*(columns[name].tolist() for name in NAMES))
    except pcapfile.CaptureError as error:
        return got, error
    return got, None


class Columns(unittest.TestCase):
    """Each test runs with numpy, if it is installed, and without numpy."""

    def both(self, data, wanted, batch=65536):
        with pcapfile.parse(data) as capture:
            told = rows(capture, batch)
        known, _columns.numpy = _columns.numpy, None
        try:
            with pcapfile.parse(data) as capture:
                self.assertEqual(rows(capture, batch)[0], told[0])
        finally:
            _columns.numpy = known
        self.assertEqual(told[0], wanted)
        return told[1]

    def test_packets(self):
        data = HEADER + packet(7, 8, b"abc", 5) + packet(2**32 - 1, 999_999, b"")
        wanted = [(7_000_008_000, 3, 5, 0, 1, 40), ((2**32 - 1) * 10**9 + 999_999_000, 0, 0, 0, 1, 59)]
        self.assertIsNone(self.both(data, wanted))

    def test_no_packets(self):
        self.assertIsNone(self.both(HEADER, []))
        self.assertIsNone(self.both(SECTION, []))

    def test_batches(self):
        data = HEADER + b"".join(packet(n, 0, bytes(n % 3)) for n in range(10))
        with pcapfile.parse(data) as capture:
            self.assertEqual([len(columns["len"]) for columns in capture.columns(4)], [4, 4, 2])
        starts = [40 + sum(16 + m % 3 for m in range(n)) for n in range(10)]
        self.assertIsNone(self.both(data, [(n * 10**9, n % 3, n % 3, 0, 1, starts[n]) for n in range(10)], 4))

    def test_numbers_that_are_none_of_packets_or_threads(self):
        with pcapfile.parse(HEADER + packet(1, 2, b"abc")) as capture:
            for words, name in (({"batch": 0}, "batch"), ({"batch": -1}, "batch"), ({"threads": 0}, "threads")):
                with self.assertRaisesRegex(ValueError, name):
                    capture.columns(**words)
            self.assertRaisesRegex(ValueError, "threads", capture.to_pandas, 0)

    def test_the_packets_before_a_refusal_come_first(self):
        error = self.both(HEADER + packet(1, 2, b"abc") + packet(3, 4, b"defg")[:-1], [(1_000_002_000, 3, 3, 0, 1, 40)])
        self.assertEqual((error.missing, error.offset), (1, 24 + 19))
        data = SECTION + INTERFACE + enhanced(0, 1, b"abc") + block(1, b"short!!!")[:-1]
        error = self.both(data, [(1000, 3, 60, 0, 113, len(SECTION + INTERFACE) + 28)])
        self.assertIsInstance(error, pcapfile.Incomplete)

    def test_interfaces(self):
        head = SECTION + INTERFACE + NANOSECONDS
        data = head + enhanced(0, 7_000_008, b"abc") + enhanced(1, 7_000_008, b"") + enhanced(2, 9, b"x")
        at = len(head) + 28
        wanted = [
            (7_000_008_000, 3, 60, 0, 113, at),
            (7_000_008, 0, 60, 1, 1, at + 36),
            (NONE, 1, 60, 2, 2**32 - 1, at + 36 + 32),
        ]
        self.assertIsNone(self.both(data, wanted))

    def test_a_new_section_has_interfaces_of_its_own(self):
        data = SECTION + INTERFACE + enhanced(0, 1, b"") + SECTION + NANOSECONDS + enhanced(0, 1, b"")
        second = len(SECTION + INTERFACE) + 32 + len(SECTION + NANOSECONDS) + 28
        wanted = [(1000, 0, 60, 0, 113, len(SECTION + INTERFACE) + 28), (1, 0, 60, 0, 1, second)]
        self.assertIsNone(self.both(data, wanted))

    def test_simple_packets(self):
        head = SECTION + interface(link=5, snaplen=3)
        data = head + block(3, struct.pack("<I", 9) + b"abc\0") + block(3, struct.pack("<I", 2) + b"ab\0\0")
        at = len(head) + 12
        self.assertIsNone(self.both(data, [(NONE, 3, 9, 0, 5, at), (NONE, 2, 2, 0, 5, at + 20)]))

    def test_units_of_time(self):
        # Four interfaces: half seconds; seconds with an offset of -10 hours; picoseconds; and microseconds whose nanoseconds
        # exceed 64 bits.
        units = [option(9, b"\x81"), option(9, b"\0") + option(14, struct.pack("<q", -36000)), option(9, b"\x0c"), b""]
        head = SECTION + b"".join(interface(options=option) for option in units)
        ticks = [3, 36001, 10**12 + 999_999, 2**63]
        data = head + b"".join(enhanced(n, count, b"") for n, count in enumerate(ticks))
        times = [1_500_000_000, 1_000_000_000, 1_000_000_999, NONE]
        wanted = [(time, 0, 60, n, 1, len(head) + 28 + 32 * n) for n, time in enumerate(times)]
        self.assertIsNone(self.both(data, wanted))

    def test_the_last_time_of_64_bits(self):
        # The last microsecond whose nanoseconds fit 2^63 - 1 = 9_223_372_036_854_775_807; one microsecond more does not fit.
        last, head = 9_223_372_036_854_775, SECTION + INTERFACE
        at = len(head) + 28
        fits, passes = (last * 1000, 0, 60, 0, 113), (NONE, 0, 60, 0, 113)
        for ticks, told in (([last], [fits]), ([last, last], [fits, fits]), ([last, last + 1], [fits, passes]), ([last + 1], [passes])):
            wanted = [(*row, at + 32 * n) for n, row in enumerate(told)]
            self.assertIsNone(self.both(head + b"".join(enhanced(0, count, b"") for count in ticks), wanted))

    def test_obsolete_packets(self):
        # The interface in 16 bits, the number of dropped packets, the halves of the time, and the two lengths.
        old = block(2, struct.pack("<HHIIII", 0, 7, 1, 5, 3, 9) + b"abc\0")
        head, time = SECTION + INTERFACE, (2**32 + 5) * 1000
        first = (time, 3, 9, 0, 113, len(head) + 28)
        second = (time, 3, 9, 0, 113, len(head) + len(old) + 28)
        self.assertIsNone(self.both(head + old + old, [first, second]))
        third = (1000, 0, 60, 0, 113, len(head) + len(old) + 28)
        self.assertIsNone(self.both(head + old + enhanced(0, 1, b""), [first, third]))

    def test_offsets_are_those_of_packets(self):
        for data in (HEADER + packet(1, 2, b"abc"), SECTION + INTERFACE + enhanced(0, 1, b"abc")):
            with pcapfile.parse(data) as capture:
                (only,) = capture
                self.assertEqual(data[only.offset : only.offset + 3], b"abc")

    @unittest.skipIf(_columns.numpy is None, "numpy is missing")
    def test_arrays_of_numpy(self):
        with pcapfile.parse(HEADER + packet(7, 8, b"abc")) as capture:
            (columns,) = capture.columns()
        self.assertEqual(columns.dtype.names, tuple(NAMES))
        self.assertEqual([columns.dtype[name].str[1:] for name in NAMES], ["i8", "u4", "u4", "u4", "u4", "u8"])

    @unittest.skipIf(pandas is None, "pandas is missing")
    def test_to_pandas(self):
        data = SECTION + INTERFACE + enhanced(0, 1_500_000, b"abc") + block(3, struct.pack("<I", 2) + b"ab\0\0")
        with pcapfile.parse(data) as capture:
            frame = capture.to_pandas()
        self.assertEqual(list(frame.columns), ["time", *NAMES[1:]])
        self.assertEqual(frame["time"][0], pandas.Timestamp("1970-01-01 00:00:01.5"))
        self.assertTrue(pandas.isna(frame["time"][1]))
        self.assertEqual(frame["len"].tolist(), [3, 2])

    @unittest.skipIf(pandas is None, "pandas is missing")
    def test_to_pandas_of_no_packets(self):
        with pcapfile.parse(HEADER) as capture:
            self.assertEqual(len(capture.to_pandas()), 0)

    @unittest.skipIf(pandas is not None, "pandas is there")
    def test_to_pandas_says_what_to_install(self):
        with pcapfile.parse(HEADER) as capture, self.assertRaisesRegex(ImportError, "pandas"):
            capture.to_pandas()

    @unittest.skipIf(pandas is None or matplotlib is None, "pandas or matplotlib is missing")
    def test_the_chart_of_the_page(self):
        times = [500_000, 999_999, 2_000_000]
        packets = [enhanced(0, time, bytes(size)) for time, size in zip(times, [3, 4, 8])]
        (chart,) = re.findall(r"^```py\n(import matplotlib.*?)^```$", PAGE.read_text(), re.S | re.M)
        made = {}
        matplotlib.use("svg")
        with tempfile.TemporaryDirectory() as room, inside(room):
            Path("capture.pcapng").write_bytes(SECTION + INTERFACE + b"".join(packets))
            exec(chart, made)
            self.assertIn("bytes a second", Path("bytes.svg").read_text())
        self.assertEqual(made["seconds"].tolist(), [7, 0, 8])


@contextlib.contextmanager
def inside(folder):
    before = os.getcwd()
    os.chdir(folder)
    try:
        yield
    finally:
        os.chdir(before)


if __name__ == "__main__":
    unittest.main()
