"""Tests of rows that a Writer writes many at once. The packets are known, so the expected captures follow from them."""

import io
import random
import struct
import tempfile
import unittest
from pathlib import Path
from unittest import mock

import pcapfile
from pcapfile import _columns, _rows
from pcapfile._output import Output
from test_pcapfile import SECTION, enhanced, interface

LINKS = (1, 101)
NANOSECONDS = struct.pack("<IHHiIII", 0xA1B23C4D, 2, 4, 0, 0, 65535, 1)


def packets(count, seed=1, most=700):
    """Returns the time in nanoseconds, the bytes, the original length and the interface of each packet."""
    chosen = random.Random(seed)
    sizes = [chosen.randrange(most) for _ in range(count)]
    return [(n * 1_000_000_007, chosen.randbytes(size), size + n % 3, n % 7 == 0) for n, size in enumerate(sizes)]


def classic(given):
    heads = (struct.pack("<IIII", *divmod(time, 10**9), len(data), original) + data for time, data, original, _ in given)
    return NANOSECONDS + b"".join(heads)


def blocks(given):
    """Makes a capture with two interfaces that count microseconds."""
    text = SECTION + b"".join(map(interface, LINKS))
    for time, data, original, number in given:
        block = bytearray(enhanced(int(number), time // 1000, data))
        block[24:28] = struct.pack("<I", original)
        text += bytes(block)
    return text


def read(text):
    return [(packet.time_ns, bytes(packet), packet.original_length, packet.link) for packet in pcapfile.parse(text)]


def wanted(given, form):
    """Returns what a capture of these packets has."""
    return [
        (time if form == "pcap" else time // 1000 * 1000, data, original, LINKS[number] if form == "pcapng" else 1)
        for time, data, original, number in given
    ]


@unittest.skipIf(_columns.numpy is None, "numpy is missing")
class Rows(unittest.TestCase):
    def setUp(self):
        folder = tempfile.TemporaryDirectory()
        self.addCleanup(folder.cleanup)
        self.path = str(Path(folder.name) / "capture")

    def opened(self, text):
        """Yields captures of these bytes, in memory and in a file, and the bytes."""
        Path(self.path).write_bytes(text)
        yield pcapfile.parse(text), None
        yield pcapfile.open(self.path), None
        yield pcapfile.open(self.path), text

    def written(self, order, form="pcapng"):
        """Writes the rows of captures of both formats in this order, and compares them to the packets."""
        given = packets(3000)
        for source, text in (("pcap", classic(given)), ("pcapng", blocks(given))):
            for capture, other in self.opened(text):
                (rows,) = capture.columns()
                numbers = order(len(rows))
                out = io.BytesIO()
                with capture, pcapfile.Writer(out, form) as writer:
                    self.assertEqual(writer.write_rows(rows[numbers], other or capture), len(numbers))
                self.assertEqual(read(out.getvalue()), [wanted(given, source)[n] for n in numbers])

    def test_in_order(self):
        self.written(lambda count: list(range(count)))

    def test_backwards(self):
        self.written(lambda count: list(range(count))[::-1])

    def test_a_few(self):
        self.written(lambda count: list(range(0, count, 97)))

    def test_in_any_order_and_again(self):
        self.written(lambda count: [random.Random(count).randrange(count) for _ in range(count)])

    def test_none(self):
        self.written(lambda count: [])

    def test_classic(self):
        """A classic capture has packets of one link type."""
        given = [(time, data, original, 0) for time, data, original, _ in packets(2000)]
        for text in (classic(given), blocks(given)):
            for capture, other in self.opened(text):
                (rows,) = capture.columns()
                out = io.BytesIO()
                with capture, pcapfile.Writer(out) as writer:
                    writer.write_rows(rows, other or capture)
                self.assertEqual(read(out.getvalue()), wanted(given, "pcap" if text[:4] == NANOSECONDS[:4] else "pcapng"))

    def test_large_packets(self):
        """Packets are longer than what is written at once."""
        given = [(n, bytes([n]) * size, size, False) for n, size in enumerate([300_000, 1, 262_144, 262_145, 0, 500_000])]
        for capture, other in self.opened(classic([it for it in given if len(it[1]) <= 262_144])):
            (rows,) = capture.columns()
            out = io.BytesIO()
            with capture, pcapfile.Writer(out) as writer:
                writer.write_rows(rows, other or capture)
            self.assertEqual(read(out.getvalue()), wanted([it for it in given if len(it[1]) <= 262_144], "pcap"))
        for capture, other in self.opened(blocks(given)):
            (rows,) = capture.columns()
            out = io.BytesIO()
            with capture, pcapfile.Writer(out, "pcapng") as writer:
                writer.write_rows(rows, other or capture)
            self.assertEqual(read(out.getvalue()), wanted(given, "pcapng"))

    def test_errors(self):
        """The rows before one with an error are written, and none after it. Without the extension they are the same."""
        given = packets(500, most=80)
        changes = {
            "time_ns": [_columns.NO_TIME, -1],
            "len": [2**32 - 1, 100_000],
            "orig_len": [0, 2**32 - 1],
            "link": [7, 2**32 - 1],
            "offset": [2**63, 2**64 - 1, 10**7],
        }
        for form in ("pcap", "pcapng"):
            text = classic(given)
            for name, values in changes.items():
                for value in values:
                    for joins in (True, False):
                        (rows,) = pcapfile.parse(text).columns()
                        rows[name][300] = value
                        out, writer = io.BytesIO(), None
                        with self.subTest(form=form, name=name, value=value, joins=joins), mock.patch.object(Output, "joins", joins):
                            with pcapfile.Writer(out, form) as writer:
                                try:
                                    writer.write_rows(rows, text)
                                except ValueError as error:
                                    count, said = 300, str(error)
                                else:
                                    count, said = 500, None
                            told = read(out.getvalue())
                            self.assertEqual(told[:300], wanted(given[:300], "pcap"))
                            self.assertEqual(len(told), count)
                            if joins:
                                before = said, out.getvalue()
                            else:
                                self.assertEqual((said, out.getvalue()), before)

    def test_columns_of_other_types(self):
        """Values that fit are the same in any type. A value that does not fit is no other value."""
        text = classic(packets(50))
        (rows,) = pcapfile.parse(text).columns()
        columns = {name: rows[name].astype("i8") for name in rows.dtype.names}
        out, same = io.BytesIO(), io.BytesIO()
        pcapfile.Writer(out).write_rows(columns, text)
        pcapfile.Writer(same).write_rows(rows, text)
        self.assertEqual(out.getvalue(), same.getvalue())
        columns["orig_len"][7] += 2**32
        with self.assertRaisesRegex(ValueError, "^original_length is "):
            pcapfile.Writer(io.BytesIO()).write_rows(columns, text)
        self.assertIsNone(_rows.table_of(_rows.columns_of(columns)))

    def test_a_file_that_fails(self):
        class Full(io.RawIOBase):
            def write(self, text):
                raise OSError(28, "No space left on device")

        text = classic(packets(50))
        (rows,) = pcapfile.parse(text).columns()
        with self.assertRaises(OSError):
            pcapfile.Writer(Full()).write_rows(rows, text)
        writer = pcapfile.Writer(io.BytesIO())
        writer.close()
        with self.assertRaises(ValueError):
            writer.write_rows(rows, text)


if __name__ == "__main__":
    unittest.main()
