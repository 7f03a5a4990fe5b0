"""Tests of numbered files. Each expected value follows from the bytes beside it."""

import struct
import unittest
from pathlib import Path

import pcapfile
from test_columns import option
from test_pcapfile import INTERFACE, SECTION, enhanced, interface
from test_programs import InFolder

# The header that a classic Writer writes by default: nanoseconds, little-endian.
HEADER = struct.pack("<IHHiIII", 0xA1B23C4D, 2, 4, 0, 0, 262144, 1)


def packet(seconds, nanoseconds, data):
    return struct.pack("<IIII", seconds, nanoseconds, len(data), len(data)) + data


def files(stem="out", extension=".pcap"):
    return [path.read_bytes() for path in sorted(Path(".").glob(f"{stem}-?????{extension}"))]


class Numbered(InFolder):
    def test_by_bytes(self):
        # Each packet has 26 bytes, so the header and two packets have 76.
        with pcapfile.Writer("out.pcap", max_bytes=76) as writer:
            for n in range(5):
                writer.write(bytes(10), n)
        whole = [packet(n, 0, bytes(10)) for n in range(5)]
        self.assertEqual(files(), [HEADER + b"".join(whole[n : n + 2]) for n in (0, 2, 4)])
        self.assertEqual(writer.files, ["out-00001.pcap", "out-00002.pcap", "out-00003.pcap"])
        self.assertFalse(Path("out.pcap").exists())

    def test_each_has_a_packet(self):
        with pcapfile.Writer("out.pcap", max_bytes=1) as writer:
            writer.write(b"abc", 1)
            writer.write(b"defg", 2)
        self.assertEqual(files(), [HEADER + packet(1, 0, b"abc"), HEADER + packet(2, 0, b"defg")])
        pcapfile.Writer("none.pcap", max_bytes=1).close()
        self.assertEqual(files("none"), [HEADER])

    def test_by_time(self):
        # The second file begins 1.5 seconds after the first packet of the first file. A time that goes back begins no file.
        times = [(10, 200_000_000), (11, 699_999_999), (9, 0), (11, 700_000_000), (13, 199_999_999), (13, 200_000_000)]
        with pcapfile.Writer("out.pcap", max_seconds=1.5) as writer:
            for seconds, nanoseconds in times:
                writer.write(b"x", seconds, nanoseconds)
        whole = [packet(*time, b"x") for time in times]
        self.assertEqual(files(), [HEADER + b"".join(part) for part in (whole[:3], whole[3:5], whole[5:])])

    def test_by_both(self):
        with pcapfile.Writer("out.pcap", max_seconds=10, max_bytes=24 + 2 * 17) as writer:
            for seconds in (0, 1, 2, 12, 13):
                writer.write(b"x", seconds)
        whole = [packet(n, 0, b"x") for n in (0, 1, 2, 12, 13)]
        self.assertEqual(files(), [HEADER + b"".join(part) for part in (whole[:2], whole[2:3], whole[3:])])

    def test_interfaces_are_in_each(self):
        with pcapfile.Writer("out", "pcapng", max_seconds=1) as writer:
            writer.write(b"a", 0)
            other = writer.add_interface(113)
            for n in range(1, 4):
                writer.write(b"b", n, interface=other)
        self.assertEqual(len(files("out", "")), 4)
        for n, name in enumerate(writer.files):
            with pcapfile.open(name) as capture:
                (each,) = capture
                self.assertEqual((each.seconds, each.link, len(capture.interfaces)), (n, 113 if n else 1, 2))

    def test_packets_of_another_capture(self):
        named = interface(1, 0, option(2, b"eth0") + option(9, b"\x03") + option(0, b""))
        whole = [enhanced(0, n * 1000, bytes([n]) * 4) for n in range(4)]
        source = SECTION + named + INTERFACE + b"".join(whole)
        with pcapfile.parse(source) as capture, pcapfile.Writer("out.pcapng", like=capture, max_seconds=2) as writer:
            for each in capture:
                writer.write_packet(each)
        head = SECTION[:16] + b"\xff" * 8 + SECTION[24:]
        self.assertEqual(files("out", ".pcapng"), [head + named + whole[0] + whole[1], head + named + whole[2] + whole[3]])

    def test_rows(self):
        with pcapfile.Writer("a.pcap") as writer:
            for n in range(4):
                writer.write(bytes([n]), n)
        with pcapfile.open("a.pcap") as capture, pcapfile.Writer("out.pcap", like=capture, max_bytes=24 + 34) as writer:
            for rows in capture.columns():
                writer.write_rows(rows, capture) if hasattr(rows, "dtype") else self.skipTest("numpy")
        whole = [packet(n, 0, bytes([n])) for n in range(4)]
        self.assertEqual(files(), [HEADER + whole[0] + whole[1], HEADER + whole[2] + whole[3]])

    def test_arguments(self):
        for words, error in (
            ({"max_bytes": 0}, ValueError),
            ({"max_seconds": -1}, ValueError),
            ({"max_seconds": 0}, ValueError),
            ({"max_bytes": 100, "append": True}, ValueError),
        ):
            with self.subTest(words=words), self.assertRaises(error):
                pcapfile.Writer("out.pcap", **words)
        with self.assertRaises(TypeError):
            pcapfile.Writer(open("mine", "wb"), max_bytes=100)
        self.assertEqual(files(), [])

    def test_a_file_that_can_not_be_opened(self):
        Path("out-00002.pcap").mkdir()
        writer = pcapfile.Writer("out.pcap", max_bytes=1)
        writer.write(b"a", 1)
        with self.assertRaises(IsADirectoryError):
            writer.write(b"b", 2)
        Path("out-00002.pcap").rmdir()
        writer.write(b"b", 2)
        writer.close()
        self.assertEqual(files(), [HEADER + packet(1, 0, b"a"), HEADER + packet(2, 0, b"b")])
        with self.assertRaises(ValueError):
            writer.write(b"c", 3)

    def test_a_file_that_a_capture_reads(self):
        """The second file is being read. The Writer leaves it as it is, and goes on when the capture is closed."""
        Path("out-00002.pcap").write_bytes(HEADER + packet(9, 0, b"z"))
        writer = pcapfile.Writer("out.pcap", max_bytes=1)
        writer.write(b"a", 1)
        with pcapfile.open("out-00002.pcap") as capture:
            with self.assertRaisesRegex(ValueError, "is being read"):
                writer.write(b"b", 2)
            self.assertEqual([bytes(each) for each in capture], [b"z"])
        writer.write(b"b", 2)
        writer.close()
        self.assertEqual(files(), [HEADER + packet(1, 0, b"a"), HEADER + packet(2, 0, b"b")])


if __name__ == "__main__":
    unittest.main()
