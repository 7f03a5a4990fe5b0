"""Tests of the package. Each expected value follows from the bytes beside it."""

import os
import struct
import subprocess
import sys
import tempfile
import threading
import unittest
from pathlib import Path

import pcapfile
from pcapfile._library import rule_name

HEADER = struct.pack("<IHHiIII", 0xA1B2C3D4, 2, 4, 0, 0, 65535, 1)


def packet(seconds, fraction, data, original=None):
    return struct.pack("<IIII", seconds, fraction, len(data), len(data) if original is None else original) + data


class Captures(unittest.TestCase):
    def test_header(self):
        with pcapfile.parse(HEADER) as capture:
            self.assertEqual(capture.header.magic_number, 0xD4C3B2A1)
            self.assertEqual((capture.header.version_major, capture.header.version_minor), (2, 4))
            self.assertEqual((capture.header.snaplen, capture.link), (65535, 1))
            self.assertEqual(list(capture), [])

    def test_packets(self):
        with pcapfile.parse(HEADER + packet(7, 8, b"abc", 5) + packet(9, 999_999, b"")) as capture:
            first, second = capture
            self.assertEqual((first.seconds, first.nanoseconds, first.original_length), (7, 8000, 5))
            self.assertEqual((bytes(first.data), first.link), (b"abc", 1))
            self.assertEqual(first.time_ns, 7_000_008_000)
            self.assertAlmostEqual(first.time, 7.000008)
            self.assertEqual((second.time_ns, bytes(second.data)), (9_999_999_000, b""))

    def test_more_packets_than_a_batch(self):
        data = HEADER + b"".join(packet(n, 0, bytes([n % 256])) for n in range(2000))
        with pcapfile.parse(data) as capture:
            self.assertEqual([(p.seconds, p.data[0]) for p in capture], [(n, n % 256) for n in range(2000)])
            self.assertEqual(sum(1 for _ in capture), 2000)

    def test_file(self):
        with tempfile.TemporaryDirectory() as folder:
            path = Path(folder, "capture.pcap")
            path.write_bytes(HEADER + packet(1, 2, b"abc"))
            with pcapfile.open(path) as capture:
                kept = [p.data for p in capture]
            self.assertEqual(bytes(kept[0]), b"abc")
            path.write_bytes(b"")
            with self.assertRaises(pcapfile.Incomplete) as told:
                pcapfile.open(path)
            self.assertEqual(told.exception.missing, 24)

    def test_pipe(self):
        with tempfile.TemporaryDirectory() as folder:
            path = Path(folder, "pipe")
            os.mkfifo(path)
            # This is more than a pipe buffers, so the package reads while the thread writes.
            data = HEADER + b"".join(packet(n, 0, bytes(1000)) for n in range(500))
            writer = threading.Thread(target=path.write_bytes, args=(data,))
            writer.start()
            with pcapfile.open(path) as capture:
                self.assertEqual([(p.seconds, len(p.data)) for p in capture], [(n, 1000) for n in range(500)])
            writer.join()

    def test_empty_pipe(self):
        with tempfile.TemporaryDirectory() as folder:
            path = Path(folder, "pipe")
            os.mkfifo(path)
            writer = threading.Thread(target=path.write_bytes, args=(b"",))
            writer.start()
            with self.assertRaises(pcapfile.Incomplete) as told:
                pcapfile.open(path)
            writer.join()
            self.assertEqual(told.exception.missing, 24)

    def test_bytes_that_can_be_written(self):
        with pcapfile.parse(bytearray(HEADER + packet(1, 2, b"abc"))) as capture:
            self.assertEqual([bytes(p.data) for p in capture], [b"abc"])


def block(number, body):
    return struct.pack("<II", number, len(body) + 12) + body + struct.pack("<I", len(body) + 12)


SECTION = block(0x0A0D0D0A, struct.pack("<IHHq", 0x1A2B3C4D, 1, 0, -1))
INTERFACE = block(1, struct.pack("<HHI", 113, 0, 96))


def interface(link=1, snaplen=0, options=b""):
    return block(1, struct.pack("<HHI", link, 0, snaplen) + options)


NANOSECONDS = block(1, struct.pack("<HHIHHBxxx", 1, 0, 0, 9, 1, 9))


def enhanced(interface, ticks, data):
    padded = data + bytes(-len(data) % 4)
    return block(6, struct.pack("<IIIII", interface, ticks >> 32, ticks & 0xFFFFFFFF, len(data), 60) + padded)


class Blocks(unittest.TestCase):
    def test_packets(self):
        data = SECTION + INTERFACE + NANOSECONDS + enhanced(0, 7_000_008, b"abc") + enhanced(1, 7_000_008, b"")
        with pcapfile.parse(data) as capture:
            first, second = capture
        self.assertEqual((first.time_ns, first.original_length, first.link), (7_000_008_000, 60, 113))
        self.assertEqual((second.time_ns, second.interface.snaplen, second.link), (7_000_008, 0, 1))

    def test_more_packets_than_a_batch(self):
        others = block(99, b"") + block(6, b"tooshort")
        data = SECTION + INTERFACE + b"".join(enhanced(0, n, bytes([n % 256])) + others * (n % 3 == 0) for n in range(2000))
        with pcapfile.parse(data) as capture:
            wanted = [(n, n // 10**6, n % 10**6 * 1000, n % 256) for n in range(2000)]
            self.assertEqual([(p.timestamp, p.seconds, p.nanoseconds, p.data[0]) for p in capture], wanted)

    def test_bytes_lie_in_the_file(self):
        with tempfile.TemporaryDirectory() as folder:
            path = Path(folder, "capture.pcapng")
            path.write_bytes(SECTION + INTERFACE + enhanced(0, 1, b"abc"))
            with pcapfile.open(path) as capture:
                self.assertEqual([bytes(p.data) for p in capture], [b"abc"])

    def test_a_new_section_has_no_interfaces(self):
        data = SECTION + INTERFACE + enhanced(0, 1, b"") + SECTION + enhanced(0, 1, b"")
        with pcapfile.parse(data) as capture:
            first, second = capture
        self.assertEqual((first.link, second.link, second.time), (113, None, None))

    def test_simple_packets_have_no_time(self):
        with pcapfile.parse(SECTION + INTERFACE + block(3, struct.pack("<I", 4) + b"abcd")) as capture:
            (only,) = capture
            self.assertEqual((only.seconds, only.link, bytes(only.data)), (None, 113, b"abcd"))

    def test_padding_is_no_part_of_simple_packets(self):
        data = SECTION + interface(snaplen=3) + block(3, struct.pack("<I", 9) + b"abc\0")
        self.assertEqual([bytes(p.data) for p in pcapfile.parse(data)], [b"abc"])
        data = SECTION + interface(snaplen=0) + block(3, struct.pack("<I", 2) + b"ab\0\0")
        self.assertEqual([bytes(p.data) for p in pcapfile.parse(data)], [b"ab"])

    def test_refusals(self):
        with self.assertRaises(pcapfile.Incomplete) as told:
            list(pcapfile.parse(SECTION + INTERFACE[:-1]))
        self.assertEqual((told.exception.missing, told.exception.offset), (1, 28))
        with self.assertRaises(pcapfile.Invalid) as told:
            list(pcapfile.parse(SECTION + block(1, b"")))
        self.assertEqual((told.exception.rule, told.exception.offset), ("InterfaceTooShort", 28))

    def test_closed(self):
        capture = pcapfile.parse(SECTION + INTERFACE + enhanced(0, 1, b"") * 2)
        packets = iter(capture)
        next(packets)
        capture.close()
        with self.assertRaises(ValueError):
            list(packets)


class Refusals(unittest.TestCase):
    def test_incomplete(self):
        with self.assertRaises(pcapfile.Incomplete) as told:
            pcapfile.parse(HEADER[:20])
        self.assertEqual((told.exception.missing, told.exception.offset), (4, 0))

    def test_packets_before_a_refusal(self):
        got = []
        with self.assertRaises(pcapfile.Incomplete) as told:
            for p in pcapfile.parse(HEADER + packet(1, 2, b"abc") + packet(3, 4, b"defg")[:-1]):
                got.append(bytes(p.data))
        self.assertEqual(got, [b"abc"])
        self.assertEqual((told.exception.missing, told.exception.offset), (1, 24 + 19))

    def test_rules(self):
        with self.assertRaises(pcapfile.Invalid) as told:
            pcapfile.parse(b"\xff" * 24)
        self.assertEqual((told.exception.number, told.exception.rule), (1, "CaptureMagic"))
        self.assertIs(told.exception.number, pcapfile.Rule.CAPTURE_MAGIC)
        self.assertEqual(pcapfile.Rule.CAPTURE_MAGIC.text, "PcapHeader wrong magic number")

    def test_the_library_knows_each_rule(self):
        for rule in pcapfile.Rule:
            name = rule_name(rule)
            self.assertEqual(name.lower(), rule.name.replace("_", "").lower())
            self.assertNotEqual(rule.text, "")
        self.assertEqual(rule_name(27), "")
        with self.assertRaisesRegex(pcapfile.CaptureError, r"IncludedPastOriginal: .*incl_len > orig_len \(at byte 24\)"):
            list(pcapfile.parse(HEADER + packet(1, 2, b"abc", 2)))

    def test_closed(self):
        capture = pcapfile.parse(HEADER + b"".join(packet(n, 0, b"") for n in range(2000)))
        packets = iter(capture)
        next(packets)
        capture.close()
        with self.assertRaises(ValueError):
            list(packets)
        with self.assertRaises(ValueError):
            list(capture)


class Library(unittest.TestCase):
    def test_the_names_that_it_lists(self):
        """`dir` lists the public names, also those that are imported on first use, and no name that it imports for itself."""
        ran = subprocess.run([sys.executable, "-c", "import pcapfile; print(*dir(pcapfile))"], capture_output=True, text=True, check=True)
        names = ran.stdout.split()
        self.assertLessEqual({*pcapfile.__all__, "convert", "aopen", "ProgramError", "__doc__", "__version__"}, set(names))
        self.assertEqual([it for it in names if it not in pcapfile.__all__ and not it.startswith("__")], [])

    def test_one_that_is_not_there(self):
        named = {**os.environ, "PCAPFILE_LIBRARY": "/nowhere/libpcapfile.so"}
        ran = subprocess.run([sys.executable, "-c", "import pcapfile"], env=named, capture_output=True, text=True)
        self.assertEqual(ran.returncode, 1)
        self.assertIn("ImportError: pcapfile's library can't be loaded from '/nowhere/libpcapfile.so'", ran.stderr)
        self.assertIn("PCAPFILE_LIBRARY", ran.stderr)


if __name__ == "__main__":
    unittest.main()
