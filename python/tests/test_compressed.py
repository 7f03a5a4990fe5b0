"""Tests of compressed captures."""

import bz2
import gzip
import importlib.util
import io
import lzma
import random
import subprocess
import sys
import tempfile
import unittest
from pathlib import Path
from unittest import mock

import pcapfile
from test_pcapfile import HEADER, INTERFACE, SECTION, enhanced, packet
from test_streams import Some

CLASSIC = HEADER + b"".join(packet(n, 0, bytes([n % 256]) * n) for n in range(500))
BLOCKS = SECTION + INTERFACE + b"".join(enhanced(0, n * 10**6, bytes([n % 256]) * n) for n in range(500))
WANTED = [(n, bytes([n % 256]) * n) for n in range(500)]
KINDS = {"gzip": gzip.compress, "bzip2": bz2.compress, "xz": lzma.compress}


def packets(capture):
    with capture:
        return [(p.seconds, bytes(p.data)) for p in capture]


class Compressed(unittest.TestCase):
    def setUp(self):
        room = tempfile.TemporaryDirectory()
        self.addCleanup(room.cleanup)
        self.path = Path(room.name, "capture")

    def test_each_kind_by_name_and_stream_and_memory(self):
        for name, compress in KINDS.items():
            for data in (CLASSIC, BLOCKS):
                compressed = compress(data)
                self.path.write_bytes(compressed)
                with self.subTest(name):
                    self.assertEqual(packets(pcapfile.open(self.path)), WANTED)
                    self.assertEqual(packets(pcapfile.parse(compressed)), WANTED)
                    for most in (1, 3, 1000):
                        self.assertEqual(packets(pcapfile.open(Some(compressed, most))), WANTED)
                    with self.path.open("rb") as file:
                        self.assertEqual(packets(pcapfile.open(file)), WANTED)

    def test_many_members(self):
        half = len(CLASSIC) // 2
        for compress in KINDS.values():
            self.path.write_bytes(compress(CLASSIC[:half]) + compress(CLASSIC[half:]))
            self.assertEqual(packets(pcapfile.open(self.path)), WANTED)

    def test_offsets_are_those_of_the_capture(self):
        with pcapfile.parse(CLASSIC) as plain, pcapfile.parse(gzip.compress(CLASSIC)) as capture:
            self.assertEqual([p.offset for p in capture], [p.offset for p in plain])

    def test_what_is_damaged_comes_behind_what_is_not(self):
        """The compressed bytes end early, or are changed: the packets before the damage come first, and then a CaptureError."""
        # The changed byte is one of a packet's data, always the same one.
        draw = random.Random(7)
        long = HEADER + b"".join(packet(n, 0, draw.randbytes(1000)) for n in range(2400))
        for name, compress in KINDS.items():
            whole = compress(long)
            changed = bytearray(whole)
            changed[len(whole) * 3 // 4] ^= 255
            for damaged in (whole[: len(whole) * 3 // 4], bytes(changed)):
                with self.subTest(name), self.assertRaises(pcapfile.CaptureError) as told:
                    got = []
                    with pcapfile.parse(damaged) as capture:
                        for each in capture:
                            got.append(each.seconds)
                self.assertEqual(got, list(range(len(got))))
                self.assertGreater(told.exception.offset, 0)

    def test_an_end_between_two_packets_is_told_too(self):
        # Each packet is its own gzip member, and the last member is truncated.
        data = gzip.compress(HEADER) + gzip.compress(packet(1, 0, b"abc")) + gzip.compress(packet(2, 0, b"abc"))[:-4]
        got = []
        with self.assertRaisesRegex(pcapfile.CaptureError, "end early"):
            for each in pcapfile.parse(data):
                got.append(each.seconds)
        self.assertEqual(got, [1, 2])

    def test_lenient_reading_gives_all_before_a_truncated_end(self):
        # The capture is damaged near its beginning. The search for the next packet reaches the truncated end.
        for front, one in (
            (HEADER, lambda n: packet(n, 0, b"abc")),
            (SECTION + INTERFACE, lambda n: enhanced(0, n * 10**6, b"abc")),
        ):
            data = front + one(0) + b"\xee" * 40 + b"".join(map(one, range(1, 100)))
            for name, compress in KINDS.items():
                got = []
                with self.subTest(name), self.assertRaisesRegex(pcapfile.CaptureError, "end early"):
                    for found in pcapfile.parse(compress(data)[:-4], strict=False, gaps=True):
                        got.append(found.length if isinstance(found, pcapfile.Gap) else found.seconds)
                self.assertEqual(got, [0, 40, *range(1, 100)])

    def test_they_come_once_and_have_neither_parts_nor_numbers(self):
        self.path.write_bytes(gzip.compress(CLASSIC))
        with pcapfile.open(self.path) as capture:
            self.assertTrue(capture.is_stream)
            self.assertEqual(len(list(capture)), 500)
            self.assertEqual(list(capture), [])
            self.assertRaises(ValueError, capture.indexed)
        self.assertRaisesRegex(ValueError, "compressed", pcapfile.parts, self.path, 2)

    def test_what_no_module_reads_says_which_one_does(self):
        for magic, module in ((b"\x28\xb5\x2f\xfd", "zstandard"), (b"\x04\x22\x4d\x18", "lz4")):
            hidden = {"zstandard": None, "lz4": None, "lz4.frame": None, "compression": None, "compression.zstd": None}
            with mock.patch.dict(sys.modules, hidden), self.assertRaisesRegex(ImportError, f"pip install {module}"):
                pcapfile.parse(magic + bytes(100))

    @unittest.skipUnless(importlib.util.find_spec("zstandard"), "zstandard is missing")
    def test_zstd(self):
        import zstandard

        self.assertEqual(packets(pcapfile.parse(zstandard.compress(CLASSIC))), WANTED)

    @unittest.skipUnless(importlib.util.find_spec("lz4"), "lz4 is missing")
    def test_lz4(self):
        import lz4.frame

        self.assertEqual(packets(pcapfile.parse(lz4.frame.compress(CLASSIC))), WANTED)

    def test_memory_that_is_held(self):
        """Reading never buffers all 64 MiB of a compressed capture."""
        with gzip.open(self.path, "wb", compresslevel=1) as file:
            file.write(HEADER)
            for n in range(1024):
                file.write(packet(n, 0, bytes(65520)))
        code = (
            "import gzip, sys, pcapfile, resource; before = resource.getrusage(resource.RUSAGE_SELF).ru_maxrss;"
            "count = sum(1 for _ in pcapfile.open(sys.argv[1]));"
            "print(count, resource.getrusage(resource.RUSAGE_SELF).ru_maxrss - before < 16384)"
        )
        told = subprocess.run([sys.executable, "-c", code, self.path], capture_output=True, text=True).stdout
        self.assertEqual(told, "1024 True\n")

    def test_the_stream_is_closed_with_the_capture(self):
        stream = io.BytesIO(gzip.compress(CLASSIC))
        pcapfile.open(stream).close()
        self.assertTrue(stream.closed)


if __name__ == "__main__":
    unittest.main()
