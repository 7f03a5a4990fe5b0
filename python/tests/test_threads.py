"""Tests of columns by several threads. Whatever the guesses are, the columns are those of one walk."""

import struct
import subprocess
import sys
import tempfile
import unittest
from pathlib import Path
from unittest import mock

import pcapfile
from pcapfile import _columns, _source, _stretches, _windows
from test_parts import MAKERS, rows
from test_pcapfile import HEADER, INTERFACE, NANOSECONDS, SECTION, block, enhanced, packet

try:
    import pandas
except ImportError:
    pandas = None

# A capture that another capture contains, so bytes inside packets look like packets in a row.
SENT = b"".join(packet(n, 0, bytes([n % 256]) * 60) for n in range(200))
SENT_BLOCKS = b"".join(enhanced(0, n, bytes(60)) for n in range(200))

CAPTURES = {
    "packets": HEADER + b"".join(packet(1_600_000_000 + n, n, bytes(n % 300)) for n in range(2000)),
    "packets in packets": HEADER + b"".join(packet(n, n, SENT[n % 76 :]) for n in range(20)),
    "one long packet": HEADER + packet(1, 2, b"abc") + packet(3, 4, bytes(200_000)) + packet(5, 6, b"abc"),
    "a torn end": (HEADER + b"".join(packet(n, 0, bytes(n % 300)) for n in range(1000)))[:-1],
    "a broken packet": HEADER + b"".join(packet(n, 0, bytes(99), 99 if n != 700 else 98) for n in range(1000)),
    "blocks": SECTION + INTERFACE + b"".join(enhanced(0, n, bytes(n % 300)) for n in range(2000)),
    "blocks in blocks": SECTION + INTERFACE + b"".join(enhanced(0, n, SENT_BLOCKS[n % 23 * 4 :]) for n in range(20)),
    "simple packets": SECTION + INTERFACE + b"".join(block(3, struct.pack("<I", 90) + bytes(92)) for n in range(500)),
    "interfaces among packets": SECTION
    + b"".join((NANOSECONDS if n % 400 == 0 else b"") + enhanced(n // 400, n, bytes(n % 300)) for n in range(2000)),
    "sections": b"".join(
        SECTION + (INTERFACE if n % 2 else NANOSECONDS) + b"".join(enhanced(0, m, bytes(m % 100)) for m in range(n * 50))
        for n in range(1, 9)
    ),
    "a packet that can't be read": SECTION + INTERFACE + b"".join(enhanced(0, n, bytes(n % 300)) for n in range(500))
    + block(6, bytes(8)) + b"".join(enhanced(0, n, bytes(n % 300)) for n in range(500)),
    "a broken block": SECTION + INTERFACE + SENT_BLOCKS + struct.pack("<IIII", 99, 16, 0, 20) + SENT_BLOCKS,
    "a torn block": (SECTION + INTERFACE + SENT_BLOCKS * 5)[:-1],
}


@unittest.skipIf(_columns.numpy is None, "numpy is missing")
class Threads(unittest.TestCase):
    def setUp(self):
        room = tempfile.TemporaryDirectory()
        self.addCleanup(room.cleanup)
        self.folder = Path(room.name)
        small = ((_stretches, "_STRETCH", 1000), (_stretches, "PIECE_OF_MANY", 512), (_source, "PIECE", 256), (_windows, "PAGE", 16))
        for module, name, value in small:
            patch = mock.patch.object(module, name, value)
            patch.start()
            self.addCleanup(patch.stop)

    def test_they_are_those_of_one_walk(self):
        for name, data in CAPTURES.items():
            path = self.folder / "capture"
            path.write_bytes(data)
            with pcapfile.parse(data) as capture:
                one = rows(capture.columns())
                packets = [p.offset for p in before_refusal(capture)]
            self.assertEqual([row[-1] for row in one[0]], packets)
            for opened, threads in ((pcapfile.parse, 3), (pcapfile.open, 1), (pcapfile.open, 3), (pcapfile.open, 8)):
                with self.subTest(name, opened=opened.__name__, threads=threads):
                    with opened(data if opened is pcapfile.parse else path) as capture:
                        self.assertEqual(rows(capture.columns(7, threads)), one)

    def test_files_of_all_kinds(self):
        for maker in ("captures.py", "block_captures.py"):
            subprocess.run([sys.executable, MAKERS / maker, self.folder], check=True)
        walked = 0
        for path in sorted(it for it in self.folder.iterdir() if it.suffix != ".packets"):
            try:
                with pcapfile.parse(path.read_bytes()) as capture:
                    one = rows(capture.columns())
            except pcapfile.CaptureError:
                continue
            for threads in (1, 2, 5):
                with self.subTest(path.name, threads=threads), pcapfile.open(path) as capture:
                    self.assertEqual(rows(capture.columns(7, threads)), one)
                    walked += 1
        self.assertGreater(walked, 60)

    def guesses(self, data):
        """Returns where stretches are guessed to begin, and where packets do begin."""
        source = _source.Memory(data)
        capture = pcapfile._open.capture_of(source)
        walk = capture._walk()
        begin = walk.window.offset
        seems = walk.ahead(source.read(begin, len(data)))
        guessed = [first for first, _ in _stretches._guessed(seems, source, begin, len(data), 3)][1:]
        head = 28 if data.startswith(SECTION) else 16
        return guessed, {p.offset - head for p in capture}

    def test_a_guess_is_mostly_right(self):
        for name in ("packets", "blocks"):
            guessed, bounds = self.guesses(CAPTURES[name])
            self.assertGreater(len(guessed), 100)
            self.assertLessEqual(set(guessed), bounds)

    def test_a_guess_can_be_wrong(self):
        for name in ("packets in packets", "blocks in blocks"):
            guessed, bounds = self.guesses(CAPTURES[name])
            self.assertGreater(len(set(guessed) - bounds), 10)

    @unittest.skipIf(pandas is None, "pandas is missing")
    def test_frames(self):
        path = self.folder / "capture"
        path.write_bytes(CAPTURES["blocks"])
        for threads in (1, 4):
            with pcapfile.open(path) as capture:
                self.assertEqual(capture.to_pandas(threads)["len"].tolist(), [n % 300 for n in range(2000)])

    def test_a_closed_file(self):
        path = self.folder / "capture"
        path.write_bytes(CAPTURES["packets"])
        with pcapfile.open(path) as capture:
            columns = capture.columns(7)
            next(columns)
        self.assertRaises(ValueError, list, columns)


def before_refusal(capture):
    try:
        yield from capture
    except pcapfile.CaptureError:
        pass


if __name__ == "__main__":
    unittest.main()
