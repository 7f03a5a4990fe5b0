"""Tests of parts of captures. All parts together are the whole capture."""

import concurrent.futures
import multiprocessing
import os
import pickle
import subprocess
import sys
import tempfile
import unittest
from pathlib import Path

import pcapfile
from pcapfile import _columns, _stretches
from test_columns import NAMES
from test_pcapfile import HEADER, INTERFACE, SECTION, enhanced, interface, packet

MAKERS = Path(__file__).parents[2] / "tests" / "c"


def told(packets):
    """Returns the packets of a capture or of its parts, with the text and the offset of the error after them, or None."""
    got = []
    try:
        for it in packets:
            got.append(tuple(bytes(field) if isinstance(field, memoryview) else field for field in it))
    except pcapfile.CaptureError as error:
        return got, str(error), error.offset
    return got, None, None


def rows(batches):
    """Returns the rows of all columns, with the text and the offset of the error after them, or None."""
    got = []
    try:
        for columns in batches:
            got += zip(*(columns[name].tolist() for name in NAMES))
    except pcapfile.CaptureError as error:
        return got, str(error), error.offset
    return got, None, None


def joined(parts):
    for part in parts:
        yield from part


def columns_of(parts):
    for part in parts:
        yield from part.columns(7)


def count_of(part):
    return sum(1 for _ in part), os.getpid()


def refusal_in_a_process(path):
    """Returns the error of another process that walks over the whole capture."""
    processes = multiprocessing.get_context("spawn")
    with concurrent.futures.ProcessPoolExecutor(1, mp_context=processes) as pool:
        return told(pool.map(count_of, pcapfile.parts(path, 1)))[1:]


class Parts(unittest.TestCase):
    @classmethod
    def setUpClass(cls):
        cls.room = tempfile.TemporaryDirectory()
        cls.folder = Path(cls.room.name)
        for maker in ("captures.py", "block_captures.py"):
            subprocess.run([sys.executable, MAKERS / maker, cls.folder], check=True)
        cls.made = sorted(it for it in cls.folder.iterdir() if it.suffix != ".packets")

    @classmethod
    def tearDownClass(cls):
        cls.room.cleanup()

    def written(self, data):
        path = self.folder / "written"
        path.write_bytes(data)
        return path

    def test_joined_they_are_the_whole(self):
        cut = 0
        for path in self.made:
            try:
                capture = pcapfile.open(path)
            except pcapfile.CaptureError as error:
                for count in range(1, 10):
                    with self.assertRaises(type(error)) as refused:
                        pcapfile.parts(path, count)
                    self.assertEqual(str(refused.exception), str(error))
                continue
            with capture:
                packets, columns = told(capture), rows(capture.columns(7))
            for count in range(1, 10):
                with self.subTest(path.name, count=count):
                    parts = pcapfile.parts(path, count)
                    self.assertLessEqual(len(parts), count)
                    self.assertEqual(told(joined(parts)), packets)
                    self.assertEqual(rows(columns_of(parts)), columns)
                    self.assertEqual([it.end for it in parts[:-1]], [it.begin for it in parts[1:]])
                    self.assertEqual(parts[-1].end, path.stat().st_size)
                    cut += len(parts) > 1
        self.assertGreater(cut, 100)

    @unittest.skipIf(_columns.numpy is None, "numpy is missing")
    def test_threads_give_the_same_columns(self):
        for path in self.made:
            try:
                capture = pcapfile.open(path)
            except pcapfile.CaptureError:
                continue
            with capture, self.subTest(path.name):
                self.assertEqual(rows(capture.columns(7, threads=3)), rows(capture.columns(7)))

    @unittest.skipIf(_columns.numpy is None, "numpy is missing")
    def test_threads_in_short_stretches(self):
        data = HEADER + b"".join(packet(n, 0, bytes(n % 5)) for n in range(5000))
        known, _stretches._STRETCH = _stretches._STRETCH, 1000
        try:
            with pcapfile.parse(data) as capture:
                self.assertEqual(rows(capture.columns(threads=4)), rows(capture.columns()))
                batches = capture.columns(threads=4)
                next(batches)
            self.assertRaises(ValueError, lambda: list(capture.columns(threads=4)))
            batches.close()
        finally:
            _stretches._STRETCH = known

    def test_equal_parts(self):
        path = self.written(HEADER + b"".join(packet(n, 0, b"abcd") for n in range(90)))
        self.assertEqual([len(list(part)) for part in pcapfile.parts(path, 9)], [10] * 9)
        self.assertEqual([part.begin for part in pcapfile.parts(path, 3)], [24, 24 + 600, 24 + 1200])

    def test_a_packet_that_is_longer_than_a_share(self):
        path = self.written(HEADER + packet(1, 0, bytes(1000)) + packet(2, 0, b"a"))
        parts = pcapfile.parts(path, 9)
        self.assertEqual([[it.seconds for it in part] for part in parts], [[1], [2]])

    def test_parts_of_at_least_so_many_bytes(self):
        path = self.written(HEADER + b"".join(packet(n, 0, bytes(n % 40)) for n in range(300)))
        whole = told(pcapfile.open(path))
        size = path.stat().st_size - len(HEADER)

        def begins(wanted):
            """Returns where parts begin: at the first packet that is at least `wanted` bytes after the beginning of the previous
            part."""
            found, place = [len(HEADER)], len(HEADER)
            for n in range(300):
                if place - found[-1] >= wanted:
                    found.append(place)
                place += 16 + n % 40
            return found

        for at_least in (1, 55, 100, 1000, 6000, size, size + 1):
            for count in (None, 7):
                parts = pcapfile.parts(path, count, at_least=at_least)
                self.assertEqual(told(joined(parts)), whole)
                wanted = at_least if count is None else max(at_least, -(-path.stat().st_size // count))
                self.assertEqual([part.begin for part in parts], begins(wanted))
        self.assertEqual(len(pcapfile.parts(path, at_least=1)), 300)
        self.assertEqual(len(pcapfile.parts(path, 7, at_least=1)), 7)
        ng = SECTION + INTERFACE + b"".join(enhanced(0, n, bytes(4)) for n in range(9))
        parts = pcapfile.parts(self.written(ng), at_least=2 * 36)
        self.assertEqual([len(list(part)) for part in parts], [2, 2, 2, 2, 1])
        self.assertRaises(ValueError, pcapfile.parts, path)

    def test_a_torn_capture(self):
        path = self.written(HEADER + b"".join(packet(n, 0, b"abcd") for n in range(90))[:-1])
        *whole, last = pcapfile.parts(path, 4)
        self.assertEqual([told(part)[1] for part in whole], [None] * 3)
        packets, _, offset = told(last)
        self.assertEqual((packets[-1][0], offset), (88, 24 + 89 * 20))

    def test_an_empty_capture(self):
        self.assertRaises(pcapfile.Incomplete, pcapfile.parts, self.written(b""), 3)
        for data in (HEADER, SECTION):
            (only,) = pcapfile.parts(self.written(data), 3)
            self.assertEqual(list(only), [])

    def test_many_interfaces(self):
        head = SECTION + b"".join(interface(link=n) for n in range(200))
        path = self.written(head + b"".join(enhanced(n, n, b"abc") for n in range(200)))
        parts = pcapfile.parts(path, 9)
        self.assertEqual([it.link for it in joined(parts)], list(range(200)))
        self.assertEqual(len(parts[-1].stretch.interfaces), 200)

    def test_they_pickle(self):
        path = self.written(SECTION + INTERFACE + b"".join(enhanced(0, n, b"abc") for n in range(100)))
        parts = pcapfile.parts(path, 5)
        self.assertEqual(pickle.loads(pickle.dumps(parts)), parts)
        processes = multiprocessing.get_context("spawn")
        with concurrent.futures.ProcessPoolExecutor(2, mp_context=processes) as pool:
            counts = list(pool.map(count_of, parts))
        self.assertEqual(sum(count for count, _ in counts), 100)
        self.assertNotIn(os.getpid(), [process for _, process in counts])

    def test_refusals_pickle(self):
        good, broken = packet(1, 0, b"abc"), interface(options=b"\2\0\1\0\xff\0\0\0")
        rows = [
            (HEADER + good + good[:-1], "1 bytes are missing (at byte 43)", 43),
            (HEADER + packet(1, 2**32 - 1, b""), "FractionTooLarge: PacketHeader ts_usec * 1000 > 0xFFFFFFFF (at byte 24)", 24),
            (SECTION + broken, "a string in the block is not UTF-8 (at byte 28)", 28),
        ]
        for data, text, offset in rows:
            self.assertEqual(refusal_in_a_process(self.written(data)), (text, offset))

    def test_data_outlives_the_walk(self):
        path = self.written(HEADER + packet(1, 0, b"abc") + packet(2, 0, b"defg"))
        kept = [it.data for it in joined(pcapfile.parts(path, 2))]
        self.assertEqual([bytes(data) for data in kept], [b"abc", b"defg"])

    def test_what_has_no_parts(self):
        path = self.written(HEADER)
        self.assertRaises(ValueError, pcapfile.parts, path, 0)
        reading, writing = os.pipe()
        try:
            self.assertRaises(ValueError, pcapfile.parts, f"/dev/fd/{reading}", 2)
        finally:
            os.close(reading)
            os.close(writing)


if __name__ == "__main__":
    unittest.main()
