"""Tests of captures in files: how the package reads them, what happens if a file changes, and how files are named."""

import errno
import io
import mmap
import os
import subprocess
import sys
import tempfile
import unittest
from pathlib import Path

import pcapfile
from test_pcapfile import HEADER, INTERFACE, SECTION, enhanced, packet

CLASSIC = HEADER + b"".join(packet(n, 0, bytes([n % 256]) * 1000) for n in range(2000))
BLOCKS = SECTION + INTERFACE + b"".join(enhanced(0, n * 10**6, bytes([n % 256]) * 1000) for n in range(2000))


class Files(unittest.TestCase):
    def setUp(self):
        room = tempfile.TemporaryDirectory()
        self.addCleanup(room.cleanup)
        self.folder = Path(room.name)

    def written(self, data, name="capture"):
        path = self.folder / name
        path.write_bytes(data)
        return path

    def test_each_packet_of_a_long_file(self):
        for data in (CLASSIC, BLOCKS):
            with pcapfile.open(self.written(data)) as capture:
                for _ in range(2):
                    wanted = [(n, bytes([n % 256]) * 1000) for n in range(2000)]
                    self.assertEqual([(p.seconds, bytes(p.data)) for p in capture], wanted)

    def test_a_packet_longer_than_what_is_read_at_once(self):
        long = bytes(range(256)) * 20_000
        data = SECTION + INTERFACE + enhanced(0, 1, b"abc") + enhanced(0, 2, long) + enhanced(0, 3, b"def")
        with pcapfile.open(self.written(data)) as capture:
            self.assertEqual([bytes(p.data) for p in capture], [b"abc", long, b"def"])

    def test_a_file_that_becomes_shorter_is_incomplete(self):
        """The file is truncated within a packet or between two packets: a walk returns the packets that are left, and then raises
        an error."""
        for data, begin, each in ((CLASSIC, len(HEADER), 1016), (BLOCKS, len(SECTION + INTERFACE), 1032)):
            for cut in (begin + 1500 * each, begin + 1500 * each + 100):
                for walk in (iter, lambda capture: capture.pairs(), lambda capture: capture.columns(7)):
                    path = self.written(data)
                    with pcapfile.open(path) as capture:
                        walking, count = walk(capture), 0
                        with self.assertRaises(pcapfile.Incomplete) as told:
                            for _ in walking:
                                if count == 0:
                                    os.truncate(path, cut)
                                count += 1
                    self.assertIn(count, (1500, 215))  # packets, or batches of seven: 214 full ones, and one with the last two packets
                    self.assertEqual(told.exception.offset, begin + 1500 * each)

    def test_a_file_that_is_cut_to_nothing(self):
        path = self.written(CLASSIC)
        code = (
            "import os, sys, pcapfile\n"
            "with pcapfile.open(sys.argv[1]) as capture:\n"
            "    packets = iter(capture)\n"
            "    next(packets)\n"
            "    os.truncate(sys.argv[1], 0)\n"
            "    try:\n"
            "        list(packets)\n"
            "    except pcapfile.Incomplete as error:\n"
            "        print(error.offset > 0)\n"
        )
        ran = subprocess.run([sys.executable, "-c", code, path], capture_output=True, text=True)
        self.assertEqual((ran.returncode, ran.stdout, ran.stderr), (0, "True\n", ""))

    @unittest.skipUnless(os.path.exists("/proc/self/maps"), "there is no /proc")
    def test_no_file_is_mapped(self):
        with pcapfile.open(self.written(CLASSIC)) as capture:
            kept = [p.data for p in capture][::1000]
            self.assertNotIn(str(self.folder), Path("/proc/self/maps").read_text())
        self.assertEqual([bytes(data[:1]) for data in kept], [b"\0", bytes([1000 % 256])])

    @unittest.skipUnless(os.path.exists("/proc/self/status"), "there is no /proc")
    def test_memory_that_is_held(self):
        """A walk over 64 MiB needs only a few buffers."""
        path = self.folder / "large"
        with path.open("wb") as file:
            file.write(HEADER)
            for n in range(1024):
                file.write(packet(n, 0, bytes(65520)))
        code = (
            "import sys, pcapfile, resource; before = resource.getrusage(resource.RUSAGE_SELF).ru_maxrss;"
            "count = sum(1 for _ in pcapfile.open(sys.argv[1]));"
            "print(count, resource.getrusage(resource.RUSAGE_SELF).ru_maxrss - before < 8192)"
        )
        told = subprocess.run([sys.executable, "-c", code, path], capture_output=True, text=True).stdout
        self.assertEqual(told, "1024 True\n")

    @unittest.skipUnless(os.path.exists("/proc/self/fd"), "there is no /proc")
    def test_descriptors_are_given_back(self):
        path, before = self.written(BLOCKS), len(os.listdir("/proc/self/fd"))
        for _ in range(50):
            with pcapfile.open(path) as capture:
                next(iter(capture))
                next(capture.columns())
                capture.interfaces
        self.assertEqual(len(os.listdir("/proc/self/fd")), before)

    def test_the_descriptor_of_a_closed_file_is_not_read(self):
        """Another file is opened under the descriptor of the closed file. The walk does not read it."""
        path, other = self.written(CLASSIC), self.written(HEADER + packet(7, 0, bytes(5000)) * 200, "other")
        capture = pcapfile.open(path)
        packets = iter(capture)
        next(packets)
        capture.close()
        with open(other, "rb"):
            with self.assertRaises(ValueError):
                list(packets)

    def test_a_mapping_stays_open(self):
        path = self.written(CLASSIC)
        with path.open("rb") as file, mmap.mmap(file.fileno(), 0, access=mmap.ACCESS_READ) as mapping:
            with pcapfile.parse(mapping) as capture:
                self.assertEqual(sum(1 for _ in capture), 2000)
            self.assertFalse(mapping.closed)
            self.assertEqual(mapping[:4], HEADER[:4])

    def test_data_stays_after_closing(self):
        for opened in (lambda: pcapfile.parse(CLASSIC), lambda: pcapfile.open(self.written(CLASSIC)), lambda: pcapfile.open(io.BytesIO(CLASSIC))):
            capture = opened()
            kept = [packet.data for packet in capture]
            capture.close()
            del capture
            self.assertEqual([bytes(data) for data in kept], [bytes([n % 256]) * 1000 for n in range(2000)])

    def test_memory_that_packets_lie_in_keeps_its_length(self):
        data = bytearray(CLASSIC)
        with pcapfile.parse(data) as capture:
            first = next(iter(capture))
        with self.assertRaises(BufferError):
            data.append(0)
        del first, capture
        data.append(0)

    def test_bytes_of_a_bytearray_can_be_changed_where_they_lie(self):
        data = bytearray(HEADER + packet(1, 2, b"abc"))
        with pcapfile.parse(data) as capture:
            for each in capture:
                each.data[0:1] = b"x"
        self.assertEqual(data[-3:], b"xbc")

    def test_names_of_any_bytes(self):
        name = os.path.join(os.fsencode(self.folder), b"\xff\xfe capture")
        for named in (name, os.fsdecode(name)):
            try:
                writer = pcapfile.Writer(named)
            except OSError as error:
                if error.errno == errno.EILSEQ:
                    self.skipTest("the file system takes no such name")
                raise
            with writer:
                writer.write(b"abc", 5)
                writer.write(b"def", 6)
            with pcapfile.open(named) as capture:
                self.assertEqual([bytes(p.data) for p in capture], [b"abc", b"def"])
            self.assertEqual([bytes(p.data) for part in pcapfile.parts(named, 2) for p in part], [b"abc", b"def"])

    def test_a_descriptor(self):
        path = self.written(CLASSIC)
        with pcapfile.open(os.open(path, os.O_RDONLY)) as capture:
            self.assertEqual(sum(1 for _ in capture), 2000)


if __name__ == "__main__":
    unittest.main()
