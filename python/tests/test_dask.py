"""Tests of captures as DataFrames of dask."""

import os
import shutil
import subprocess
import tempfile
import unittest
from pathlib import Path

import pcapfile
from test_pcapfile import HEADER, INTERFACE, NANOSECONDS, SECTION, block, enhanced, packet

try:
    import dask
    import pandas

    import pcapfile.dask
except ImportError:
    dask = None
try:
    import distributed
except ImportError:
    distributed = None


@unittest.skipIf(dask is None, "dask or pandas is missing")
class Frames(unittest.TestCase):
    def setUp(self):
        self.room = tempfile.TemporaryDirectory()
        self.addCleanup(self.room.cleanup)
        # Every other packet has no data. At the end of a part, its data begins where the next part begins.
        classic = HEADER + b"".join(packet(n, 0, bytes(n % 2)) for n in range(40))
        blocks = SECTION + INTERFACE + b"".join(enhanced(0, n, bytes(n % 5)) for n in range(60))
        self.paths = [self.written("a.pcap", classic), self.written("b.pcapng", blocks + block(3, bytes(4)))]
        self.sizes = [len(classic), len(blocks) + 16]

    def written(self, name, data):
        path = Path(self.room.name, name)
        path.write_bytes(data)
        return path

    def whole(self):
        """Returns the DataFrame of one process."""
        frames, base = [], 0
        for path, size in zip(self.paths, self.sizes):
            with pcapfile.open(path) as capture:
                frame = capture.to_pandas()
            frames.append(frame.set_index(pandas.Index(frame["offset"].astype("int64") + base, name="at")))
            base += size
        return pandas.concat(frames)

    def test_the_parts_are_the_whole(self):
        for parts in (1, 2, 7, 40):
            frame = pcapfile.dask.read(self.paths, parts)
            self.assertTrue(frame.known_divisions)
            pandas.testing.assert_frame_equal(frame.compute(scheduler="synchronous"), self.whole())
        self.assertEqual(len(frame), 101)
        self.assertEqual(frame.divisions[-1], sum(self.sizes))

    def test_each_partition_lies_within_its_divisions(self):
        frame = pcapfile.dask.read(self.paths, 20)
        self.assertGreater(frame.npartitions, 30)
        for n in range(frame.npartitions):
            index = frame.get_partition(n).compute(scheduler="synchronous").index
            self.assertTrue(((frame.divisions[n] <= index) & (index < frame.divisions[n + 1])).all())

    def test_one_path(self):
        self.assertEqual(len(pcapfile.dask.read(str(self.paths[0]))), 40)

    def test_patterns(self):
        pattern = os.path.join(self.paths[0].parent, "*.pcap*")
        self.assertEqual(len(pcapfile.dask.read(pattern)), len(pcapfile.dask.read(sorted(self.paths))))
        with self.assertRaises(FileNotFoundError):
            pcapfile.dask.read(os.path.join(self.paths[0].parent, "none*"))

    def test_a_refusal_comes_through(self):
        frame = pcapfile.dask.read(self.written("c.pcap", HEADER + packet(1, 0, b"abc") + packet(2, 0, b"d")[:-1]), 3)
        with self.assertRaises(pcapfile.Incomplete) as refused:
            frame.compute(scheduler="synchronous")
        self.assertEqual(refused.exception.offset, 43)

    @unittest.skipIf(distributed is None, "distributed is missing")
    def test_a_cluster(self):
        with distributed.LocalCluster(3, threads_per_worker=1, dashboard_address=None) as cluster, distributed.Client(cluster):
            frame = pcapfile.dask.read(self.paths, 9).compute()
        pandas.testing.assert_frame_equal(frame, self.whole())

    def twenty(self):
        """Makes ten captures of each format, with different lengths, times and interfaces."""
        for n in range(10):
            classic = b"".join(packet(1_600_000_000 + m, 1000 * n + m, bytes(m * n % 97), 97 + m) for m in range(60))
            yield self.written(f"{n}.pcap", HEADER + classic)
            blocks = b"".join(enhanced(m % 2, 10**14 * (n + 1) + 12_345 * m, bytes(m * n % 53)) for m in range(60))
            yield self.written(f"{n}.pcapng", SECTION + INTERFACE + NANOSECONDS + blocks)

    @unittest.skipIf(distributed is None, "distributed is missing")
    def test_twenty_files_on_three_workers(self):
        self.paths = list(self.twenty())
        self.sizes = [path.stat().st_size for path in self.paths]
        with distributed.LocalCluster(3, threads_per_worker=1, dashboard_address=None) as cluster, distributed.Client(cluster):
            frame = pcapfile.dask.read(self.paths, 5).compute()
        pandas.testing.assert_frame_equal(frame, self.whole())
        if shutil.which("tshark"):
            columns = (frame[name] for name in ("time", "len", "orig_len", "interface"))
            rows = [(time.value, *others) for time, *others in zip(*columns)]
            self.assertEqual(rows, [row for path in self.paths for row in told_by_tshark(path)])


def told_by_tshark(path):
    """Iterates over what tshark prints: time in nanoseconds, stored and original length, and interface, or 0 for none."""
    fields = ["frame.time_epoch", "frame.cap_len", "frame.len", "frame.interface_id"]
    command = ["tshark", "-n", "-r", path, "-T", "fields", *(word for field in fields for word in ("-e", field))]
    lines = subprocess.run(command, check=True, capture_output=True, text=True).stdout.splitlines()
    for time, stored, original, interface in (line.split("\t") for line in lines):
        yield int(time.replace(".", "")), int(stored), int(original), int(interface or 0)


@unittest.skipIf(dask is not None, "dask is there")
class Missing(unittest.TestCase):
    def test_it_says_what_to_install(self):
        with self.assertRaisesRegex(ImportError, "dask"):
            import pcapfile.dask  # noqa: F401


if __name__ == "__main__":
    unittest.main()
