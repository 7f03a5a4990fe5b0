"""Tests of the optional columns. Each expected value follows from the bytes beside it."""

import datetime
import io
import struct
import tempfile
import unittest
from pathlib import Path

import pcapfile
from pcapfile import _columns, _stretches
from test_columns import NONE, option
from test_pcapfile import HEADER, INTERFACE, SECTION, block, enhanced, interface, packet

try:
    import pandas
except ImportError:
    pandas = None

ETH0 = interface(1, 0, option(2, b"eth0") + option(0, b""))
WLAN = interface(1, 0, option(2, b"wlan") + option(0, b""))
UTC = datetime.timezone.utc

# Two sections whose interfaces have different names. One interface has no name, one does not exist, and one is described late.
SECTIONS = b"".join(
    [
        SECTION + ETH0 + INTERFACE + enhanced(0, 1, b"a") + enhanced(1, 2, b"bc") + enhanced(2, 3, b"") + WLAN + enhanced(2, 4, b"defg"),
        SECTION + WLAN + enhanced(0, 5, b"h") + enhanced(1, 6, b"ij"),
    ]
)
NAMES = ["eth0", None, None, "wlan", "wlan", None]
BYTES = [b"a", b"bc", b"", b"defg", b"h", b"ij"]


def told(batches, *names):
    """Returns the values of these columns over all batches. The values of `data` are the bytes of each packet."""
    got = {name: [] for name in names}
    for columns in batches:
        for name in names:
            if name == "data":
                ends = list(columns["data_offsets"])
                got[name] += [bytes(columns["data"][begin:end]) for begin, end in zip(ends, ends[1:])]
                assert ends[-1] == len(columns["data"]) and ends[0] == 0
            else:
                got[name] += list(columns[name])
    return list(got.values())


class Extras(unittest.TestCase):
    """Each test runs with numpy, if it is installed, and without numpy."""

    def setUp(self):
        folder = tempfile.TemporaryDirectory()
        self.addCleanup(folder.cleanup)
        self.path = Path(folder.name, "capture")

    def both(self, data, names, wanted, batches=(65536, 2, 1), /, **words):
        """Checks the columns of a capture in memory, in a file, and from a stream."""
        self.path.write_bytes(data)
        known = _columns.numpy
        for there in {known, None}:
            _columns.numpy = there
            try:
                for opened in (lambda: pcapfile.parse(data), lambda: pcapfile.open(self.path), lambda: pcapfile.open(io.BytesIO(data))):
                    for batch in batches:
                        with self.subTest(numpy=there is not None, batch=batch), opened() as capture:
                            self.assertEqual(told(capture.columns(batch, **words), *names), wanted)
            finally:
                _columns.numpy = known

    def test_names(self):
        self.both(SECTIONS, ["interface_name", "time_ns"], [NAMES, [1000, 2000, NONE, 4000, 5000, NONE]], names=True)

    def test_names_of_a_classic_capture(self):
        self.both(HEADER + packet(1, 0, b"a"), ["interface_name", "len"], [[None], [1]], names=True)

    def test_data(self):
        self.both(SECTIONS, ["data", "len"], [BYTES, list(map(len, BYTES))], data=True)
        many = [bytes([n % 256]) * (n % 50) for n in range(3000)]
        self.both(HEADER + b"".join(packet(n, 0, each, 99) for n, each in enumerate(many)), ["data"], [many], [1000], data=True)

    def test_data_of_simple_packets(self):
        # The bytes after the first two are padding.
        data = SECTION + INTERFACE + block(3, struct.pack("<I", 2) + b"ab\xff\xff") + enhanced(0, 7, b"c")
        self.both(data, ["data", "time_ns"], [[b"ab", b"c"], [NONE, 7000]], data=True)

    def test_times(self):
        whole = HEADER + b"".join(packet(n, 500_000, bytes([n]) * n) for n in range(10))
        self.both(whole, ["time_ns"], [[n * 10**9 + 5 * 10**8 for n in range(3, 7)]], since=3.5, until=7.5)
        eight = datetime.datetime(1970, 1, 1, 0, 0, 8, tzinfo=UTC)
        self.both(whole, ["data", "len"], [[bytes([n]) * n for n in (8, 9)], [8, 9]], data=True, since=eight)
        self.both(whole, ["len"], [[0, 1]], until=2)
        self.both(whole, ["len"], [[]], since=10**30)
        self.both(whole, ["len"], [list(range(10))], since=-(10**30), until=10**30)

    def test_packets_without_a_time(self):
        wanted = [[b"a", b"bc", b"defg", b"h"], ["eth0", None, "wlan", "wlan"]]
        self.both(SECTIONS, ["data", "interface_name"], wanted, data=True, names=True, since=0)

    def test_a_time_without_a_zone(self):
        with self.assertRaises(ValueError):
            pcapfile.parse(HEADER).columns(since=datetime.datetime(2020, 1, 1))

    def test_no_packets(self):
        self.both(HEADER, ["data", "interface_name"], [[], []], data=True, names=True)

    def test_before_a_refusal(self):
        with pcapfile.parse(SECTIONS + b"\0" * 12) as capture:
            got = []
            with self.assertRaises(pcapfile.Invalid):
                for columns in capture.columns(data=True, names=True):
                    got.append(columns)
        self.assertEqual(told(got, "data", "interface_name"), [BYTES, NAMES])

    def test_as_they_stand(self):
        known = _columns.numpy
        for there in {known, None}:
            _columns.numpy = there
            try:
                with pcapfile.parse(SECTIONS, strict=False) as capture:
                    self.assertEqual(told(capture.columns(data=True, names=True, until=4e-6), "data"), [[b"a", b"bc"]])
            finally:
                _columns.numpy = known

    @unittest.skipIf(_columns.numpy is None, "numpy is missing")
    def test_threads(self):
        named = [interface(1, 0, option(2, b"if%d" % n) + option(0, b"")) for n in range(40)]
        data = SECTION + b"".join(named) + b"".join(enhanced(n % 40, n * 1_000_000, bytes([n % 256]) * (n % 60)) for n in range(20000))
        stretch, _stretches._STRETCH = _stretches._STRETCH, 50_000
        try:
            with pcapfile.parse(data) as capture:
                got = told(capture.columns(threads=3, names=True, data=True, since=100, until=19000), "interface_name", "data", "time_ns")
        finally:
            _stretches._STRETCH = stretch
        chosen = range(100, 19000)
        self.assertEqual(got[0], [f"if{n % 40}" for n in chosen])
        self.assertEqual(got[1], [bytes([n % 256]) * (n % 60) for n in chosen])
        self.assertEqual(got[2], [n * 10**9 for n in chosen])

    @unittest.skipIf(_columns.numpy is None, "numpy is missing")
    def test_threads_over_interfaces_that_differ_by_their_names(self):
        packets = b"".join(enhanced(0, n, bytes(60)) for n in range(2000))
        with pcapfile.parse(SECTION + ETH0 + packets + SECTION + WLAN + packets) as capture:
            (names,) = told(capture.columns(threads=3, names=True), "interface_name")
        self.assertEqual(names, ["eth0"] * 2000 + ["wlan"] * 2000)

    @unittest.skipIf(pandas is None, "pandas is missing")
    def test_pandas(self):
        for opened in (pcapfile.parse, lambda data: pcapfile.open(io.BytesIO(data))):
            frame = opened(SECTIONS).to_pandas(names=True, decode=True, since=2e-6)
            self.assertEqual(frame["len"].tolist(), [2, 4, 1])
            self.assertEqual(frame["interface_name"].isna().tolist(), [True, False, False])
            self.assertEqual(frame["interface_name"].tolist()[1:], ["wlan", "wlan"])
            decoded = ["source", "destination", "source_port", "destination_port", "protocol"]
            self.assertEqual(list(frame.columns[-6:]), ["interface_name", *decoded])
        self.assertEqual(len(pcapfile.parse(HEADER).to_pandas(names=True)), 0)


if __name__ == "__main__":
    unittest.main()
