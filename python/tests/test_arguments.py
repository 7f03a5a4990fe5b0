"""Tests of wrong arguments. Each call raises a TypeError or a ValueError, whose message begins with the argument's name."""

import asyncio
import datetime
import io
import os
import struct
import tempfile
import unittest

import pcapfile
from test_pages import has
from test_pcapfile import HEADER, INTERFACE, SECTION, enhanced, packet

CLASSIC, BLOCKS = HEADER + packet(5, 0, b"abc"), SECTION + INTERFACE + enhanced(0, 7_000_000, b"abc")


def written(**words):
    """Returns a Writer to memory with these parameters."""
    return pcapfile.Writer(io.BytesIO(), **words)


# The calls with a wrong argument: the call, the argument's name, and the type of the error. Each call has a capture and a Writer.
OF_CAPTURES = [
    (lambda capture, _: list(capture.columns("a")), "batch", TypeError),
    (lambda capture, _: list(capture.columns(0)), "batch", ValueError),
    (lambda capture, _: list(capture.columns(5, None)), "threads", TypeError),
    (lambda capture, _: list(capture.columns(5, -1)), "threads", ValueError),
    (lambda capture, _: list(capture.columns(since="2020-01-01")), "since", TypeError),
    (lambda capture, _: list(capture.columns(until=[])), "until", TypeError),
    (lambda capture, _: capture.filter(5), "expression", TypeError),
    (lambda capture, _: capture.filter(since="5"), "since", TypeError),
    (lambda capture, _: capture.filter(since=float("nan")), "since", ValueError),
    (lambda capture, _: capture.filter(until=float("inf")), "until", ValueError),
    (lambda capture, _: capture.filter(until=datetime.datetime(2020, 1, 1)), "until", ValueError),
    (lambda capture, _: capture.indexed()["a"], "number", TypeError),
    (lambda capture, _: capture.indexed()[1.5], "number", TypeError),
    (lambda capture, _: capture.bytes_at(5), "place", TypeError),
    (lambda capture, _: capture.bytes_at(slice(0, 5, 2)), "place", ValueError),
    (lambda capture, writer: writer.write("abc", 1), "data", TypeError),
    (lambda capture, writer: writer.write(None, 1), "data", TypeError),
    (lambda capture, writer: writer.write(memoryview(b"abcd")[::2], 1), "data", TypeError),
    (lambda capture, writer: writer.write(b"abc", None), "seconds", TypeError),
    (lambda capture, writer: writer.write(b"abc", "1.5"), "seconds", TypeError),
    (lambda capture, writer: writer.write(b"abc", float("nan")), "seconds", ValueError),
    (lambda capture, writer: writer.write(b"abc", datetime.datetime(2020, 1, 1)), "seconds", ValueError),
    (lambda capture, writer: writer.write(b"abc", time_ns=1.5), "time_ns", TypeError),
    (lambda capture, writer: writer.write(b"abc", 1, time_ns=1), "time_ns", ValueError),
    (lambda capture, writer: writer.write(b"abc", 1, comment=b"c"), "comment", TypeError),
    (lambda capture, writer: writer.write(b"abc", 1, options=[(0, b"")]), "the code of an option", ValueError),
    (lambda capture, writer: writer.write(b"abc", 1, options=[(1, bytes(65536))]), "the value of an option", ValueError),
    (lambda capture, writer: writer.write(b"abc", 1, options=[(1, 5)]), "the value of an option", TypeError),
    (lambda capture, writer: writer.write(next(iter(capture)), 1), "data", ValueError),
    (lambda capture, writer: writer.write(b"abc", -1), "seconds", ValueError),
    (lambda capture, writer: writer.write(b"abc", 2**64), "seconds", ValueError),
    (lambda capture, writer: writer.write(b"abc", 1, "5"), "nanoseconds", TypeError),
    (lambda capture, writer: writer.write(b"abc", 1, 10**9), "nanoseconds", ValueError),
    (lambda capture, writer: writer.write(b"abc", 1, original_length=2.0), "original_length", TypeError),
    (lambda capture, writer: writer.write(b"abc", 1, original_length=2**32), "original_length", ValueError),
    (lambda capture, writer: writer.write(b"abc", 1, interface="eth0"), "interface", TypeError),
    (lambda capture, writer: writer.write(b"abc", 1, interface=-1), "interface", ValueError),
    (lambda capture, writer: writer.add_interface("ethernet"), "link", TypeError),
    (lambda capture, writer: writer.add_interface(1, -1), "snaplen", ValueError),
    (lambda capture, writer: writer.write_packet(5), "packet", TypeError),
    (lambda capture, writer: writer.write_packet(b"abc"), "packet", TypeError),
    (lambda capture, writer: writer.write_rows(5, capture), "rows", TypeError),
    (lambda capture, writer: writer.write_rows({"time_ns": [5], "len": [3]}, capture), "rows", ValueError),
    (lambda capture, writer: writer.write_rows({}, "capture.pcap"), "source", TypeError),
]

# Other calls with a wrong argument.
OTHERS = [
    (lambda: pcapfile.parse("capture.pcap"), "data", TypeError),
    (lambda: pcapfile.parse(None), "data", TypeError),
    (lambda: pcapfile.open(None), "file", TypeError),
    (lambda: pcapfile.open(io.StringIO("abc")), "file", TypeError),
    (lambda: pcapfile.open(5, follow=True), "file", TypeError),
    (lambda: asyncio.run(pcapfile.aopen(None)), "source", TypeError),
    (lambda: pcapfile.parts(None, 4), "path", TypeError),
    (lambda: pcapfile.parts(0, 4), "path", TypeError),
    (lambda: pcapfile.parts("capture.pcap", "4"), "count", TypeError),
    (lambda: pcapfile.parts("capture.pcap", 0), "count", ValueError),
    (lambda: pcapfile.parts("capture.pcap", at_least="4"), "at_least", TypeError),
    (lambda: pcapfile.parts("capture.pcap", at_least=-4), "at_least", ValueError),
    (lambda: pcapfile.link_type("1"), "number", TypeError),
    (lambda: pcapfile.fcs_len(2**32), "number", ValueError),
    (lambda: pcapfile.Writer(None), "file", TypeError),
    (lambda: pcapfile.Writer(io.StringIO()), "file", TypeError),
    (lambda: pcapfile.Writer(io.BytesIO(), append=True), "file", TypeError),
    (lambda: pcapfile.Writer("out.pcap", max_bytes="5"), "max_bytes", TypeError),
    (lambda: pcapfile.Writer("out.pcap", max_bytes=0), "max_bytes", ValueError),
    (lambda: pcapfile.Writer("out.pcap", max_seconds="5"), "max_seconds", TypeError),
    (lambda: pcapfile.Writer("out.pcap", max_seconds=0), "max_seconds", ValueError),
    (lambda: written(format="pca"), "format", ValueError),
    (lambda: written(byteorder="middle"), "byteorder", ValueError),
    (lambda: written(link="1"), "link", TypeError),
    (lambda: written(link=2**32), "link", ValueError),
    (lambda: written(snaplen=None), "snaplen", TypeError),
    (lambda: written(nanoseconds="x"), "nanoseconds", TypeError),
    (lambda: written(nanoseconds=152630000), "nanoseconds", TypeError),
    (lambda: pcapfile.Writer("out.pcap", append="x"), "append", TypeError),
    (lambda: written(like=pcapfile.parse(CLASSIC), link=101), "link", ValueError),
    (lambda: written(like=pcapfile.parse(BLOCKS), link=1), "link", ValueError),
    (lambda: written(like=pcapfile.parse(BLOCKS), snaplen=60), "snaplen", ValueError),
    (lambda: written(like="capture.pcap"), "like", TypeError),
    (lambda: pcapfile.info(None), "file", TypeError),
    (lambda: pcapfile.merge("a.pcap", "b.pcap"), "files", TypeError),
    (lambda: pcapfile.merge(5, "b.pcap"), "files", TypeError),
    (lambda: pcapfile.merge([5], "b.pcap"), "files", TypeError),
    (lambda: pcapfile.merge(["a.pcap"], 5), "out", TypeError),
    (lambda: pcapfile.cut("a.pcap", "b.pcap", packets=5), "packets", TypeError),
    (lambda: pcapfile.cut("a.pcap", "b.pcap", packets=slice("a")), "packets", TypeError),
    (lambda: pcapfile.cut("a.pcap", "b.pcap", since="5"), "since", TypeError),
    (lambda: pcapfile.cut("a.pcap", "b.pcap", every="5"), "every", TypeError),
    (lambda: pcapfile.cut("a.pcap", "b.pcap", parts=0), "parts", ValueError),
    (lambda: pcapfile.convert("a.pcap", "b.pcap", to="erf"), "to", ValueError),
    (lambda: pcapfile.repair("a.pcap", None), "out", TypeError),
]


class WrongArguments(unittest.TestCase):
    def assert_named(self, name, kind, call, *given):
        with self.assertRaises(kind) as caught:
            call(*given)
        self.assertIs(type(caught.exception), kind)
        self.assertTrue(str(caught.exception).startswith(name + " "), str(caught.exception))

    def test_of_captures(self):
        for data in (CLASSIC, BLOCKS):
            for number, (call, name, kind) in enumerate(OF_CAPTURES):
                capture = pcapfile.parse(data)
                writer = written(format="pcapng" if name in ("link", "snaplen") else capture.format)
                with self.subTest(number=number, name=name, format=capture.format):
                    self.assert_named(name, kind, call, capture, writer)

    def test_of_others(self):
        with tempfile.TemporaryDirectory() as room:
            before = os.getcwd()
            os.chdir(room)
            try:
                for number, (call, name, kind) in enumerate(OTHERS):
                    with self.subTest(number=number, name=name):
                        self.assert_named(name, kind, call)
                self.assertEqual(os.listdir(room), [])
            finally:
                os.chdir(before)

    @unittest.skipUnless(has("dask"), "dask is missing")
    def test_of_dask(self):
        import pcapfile.dask

        for call, name, kind in (
            (lambda: pcapfile.dask.read(5), "paths", TypeError),
            (lambda: pcapfile.dask.read([5]), "paths", TypeError),
            (lambda: pcapfile.dask.read("capture.pcap", "5"), "parts", TypeError),
            (lambda: pcapfile.dask.read("capture.pcap", at_least=-1), "at_least", ValueError),
        ):
            with self.subTest(name=name):
                self.assert_named(name, kind, call)

    def test_nothing_is_written(self):
        """A packet with a wrong argument leaves no bytes."""
        for form in ("pcap", "pcapng"):
            out = io.BytesIO()
            writer = pcapfile.Writer(out, form)
            length = len(out.getvalue())
            for call, name, _ in OF_CAPTURES:
                if name in ("data", "seconds", "nanoseconds", "original_length", "interface", "packet", "rows", "source"):
                    with self.assertRaises((TypeError, ValueError)):
                        call(None, writer)
            self.assertEqual(len(out.getvalue()), length)


class Times(unittest.TestCase):
    """Times that an argument may be. The packet's time is 1335958313.152630001 seconds."""

    TIME = 1335958313_152630001
    DATA = struct.pack("<IHHiIII", 0xA1B23C4D, 2, 4, 0, 0, 65535, 1) + struct.pack("<IIII", TIME // 10**9, TIME % 10**9, 1, 1) + b"a"

    def chosen(self, **words):
        return len(list(pcapfile.parse(self.DATA).filter(**words)))

    def test_numbers(self):
        from decimal import Decimal
        from fractions import Fraction

        exact = Fraction(self.TIME, 10**9)
        for since in (exact, Decimal("1335958313.152630001"), 1335958313):
            self.assertEqual((self.chosen(since=since), self.chosen(until=since)), (1, 0), since)
        self.assertEqual(self.chosen(since=exact + Fraction(1, 10**9)), 0)

    @unittest.skipUnless(has("numpy"), "numpy is missing")
    def test_numbers_of_numpy(self):
        import numpy

        self.assertEqual([self.chosen(since=numpy.int64(1335958313 + more)) for more in (0, 1)], [1, 0])
        self.assertEqual([self.chosen(since=numpy.float32(more)) for more in (0, 2e9)], [1, 0])

    @unittest.skipUnless(has("pandas"), "pandas is missing")
    def test_timestamps_of_pandas(self):
        """A Timestamp counts nanoseconds."""
        import pandas

        at = pandas.Timestamp(self.TIME, tz="UTC")
        self.assertEqual((self.chosen(since=at), self.chosen(until=at)), (1, 0))
        self.assertEqual(self.chosen(since=at + pandas.Timedelta(1, "ns")), 0)


if __name__ == "__main__":
    unittest.main()
