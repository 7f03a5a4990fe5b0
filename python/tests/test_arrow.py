"""Tests of columns by Arrow's C data interface. A consumer reads them here as its specification says, word by word."""

import ctypes
import gc
import struct
import sys
import unittest

import pcapfile
from pcapfile import _columns
from test_extras import BYTES, NAMES, SECTIONS
from test_pcapfile import HEADER, packet

try:
    import pyarrow
except ImportError:
    pyarrow = None
try:
    import polars
except ImportError:
    polars = None

# The number of fields, of 8 bytes each, in the structs of a schema, an array and a stream.
SCHEMA, ARRAY, STREAM = 9, 10, 5
RELEASE = {SCHEMA: 7, ARRAY: 8, STREAM: 3}


def words(address, count):
    return list(struct.unpack(f"{count}Q", ctypes.string_at(address, 8 * count)))


def release(address, count):
    """Releases a struct as its consumer. The callback must mark the struct as released."""
    call = words(address, count)[RELEASE[count]]
    assert call != 0
    ctypes.CFUNCTYPE(None, ctypes.c_void_p)(call)(address)
    assert words(address, count)[RELEASE[count]] == 0


def pointer_of(capsule, name):
    pointer = ctypes.pythonapi.PyCapsule_GetPointer
    pointer.restype, pointer.argtypes = ctypes.c_void_p, [ctypes.py_object, ctypes.c_char_p]
    return pointer(capsule, name)


def schema_of(address):
    """Returns the format, the name, whether values may be null, and the children."""
    format, name, _, flags, count, children, dictionary, _, _ = words(address, SCHEMA)
    assert dictionary == 0
    inner = [schema_of(child) for child in words(children, count)] if count else []
    return ctypes.string_at(format).decode(), ctypes.string_at(name).decode(), bool(flags & 2), inner


FORMATS = {"tsn:UTC": "q", "I": "I", "L": "Q"}


def values_of(address, format):
    """Returns the values of an array. `format` is one of the formats in these tests."""
    length, missing, offset, count, children, buffers, _, _, _, _ = words(address, ARRAY)
    assert (offset, children) == (0, 0)
    bits, *others = words(buffers, count)
    there = [bits == 0 or ctypes.string_at(bits + n // 8, 1)[0] >> n % 8 & 1 for n in range(length)]
    assert there.count(0) == missing
    if format in ("u", "Z"):
        width = {"u": "i", "Z": "q"}[format]
        ends = struct.unpack(f"{length + 1}{width}", ctypes.string_at(others[0], struct.calcsize(width) * (length + 1)))
        values = [ctypes.string_at(others[1] + a, b - a) if b > a else b"" for a, b in zip(ends, ends[1:])]
        values = [value.decode() for value in values] if format == "u" else values
    else:
        code = FORMATS[format]
        values = struct.unpack(f"{length}{code}", ctypes.string_at(others[0], struct.calcsize(code) * length))
    return [value if is_there else None for value, is_there in zip(values, there)]


def taken(source, capsule=None):
    """Returns the names and values of all columns of a stream, and the text of the error after them, or None."""
    capsule = source.__arrow_c_stream__() if capsule is None else capsule
    stream = pointer_of(capsule, b"arrow_array_stream")
    get_schema, get_next, get_error, _, _ = words(stream, STREAM)
    call = ctypes.CFUNCTYPE(ctypes.c_int, ctypes.c_void_p, ctypes.c_void_p)
    room = (ctypes.c_uint64 * ARRAY)()
    address = ctypes.addressof(room)
    assert call(get_schema)(stream, address) == 0
    format, _, _, fields = schema_of(address)
    assert format == "+s"
    release(address, SCHEMA)
    columns, said = {name: [] for _, name, _, _ in fields}, None
    while True:
        if call(get_next)(stream, address) != 0:
            said = ctypes.string_at(ctypes.CFUNCTYPE(ctypes.c_void_p, ctypes.c_void_p)(get_error)(stream)).decode()
            break
        array = words(address, ARRAY)
        if array[RELEASE[ARRAY]] == 0:
            break
        for child, (format, name, nullable, _) in zip(words(array[6], array[4]), fields):
            values = values_of(child, format)
            assert nullable or None not in values
            columns[name] += values
        release(address, ARRAY)
    release(stream, STREAM)
    return columns, said


class Arrow(unittest.TestCase):
    def setUp(self):
        known = _columns.numpy
        self.addCleanup(setattr, _columns, "numpy", known)
        self.ways = [known, None] if known is not None else [None]

    def each_way(self):
        for way in self.ways:
            _columns.numpy = way
            with self.subTest(numpy=way is not None):
                yield

    def test_columns(self):
        for _ in self.each_way():
            with pcapfile.parse(SECTIONS) as capture:
                got, said = taken(capture.to_arrow(names=True, data=True))
            self.assertIsNone(said)
            self.assertEqual(list(got), ["time", "len", "orig_len", "interface", "link", "offset", "interface_name", "data"])
            self.assertEqual(got["time"], [1000, 2000, None, 4000, 5000, None])
            self.assertEqual(got["link"], [1, 113, None, 1, 1, None])
            self.assertEqual(got["interface"], [0, 1, 2, 2, 0, 1])
            self.assertEqual((got["len"], got["orig_len"]), (list(map(len, BYTES)), [60] * 6))
            self.assertEqual([SECTIONS[at : at + len(each)] for at, each in zip(got["offset"], BYTES)], BYTES)
            self.assertEqual((got["interface_name"], got["data"]), (NAMES, BYTES))

    def test_more_packets_than_a_batch(self):
        count = _columns.COLUMNS + 3
        data = HEADER + b"".join(packet(n, 0, b"") for n in range(count))
        for _ in self.each_way():
            got, said = taken(pcapfile.parse(data))
            self.assertEqual((got["time"], said), ([n * 10**9 for n in range(count)], None))
            self.assertEqual(got["link"], [1] * count)

    def test_times(self):
        data = HEADER + b"".join(packet(n, 0, b"") for n in range(9))
        got, _ = taken(pcapfile.parse(data).to_arrow(since=3, until=5))
        self.assertEqual(got["time"], [3 * 10**9, 4 * 10**9])

    def test_no_packets(self):
        for _ in self.each_way():
            names = ("time", "len", "orig_len", "interface", "link", "offset", "data")
            self.assertEqual(taken(pcapfile.parse(HEADER).to_arrow(data=True)), ({name: [] for name in names}, None))

    def test_an_error_behind_the_packets(self):
        for _ in self.each_way():
            arrow = pcapfile.parse(HEADER + packet(1, 0, b"abc") + packet(2, 0, b"defg")[:-1]).to_arrow()
            got, said = taken(arrow)
            self.assertEqual((got["len"], said), ([3], "1 bytes are missing (at byte 43)"))
            self.assertIsInstance(arrow.error, pcapfile.Incomplete)

    def test_an_interrupt_is_an_error_too(self):
        class Interrupted:
            def __init__(self):
                self.left = [HEADER + packet(1, 0, b"abc")]

            def read(self, count):
                if not self.left:
                    raise KeyboardInterrupt
                return self.left.pop()

        for _ in self.each_way():
            arrow = pcapfile.open(Interrupted()).to_arrow()
            _, said = taken(arrow)
            self.assertEqual(said, "KeyboardInterrupt")
            self.assertIsInstance(arrow.error, KeyboardInterrupt)

    def test_schema(self):
        capsule = pcapfile.parse(HEADER).to_arrow(names=True, data=True).__arrow_c_schema__()
        _, _, _, fields = schema_of(pointer_of(capsule, b"arrow_schema"))
        wanted = [("tsn:UTC", "time", True), ("I", "len", False), ("I", "orig_len", False), ("I", "interface", False), ("I", "link", True)]
        wanted += [("L", "offset", False), ("u", "interface_name", True), ("Z", "data", False)]
        self.assertEqual([field[:3] for field in fields], wanted)

    def test_what_nobody_takes_goes(self):
        from pcapfile import _arrow

        held, capsules = len(_arrow._held), len(_arrow._capsules)
        arrow = pcapfile.parse(HEADER + packet(1, 0, b"abc")).to_arrow()
        arrow.__arrow_c_stream__(), arrow.__arrow_c_schema__(), taken(arrow), taken(arrow)
        gc.collect()
        self.assertEqual((len(_arrow._held), len(_arrow._capsules)), (held, capsules))

    def test_bytes_live_as_long_as_a_batch(self):
        """A child that its consumer moved out of its parent outlives the parent."""
        with pcapfile.parse(HEADER + packet(1, 0, b"abc")) as capture:
            capsule = capture.to_arrow(data=True).__arrow_c_stream__()
            stream = pointer_of(capsule, b"arrow_array_stream")
            room, child = (ctypes.c_uint64 * ARRAY)(), (ctypes.c_uint64 * ARRAY)()
            call = ctypes.CFUNCTYPE(ctypes.c_int, ctypes.c_void_p, ctypes.c_void_p)(words(stream, STREAM)[1])
            self.assertEqual(call(stream, ctypes.addressof(room)), 0)
        place = words(room[6], room[4])[-1]
        ctypes.memmove(child, place, 8 * ARRAY)
        ctypes.memset(place + 8 * RELEASE[ARRAY], 0, 8)
        release(ctypes.addressof(room), ARRAY)
        gc.collect()
        self.assertEqual(values_of(ctypes.addressof(child), "Z"), [b"abc"])
        release(ctypes.addressof(child), ARRAY)

    @unittest.skipIf(polars is not None, "polars is there")
    def test_polars_says_what_to_install(self):
        with self.assertRaisesRegex(ImportError, "pip install polars"):
            pcapfile.parse(HEADER).to_polars()

    @unittest.skipIf(polars is None, "polars is missing")
    def test_polars(self):
        frame = pcapfile.parse(SECTIONS).to_polars(names=True, data=True)
        self.assertEqual((frame["interface_name"].to_list(), frame["data"].to_list()), (NAMES, BYTES))
        with self.assertRaises(pcapfile.Incomplete):
            pcapfile.parse(SECTIONS[:-1]).to_polars()

    @unittest.skipIf(pyarrow is None, "pyarrow is missing")
    def test_pyarrow(self):
        table = pyarrow.table(pcapfile.parse(SECTIONS).to_arrow(names=True, data=True))
        self.assertEqual((table["interface_name"].to_pylist(), table["data"].to_pylist()), (NAMES, BYTES))


if sys.implementation.name != "cpython":
    del Arrow

if __name__ == "__main__":
    unittest.main()
