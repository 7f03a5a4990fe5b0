"""Tests of blocks, their options and their names. Each expected value follows from the bytes beside it."""

import io
import struct
import unittest

import pcapfile


def option(code, value, order="<"):
    return struct.pack(order + "HH", code, len(value)) + value + bytes(-len(value) % 4)


def block(number, body, order="<"):
    length = struct.pack(order + "I", len(body) + 12)
    return struct.pack(order + "I", number) + length + body + length


def section(*options, order="<"):
    return block(0x0A0D0D0A, struct.pack(order + "IHHq", 0x1A2B3C4D, 1, 0, -1) + b"".join(options), order)


def interface(*options, order="<"):
    return block(1, struct.pack(order + "HHI", 1, 0, 0) + b"".join(options), order)


def enhanced(data, *options, order="<"):
    head = struct.pack(order + "IIIII", 0, 0, 1, len(data), len(data))
    return block(6, head + data + bytes(-len(data) % 4) + b"".join(options), order)


def told(capture):
    return [[(found.code, bytes(found.value)) for found in it.options] for it in capture.blocks()]


class Options(unittest.TestCase):
    data = section(option(1, b"made")) + interface() + enhanced(b"abcde", option(1, b"seen"), option(2, b"\1\0\0\0"), bytes(4), b"rest")

    def test_options_of_each_block(self):
        with pcapfile.parse(self.data) as capture:
            self.assertEqual(told(capture), [[(1, b"made")], [], [(1, b"seen"), (2, b"\1\0\0\0")]])
            kinds = [(it.type, it.offset, it.byteorder) for it in capture.blocks()]
            self.assertEqual(kinds, [(0x0A0D0D0A, 8, "little"), (1, 44, "little"), (6, 64, "little")])
            self.assertEqual(len(list(capture)), 1)

    def test_options_off_a_stream(self):
        with pcapfile.open(io.BytesIO(self.data)) as capture:
            self.assertEqual(told(capture), [[(1, b"made")], [], [(1, b"seen"), (2, b"\1\0\0\0")]])

    def test_order(self):
        data = section(order=">") + interface(option(2, b"eth0", ">"), order=">") + block(3, b"\0\0\0\1a\0\0\0", ">")
        with pcapfile.parse(data) as capture:
            self.assertEqual(told(capture), [[], [(2, b"eth0")], []])
            self.assertEqual({it.byteorder for it in capture.blocks()}, {"big"})

    def test_values_are_not_judged(self):
        with pcapfile.parse(section() + interface() + enhanced(b"", option(1, b"\xff"), option(2, b"ab"))) as capture:
            self.assertEqual(told(capture)[2], [(1, b"\xff"), (2, b"ab")])

    def test_refused(self):
        torn = option(1, b"abcdefgh")[:8]
        with pcapfile.parse(section() + interface() + enhanced(b"abcd", option(1, b"ok"), torn)) as capture:
            *_, last = capture.blocks()
            with self.assertRaises(pcapfile.Invalid) as refused:
                last.options
            self.assertEqual((refused.exception.number, refused.exception.offset), (18, last.offset + 32))
        with pcapfile.parse(section() + interface() + block(6, bytes(16))) as capture:
            *_, last = capture.blocks()
            with self.assertRaises(pcapfile.Invalid) as refused:
                last.options
            self.assertEqual((refused.exception.number, refused.exception.offset), (13, last.offset))


class Names(unittest.TestCase):
    body = option(1, b"\x7f\0\0\1localhost\0me\0") + option(2, bytes(15) + b"\1six\0") + option(3, b"other") + bytes(4) + option(2, b"dns")

    def test_names(self):
        with pcapfile.parse(section() + block(4, self.body)) as capture:
            head, names = capture.blocks()
            told_names = [(it.type, bytes(it.address), it.names) for it in names.names]
            six = (2, bytes(15) + b"\1", ["six"])
            self.assertEqual(told_names, [(1, b"\x7f\0\0\1", ["localhost", "me"]), six, (3, b"other", [])])
            self.assertEqual([(it.code, bytes(it.value)) for it in names.options], [(2, b"dns")])
            self.assertEqual(head.names, [])

    def test_refused(self):
        for records, kind, status in ((option(1, b"\x7f\0\0\1me"), 24, 3), (option(1, b"\x7f\0\0\1\xff\0"), None, 4), (b"", None, 2)):
            with pcapfile.parse(section() + block(4, records)) as capture:
                *_, last = capture.blocks()
                for ask in (lambda: last.names, lambda: last.options):
                    with self.assertRaises(pcapfile.CaptureError) as refused:
                        ask()
                    self.assertEqual((refused.exception.status, getattr(refused.exception, "number", None)), (status, kind))


if __name__ == "__main__":
    unittest.main()
