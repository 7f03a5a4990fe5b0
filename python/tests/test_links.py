"""Tests of the number of a link type in a classic header. The expected values follow from the draft, 'File Header': the low 16 bits are
the link type. If bit 26 is set, the bits 28 to 31 are the length of the frame check sequence in units of two bytes."""

import io
import struct
import unittest

import pcapfile

# Numbers, their link types, and the lengths in bytes.
NUMBERS = [
    (0, 0, None),
    (1, 1, None),
    (0x24000001, 1, 4),
    (0x04000001, 1, 0),
    (0x14000069, 105, 2),
    (0x84000071, 113, 16),
    (0xF400007F, 127, 30),
    (0x20000001, 1, None),
    (0xF0000000, 0, None),
    (0x08000001, 1, None),
    (0x02000001, 1, None),
    (0x0000FFFF, 65535, None),
    (0x00010000, 0, None),
    (0x03FF0093, 147, None),
    (0x2FFF0001, 1, 4),
    (0xFBFFFFFF, 65535, None),
    (0xFFFFFFFF, 65535, 30),
]


def header(order, number):
    return struct.pack(f"{order}IHHiIII", 0xA1B2C3D4, 2, 4, 0, 0, 65535, number)


class Links(unittest.TestCase):
    def test_numbers(self):
        for number, link_type, fcs_len in NUMBERS:
            with self.subTest(number=hex(number)):
                self.assertEqual((pcapfile.link_type(number), pcapfile.fcs_len(number)), (link_type, fcs_len))

    def test_what_32_bits_do_not_hold(self):
        for number in (-1, 1 << 32, 0x124000001):
            for call in (pcapfile.link_type, pcapfile.fcs_len):
                with self.subTest(number=number), self.assertRaises(ValueError):
                    call(number)

    def test_captures(self):
        for number, link_type, fcs_len in NUMBERS:
            for order in "<>":
                for strict in (True, False):
                    with pcapfile.parse(header(order, number), strict=strict) as capture:
                        for told in (capture, capture.header):
                            self.assertEqual((told.link, told.link_type, told.fcs_len), (number, link_type, fcs_len))

    def test_all_else_has_the_whole_number(self):
        number = 0x24000001
        text = header("<", number) + struct.pack("<IIII", 7, 8, 4, 4) + b"abcd"
        with pcapfile.open(io.BytesIO(text)) as capture:
            self.assertEqual((capture.link, capture.link_types), (number, [number]))
            (packet,) = capture
            self.assertEqual((packet.link, bytes(packet)), (number, b"abcd"))
            self.assertEqual((pcapfile.link_type(packet.link), pcapfile.fcs_len(packet.link)), (1, 4))
        written = io.BytesIO()
        with pcapfile.parse(text) as capture, pcapfile.Writer(written, like=capture) as writer:
            for packet in capture:
                writer.write_packet(packet)
        self.assertEqual(written.getvalue(), text)

    def test_a_pcapng_capture_has_the_length_as_an_option(self):
        text = header("<", 0x24000001) + struct.pack("<IIII", 7, 8, 4, 4) + b"abcd"
        for ways in ("packets", "rows"):
            written = io.BytesIO()
            with pcapfile.parse(text) as capture, pcapfile.Writer(written, "pcapng", link=None) as writer:
                if ways == "packets":
                    for packet in capture:
                        writer.write(packet)
                else:
                    for rows in capture.columns():
                        writer.write_rows(rows, capture)
            with pcapfile.parse(written.getvalue()) as capture:
                self.assertEqual([(packet.link, packet.time_ns, bytes(packet)) for packet in capture], [(1, 7_000_008_000, b"abcd")])
                (interface,) = capture.interfaces
            # 4 bytes are 32 bits, as `pcapfile convert` writes them.
            self.assertEqual([(it.code, bytes(it.value)) for it in interface.block.options], [(9, b"\x09"), (13, b"\x20")])


if __name__ == "__main__":
    unittest.main()
