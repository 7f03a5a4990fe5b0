"""Tests of filters, which libpcap compiles."""

import ctypes.util
import datetime
import io
import os
import shutil
import struct
import subprocess
import tempfile
import unittest
from pathlib import Path

import pcapfile
from test_columns import option
from test_packets import SIMPLE
from test_pcapfile import HEADER, SECTION, block, enhanced, interface, packet


def udp(source, target, length=8, kind=17):
    """Makes an IPv4 datagram with these ports and lengths, without a link layer."""
    return struct.pack(">BBHHHBBH4s4sHHHH", 0x45, 0, 20 + length, 0, 0, 64, kind, 0, bytes(4), bytes(4), source, target, length, 0)


def ethernet(payload):
    return bytes(12) + b"\x08\0" + payload


RAW = struct.pack("<IHHiIII", 0xA1B2C3D4, 2, 4, 0, 0, 65535, 101)
FRAMES = [ethernet(udp(53, 9)), ethernet(udp(9, 9)), ethernet(udp(9, 53, kind=6)), ethernet(udp(9, 53)), bytes(60), b""]


class Times(unittest.TestCase):
    def test_packets_of_a_time(self):
        """A range of times begins at `since` and ends before `until`: seconds, also with fractions, and datetimes."""
        moment = datetime.datetime(1970, 1, 1, 0, 0, 5, tzinfo=datetime.timezone.utc)
        zone = datetime.timezone(datetime.timedelta(hours=2))
        classic = HEADER + b"".join(packet(n, 500_000, b"") for n in range(10))
        blocks = SECTION + interface(1) + b"".join(enhanced(0, n * 10**6 + 500_000, b"") for n in range(10)) + SIMPLE + enhanced(7, 5, b"")
        late = interface(1, 0, option(9, b"\0") + option(0, b"")) + enhanced(1, 2**40, b"")
        for data in (classic, blocks + late):
            for strict in (True, False):
                for opened in (pcapfile.parse, lambda data, strict: pcapfile.open(io.BytesIO(data), strict=strict)):
                    for words, wanted in (
                        ({"since": 4.5}, range(4, 10)),
                        ({"since": 4.500001}, range(5, 10)),
                        ({"until": 4.5}, range(4)),
                        ({"since": 2, "until": 5}, range(2, 5)),
                        ({"since": moment}, range(5, 10)),
                        ({"until": moment.astimezone(zone)}, range(5)),
                        ({"since": -5, "until": 2**70}, range(10)),
                        ({"since": 2**70}, []),
                    ):
                        got = [p.seconds for p in opened(data, strict=strict).filter(**words)]
                        self.assertEqual(got, list(wanted))
                    self.assertEqual(len(list(opened(data, strict=strict).filter())), 10 if data is classic else 13)
        with self.assertRaisesRegex(ValueError, "zone"):
            pcapfile.parse(classic).filter(since=datetime.datetime(1970, 1, 1))


@unittest.skipUnless(ctypes.util.find_library("pcap"), "libpcap is missing")
class Filters(unittest.TestCase):
    def test_an_expression_and_a_time(self):
        data = HEADER + b"".join(packet(n, 0, FRAMES[n % 2]) for n in range(10))
        self.assertEqual([p.seconds for p in pcapfile.parse(data).filter("udp port 53", since=3, until=8)], [4, 6])

    def test_classic(self):
        data = HEADER + b"".join(packet(n, 0, frame) for n, frame in enumerate(FRAMES))
        for strict in (True, False):
            for capture in (pcapfile.parse(data, strict=strict), pcapfile.open(io.BytesIO(data), strict=strict)):
                self.assertEqual([p.seconds for p in capture.filter("udp port 53")], [0, 3])

    def test_a_link_type_whose_number_is_another_one_in_libpcap(self):
        data = RAW + packet(0, 0, udp(53, 9)) + packet(1, 0, udp(9, 9)) + packet(2, 0, udp(9, 53))
        self.assertEqual([p.seconds for p in pcapfile.parse(data).filter("udp port 53")], [0, 2])

    def test_blocks(self):
        """The filter uses the link type of each packet's interface, and skips a packet whose interface is unknown."""
        data = SECTION + interface(1) + interface(101) + enhanced(0, 0, FRAMES[0]) + enhanced(1, 1, udp(53, 9))
        data += enhanced(1, 2, FRAMES[0]) + enhanced(2, 3, FRAMES[0]) + enhanced(0, 4, udp(53, 9)) + enhanced(1, 5, udp(9, 53))
        for strict in (True, False):
            for capture in (pcapfile.parse(data, strict=strict), pcapfile.open(io.BytesIO(data), strict=strict)):
                self.assertEqual([p.timestamp for p in capture.filter("udp port 53")], [0, 1, 5])

    def test_padding_is_not_looked_at(self):
        data = SECTION + interface(1, 14) + block(3, struct.pack("<I", 60) + FRAMES[0] + bytes(-len(FRAMES[0]) % 4))
        self.assertEqual(len(list(pcapfile.parse(data).filter("ip"))), 1)
        self.assertEqual(list(pcapfile.parse(data).filter("udp port 53")), [])

    def test_what_is_no_expression(self):
        data = HEADER + packet(0, 0, FRAMES[0])
        with self.assertRaisesRegex(ValueError, "udp prt 53"):
            pcapfile.parse(data).filter("udp prt 53")
        blocks = SECTION + interface(1) + enhanced(0, 0, FRAMES[0])
        with self.assertRaisesRegex(ValueError, "udp prt 53"):
            list(pcapfile.parse(blocks).filter("udp prt 53"))

    def test_an_expression_with_a_zero_byte(self):
        """libpcap would take an expression only up to the zero byte, and accept the packets of "ip"."""
        for data in (HEADER + packet(0, 0, FRAMES[0]), SECTION + interface(1) + enhanced(0, 0, FRAMES[0])):
            for expression in ("ip\0..", "\0", "ip\0"):
                self.assertRaisesRegex(ValueError, "expression .* NUL", pcapfile.parse(data).filter, expression)
            self.assertEqual(len(list(pcapfile.parse(data).filter("ip"))), 1)
        self.assertRaisesRegex(ValueError, "expression .* NUL", pcapfile.cut, "capture", "out", expression="ip\0..")

    def test_a_refusal_comes_behind(self):
        data = HEADER + packet(0, 0, FRAMES[0]) + packet(1, 0, FRAMES[1])[:-1]
        got = []
        with self.assertRaises(pcapfile.Incomplete):
            for each in pcapfile.parse(data).filter("udp port 53"):
                got.append(each.seconds)
        self.assertEqual(got, [0])

    @unittest.skipUnless(shutil.which("tcpdump"), "tcpdump is not installed")
    def test_tcpdump_chooses_the_same(self):
        frames = [ethernet(udp(n % 5, n % 7, 8 + n % 9, 17 if n % 3 else 6)) + bytes(n % 11) for n in range(300)]
        data = HEADER + b"".join(packet(n, 0, frame[: len(frame) - n % 13]) for n, frame in enumerate(frames))
        with tempfile.TemporaryDirectory() as room:
            path = Path(room, "capture")
            path.write_bytes(data)
            os.chmod(room, 0o755)
            for expression in ("udp", "tcp port 3", "len > 45", "ether[0] = 0 and udp src port 2", "not udp"):
                command = ["tcpdump", "-r", path, "-w", "-", expression]
                written = subprocess.run(command, stdout=subprocess.PIPE, stderr=subprocess.DEVNULL, check=True).stdout
                with pcapfile.parse(written) as theirs, pcapfile.open(path) as ours:
                    self.assertEqual([p.seconds for p in ours.filter(expression)], [p.seconds for p in theirs])


if __name__ == "__main__":
    unittest.main()
