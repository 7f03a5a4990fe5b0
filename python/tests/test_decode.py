"""Tests of addresses, ports and protocols as columns. Each expected value follows from the bytes beside it."""

import io
import random
import shutil
import socket
import struct
import subprocess
import tempfile
import unittest

import pcapfile
from pcapfile import _columns
from test_pcapfile import HEADER, SECTION, block, enhanced, interface, packet

try:
    import pandas
except ImportError:
    pandas = None

A4, B4 = "192.0.2.1", "198.51.100.254"
A6, B6 = "2001:db8::1", "fe80::ff"
NAMES = ["source", "destination", "source_port", "destination_port", "protocol"]


def ipv4(kind, above, fragment=0, more=b"", source=A4):
    """Makes an IPv4 packet. `more` are its options."""
    head = struct.pack(">BBHHHBBH", 0x45 + len(more) // 4, 0, 20 + len(more) + len(above), 7, fragment, 64, kind, 0)
    return head + socket.inet_aton(source) + socket.inet_aton(B4) + more + above


def ipv6(kind, above):
    addresses = socket.inet_pton(socket.AF_INET6, A6) + socket.inet_pton(socket.AF_INET6, B6)
    return struct.pack(">IHBB", 6 << 28, len(above), kind, 64) + addresses + above


def ethernet(kind, above, *tags):
    return bytes(12) + b"".join(struct.pack(">HH", tag, 5) for tag in tags) + struct.pack(">H", kind) + above


PORTS = struct.pack(">HHI", 53, 65535, 0)
EXTENSION = bytes([17, 1]) + bytes(14)

# The link type, the bytes of a packet, and the values that the decoder returns.
CASES = [
    (1, ethernet(0x0800, ipv4(17, PORTS)), (A4, B4, 53, 65535, 17)),
    (1, ethernet(0x0800, ipv4(6, PORTS, more=bytes(8))), (A4, B4, 53, 65535, 6)),
    (1, ethernet(0x0800, ipv4(1, PORTS)), (A4, B4, None, None, 1)),
    (1, ethernet(0x0800, ipv4(17, PORTS, fragment=1)), (A4, B4, None, None, 17)),
    (1, ethernet(0x0800, ipv4(17, PORTS, fragment=0x2000)), (A4, B4, 53, 65535, 17)),
    (1, ethernet(0x0800, ipv4(17, PORTS[:4])), (A4, B4, 53, 65535, 17)),
    (1, ethernet(0x0800, ipv4(17, PORTS[:3])), (A4, B4, None, None, 17)),
    (1, ethernet(0x0800, ipv4(17, b"")[:19]), (None,) * 5),
    (1, ethernet(0x0800, b"\x44" + ipv4(17, PORTS)[1:]), (None,) * 5),
    (1, ethernet(0x0800, ipv6(17, PORTS)), (None,) * 5),
    (1, ethernet(0x0806, bytes(28)), (None,) * 5),
    (1, ethernet(0x0800, ipv4(17, PORTS), 0x8100), (A4, B4, 53, 65535, 17)),
    (1, ethernet(0x86DD, ipv6(6, PORTS), 0x88A8, 0x8100), (A6, B6, 53, 65535, 6)),
    (1, ethernet(0x0800, ipv4(17, PORTS), 0x8100, 0x8100, 0x8100, 0x8100), (None,) * 5),
    (1, ethernet(0x0800, b"", 0x8100)[:15], (None,) * 5),
    (1, bytes(13), (None,) * 5),
    (1, b"", (None,) * 5),
    (1, ethernet(0x86DD, ipv6(0, EXTENSION + PORTS)), (A6, B6, 53, 65535, 17)),
    (1, ethernet(0x86DD, ipv6(44, bytes([6, 0, 0, 1]) + bytes(4) + PORTS)), (A6, B6, 53, 65535, 6)),
    (1, ethernet(0x86DD, ipv6(44, bytes([6, 0, 0, 8]) + bytes(4) + PORTS)), (A6, B6, None, None, 6)),
    (1, ethernet(0x86DD, ipv6(60, EXTENSION[:7])), (A6, B6, None, None, None)),
    (1, ethernet(0x86DD, ipv6(17, PORTS)[:39]), (None,) * 5),
    (101, ipv4(132, PORTS), (A4, B4, 53, 65535, 132)),
    (101, ipv6(58, PORTS), (A6, B6, None, None, 58)),
    (101, b"", (None,) * 5),
    (101, b"\x55" + bytes(60), (None,) * 5),
    (228, ipv4(17, PORTS), (A4, B4, 53, 65535, 17)),
    (113, bytes(14) + b"\x08\0" + ipv4(17, PORTS), (A4, B4, 53, 65535, 17)),
    (276, b"\x86\xdd" + bytes(18) + ipv6(17, PORTS), (A6, B6, 53, 65535, 17)),
    (147, ipv4(17, PORTS), (None,) * 5),
]


def told(frame):
    """Returns the decoded columns row by row, with None for a missing value."""
    return [tuple(None if pandas.isna(value) else value for value in row) for row in zip(*(frame[name] for name in NAMES))]


@unittest.skipIf(pandas is None or _columns.numpy is None, "pandas or numpy is missing")
class Decoded(unittest.TestCase):
    def test_each_case(self):
        for link, data, wanted in CASES:
            header = struct.pack("<IHHiIII", 0xA1B2C3D4, 2, 4, 0, 0, 65535, link)
            with self.subTest(data=data), pcapfile.parse(header + packet(5, 0, data)) as capture:
                frame = capture.to_pandas(decode=True)
                self.assertEqual(told(frame), [wanted])
                self.assertEqual(frame["len"].tolist(), [len(data)])

    def test_a_header_that_declares_frame_check_sequences(self):
        header = struct.pack("<IHHiIII", 0xA1B2C3D4, 2, 4, 0, 0, 65535, 0x24000001)
        with pcapfile.parse(header + packet(5, 0, CASES[0][1] + bytes(4))) as capture:
            self.assertEqual(told(capture.to_pandas(decode=True)), [CASES[0][2]])

    def test_all_at_once(self):
        """Decodes packets of many interfaces, in memory, in a file and from a stream. Other bytes follow each packet's data."""
        links = sorted({link for link, _, _ in CASES})
        data = SECTION + b"".join(map(interface, links))
        data += b"".join(enhanced(links.index(link), n, given) for _ in range(50) for n, (link, given, _) in enumerate(CASES))
        data += enhanced(99, 1, CASES[0][1]) + block(3, struct.pack("<I", 60) + CASES[0][1] + bytes(-len(CASES[0][1]) % 4))
        wanted = [told for _ in range(50) for _, _, told in CASES] + [(None,) * 5, CASES[0][2]]
        with tempfile.NamedTemporaryFile() as file:
            file.write(data)
            file.flush()
            for opened in (lambda: pcapfile.parse(data), lambda: pcapfile.open(file.name), lambda: pcapfile.open(io.BytesIO(data))):
                with opened() as capture:
                    frame = capture.to_pandas(decode=True)
                    self.assertEqual(told(frame), wanted)
                    if not capture.is_stream:
                        pandas.testing.assert_frame_equal(frame[["time", "len", "link", "offset"]], capture.to_pandas()[["time", "len", "link", "offset"]])

    def test_any_bytes(self):
        """No bytes of a packet raise an error."""
        chosen = random.Random(5)
        data = SECTION + interface(1) + interface(101) + interface(113)
        for n in range(3000):
            given = bytearray(CASES[n % len(CASES)][1])
            for _ in range(chosen.randrange(4) if given else 0):
                given[chosen.randrange(len(given))] = chosen.randrange(256)
            data += enhanced(n % 3, n, bytes(given[: chosen.randrange(len(given) + 1)]))
        self.assertEqual(len(pcapfile.parse(data).to_pandas(decode=True)), 3000)

    def test_no_packets(self):
        frame = pcapfile.parse(HEADER).to_pandas(decode=True)
        self.assertEqual((len(frame), list(frame.columns)[-5:]), (0, NAMES))

    def test_addresses_are_categories(self):
        data = HEADER + b"".join(packet(n, 0, ethernet(0x0800, ipv4(17, PORTS, source=f"10.0.{n % 7}.1"))) for n in range(1000))
        frame = pcapfile.parse(data).to_pandas(decode=True)
        self.assertEqual(sorted(frame["source"].cat.categories), [f"10.0.{n}.1" for n in range(7)])
        self.assertEqual(frame["source"].tolist(), [f"10.0.{n % 7}.1" for n in range(1000)])

    def test_texts_of_addresses(self):
        """Each byte of an IPv4 address is a number without leading zeros. An IPv6 address is the text that the system gives."""
        chosen, data = random.Random(11), HEADER
        wanted = [f"{n}.{255 - n}.{n * 7 % 256}.{n % 11}" for n in range(256)]
        for text in wanted:
            data += packet(1, 0, ethernet(0x0800, ipv4(17, PORTS, source=text)))
        for n in range(256):
            packed = bytes(byte * chosen.choice((0, 1)) for byte in chosen.randbytes(16))
            wanted.append(socket.inet_ntop(socket.AF_INET6, packed))
            above = ipv6(17, PORTS)
            data += packet(1, 0, ethernet(0x86DD, above[:8] + packed + above[24:]))
        self.assertEqual(pcapfile.parse(data).to_pandas(decode=True)["source"].tolist(), wanted)

    def test_many_addresses(self):
        """There are more addresses than the first tables have room for. Some of them differ only in their version."""
        chosen = random.Random(9)
        numbers = [chosen.randrange(5000) for _ in range(12000)]
        texts, data = [], HEADER
        for n, number in enumerate(numbers):
            if n % 2:
                packed = bytes(12) + struct.pack(">I", number)
                texts.append(socket.inet_ntop(socket.AF_INET6, packed))
                above = ipv6(17, PORTS)
                data += packet(n, 0, ethernet(0x86DD, above[:8] + packed + above[24:]))
            else:
                texts.append(socket.inet_ntoa(struct.pack(">I", number)))
                data += packet(n, 0, ethernet(0x0800, ipv4(17, PORTS, source=texts[-1])))
        frame = pcapfile.parse(data).to_pandas(decode=True)
        self.assertEqual(frame["source"].tolist(), texts)
        self.assertEqual(sorted(frame["source"].cat.categories), sorted(set(texts)))
        self.assertEqual(frame["destination"].tolist(), [B6 if n % 2 else B4 for n in range(12000)])

    def test_what_is_not_decoded(self):
        with pcapfile.parse(HEADER) as capture:
            self.assertRaises(ValueError, capture.to_pandas, 2, decode=True)
        for data in (HEADER, SECTION):
            with pcapfile.parse(data, strict=False) as capture, self.assertRaises(ValueError):
                capture.to_pandas(decode=True)

    @unittest.skipUnless(shutil.which("tshark"), "tshark is not installed")
    def test_tshark_tells_the_same(self):
        # tshark reassembles fragments, so the test leaves them out.
        whole = [(data, wanted) for link, data, wanted in CASES if link == 1 and data[20:21] not in (b"\x20", b"\x2c")]
        cases = [data for data, wanted in whole if wanted[4] in (6, 17) and wanted[2] is not None and len(data) > 45]
        with tempfile.NamedTemporaryFile(suffix=".pcap") as file:
            file.write(HEADER + b"".join(packet(1, 0, data) for data in cases))
            file.flush()
            fields = ["ip.src", "ipv6.src", "ip.dst", "ipv6.dst", "udp.srcport", "tcp.srcport", "udp.dstport", "tcp.dstport"]
            command = ["tshark", "-n", "-r", file.name, "-T", "fields", *(word for field in fields for word in ("-e", field))]
            lines = subprocess.run(command, check=True, capture_output=True, text=True).stdout.splitlines()
            theirs = [tuple(a or b for a, b in zip(cells[::2], cells[1::2])) for cells in (line.split("\t") for line in lines)]
            with pcapfile.open(file.name) as capture:
                ours = [tuple(map(str, row[:4])) for row in told(capture.to_pandas(decode=True))]
        self.assertGreater(len(ours), 2)
        self.assertEqual(ours, theirs)


if __name__ == "__main__":
    unittest.main()
