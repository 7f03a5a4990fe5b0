"""Tests of writing captures. Each expected value follows from the bytes beside it."""

import datetime
import gzip
import io
import os
import pickle
import shutil
import struct
import subprocess
import tempfile
import unittest
from decimal import Decimal
from fractions import Fraction
from unittest import mock

import pcapfile
import test_pcapfile as given
from pcapfile import _columns
from test_columns import option
from test_packets import BIG, COMMENTED, NAMED, OLD, SIMPLE

try:
    import pandas
except ImportError:
    pandas = None

SECTION = struct.pack("<IIIHHqI", 0x0A0D0D0A, 28, 0x1A2B3C4D, 1, 0, -1, 28)
TIME = 1_335_958_313


def interface(link, snaplen):
    """Makes an interface with a unit of time of a nanosecond."""
    return struct.pack("<IIHHIHHBxxxHHI", 1, 32, link, 0, snaplen, 9, 1, 9, 0, 0, 32)


def enhanced(number, time, data, original):
    padding = bytes(-len(data) % 4)
    length = 32 + len(data + padding)
    head = struct.pack("<IIIIIII", 6, length, number, time >> 32, time & 0xFFFFFFFF, len(data), original)
    return head + data + padding + struct.pack("<I", length)


def section_of(order, length):
    """Makes the header of a section that states a length, in a byte order."""
    return struct.pack(order + "IIIHHqI", 0x0A0D0D0A, 28, 0x1A2B3C4D, 1, 0, length, 28)


def commented_section_of(order, length):
    """Makes such a header with a comment."""
    return struct.pack(order + "IIIHHqHH4sHHI", 0x0A0D0D0A, 40, 0x1A2B3C4D, 1, 0, length, 1, 4, b"seen", 0, 0, 40)


def nanoseconds(order):
    """Makes an interface with a unit of time of a nanosecond, in a byte order."""
    return struct.pack(order + "IIHHIHHBxxxHHI", 1, 32, 1, 0, 0, 9, 1, 9, 0, 0, 32)


def three_bytes(order, seconds):
    """Makes a packet of the first interface, in a byte order."""
    time = seconds * 10**9
    return struct.pack(order + "IIIIIII3sxI", 6, 36, 0, time >> 32, time & 0xFFFFFFFF, 3, 3, b"abc", 36)


def names():
    """Makes the body of a name resolution block."""
    return struct.pack("<HH", 1, 9) + b"\x7f\0\0\1host\0" + bytes(3) + bytes(4) + option(1, b"names") + option(0, b"")


class Full:
    """A file with room for `room` bytes, which accepts at most `most` bytes at once."""

    def __init__(self, room, most=1 << 20):
        self.data, self._room, self._most = b"", room, most

    def write(self, data):
        taken = bytes(data[: min(self._room, self._most)])
        if not taken:
            raise OSError(28, "no space left")
        self.data, self._room = self.data + taken, self._room - len(taken)
        return len(taken)


def written(**words):
    """Returns a capture of four packets."""
    file = io.BytesIO()
    with pcapfile.Writer(file, **words) as writer:
        for length in range(4):
            writer.write(b"abc"[:length], TIME + length, 152_630_999, 98)
    return file.getvalue()


def told(packet):
    options = [(option.code, bytes(option.value)) for option in packet.options]
    return packet.time_ns, packet.timestamp, bytes(packet), packet.original_length, packet.interface, packet.interface.name, options


class Writers(unittest.TestCase):
    def test_classic_bytes(self):
        header = struct.pack("<IHHiIII", 0xA1B23C4D, 2, 4, 0, 0, 262144, 1)
        packets = [struct.pack("<IIII", TIME + n, 152_630_999, n, 98) + b"abc"[:n] for n in range(4)]
        self.assertEqual(written(), header + b"".join(packets))
        header = struct.pack(">IHHiIII", 0xA1B2C3D4, 2, 4, 0, 0, 60, 113)
        packets = [struct.pack(">IIII", TIME + n, 152_630, n, 98) + b"abc"[:n] for n in range(4)]
        got = written(format="pcap", link=113, snaplen=60, byteorder="big", nanoseconds=False)
        self.assertEqual(got, header + b"".join(packets))

    def test_blocks(self):
        packets = [enhanced(0, (TIME + n) * 10**9 + 152_630_999, b"abc"[:n], 98) for n in range(4)]
        self.assertEqual(written(format="pcapng"), SECTION + interface(1, 262144) + b"".join(packets))

    def test_what_is_written_is_read(self):
        for words in ({}, {"byteorder": "big"}, {"format": "pcapng"}, {"format": "pcapng", "byteorder": "big", "link": 113}):
            with pcapfile.parse(written(**words)) as capture:
                got = [(p.seconds, p.nanoseconds, p.original_length, bytes(p.data), p.link) for p in capture]
            wanted = [(TIME + n, 152_630_999, 98, b"abc"[:n], words.get("link", 1)) for n in range(4)]
            self.assertEqual(got, wanted)

    def test_interfaces(self):
        file = io.BytesIO()
        writer = pcapfile.Writer(file, "pcapng")
        self.assertEqual(writer.add_interface(113, 60), 1)
        writer.write(bytearray(b"ab"), 1, interface=1)
        writer.write(memoryview(b"xaby")[1:3], 0, 2, interface=0)
        wanted = SECTION + interface(1, 262144) + interface(113, 60) + enhanced(1, 10**9, b"ab", 2) + enhanced(0, 2, b"ab", 2)
        self.assertEqual(file.getvalue(), wanted)

    def test_what_has_no_text_is_refused_and_changes_nothing(self):
        file = io.BytesIO()
        writer = pcapfile.Writer(file, "pcapng")
        before = file.getvalue()
        for call, number in (
            (lambda: writer.write(b"a", 1, interface=1), pcapfile.Rule.INTERFACE_MISSING),
            (lambda: writer.add_interface(65536), pcapfile.Rule.LINK_TOO_LARGE),
        ):
            with self.assertRaises(pcapfile.Unwritable) as refused:
                call()
            self.assertIs(refused.exception.number, number)
        for words in ((-1,), (1, 10**9), (2**64,), (1, 0, -1), (1, 0, 1, -1)):
            self.assertRaises(ValueError, writer.write, b"a", *words)
        self.assertRaises(ValueError, pcapfile.Writer, io.BytesIO(), "pcapng2")
        self.assertRaises(pcapfile.Unwritable, pcapfile.Writer, io.BytesIO(), "pcapng", link=65536)
        self.assertEqual(file.getvalue(), before)
        writer.write(b"a", 1)
        self.assertEqual(file.getvalue(), before + enhanced(0, 10**9, b"a", 1))

    def test_refusals_can_be_pickled(self):
        refused = pcapfile.Unwritable(pcapfile.Rule.LINK_TOO_LARGE)
        again = pickle.loads(pickle.dumps(refused))
        self.assertEqual((type(again), again.number, again.rule, str(again)), (type(refused), refused.number, refused.rule, str(refused)))

    def test_a_wrong_argument_leaves_a_file_as_it_was(self):
        with tempfile.TemporaryDirectory() as room:
            name = os.path.join(room, "capture.pcapng")
            with open(name, "wb") as file:
                file.write(SECTION)
            for words in ({"link": 65536}, {"link": -1}, {"snaplen": 1 << 32}, {"byteorder": "middle"}, {"link": 65536, "max_bytes": 9}):
                self.assertRaises(ValueError, pcapfile.Writer, name, **words)
            wrong = {"nanoseconds": ("x", 1, None), "append": ("x",), "link": ("1",), "snaplen": (None,), "like": (name,)}
            for word, values in wrong.items():
                for value in values:
                    self.assertRaises(TypeError, pcapfile.Writer, name, **{word: value})
            with open(name, "rb") as file:
                self.assertEqual(file.read(), SECTION)
            self.assertEqual(os.listdir(room), ["capture.pcapng"])

    def test_what_every_reader_refuses_is_not_written(self):
        file = io.BytesIO()
        writer = pcapfile.Writer(file)
        before = file.getvalue()
        for data, original, rule in (
            (bytes(262_145), None, pcapfile.Rule.INCLUDED_TOO_LONG),
            (bytes(300_000), 5, pcapfile.Rule.INCLUDED_TOO_LONG),
            (b"abc", 262_145, pcapfile.Rule.ORIGINAL_TOO_LONG),
            (b"abc", 2, pcapfile.Rule.INCLUDED_PAST_ORIGINAL),
        ):
            with self.assertRaises(pcapfile.Unwritable) as refused:
                writer.write(data, 1, original_length=original)
            self.assertIs(refused.exception.number, rule)
            # Readers refuse these bytes by the same rule.
            length = len(data) if original is None else original
            refusal = before + struct.pack("<IIII", 1, 0, len(data), length) + data
            with self.assertRaises(pcapfile.Invalid) as read:
                list(pcapfile.parse(refusal))
            self.assertIs(read.exception.number, rule)
        self.assertEqual(file.getvalue(), before)
        writer.write(bytes(262_144), 1)
        writer.write(b"abc", 2, original_length=262_144)
        with pcapfile.parse(file.getvalue()) as capture:
            self.assertEqual([(p.length, p.original_length) for p in capture], [(262_144, 262_144), (3, 262_144)])

    def test_one_interface_of_a_classic_capture(self):
        writer = pcapfile.Writer(io.BytesIO())
        self.assertRaises(ValueError, writer.add_interface, 1)
        self.assertRaises(ValueError, writer.write, b"a", 1, interface=1)
        self.assertRaises(ValueError, writer.write, b"a", 2**32)

    def copied(self, capture, **words):
        """Returns what the Writer writes for each packet of a capture that has a time."""
        file = io.BytesIO()
        with pcapfile.Writer(file, **words) as writer:
            for each in capture:
                if each.seconds is not None:
                    writer.write_packet(each)
        return file.getvalue()

    def test_packets_of_another_capture_keep_all_that_they_have(self):
        """Packets keep their options and comments, and the names and clocks of their interfaces."""
        section = given.block(0x0A0D0D0A, struct.pack("<IHHq", 0x1A2B3C4D, 1, 0, -1) + option(1, b"of all") + option(0, b""))
        clock = given.interface(9, 60, option(9, b"\x94") + option(14, struct.pack("<q", 7)) + option(2, b"slow") + option(0, b""))
        packets = COMMENTED + OLD + SIMPLE + given.enhanced(1, 3 << 19, b"x") + given.enhanced(0, 5, b"")
        data = section + NAMED + clock + packets
        with pcapfile.parse(data) as capture:
            wanted = [told(p) for p in capture if p.seconds is not None]
            faces = [(face, face.name, face.comment) for face in capture.interfaces]
            copy = self.copied(capture, like=capture)
        with pcapfile.parse(copy) as capture:
            self.assertEqual([told(p) for p in capture], wanted)
            self.assertEqual([(face, face.name, face.comment) for face in capture.interfaces], faces)
            self.assertEqual(capture.section.comment, "of all")
        # The copy lacks only the simple packet. All other blocks are the same.
        self.assertEqual(sorted(bytes(b.body) for b in pcapfile.parse(copy).blocks()), sorted(bytes(b.body) for b in pcapfile.parse(data.replace(SIMPLE, b"")).blocks()))

    def test_interfaces_come_with_their_packets(self):
        """The only packet belongs to the third interface, which becomes the first one of the copy."""
        data = SECTION + NAMED + given.interface(7) + given.interface(9, 60, option(2, b"third") + option(0, b"")) + given.enhanced(2, 5, b"abc")
        with pcapfile.parse(data) as capture:
            copy = self.copied(capture, like=capture)
        with pcapfile.parse(copy) as capture:
            self.assertEqual([(p.interface_id, p.interface.name, p.timestamp, bytes(p)) for p in capture], [(0, "third", 5, b"abc")])
            self.assertEqual(len(capture.interfaces), 1)

    def test_packets_of_the_other_order(self):
        with pcapfile.parse(BIG) as capture:
            (only,) = capture
            self.assertEqual(self.copied(capture, like=capture).count(b"big"), 1)
            file = io.BytesIO()
            writer = pcapfile.Writer(file, "pcapng")
            writer.write_packet(only)
            writer.write_packet(only, without_options=True)
            with pcapfile.parse(file.getvalue()) as copy:
                self.assertEqual([(p.comment, bytes(p)) for p in copy], [("big", b"xyz"), (None, b"xyz")])

    def test_options_of_the_other_order(self):
        """Numbers in options get the byte order of the capture, if they are known."""
        known = [(1, b"text"), (2, struct.pack(">I", 0x01020304)), (4, struct.pack(">Q", 5)), (2989, struct.pack(">I", 7) + b"ab")]
        face = [(2, b"eth0"), (8, struct.pack(">Q", 10**9)), (11, b"\0tcp"), (13, b"\4"), (2988, struct.pack(">I", 7) + b"x")]
        for options, faces, number in ((known, face, None), ([(3, b"\2hash")], [], 3), ([], [(11, b"\1code")], 11), ([], [(99, b"")], 99)):
            file, out = io.BytesIO(), io.BytesIO()
            with pcapfile.Writer(file, "pcapng", link=None, byteorder="big") as writer:
                writer.add_interface(7, options=faces)
                writer.write(b"abc", TIME, options=options)
            with pcapfile.parse(file.getvalue()) as capture, pcapfile.Writer(out, "pcapng", link=None) as writer:
                (only,) = capture
                if number is not None:
                    self.assertRaisesRegex(ValueError, f"option {number}, .* big-endian", writer.write, only)
                    continue
                writer.write(only)
            with pcapfile.parse(out.getvalue()) as capture:
                (copy,) = capture
                turned = [(1, b"text"), (2, struct.pack("<I", 0x01020304)), (4, struct.pack("<Q", 5)), (2989, struct.pack("<I", 7) + b"ab")]
                self.assertEqual([(it.code, bytes(it.value)) for it in copy.options], turned)
                wanted = [(9, b"\x09"), (2, b"eth0"), (8, struct.pack("<Q", 10**9)), (11, b"\0tcp"), (13, b"\4"), (2988, struct.pack("<I", 7) + b"x")]
                self.assertEqual([(it.code, bytes(it.value)) for it in copy.interface.block.options], wanted)

    def test_packets_of_the_other_format(self):
        with pcapfile.parse(given.HEADER + given.packet(7, 8, b"abc", 5)) as capture:
            self.assertEqual(self.copied(capture, like=capture), given.HEADER + given.packet(7, 8, b"abc", 5))
            copy = self.copied(capture, format="pcapng", link=5)
        with pcapfile.parse(copy) as capture:
            self.assertEqual([(p.time_ns, bytes(p), p.link, p.original_length) for p in capture], [(7_000_008_000, b"abc", 1, 5)])
        with pcapfile.parse(SECTION + NAMED + COMMENTED + SIMPLE + given.enhanced(0, 1, b"x")) as capture:
            commented, simple, plain = capture
        writer = pcapfile.Writer(io.BytesIO(), link=113)
        self.assertRaisesRegex(ValueError, "options", writer.write_packet, commented)
        self.assertRaisesRegex(ValueError, "time", writer.write_packet, simple)
        writer.write_packet(commented, without_options=True)
        writer.write_packet(plain)
        self.assertRaisesRegex(ValueError, "link type", pcapfile.Writer(io.BytesIO()).write_packet, plain)
        self.assertRaisesRegex(ValueError, "time", pcapfile.Writer(io.BytesIO(), "pcapng").write_packet, simple)
        with pcapfile.parse(SECTION + given.enhanced(0, 1, b"x")) as capture:
            self.assertRaisesRegex(ValueError, "interface", pcapfile.Writer(io.BytesIO(), "pcapng").write_packet, next(iter(capture)))

    @unittest.skipIf(_columns.numpy is None, "numpy is missing")
    def test_rows(self):
        """Writes chosen rows of columns and of a DataFrame, with the bytes in the capture."""
        classic = given.HEADER + b"".join(given.packet(n, n, bytes([n]) * n, 100) for n in range(50))
        blocks = given.SECTION + given.INTERFACE + given.NANOSECONDS + b"".join(given.enhanced(n % 2, 10**9 * n, bytes([n]) * n) for n in range(50))
        with tempfile.TemporaryDirectory() as room:
            for data, links in ((classic, [1]), (blocks, [113, 1])):
                name = os.path.join(room, "capture")
                with open(name, "wb") as file:
                    file.write(data)
                with pcapfile.open(name) as capture:
                    wanted = [(p.time_ns, bytes(p), p.original_length, p.link) for p in capture][7::3][::-1]
                    (rows,) = capture.columns()
                    chosen = [rows[7::3][::-1]]
                    if pandas is not None:
                        chosen.append(capture.to_pandas().iloc[7::3].iloc[::-1])
                    for these in chosen:
                        for source in (capture, data):
                            file = io.BytesIO()
                            with pcapfile.Writer(file, "pcapng") as writer:
                                self.assertEqual(writer.write_rows(these, source), len(wanted))
                            with pcapfile.parse(file.getvalue()) as copy:
                                self.assertEqual([(p.time_ns, bytes(p), p.original_length, p.link) for p in copy], wanted)
                    with self.assertRaisesRegex(ValueError, "link type"):
                        pcapfile.Writer(io.BytesIO(), link=9).write_rows(rows, capture)
                    with self.assertRaisesRegex(ValueError, "passes the end"):
                        pcapfile.Writer(io.BytesIO(), "pcapng").write_rows(rows, data[:100])
        with pcapfile.parse(SECTION + NAMED + SIMPLE) as capture:
            (rows,) = capture.columns()
            with self.assertRaisesRegex(ValueError, "no time"):
                pcapfile.Writer(io.BytesIO(), "pcapng").write_rows(rows, capture)

    def test_appending(self):
        """Writing in two turns gives the same file as writing in one."""
        with tempfile.TemporaryDirectory() as room:
            for number, words in enumerate(({}, {"byteorder": "big", "nanoseconds": False}, {"format": "pcapng"}, {"format": "pcapng", "byteorder": "big"})):
                name = os.path.join(room, str(number))
                for turn in range(2):
                    with pcapfile.Writer(name, append=True, **(words if turn == 0 else {})) as writer:
                        for length in (2 * turn, 2 * turn + 1):
                            writer.write(b"abc"[:length], TIME + length, 152_630_999, 98)
                with open(name, "rb") as file:
                    self.assertEqual(file.read(), written(**words))
            with pcapfile.Writer(name, append=True) as writer:
                writer.write(b"x", 5, interface=writer.add_interface(113))
            with pcapfile.open(name) as capture:
                self.assertEqual([p.link for p in capture], [1, 1, 1, 1, 113])
            os.truncate(name, os.path.getsize(name) - 1)
            self.assertRaises(pcapfile.Incomplete, pcapfile.Writer, name, append=True)
            with open(name, "wb") as file:
                file.write(gzip.compress(written()))
            self.assertRaisesRegex(ValueError, "compressed", pcapfile.Writer, name, append=True)
            self.assertRaises(TypeError, pcapfile.Writer, io.BytesIO(), append=True)

    def test_arguments_that_contradict_the_file_or_the_other_capture(self):
        """A file that is continued keeps its properties, and so does a capture like another one. Equal arguments are accepted."""
        classic = {"format": "pcap", "link": 113, "snaplen": 60, "byteorder": "big", "nanoseconds": False}
        blocks = {"format": "pcapng", "link": 113, "snaplen": 60, "byteorder": "big"}
        others = {"format": "pcap", "link": 101, "snaplen": 61, "byteorder": "little", "nanoseconds": True}
        with tempfile.TemporaryDirectory() as room:
            name = os.path.join(room, "it")
            for words in (classic, blocks):
                whole = written(**words)
                with open(name, "wb") as file:
                    file.write(whole)
                with pcapfile.parse(whole) as capture:
                    for word, value in words.items():
                        other = "pcapng" if (word, value) == ("format", "pcap") else others[word]
                        wanted = f"^{word} is {other!r}, "
                        with self.subTest(words=words, word=word):
                            self.assertRaisesRegex(ValueError, wanted, pcapfile.Writer, name, append=True, **{word: other})
                            self.assertRaisesRegex(ValueError, wanted, pcapfile.Writer, name, like=capture, **{word: other})
                            with open(name, "rb") as file:
                                self.assertEqual(file.read(), whole)
                with pcapfile.Writer(name, append=True, **words) as writer:
                    writer.write(b"more", TIME)
                with pcapfile.open(name) as capture:
                    self.assertEqual([(bytes(p), p.link) for p in capture][-2:], [(b"abc", 113), (b"more", 113)])
                with pcapfile.parse(whole) as capture:
                    same = classic if words is classic else {"format": "pcapng", "byteorder": "big"}
                    self.assertEqual(self.copied(capture, like=capture, **same), self.copied(capture, like=capture))
            # Without a link type the Writer adds no interface, which contradicts nothing.
            pcapfile.Writer(name, append=True, link=None).close()
            with open(name, "wb") as file:
                file.write(SECTION)
            self.assertRaisesRegex(ValueError, "^link is 1, ", pcapfile.Writer, name, append=True, link=1)

    def test_no_writer_empties_the_file_that_a_capture_reads(self):
        """The file keeps its bytes, by whatever name the Writer has it. After the capture is closed or gone, the Writer empties it."""
        whole = written()
        with tempfile.TemporaryDirectory() as room:
            names = [os.path.join(room, it) for it in ("it.pcap", "soft.pcap", "hard.pcap", "n-00001.pcap")]
            with open(names[0], "wb") as file:
                file.write(whole)
            os.symlink("it.pcap", names[1])
            os.link(names[0], names[2])
            os.link(names[0], names[3])
            (part,) = pcapfile.parts(names[0], 1)

            def refuses(**words):
                for name in names[:3]:
                    with self.assertRaisesRegex(ValueError, "is being read"):
                        pcapfile.Writer(name, **words)
                self.assertRaisesRegex(ValueError, "is being read", pcapfile.Writer, os.path.join(room, "n.pcap"), max_bytes=500, **words)
                with open(names[0], "rb") as file:
                    self.assertEqual(file.read(), whole)

            for opened in (
                pcapfile.open,
                lambda name: pcapfile.open(name, strict=False),
                lambda name: pcapfile.open(name, follow=True),
                lambda name: pcapfile.open(os.open(name, os.O_RDONLY)),
                lambda _: part.open(),
            ):
                with opened(names[1]) as capture:
                    refuses()
                    refuses(like=capture)
                    self.assertEqual(bytes(next(iter(capture))), b"")
            packets = iter(pcapfile.open(names[0]))
            next(packets)
            refuses()
            del packets
            pcapfile.Writer(names[1]).close()
            self.assertEqual(os.path.getsize(names[0]), 24)
            with pcapfile.Writer(names[0]) as writer:
                writer.write(b"abc", 5)
            capture = pcapfile.open(names[0])
            del capture
            pcapfile.Writer(names[0]).close()

    def test_appending_to_the_file_that_a_capture_reads(self):
        """The capture ends where the file ended when it was opened."""
        with tempfile.TemporaryDirectory() as room:
            for form in ("pcap", "pcapng"):
                name = os.path.join(room, form)
                with open(name, "wb") as file:
                    file.write(written(format=form))
                with pcapfile.open(name) as capture, pcapfile.Writer(name, like=capture, append=True) as writer:
                    for packet in capture:
                        writer.write(bytes(packet), time_ns=packet.time_ns)
                with pcapfile.open(name) as capture:
                    self.assertEqual([bytes(p) for p in capture], 2 * [b"abc"[:n] for n in range(4)])

    def appended(self, data, *calls):
        """Returns the file with these bytes after a Writer goes on with it and makes these calls."""
        with tempfile.TemporaryDirectory() as room:
            name = os.path.join(room, "it")
            with open(name, "wb") as file:
                file.write(data)
            with pcapfile.Writer(name, append=True) as writer:
                for call in calls:
                    call(writer)
            self.assertRaises(ValueError, writer.write, b"a", 1)
            with open(name, "rb") as file:
                return file.read()

    def test_the_length_of_a_section_that_goes_on(self):
        """The first block makes the length of the last section unspecified, -1, in both byte orders. Other sections stay the same."""
        for order, other in ("<>", "><"):
            first = section_of(other, 32 + 36) + nanoseconds(other) + three_bytes(other, 7)
            for header in (section_of, commented_section_of):
                last = nanoseconds(order) + three_bytes(order, 1)
                for call, block in (
                    (lambda writer: writer.write(b"abc", 5), three_bytes(order, 5)),
                    (lambda writer: writer.write_block(77, b""), struct.pack(order + "III", 77, 12, 12)),
                    (lambda writer: writer.add_interface(1, 0), nanoseconds(order)),
                ):
                    for length in (32 + 36, 0, -1):
                        got = self.appended(first + header(order, length) + last, call, lambda writer: writer.write(b"abc", 6))
                        self.assertEqual(got, first + header(order, -1) + last + block + three_bytes(order, 6))

    def test_the_length_of_a_section_that_ends(self):
        """A file without a new block, and a section before a new section header, stay the same."""
        for order in "<>":
            data = section_of(order, 32) + nanoseconds(order)

            def refused(writer):
                self.assertRaises(ValueError, writer.write, b"abc", -1)
                self.assertRaises(pcapfile.Unwritable, writer.write, b"abc", 1, interface=1)

            def another(writer):
                writer.write_block(0x0A0D0D0A, section_of(order, 36 + 32)[8:-4])
                writer.write_block(1, nanoseconds(order)[8:-4])
                writer.write(b"abc", 5)

            for calls in ((), (refused,)):
                self.assertEqual(self.appended(data, *calls), data)
            wanted = data + section_of(order, 36 + 32) + nanoseconds(order) + three_bytes(order, 5)
            self.assertEqual(self.appended(data, refused, another), wanted)

    def test_a_length_that_can_not_be_written(self):
        """The error reaches the caller, later calls fail too, and the file stays the same."""

        def failing(writer):
            with mock.patch("os.pwrite", side_effect=OSError(28, "no space left")):
                self.assertRaisesRegex(OSError, "no space left", writer.write, b"abc", 5)
            self.assertRaises(OSError, writer.write, b"abc", 5)

        data = section_of("<", 32) + nanoseconds("<")
        self.assertEqual(self.appended(data, failing), data)

    def test_the_units_of_an_interface(self):
        """A packet's time is written in the units of its interface, whether the interface was in the file or came from another capture."""
        clocks = {  # if_tsresol and if_tsoffset, the units of the time below, and the nanoseconds that remain
            (6, 0): (TIME * 10**6 + 152_630, 152_630_000),
            (9, 0): (TIME * 10**9 + 152_630_999, 152_630_999),
            (3, 1000): ((TIME - 1000) * 10**3 + 152, 152_000_000),
            (0x80 | 1, -5): ((TIME + 5) * 2, 0),
        }
        section = struct.pack("<IIIHHqI", 0x0A0D0D0A, 28, 0x1A2B3C4D, 1, 0, -1, 28)
        interfaces = [
            struct.pack("<IIHHIHHB3xHHqHHI", 1, 44, 1, 0, 0, 9, 1, resolution, 14, 8, offset, 0, 0, 44) for resolution, offset in clocks
        ]
        packet = struct.pack("<IIIIIII", 6, 32, 0, 0, 0, 0, 0) + struct.pack("<I", 32)
        with tempfile.TemporaryDirectory() as room:
            name = os.path.join(room, "it")
            with open(name, "wb") as file:
                file.write(section + b"".join(interfaces))
            with pcapfile.Writer(name, append=True) as writer:
                for number in range(len(clocks)):
                    writer.write(b"", TIME, 152_630_999, interface=number)
                writer.write(b"", TIME, 152_630_999, interface=writer.add_interface(1))
            with pcapfile.open(name) as capture:
                self.assertEqual([p.timestamp for p in capture], [units for units, _ in clocks.values()] + [TIME * 10**9 + 152_630_999])
            with pcapfile.open(name) as capture:
                self.assertEqual([p.nanoseconds for p in capture], [it for _, it in clocks.values()] + [152_630_999])
        for interface, (units, _) in zip(interfaces, clocks.values()):
            with pcapfile.parse(section + interface + packet) as source:
                made = io.BytesIO()
                with pcapfile.Writer(made, like=source) as writer:
                    for it in source:
                        writer.write_packet(it)
                    writer.write(b"", TIME, 152_630_999)
            with pcapfile.parse(made.getvalue()) as capture:
                self.assertEqual([p.timestamp for p in capture], [0, units])
        self.assertRaises(ValueError, pcapfile.Writer(io.BytesIO(), "pcapng").write, b"", -1)

    def test_floats_are_rounded_to_microseconds(self):
        """The nearest microsecond of a float is the one that its decimal digits show. Other times stay exact."""
        file = io.BytesIO()
        with pcapfile.Writer(file, nanoseconds=False) as writer:
            for time in (1700000000.1, 1700000000.100001, 1700000000.999999, 4294967295.999999, 0.000001, 1700000000.9999999):
                writer.write(b"x", time)
        with pcapfile.parse(file.getvalue()) as capture:
            wanted = [(1700000000, 100000), (1700000000, 100001), (1700000000, 999999), (4294967295, 999999), (0, 1), (1700000001, 0)]
            self.assertEqual([(p.seconds, p.nanoseconds // 1000) for p in capture], wanted)
        file = io.BytesIO()
        exact = [Fraction(TIME * 10**9 + 1, 10**9), Decimal("1335958313.000000001"), datetime.datetime.fromtimestamp(TIME, datetime.timezone.utc)]
        with pcapfile.Writer(file) as writer:
            for time in exact:
                writer.write(b"x", time)
            writer.write(b"x", time_ns=TIME * 10**9 + 1)
            writer.write(b"x", 1700000000.1)
        with pcapfile.parse(file.getvalue()) as capture:
            ones = [TIME * 10**9 + n for n in (1, 1, 0, 1)]
            self.assertEqual([p.time_ns for p in capture], [*ones, 1700000000_100000000])

    def test_copies_by_float_keep_microseconds(self):
        """Each time of a capture in microseconds survives a copy by `time`."""
        times = [(seconds, n * 7919 % 10**6) for n in range(2000) for seconds in (0, TIME, 1_700_000_000, 2**32 - 1)]
        data = given.HEADER + b"".join(given.packet(*time, b"") for time in times)
        file = io.BytesIO()
        with pcapfile.parse(data) as capture, pcapfile.Writer(file, like=capture) as writer:
            for packet in capture:
                writer.write(bytes(packet), packet.time, original_length=packet.original_length)
        self.assertEqual(file.getvalue(), data)

    def test_a_failed_write_leaves_a_beginning(self):
        for words in ({"format": "pcap"}, {"format": "pcapng"}):
            whole = written(**words)
            for room in range(len(whole)):
                file, writer = Full(room, most=5), None
                try:
                    writer = pcapfile.Writer(file, **words)
                    for length in range(4):
                        writer.write(b"abc"[:length], TIME + length, 152_630_999, 98)
                except OSError as error:
                    self.assertEqual(error.errno, 28)
                    self.assertEqual(file.data, whole[:room])
                    if writer is not None:
                        self.assertRaises(OSError, writer.write, b"a", 1)
                        writer.close()
                        self.assertRaisesRegex(ValueError, "closed", writer.write, b"a", 1)
                else:
                    self.fail("a file took more than it had room for")
                self.assertEqual(file.data, whole[:room])

    def test_a_large_packet(self):
        file = io.BytesIO()
        data = bytes(range(256)) * 1000
        with pcapfile.Writer(file, "pcapng") as writer:
            writer.write(data, 1)
        with pcapfile.parse(file.getvalue()) as capture:
            self.assertEqual([bytes(p.data) for p in capture], [data])

    def test_files_by_name(self):
        with tempfile.TemporaryDirectory() as room:
            name = os.path.join(room, "capture.pcapng")
            with pcapfile.Writer(name, "pcapng") as writer:
                writer.write(b"abc", TIME, 5, 98)
            self.assertRaises(ValueError, writer.write, b"a", 1)
            with pcapfile.open(name) as capture:
                self.assertEqual([(p.seconds, p.nanoseconds, bytes(p.data)) for p in capture], [(TIME, 5, b"abc")])

    def test_options(self):
        """Interfaces and packets have the given options, in their order, in both byte orders."""
        for order, mark in (("little", "<"), ("big", ">")):
            file = io.BytesIO()
            with pcapfile.Writer(file, "pcapng", link=None, byteorder=order) as writer:
                first = writer.add_interface(113, 96, name="eth0", description="the first", fcs_len=4, options=[(12, "Linux"), (1, b"hm")])
                writer.write(b"abc", TIME, interface=first, comment="seen", options=[(4, struct.pack(mark + "Q", 5)), (1, "again")])
                writer.write(b"abcd", TIME, interface=writer.add_interface(1, options=iter([(2, memoryview(b"xlo")[1:])])))
            # Each value follows from the drafts' layout of an option: code, length, value and zeros up to a multiple of 4.
            texts = [(9, b"\x09"), (2, b"eth0"), (3, b"the first"), (13, b"\x20"), (12, b"Linux"), (1, b"hm")]
            padded = [struct.pack(mark + "HH", code, len(value)) + value + bytes(-len(value) % 4) for code, value in texts]
            body = struct.pack(mark + "HHI", 113, 0, 96) + b"".join(padded) + bytes(4)
            self.assertIn(struct.pack(mark + "II", 1, len(body) + 12) + body + struct.pack(mark + "I", len(body) + 12), file.getvalue())
            with pcapfile.parse(file.getvalue()) as capture:
                blocks = [(block.type, [(it.code, bytes(it.value)) for it in block.options]) for block in capture.blocks()]
                wanted = [(1, b"seen"), (4, struct.pack(mark + "Q", 5)), (1, b"again")]
                self.assertEqual(blocks, [(0x0A0D0D0A, []), (1, texts), (6, wanted), (1, [(9, b"\x09"), (2, b"lo")]), (6, [])])
                self.assertEqual([(p.time_ns, bytes(p), p.link, p.comment) for p in capture], [(TIME * 10**9, b"abc", 113, "seen"), (TIME * 10**9, b"abcd", 1, None)])

    def test_options_that_are_refused_change_nothing(self):
        for words in ({"format": "pcapng"}, {"format": "pcap"}):
            file = io.BytesIO()
            writer = pcapfile.Writer(file, **words)
            before = file.getvalue()
            for options in ([(0, b"")], [(65536, b"")], [(1, bytes(65536))], [(1, b"a"), (-1, b"")]):
                self.assertRaises(ValueError, writer.write, b"a", 1, options=options)
                self.assertRaises(ValueError, writer.add_interface, 1, options=options)
            for code in (9, 14):
                self.assertRaises(ValueError, writer.add_interface, 1, options=[(code, b"\x06")])
            for argument in ("name", "description"):
                self.assertRaises((TypeError, ValueError), writer.add_interface, 1, **{argument: b"eth0"})
            self.assertRaises(ValueError, writer.add_interface, 1, fcs_len=32)
            self.assertEqual(file.getvalue(), before)
        self.assertRaisesRegex(ValueError, "no place for options", writer.write, b"a", 1, comment="a")
        self.assertRaisesRegex(ValueError, "no blocks", writer.write_block, 5, b"")

    def test_times(self):
        utc, east = datetime.timezone.utc, datetime.timezone(datetime.timedelta(hours=5))
        times = [
            ((TIME,), {}, TIME * 10**9),
            ((TIME, 5), {}, TIME * 10**9 + 5),
            ((1.5,), {}, 1_500_000_000),
            ((Fraction(1, 3),), {}, 333_333_333),
            ((Decimal("1.000000001"),), {}, 1_000_000_001),
            ((datetime.datetime(1970, 1, 2, 0, 0, 0, 7, utc),), {}, 86400 * 10**9 + 7000),
            ((datetime.datetime(1970, 1, 2, 5, tzinfo=east),), {}, 86400 * 10**9),
            ((), {"time_ns": 2**63 + 1}, 2**63 + 1),
        ]
        if _columns.numpy is not None:
            for text, wanted in (("1970-01-02", 86400 * 10**9), ("1970-01-01T00:00:00.000000003", 3), ("1971", 365 * 86400 * 10**9)):
                times.append(((_columns.numpy.datetime64(text),), {}, wanted))
            times.append(((_columns.numpy.int64(7),), {}, 7 * 10**9))
            times.append(((_columns.numpy.float64(0.5),), {}, 500_000_000))
            with self.assertRaisesRegex(ValueError, "NaT"):
                pcapfile.Writer(io.BytesIO()).write(b"", _columns.numpy.datetime64("NaT"))
        for given_time, words, wanted in times:
            file = io.BytesIO()
            with pcapfile.Writer(file, "pcapng") as writer:
                writer.write(b"a", *given_time, **words)
            with pcapfile.parse(file.getvalue()) as capture:
                self.assertEqual([p.timestamp for p in capture], [wanted], given_time)

    def test_the_name_gives_the_format(self):
        with tempfile.TemporaryDirectory() as room:
            for name, form in (("a.pcapng", "pcapng"), ("b.PCAPNG", "pcapng"), ("c.pcap", "pcap"), ("pcapng", "pcap"), ("d.cap", "pcap")):
                path = os.path.join(room, name)
                pcapfile.Writer(path if name != "c.pcap" else os.fsencode(path)).close()
                with pcapfile.open(path) as capture:
                    self.assertEqual(capture.format, form, name)
            pcapfile.Writer(os.path.join(room, "e.pcapng"), "pcap").close()
            with pcapfile.open(os.path.join(room, "e.pcapng")) as capture:
                self.assertEqual(capture.format, "pcap")

    def test_blocks_are_copied(self):
        """Every kind of block is copied byte for byte, with sections in both byte orders."""
        others = [(4, names()), (5, bytes(12)), (9, b"a=b\n"), (10, b"\1\2\3\4\4\0\0\0abcd"), (0xBAD, b"\1\0\0\0rest"), (77, b"")]
        raw = b"".join(given.block(kind, body) for kind, body in others)
        data = SECTION + NAMED + given.interface(7) + COMMENTED + raw + OLD + SIMPLE + BIG + SECTION + given.interface(9) + given.enhanced(0, 5, b"abc")
        file = io.BytesIO()
        with pcapfile.parse(data) as capture, pcapfile.Writer(file, "pcapng", link=None) as writer:
            for block in capture.blocks():
                writer.write_block(block)
        self.assertEqual(file.getvalue(), data)
        # Packets of interfaces that were copied belong to the copies.
        file = io.BytesIO()
        data = SECTION + given.interface(7) + NAMED + COMMENTED + given.enhanced(1, 5, b"abc")
        with pcapfile.parse(data) as capture, pcapfile.Writer(file, "pcapng", link=None) as writer:
            for block in list(capture.blocks())[:3]:
                writer.write_block(block)
            for packet in capture:
                writer.write(packet)
        self.assertEqual(file.getvalue(), data)

    def test_blocks_by_their_numbers(self):
        file = io.BytesIO()
        with pcapfile.Writer(file, "pcapng", byteorder="big") as writer:
            start = len(file.getvalue())
            writer.write_block(0xBAD, b"abcde")
            writer.write_block(1, struct.pack(">HHI", 113, 0, 0))
            writer.write(b"x", 1, interface=1)
        self.assertEqual(file.getvalue()[start:], struct.pack(">II8sI", 0xBAD, 20, b"abcde\0\0\0", 20) + struct.pack(">IIHHII", 1, 20, 113, 0, 0, 20) + file.getvalue()[start + 40 :])
        with pcapfile.parse(file.getvalue()) as capture:
            self.assertEqual([(p.link, p.time_ns) for p in capture], [(113, 10**9)])

    def test_blocks_that_are_refused(self):
        file = io.BytesIO()
        writer = pcapfile.Writer(file, "pcapng", link=None)
        for kind, body, kind_of_error in (
            (1, b"abc", pcapfile.Unwritable),
            (1, struct.pack("<HHI", 1, 0, 0) + option(9, b"ab") + option(0, b""), pcapfile.Unwritable),
            (1, struct.pack("<HHI", 1, 0, 0) + option(2, b"\xff") + option(0, b""), ValueError),
            (0x0A0D0D0A, b"abcd" + bytes(12), pcapfile.Unwritable),
        ):
            with self.assertRaises(kind_of_error):
                writer.write_block(kind, body)
        big = next(pcapfile.parse(BIG).blocks())
        interface_of_it = list(pcapfile.parse(BIG).blocks())[1]
        self.assertRaisesRegex(ValueError, "big-endian", writer.write_block, interface_of_it)
        self.assertRaises(ValueError, writer.write_block, big, b"")
        self.assertRaises(TypeError, writer.write_block, 5)
        self.assertRaises(TypeError, writer.write_block, "5", b"")
        self.assertIn(file.getvalue(), (b"", SECTION))
        writer.close()
        self.assertEqual(file.getvalue(), SECTION)

    def test_a_packet_is_written_as_it_was(self):
        for data, words in ((given.HEADER + given.packet(7, 8, b"abc", 5), {}), (SECTION + NAMED + COMMENTED + given.enhanced(0, 1, b"x"), {})):
            with pcapfile.parse(data) as capture:
                file = io.BytesIO()
                with pcapfile.Writer(file, like=capture) as writer:
                    for packet in capture:
                        writer.write(packet)
                self.assertEqual(file.getvalue(), data)

    @unittest.skipUnless(shutil.which("tshark"), "tshark is not installed")
    def test_tshark_reads_it(self):
        fields = ["-T", "fields", "-e", "frame.time_epoch", "-e", "frame.cap_len", "-e", "frame.len"]
        for words in ({"format": "pcap"}, {"format": "pcapng"}, {"format": "pcapng", "byteorder": "big"}):
            with tempfile.NamedTemporaryFile() as file:
                file.write(written(**words))
                file.flush()
                told = subprocess.run(["tshark", "-r", file.name, *fields], capture_output=True, text=True, check=True).stdout
            wanted = [f"{TIME + n}.152630999\t{n}\t98" for n in range(4)]
            self.assertEqual(told.split("\n")[:-1], wanted)


if __name__ == "__main__":
    unittest.main()
