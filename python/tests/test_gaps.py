"""Tests of what lenient reading skips. Each expected value follows from the bytes beside it."""

import io
import pickle
import re
import tempfile
import unittest
import warnings
from pathlib import Path

import pcapfile
from pcapfile import Gap, Rule
from test_as_is import header, packet
from test_blocks_as_is import CAPTURE, SECTION, block
from test_blocks_as_is import packet as enhanced
from test_streams import Pauses

CORRUPT = b"\xee" * 41
MISSING = "{} bytes are missing".format


def classic(*parts):
    return header() + b"".join(parts)


class Few(io.RawIOBase):
    """A stream that gives at most `most` bytes a read."""

    def __init__(self, data, most):
        self._data, self._most = io.BytesIO(data), most

    def readable(self):
        return True

    def readinto(self, room):
        data = self._data.read(min(len(room), self._most))
        room[: len(data)] = data
        return len(data)


def p(data):
    return packet(1600000000, 5, data, len(data))


def e(data):
    return enhanced(0, 1, data)


def stating(length, data, original=None):
    """Returns a packet whose stored length is replaced by this one."""
    record = packet(1600000000, 5, data, len(data) if original is None else original)
    return record[:8] + length.to_bytes(4, "little") + record[12:]


UNIFORM = [number.to_bytes(4, "little") + bytes(56) for number in range(600)]

# Stored lengths that are wrong where the original one is right, and the rules that they break.
WRONG = [
    (2, ()),
    (9, (Rule.INCLUDED_PAST_ORIGINAL,)),
    (300000, (Rule.INCLUDED_TOO_LONG, Rule.INCLUDED_PAST_ORIGINAL)),
    (1 << 24, (Rule.INCLUDED_TOO_LONG, Rule.INCLUDED_PAST_ORIGINAL)),
    (0xFFFFFFFF, (Rule.INCLUDED_TOO_LONG, Rule.INCLUDED_PAST_ORIGINAL)),
]

# Captures, and what is found in them: the bytes of each packet, or a gap.
CLASSIC = [
    (classic(p(b"abc"), CORRUPT, p(b"d"), p(b"ef"), p(b"g")), [b"abc", Gap(43, 41, Rule.INCLUDED_TOO_LONG, ""), b"d", b"ef", b"g"]),
    (classic(p(b"abc"), bytes(64), p(b"d")), [b"abc", Gap(43, 64, None, "the bytes are all zero"), b"d"]),
    (classic(p(b"abc"), bytes(31)), [b"abc", Gap(43, 31, None, "the bytes are all zero")]),
    (classic(p(b"abc"), bytes(16), p(b"d"), bytes(16)), [b"abc", b"", b"d", b""]),
    (classic(p(b"abc"), p(b"defgh")[:-2]), [b"abc", Gap(43, 19, None, MISSING(2))]),
    (classic(p(b"abc"), p(b"defgh")[:15]), [b"abc", Gap(43, 15, None, "1 byte is missing")]),
    (classic(), []),
    # A length that is wrong by 5 bytes.
    (
        classic(packet(1600000000, 5, b"abcdef", 11)[:8] + b"\x0b" + packet(1600000000, 5, b"abcdef", 11)[9:], p(b"g"), p(b"h"), p(b"i")),
        [Gap(24, 22, None, "the stored length of the packet is wrong"), b"g", b"h", b"i"],
    ),
    # Packets of one length. Beside their places they may seem to follow each other too.
    (
        classic(*map(p, UNIFORM[:3]), stating(4000, UNIFORM[3]), *map(p, UNIFORM[4:])),
        UNIFORM,
    ),
    # Packets without data, before a packet and before corrupt bytes.
    (classic(p(b"abc"), p(b""), p(b"d")), [b"abc", b"", b"d"]),
    (
        classic(p(b"abc"), p(b""), CORRUPT, p(b"d")),
        [b"abc", Gap(43, 57, None, "the packet has no data, and none follows it"), b"d"],
    ),
    # The headers of other captures.
    (
        classic(p(b"abc"), header(">", 0xA1B23C4D), packet(7, 8, b"x", 1, ">"), header(), p(b"d")),
        [b"abc", Gap(43, 24, None, "another capture begins"), b"x", Gap(84, 24, None, "another capture begins"), b"d"],
    ),
    (
        classic(p(b"abc"), p(b"defgh")[:18], header(">"), packet(7, 8, b"x", 1, ">"), packet(7, 8, b"y", 1, ">")),
        [b"abc", Gap(43, 18, None, "the stored length of the packet is wrong"), Gap(61, 24, None, "another capture begins"), b"x", b"y"],
    ),
]
CLASSIC += [(classic(p(b"abc"), stating(length, b"abcdef"), p(b"g"), p(b"h")), [b"abc", b"abcdef", b"g", b"h"]) for length, _ in WRONG]
AT = len(CAPTURE)
BLOCKS = [
    (
        CAPTURE + e(b"abcd") + CORRUPT + e(b"efgh") + e(b"ijkl"),
        [b"abcd", Gap(AT + 36, 41, Rule.BLOCK_UNALIGNED, ""), b"efgh", b"ijkl"],
    ),
    (CAPTURE + e(b"abcd")[:33] + e(b"efgh") + e(b"ijkl"), [Gap(AT, 33, Rule.BLOCK_LENGTHS_DIFFER, ""), b"efgh", b"ijkl"]),
    # One block that is complete is enough at the end, and a section header anywhere.
    (CAPTURE + bytes(40) + e(b"abcd"), [Gap(AT, 40, Rule.BLOCK_TOO_SHORT, ""), b"abcd"]),
    (CAPTURE + bytes(40) + e(b"abcd") + b"x", [Gap(AT, 77, Rule.BLOCK_TOO_SHORT, "")]),
    (CAPTURE + bytes(40) + SECTION + b"x", [Gap(AT, 40, Rule.BLOCK_TOO_SHORT, ""), Gap(AT + 68, 1, None, MISSING(11))]),
    (CAPTURE + bytes(9) + block(0x0A0D0D0A, b"\x1a\x2b\x3c\x4d\0\1\0\0" + b"\xff" * 8, ">"), [Gap(AT, 9, Rule.BLOCK_TOO_SHORT, "")]),
    (CAPTURE + e(b"abcd")[:-1], [Gap(AT, 35, None, "1 byte is missing")]),
    (
        CAPTURE + e(b"abcd")[:7] + b"\x01" + e(b"abcd")[8:] + e(b"efgh") + e(b"ijkl"),
        [Gap(AT, 36, None, "the block has more than 16 MiB"), b"efgh", b"ijkl"],
    ),
]
ALL = CLASSIC + BLOCKS


def shown(found):
    return found if isinstance(found, Gap) else bytes(found.data)


def with_texts(wanted):
    """Puts in the texts of rules."""
    return [it._replace(text=it.rule.text) if isinstance(it, Gap) and it.rule else it for it in wanted]


class Gaps(unittest.TestCase):
    def test_packets_of_wrong_lengths(self):
        for length, flaws in WRONG:
            for before, after in (([], [b"g", b"h"]), ([b"abc"], [b"g", b"h", b"i"]), ([b"abc"], [])):
                data = classic(*map(p, before), stating(length, b"abcdef"), *map(p, after))
                found, at = list(pcapfile.parse(data, strict=False)), len(before)
                self.assertEqual([bytes(it.data) for it in found], [*before, b"abcdef", *after])
                self.assertEqual([it.has_wrong_length for it in found], [index == at for index in range(len(found))])
                self.assertEqual((found[at].flaws, found[at].original_length, found[at].seconds), (flaws, 6, 1600000000))

    def test_no_length_is_right(self):
        # The original length is wrong too, or it is that of another packet.
        long, past = Rule.INCLUDED_TOO_LONG, Rule.INCLUDED_PAST_ORIGINAL
        for length, original, rule in ((9, 8, past), (0xFFFFFFFF, 8, long), (0xFFFFFFFF, 0, long), (0xFFFFFFFF, 300000, long)):
            for before in ([], [b"abc"]):
                data = classic(*map(p, before), stating(length, b"abcdef", original), p(b"g"), p(b"h"), p(b"i"))
                wanted = [*before, Gap(24 + 19 * len(before), 22, rule, rule.text), b"g", b"h", b"i"]
                self.assertEqual([shown(it) for it in pcapfile.parse(data, strict=False, gaps=True)], wanted)
                for most in (1, 8):
                    with pcapfile.open(Few(data, most), strict=False, gaps=True) as capture:
                        self.assertEqual([shown(it) for it in capture], wanted)

    def test_of_memory(self):
        for data, wanted in ALL:
            found = [shown(it) for it in pcapfile.parse(data, strict=False, gaps=True)]
            self.assertEqual(found, with_texts(wanted))

    def test_many_blocks_of_one_length_are_not_one(self):
        # A byte before a block its length seems 256 times as large, and 256 of these blocks seem to be one.
        wanted = [Gap(AT, 33, Rule.BLOCK_LENGTHS_DIFFER, ""), *[b"abc\0"] * 520]
        found = pcapfile.parse(CAPTURE + e(b"abcd")[:33] + e(b"abc\0") * 520, strict=False, gaps=True)
        self.assertEqual([shown(it) for it in found], with_texts(wanted))

    def test_of_a_file_again_and_again(self):
        with tempfile.TemporaryDirectory() as folder:
            for number, (data, wanted) in enumerate(ALL):
                path = Path(folder, str(number))
                path.write_bytes(data)
                with pcapfile.open(path, strict=False, gaps=True) as capture:
                    for _ in range(2):
                        self.assertEqual([shown(it) for it in capture], with_texts(wanted))

    def test_of_streams_that_pause(self):
        for data, wanted in ALL:
            found, capture = [], None
            for most in (1, 7, 1000):
                stream, found, capture = Pauses(data, most), [], None
                while True:
                    try:
                        capture = capture or pcapfile.open(stream, strict=False, gaps=True)
                        found += [shown(it) for it in [next(iter(capture), None)] if it is not None] or [None]
                        if found[-1] is None:
                            break
                    except BlockingIOError:
                        pass
                self.assertEqual(found[:-1], with_texts(wanted))

    def test_without_gaps_each_is_a_warning(self):
        for data, wanted in ALL:
            with warnings.catch_warnings(record=True) as told:
                warnings.simplefilter("always")
                found = [bytes(it.data) for it in pcapfile.parse(data, strict=False)]
            self.assertEqual(found, [it for it in wanted if not isinstance(it, Gap)])
            gaps = [it for it in with_texts(wanted) if isinstance(it, Gap)]
            texts = [f"{it.length} bytes at byte {it.offset} are skipped: {it.text}" for it in gaps]
            self.assertEqual([str(it.message) for it in told], texts)
            self.assertEqual({it.category for it in told} | {it.filename for it in told}, {pcapfile.CaptureWarning, __file__} if gaps else set())

    def test_columns_and_pairs_go_on(self):
        for data, wanted in ALL:
            lengths = [len(it) for it in wanted if not isinstance(it, Gap)]
            for gaps in (False, True):
                with warnings.catch_warnings():
                    warnings.simplefilter("ignore", pcapfile.CaptureWarning)
                    batches = list(pcapfile.parse(data, strict=False, gaps=gaps).columns(2))
                    pairs = list(pcapfile.parse(data, strict=False, gaps=gaps).pairs())
                self.assertEqual([length for rows in batches for length in list(rows["len"])], lengths)
                self.assertEqual([len(data) for _, data in pairs], lengths)

    def test_links_and_times_of_another_capture(self):
        other = header(">", 0xA1B23C4D)[:-1] + b"\x71"
        found = list(pcapfile.parse(classic(p(b"abc"), other, packet(7, 8, b"x", 1, ">")), strict=False, gaps=True))
        self.assertEqual([(it.link, it.time_ns) for it in (found[0], found[2])], [(1, 1600000000000005000), (113, 7000000008)])

    def test_blocks_and_interfaces_after_a_gap(self):
        data = CAPTURE + CORRUPT + SECTION + block(1, b"\x71\0\0\0\0\0\0\0") + e(b"abcd")
        with pcapfile.parse(data, strict=False, gaps=True) as capture:
            self.assertEqual([it.link for it in capture.interfaces], [1, 1, 113])
            types = [it if isinstance(it, Gap) else it.type for it in capture.blocks()]
            self.assertEqual(types[4:], [Gap(AT, 41, Rule.BLOCK_UNALIGNED, Rule.BLOCK_UNALIGNED.text), 0x0A0D0D0A, 1, 6])
            self.assertEqual([it.link for it in capture if not isinstance(it, Gap)], [113])
        with pcapfile.parse(data, strict=False) as capture, self.assertWarns(pcapfile.CaptureWarning):
            self.assertEqual([it.type for it in capture.blocks()][4:], [0x0A0D0D0A, 1, 6])

    def test_a_long_gap(self):
        long = b"\xee" * 5_000_000
        for data, begin in ((classic(p(b"abc"), long, p(b"d"), p(b"e"), p(b"f")), 43), (CAPTURE + e(b"abcd") + long + e(b"efgh"), AT + 36)):
            for source in (data, io.BytesIO(data)):
                read = pcapfile.parse if source is data else pcapfile.open
                found = [it for it in read(source, strict=False, gaps=True)]
                self.assertEqual([(it.offset, it.length) for it in found if isinstance(it, Gap)], [(begin, 5_000_000)])
                self.assertEqual(len(found), 5 if begin == 43 else 3)

    def test_a_notebook_shows_packets_and_gaps(self):
        """It shows the first five packets and gaps: of the classic capture not the packet with "hi"."""
        classic_rows = [
            "<td>1600000000.000005</td><td>3</td><td>3</td><td>1</td><td>61 62 63</td>",
            '<td colspan="5">41 bytes at byte 43 are skipped: PacketHeader incl_len &gt; 0x40000</td>',
            "<td>1600000000.000005</td><td>1</td><td>1</td><td>1</td><td>64</td>",
            "<td>1600000000.000005</td><td>2</td><td>2</td><td>1</td><td>65 66</td>",
            "<td>1600000000.000005</td><td>1</td><td>1</td><td>1</td><td>67</td>",
        ]
        block_rows = [
            "<td>1e-09</td><td>4</td><td>98</td><td>1</td><td>61 62 63 64</td>",
            f'<td colspan="5">41 bytes at byte {AT + 36} are skipped: Block: (initial_len % 4) != 0</td>',
            "<td>1e-09</td><td>4</td><td>98</td><td>1</td><td>65 66 67 68</td>",
            "<td>1e-09</td><td>4</td><td>98</td><td>1</td><td>69 6a 6b 6c</td>",
            f'<td colspan="5">35 bytes at byte {AT + 149} are skipped: 1 byte is missing</td>',
        ]
        blocks = CAPTURE + e(b"abcd") + CORRUPT + e(b"efgh") + e(b"ijkl") + e(b"mnop")[:-1]
        for data, rows in ((classic(p(b"abc"), CORRUPT, p(b"d"), p(b"ef"), p(b"g"), p(b"hi")), classic_rows), (blocks, block_rows)):
            with pcapfile.parse(data, strict=False, gaps=True) as capture:
                self.assertEqual(re.findall("<tr>(<td.*?)</tr>", capture._repr_html_()), rows)
            with pcapfile.parse(data, strict=False) as capture, self.assertWarns(pcapfile.CaptureWarning):
                self.assertNotIn("skipped", capture._repr_html_())

    def test_gaps_can_be_pickled(self):
        gap = Gap(43, 41, Rule.INCLUDED_TOO_LONG, "text")
        self.assertEqual(pickle.loads(pickle.dumps(gap)), gap)

    def test_gaps_need_lenient_reading(self):
        with self.assertRaises(ValueError):
            pcapfile.parse(classic(), gaps=True)

    def test_what_is_no_capture_is_refused(self):
        for data in (b"", header()[:23], bytes(40), SECTION[:27], SECTION[:4] + bytes(24)):
            with self.assertRaises(pcapfile.CaptureError):
                pcapfile.parse(data, strict=False, gaps=True)


if __name__ == "__main__":
    unittest.main()
