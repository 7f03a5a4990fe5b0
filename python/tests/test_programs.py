"""Tests of the functions that run the program. Each expected value follows from the bytes beside it."""

import ctypes.util
import datetime
import os
import pickle
import struct
import subprocess
import sys
import tempfile
import unittest
import warnings
from pathlib import Path
from unittest import mock

import pcapfile
from pcapfile import _programs
from test_columns import inside, option
from test_pcapfile import HEADER, INTERFACE, SECTION, block, enhanced, interface, packet

# The header of a classic capture with nanoseconds, little-endian.
NANO_HEADER = struct.pack("<IHHiIII", 0xA1B23C4D, 2, 4, 0, 0, 65535, 1)
UTC = datetime.timezone.utc

try:
    PROGRAM = _programs.program()
except FileNotFoundError:
    PROGRAM = None


def texts(path):
    """Returns the bytes of a capture's packets."""
    with pcapfile.open(path) as capture:
        return [bytes(each) for each in capture]


def module(*words, **given):
    return subprocess.run([sys.executable, "-m", "pcapfile", *words], capture_output=True, text=True, check=False, **given)


class InFolder(unittest.TestCase):
    def setUp(self):
        folder = tempfile.TemporaryDirectory()
        self.addCleanup(folder.cleanup)
        there = inside(folder.name)
        there.__enter__()
        self.addCleanup(there.__exit__, None, None, None)
        # An unexpected warning fails the test.
        strict = warnings.catch_warnings()
        strict.__enter__()
        self.addCleanup(strict.__exit__, None, None, None)
        warnings.simplefilter("error", pcapfile.CaptureWarning)


@unittest.skipIf(PROGRAM is None, "the program pcapfile")
class Programs(InFolder):
    def test_info(self):
        Path("a.pcap").write_bytes(HEADER + packet(7, 500_000, b"abc", 60) + packet(9, 0, b"defgh", 100))
        told = pcapfile.info("a.pcap")
        self.assertEqual((told["format"], told["packets"], told["stored"], told["original"], told["link"]), ("pcap", 2, 8, 160, 1))
        self.assertEqual((told["earliest"], told["latest"], told["duration"]), ("7.500000000", "9.000000000", "1.500000000"))
        self.assertEqual((told["status"], told["bytes"], told["file"]), (0, 24 + 19 + 21, "a.pcap"))

    def test_info_of_a_capture_that_is_cut_short(self):
        Path("a.pcap").write_bytes(HEADER + packet(7, 0, b"abc") + packet(9, 0, b"defgh")[:-1])
        told = pcapfile.info("a.pcap")
        self.assertEqual((told["status"], told["packets"]), (1, 1))
        self.assertIn("cut short at byte 43", told["check"])
        with self.assertWarnsRegex(pcapfile.CaptureWarning, "20 bytes at byte 43 are of a packet that is cut short"):
            self.assertEqual(pcapfile.info("a.pcap", repaired=True)["packets"], 1)

    def test_info_of_a_malformed_capture(self):
        """The second packet stores more bytes than it had. The call neither raises nor warns, and describes the first packet."""
        Path("a.pcap").write_bytes(HEADER + packet(7, 0, b"abc") + packet(9, 0, b"defgh", 4))
        with warnings.catch_warnings():
            warnings.simplefilter("error")
            told = pcapfile.info("a.pcap")
        self.assertEqual((told["status"], told["packets"], told["stored"], told["latest"]), (1, 1, 3, "7.000000000"))
        self.assertIn("refused at byte 43 by rule 5", told["check"])

    def test_info_of_interfaces(self):
        named = interface(113, 0, option(2, b"eth7") + option(0, b""))
        Path("a.pcapng").write_bytes(SECTION + interface(1) + named + enhanced(1, 5_000_000, b"abc"))
        told = pcapfile.info(Path("a.pcapng"))
        self.assertEqual([(each["name"], each["link"], each["packets"]) for each in told["interfaces"]], [(None, 1, 0), ("eth7", 113, 1)])

    def test_merge(self):
        Path("a.pcap").write_bytes(HEADER + packet(1, 0, b"a") + packet(3, 0, b"c"))
        Path("b.pcapng").write_bytes(SECTION + INTERFACE + enhanced(0, 2_000_000, b"b") + enhanced(0, 4_000_000, b"d"))
        self.assertEqual(pcapfile.merge(["a.pcap", Path("b.pcapng")], "both.pcapng"), [])
        with pcapfile.open("both.pcapng") as capture:
            self.assertEqual([(each.time_ns, bytes(each)) for each in capture], [(n * 10**9, b"?abcd"[n : n + 1]) for n in range(1, 5)])
            self.assertEqual((capture.format, len(capture.interfaces)), ("pcapng", 2))

    def test_merge_of_a_capture_that_is_cut_short(self):
        Path("a.pcap").write_bytes(HEADER + packet(1, 0, b"a") + packet(3, 0, b"c")[:-1])
        Path("b.pcap").write_bytes(HEADER + packet(2, 0, b"b"))
        with self.assertRaisesRegex(pcapfile.ProgramError, "^a.pcap: cut short at byte 41") as told:
            pcapfile.merge(["a.pcap", "b.pcap"], "both.pcapng")
        self.assertIsInstance(told.exception, pcapfile.CaptureError)
        self.assertEqual(texts("both.pcapng"), [b"a", b"b"])

    def test_merge_of_one_name(self):
        with self.assertRaises(TypeError):
            pcapfile.merge("a.pcap", "b.pcap")

    def test_cut_by_numbers(self):
        whole = [packet(n, 0, bytes([n])) for n in range(20)]
        Path("a.pcap").write_bytes(HEADER + b"".join(whole))
        for chosen, wanted in (
            (slice(3, 7), whole[3:7]),
            (slice(17, None), whole[17:]),
            (slice(5), whole[:5]),
            (range(4, 5), whole[4:5]),
            (slice(18, 90), whole[18:]),
        ):
            with self.subTest(chosen=chosen):
                self.assertEqual(pcapfile.cut("a.pcap", "b.pcap", packets=chosen), [])
                self.assertEqual(Path("b.pcap").read_bytes(), HEADER + b"".join(wanted))
        for wrong in (slice(3, 3), slice(-2, None), slice(0, 9, 2), range(5, 2)):
            with self.subTest(wrong=wrong), self.assertRaises(ValueError):
                pcapfile.cut("a.pcap", "b.pcap", packets=wrong)

    def test_cut_by_times(self):
        whole = [packet(n, 250_000, bytes([n])) for n in range(9)]
        Path("a.pcap").write_bytes(HEADER + b"".join(whole))
        pcapfile.cut("a.pcap", "b.pcap", since=2.25, until=5.25)
        self.assertEqual(Path("b.pcap").read_bytes(), HEADER + b"".join(whole[2:5]))
        pcapfile.cut("a.pcap", "b.pcap", since=datetime.datetime(1970, 1, 1, 0, 0, 7, tzinfo=UTC))
        self.assertEqual(Path("b.pcap").read_bytes(), HEADER + b"".join(whole[7:]))
        with self.assertRaises(ValueError):
            pcapfile.cut("a.pcap", "b.pcap", since=datetime.datetime(1970, 1, 1))

    def test_cut_by_lengths(self):
        whole = [packet(n, 0, bytes([n]), 60 + n) for n in range(9)]
        Path("a.pcap").write_bytes(HEADER + b"".join(whole))
        self.assertEqual(pcapfile.cut("a.pcap", "b.pcap", min_length=62, max_length=64), [])
        self.assertEqual(Path("b.pcap").read_bytes(), HEADER + b"".join(whole[2:5]))
        with self.assertRaisesRegex(ValueError, "min_length"):
            pcapfile.cut("a.pcap", "b.pcap", min_length=-1)

    def test_cut_by_interface(self):
        packets = [enhanced(n % 2, n, bytes([n])) for n in range(6)]
        Path("a.pcapng").write_bytes(SECTION + INTERFACE * 2 + b"".join(packets))
        self.assertEqual(pcapfile.cut("a.pcapng", "b.pcapng", interface=1), [])
        self.assertEqual(Path("b.pcapng").read_bytes(), SECTION + INTERFACE * 2 + b"".join(packets[1::2]))

    @unittest.skipIf(ctypes.util.find_library("pcap") is None, "libpcap")
    def test_cut_by_expression(self):
        arp, other = bytes(12) + b"\x08\x06" + bytes(28), bytes(12) + b"\x08\x00" + bytes(28)
        whole = [packet(n, 0, arp if n % 3 == 0 else other) for n in range(9)]
        Path("a.pcap").write_bytes(HEADER + b"".join(whole))
        self.assertEqual(pcapfile.cut("a.pcap", "b.pcap", expression="arp"), [])
        self.assertEqual(Path("b.pcap").read_bytes(), HEADER + b"".join(whole[::3]))
        Path("a.pcapng").write_bytes(SECTION + interface(1) + interface(101) + enhanced(0, 1, arp))
        for file, expression in (("a.pcap", "no such"), ("a.pcapng", "arp")):
            with self.subTest(file=file), self.assertRaises(ValueError):
                pcapfile.cut(file, "b.pcap", expression=expression)

    def test_cut_into_parts(self):
        whole = [packet(n, 0, bytes(100)) for n in range(10)]
        Path("a.pcap").write_bytes(HEADER + b"".join(whole))
        for word, count, wanted in (("every", 4, [4, 4, 2]), ("parts", 2, [5, 5]), ("at_least", 300, [3, 3, 3, 1])):
            with self.subTest(word=word):
                pcapfile.cut("a.pcap", f"{word}.pcap", **{word: count})
                got = [path.read_bytes() for path in sorted(Path(".").glob(f"{word}-*.pcap"))]
                self.assertEqual([(len(each) - 24) // 116 for each in got], wanted)
                self.assertEqual(b"".join(each[24:] for each in got), b"".join(whole))
                with self.assertRaisesRegex(ValueError, word):
                    pcapfile.cut("a.pcap", "b.pcap", **{word: 0})
        with self.assertRaises(ValueError):
            pcapfile.cut("a.pcap", "b.pcap", every=2, parts=2)

    def test_cut_of_a_capture_that_is_refused(self):
        Path("a.pcap").write_bytes(HEADER + packet(1, 0, b"a") + packet(2, 0, b"bc", 1))
        with self.assertRaises(pcapfile.ProgramError) as told:
            pcapfile.cut("a.pcap", "b.pcap", every=1)
        self.assertEqual(told.exception.offset, 24 + 17)
        self.assertEqual(texts("b-00001.pcap"), [b"a"])
        again = pickle.loads(pickle.dumps(told.exception))
        self.assertEqual((str(again), again.offset), (str(told.exception), 41))

    def test_convert(self):
        Path("a.pcap").write_bytes(HEADER + packet(1, 500_000, b"abc", 60))
        self.assertEqual(pcapfile.convert("a.pcap", "a.pcapng"), [])
        with pcapfile.open("a.pcapng") as capture:
            ((time, original, data, link),) = [(each.time_ns, each.original_length, bytes(each), each.link) for each in capture]
        self.assertEqual((time, original, data, link), (1_500_000_000, 60, b"abc", 1))
        pcapfile.convert("a.pcapng", "b.pcap")
        self.assertEqual(Path("b.pcap").read_bytes(), NANO_HEADER[:16] + struct.pack("<II", 65535, 1) + packet(1, 500_000_000, b"abc", 60))
        pcapfile.convert("a.pcap", "c.pcap", to="pcap")
        self.assertEqual(Path("c.pcap").read_bytes(), Path("a.pcap").read_bytes())
        with self.assertRaises(ValueError):
            pcapfile.convert("a.pcap", "b.pcap", to="cap")

    def test_convert_says_what_it_leaves_out(self):
        Path("a.pcapng").write_bytes(SECTION + interface(1) + INTERFACE + enhanced(0, 1, b"a") + enhanced(1, 2, b"b"))
        with self.assertWarnsRegex(pcapfile.CaptureWarning, "1 packet has no place there") as told:
            lines = pcapfile.convert("a.pcapng", "a.pcap")
        self.assertEqual(told.filename, __file__)
        self.assertEqual(str(told.warning), "\n".join(lines))
        self.assertEqual(texts("a.pcap"), [b"a"])

    def test_repair(self):
        Path("a.pcap").write_bytes(HEADER + packet(1, 0, b"abc", 2) + packet(2, 0, b"d"))
        with self.assertWarns(pcapfile.CaptureWarning):
            lines = pcapfile.repair("a.pcap", "b.pcap")
        self.assertEqual(Path("b.pcap").read_bytes(), HEADER + packet(1, 0, b"abc", 3) + packet(2, 0, b"d"))
        self.assertEqual(lines[-1], "a.pcap: 1 packet kept, 1 repaired, 0 guessed, 0 left out, 0 bytes skipped")
        self.assertEqual(pcapfile.repair("b.pcap", "c.pcap"), [])

    def test_repair_without_a_header(self):
        whole = [packet(1_700_000_000 + n, 0, bytes([n]) * 50) for n in range(6)]
        Path("a.pcap").write_bytes(b"".join(whole))
        with self.assertRaises(pcapfile.ProgramError):
            pcapfile.repair("a.pcap", "b.pcap")
        with self.assertWarns(pcapfile.CaptureWarning):
            lines = pcapfile.repair("a.pcap", "b.pcap", header="little,micro,101")
        self.assertEqual(lines, ["a.pcap: 6 packets kept, 0 repaired, 0 guessed, 0 left out, 0 bytes skipped"])
        with self.assertWarns(pcapfile.CaptureWarning):
            pcapfile.repair("a.pcap", "c.pcap", guess=True, link=101)
        for name in ("b.pcap", "c.pcap"):
            with self.subTest(name=name), pcapfile.open(name) as capture:
                self.assertEqual((capture.link, [bytes(it) for it in capture]), (101, [bytes([n]) * 50 for n in range(6)]))
        with self.assertRaises(TypeError):
            pcapfile.repair("a.pcap", "b.pcap", header=5)
        with self.assertRaises(ValueError):
            pcapfile.repair("a.pcap", "b.pcap", header="middle,micro,1")

    def test_long_warnings(self):
        Path("a.pcap").write_bytes(HEADER + packet(1, 0, b"abc", 2) * 50)
        with self.assertWarnsRegex(pcapfile.CaptureWarning, "and 41 lines more$"):
            self.assertEqual(len(pcapfile.repair("a.pcap", "b.pcap")), 51)

    def test_errors(self):
        Path("text").write_bytes(b"no capture, but a text of some length")
        with self.assertRaisesRegex(FileNotFoundError, "nothing.pcap"):
            pcapfile.info("nothing.pcap")
        with self.assertRaisesRegex(FileNotFoundError, "nothing.pcap"):
            pcapfile.convert("nothing.pcap", "b.pcap")
        with self.assertRaises(IsADirectoryError):
            pcapfile.repair(".", "b.pcap")
        with self.assertRaises(pcapfile.ProgramError) as told:
            pcapfile.repair("text", "b.pcap")
        self.assertNotIn("--repair", str(told.exception))
        self.assertFalse(Path("b.pcap").exists())
        Path("a.pcap").write_bytes(HEADER)
        with self.assertRaises(FileNotFoundError):
            pcapfile.cut("a.pcap", "no/b.pcap")
        with self.assertRaises(ValueError):
            pcapfile.merge([], "b.pcapng")

    def test_odd_names(self):
        Path("-").write_bytes(HEADER + packet(1, 0, b"a"))
        Path("--help").write_bytes(HEADER + packet(2, 0, b"b"))
        odd = "\xe9 \n"
        self.assertEqual(pcapfile.info("-")["packets"], 1)
        self.assertEqual(pcapfile.merge(["-", b"--help"], odd), [])
        self.assertEqual(texts(odd), [b"a", b"b"])
        pcapfile.cut(odd, "-", packets=slice(1))
        self.assertEqual(texts("-"), [b"a"])

    def test_as_a_module(self):
        Path("a.pcap").write_bytes(HEADER + packet(7, 0, b"abc", 60))
        ran = module("list", "a.pcap", env={**os.environ, "PYTHONPATH": os.pathsep.join(os.path.abspath(it) for it in sys.path if it)})
        self.assertEqual((ran.returncode, ran.stdout, ran.stderr), (0, "1 7.000000000 3/60\n", ""))


class Missing(InFolder):
    def test_no_program(self):
        with mock.patch.object(_programs, "_CARRIED", Path("nowhere")), mock.patch.dict(os.environ, PATH=".", PCAPFILE_PROGRAM=""):
            with self.assertRaisesRegex(FileNotFoundError, "PCAPFILE_PROGRAM"):
                pcapfile.info("a.pcap")

    def test_one_that_is_named(self):
        Path("mine").write_text("#!/bin/sh\necho 'pcapfile: it failed' >&2\nexit $STATUS\n")
        os.chmod("mine", 0o755)
        for status, error in ((1, pcapfile.ProgramError), (2, ValueError), (3, OSError), (4, MemoryError), (9, OSError)):
            with self.subTest(status=status), mock.patch.dict(os.environ, PCAPFILE_PROGRAM=os.path.abspath("mine"), STATUS=str(status)):
                with self.assertRaisesRegex(error, "^it failed$") as told:
                    pcapfile.convert("a.pcap", "b.pcap")
                self.assertIs(type(told.exception), error)

    def test_as_a_module(self):
        paths = os.pathsep.join(os.path.abspath(it) for it in sys.path if it)
        ran = module("info", env={**os.environ, "PYTHONPATH": paths, "PCAPFILE_PROGRAM": os.path.abspath("nowhere")})
        self.assertEqual((ran.returncode, ran.stdout), (3, ""))
        self.assertIn("nowhere", ran.stderr)


if __name__ == "__main__":
    unittest.main()
