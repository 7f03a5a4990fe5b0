"""Tests of the pages about Python. Each example is run, and must print what the page shows below it."""

import contextlib
import importlib.util
import io
import os
import re
import struct
import subprocess
import sys
import tempfile
import textwrap
import unittest
import warnings
from pathlib import Path

import pcapfile
from pcapfile import _programs
from test_columns import inside, option
from test_pcapfile import HEADER, block, packet

DOCS = Path(__file__).parents[2] / "docs"

# An example, and the output below it.
EXAMPLE = re.compile(r"^```python\n(.*?)^```$\n*((?:^    [^\n]*\n)*)", re.S | re.M)
PROGRAM = re.compile(r"^```py\n(.*?)^```$", re.S | re.M)

# The capture of the pages: one packet, whose bytes count up from 0.
CAPTURE = HEADER + packet(1335958313, 152630, bytes(range(98)))
SECTION = block(0x0A0D0D0A, struct.pack("<IHHq", 0x1A2B3C4D, 1, 0, -1) + option(1, b"made") + option(0, b""))
DESCRIBED = block(1, struct.pack("<HHI", 1, 0, 0) + option(1, b"hm") + option(9, b"\x09") + option(0, b""))
TIME = 1_700_000_000 * 10**9
COMMENTED = block(6, struct.pack("<IIIII", 0, TIME >> 32, TIME & 0xFFFFFFFF, 3, 60) + b"abc\0" + option(1, b"seen") + option(0, b""))

# For each program its output, the packages that it needs, and the file that it writes.
PROGRAMS = {
    "PYTHON": [("", ("matplotlib", "pandas"), "bytes.svg")],
    "PYTHON_PARTS": [("98", (), None), ("1      103\n113      2", ("dask", "distributed", "pandas"), None)],
}


def has(*modules):
    return all(importlib.util.find_spec(module) for module in modules)


def has_program():
    try:
        return bool(_programs.program())
    except FileNotFoundError:
        return False


def write_captures():
    """Writes the captures of the examples into the current folder."""
    for name in ("capture.pcap", "monday.pcap"):
        Path(name).write_bytes(CAPTURE)
    Path("options.pcapng").write_bytes(SECTION + DESCRIBED + COMMENTED)
    for name in ("tuesday.pcapng", "capture.pcapng"):
        with pcapfile.Writer(name, "pcapng", link=1) as writer:
            other = writer.add_interface(link=113)
            writer.write(b"abcde", 1335958313, 152630000, original_length=98)
            writer.write(b"fg", 1335958314, interface=other)


@unittest.skipUnless(DOCS.exists(), "the pages")
class Pages(unittest.TestCase):
    def setUp(self):
        folder = tempfile.TemporaryDirectory()
        self.addCleanup(folder.cleanup)
        there = inside(folder.name)
        there.__enter__()
        self.addCleanup(there.__exit__, None, None, None)
        write_captures()

    def examples_of(self, page):
        names, examples = {}, EXAMPLE.findall((DOCS / f"{page}.md").read_text())
        self.assertGreater(len(examples), 4)
        for example, shown in examples:
            printed = io.StringIO()
            with self.subTest(example=example), contextlib.redirect_stdout(printed):
                exec(example, names)
                self.assertEqual(printed.getvalue(), textwrap.dedent(shown))

    def test_python(self):
        try:
            list(pcapfile.parse(CAPTURE).filter("ip"))
        except ImportError:
            self.skipTest("libpcap")
        self.examples_of("PYTHON")

    @unittest.skipUnless(has_program(), "the program pcapfile")
    def test_python_parts(self):
        with warnings.catch_warnings():
            warnings.simplefilter("ignore", ResourceWarning)
            self.examples_of("PYTHON_PARTS")

    def test_programs(self):
        paths = os.pathsep.join(os.path.abspath(it) for it in sys.path if it)
        for page, wanted in PROGRAMS.items():
            programs = PROGRAM.findall((DOCS / f"{page}.md").read_text())
            self.assertEqual(len(programs), len(wanted))
            for program, (printed, needed, left) in zip(programs, wanted):
                with self.subTest(program=program):
                    if not has(*needed):
                        self.skipTest(" ".join(needed))
                    Path("program.py").write_text(program)
                    ran = subprocess.run(
                        [sys.executable, "-W", "ignore", "program.py"],
                        env={**os.environ, "PYTHONPATH": paths, "MPLBACKEND": "svg"},
                        capture_output=True,
                        text=True,
                        timeout=300,
                    )
                    self.assertEqual(ran.returncode, 0, ran.stderr)
                    self.assertIn(printed, ran.stdout)
                    self.assertTrue(left is None or Path(left).exists())


class Readable(unittest.TestCase):
    """A page is short, and so are its sentences."""

    @unittest.skipUnless(DOCS.exists(), "the pages")
    def test_lines_and_sentences(self):
        for page in ("PYTHON", "PYTHON_PARTS"):
            text = (DOCS / f"{page}.md").read_text()
            self.assertLessEqual(len(text.splitlines()), 150)
            words = re.sub(r"^```.*?^```$|^    .*?$|^#.*?$|^!.*?$", "", text, flags=re.S | re.M)
            for sentence in re.split(r"(?<=[.:;])\s+|\n\n", words):
                self.assertLessEqual(len(sentence.split()), 35, sentence)


if __name__ == "__main__":
    unittest.main()
