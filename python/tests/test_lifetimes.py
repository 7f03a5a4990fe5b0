"""Tests of lifetimes: which objects keep packets, their bytes and iterators alive, also at the end of a process and after a fork."""

import gc
import io
import os
import subprocess
import sys
import tempfile
import unittest
import weakref
from pathlib import Path

import pcapfile
from pcapfile import _extension
from test_pcapfile import HEADER, INTERFACE, SECTION, enhanced, packet

CLASSIC = HEADER + b"".join(packet(n, 0, bytes([n % 256]) * 100) for n in range(3000))
BLOCKS = SECTION + INTERFACE + b"".join(enhanced(0, n * 10**6, bytes([n % 256]) * 100) for n in range(3000))


class Kept(io.BytesIO):
    """A stream that can refer to its reader."""


class Lifetimes(unittest.TestCase):
    def test_views_outlive_all_else(self):
        for data in (CLASSIC, BLOCKS):
            for opened in (pcapfile.parse, lambda data: pcapfile.open(io.BytesIO(data))):
                capture = opened(bytearray(data))
                views = [memoryview(each.data)[1:3] for each in capture]
                capture.close()
                del capture
                gc.collect()
                self.assertEqual([bytes(view) for view in views], [bytes([n % 256]) * 2 for n in range(3000)])

    def test_a_packet_outlives_its_interface_and_section(self):
        data = SECTION + INTERFACE + enhanced(0, 7, b"abc") + SECTION
        packets = iter(pcapfile.parse(data))
        first = next(packets)
        self.assertEqual(list(packets), [])
        del packets
        gc.collect()
        self.assertEqual((first.interface.link, first.time_ns, first.link), (113, 7000, 113))

    def test_an_iterator_that_its_stream_refers_to(self):
        """The garbage collector frees a cycle."""
        stream = Kept(CLASSIC)
        stream.capture = pcapfile.open(stream)
        stream.packets = iter(stream.capture)
        next(stream.packets)
        gone = weakref.ref(stream)
        del stream
        gc.collect()
        self.assertIsNone(gone())

    def test_packets_that_live_until_the_end_of_the_process(self):
        code = (
            "import sys, pcapfile\n"
            "data = sys.stdin.buffer.read()\n"
            "packets = iter(pcapfile.parse(data))\n"
            "sys.kept = [next(packets), next(packets).data, packets, list(pcapfile.parse(data))]\n"
        )
        for data in (CLASSIC, BLOCKS):
            ran = subprocess.run([sys.executable, "-c", code], input=data, capture_output=True)
            self.assertEqual((ran.returncode, ran.stderr), (0, b""))

    @unittest.skipUnless(hasattr(os, "fork"), "there is no fork")
    def test_a_forked_child(self):
        """Parent and child walk over one capture in a file. Each goes on from where it was, and neither moves the other's
        position."""
        with tempfile.TemporaryDirectory() as room:
            path = Path(room, "capture")
            for data in (CLASSIC, BLOCKS):
                path.write_bytes(data)
                with pcapfile.open(path) as capture:
                    packets = iter(capture)
                    self.assertEqual(next(packets).seconds, 0)
                    child = os.fork()
                    if child == 0:
                        right = [p.seconds for p in packets] == list(range(1, 3000)) and len(list(capture)) == 3000
                        os._exit(0 if right else 1)
                    self.assertEqual([p.seconds for p in packets], list(range(1, 3000)))
                    self.assertEqual(os.waitstatus_to_exitcode(os.waitpid(child, 0)[1]), 0)

    @unittest.skipIf(_extension.native is None, "the extension is missing")
    def test_what_the_extension_does_not_take(self):
        native = _extension.native
        for kind in (native.Packet, native.BlockPacket, type(iter(pcapfile.parse(CLASSIC)))):
            self.assertRaises(TypeError, kind)
        for at, length in ((-1, 1), (4, 1), (0, 4), (2**62, 1)):
            self.assertRaises(ValueError, native.packet, False, b"abc", at, length, 0, 0, 0, 0, 1, None, None)
        walk = pcapfile.parse(CLASSIC)._walk()
        walk.window.left.len += 1
        with self.assertRaises(RuntimeError):
            next(native.packets(walk, walk.head, None))
        with self.assertRaises(RuntimeError):
            native.rows(walk.window, walk.head, None, bytearray(64), 0, 0)
        self.assertRaises(TypeError, native.packets, walk, bytearray(3), None)
        self.assertRaises(AttributeError, native.packets, object(), walk.head, None)


if __name__ == "__main__":
    unittest.main()
