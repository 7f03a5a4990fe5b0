"""Tests of captures that several threads use. Each packet comes once, or a thread gets a ValueError. Nothing else happens."""

import os
import struct
import subprocess
import sys
import tempfile
import threading
import unittest
from pathlib import Path
from unittest import mock

import pcapfile
from pcapfile import _columns, _library, _stretches
from test_columns import option
from test_pcapfile import HEADER, SECTION, enhanced, interface, packet

# An interface whose unit of time is 2^-20 seconds, with an offset of 3600 seconds.
BINARY = interface(options=option(9, b"\x94") + option(14, struct.pack("<q", 3600)) + option(0, b""))
BEGIN = 1_600_000_000


class Numbered:
    """A stream of packets whose bytes contain their number."""

    def __init__(self, count, most):
        self._data = HEADER + b"".join(packet(n, 0, struct.pack("<I", n) * 100) for n in range(count))
        self._at, self._most = 0, most

    def read(self, count):
        data = self._data[self._at : self._at + min(count, self._most)]
        self._at += len(data)
        return data

    def close(self):
        pass


def in_threads(count, work):
    """Runs `work` in `count` threads, and returns their errors. The interpreter switches threads as often as it can."""
    failed, before = [], sys.getswitchinterval()

    def run(number):
        try:
            work(number)
        except BaseException as error:
            failed.append(error)

    threads = [threading.Thread(target=run, args=(number,)) for number in range(count)]
    sys.setswitchinterval(1e-6)
    try:
        for thread in threads:
            thread.start()
        for thread in threads:
            thread.join()
    finally:
        sys.setswitchinterval(before)
    return failed


class Sharing(unittest.TestCase):
    def test_the_times_of_one_interface_in_two_threads(self):
        """Both threads return from the library before either of them reads its result."""
        with pcapfile.parse(SECTION + BINARY + enhanced(0, 1, b"")) as capture:
            walk = capture._walk()
            walk.take(), walk.take()
        known, told, both = walk.known[0], {}, threading.Barrier(2)

        def time_of(*args):
            status = _time_of(*args)
            both.wait(10)
            return status

        _time_of = _library.time_of
        with mock.patch.object(_library, "time_of", time_of):
            failed = in_threads(2, lambda number: told.__setitem__(number, known.time((BEGIN + number) << 20)))
        self.assertEqual((failed, told), ([], {n: (BEGIN + n + 3600, 0) for n in range(2)}))

    @unittest.skipIf(_columns.numpy is None, "numpy is missing")
    def test_columns_by_threads_with_a_binary_clock(self):
        count = 60_000
        data = SECTION + BINARY + b"".join(enhanced(0, (BEGIN + n) << 20, bytes(60)) for n in range(count))
        with tempfile.TemporaryDirectory() as room, mock.patch.object(_stretches, "_STRETCH", 1 << 18):
            path = Path(room, "capture")
            path.write_bytes(data)
            for opened in (lambda: pcapfile.parse(data), lambda: pcapfile.open(path)):
                with opened() as capture:
                    times = [time for rows in capture.columns(threads=4) for time in rows["time_ns"].tolist()]
                self.assertEqual(times, [(BEGIN + n + 3600) * 10**9 for n in range(count)])

    def test_one_stream_in_many_threads(self):
        """Each packet comes once, with its own bytes. A thread that asks while the stream serves another thread gets a
        ValueError."""
        count = 20_000
        for walk in (iter, lambda capture: capture.pairs()):
            for most in (5000, 300_000):
                capture, got, wrong, refused = pcapfile.open(Numbered(count, most)), [], [], []

                def work(number):
                    while True:
                        try:
                            for seconds, *rest in walk(capture):
                                data = rest[-1] if walk is not iter else rest[2]
                                if bytes(data) != struct.pack("<I", int(seconds)) * 100:
                                    wrong.append(seconds)
                                got.append(int(seconds))
                            return
                        except ValueError as error:
                            refused.append(error)

                self.assertEqual(in_threads(6, work), [])
                self.assertEqual((sorted(got), wrong), (list(range(count)), []))

    def test_one_iterator_in_many_threads(self):
        data = HEADER + b"".join(packet(n, 0, struct.pack("<I", n)) for n in range(50_000))
        with pcapfile.parse(data) as capture:
            packets, got = iter(capture), []

            def work(number):
                while True:
                    try:
                        got.extend(p.seconds for p in packets)
                        return
                    except ValueError:
                        pass

            self.assertEqual(in_threads(4, work), [])
        self.assertEqual(sorted(set(got)), sorted(got))

    def test_one_capture_in_many_threads(self):
        """Each loop over a capture in memory or in a file is a pass of its own."""
        data = SECTION + BINARY + b"".join(enhanced(0, n << 20, struct.pack("<I", n)) for n in range(5000))
        with tempfile.TemporaryDirectory() as room:
            path = Path(room, "capture")
            path.write_bytes(data)
            for opened in (lambda: pcapfile.parse(data), lambda: pcapfile.open(path)):
                with opened() as capture:
                    wanted = [(n + 3600, struct.pack("<I", n)) for n in range(5000)]
                    got = {}
                    failed = in_threads(4, lambda k: got.__setitem__(k, [(p.seconds, bytes(p.data)) for p in capture]))
                self.assertEqual((failed, got), ([], {k: wanted for k in range(4)}))

    def test_two_ways_over_one_stream(self):
        """Another kind of walk would lose the packets that the first one has taken and not yet returned."""
        capture = pcapfile.open(Numbered(100, 300_000))
        self.assertEqual(next(iter(capture)).seconds, 0)
        for other in (capture.columns, capture.pairs):
            self.assertRaises(ValueError, other)
        self.assertEqual([p.seconds for p in capture], list(range(1, 100)))
        self.assertEqual(list(capture.pairs()), [])

    def test_breaking_off_a_loop_over_a_stream_loses_nothing(self):
        capture = pcapfile.open(Numbered(100, 300_000))
        got = []
        while True:
            for each in capture:
                got.append(each.seconds)
                break
            else:
                break
        self.assertEqual(got, list(range(100)))

    def test_closing_in_another_thread(self):
        """A child process runs this, so that the test sees a signal. The child calls the library after the capture was closed."""
        ran = subprocess.run([sys.executable, "-c", CLOSING], capture_output=True, text=True, env=os.environ)
        self.assertEqual((ran.returncode, ran.stdout, ran.stderr), (0, "done\n", ""))


CLOSING = f"""
import random, struct, sys, tempfile, threading, time
sys.path.insert(0, {str(Path(__file__).parent)!r})
import pcapfile
from pcapfile import _library
from test_pcapfile import HEADER, INTERFACE, SECTION, enhanced, packet

def closing(name, capture):
    call = getattr(_library, name)
    def closed_first(*args):
        closer = threading.Thread(target=capture.close)
        closer.start()
        closer.join()
        return call(*args)
    setattr(_library, name, closed_first)
    return lambda: setattr(_library, name, call)

random.seed(5)
sys.setswitchinterval(1e-5)
with tempfile.TemporaryDirectory() as room:
    for data, call in ((HEADER + b"".join(packet(n, 0, bytes(100)) for n in range(30000)), "take_packets"),
                       (SECTION + INTERFACE + b"".join(enhanced(0, n, bytes(100)) for n in range(30000)), "take_ng_packets")):
        with open(room + "/capture", "wb") as file:
            file.write(data)
        capture = pcapfile.open(room + "/capture")
        undo = closing(call, capture)
        try:
            sum(1 for _ in capture)
        except ValueError:
            pass
        undo()
        for turn in range(40):
            capture = pcapfile.open(room + "/capture")
            walks = [lambda: sum(1 for _ in capture), lambda: sum(1 for _ in capture.pairs()),
                     lambda: sum(1 for _ in capture.columns()), lambda: sum(1 for _ in getattr(capture, "blocks", list)())]
            def walk():
                try:
                    walks[turn % 4]()
                except (ValueError, TypeError):
                    pass
            thread = threading.Thread(target=walk)
            thread.start()
            time.sleep(random.random() * 0.004)
            capture.close()
            thread.join()
print("done")
"""


if __name__ == "__main__":
    unittest.main()
