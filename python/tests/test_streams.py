"""Tests of captures from streams. Each expected value follows from the bytes beside it."""

import io
import os
import socket
import struct
import subprocess
import sys
import tempfile
import threading
import unittest

try:
    import pandas
except ImportError:
    pandas = None

import pcapfile
from pcapfile import _windows
from test_pcapfile import HEADER, INTERFACE, SECTION, enhanced, packet


class Some:
    """A stream that has only `read`, and returns at most `most` bytes at once."""

    def __init__(self, data, most):
        self._left, self._most, self.asked, self.is_closed = io.BytesIO(data), most, [], False

    def read(self, count):
        self.asked.append(count)
        return self._left.read(min(count, self._most))

    def close(self):
        self.is_closed = True


CLASSIC = HEADER + b"".join(packet(n, 0, bytes([n]) * n) for n in range(50))
BLOCKS = SECTION + INTERFACE + b"".join(enhanced(0, n * 10**6, bytes([n]) * n) for n in range(50)) + SECTION + enhanced(0, 1, b"x")


class Pauses(io.RawIOBase):
    """A non-blocking stream. It returns at most `most` bytes at once, and has no bytes every other time."""

    def __init__(self, data, most):
        self._data, self._most, self._at, self._has_some = data, most, 0, False

    def readable(self):
        return True

    def readinto(self, room):
        self._has_some = not self._has_some
        if self._has_some:
            return None
        data = self._data[self._at : self._at + min(len(room), self._most)]
        room[: len(data)] = data
        self._at += len(data)
        return len(data)


class ReadPauses(Pauses):
    """The same stream with only `read`."""

    readinto1 = property()
    readinto = property()

    def read(self, count=-1):
        room = bytearray(count)
        got = Pauses.readinto(self, room)
        return None if got is None else bytes(room[:got])


def again(call, *args):
    """Calls a function until it raises no BlockingIOError. Returns its result, and the number of errors."""
    times = 0
    while True:
        try:
            return call(*args), times
        except BlockingIOError:
            times += 1


class Waiting(unittest.TestCase):
    """A stream without bytes yet has not ended: reading raises a BlockingIOError, and loses nothing."""

    def gathered(self, walk, add):
        """Adds all packets of a walk, which begins again after each BlockingIOError. Returns the number of errors."""
        times = 0
        while True:
            try:
                for each in walk():
                    add(each)
                return times
            except BlockingIOError:
                times += 1

    def opened(self, data, most, kind=Pauses, **words):
        stream = kind(data, most)
        return again(lambda: pcapfile.open(stream, **words))

    def test_packets(self):
        for kind in (Pauses, ReadPauses, lambda data, most: io.BufferedReader(Pauses(data, most))):
            for most in (1, 30, 1000):
                for data in (CLASSIC, BLOCKS):
                    capture, refused = self.opened(data, most, kind)
                    self.assertTrue(refused > 0 or most > 1)
                    got = []
                    self.assertGreater(self.gathered(lambda: capture, lambda p: got.append(bytes(p.data))), 2)
                    wanted = [bytes([n]) * n for n in range(50)] + ([b"x"] if data is BLOCKS else [])
                    self.assertEqual(got, wanted)

    def test_all_walks(self):
        with pcapfile.parse(BLOCKS) as capture:
            blocks = [bytes(b.body) for b in capture.blocks()]
        capture, _ = self.opened(BLOCKS, 100)
        got = []
        self.gathered(capture.blocks, lambda block: got.append(bytes(block.body)))
        self.assertEqual(got, blocks)
        for data in (CLASSIC, BLOCKS):
            with pcapfile.parse(data) as capture:
                wanted = [(p.time, bytes(p.data), p.offset) for p in capture]
            for words in ({}, {"strict": False}):
                capture, _ = self.opened(data, 100, **words)
                got = []
                self.gathered(capture.pairs, got.append)
                self.assertEqual(got, [row[:2] for row in wanted])
                capture, _ = self.opened(data, 100, **words)
                got = []
                self.gathered(capture.columns, lambda rows: got.extend(rows["offset"].tolist()))
                self.assertEqual(got, [row[2] for row in wanted])

    @unittest.skipIf(pandas is None, "pandas is missing")
    def test_frames(self):
        capture, _ = self.opened(CLASSIC, 100)
        frame, times = again(capture.to_pandas)
        self.assertGreater(times, 10)
        self.assertEqual(frame["len"].tolist(), list(range(50)))

    def test_a_pipe_that_does_not_wait(self):
        reads, writes = os.pipe()
        os.set_blocking(reads, False)
        for opened in (lambda: os.fdopen(os.dup(reads), "rb", buffering=0), lambda: os.fdopen(os.dup(reads), "rb")):
            with opened() as stream, os.fdopen(os.dup(writes), "wb", buffering=0) as file:
                file.write(HEADER)
                capture = pcapfile.open(stream)
                for n in range(3):
                    with self.assertRaises(BlockingIOError):
                        next(iter(capture))
                    file.write(packet(n, 0, b"live"))
                    self.assertEqual(next(iter(capture)).seconds, n)
        os.close(reads), os.close(writes)

    def test_a_descriptor_that_does_not_wait(self):
        for data in (HEADER + packet(1, 0, b"abc"), SECTION + INTERFACE + enhanced(0, 10**6, b"abc")):
            out, into = os.pipe()
            os.set_blocking(out, False)
            os.write(into, data[:10])
            self.assertRaises(BlockingIOError, pcapfile.open, out)
            os.write(into, data[10:])
            os.close(into)
            with pcapfile.open(out) as capture:
                self.assertEqual([(p.seconds, bytes(p)) for p in capture], [(1, b"abc")])
            self.assertRaises(OSError, os.fstat, out)

    def test_a_socket_by_its_number(self):
        ours, theirs = socket.socketpair()
        ours.setblocking(False)
        number = ours.detach()
        theirs.sendall(HEADER[:10])
        self.assertRaises(BlockingIOError, pcapfile.open, number)
        theirs.sendall(HEADER[10:] + packet(1, 0, b"abc"))
        theirs.close()
        with pcapfile.open(number) as capture:
            self.assertEqual([bytes(p) for p in capture], [b"abc"])

    def test_another_pipe_under_the_same_number(self):
        out, into = os.pipe()
        os.set_blocking(out, False)
        os.write(into, HEADER[:10])
        self.assertRaises(BlockingIOError, pcapfile.open, out)
        os.close(out), os.close(into)
        again, into = os.pipe()
        self.assertEqual(again, out)
        os.write(into, HEADER + packet(2, 0, b"def"))
        os.close(into)
        with pcapfile.open(again) as capture:
            self.assertEqual([bytes(p) for p in capture], [b"def"])


class NamedPipes(unittest.TestCase):
    """A named pipe can be closed and opened again under the same number. The bytes of one opening never get into another one."""

    def setUp(self):
        room = tempfile.TemporaryDirectory()
        self.addCleanup(room.cleanup)
        self.path = os.path.join(room.name, "pipe")
        os.mkfifo(self.path)

    def ends(self):
        """Opens the pipe, and returns the number of the end that is read without waiting, and that of the other end."""
        return os.open(self.path, os.O_RDONLY | os.O_NONBLOCK), os.open(self.path, os.O_WRONLY)

    def test_the_number_of_one_that_does_not_wait(self):
        """The call refuses the number, reads nothing, and leaves the pipe open."""
        out, into = self.ends()
        os.write(into, HEADER[:10])
        for _ in range(2):
            self.assertRaisesRegex(ValueError, rf"file is {out}, .*os\.fdopen\({out}, ", pcapfile.open, out)
        self.assertEqual(os.read(out, 100), HEADER[:10])
        os.close(out), os.close(into)
        again, into = self.ends()
        self.assertEqual(again, out)
        os.write(into, HEADER + packet(2, 0, b"def"))
        os.close(into)
        with pcapfile.open(os.fdopen(again, "rb", buffering=0)) as capture:
            self.assertEqual([bytes(p) for p in capture], [b"def"])

    def test_an_object_goes_on_and_another_one_begins_again(self):
        for words in ({"buffering": 0}, {}):
            out, into = self.ends()
            given_up = os.fdopen(out, "rb", **words)
            os.write(into, HEADER[:10])
            self.assertRaises(BlockingIOError, pcapfile.open, given_up)
            given_up.close(), os.close(into)
            again, into = self.ends()
            self.assertEqual(again, out)
            stream, data = os.fdopen(again, "rb", **words), HEADER + packet(2, 0, b"def")
            for begin in range(0, len(HEADER), 8):
                self.assertRaises(BlockingIOError, pcapfile.open, stream)
                os.write(into, data[begin : begin + 8])
            os.write(into, data[len(HEADER) :])
            os.close(into)
            with pcapfile.open(stream) as capture:
                self.assertEqual([bytes(p) for p in capture], [b"def"])

    def test_the_number_of_one_that_waits(self):
        out, into = self.ends()
        os.set_blocking(out, True)
        os.write(into, HEADER + packet(1, 0, b"abc"))
        os.close(into)
        with pcapfile.open(out) as capture:
            self.assertEqual([bytes(p) for p in capture], [b"abc"])

    def test_the_number_of_a_file_that_does_not_wait(self):
        path = self.path + ".pcap"
        with open(path, "wb") as file:
            file.write(HEADER + packet(1, 0, b"abc"))
        with pcapfile.open(os.open(path, os.O_RDONLY | os.O_NONBLOCK)) as capture:
            self.assertEqual([bytes(p) for p in capture], [b"abc"])


class Streams(unittest.TestCase):
    def test_pieces_of_any_size(self):
        for most in (1, 7, 24, 4096):
            with pcapfile.open(Some(CLASSIC, most)) as capture:
                got = [(p.seconds, bytes(p.data), CLASSIC[p.offset : p.offset + len(p.data)]) for p in capture]
            self.assertEqual(got, [(n, bytes([n]) * n, bytes([n]) * n) for n in range(50)])
            with pcapfile.open(Some(BLOCKS, most)) as capture:
                got = [(p.seconds, bytes(p.data), BLOCKS[p.offset : p.offset + len(p.data)], p.link) for p in capture]
            self.assertEqual(got[:-1], [(n, bytes([n]) * n, bytes([n]) * n, 113) for n in range(50)])
            self.assertEqual(got[-1], (None, b"x", b"x", None))

    def test_data_that_was_lent_stays(self):
        data = HEADER + b"".join(packet(n, 0, bytes([n % 251]) * 1000) for n in range(1000))
        with pcapfile.open(Some(data, 5000)) as capture:
            kept = [p.data for p in capture]
            self.assertEqual([bytes(d) for d in kept], [bytes([n % 251]) * 1000 for n in range(1000)])

    def test_each_kind_of_stream(self):
        with pcapfile.open(io.BytesIO(CLASSIC)) as capture:
            self.assertEqual(sum(1 for _ in capture), 50)
        with tempfile.TemporaryFile() as file:
            file.write(CLASSIC)
            file.seek(0)
            with pcapfile.open(file) as capture:
                self.assertEqual(sum(1 for _ in capture), 50)
        ours, theirs = socket.socketpair()
        writer = threading.Thread(target=lambda: (theirs.sendall(BLOCKS), theirs.close()))
        writer.start()
        with ours, pcapfile.open(ours.makefile("rb")) as capture:
            self.assertEqual(sum(1 for _ in capture), 51)
        writer.join()

    def test_a_packet_comes_before_the_next_is_written(self):
        reads, writes = os.pipe()
        with os.fdopen(writes, "wb", buffering=0) as file, _opened(file, reads) as capture:
            packets = iter(capture)
            for n in range(3):
                file.write(packet(n, 0, b"live"))
                self.assertEqual(next(packets).seconds, n)

    def test_ends(self):
        """A reader distinguishes a complete stream, a truncated one and a malformed one."""
        self.assertEqual(list(pcapfile.open(Some(HEADER, 5))), [])
        with self.assertRaises(pcapfile.Incomplete) as told:
            list(pcapfile.open(Some(HEADER + packet(1, 2, b"abc") + packet(3, 4, b"defg")[:-1], 5)))
        self.assertEqual((told.exception.missing, told.exception.offset), (1, 24 + 19))
        with self.assertRaises(pcapfile.Incomplete) as told:
            pcapfile.open(Some(HEADER[:20], 5))
        self.assertEqual((told.exception.missing, told.exception.offset), (4, 0))
        with self.assertRaises(pcapfile.Incomplete) as told:
            pcapfile.open(Some(b"", 5))
        self.assertEqual(told.exception.missing, 24)
        with self.assertRaisesRegex(pcapfile.Invalid, r"IncludedPastOriginal: .* \(at byte 43\)"):
            list(pcapfile.open(Some(HEADER + packet(1, 2, b"abc") + packet(1, 2, b"abc", 2), 5)))
        with self.assertRaises(pcapfile.Incomplete) as told:
            list(pcapfile.open(Some(SECTION + INTERFACE[:-1], 5)))
        self.assertEqual((told.exception.missing, told.exception.offset), (1, 28))

    def test_a_failed_read_comes_through(self):
        class Fails(Some):
            def read(self, count):
                if not self._left.getbuffer()[self._left.tell() :]:
                    raise OSError("the line is cut")
                return super().read(count)

        got = []
        with self.assertRaisesRegex(OSError, "the line is cut"):
            for p in pcapfile.open(Fails(HEADER + packet(1, 2, b"abc"), 5)):
                got.append(bytes(p.data))
        self.assertEqual(got, [b"abc"])

    def test_what_a_buffered_stream_holds_comes_without_more(self):
        """Something was read from a live pipe before. The packets that are in the buffer do not wait for others."""
        reads, writes = os.pipe()
        with os.fdopen(writes, "wb", buffering=0) as file, os.fdopen(reads, "rb") as stream:
            file.write(b"first" + HEADER + packet(1, 0, b"abc") + packet(2, 0, b"def"))
            self.assertEqual(stream.read(5), b"first")
            packets = iter(pcapfile.open(stream))
            self.assertEqual([next(packets).seconds, next(packets).seconds], [1, 2])

    def test_a_broken_length_takes_no_memory(self):
        stream = Some(SECTION + struct.pack("<II", 6, 2**32 - 4) + bytes(100), 1000)
        with self.assertRaises(pcapfile.Incomplete) as told:
            list(pcapfile.open(stream))
        self.assertEqual(told.exception.missing, 2**32 - 4 - 108)
        self.assertLessEqual(max(stream.asked), _windows.CHUNK)

    def test_columns(self):
        with pcapfile.open(Some(CLASSIC, 100)) as capture:
            got = [n for columns in capture.columns() for n in columns["offset"].tolist()]
        with pcapfile.parse(CLASSIC) as capture:
            self.assertEqual(got, [p.offset for p in capture])

    def test_packets_come_once(self):
        with pcapfile.open(Some(CLASSIC, 100)) as capture:
            first = next(iter(capture))
            self.assertEqual(first.seconds, 0)
            list(capture)
            self.assertEqual(list(capture), [])

    def test_closed(self):
        stream = Some(CLASSIC, 100)
        with pcapfile.open(stream) as capture:
            packets = iter(capture)
            next(packets)
        self.assertTrue(stream.is_closed)
        with self.assertRaises(ValueError):
            list(packets)
        with self.assertRaises(ValueError):
            list(capture)

    def test_memory_that_is_held(self):
        """A pipe of 64 MiB needs only a few chunks of memory."""
        code = (
            "import pcapfile, resource; before = resource.getrusage(resource.RUSAGE_SELF).ru_maxrss;"
            "count = sum(1 for _ in pcapfile.open('/dev/stdin'));"
            "print(count, resource.getrusage(resource.RUSAGE_SELF).ru_maxrss - before < 8192)"
        )
        told = _python(code, lambda file: [file.write(HEADER)] + [file.write(packet(n, 0, bytes(65520))) for n in range(1024)])
        self.assertEqual(told, "1024 True\n")


def _opened(file, reads):
    file.write(HEADER)
    return pcapfile.open(os.fdopen(reads, "rb"))


def _python(code, write):
    """Returns what another Python process prints. Its standard input is a pipe, to which `write` writes."""
    with subprocess.Popen([sys.executable, "-c", code], stdin=subprocess.PIPE, stdout=subprocess.PIPE, text=False) as child:
        write(child.stdin)
        child.stdin.close()
        return child.stdout.read().decode()


if __name__ == "__main__":
    unittest.main()
