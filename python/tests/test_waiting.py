"""Tests of captures for asyncio, and of files that grow."""

import asyncio
import gzip
import os
import tempfile
import threading
import time
import unittest
from pathlib import Path

import pcapfile
from test_pcapfile import HEADER, INTERFACE, SECTION, enhanced, packet
from test_streams import BLOCKS, CLASSIC

WANTED = {CLASSIC: [bytes([n]) * n for n in range(50)], BLOCKS: [*(bytes([n]) * n for n in range(50)), b"x"]}


def fed(data, most):
    """Returns asyncio's reader of `data`, and the task that feeds it `most` bytes at once."""

    async def feed(reader):
        for begin in range(0, len(data), most):
            reader.feed_data(data[begin : begin + most])
            await asyncio.sleep(0)
        reader.feed_eof()

    reader = asyncio.StreamReader()
    return reader, asyncio.ensure_future(feed(reader))


class Asynchronous(unittest.TestCase):
    def test_a_reader(self):
        async def gathered(data, most, strict):
            reader, feeding = fed(data, most)
            async with await pcapfile.aopen(reader, strict=strict) as capture:
                got = [bytes(each.data) async for each in capture]
                links = capture.capture.link_types
            await feeding
            return got, links

        for data, wanted in WANTED.items():
            for most in (1, 13, 1000, 1 << 20):
                for strict in (True, False):
                    self.assertEqual(asyncio.run(gathered(data, most, strict)), (wanted, [1] if data is CLASSIC else [113]))

    def test_a_file(self):
        async def gathered(path):
            async with await pcapfile.aopen(path) as capture:
                return [bytes(each.data) async for each in capture]

        with tempfile.TemporaryDirectory() as room:
            for data, wanted in WANTED.items():
                path = Path(room, "capture")
                path.write_bytes(data)
                self.assertEqual(asyncio.run(gathered(path)), wanted)

    def test_refusals_come_behind_the_packets(self):
        async def gathered(data):
            reader, feeding = fed(data, 20)
            got = []
            try:
                async for each in await pcapfile.aopen(reader):
                    got.append(each.seconds)
            finally:
                await feeding
                self.assertEqual(got, [1])

        with self.assertRaises(pcapfile.Incomplete) as told:
            asyncio.run(gathered(HEADER + packet(1, 0, b"abc") + packet(2, 0, b"abc")[:-1]))
        self.assertEqual((told.exception.missing, told.exception.offset), (1, 43))

        async def opened(data):
            reader, feeding = fed(data, 20)
            await feeding
            async for _ in await pcapfile.aopen(reader):
                pass

        with self.assertRaises(pcapfile.Incomplete):
            asyncio.run(opened(HEADER[:20]))
        with self.assertRaisesRegex(ValueError, "compressed"):
            asyncio.run(opened(gzip.compress(CLASSIC)))

    def test_a_packet_comes_before_the_next_is_there(self):
        async def alternating():
            reader = asyncio.StreamReader()
            reader.feed_data(SECTION + INTERFACE)
            packets = (await pcapfile.aopen(reader)).__aiter__()
            for n in range(3):
                waiting = asyncio.ensure_future(packets.__anext__())
                await asyncio.sleep(0)
                self.assertFalse(waiting.done())
                reader.feed_data(enhanced(0, n, b"live"))
                self.assertEqual((await waiting).timestamp, n)

        asyncio.run(alternating())


class Growing(unittest.TestCase):
    def setUp(self):
        room = tempfile.TemporaryDirectory()
        self.addCleanup(room.cleanup)
        self.path = Path(room.name, "capture")

    def test_packets_come_as_they_are_written(self):
        for data in (CLASSIC, BLOCKS):
            self.path.write_bytes(b"")

            def write():
                with self.path.open("ab", buffering=0) as file:
                    for begin in range(0, len(data), 700):
                        file.write(data[begin : begin + 700])
                        time.sleep(0.05)

            writer = threading.Thread(target=write)
            writer.start()
            with pcapfile.open(self.path, follow=True) as capture:
                got = [bytes(each.data) for _, each in zip(WANTED[data], capture)]
            writer.join()
            self.assertEqual(got, WANTED[data])

    def test_it_can_be_closed_while_it_waits(self):
        self.path.write_bytes(CLASSIC)
        capture = pcapfile.open(self.path, follow=True)
        closer = threading.Timer(0.3, capture.close)
        closer.start()
        got = []
        with self.assertRaises(ValueError):
            for each in capture:
                got.append(each.seconds)
        closer.join()
        self.assertEqual(got, list(range(50)))

    def test_a_file_that_becomes_shorter(self):
        self.path.write_bytes(CLASSIC)
        with pcapfile.open(self.path, follow=True) as capture:
            packets = iter(capture)
            next(packets)
            os.truncate(self.path, 100)
            with self.assertRaisesRegex(OSError, "shorter"):
                list(packets)

    def test_only_names_are_followed(self):
        with self.assertRaises(TypeError):
            pcapfile.open(0, follow=True)


if __name__ == "__main__":
    unittest.main()
