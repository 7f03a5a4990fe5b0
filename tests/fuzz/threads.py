"""threads.py SEED SECONDS: checks the Python package over random captures. Each way of reading must give the same packets. Threads that
share a capture, or close it, must get each packet once or an error that docs/PYTHON.md names.

The test runs in a process of its own, since a fault of the library would end it.
"""
import io
import os
import random
import sys
import tempfile
import threading
import time

import generated
import pcapfile

HERE = os.path.dirname(os.path.abspath(__file__))
STORED = [os.path.join(HERE, "..", "files", "stored"), os.path.join(HERE, "..", "..", "crates", "pcapfile", "data")]
# The errors that a thread may get if it shares a capture, or if another one closes it during the reading.
REFUSALS = (ValueError, RuntimeError)


class Trickle(io.RawIOBase):
    """A stream that gives a few bytes at a time."""

    def __init__(self, data, most):
        super().__init__()
        self.data, self.most = io.BytesIO(data), most

    def readable(self):
        return True

    def readinto(self, room):
        return self.data.readinto(memoryview(room)[: self.most])


def told(capture):
    """Returns the packets of a capture, and the name and offset of the error that ended them."""
    rows = []
    try:
        for packet in capture:
            rows.append((packet.time, bytes(packet.data), packet.original_length))
    except pcapfile.CaptureError as fault:
        return rows, type(fault).__name__, fault.offset
    return rows, None, None


def opened(make):
    """Returns what the package reads from the capture that `make` opens, or the error at its beginning."""
    try:
        with make() as capture:
            return told(capture)
    except pcapfile.CaptureError as fault:
        return [], type(fault).__name__, fault.offset


def ways_agree(source, path, data):
    """Checks that a file, bytes in memory and a stream in pieces give the same packets."""
    most = source.choice([1, 7, 100, 65536])
    found = [opened(lambda: pcapfile.open(path)), opened(lambda: pcapfile.parse(data)), opened(lambda: pcapfile.open(Trickle(data, most)))]
    assert found[0] == found[1] == found[2], f"{[(len(it[0]), it[1], it[2]) for it in found]} in pieces of {most}"


def shared(source, path, data):
    """Checks that threads that iterate one stream get each packet once, or a refusal."""
    wanted = opened(lambda: pcapfile.parse(data))[0]
    found, faults = [], []

    def take(packets):
        try:
            for packet in packets:
                found.append((packet.time, bytes(packet.data), packet.original_length))
        except (*REFUSALS, pcapfile.CaptureError):
            pass
        except BaseException as fault:  # any other error is a fault of the package
            faults.append(fault)

    try:
        capture = pcapfile.open(Trickle(data, 4096))
        packets = iter(capture)
    except pcapfile.CaptureError:
        return
    threads = [threading.Thread(target=take, args=[packets]) for _ in range(4)]
    for thread in threads:
        thread.start()
    for thread in threads:
        thread.join()
    assert not faults, faults
    left = list(wanted)
    for packet in found:
        assert packet in left, "a packet was given twice, or is none of the capture's"
        left.remove(packet)


def closed(source, path, data):
    """Checks that if a thread closes a capture during another thread's reading, the reading ends with a refusal, or goes on."""
    faults = []

    def walk(capture):
        try:
            for packet in capture:
                bytes(packet.data)
        except (*REFUSALS, pcapfile.CaptureError):
            pass
        except BaseException as fault:  # any other error is a fault of the package
            faults.append(fault)

    try:
        capture = pcapfile.open(path)
    except pcapfile.CaptureError:
        return
    thread = threading.Thread(target=walk, args=[capture])
    thread.start()
    time.sleep(source.random() / 1000)
    capture.close()
    thread.join()
    assert not faults, faults


def main():
    seed, end = int(sys.argv[1]), time.monotonic() + float(sys.argv[2])
    stored, tried = generated.stored(STORED), 0
    sys.setswitchinterval(1e-5)
    with tempfile.TemporaryDirectory(prefix="fuzz-") as room:
        path = f"{room}/in"
        while tried == 0 or time.monotonic() < end:
            source = random.Random(seed + tried)
            data = generated.any_capture(source, stored)
            with open(path, "wb") as it:
                it.write(data)
            for of in (ways_agree, shared, closed):
                try:
                    of(source, path, data)
                except AssertionError as fault:
                    sys.exit(f"{of.__name__}: {fault}\nseen again by: threads.py {seed + tried} 0")
            tried += 1
    print(f"threads: {tried} captures from seed {seed} on")


main()
