"""python.py FILE WAY ROUNDS: walks over a capture's packets through Python, and prints measurements.

It prints how many packets there are, if the way counts them, and the least seconds: by the clock, of the processor, and of the thread or
process that took most of it. Last comes the peak memory in bytes. If a way's module isn't installed, it prints nothing.
"""

import importlib.util
import multiprocessing
import random
import sys
import threading
import time

THREADS = 3

# The filter of the way "filter", and the number of packets that "random access" asks for.
FILTER = "ether[0] & 1 = 1 and ether[7] > 128"
ASKED = 10_000

# The processor seconds of each thread that walks a stretch, and of each process that walks a part.
taken = {}
workers = []


def iterate(path):
    import pcapfile

    with pcapfile.open(path) as capture:
        for packet in capture:
            pass


def each_time(path):
    import pcapfile

    with pcapfile.open(path) as capture:
        for packet in capture:
            packet.time_ns


def each_bytes(path):
    import pcapfile

    with pcapfile.open(path) as capture:
        for packet in capture:
            packet.time_ns, bytes(packet)


def pairs(path):
    import pcapfile

    with pcapfile.open(path) as capture:
        for time, data in capture.pairs():
            pass


def filtered(path):
    import pcapfile

    with pcapfile.open(path) as capture:
        return sum(1 for _ in capture.filter(FILTER))


def first(path):
    import pcapfile

    with pcapfile.open(path) as capture:
        return sum(1 for _ in zip(range(1), capture))


def by_numbers(path):
    """Takes packets by random numbers. The seconds are those of one packet, without those for making the numbers."""
    import pcapfile

    global begun
    with pcapfile.open(path) as capture:
        indexed, chosen = capture.indexed(), random.Random(3)
        numbers = [chosen.randrange(len(indexed)) for _ in range(ASKED)]
        begun = time.perf_counter(), time.process_time(), time.thread_time()
        for number in numbers:
            indexed[number]
    return len(indexed)


def columns(path, threads=1):
    import pcapfile

    with pcapfile.open(path) as capture:
        return sum(len(rows) for rows in capture.columns(threads=threads))


def by_threads(path):
    from pcapfile import _stretches

    walked = _stretches._walked

    def counted(*args):
        try:
            return walked(*args)
        finally:
            taken[threading.get_ident()] = time.thread_time()

    _stretches._walked = counted
    try:
        return columns(path, THREADS)
    finally:
        _stretches._walked = walked


def walked(part):
    """Returns how many packets a part has, and how many processor seconds the walk over them took."""
    begun = time.process_time()
    return sum(1 for _ in part), time.process_time() - begun


def by_workers(path):
    import pcapfile

    with multiprocessing.get_context("spawn").Pool(THREADS) as pool:
        counts, processors = zip(*pool.map(walked, pcapfile.parts(path, THREADS)))
    workers.extend(processors)
    return sum(counts)


def frame(path):
    import pcapfile

    with pcapfile.open(path) as capture:
        return len(capture.to_pandas())


def decoded(path):
    import pcapfile

    with pcapfile.open(path) as capture:
        return len(capture.to_pandas(decode=True))


def by_dpkt(path):
    import dpkt

    with open(path, "rb") as file:
        for timestamp, data in dpkt.pcap.UniversalReader(file):
            pass


def by_scapy(path):
    from scapy.utils import RawPcapReader

    packets = RawPcapReader(path)
    for packet in packets:
        pass
    packets.close()


# Each way, and what it needs.
WAYS = {
    "iteration": (iterate, ()),
    "time_ns of each": (each_time, ()),
    "time_ns and bytes": (each_bytes, ()),
    "pairs": (pairs, ()),
    "filter": (filtered, ()),
    "open and one packet": (first, ()),
    "random access": (by_numbers, ()),
    "iteration, 3 workers": (by_workers, ()),
    "columns": (columns, ("numpy",)),
    "columns(threads=3)": (by_threads, ("numpy",)),
    "to_pandas": (frame, ("pandas",)),
    "to_pandas(decode=True)": (decoded, ("pandas",)),
    "dpkt": (by_dpkt, ("dpkt",)),
    "scapy, undecoded": (by_scapy, ("scapy",)),
}


# The ways that go over all packets.
WHOLE = [way for way in WAYS if way not in ("filter", "open and one packet", "random access")]

# When a walk began: by the clock, of the processor, and of the thread.
begun = (0.0, 0.0, 0.0)


def peak():
    """Returns the peak memory of this process in bytes. A process inherits `ru_maxrss` from the one that started it."""
    with open("/proc/self/status") as status:
        return 1024 * next(int(line.split()[1]) for line in status if line.startswith("VmHWM:"))


def main():
    global begun
    path, way, rounds = sys.argv[1], sys.argv[2], int(sys.argv[3])
    walk, needs = WAYS[way]
    if any(importlib.util.find_spec(module) is None for module in needs):
        return
    # Starting is no part of a walk.
    others = {"dpkt": ["dpkt"], "scapy, undecoded": ["scapy.utils"]}
    for module in others.get(way, ["pcapfile", *needs]):
        importlib.import_module(module)
    walls, processors, longest = [], [], []
    for _ in range(rounds):
        taken.clear()
        workers.clear()
        begun = time.perf_counter(), time.process_time(), time.thread_time()
        count = walk(path)
        wall, processor, own = begun
        share = 1 / ASKED if way == "random access" else 1
        walls.append((time.perf_counter() - wall) * share)
        processors.append((time.process_time() - processor + sum(workers)) * share)
        taken[threading.get_ident()] = time.thread_time() - own
        longest.append(max([*taken.values(), *workers]))
    print(count, min(walls), min(processors), min(longest), peak())


if __name__ == "__main__":
    main()
