"""Prints the lines of `capcopy list`, by the Python package.

list.py FILE: a line for each packet. list.py -f FILE..: for every beginning of each file its lines and then its status. After `-s N` both
read the capture as a stream of N bytes at once. list.py -t FILE: counts, and prints packets per second, the best of five rounds.
"""

import sys
import time

import pcapfile
from pieces import opening


def list_packets(capture):
    for index, packet in enumerate(capture, 1):
        print(f"{index} {packet.seconds}.{packet.nanoseconds:09} {len(packet.data)}/{packet.original_length}")


def status_of(opened):
    try:
        list_packets(opened())
    except pcapfile.Incomplete as error:
        print(f"list.py: {error}", file=sys.stderr)
        return 3
    except pcapfile.CaptureError as error:
        print(f"list.py: {error}", file=sys.stderr)
        return 1
    return 0


def rate(path):
    best = 0.0
    with pcapfile.open(path) as capture:
        for _ in range(5):
            start = time.perf_counter()
            count = sum(1 for _ in capture)
            best = max(best, count / (time.perf_counter() - start))
    return f"{count} packets, {best / 1e6:.2f} million a second"


opened, path = opening(sys.argv[1:]), sys.argv[-1]
if sys.argv[1] == "-t":
    print(rate(path))
elif "-f" in sys.argv:
    for path in sys.argv[sys.argv.index("-f") + 1 :]:
        data = open(path, "rb").read()
        for end in range(len(data) + 1):
            print("status", status_of(lambda: opened(data[:end])))
elif "-s" in sys.argv:
    sys.exit(status_of(lambda: opened(open(path, "rb").read())))
else:
    sys.exit(status_of(lambda: pcapfile.open(path)))
