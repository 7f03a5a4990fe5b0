"""Prints the packets of a PcapNg capture by the Python package, as `blocks -p` of blocks.c does, without the blocks' numbers.

blocks.py FILE: a line for each packet. blocks.py -f FILE..: for every beginning of each file its lines and then its status. After `-s N`
both read the capture as a stream of N bytes at once. blocks.py -t FILE: counts, and prints packets per second, the best of five rounds.
"""

import sys
import time

import pcapfile
from pieces import opening

# The status of capcopy for each number of an error.
STATUSES = {1: 3, 2: 3, 3: 1, 4: 1, 6: 4}


def time_of(packet):
    link = "none" if packet.link is None else packet.link
    return f"none {link}" if packet.seconds is None else f"{packet.seconds}.{packet.nanoseconds:09} {link}"


def list_packets(capture):
    for packet in capture:
        lengths = f"{len(packet.data)}/{packet.original_length}"
        print(packet.interface_id, packet.timestamp, time_of(packet), lengths, packet.data.hex())


def status_of(opened):
    try:
        list_packets(opened())
    except pcapfile.CaptureError as error:
        print(f"blocks.py: {error}", file=sys.stderr)
        return STATUSES[error.status]
    return 0


def rate(path):
    best = 0.0
    with pcapfile.open(path) as capture:
        for _ in range(5):
            start = time.perf_counter()
            count = sum(1 for _ in capture)
            best = max(best, count / (time.perf_counter() - start))
    return f"{count} packets, {best / 1e6:.2f} million a second"


opened, path = opening(sys.argv[1:]), sys.argv[-1]
if sys.argv[1] == "-t":
    print(rate(path))
elif "-f" in sys.argv:
    for path in sys.argv[sys.argv.index("-f") + 1 :]:
        data = open(path, "rb").read()
        for end in range(len(data) + 1):
            print("status", status_of(lambda: opened(data[:end])))
elif "-s" in sys.argv:
    sys.exit(status_of(lambda: opened(open(path, "rb").read())))
else:
    sys.exit(status_of(lambda: pcapfile.open(path)))
