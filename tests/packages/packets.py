"""packets.py CAPTURE: prints a line for each packet, by the installed package."""

import sys

import pcapfile

with pcapfile.open(sys.argv[1]) as capture:
    for packet in capture:
        print(f"{packet.seconds}.{packet.nanoseconds:09} {len(packet.data)}")
