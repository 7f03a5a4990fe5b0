"""expected.py CAPTURE: prints a line for each packet of a little-endian classic capture in nanoseconds, without pcap_file."""

import struct
import sys

with open(sys.argv[1], "rb") as file:
    capture = file.read()
assert capture[:4] == bytes.fromhex("4d3cb2a1"), "another magic number"
at = 24
while at < len(capture):
    seconds, nanoseconds, length, _ = struct.unpack_from("<IIII", capture, at)
    print(f"{seconds}.{nanoseconds:09} {length}")
    at += 16 + length
