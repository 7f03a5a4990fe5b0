"""leaks.py [MILLIONS]: walks over this many million packets, by default two, of both formats in all ways. It fails if more bytes are
allocated afterwards, or more objects exist."""

import ctypes
import gc
import os
import pickle
import sys
import tempfile
from pathlib import Path

sys.path.insert(0, str(Path(__file__).parents[2] / "python" / "tests"))
import pcapfile
from test_columns import option
from test_pcapfile import HEADER, INTERFACE, SECTION, enhanced, interface, packet

EACH = 20_000
NAMED = interface(1, 0, option(2, b"eth0") + option(0, b""))


# The most that may be allocated after the walks: bytes by malloc, and blocks by Python's own allocator. One byte of each packet is more.
MOST_BYTES, MOST_BLOCKS = 256 << 10, 1000


class Mallinfo(ctypes.Structure):
    """What mallinfo2 of the C library returns. `hblkhd` are bytes in mappings of their own, and `uordblks` other allocated bytes."""

    _fields_ = [
        (name, ctypes.c_size_t)
        for name in "arena ordblks smblks hblks hblkhd usmblks fsmblks uordblks fordblks keepcost".split()
    ]


def allocated():
    """Returns the bytes that malloc has given out, and the number of blocks of Python's own allocator. Resident memory would tell less,
    since it also counts freed memory."""
    mallinfo = ctypes.CDLL(None).mallinfo2
    mallinfo.restype = Mallinfo
    gc.collect()
    found = mallinfo()
    return found.hblkhd + found.uordblks, sys.getallocatedblocks()


def walk(path, data):
    """Walks over a capture's packets in each way, and returns their number."""
    with pcapfile.open(path) as capture:
        count = sum(1 for _ in capture)
        for each in capture:
            each.time_ns, each.data, each.interface, each[2]
        count += EACH
        count += sum(1 for _ in capture.pairs())
        for _ in capture.columns(1000):
            pass
        for each in capture.indexed()[::500]:
            pickle.loads(pickle.dumps(each)), hash(each), repr(each), each.comment
    with open(path, "rb") as file, pcapfile.open(file) as capture:
        kept = [each.data for each in capture]
    count += len(kept)
    try:
        for each in pcapfile.parse(data[:-1]):
            count += 1
    except pcapfile.Incomplete:
        pass
    return count


def main():
    millions = float(sys.argv[1]) if len(sys.argv) > 1 else 2
    captures = (
        HEADER + b"".join(packet(n, 0, bytes(40)) for n in range(EACH)),
        SECTION + INTERFACE + b"".join((NAMED if n % 1000 == 0 else b"") + enhanced(n % 3, n, bytes(40)) for n in range(EACH)),
    )
    with tempfile.TemporaryDirectory() as room:
        paths = [os.path.join(room, name) for name in ("classic", "blocks")]
        for path, data in zip(paths, captures):
            Path(path).write_bytes(data)
        for _ in range(3):
            for path, data in zip(paths, captures):
                walk(path, data)
        before, objects, count = allocated(), len(gc.get_objects()), 0
        while count < millions * 1e6:
            for path, data in zip(paths, captures):
                count += walk(path, data)
        grown, blocks = (now - then for now, then in zip(allocated(), before))
        kept = len(gc.get_objects()) - objects
    if grown > MOST_BYTES or blocks > MOST_BLOCKS or kept > 100:
        sys.exit(f"leaks.py: {grown} bytes, {blocks} blocks and {kept} objects more after {count} packets")
    print(f"leaks.py: {count} packets, {grown} bytes, {blocks} blocks and {kept} objects more")


main()
