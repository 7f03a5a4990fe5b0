"""packed.py PROGRAM FOLDER CAPTURES [gzip] [zstd]: checks that tests/c/open, built with zlib or libzstd, lists compressed captures as it lists
what they contain.

The captures are those in the second folder. The script compresses each by the named kinds, whole and in several members or frames, and writes
the compressed files into the first folder. It truncates and damages some, and asks Python's zlib for the bytes before the damage. The packets
must be those of these bytes. Files that the program cannot decompress must have the status of their kind.
"""

import bz2
import gzip
import lzma
import random
import subprocess
import sys
import zlib
from pathlib import Path

PROGRAM, FOLDER, CAPTURES, KINDS = sys.argv[1].split(" "), Path(sys.argv[2]), Path(sys.argv[3]), sys.argv[4:]
WAYS = (("-b", "5"), ("-r", "1"), ("-h", "7"), ("-k", "7"))
ENDED_EARLY, BAD = 3, 1
IS_GZIP, IS_ZSTD, IS_XZ, IS_BZIP2, IS_LZ4, BAD_COMPRESSION = 19, 20, 21, 22, 23, 24
SMALL, LONGEST = 1000, 1 << 20


def run(path, *way):
    done = subprocess.run([*PROGRAM, *way, str(path)], capture_output=True, check=False)
    if done.stderr:
        sys.exit(f"packed.py: {path} {way}: {done.stderr.decode()}")
    return done.stdout, done.returncode


def written(name, data):
    path = FOLDER / name
    path.write_bytes(data)
    return path


def same(path, wanted, way):
    got = run(path, *way)
    if got != wanted:
        sys.exit(f"packed.py: {path} {way}: status {got[1]}, and not {wanted[1]}\n{got[0][-300:]}\nand not\n{wanted[0][-300:]}")


def zstd(data):
    return subprocess.run(["zstd", "-q", "-c"], input=data, capture_output=True, check=True).stdout


COMPRESS = {"gzip": gzip.compress, "zstd": zstd}


def forms(kind, data, choose):
    """Yields the capture compressed whole, and in parts of any length, an empty one among them."""
    compress = COMPRESS[kind]
    first, second = sorted(choose.randrange(len(data) + 1) for _ in range(2))
    parts = [data[:first], b"", data[first:second], data[second:]]
    yield "whole", compress(data)
    yield "parts", b"".join(map(compress, parts))
    if kind == "gzip":
        yield "zeros", gzip.compress(data) + bytes(choose.randrange(1, 700))
        yield "stored", gzip.compress(data, 0)


def before_damage(packed):
    """Returns the bytes that zlib decompresses before it refuses the next one, and whether it refuses one, and whether a member ends there."""
    found, member, is_whole = b"", zlib.decompressobj(31), False
    for at in range(len(packed)):
        if is_whole and packed[at] == 0:
            continue
        member, is_whole = (zlib.decompressobj(31), False) if is_whole else (member, False)
        try:
            found += member.decompress(packed[at : at + 1])
        except zlib.error:
            return found, True, False
        is_whole = member.eof
    return found, False, is_whole


def check_damaged(name, packed, choose):
    """Checks a truncated or damaged gzip file."""
    data, is_refused, is_whole = before_damage(packed)
    lines, status = run(written("before", data))
    if not is_whole and status in (0, ENDED_EARLY):
        lines += b"refused\n" if status == 0 else b""
        status = BAD if is_refused else ENDED_EARLY
    same(written(name, packed), (lines, status), choose.choice([(), ("-r", "1")]))
    return status


def check_whole(path):
    capture = path.read_bytes()
    choose = random.Random(str(path.name))
    for kind in KINDS:
        for form, packed in forms(kind, capture, choose):
            of, way = written(f"{kind}_{form}", packed), choose.choice(WAYS if len(capture) < SMALL else WAYS[:1])
            same(of, run(path, *way), way)
            if form == "parts" and len(capture) < 400 and run(of, "-x")[1] != 0:
                sys.exit(f"packed.py: {path} {kind} {form}: another list where a call fails")
    return len(capture)


def check_damages(path):
    """Checks gzip files that end anywhere, with a byte changed anywhere, and with bytes after their end."""
    choose, capture = random.Random(7), path.read_bytes()
    packed = gzip.compress(capture[: len(capture) // 2]) + gzip.compress(capture[len(capture) // 2 :])
    seen = {check_damaged("cut", packed[:at], choose) for at in {*range(18, len(packed), 5), *range(len(packed) - 10, len(packed))}}
    for _ in range(20):
        at = choose.randrange(10, len(packed))
        seen.add(check_damaged("changed", packed[:at] + bytes([packed[at] ^ 1 << choose.randrange(8)]) + packed[at + 1 :], choose))
    seen.add(check_damaged("more", packed + b"more", choose))
    if not {BAD, ENDED_EARLY} <= seen:
        sys.exit(f"packed.py: only the statuses {seen} came")


def check_zstd_damages(path):
    """Checks that zstd files that end in their second frame, or are damaged there, give the packets of the first frame and an error."""
    capture = path.read_bytes()
    for half in (24, len(capture) // 2, len(capture) - 1):
        front, lines = zstd(capture[:half]), run(written("front", capture[:half]))[0].removesuffix(b"refused\n")
        second = zstd(capture[half:])
        for at in range(1, len(second), 7):
            got, status = run(written("cut", front + second[:at]))
            if not got.startswith(lines) or status != ENDED_EARLY:
                sys.exit(f"packed.py: {path}: status {status} for a zstd file cut {at} bytes after its first frame")
        damaged = front + second[:-1] + bytes([second[-1] ^ 1])
        for of in (damaged, front + second + b"more"):
            got, status = run(written("changed", of))
            if not got.startswith(lines) or status != BAD or run(FOLDER / "changed", "-s")[0] != f"{BAD_COMPRESSION} 0\n".encode():
                sys.exit(f"packed.py: {path}: status {status} for a damaged zstd file")


def check_named(capture):
    """Checks the statuses of files that the program cannot decompress, and that a damaged gzip file has one."""
    files = {IS_XZ: lzma.compress(capture), IS_BZIP2: bz2.compress(capture), IS_LZ4: b"\x04\x22\x4d\x18" + capture}
    if "gzip" not in KINDS:
        files[IS_GZIP] = gzip.compress(capture)
    if "zstd" not in KINDS:
        files[IS_ZSTD] = b"\x28\xb5\x2f\xfd" + capture
    for status, data in files.items():
        got = run(written("named", data), "-s")
        if got != (f"{status} 0\n".encode(), 0):
            sys.exit(f"packed.py: {got} for a file of status {status}")
    if "gzip" in KINDS:
        got = run(written("named", gzip.compress(capture)[:-8] + bytes(8)), "-s")
        if got[0].split()[0] != str(BAD_COMPRESSION).encode():
            sys.exit(f"packed.py: {got} for a gzip file with another checksum")


def is_sound(path):
    """Returns whether the capture has some packets, and none that is refused."""
    lines, status = run(path)
    return status == 0 and lines.count(b"\n") > 1 and b"refused" not in lines


def main():
    files = (path for path in sorted(CAPTURES.rglob("*")) if path.is_file() and path.suffix != ".packets")
    paths = [path for path in files if path.stat().st_size < LONGEST]
    small = [path for path in paths if check_whole(path) < SMALL and is_sound(path)]
    for path in small[:1] + small[1:][-1:]:
        if "gzip" in KINDS:
            check_damages(path)
        if "zstd" in KINDS:
            check_zstd_damages(path)
    check_named(bytes.fromhex("a1b2c3d4") + bytes(60))


main()
