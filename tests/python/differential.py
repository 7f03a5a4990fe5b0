"""differential.py SEED COUNT FOLDER: prints for COUNT random captures a line each, with a digest of all that the package gives.

The captures have both formats, and are whole, damaged or cut. The package reads each in memory, in a file and as a stream, strictly and
leniently: packet by packet, in pairs, in columns, by numbers and in blocks. `run` compares the lines of the package with its extension
to those without.

With FOLDER/NUMBER instead of a folder the script writes that capture there, and prints all that the package gives.
"""

import hashlib
import io
import os
import random
import struct
import sys
import warnings
from pathlib import Path

sys.path.insert(0, str(Path(__file__).parents[2] / "python" / "tests"))
import pcapfile
from test_columns import option
from test_pcapfile import HEADER, INTERFACE, SECTION, block, enhanced, interface, packet

COLUMNS = ("time_ns", "len", "orig_len", "interface", "link", "offset")


class Some:
    """A stream that gives at most this many bytes."""

    def __init__(self, data, most):
        self._data, self._most = io.BytesIO(data), most

    def read(self, count):
        return self._data.read(min(count, self._most))

    def close(self):
        pass


def classic(chosen):
    header = struct.pack(
        chosen.choice("<>") + "IHHiIII", chosen.choice([0xA1B2C3D4, 0xA1B23C4D]), 2, 4, 0, 0, 65535, chosen.randrange(300)
    )
    data = HEADER if chosen.random() < 0.7 else header
    for _ in range(chosen.randrange(12)):
        length = chosen.choice([None, 60, 100])
        data += packet(chosen.randrange(2**32), chosen.randrange(10**6), chosen.randbytes(chosen.randrange(40)), length)
    return data


def described(chosen):
    """Returns an interface of any clock, perhaps with a name."""
    clock = option(9, bytes([chosen.choice([0, 3, 6, 9, 12, 0x81, 0x8A, 20, 127])]))
    moved = option(14, struct.pack("<q", chosen.randrange(-(2**40), 2**40)))
    parts = [part for part in (option(2, b"eth0"), clock, moved) if chosen.random() < 0.4]
    return interface(chosen.randrange(200), chosen.choice([0, 3, 96]), b"".join(parts) + (option(0, b"") if parts else b""))


def commented(chosen):
    """Returns an enhanced packet with options, some of which are no text."""
    data = chosen.randbytes(chosen.randrange(9))
    body = struct.pack("<IIIII", chosen.randrange(3), 5, chosen.randrange(2**32), len(data), 60) + data + bytes(-len(data) % 4)
    options = [option(1, b"seen"), option(1, b"\xff"), option(2, bytes(4)), option(2, b"ab")]
    return block(6, body + b"".join(part for part in options if chosen.random() < 0.4) + option(0, b""))


def blocks(chosen):
    makers = [
        (20, lambda: described(chosen)),
        (50, lambda: enhanced(chosen.randrange(4), chosen.randrange(2 ** chosen.choice([50, 64])), chosen.randbytes(chosen.randrange(40)))),
        (10, lambda: commented(chosen)),
        (8, lambda: block(3, struct.pack("<I", chosen.randrange(20)) + chosen.randbytes(chosen.randrange(5) * 4))),
        (5, lambda: block(2, struct.pack("<HHIIII", chosen.randrange(3), 7, 1, chosen.randrange(2**32), 3, 9) + b"abc\0")),
        (3, lambda: SECTION),
        (4, lambda: block(chosen.randrange(20), chosen.randbytes(chosen.randrange(8) * 4))),
    ]
    weights = [weight for weight, _ in makers]
    return SECTION + b"".join(chosen.choices(makers, weights)[0][1]() for _ in range(chosen.randrange(14)))


def damaged(chosen, data):
    """Returns the same capture, perhaps with a few other bytes, and perhaps cut."""
    data = bytearray(data)
    for _ in range(chosen.randrange(1, 4) if data and chosen.random() < 0.5 else 0):
        data[chosen.randrange(len(data))] = chosen.choice([0, 1, 255, chosen.randrange(256)])
    return bytes(data[: chosen.randrange(len(data) + 1)] if chosen.random() < 0.2 else data)


def plain(value):
    """Returns a value without views, and without the types that the ways have for packets."""
    if isinstance(value, memoryview):
        return bytes(value)
    if isinstance(value, (tuple, list)) or hasattr(value, "_fields"):
        return tuple(plain(part) for part in value)
    return value


def of_packet(each):
    if isinstance(each, pcapfile.Gap):
        return plain(each)
    try:
        comment = each.comment
    except pcapfile.CaptureError as error:
        comment = str(error)
    names = ("time", "time_ns", "link", "length", "offset", "original_length", "nanoseconds", "seconds")
    return plain(each), [getattr(each, name) for name in names], bytes(each), comment, getattr(each.interface, "name", None), repr(each)


def of_rows(rows):
    return [rows[name].tolist() for name in COLUMNS]


def of_numbers(capture):
    indexed = capture.indexed()
    numbers = sorted({0, 1, len(indexed) // 2, len(indexed) - 1} & set(range(len(indexed))))
    return [len(indexed), str(indexed.refusal), [of_packet(indexed[n]) for n in numbers], [of_packet(p) for p in indexed[1:7:2]]]


def walked(opened, walk, tell):
    """Returns all that a walk gives, and the error after it."""
    got = []
    try:
        with opened() as capture:
            got.append(type(capture).__name__)
            for each in walk(capture):
                got.append(tell(each))
    except pcapfile.CaptureError as error:
        got.append((type(error).__name__, str(error)))
    except ValueError as error:
        got.append(("ValueError", str(error)))
    return got


def told(data, path, most):
    got = []
    for strict in (True, False):
        for opened in (
            lambda: pcapfile.parse(data, strict=strict, gaps=not strict),
            lambda: pcapfile.open(path, strict=strict, gaps=not strict),
            lambda: pcapfile.open(Some(data, most), strict=strict, gaps=not strict),
        ):
            got.append(walked(opened, iter, of_packet))
            got.append(walked(opened, lambda capture: capture.pairs(), plain))
            got.append(walked(opened, lambda capture: joined(capture.columns(7)), plain))
            got.append(walked(opened, lambda capture: [of_numbers(capture)], plain))
            got.append(walked(opened, lambda capture: capture.blocks() if capture.format == "pcapng" else (), plain))
            got.append(walked(opened, lambda capture: capture.interfaces, plain))
    return got


def joined(batches):
    """Yields the rows of all batches, since their lengths are no promise."""
    for rows in batches:
        yield from zip(*of_rows(rows))


def main():
    warnings.simplefilter("ignore", pcapfile.CaptureWarning)
    seed, count, folder = int(sys.argv[1]), int(sys.argv[2]), sys.argv[3]
    only = int(os.path.basename(folder)) if os.path.basename(folder).isdigit() else None
    folder = folder if only is None else os.path.dirname(folder)
    path = os.path.join(folder, f"capture-{os.getpid()}")
    chosen = random.Random(seed)
    for number in range(count):
        data = damaged(chosen, chosen.choice([classic, blocks])(chosen))
        most = chosen.choice([1, 5, 24, 4096])
        if only not in (None, number):
            continue
        Path(path).write_bytes(data)
        got = told(data, path, most)
        if only is None:
            print(number, hashlib.sha256(repr(got).encode()).hexdigest()[:16], len(data))
        else:
            print(path, *map(repr, got), sep="\n")
    if only is None and count:
        os.unlink(path)


if __name__ == "__main__":
    main()
