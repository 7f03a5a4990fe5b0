"""Makes random programs that are valid, and random packets."""
import random

CELLS = 16
RETURN_A = (0x16, 0, 0, 0)
LOADS_OF_PACKETS = (0x20, 0x28, 0x30, 0x40, 0x48, 0x50, 0xb1)
OF_CELLS = (0x60, 0x61, 0x02, 0x03)
OF_NUMBERS = (0x00, 0x01, 0x80, 0x81, 0x04, 0x14, 0x24, 0x44, 0x54, 0xa4)
OF_REGISTERS = (0x0c, 0x1c, 0x2c, 0x3c, 0x4c, 0x5c, 0x6c, 0x7c, 0x84, 0x9c, 0xac, 0x07, 0x87)
DIVISIONS = (0x34, 0x94)
SHIFTS = (0x64, 0x74)
TESTS = (0x15, 0x1d, 0x25, 0x2d, 0x35, 0x3d, 0x45, 0x4d)
JUMP = 0x05
RETURNS = (0x06, 0x16)
# Codes that often end a program early.
ENDING = (0x40, 0x48, 0x50, 0x3c, 0x9c) + RETURNS
CODES = LOADS_OF_PACKETS + OF_CELLS + OF_NUMBERS + OF_REGISTERS + DIVISIONS + SHIFTS + TESTS + (JUMP,) + RETURNS
NUMBERS = (0, 1, 2, 3, 7, 8, 31, 32, 33, 255, 256, 65535, 65536, 2**31 - 1, 2**31, 2**32 - 2, 2**32 - 1)


def number(rng):
    return rng.choice((rng.choice(NUMBERS), rng.randrange(64), rng.getrandbits(32)))


def instruction(rng, behind):
    """Returns a random instruction that this many others follow."""
    code = rng.choice(CODES)
    while code in ENDING and rng.random() < 0.8:
        code = rng.choice(CODES)
    if code in LOADS_OF_PACKETS:
        return code, 0, 0, number(rng) if rng.random() < 0.05 else rng.randrange(60)
    if code in OF_CELLS:
        return code, 0, 0, rng.randrange(CELLS)
    if code in DIVISIONS:
        return code, 0, 0, max(number(rng), 1)
    if code in SHIFTS:
        return code, 0, 0, rng.randrange(32)
    if code in TESTS:
        return code, rng.randrange(min(behind, 256)), rng.randrange(min(behind, 256)), number(rng)
    if code == JUMP:
        return code, 0, 0, rng.randrange(min(behind, 4))
    return code, 0, 0, number(rng)


def program(rng):
    """Returns a random valid program. It first sets each cell to 0, since libpcap leaves them as they are."""
    cleared = [(0x02, 0, 0, cell) for cell in range(CELLS)]
    count = rng.randrange(1, 40)
    return cleared + [instruction(rng, count - place) for place in range(count)] + [rng.choice((RETURN_A, (0x06, 0, 0, number(rng))))]


def broken(rng):
    """Returns a program in which one instruction is replaced by any other."""
    rows = program(rng)
    code = rng.choice(CODES + (0x08, 0x0e, 0x8c, 0xff, 0xffff))
    rows[rng.randrange(len(rows))] = (code, rng.randrange(60), rng.randrange(60), number(rng))
    return rows


def packet(rng):
    """Returns random bytes, and the original length."""
    data = rng.randbytes(rng.choice((0, 3, 5, rng.randrange(80), 64, 64, 64, 64)))
    return data, len(data) + rng.choice((0, 0, 1000))


def text(rows):
    """Returns a program as `tcpdump -ddd` prints it, with commas between the lines."""
    return ",".join([str(len(rows))] + [f"{code} {jt} {jf} {k}" for code, jt, jf, k in rows])


def seeded(seed):
    return random.Random(seed)
