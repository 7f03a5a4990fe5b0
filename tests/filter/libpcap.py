"""Calls libpcap's interpreter of filters through ctypes, if the library is installed."""
import ctypes
import functools

LIBRARY = "libpcap.so.0.8"
PACKAGE = "libpcap0.8"


class Instruction(ctypes.Structure):
    """`struct bpf_insn`."""
    _fields_ = [("code", ctypes.c_ushort), ("jt", ctypes.c_ubyte), ("jf", ctypes.c_ubyte), ("k", ctypes.c_uint32)]


@functools.lru_cache(maxsize=None)
def library():
    """Returns libpcap, or None if it isn't installed; then it prints one line, once."""
    try:
        found = ctypes.CDLL(LIBRARY)
    except OSError:
        print(f"left out: filters beside libpcap's interpreter (Debian package {PACKAGE})", flush=True)
        return None
    found.bpf_filter.argtypes = [ctypes.POINTER(Instruction), ctypes.c_char_p, ctypes.c_uint, ctypes.c_uint]
    found.bpf_filter.restype = ctypes.c_uint
    found.bpf_validate.argtypes = [ctypes.POINTER(Instruction), ctypes.c_int]
    found.bpf_validate.restype = ctypes.c_int
    return found


def array(program):
    return (Instruction * len(program))(*program)


def result(program, packet, length):
    """Returns the result of a program that libpcap accepts, for a packet."""
    return library().bpf_filter(array(program), bytes(packet), length, len(packet))


def is_valid(program):
    return bool(library().bpf_validate(array(program), len(program)))
