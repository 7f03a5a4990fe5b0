"""The structs and the statuses of pcapfile.h, by ctypes. Each class names the types that its fields have in Python."""

import ctypes

OK, INCOMPLETE, BAD_VALUE, INVALID, NOT_UTF8, NO_MEMORY, NOTHING, NO_ROOM, NO_PLACE = 0, 1, 2, 3, 4, 6, 8, 9, 11


class Bytes(ctypes.Structure):
    ptr: int
    len: int

    _fields_ = [("ptr", ctypes.c_void_p), ("len", ctypes.c_size_t)]


class Header(ctypes.Structure):
    magic_number: int
    version_major: int
    version_minor: int
    ts_correction: int
    ts_accuracy: int
    snaplen: int
    link: int

    _fields_ = [
        ("magic_number", ctypes.c_uint32),
        ("version_major", ctypes.c_uint16),
        ("version_minor", ctypes.c_uint16),
        ("ts_correction", ctypes.c_int32),
        ("ts_accuracy", ctypes.c_uint32),
        ("snaplen", ctypes.c_uint32),
        ("link", ctypes.c_uint32),
    ]


class Packet(ctypes.Structure):
    ts_sec: int
    ts_nsec: int
    orig_len: int
    bytes: Bytes

    _fields_ = [
        ("ts_sec", ctypes.c_uint32),
        ("ts_nsec", ctypes.c_uint32),
        ("orig_len", ctypes.c_uint32),
        ("bytes", Bytes),
    ]


class Section(ctypes.Structure):
    magic_number: int
    version_major: int
    version_minor: int
    interfaces: int

    _fields_ = [
        ("magic_number", ctypes.c_uint32),
        ("version_major", ctypes.c_uint16),
        ("version_minor", ctypes.c_uint16),
        ("interfaces", ctypes.c_uint32),
    ]


class Block(ctypes.Structure):
    type: int
    body: Bytes

    _fields_ = [("type", ctypes.c_uint32), ("body", Bytes)]


class Interface(ctypes.Structure):
    link: int
    snaplen: int
    ts_base: int
    ts_exponent: int
    ts_offset: int

    _fields_ = [
        ("link", ctypes.c_uint32),
        ("snaplen", ctypes.c_uint32),
        ("ts_base", ctypes.c_uint8),
        ("ts_exponent", ctypes.c_uint8),
        ("ts_offset", ctypes.c_int64),
    ]


class NgPacket(ctypes.Structure):
    type: int
    interface_id: int
    orig_len: int
    timestamp: int
    bytes: Bytes

    _fields_ = [
        ("type", ctypes.c_uint32),
        ("interface_id", ctypes.c_uint32),
        ("orig_len", ctypes.c_uint32),
        ("timestamp", ctypes.c_uint64),
        ("bytes", Bytes),
    ]


class Time(ctypes.Structure):
    seconds: int
    nanoseconds: int

    _fields_ = [("seconds", ctypes.c_int64), ("nanoseconds", ctypes.c_uint32)]


class Cut(ctypes.Structure):
    offset: int
    before: int

    _fields_ = [("offset", ctypes.c_size_t), ("before", ctypes.c_size_t)]


class NgCut(ctypes.Structure):
    at: Cut
    header: int
    first: int
    interfaces: int

    _fields_ = [("at", Cut), ("header", ctypes.c_size_t), ("first", ctypes.c_size_t), ("interfaces", ctypes.c_size_t)]


class PacketAsIs(ctypes.Structure):
    ts_sec: int
    ts_fraction: int
    orig_len: int
    flaws: int
    first_flaw: int
    time: Time
    bytes: Bytes

    _fields_ = [
        ("ts_sec", ctypes.c_uint32),
        ("ts_fraction", ctypes.c_uint32),
        ("orig_len", ctypes.c_uint32),
        ("flaws", ctypes.c_uint32),
        ("first_flaw", ctypes.c_uint32),
        ("time", Time),
        ("bytes", Bytes),
    ]


class BlockFlaw(ctypes.Structure):
    status: int
    rule: int
    code: int

    _fields_ = [("status", ctypes.c_int32), ("rule", ctypes.c_uint32), ("code", ctypes.c_uint32)]


class BlockAsIs(ctypes.Structure):
    type: int
    has_interface: int
    has_packet: int
    flaws: int
    body: Bytes
    interface: Interface
    packet: NgPacket

    _fields_ = [
        ("type", ctypes.c_uint32),
        ("has_interface", ctypes.c_uint8),
        ("has_packet", ctypes.c_uint8),
        ("flaws", ctypes.c_size_t),
        ("body", Bytes),
        ("interface", Interface),
        ("packet", NgPacket),
    ]


class Option(ctypes.Structure):
    code: int
    value: Bytes

    _fields_ = [("code", ctypes.c_uint16), ("value", Bytes)]


class Record(ctypes.Structure):
    type: int
    address: Bytes
    names: Bytes

    _fields_ = [("type", ctypes.c_uint16), ("address", Bytes), ("names", Bytes)]


class Error(ctypes.Structure):
    rule: int
    missing: int

    _fields_ = [("rule", ctypes.c_uint32), ("missing", ctypes.c_size_t)]
