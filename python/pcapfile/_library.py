"""The functions of pcapfile.h, by ctypes."""

import ctypes
import os
from pathlib import Path
from typing import Any, Callable

from ._extension import native
from ._structs import (
    BAD_VALUE as BAD_VALUE,
    INCOMPLETE as INCOMPLETE,
    INVALID as INVALID,
    NOTHING as NOTHING,
    NOT_UTF8 as NOT_UTF8,
    NO_MEMORY as NO_MEMORY,
    NO_PLACE as NO_PLACE,
    NO_ROOM as NO_ROOM,
    OK as OK,
    Block as Block,
    BlockAsIs as BlockAsIs,
    BlockFlaw as BlockFlaw,
    Bytes as Bytes,
    Cut as Cut,
    Error as Error,
    Header as Header,
    Interface as Interface,
    NgCut as NgCut,
    NgPacket as NgPacket,
    Option as Option,
    Packet as Packet,
    PacketAsIs as PacketAsIs,
    Record as Record,
    Section as Section,
    Time as Time,
)


def _find() -> str:
    named = os.environ.get("PCAPFILE_LIBRARY") or getattr(native, "__file__", None)
    if named:
        return named
    # A disabled extension (PCAPFILE_NATIVE=0) contains the library too.
    folder = Path(__file__).parent
    for beside in (folder / "libpcapfile.so", *folder.glob("_native.*.so")):
        if beside.exists():
            return str(beside)
    import ctypes.util

    return ctypes.util.find_library("pcapfile") or "libpcapfile.so.0"


def _load() -> ctypes.CDLL:
    found = _find()
    try:
        return ctypes.CDLL(found)
    except OSError as error:
        raise ImportError(
            f"pcapfile's library can't be loaded from {found!r} ({error}): set PCAPFILE_LIBRARY to its path, or put "
            f"libpcapfile.so into {Path(__file__).parent} or where the system keeps libraries; 'make' builds it as out/libpcapfile.so"
        ) from error


_library = _load()
_to = ctypes.POINTER

take_header = _library.pcapfile_take_header
take_header.argtypes = [_to(Bytes), _to(Header), _to(Error)]
take_header.restype = ctypes.c_int32

take_packets = _library.pcapfile_take_packets
take_packets.argtypes = [_to(Header), _to(Bytes), _to(Packet), ctypes.c_size_t, _to(ctypes.c_size_t), _to(Error)]
take_packets.restype = ctypes.c_int32

take_packet_as_is = _library.pcapfile_take_packet_as_is
take_packet_as_is.argtypes = [_to(Header), _to(Bytes), ctypes.c_uint32, _to(PacketAsIs), _to(Error)]
take_packet_as_is.restype = ctypes.c_int32

take_block = _library.pcapfile_take_block
take_block.argtypes = [_to(Section), _to(Bytes), _to(Block), _to(Error)]
take_block.restype = ctypes.c_int32

take_block_as_is = _library.pcapfile_take_block_as_is
take_block_as_is.argtypes = [_to(Section), _to(Bytes), _to(BlockAsIs), _to(BlockFlaw), ctypes.c_size_t, _to(Error)]
take_block_as_is.restype = ctypes.c_int32

read_interface = _library.pcapfile_read_interface
read_interface.argtypes = [_to(Section), _to(Block), _to(Interface), _to(Error)]
read_interface.restype = ctypes.c_int32

read_packet = _library.pcapfile_read_packet
read_packet.argtypes = [_to(Section), _to(Block), _to(NgPacket), _to(Error)]
read_packet.restype = ctypes.c_int32

options = _library.pcapfile_options
options.argtypes = [_to(Section), _to(Block), _to(Bytes), _to(Error)]
options.restype = ctypes.c_int32

take_option = _library.pcapfile_take_option
take_option.argtypes = [_to(Section), _to(Bytes), _to(Option), _to(Error)]
take_option.restype = ctypes.c_int32

take_record = _library.pcapfile_take_record
take_record.argtypes = [_to(Section), _to(Bytes), _to(Record), _to(Error)]
take_record.restype = ctypes.c_int32

take_name = _library.pcapfile_take_name
take_name.argtypes = [_to(Bytes), _to(Bytes), _to(Error)]
take_name.restype = ctypes.c_int32

take_ng_packets = _library.pcapfile_take_ng_packets
take_ng_packets.argtypes = [
    _to(Section),
    _to(Bytes),
    _to(NgPacket),
    ctypes.c_size_t,
    _to(ctypes.c_size_t),
    _to(Error),
]
take_ng_packets.restype = ctypes.c_int32

take_rows = _library.pcapfile_take_rows
take_rows.argtypes = [_to(Header), _to(Bytes), ctypes.c_void_p, ctypes.c_size_t, _to(ctypes.c_size_t), _to(Error)]
take_rows.restype = ctypes.c_int32

take_ng_rows = _library.pcapfile_take_ng_rows
take_ng_rows.argtypes = [_to(Section), _to(Bytes), ctypes.c_void_p, ctypes.c_size_t, _to(ctypes.c_size_t), _to(Error)]
take_ng_rows.restype = ctypes.c_int32

resync = _library.pcapfile_resync
resync.argtypes = [_to(Header), _to(Bytes), ctypes.c_size_t, _to(ctypes.c_size_t), _to(Error)]
resync.restype = ctypes.c_int32

judge_packet = _library.pcapfile_judge_packet
judge_packet.argtypes = [_to(Header), ctypes.c_uint32, _to(Bytes), ctypes.c_uint8, _to(ctypes.c_size_t), _to(ctypes.c_uint32), _to(Error)]
judge_packet.restype = ctypes.c_int32

skip_to_packets = _library.pcapfile_skip_to_packets
skip_to_packets.argtypes = [_to(Header), ctypes.c_uint32, _to(Bytes), ctypes.c_uint8, _to(ctypes.c_size_t), _to(ctypes.c_uint8), _to(Error)]
skip_to_packets.restype = ctypes.c_int32

skip_to_blocks = _library.pcapfile_skip_to_blocks
skip_to_blocks.argtypes = [_to(Section), _to(Bytes), ctypes.c_uint8, _to(ctypes.c_size_t), _to(ctypes.c_uint8), _to(Error)]
skip_to_blocks.restype = ctypes.c_int32

cut_packets = _library.pcapfile_cut_packets
cut_packets.argtypes = [_to(Bytes), _to(Cut), ctypes.c_size_t, _to(ctypes.c_size_t), _to(Error)]
cut_packets.restype = ctypes.c_int32

cut_packets_at_least = _library.pcapfile_cut_packets_at_least
cut_packets_at_least.argtypes = [_to(Bytes), ctypes.c_size_t, *cut_packets.argtypes[1:]]
cut_packets_at_least.restype = ctypes.c_int32

cut_blocks = _library.pcapfile_cut_blocks
cut_blocks.argtypes = [
    _to(Bytes),
    _to(NgCut),
    ctypes.c_size_t,
    _to(ctypes.c_size_t),
    _to(ctypes.c_size_t),
    ctypes.c_size_t,
    _to(ctypes.c_size_t),
    _to(Error),
]
cut_blocks.restype = ctypes.c_int32

cut_blocks_at_least = _library.pcapfile_cut_blocks_at_least
cut_blocks_at_least.argtypes = [_to(Bytes), ctypes.c_size_t, *cut_blocks.argtypes[1:]]
cut_blocks_at_least.restype = ctypes.c_int32


def _writing(name: str, *structs: Any) -> Callable[..., int]:
    """Returns a function of the library that writes these structs into a buffer."""
    function = getattr(_library, name)
    room = [_to(ctypes.c_uint8), ctypes.c_size_t, _to(ctypes.c_size_t), _to(Error)]
    function.argtypes, function.restype = [*map(_to, structs), *room], ctypes.c_int32
    call: Callable[..., int] = function
    return call


write_header = _writing("pcapfile_write_header", Header)
write_packet = _writing("pcapfile_write_packet", Header, Packet)
put_section = _writing("pcapfile_put_section", Section)
put_interface = _writing("pcapfile_put_interface", Section, Interface)
put_ng_packet = _writing("pcapfile_put_ng_packet", Section, NgPacket)

link_type = _library.pcapfile_link_type
link_type.argtypes = [ctypes.c_uint32]
link_type.restype = ctypes.c_uint32

fcs_len = _library.pcapfile_fcs_len
fcs_len.argtypes = [ctypes.c_uint32]
fcs_len.restype = ctypes.c_int32

time_of = _library.pcapfile_time_of
time_of.argtypes = [_to(Interface), ctypes.c_uint64, _to(Time)]
time_of.restype = ctypes.c_int32


class _Buffer(ctypes.Structure):
    """Python's own struct for a buffer (Py_buffer)."""

    _fields_ = [
        ("buf", ctypes.c_void_p),
        ("obj", ctypes.py_object),
        ("len", ctypes.c_ssize_t),
        ("itemsize", ctypes.c_ssize_t),
        ("readonly", ctypes.c_int),
        ("ndim", ctypes.c_int),
        ("format", ctypes.c_char_p),
        ("shape", ctypes.c_void_p),
        ("strides", ctypes.c_void_p),
        ("suboffsets", ctypes.c_void_p),
        ("internal", ctypes.c_void_p),
    ]


_get_buffer = ctypes.pythonapi.PyObject_GetBuffer
_get_buffer.argtypes = [ctypes.py_object, _to(_Buffer), ctypes.c_int]
_release_buffer = ctypes.pythonapi.PyBuffer_Release
_release_buffer.argtypes = [_to(_Buffer)]
_release_buffer.restype = None


def address_of(view: memoryview) -> int:
    """Returns the address of a view's bytes, or a valid address if the view is empty. It is valid until the view is released."""
    return place_of(view) if len(view) > 0 else ctypes.addressof(_NOTHING)


def place_of(view: memoryview) -> int:
    """Returns the address at which a view begins. An empty view may have the address 0."""
    if native is not None:
        return int(native.address(view))
    buffer = _Buffer()
    _get_buffer(view, ctypes.byref(buffer), 0)
    try:
        return buffer.buf or 0
    finally:
        _release_buffer(ctypes.byref(buffer))


_NOTHING = ctypes.create_string_buffer(1)


def no_bytes() -> Bytes:
    return Bytes(ctypes.addressof(_NOTHING), 0)


def _text_of(call: Callable[..., None], rule: int) -> str:
    text = no_bytes()
    call(rule, ctypes.byref(text))
    return ctypes.string_at(text.ptr, text.len).decode("ascii")


for _call in (_library.pcapfile_rule_name, _library.pcapfile_rule_text):
    _call.argtypes = [ctypes.c_uint32, _to(Bytes)]
    _call.restype = None


def rule_name(rule: int) -> str:
    return _text_of(_library.pcapfile_rule_name, rule)


def rule_text(rule: int) -> str:
    return _text_of(_library.pcapfile_rule_text, rule)
