"""Gives the columns of packets to other packages by Arrow's C data interface: a capsule with a stream of record batches."""

import ctypes
import itertools
from array import array
from typing import Any, Callable, Dict, Iterator, List, Optional, Tuple, TypeVar

from . import _columns
from ._columns import NO_LINK, NO_TIME

_EIO = 5
_NULLABLE = 2


class _Schema(ctypes.Structure):
    pass


class _Array(ctypes.Structure):
    pass


class _Stream(ctypes.Structure):
    pass


_OfSchema = ctypes.CFUNCTYPE(None, ctypes.POINTER(_Schema))
_OfArray = ctypes.CFUNCTYPE(None, ctypes.POINTER(_Array))
_OfStream = ctypes.CFUNCTYPE(None, ctypes.POINTER(_Stream))
_Gets = ctypes.CFUNCTYPE(ctypes.c_int, ctypes.POINTER(_Stream), ctypes.c_void_p)
_Says = ctypes.CFUNCTYPE(ctypes.c_void_p, ctypes.POINTER(_Stream))

_Schema._fields_ = [
    ("format", ctypes.c_char_p),
    ("name", ctypes.c_char_p),
    ("metadata", ctypes.c_char_p),
    ("flags", ctypes.c_int64),
    ("n_children", ctypes.c_int64),
    ("children", ctypes.POINTER(ctypes.POINTER(_Schema))),
    ("dictionary", ctypes.POINTER(_Schema)),
    ("release", _OfSchema),
    ("private_data", ctypes.c_void_p),
]
_Array._fields_ = [
    *((name, ctypes.c_int64) for name in ("length", "null_count", "offset", "n_buffers", "n_children")),
    ("buffers", ctypes.POINTER(ctypes.c_void_p)),
    ("children", ctypes.POINTER(ctypes.POINTER(_Array))),
    ("dictionary", ctypes.POINTER(_Array)),
    ("release", _OfArray),
    ("private_data", ctypes.c_void_p),
]
_Stream._fields_ = [
    ("get_schema", _Gets),
    ("get_next", _Gets),
    ("get_last_error", _Says),
    ("release", _OfStream),
    ("private_data", ctypes.c_void_p),
]

# Python objects that an exported struct needs until its consumer releases it, by the struct's `private_data`. The second
# dictionary has the structs that capsules own, by their addresses.
_held: Dict[int, Any] = {}
_capsules: Dict[int, Any] = {}
_numbers = itertools.count(1)


_Struct = TypeVar("_Struct", bound=ctypes.Structure)


def _hold(struct: _Struct, needed: Any, release: Any) -> _Struct:
    fields: Any = struct
    fields.private_data = number = next(_numbers)
    fields.release = release
    _held[number] = needed
    return struct


def _let_go(pointer: Any) -> None:
    """Releases a struct, and those of its children that the consumer did not move out of it."""
    struct = pointer.contents
    for at in range(getattr(struct, "n_children", 0)):
        child = struct.children[at]
        if child.contents.release:
            child.contents.release(child)
    _held.pop(struct.private_data, None)
    struct.release = type(struct.release)()


_release_schema, _release_array, _release_stream = _OfSchema(_let_go), _OfArray(_let_go), _OfStream(_let_go)


def _children(kind: Any, structs: List[Any]) -> Any:
    """Returns an array of pointers to structs. The caller must keep it as long as the pointers are in use."""
    return (ctypes.POINTER(kind) * max(len(structs), 1))(*map(ctypes.pointer, structs))


class Column:
    """A column: its name, its format in Arrow, and the value that marks a missing entry, or None."""

    def __init__(self, name: str, format: str, missing: Optional[int] = None) -> None:
        self.name, self.format, self.missing = name, format, missing

    def buffers(self, batch: Any) -> Tuple[List[Any], int]:
        """Returns the buffers of a batch and the number of missing values. The first buffer has the validity bits, or is None."""
        if self.format == "u":
            return _texts(batch["interface_name"])
        if self.format == "Z":
            return [None, batch["data_offsets"], batch["data"]], 0
        values = batch["time_ns" if self.name == "time" else self.name]
        if _columns.numpy is not None:
            values = _columns.numpy.ascontiguousarray(values)
        if self.missing is None:
            return [None, values], 0
        bits, count = _bits([value != self.missing for value in values] if _columns.numpy is None else values != self.missing)
        return [bits, values], count


_NUMBERS = [
    Column("time", "tsn:UTC", NO_TIME),
    *(Column(name, "I") for name in ("len", "orig_len", "interface")),
    Column("link", "I", NO_LINK),
    Column("offset", "L"),
]


def columns_of(names: bool, data: bool) -> List[Column]:
    return [*_NUMBERS, *([Column("interface_name", "u")] if names else []), *([Column("data", "Z")] if data else [])]


def _bits(there: Any) -> Tuple[Any, int]:
    """Returns the validity bits, eight in a byte, and the number of missing values. The bits are None if no value is missing."""
    count = len(there) - int(sum(there) if _columns.numpy is None else there.sum())
    if count == 0:
        return None, 0
    if _columns.numpy is not None:
        return _columns.numpy.packbits(there, bitorder="little"), count
    bits = bytearray(-(-len(there) // 8))
    for at in itertools.compress(range(len(there)), there):
        bits[at // 8] |= 1 << at % 8
    return bits, count


def _texts(names: Any) -> Tuple[List[Any], int]:
    """Returns the buffers of a column of texts and the number of missing ones. A missing text is None in `names`."""
    texts = [b"" if name is None else name.encode() for name in names]
    there = [name is not None for name in names]
    bits, count = _bits(there if _columns.numpy is None else _columns.numpy.array(there, bool))
    return [bits, array("i", itertools.accumulate(map(len, texts), initial=0)), b"".join(texts)], count


def _address(buffer: Any) -> Any:
    """Returns the address of a buffer, and an object that keeps the buffer alive."""
    if buffer is None or len(buffer) == 0:
        return None, None
    if isinstance(buffer, bytes):
        return ctypes.cast(ctypes.c_char_p(buffer), ctypes.c_void_p).value, buffer
    held = (ctypes.c_char * (memoryview(buffer).nbytes)).from_buffer(buffer)
    return ctypes.addressof(held), held


def _array(length: int, buffers: List[Any], missing: int, children: List[Any]) -> _Array:
    held = [_address(buffer) for buffer in buffers]
    places = (ctypes.c_void_p * max(len(held), 1))(*(place for place, _ in held))
    pointers = _children(_Array, children)
    struct = _Array(length, missing, 0, len(held), len(children), places, pointers if children else None)
    return _hold(struct, (held, places, pointers, children), _release_array)


def _schema(format: str, name: str, flags: int, children: List[Any]) -> _Schema:
    pointers = _children(_Schema, children)
    texts = format.encode(), name.encode()
    struct = _Schema(*texts, None, flags, len(children), pointers if children else None)
    return _hold(struct, (texts, pointers, children), _release_schema)


class _Batches:
    """The batches of a capture, made one by one as a consumer asks for them."""

    def __init__(self, arrow: "Arrow") -> None:
        self._arrow, self._batches = arrow, arrow.begin()
        self._said = ctypes.create_string_buffer(b"")
        self.calls = _Gets(self._get_schema), _Gets(self._get_next), _Says(self._get_last_error)

    def _get_schema(self, stream: Any, to: int) -> int:
        return self._put(to, self._arrow.schema)

    def _get_next(self, stream: Any, to: int) -> int:
        return self._put(to, self._next)

    def _put(self, to: int, made: Callable[[], Any]) -> int:
        """Moves a struct to the address `to`, where the consumer owns it. Returns 0, or EIO if making the struct fails."""
        try:
            struct = made()
        except BaseException as error:
            # Also a KeyboardInterrupt: ctypes drops what a callback raises, and returns 0 to the consumer.
            self._arrow.error = error
            self._said = ctypes.create_string_buffer((str(error) or type(error).__name__).encode("utf-8", "replace"))
            return _EIO
        ctypes.memmove(to, ctypes.addressof(struct), ctypes.sizeof(struct))
        return 0

    def _next(self) -> _Array:
        batch = next(self._batches, None)
        if batch is None:
            return _Array()
        length = len(batch["len"])
        told = [column.buffers(batch) for column in self._arrow.columns]
        return _array(length, [None], 0, [_array(length, buffers, missing, []) for buffers, missing in told])

    def _get_last_error(self, stream: Any) -> int:
        return ctypes.addressof(self._said)


_Destroys = ctypes.CFUNCTYPE(None, ctypes.c_void_p)


def _capsule(struct: Any, name: bytes) -> Any:
    """Returns a capsule that owns a struct. The capsule releases the struct at its end, unless a consumer has done so."""
    address = ctypes.addressof(struct)
    _capsules[address] = struct
    new = ctypes.pythonapi.PyCapsule_New
    new.restype, new.argtypes = ctypes.py_object, [ctypes.c_void_p, ctypes.c_char_p, _Destroys]
    return new(address, _CAPSULE_NAMES[name], _destroy)


def _destroyed(capsule: int) -> None:
    pointer = ctypes.pythonapi.PyCapsule_GetPointer
    pointer.restype, pointer.argtypes = ctypes.c_void_p, [ctypes.c_void_p, ctypes.c_char_p]
    name = ctypes.pythonapi.PyCapsule_GetName
    name.restype, name.argtypes = ctypes.c_char_p, [ctypes.c_void_p]
    struct = _capsules.pop(pointer(capsule, name(capsule)), None)
    if struct is not None and struct.release:
        struct.release(ctypes.pointer(struct))


_destroy = _Destroys(_destroyed)

# A capsule keeps a pointer to its name, so the names live as long as the module.
_CAPSULE_NAMES = {name: ctypes.c_char_p(name) for name in (b"arrow_schema", b"arrow_array_stream")}


class Arrow:
    """The packets of a capture as columns of Arrow. `pyarrow.table`, `polars.DataFrame`, duckdb and others accept it directly:
    they call its `__arrow_c_stream__`.

    If the capture is truncated or malformed, the stream gives the batches before the fault, and then fails with the text of the
    error. `error` is then the capture's own exception."""

    def __init__(self, begin: Callable[[], Iterator[Any]], columns: List[Column]) -> None:
        self.begin, self.columns = begin, columns
        self.error: Optional[BaseException] = None

    def schema(self) -> _Schema:
        children = [_schema(it.format, it.name, _NULLABLE if it.missing is not None or it.format == "u" else 0, []) for it in self.columns]
        return _schema("+s", "", 0, children)

    def __arrow_c_schema__(self) -> Any:
        """Returns a capsule with the names and types of the columns."""
        return _capsule(self.schema(), b"arrow_schema")

    def __arrow_c_stream__(self, requested_schema: Any = None) -> Any:
        """Returns a capsule with a stream of the columns. It ignores `requested_schema`."""
        batches = _Batches(self)
        return _capsule(_hold(_Stream(*batches.calls), batches, _release_stream), b"arrow_array_stream")


# An interpreter that ends clears modules before the last struct is released, so these functions must never be freed.
for _call in (_release_schema, _release_array, _release_stream, _destroy):
    ctypes.pythonapi.Py_IncRef(ctypes.py_object(_call))
