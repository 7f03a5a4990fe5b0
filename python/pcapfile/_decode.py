"""Reads addresses, ports and protocols out of the bytes of packets, a batch at a time, with the extension or with numpy.

It decodes Ethernet with VLAN tags, raw IP, and Linux cooked captures. Above these it decodes IPv4, IPv6 with extension headers,
and the ports of TCP, UDP, SCTP, DCCP and UDP-Lite. Other or truncated headers give no value. It checks no lengths and no
checksums, and it reassembles no fragments: a later fragment has no ports."""

import socket
import struct
from typing import Any, Dict, List, Tuple

from ._columns import numpy
from ._extension import native

# Link types: Ethernet, raw IP, and both versions of Linux cooked captures.
_ETHERNET, _RAW, _COOKED, _COOKED_2 = 1, (12, 14, 101, 228, 229), 113, 276
_IPV4, _IPV6, _TAGS = 0x0800, 0x86DD, (0x8100, 0x88A8, 0x9100)
# The most VLAN tags, and the most extension headers, that the decoder skips in one packet.
_MOST_TAGS, _MOST_EXTENSIONS = 3, 8
# The protocols that begin with two ports; the extension header of a fragment, and all extension headers that the decoder skips.
_WITH_PORTS, _FRAGMENT = (6, 17, 33, 132, 136), 44
_PASSED = (0, 43, 60, _FRAGMENT)

# The decoded columns: the index of each address, or -1; the ports and the protocol; and the bits for missing values. The
# extension fills these rows.
_TOLD = [
    ("source", "i4"),
    ("destination", "i4"),
    ("source_port", "u2"),
    ("destination_port", "u2"),
    ("protocol", "u1"),
    ("missing", "u1"),
]
_NO_PORTS, _NO_PROTOCOL = 1, 2

# The names of these columns, and the key for the tables of addresses.
TOLD = [*(name for name, _ in _TOLD), "addresses"]

# The values that numpy reads from each packet: the version of IP or 0, both addresses in two halves, the protocol and both ports,
# or -1.
_HALVES = [("source_high", "u8"), ("source", "u8"), ("destination_high", "u8"), ("destination", "u8")]
_FIELDS = _HALVES + [("source_port", "i4"), ("destination_port", "i4"), ("protocol", "i4"), ("version", "i4")]


class _Addresses:
    """A table of distinct addresses in the order of their arrival, without the extension."""

    def __init__(self) -> None:
        self._numbers: Dict[bytes, int] = {}

    def texts(self) -> List[str]:
        """Returns each address as a text."""
        return [socket.inet_ntop(socket.AF_INET if len(address) == 4 else socket.AF_INET6, address) for address in self._numbers]

    def numbers_of(self, versions: Any, high: Any, low: Any) -> Any:
        """Returns the index of each address, or -1. It looks up equal addresses of a batch only once."""
        numbers = numpy.full(len(versions), -1, "i4")
        for version, length in ((4, 4), (6, 16)):
            here = numpy.flatnonzero(versions == version)
            halves = numpy.stack([high[here], low[here]], axis=1)
            found, which = numpy.unique(halves, axis=0, return_inverse=True)
            texts = [struct.pack(">QQ", *pair)[16 - length :] for pair in found.tolist()]
            known = [self._numbers.setdefault(text, len(self._numbers)) for text in texts]
            numbers[here] = numpy.array(known, "i4")[which.reshape(-1)]
        return numbers


class Decoder:
    """Decodes the packets of a walk."""

    # A DataFrame shows `missing` as NA in the other columns.
    kinds = _TOLD

    def __init__(self) -> None:
        make = _Addresses if native is None else native.addresses
        self._sources, self._destinations = make(), make()

    def begin(self, size: int) -> None:
        self._told = numpy.empty(size, numpy.dtype(_TOLD, align=True))

    def see(self, walk: Any, place: int, begin: int, rows: Any) -> None:
        """Decodes the packets of rows of columns. The walk's window has their bytes, and begins at offset `place` of the capture."""
        told, data = self._told[begin : begin + len(rows)], walk.window.data
        if native is None:
            _tell(told, _read(numpy.frombuffer(data, "u1"), rows["offset"].astype("i8") - place, rows), (self._sources, self._destinations))
        else:
            native.decode(data, rows, told, place, self._sources, self._destinations)

    def given(self, rows: Any) -> Dict[str, Any]:
        told = self._told[: len(rows)]
        return {**{name: told[name] for name, _ in _TOLD}, "addresses": (self._sources, self._destinations)}


def _tell(told: Any, read: Any, addresses: Tuple[_Addresses, _Addresses]) -> None:
    """Converts what numpy read to the rows that the extension would fill."""
    for name, known in zip(("source", "destination"), addresses):
        told[name] = known.numbers_of(read["version"], read[name + "_high"], read[name])
    for name in ("source_port", "destination_port", "protocol"):
        told[name] = numpy.maximum(read[name], 0)
    told["missing"] = (read["source_port"] < 0) * _NO_PORTS + (read["protocol"] < 0) * _NO_PROTOCOL


def decoded_columns(told: Dict[str, Any]) -> Dict[str, Any]:
    """Returns the columns for a DataFrame: the addresses as categories of texts, and the ports and protocols as integers with NA."""
    import pandas

    columns: Dict[str, Any] = {}
    # Without packets there are no tables of addresses.
    for name, known in zip(("source", "destination"), told.get("addresses", (_Addresses(), _Addresses()))):
        columns[name] = pandas.Categorical.from_codes(told[name], known.texts())
    for name, missing in (("source_port", _NO_PORTS), ("destination_port", _NO_PORTS), ("protocol", _NO_PROTOCOL)):
        columns[name] = pandas.arrays.IntegerArray(told[name], (told["missing"] & missing).astype(bool))
    return columns


def _read(data: Any, begin: Any, rows: Any) -> Any:
    """Reads packets with numpy. They begin at the places `begin` in `data`."""
    told = numpy.zeros(len(rows), _FIELDS)
    for name in ("protocol", "source_port", "destination_port"):
        told[name] = -1
    end = begin + rows["len"]
    for link in numpy.unique(rows["link"]).tolist():
        here = numpy.flatnonzero(rows["link"] == link)
        kinds, places = _third_layer(link & 0xFFFF, data, begin[here], end[here])
        _read_ipv4(told, here, kinds, places, end[here], data)
        _read_ipv6(told, here, kinds, places, end[here], data)
    return told


def _is_one_of(protocols: Any, those: Tuple[int, ...]) -> Any:
    table = numpy.zeros(256, bool)
    table[list(those)] = True
    return table[protocols]


def _two(data: Any, at: Any) -> Any:
    """Returns the big-endian numbers of two bytes at these places."""
    return data[at].astype("i4") << 8 | data[at + 1]


def _four(data: Any, at: Any) -> Any:
    return _two(data, at).astype("u8") << numpy.uint64(16) | _two(data, at + 2).astype("u8")


def _eight(data: Any, at: Any) -> Any:
    return _four(data, at) << numpy.uint64(32) | _four(data, at + 4)


def _third_layer(link: int, data: Any, begin: Any, end: Any) -> Tuple[Any, Any]:
    """Returns the type of the layer above the link of each packet, or -1, and the place at which it begins."""
    kinds, places = numpy.full(len(begin), -1, "i4"), begin
    if link in _RAW:
        some = numpy.flatnonzero(begin < end)
        versions = data[begin[some]] >> 4
        kinds[some] = numpy.where(versions == 4, _IPV4, numpy.where(versions == 6, _IPV6, -1))
    elif link in (_ETHERNET, _COOKED, _COOKED_2):
        at, head = {_ETHERNET: (12, 14), _COOKED: (14, 16), _COOKED_2: (0, 20)}[link]
        places = begin + head
        some = numpy.flatnonzero(places <= end)
        kinds[some] = _two(data, begin[some] + at)
        for _ in range(_MOST_TAGS):
            tagged = numpy.flatnonzero((kinds == _TAGS[0]) | (kinds == _TAGS[1]) | (kinds == _TAGS[2]))
            if len(tagged) == 0:
                break
            whole = places[tagged] + 4 <= end[tagged]
            kinds[tagged[~whole]] = -1
            tagged = tagged[whole]
            kinds[tagged] = _two(data, places[tagged] + 2)
            places[tagged] += 4
    return kinds, places


def _read_ipv4(told: Any, here: Any, kinds: Any, places: Any, end: Any, data: Any) -> None:
    some = numpy.flatnonzero((kinds == _IPV4) & (places + 20 <= end))
    if len(some) == 0:
        return
    first = data[places[some]]
    some = some[(first >> 4 == 4) & (first & 15 >= 5)]
    at, rows = places[some], here[some]
    protocols = data[at + 9]
    told["version"][rows], told["protocol"][rows] = 4, protocols
    told["source"][rows], told["destination"][rows] = _four(data, at + 12), _four(data, at + 16)
    is_first = _two(data, at + 6) & 0x1FFF == 0
    above = at + (data[at] & 15).astype("i8") * 4
    _read_ports(told, rows[is_first], protocols[is_first], above[is_first], end[some][is_first], data)


def _read_ipv6(told: Any, here: Any, kinds: Any, places: Any, end: Any, data: Any) -> None:
    some = numpy.flatnonzero((kinds == _IPV6) & (places + 40 <= end))
    some = some[data[places[some]] >> 4 == 6]
    if len(some) == 0:
        return
    at, rows, end = places[some], here[some], end[some]
    for name, before in (("source", 8), ("destination", 24)):
        told[name + "_high"][rows], told[name][rows] = _eight(data, at + before), _eight(data, at + before + 8)
    told["version"][rows] = 6
    protocols, above, is_first = data[at + 6], at + 40, numpy.ones(len(at), bool)
    for _ in range(_MOST_EXTENSIONS):
        passed = numpy.flatnonzero(is_first & _is_one_of(protocols, _PASSED) & (above + 8 <= end))
        if len(passed) == 0:
            break
        place, fragments = above[passed], protocols[passed] == _FRAGMENT
        is_first[passed[fragments]] = _two(data, place[fragments] + 2) & 0xFFF8 == 0
        protocols[passed] = data[place]
        above[passed] = place + numpy.where(fragments, 8, (data[place + 1].astype("i8") + 1) * 8)
    # A packet that ends within its extension headers, or has too many of them, has no protocol.
    told["protocol"][rows] = numpy.where(_is_one_of(protocols, _PASSED), -1, protocols)
    _read_ports(told, rows[is_first], protocols[is_first], above[is_first], end[is_first], data)


def _read_ports(told: Any, rows: Any, protocols: Any, at: Any, end: Any, data: Any) -> None:
    some = numpy.flatnonzero(_is_one_of(protocols, _WITH_PORTS) & (at + 4 <= end))
    told["source_port"][rows[some]], told["destination_port"][rows[some]] = _two(data, at[some]), _two(data, at[some] + 2)
