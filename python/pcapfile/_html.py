"""Shows a capture in a notebook."""

import html
from itertools import islice
from typing import Any, List

from ._errors import CaptureError

# The number of packets with the gaps between them, of interfaces, and of bytes of each packet, that a notebook shows.
_PACKETS, _INTERFACES, _BYTES = 5, 10, 16

# What a notebook shows of each packet.
_COLUMNS = ("time", "stored", "on the wire", "link type", "first bytes")


def shown_as_html(capture: Any) -> str:
    """Returns a description of the capture as HTML, with its first packets. It leaves out the packets of a stream, since they
    come only once, and the interfaces and packets of a closed capture."""
    links = f", link type {capture.link}" if capture.format == "pcap" else ""
    told = [f"<p>{html.escape(repr(capture)[1:-1] + links)}</p>"]
    if not capture._is_closed:
        told += _interfaces(capture) + ([] if capture.is_stream else _packets(capture))
    return "".join(told)


def _interfaces(capture: Any) -> List[str]:
    described = capture.interfaces
    named = [f"{number}: {face.name or 'no name'}, link type {face.link}" for number, face in enumerate(described[:_INTERFACES])]
    rest = len(described) - len(named)
    return [f"<p>interface {html.escape(name)}</p>" for name in named] + ([f"<p>and {rest} more</p>"] if rest > 0 else [])


def _packets(capture: Any) -> List[str]:
    """Returns a table of the first packets, with the gaps between them if loops return gaps."""
    rows, refusal = [], ""
    try:
        for found in islice(iter(capture), _PACKETS):
            rows.append(_row(found))
    except CaptureError as error:
        refusal = f"<p>{html.escape(str(error))}</p>"
    head = "".join(f"<th>{name}</th>" for name in _COLUMNS)
    return ["<table>", f"<tr>{head}</tr>", *(f"<tr>{row}</tr>" for row in rows), "</table>", refusal]


def _row(found: Any) -> str:
    """Returns the cells of a packet, or the one of a gap."""
    from ._gaps import Gap, message_of

    if isinstance(found, Gap):
        return f'<td colspan="{len(_COLUMNS)}">{html.escape(message_of(found))}</td>'
    cells = [found.time, found.length, found.original_length, found.link, bytes(found.data[:_BYTES]).hex(" ")]
    return "".join(f"<td>{html.escape(str(cell))}</td>" for cell in cells)
