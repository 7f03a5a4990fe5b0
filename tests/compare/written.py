"""Compares written and converted captures with tshark, capinfos and editcap, over captures: `compare(files, folder)`.

The test copies a PcapNg capture that is read whole, and writes it again from its values (pcapfile convert, example_rewrite). The copy must
have its bytes. What is written again may differ from it in what the format ignores, as CANONICAL says. Then the test makes the blocks so in
Python, by the public draft, and they must be those. tshark and capinfos must read the same packets from both.

A classic capture becomes a PcapNg capture (pcapfile convert). tshark and capinfos must read from it the packets that they read from
editcap's conversion. If a capture is refused, its packets must be a beginning of those.

A PcapNg capture becomes a classic one (pcapfile convert). It must be what editcap makes of it, byte for byte except for the snaplen, and
tshark must read the same packets from both formats. The test also converts what editcap and pcapfile make of a classic capture. If only one
of the two converts a capture whole, MEANT gives the reason, by the message of the other. The output must then be the packets, in order,
without those that are left out.
"""
import collections
import os
import struct
import tempfile

import left_out

from examples import BEGINNING, DIFFERENT, LINK, SAME, carried, converted, fields, is_pcapng_file, output, program, run_example, verdict

TOOLS = ("tshark", "capinfos", "editcap")
EXAMPLES = ("pcapfile", "example_rewrite")
FIELDS = ("frame.time_epoch", "frame.cap_len", "frame.len", "frame.interface_id", "frame.md5_hash")
SECTION, INTERFACE, PACKET, SIMPLE, NAMES, STATISTICS, ENHANCED = 0x0A0D0D0A, 1, 2, 3, 4, 5, 6
# The offset of the options in the bodies that have some, after the fields of fixed length.
FIXED = {SECTION: 16, INTERFACE: 8, STATISTICS: 12, PACKET: 20, ENHANCED: 20}
# MEANT has messages of editcap when it makes no classic capture, each with its cause. PLACELESS says why packets are left out, TORN why it ends.
PLACELESS = "packets without a place in a classic capture are left out: without a time, longer than on the wire, past 262144 bytes, of seconds past 32 bits, of another link type"
TORN = "the capture is cut short or refused"
MEANT = {
    "can't be written as": "editcap takes no capture without an interface, or with several of different link types",
    "has a record type that can't be saved": "editcap takes no block that it would show and that holds no packet",
}
CANONICAL = ("a list of options ends without its mark", "the mark stands alone", "bytes stand behind the mark", "padding is not zero")


def padded(value):
    return value + bytes(-len(value) % 4)


def blocks_of(capture):
    """Yields each whole block with the order of its section: the order's letter, its type, its body."""
    order, at, size = "<", 0, 12
    while at + 12 <= len(capture) and size >= 12:
        if capture[at : at + 4] == b"\n\r\r\n":
            order = "<" if capture[at + 8 : at + 12] == b"\x4d\x3c\x2b\x1a" else ">"
        kind, size = struct.unpack_from(order + "II", capture, at)
        if 12 <= size <= len(capture) - at:
            yield order, kind, capture[at + 8 : at + size - 4]
        at += size


def records_end(order, body):
    """Returns where the records of a name resolution body end, after the record that ends them."""
    at, kind = 0, 1
    while kind:
        kind, size = struct.unpack_from(order + "HH", body, at)
        at += 4 + size + -size % 4
    return at


def canonical_list(order, rest, found):
    """Returns a list of values by codes as the library writes it: each with zero padding, and a mark if there are any."""
    written, at, is_marked = b"", 0, False
    while at < len(rest) and not is_marked:
        code, size = struct.unpack_from(order + "HH", rest, at)
        value, at = rest[at + 4 : at + 4 + size], at + 4 + size + -size % 4
        is_marked = code == 0
        if not is_marked:
            found[3] += any(rest[at - (-size % 4) : at])
            written += struct.pack(order + "HH", code, size) + padded(value)
    found[0] += bool(written) and not is_marked
    found[1] += is_marked and not written
    found[2] += at < len(rest)
    return written and written + bytes(4)


def canonical(order, kind, body, found):
    """Returns the body as the library writes it from its values. `found` counts what differs from that."""
    if kind == NAMES:
        end = records_end(order, body)
        records = canonical_list(order, body[:end], collections.Counter()) or bytes(4)
        return records + canonical_list(order, body[end:], found)
    if kind not in FIXED:
        return body
    end = FIXED[kind]
    data = struct.unpack_from(order + "I", body, 12)[0] if kind in (PACKET, ENHANCED) else 0
    stored = body[end : end + data]
    found[3] += any(body[end + data : end + data + -data % 4])
    return body[:end] + padded(stored) + canonical_list(order, body[end + data + -data % 4 :], found)


def canonical_capture(capture, found):
    """Returns the capture as the library writes it from the values of its blocks, up to a body that has none."""
    written = []
    for order, kind, body in blocks_of(capture):
        try:
            body = canonical(order, kind, body, found)
        except struct.error:
            break
        frame = struct.pack(order + "II", kind, len(body) + 12)
        written.append(frame + body + frame[4:])
    return b"".join(written)


def packets(path):
    """Returns each packet as tshark reads it: its exact time, both lengths, its interface, and the sum of its bytes."""
    rows = fields(path, *FIELDS, options=("-o", "frame.generate_md5_hash:TRUE"))
    return [(carried(time) if time else "", *rest) for time, *rest in rows]


def totals(path):
    """Returns how many packets and bytes capinfos counts, and the first and the last time, as decimal numbers."""
    numbers = output("capinfos", "-T", "-r", "-S", "-c", "-d", "-a", "-e", path).stdout.decode().split("\t")[1:]
    return [number.rstrip("0\n") if "." in number else number for number in numbers]


def read_verdict(written, is_accepted, peer, room):
    """Returns whether tshark and capinfos read the same packets from the written capture and from the peer's file."""
    path = os.path.join(room, "written.pcapng")
    with open(path, "wb") as it:
        it.write(written)
    here, there = packets(path) if written else [], packets(peer)
    if not is_accepted:
        return BEGINNING if here == there[: len(here)] else DIFFERENT
    return SAME if here == there and totals(path) == totals(peer) else DIFFERENT


def pcapng_verdicts(path, room, found, meant):
    with open(path, "rb") as it:
        capture = it.read()
    copy, is_copied, _ = converted(path, "pcapng")
    yield "copied", verdict(copy, is_copied, capture)
    written, is_accepted = run_example("example_rewrite", path)
    wanted = capture if written == capture else canonical_capture(capture, found)
    yield "written again", verdict(written, is_accepted, wanted)
    yield "written again, by tshark and capinfos", read_verdict(written, is_accepted, path, room)
    yield "converted to Pcap", pcap_verdict(path, room, meant)


def without_interfaces(rows):
    """Returns packets without their interfaces, which a classic capture doesn't have. Other blocks that tshark shows have none."""
    return [(time, *lengths, digest) for time, *lengths, interface, digest in rows if interface]


def is_without(found, wanted, left_out):
    """Returns whether these are the wanted packets in order, without this many of them."""
    rest = iter(wanted)
    return len(found) + left_out == len(wanted) and all(it in rest for it in found)


def pcap_verdict(path, room, meant):
    """Returns whether a PcapNg capture becomes the classic capture that editcap makes of it, or a part of it for an intended reason,
    which it counts. Returns None if editcap refuses the capture for another reason."""
    peer, here = os.path.join(room, "peer.pcap"), os.path.join(room, "here.pcap")
    asked = output("editcap", "-F", "nsecpcap", path, peer)
    made, is_whole, left_out = converted(path, "pcap")
    with open(here, "wb") as it:
        it.write(made)
    why = next((why for said, why in MEANT.items() if said.encode() in asked.stderr), None)
    if asked.returncode and why is None:
        return None
    found = [(time, *lengths, digest) for time, *lengths, _, digest in packets(here)] if made else []
    wanted = without_interfaces(packets(path))
    if not is_whole:
        meant[TORN] += 1
        return BEGINNING if is_without(found, wanted[: len(found) + left_out], left_out) else DIFFERENT
    if asked.returncode or left_out:
        meant[PLACELESS if left_out else why] += 1
        return BEGINNING if is_without(found, wanted, left_out) else DIFFERENT
    with open(peer, "rb") as it:
        capture = it.read()
    is_same = (made[: LINK - 4], made[LINK:]) == (capture[: LINK - 4], capture[LINK:])
    return SAME if is_same and found == wanted else DIFFERENT


def classic_verdicts(path, room, meant):
    peer, here = os.path.join(room, "peer.pcapng"), os.path.join(room, "here.pcapng")
    if output("editcap", "-F", "pcapng", path, peer).returncode == 0:
        written, is_accepted, _ = converted(path, "pcapng")
        yield "converted, by tshark and capinfos", read_verdict(written, is_accepted, peer, room)
        yield "editcap's, converted to Pcap", pcap_verdict(peer, room, meant)
        if written:
            with open(here, "wb") as it:
                it.write(written)
            yield "converted, and back to Pcap", pcap_verdict(here, room, meant)


def compare(files, folder):
    """Prints each difference, and a line of sums for each comparison. Returns whether there is no difference."""
    missing = [name for name in EXAMPLES if not os.path.exists(program(name))]
    if missing:
        print(f"what is written was not compared: {' and '.join(missing)} must be built first")
        return False
    if not all([left_out.has(tool, f"what is written beside {tool}, in tests/compare") for tool in TOOLS]):
        return True
    counts, found, meant, changed = collections.defaultdict(lambda: [0, 0, 0]), collections.Counter(), collections.Counter(), 0
    for path in files:
        before = found.total()
        with tempfile.TemporaryDirectory() as room:
            answers = pcapng_verdicts(path, room, found, meant) if is_pcapng_file(path) else classic_verdicts(path, room, meant)
            for name, answer in answers:
                if answer is None:
                    continue
                counts[name][answer] += 1
                if answer == DIFFERENT:
                    print(f"{os.path.relpath(path, folder)}: {name}")
        changed += found.total() > before
    for name, (same, part, different) in counts.items():
        print(f"{name}: {same} are the same, {part} are a part, up to a refusal or without what has no place, {different} differ")
    print(f"{changed} captures are written in other bytes:", "; ".join(f"{CANONICAL[why]} ({count} blocks)" for why, count in found.items() if count) or "none")
    for why, count in meant.items():
        print(f"{count} are a part: {why}")
    return any(same for same, _, _ in counts.values()) and not any(different for _, _, different in counts.values())
