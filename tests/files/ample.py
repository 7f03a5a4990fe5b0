"""Runs of `pcapfile` over captures for which it keeps much, or that no other test here has. With ample memory it gives up none of them.
Each row is a run over standard input or over a folder, so that tests/wrong_bodies/run can also try one over an unproved program."""
import collections
import contextlib
import hashlib
import json
import os
import struct
import tempfile

import as_is
import changing
import dumping
import informing
import listing
import repairing
import streams

# A run: its words, its input, its status, what it writes, and its messages. What it writes is its bytes, or members of one object of JSON. An
# input that is no bytes has the files of the folder HERE: the bytes of each by its name, or the text of a link's target.
HERE = "@HERE@"
Row = collections.namedtuple("Row", "name words given status written said")
RAW, LITTLE, NANOSECONDS = 101, "<", 0xA1B23C4D
# A big-endian classic capture of Ethernet, with times in nanoseconds.
STORED = os.path.join(os.path.dirname(os.path.abspath(__file__)), "stored", "packets.pcap")
CUSTOM, MILLION = 2989, 10**6


def classic(packets, snaplen=65535, link=RAW):
    """Returns a little-endian capture of (nanoseconds since 1970, length on the wire, data)."""
    capture = struct.pack("<IHHiIII", NANOSECONDS, 2, 4, 0, 0, snaplen, link)
    return capture + b"".join(struct.pack("<IIII", *divmod(time, 10**9), len(data), wire) + data for time, wire, data in packets)


def informs(name, packets, snaplen=65535):
    """Returns a row in which `info` reads a classic capture of these packets and this snapshot length."""
    capture = classic(packets, snaplen)
    lines = [
        f"-: pcap, {len(packets)} packets, {len(capture)} bytes",
        "  File type:         pcap 2.4, little-endian, times in nanoseconds",
        "  Link type:         RAW (101)",
        f"  Packet size limit: {snaplen} bytes",
        *informing.figures(packets),
    ]
    return Row(name, ["info", "-"], capture, 0, "".join(f"{it}\n" for it in lines).encode(), "")


def informs_blocks(help, name, interfaces, others):
    """Returns a row in which `info` reads a capture of this many interfaces, each with a packet, and of other blocks before the packets."""
    packets = [(10**9 * k, 60, bytes([k % 256])) for k in range(interfaces)]
    parts = [*[help.interface(LITTLE, RAW)] * interfaces, *others]
    parts += [help.enhanced(LITTLE, k, time // 1000, wire, data) for k, (time, wire, data) in enumerate(packets)]
    capture, _ = help.blocks(LITTLE, parts)
    lines = [
        f"-: pcapng, {len(parts) + 1} blocks, {len(capture)} bytes",
        "  File type:         pcapng 1.0, little-endian",
        "  Sections:          1",
        f"  Interfaces:        {interfaces}",
        *informing.kinds(capture),
        *informing.figures(packets),
    ]
    for k, packet in enumerate(packets):
        lines += [f"Interface {k} of section 1: link type RAW (101)", *informing.figures([packet])]
    return Row(name, ["info", "-"], capture, 0, "".join(f"{it}\n" for it in lines).encode(), "")


def info_rows(help):
    """Yields rows in which `info` reads a capture."""
    few = [(10**9 * k, 60 + k, b"stored") for k in range(9)]
    yield informs("info of a capture without a snapshot length", few, 0)
    yield informs("info of packets that are stored in part", few)
    yield informs("info of packets from 2038 to 2106", [(time * 10**9 + 5, 60, b"") for time in (2**31 - 1, 2**31, 2**32 - 1)])
    yield informs("info of few long packets among short ones", [(k, 9, b"") for k in range(40)] + [(40, 9000, b"")])
    yield informs("info of a packet before the one before it", [(6, 9, b""), (5, 9, b"")])
    yield informs("info of one packet in a span and many in another", [(0, 9, b""), *[(10**9, 9, b"")] * 40])
    custom = [(CUSTOM, struct.pack("<I", 32473) + b"text"), (0xBADBAD, b"any data")]
    yield informs_blocks(help, "info of custom and unknown blocks", 2, custom)
    for count in (65, 5000):
        yield informs_blocks(help, f"info of {count} interfaces", count, [])
    for link, name in ((1, "ETHERNET"), (RAW, "RAW"), (105, "IEEE802_11")):
        members = {"format": "pcap", "packets": 1, "link": link, "link_name": name}
        yield Row(f"info --json of the link type {name}", ["info", "--json", "-"], classic([(5, 60, b"data")], link=link), 0, members, "")
    capture = classic(few)
    own = informing.row("-", len(capture), few, ("pcap", 1, "RAW (101)", 0, 0, f"pcap, {len(few)} packets, {len(capture)} bytes"))
    total = informing.row("total", len(capture), few, (None, 1, None, 0, 0, "1 files"))
    corrupt = capture + b"\xff" * 40
    said = "pcapfile: --repair reads on after the error, and 'pcapfile repair' writes a well-formed capture\n"
    digest = {"packets": len(few), "sha256": hashlib.sha256(corrupt).hexdigest()}
    yield Row("info --json --hash of corrupt bytes", ["info", "--json", "--hash", "-"], corrupt, 1, digest, said)
    yield Row("info --table --total", ["info", "--table", "--total", "-"], capture, 0, informing.table([own, total]).encode(), "")


def list_rows(help):
    """Yields rows in which `list` lists packets in one of its forms."""
    short = help.enhanced(LITTLE, 0, 1, 9, b"")[1][:12] + struct.pack("<II", 9, 9)
    whole = help.enhanced(LITTLE, 0, 1, 9, b"whole")
    capture, _ = help.blocks(LITTLE, [help.interface(LITTLE, RAW), whole, (listing.ENHANCED, short), whole])
    said = "pcapfile: -: 1 packet has a malformed body; 'pcapfile list --as-is' names the rules\n"
    yield Row("list --utc of a refused packet", ["list", "--utc", "-"], capture, 1, "".join(listing.utc(capture)).encode(), said)
    ending = classic([(5, 60, b"12345678 refused"), (6, 60, b"")])
    yield Row("list --hex of bytes that end like a line", ["list", "--hex", "-"], ending, 0, "".join(dumping.dumps(ending)).encode(), "")
    yield Row("list --hex -n 1", ["list", "--hex", "-n", "1", "-"], ending, 0, dumping.dumps(ending)[0].encode(), "")
    count = MILLION + 9
    rows = "".join(f"{k},1,0,0,9,\n" for k in range(1, count + 1))
    many = classic([]) + struct.pack("<IIII", 1, 0, 0, 9) * count
    yield Row("list --csv of a million packets", ["list", "--csv", "-"], many, 0, (listing.HEADING + rows).encode(), "")


def cut_rows(help):
    """Yields rows in which `cut` takes packets by their numbers and by their times before the latest one, and converts times, and in which
    other commands read selected packets."""
    few = [(10**9 * k, 60 + k, b"stored") for k in range(9)]
    yield Row("cut --packets 3-", ["cut", "--packets", "3-", "-", "-o", "-"], classic(few), 0, classic(few[2:]), "")
    mixed = [few[3], few[8], few[7], few[2], few[6]]
    yield Row("cut --from -2s", ["cut", "--from", "-2s", f"{HERE}/in", "-o", "-"], {b"in": classic(mixed)}, 0, classic([few[8], few[7], few[6]]), "")
    fine = classic([(10**9 * k + 123456789, 60, b"stored") for k in range(9)])
    coarse = changing.resolved(LITTLE, fine, 1, 1000)
    yield Row("cut --microseconds", ["cut", "--microseconds", "-", "-o", "-"], fine, 0, coarse, "")
    yield Row("cut --nanoseconds", ["cut", "--nanoseconds", "-", "-o", "-"], coarse, 0, changing.resolved(LITTLE, coarse, 1000, 1), "")
    capture, _ = help.blocks(LITTLE, [help.interface(LITTLE, RAW), help.enhanced(LITTLE, 0, 1, 9, b"whole")])
    said = "error: --nanoseconds and --microseconds are for classic captures, and - is PcapNg; 'pcapfile convert' writes it in nanoseconds\n"
    yield Row("cut --nanoseconds of blocks", ["cut", "--nanoseconds", "-", "-o", "-"], capture, 2, b"", said)
    lines = "".join(f"{k + 1},{k},0,6,{60 + k},\n" for k in range(2, 9))
    yield Row("list --packets 3-", ["list", "--csv", "--packets", "3-", "-"], classic(few), 0, (listing.HEADING + lines).encode(), "")
    parts = [help.interface(LITTLE, RAW, 96), (listing.SIMPLE, struct.pack("<I", 7) + b"no time")]
    parts += [help.enhanced(LITTLE, 0, time // 1000, wire, data) for time, wire, data in few]
    said = "pcapfile: -: left out 1 packet without a time\n"
    members = {"packets": 7, "bytes": len(help.blocks(LITTLE, [parts[0], *parts[4:]])[0])}
    yield Row("info --from +2s", ["info", "--json", "--from", "+2s", "-"], help.blocks(LITTLE, parts)[0], 0, members, said)


def merge_rows(help):
    """Yields rows in which `merge --to pcap` reads one capture."""
    words = ["merge", "--to", "pcap", "-", "-o", "-"]
    few = [(10**9 * k, 60 + k, b"stored") for k in range(9)]
    yield Row("merge --to pcap of a classic capture", words, classic(few), 0, classic(few), "")
    parts = [help.interface(LITTLE, RAW, 96), help.interface(LITTLE, 1), (listing.SIMPLE, struct.pack("<I", 7) + b"no time")]
    parts += [help.enhanced(LITTLE, k % 2, time // 1000, wire, data) for k, (time, wire, data) in enumerate(few)]
    said = "pcapfile: -: 5 packets have no place there, and are left out\npcapfile: -: 1 block of interfaces is left out\n"
    yield Row("merge --to pcap of packets without a place", words, help.blocks(LITTLE, parts)[0], 0, classic(few[::2], 262144), said)
    yield appends(help)


def appends(help):
    """Returns a row in which `merge --append` puts a capture of earlier packets behind a stored one. Its first packet has no time."""
    with open(STORED, "rb") as it:
        stored, at, found = it.read(), 24, []
    while at < len(stored):
        seconds, nanoseconds, length, wire = struct.unpack_from(">IIII", stored, at)
        found.append((seconds * 10**9 + nanoseconds, wire, stored[at + 16 : at + 16 + length]))
        at += 16 + length
    few = [(10**9 * k, 60 + k, b"stored") for k in range(9)]
    parts = [help.interface(LITTLE, 1), (listing.SIMPLE, struct.pack("<I", 7) + b"no time"), help.interface(LITTLE, 1)]
    parts += [help.enhanced(LITTLE, k % 2, time // 1000, wire, data) for k, (time, wire, data) in enumerate(few)]
    words = ["merge", "--append", "--to", "pcap", STORED, "-", "-o", "-"]
    said = "pcapfile: -: 1 packet has no place there, and is left out\npcapfile: -: 2 blocks of interfaces are left out\n"
    return Row("merge --append of a capture behind a later one", words, help.blocks(LITTLE, parts)[0], 0, classic(found + few, 262144, 1), said)


def as_is_rows(help):
    """Yields rows in which the program reads captures leniently, and repairs them."""
    section = repairing.section(LITTLE)
    head = struct.pack("<HHI", RAW, 0, 0)
    flawed = section + help.block(LITTLE, as_is.INTERFACE, head + repairing.option(LITTLE, 8, b"short") * 99)
    yield told_as_is("check --as-is of 99 flaws of a block", flawed)
    interface, packet = help.block(LITTLE, as_is.INTERFACE, head), repairing.enhanced(LITTLE, 4099, 5, b"data")
    yield told_as_is("check --as-is of 4100 interfaces", section + interface * 4100 + packet)
    capture = section + interface * 4100 + packet
    lines, said, status = as_is.listed("-", capture)
    yield Row("list --as-is of 4100 interfaces", ["list", "--as-is", "-"], capture, status, lines.encode(), said)
    options = repairing.option(LITTLE, 1, b"comment") * 9000
    bad = repairing.option(LITTLE, 2, b"bad")
    yield mends("repair of 200 KiB of options", section + interface + repairing.enhanced(LITTLE, 0, 5, b"data", options + bad + options))
    beyond = [(10**9 * (1700000000 - k // 20 * 100000) + k, 200, bytes([k + 1]) * (60 if k < 20 else 200)) for k in range(40)]
    yield mends("repair of packets beyond the snapshot length", classic(beyond, 96))
    yield mends("repair of a packet of zeros", classic([(10**18 + k, 4, b"data") for k in range(3)]) + bytes(16) + classic([(10**18, 4, b"data")] * 3)[24:])
    oversized = help.block(LITTLE, as_is.ENHANCED, struct.pack("<IQII", 0, 5, 4, as_is.MOST + 1) + b"data")
    yield mends("repair of a packet whose original length no packet has", section + interface + oversized)
    size = as_is.LONGEST + 9
    yield mends("repair of a packet that is too long", classic([(5, size, bytes(size))]))


def folder_rows(help):
    """Yields rows in which the program reads the files of a folder: a link to that folder and one to no file, and names that are not UTF-8."""
    few = [(10**9 * k, 60 + k, b"stored") for k in range(9)]
    capture, size = classic(few), 24 + 9 * (16 + 6)
    line = f"pcap, 9 packets, {size} bytes"
    held = {b"b": capture, b"a/z": capture, b"a/up": "..", b"a.pcap": capture, b"dead": "missing", b"caf\xe9": capture, b"text": b"a text", b"x.pcap12": bytes(9)}
    said = f"pcapfile: {HERE}: a name in this folder is not UTF-8, and can't be opened\npcapfile: {HERE}/dead: No such file or directory (os error 2)\n"
    skipped = "pcapfile: skipped 1 file that is not a capture\n"
    names, zeros = ("a/z", "a.pcap", "b"), f"{HERE}/x.pcap12: pcap, 0 packets, cut short at byte 0\n"
    written = "".join(f"{HERE}/{it}: {line}\n" for it in names) + zeros
    yield Row("check --recursive", ["check", "--recursive", HERE], held, informing.FAILED, written.encode(), said + skipped)
    total = {"files": len(names), "bytes": size * len(names), "packets": 9 * len(names), "status": 0}
    only = {b"c": capture, b"a/b": capture, b"a/a": capture, b"text": b"a text", b"page": b"<html>"}
    said = "pcapfile: skipped 2 files that are not captures\n"
    yield Row("info --recursive --total", ["info", "--recursive", "--json", "--total", HERE], only, 0, total, said)


def told_as_is(name, capture):
    lines, status = as_is.checked("-", capture)
    return Row(name, ["check", "--as-is", "-"], capture, status, lines.encode(), "")


def mends(name, capture):
    made, said, status = repairing.repaired("-", capture)
    return Row(name, ["repair", "-", "-o", "-"], capture, status, made, said)


def rows(help):
    yield from info_rows(help)
    yield from list_rows(help)
    yield from cut_rows(help)
    yield from merge_rows(help)
    yield from as_is_rows(help)
    yield from folder_rows(help)


@contextlib.contextmanager
def placed(row):
    """Yields the words of a row, its standard input, and a function that puts HERE for the row's folder in what the run writes and says."""
    if isinstance(row.given, bytes):
        yield row.words, row.given, lambda written, said: (written, said)
        return
    with tempfile.TemporaryDirectory() as room:
        folder = os.path.join(room, "files")
        for name, content in row.given.items():
            path = os.path.join(folder.encode(), name)
            os.makedirs(os.path.dirname(path), exist_ok=True)
            if isinstance(content, str):
                os.symlink(content, path)
                continue
            with open(path, "wb") as it:
                it.write(content)
        words = [it.replace(HERE, folder) for it in row.words]
        yield words, b"", lambda written, said: (written.replace(folder.encode(), HERE.encode()), said.replace(folder, HERE))


def fault_of(row, status, written, said):
    """Returns what is wrong with how a row's run ended, what it wrote and its messages, or None. The line that says how to read on is checked
    elsewhere."""
    said, wanted = (streams.without_remedy(row.status, it) for it in (said, row.said))
    if status != row.status or said != wanted:
        return f"it ended with {status} and said {said[-300:]!r}, and not with {row.status} and {wanted[-300:]!r}"
    if isinstance(row.written, bytes):
        return None if written == row.written else f"it wrote {written[-300:]!r}, and not {row.written[-300:]!r}"
    found = json.loads(written.splitlines()[-1])
    other = {key: found.get(key) for key in row.written if found.get(key) != row.written[key]}
    return f"it has {other}, and not {row.written}" if other else None


def try_all(tally, help):
    for row in rows(help):
        with placed(row) as (words, given, named):
            status, written, said = tally.run(None, words[1:], given, word=words[0])
        tally.note(row.name, fault_of(row, status, *named(written, said)))
