"""Checks what the words say of files that are not captures, how many packets `list -n` lists, and which format `convert` writes."""
import bz2
import gzip
import lzma
import os
import struct
import tempfile

import cutting

DONE, AT_FAULT, USAGE = 0, 1, 2
READS = "is {} file, not a capture; '{} FILE | pcapfile info -' reads it"
CONVERTS = "is a capture in the format {}; 'editcap FILE OUT' of Wireshark converts it to PcapNg"
# A record of an ERF file, of 2023, that holds an Ethernet frame.
ERF = struct.pack("<QBB", 1700000000 << 32, 2, 4) + struct.pack(">HHH", 80, 0, 60) + bytes(64)


def files(capture):
    """Yields files that are not captures, with what the program says of each."""
    yield b"", "is empty"
    yield gzip.compress(capture), READS.format("a gzip", "zcat")
    yield gzip.compress(capture)[:2], READS.format("a gzip", "zcat")
    yield lzma.compress(capture), READS.format("an xz", "xzcat")
    yield bz2.compress(capture), READS.format("a bzip2", "bzcat")
    yield bytes.fromhex("28b52ffd") + capture, READS.format("a zstd", "zstdcat")
    yield bytes.fromhex("04224d18") + capture, READS.format("an lz4", "lz4cat")
    for magic in ("a1b2cd34", "34cdb2a1"):
        yield bytes.fromhex(magic) + capture[4:], "has packet headers of 24 bytes, as a modified libpcap writes them; 'pcapfile repair' makes it a plain capture"
    yield b"snoop\0\0\0" + bytes(8) + capture, CONVERTS.format("snoop")
    for records in (ERF, ERF * 3, ERF * 5, ERF * 2 + ERF[:15], ERF * 2 + ERF[:16], ERF * 4 + bytes(40)):
        yield records, CONVERTS.format("ERF")
    for page in (b"<!DOCTYPE html>\n<html>", b"  \n<HTML lang=en>", b"<!doctype HTML"):
        yield page, "is an HTML page, not a capture"
    for text in (b"a text", b"\n\ttwo lines\r\nof it\n" * 99, b"4\n48 0 0 0\n", b"1" * 600 + b"\xff"):
        yield text, "is a text file, not a capture"


def try_names(tally, help):
    """Checks the words by the message on each file, which is the only one, and by their status."""
    capture, _ = help.classic("<", 0xA1B2C3D4, 1000, 1, help.FEW)
    for content, said in files(capture):
        for words in (["check", "in"], ["info", "in"], ["list", "in"], ["convert", "in", "-o", "out"], ["cut", "in", "-o", "out"], ["join", "in", "-o", "out"]):
            cutting.fails(tally, help, f"{words[0]} of {content[:8]}", {"in": content, "out": b"old"}, words, AT_FAULT, f"pcapfile: in: {said}\n")
        with tempfile.TemporaryDirectory() as folder:
            code, written, told = cutting.ran(tally, folder, "info", "--json", "-", given=content)
        tally.note(f"JSON of {content[:8]}", (code, told) != (AT_FAULT, f"pcapfile: -: {said}\n") and f"it said {told!r}", written.count(b"\n") != 1 and f"it wrote {written}")
    other = (ERF[:12], ERF[:79], ERF + bytes(40), ERF * 3 + bytes(40))
    for content in (bytes(40), b"\x0b", b"a text\0", b"\xc3\xa4", *other):
        with tempfile.TemporaryDirectory() as folder:
            help.put(folder, "in", content)
            code, written, told = cutting.ran(tally, folder, "check", "in")
        tally.note(f"check of {content[:8]}", (code, told) != (AT_FAULT, "") and f"it said {told!r}", not written.startswith(b"in: pcap, 0 packets, ") and f"it wrote {written}")


def try_counts(tally, help):
    """Checks that `list -n` lists the first packets, and reads no further."""
    capture, ends = help.classic("<", 0xA1B2C3D4, 1000, 1, [(k * 10**9, 60, b"data") for k in range(5)])
    lines = [f"{k + 1} {k}.000000000 4/60\n".encode() for k in range(5)]
    for count in range(1, 8):
        for torn in (capture, capture[: ends[3]] + b"\xff" * 40):
            with tempfile.TemporaryDirectory() as folder:
                ended = cutting.ran(tally, folder, "list", "-n", str(count), "-", given=torn)
            wanted = lines[:count] if torn == capture else lines[: min(count, 3)]
            is_read = torn != capture and count > 3
            tally.note(
                f"{count} packets of {len(torn)} bytes",
                ended[0] != (AT_FAULT if is_read else DONE) and f"it ended with {ended[0]}",
                ended[1] != b"".join(wanted) and f"it wrote {ended[1]}",
                bool(ended[2]) != is_read and f"it said {ended[2]!r}",
            )
    packets = [help.enhanced("<", 0, k * 10**6, 60, b"data") for k in range(5)]
    capture_of_blocks, _ = help.blocks("<", [help.interface("<", 1), packets[0], help.interface("<", 101), (4, bytes(4)), *packets[1:]])
    for count in range(1, 8):
        with tempfile.TemporaryDirectory() as folder:
            ended = cutting.ran(tally, folder, "list", "-n", str(count), "-", given=capture_of_blocks)
        wanted = b"".join(line[:-1] + b" 0\n" for line in lines[:count])
        tally.note(f"{count} packets among blocks", ended != (DONE, wanted, "") and f"it gave {ended}")
    for words in (["-n", "0"], ["-n", "a"], ["-n", "1", "--as-is"]):
        cutting.fails(tally, help, f"list {words}", {"in": capture}, ["list", *words, "in"], USAGE, "error: ")
    with tempfile.TemporaryDirectory() as folder:
        help.put(folder, "a", capture)
        ended = cutting.ran(tally, folder, "-q", "list", "a", "-n", "1", "a", "--csv")
    table = b"index,seconds,nanoseconds,captured,original,interface\n" + b"1,0,0,4,60,\n" * 2
    tally.note("the first packets of two captures", ended != (DONE, table, "") and f"it ended with {ended}")


def try_formats(tally, help):
    """Checks the format that `convert` writes, by its option and the extension of the output, and the message if these differ."""
    capture, _ = help.classic("<", 0xA1B2C3D4, 1000, 1, help.FEW)
    parts = [help.interface("<", 1), *(help.enhanced("<", 0, time // 1000, wire, data) for time, wire, data in help.FEW)]
    blocks, _ = help.blocks("<", parts)
    for held, to, out, is_pcap, is_told in (
        (capture, [], "x.pcap", True, False), (capture, [], "x.pcapng", False, False), (capture, [], "x.cap", True, False), (capture, [], "x", False, False),
        (capture, [], "x.ntar", False, False), (capture, [], "a.pcap/../x", False, False), (blocks, [], "x.dmp", True, False), (blocks, [], "x.pcapng", False, False),
        (blocks, [], "x.out", True, False), (capture, ["--to", "pcap"], "x.pcapng", True, True), (blocks, ["--to", "pcapng"], "x.pcap", False, True),
    ):
        with tempfile.TemporaryDirectory() as folder:
            help.put(folder, "in", held)
            os.mkdir(f"{folder}/a.pcap")
            code, _, told = cutting.ran(tally, folder, "convert", "in", *to, "-o", out)
            with open(f"{folder}/{out}", "rb") as it:
                made = it.read()
        said = f"pcapfile: {out}: the format is {'pcap' if is_pcap else 'PcapNg'}, but the extension is that of the other format\n" if is_told else ""
        tally.note(
            f"{to} into {out}",
            (code, told) != (DONE, said) and f"it ended with {code} and said {told!r}",
            (made[0] != 10) != is_pcap and f"it begins with {made[:4]}",
            made[0] == held[0] and made != held and "it is no copy",
        )
    cutting_words = ["merge", "--to", "pcapng", "in", "-o", "x.pcap"]
    with tempfile.TemporaryDirectory() as folder:
        help.put(folder, "in", capture)
        ended = cutting.ran(tally, folder, *cutting_words)
    tally.note("merge --to pcapng into .pcap", ended != (DONE, b"", "pcapfile: x.pcap: the format is PcapNg, but the extension is that of the other format\n") and f"it ended with {ended}")


def try_all(tally, help):
    for tries in (try_names, try_counts, try_formats):
        tries(tally, help)
