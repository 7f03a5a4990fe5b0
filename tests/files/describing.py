"""Checks what `pcapfile repair` makes of interfaces that their section doesn't describe, and of blocks whose section header is lost. The
repaired captures are read with struct alone, and by `check`, `merge`, capinfos and tshark."""
import itertools
import random
import re
import struct
import subprocess
import tempfile

import as_is
import cutting
import left_out
import tshark
import undescribed
from as_is import DONE, ENHANCED, GUESSED, INTERFACE, OBSOLETE, REPAIRED, SIMPLE
from repairing import block, enhanced, option, repaired, section
from undescribed import STATISTICS

AT_FAULT, USAGE = 1, 2
MARK = bytes(4)
ORDERS = {"<": "little", ">": "big"}
TIME = 1_700_000_000_123_456
LIKE = "interface {} is not described: a description of link type {}, like those of the other interfaces of its section, is written before it"
BY_GUESS = "interface {} is not described: a description of link type {} and times in microseconds, which makes its packets guesses, is written before it"
ASSUMED = BY_GUESS.replace(" and times", ", which is assumed, and times")
GIVEN = "interface {} is not described: a description of link type {}, as --header gives it, is written before it"
KEPT = f"interface {{}} is not described: {undescribed.FATES['kept']}"
DIFFER = f"interface {{}} is not described: {undescribed.FATES['differ']}"
HIGH = f"interface {{}} is not described: {undescribed.FATES['high']}"
GONE = "{} bytes at byte {} are blocks of an interface that is not described, and are left out"


def interface(order, link=1, snaplen=0, options=b""):
    return block(order, INTERFACE, struct.pack(order + "HHI", link, 0, snaplen) + options)


def nanoseconds(order):
    return option(order, 9, b"\x09") + MARK


def packets(order, *numbers):
    """Returns an enhanced packet of each of these interfaces. Each packet has other data, and a block of 64 bytes."""
    return [enhanced(order, number, TIME + k, bytes([k, 10, 13]) * 10) for k, number in enumerate(numbers)]


def others(order, number):
    """Returns an obsolete packet and statistics of an interface, both without options."""
    obsolete = block(order, OBSOLETE, struct.pack(order + "HHIIII", number, 0, TIME >> 32, TIME & 0xFFFFFFFF, 4, 4) + b"data")
    return obsolete, block(order, STATISTICS, struct.pack(order + "III", number, TIME >> 32, TIME & 0xFFFFFFFF))


def like_others(order):
    """Yields captures with undescribed interfaces in sections that describe one, what they become, and the messages."""
    head, one, two = section(order), interface(order), packets(order, 0, 1, 0, 3)
    yield "one interface more", [head, one, *two[:2]], [head, one, two[0], one, two[1]], [(4, 112, LIKE.format(1, 1))]
    wanted = [head, one, two[0], one, two[1], two[2], one, one, two[3]]
    yield "three interfaces more", [head, one, *two], wanted, [(4, 112, LIKE.format(1, 1)), (6, 240, LIKE.format(3, 1))]
    for name, kept in (
        ("nanoseconds", nanoseconds(order)),
        ("units of 1/1024 second", option(order, 9, b"\x8a") + MARK),
        ("an offset", option(order, 14, struct.pack(order + "q", -3600)) + MARK),
        ("units of 1/100 second and an offset", option(order, 9, b"\x02") + option(order, 14, struct.pack(order + "q", 7)) + MARK),
    ):
        mine = interface(order, 101, 96, option(order, 2, b"eth0") + kept)
        yield name, [head, mine, two[1]], [head, mine, interface(order, 101, 96, kept), two[1]], [(3, 28 + len(mine), LIKE.format(1, 101))]
    short, long = interface(order, 1, 96), interface(order, 1, 128)
    yield "two snapshot lengths", [head, short, long, two[3]], [head, short, long, one, one, two[3]], [(4, 68, LIKE.format(3, 1))]
    for name, it in zip(("an obsolete packet", "statistics"), others(order, 1)):
        yield name, [head, one, it], [head, one, one, it], [(3, 48, LIKE.format(1, 1))]
    again = [head, interface(order, 101), two[1]]
    wanted = [head, one, one, two[1], head, interface(order, 101), interface(order, 101), two[1]]
    yield "two sections", [head, one, two[1], *again], wanted, [(3, 48, LIKE.format(1, 1)), (6, 160, LIKE.format(1, 101))]


def left(order):
    """Yields captures whose undescribed packets are left out, what they become, and the messages."""
    head, one, it = section(order), interface(order), packets(order, 0, 2, 2, 3, 1)
    second = {"link types": interface(order, 101), "resolutions": interface(order, 1, 0, nanoseconds(order))}
    for name, other in second.items():
        at = 112 + len(other)
        said = [(5, at, DIFFER.format(2)), GONE.format(128, at), (5, at + 128, DIFFER.format(3)), GONE.format(64, at + 128)]
        yield f"two {name}", [head, one, other, *it], [head, one, other, it[0], it[4]], said
    far = packets(order, 0, 70000, 17, 16)
    said = [(4, 112, HIGH.format(70000)), GONE.format(64, 112), (4, 176, HIGH.format(17)), GONE.format(64, 176), (4, 240, LIKE.format(16, 1))]
    yield "numbers far above", [head, one, *far], [head, one, far[0], *[one] * 16, far[3]], said


def without_any(order):
    """Yields options, what they make of sections that describe no interface, and the messages."""
    head, first, two = section(order), packets(order, 0, 1), packets(order, 0)
    said = [(2, 28), (3, 92), (5, 184)]
    kept = [head, *first, head, *two]
    given = f"{ORDERS[order]},nano,147"
    for words, link, options, how in (
        ([], None, b"", KEPT),
        (["--guess"], 1, b"", ASSUMED),
        (["--guess", "--link", "101"], 101, b"", BY_GUESS),
        (["--header", given], 147, nanoseconds(order), GIVEN),
        (["--header", given.replace("nano", "micro")], 147, b"", GIVEN),
    ):
        one = interface(order, link or 0, 0, options)
        wanted = [head, one, first[0], one, first[1], head, one, two[0]] if link else kept
        numbers = (0, 1, 0) if link else (0, None, 0)
        yield words, kept, wanted, [(*at, how.format(number, link)) for at, number in zip(said, numbers) if number is not None]


def text(said):
    return "".join(f"pcapfile: in: {it if isinstance(it, str) else 'block {} at byte {}: {}'.format(*it)}\n" for it in said)


def capinfos(folder, path):
    return subprocess.run(["capinfos", path], cwd=folder, capture_output=True, timeout=60)


def refusals(tally, folder, path):
    """Returns which programs refuse a capture."""
    words = [["check", path], ["merge", path, "-o", "merged"]]
    faults = [f"{it} gave {ended}" for it in words if (ended := cutting.ran(tally, folder, *it))[0] != DONE]
    readers = {"capinfos": capinfos, "tshark": tshark.read}
    for tool, reads in readers.items():
        if left_out.has(tool, "captures with described interfaces, in tests/files/run"):
            ended = reads(folder, path)
            faults += [f"{tool} says {ended.stderr.decode()[-200:]}"] * (ended.returncode != 0)
    return faults


def faults_at_the_end(capture, ended, said):
    """Returns what is wrong with the status and the last message of a repair, by the messages before it. The counts must add up to the
    blocks of the capture, and to the bytes that the messages name."""
    status, _, told = ended
    *before, last = told.splitlines(True) or [""]
    numbers = [int(it) for it in re.findall(r"\d+", last.removeprefix("pcapfile: in: "))]
    blocks, skipped = len(capture), sum(int(it) for it in re.findall(r": (\d+) bytes at byte", said))
    wanted = GUESSED if "guess" in said else REPAIRED if said else DONE
    return (
        "".join(before) != said and f"it said {told!r}, and not {said!r}",
        status != wanted and f"it ended with {status}, and not {wanted}",
        sum(numbers[:4]) != blocks and f"it counts {last!r}, and not {blocks} blocks",
        sum(numbers[4:]) != skipped and f"it counts {last!r}, and not {skipped} bytes",
    )


def expects(tally, help, name, front, capture, wanted, said, words=(), is_accepted=True):
    """Checks what a repair makes of these blocks behind other bytes, that all programs accept it, and that another repair changes nothing."""
    with tempfile.TemporaryDirectory() as folder:
        help.put(folder, "in", front + b"".join(capture))
        ended = as_is.ran(tally, folder, "repair", "in", "-o", "out", *words)
        out = help.files(folder).get("out", b"")
        again = as_is.ran(tally, folder, "repair", "out", "-o", "again")
        same = help.files(folder).get("again") == out
        faults = refusals(tally, folder, "out") if is_accepted and out else []
    tally.note(
        f"{name} {' '.join(words)}",
        *faults_at_the_end(capture, ended, said),
        out != b"".join(wanted) and f"it wrote {out.hex()}, and not {b''.join(wanted).hex()}",
        (again[0], same) != (DONE if is_accepted else GUESSED, True) and f"again it gave {again}",
        *faults,
    )


def try_interfaces(tally, help):
    """Checks undescribed interfaces, beside others and without any."""
    for order in "<>":
        for name, capture, wanted, said in (*like_others(order), *left(order)):
            for words in ((), ("--guess",)):
                expects(tally, help, f"{name}, {order}", b"", capture, wanted, text(said), words)
        for words, capture, wanted, said in without_any(order):
            expects(tally, help, f"no description, {order}", b"", capture, wanted, text(said), words, bool(words))
        sound = [section(order), interface(order), *packets(order, 0, 0)]
        for words in ([], ["--guess"], ["--header", f"{ORDERS[order]},nano,101"]):
            expects(tally, help, f"a sound capture, {order}", b"", sound, sound, "", words)


def try_later(tally, help):
    """Checks that a description behind one that was written doesn't change the packets' link type."""
    for order in "<>":
        head, one, raw, it = section(order), interface(order), interface(order, 101), packets(order, 1, 1, 0)
        like = (3, 48, LIKE.format(1, 1))
        expects(tally, help, f"the same later, {order}", b"", [head, one, it[0], one, it[1]], [head, one, one, it[0], one, it[1]], text([like]))
        said = [like, (5, 132, f"interface 1 is not described: {undescribed.FATES['disputed']}"), GONE.format(64, 132)]
        wanted = [head, one, one, it[0], raw, it[2]]
        expects(tally, help, f"another one later, {order}", b"", [head, one, it[0], raw, *it[1:]], wanted, text(said))


def sections(order):
    """Yields names of captures whose section header is lost, the bytes at their front that are no blocks, and their blocks."""
    blocks = [interface(order, 1), *packets(order, 0, 0, 0), *packets(order, 0, 0, 0, 0)]
    for size in (0, 1, 4, 27, 28):
        yield f"{size} bytes of a section header", section(order)[28 - size :] if size < 28 else bytes(28), blocks
        yield f"{size} other bytes", b"\xff" * size, blocks
    yield "a wrong magic number", section(order)[:8] + b"\1\2\3\4" + section(order)[12:], blocks
    yield "another section behind", b"", [*blocks, section(order), interface(order, 101), *packets(order, 0)]
    for at in (1, 19):
        yield f"cut at {at} of the interface", blocks[0][at:], blocks[1:]
    for at in (1, 30, 63):
        yield f"cut at {at} of the first packet", blocks[1][at:], blocks[2:]


def try_sections(tally, help):
    """Checks blocks whose section header is lost."""
    for order, name in ORDERS.items():
        for kind, front, blocks in sections(order):
            lost = [f"{len(front)} bytes at byte 0 are no blocks, and are left out"] * bool(front)
            is_described = blocks[0] == interface(order, 1)
            for words, how, link, message in (
                (["--guess"], "which is a guess", 1, ASSUMED),
                (["--guess", "--link", "101"], "which is a guess", 101, BY_GUESS),
                (["--header", f"{name},micro,101"], "as --header gives it", 101, GIVEN),
            ):
                said = [f"its section header is lost: one of byte order {name} is written, {how}", *lost]
                said += [(1, len(front), message.format(0, link))] * (not is_described)
                wanted = [section(order), *[interface(order, link)] * (not is_described), *blocks]
                expects(tally, help, f"{kind}, {order}", front, blocks, wanted, text(said), words)
            try_named(tally, help, f"{kind}, {order}", front + b"".join(blocks))


def try_named(tally, help, name, capture):
    """Checks that a repair without options names those that keep the blocks."""
    with tempfile.TemporaryDirectory() as folder:
        help.put(folder, "in", capture)
        _, _, said = cutting.ran(tally, folder, "repair", "in", "-o", "out")
    tally.note(f"{name}, without options", as_is.NO_SECTION not in said and as_is.NO_HEADER not in said and f"it said {said!r}")


def try_classic(tally, help):
    """Checks that a repair of a classic capture without a header names the options that help, and takes none for blocks."""
    for order in "<>":
        items = [(TIME * 1000 + k * 10**6, 60, bytes([k]) * 60) for k in range(12)]
        inner = b"".join([interface(order), *packets(order, 0, 0)])
        capture, _ = help.classic(order, 0xA1B2C3D4, 1000, 1, [*items, (items[-1][0] + 10**6, len(inner), inner)])
        with tempfile.TemporaryDirectory() as folder:
            help.put(folder, "in", capture[24:])
            code, _, said = cutting.ran(tally, folder, "repair", "in", "-o", "out")
            guessed, _, _ = cutting.ran(tally, folder, "repair", "in", "-o", "guessed", "--guess")
            written = help.files(folder).get("guessed", b"")
        tally.note(f"no header, {order}", code != AT_FAULT and f"it ended with {code}", (as_is.NO_HEADER not in said or "blocks" in said) and f"it said {said!r}")
        tally.note(f"no header, {order}, --guess", (guessed, written[24:]) != (GUESSED, capture[24:]) and f"it ended with {guessed}")
        try_few(tally, help, order, items)


def try_few(tally, help, order, items):
    """Checks that --guess takes four packets in a row for a capture, and names the option that helps if there are fewer."""
    for count, status in ((3, AT_FAULT), (4, GUESSED)):
        capture, _ = help.classic(order, 0xA1B2C3D4, 1000, 1, items[:count])
        with tempfile.TemporaryDirectory() as folder:
            help.put(folder, "in", capture[24:])
            code, _, said = cutting.ran(tally, folder, "repair", "in", "-o", "out", "--guess")
            made = "out" in help.files(folder)
        tally.note(
            f"{count} packets without a header, {order}, --guess",
            (code, made) != (status, status == GUESSED) and f"it ended with {code}",
            (as_is.TOO_FEW in said) != (status == AT_FAULT) and f"it said {said!r}",
        )


def try_random(tally, help):
    """Checks random blocks with descriptions of each source against the rules that `undescribed` states again."""
    draw = random.Random(18)
    for count, order in itertools.product(range(40), "<>"):
        capture = as_is.some_blocks(draw, help, order) + as_is.some_blocks(draw, help, draw.choice("<>"))
        for words, link, resolution, how in (
            (["--guess"], 1, 6, ", which is assumed, and times in microseconds, which makes its packets guesses,"),
            (["--guess", "--link", "147"], 147, 6, " and times in microseconds, which makes its packets guesses,"),
            (["--header", "little,nano,101"], 101, 9, ", as --header gives it,"),
        ):
            out, said, status = repaired("in", capture, undescribed.supposed(link, resolution, how))
            with tempfile.TemporaryDirectory() as folder:
                help.put(folder, "in", capture)
                ended = cutting.ran(tally, folder, "repair", "in", "-o", "out", *words)
                made = help.files(folder).get("out")
            tally.note(
                f"random blocks {count}, {order}, {words}",
                ended != (status, b"", said) and f"it gave {str(ended)[-400:]}, and not {str(said)[-400:]}",
                made != out and "it wrote another capture",
            )


def try_all(tally, help):
    for tries in (try_interfaces, try_later, try_sections, try_classic, try_random):
        tries(tally, help)
