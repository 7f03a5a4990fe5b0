"""Checks that `repair --guess` undoes a text-mode transfer, which turned each LF into CR LF, that it changes no other capture, and that
`check` and `repair` name a capture that was transferred so."""
import random
import re
import tempfile

import cutting

DONE, AT_FAULT, REPAIRED, GUESSED = 0, 1, 5, 6
SOUND = "pcapfile: in: no damage found; "
UNDONE = "pcapfile: in: its line ends are undone: a text-mode transfer turned each LF into CR LF; bytes are counted without these CRs\n"
NAMED = "pcapfile: in: looks as if a text-mode transfer turned LF into CR LF; 'pcapfile repair --guess' undoes it\n"
TEXT = b"HTTP/1.1 200 OK\r\nContent-Length: 4\r\n\r\nabcd"
FIRST = 1_600_000_000 * 10**9


def transferred(capture):
    return capture.replace(b"\n", b"\r\n")


def captures(help):
    """Yields sound captures whose packets have line ends of all kinds. The last ones are longer than what the program looks at at once."""
    draw = random.Random(13)
    kinds = (TEXT, TEXT * 30, b"\r\r\n\n\r" * 9, b"\n" * 40, b"\r" * 40, draw.randbytes(900))
    for order, count in (("<", 8), (">", 300), ("<", 300)):
        packets = [(FIRST + k * 10**8, 2000, draw.choice(kinds)) for k in range(count)]
        yield f"classic, {order}, {count} packets", help.classic(order, 0xA1B2C3D4, 1000, 1, packets)[0]
        parts = [help.interface(order, 1), *(help.enhanced(order, 0, time // 1000, wire, data) for time, wire, data in packets)]
        yield f"PcapNg, {order}, {count} packets", help.blocks(order, parts)[0]
    packets = [(FIRST + k * 10**8, 60000, bytes(draw.choices(b"\r\n", k=60000))) for k in range(45)]
    yield "classic, 45 packets of line ends", help.classic("<", 0xA1B2C3D4, 1000, 1, packets)[0]


def repaired(tally, help, capture, *words):
    """Returns the status of a repair, what it wrote, and its messages."""
    with tempfile.TemporaryDirectory() as folder:
        help.put(folder, "in", capture)
        code, _, told = cutting.ran(tally, folder, "repair", "in", "-o", "out", *words)
        return code, help.files(folder).get("out", b""), told


def differs(ended, wanted):
    return ended != wanted and f"it ended with {ended[0]}, wrote {len(ended[1])} bytes and said {ended[2]!r}"


def kept_of(name):
    """Returns the message that all packets, or all blocks with the section and the interface, of the capture with this name are kept."""
    count = int(re.search(r"(\d+) packets", name)[1])
    return f"{count + 2} blocks kept" if name.startswith("PcapNg") else f"{count} packets kept"


def try_undoing(tally, help):
    """Checks that a transfer is undone, and that a sound capture stays."""
    for name, capture in captures(help):
        kept = kept_of(name)
        wanted = DONE, capture, f"{SOUND}{kept}\n"
        tally.note(f"{name}, sound", differs(repaired(tally, help, capture, "--guess"), wanted))
        wanted = REPAIRED, capture, f"{UNDONE}pcapfile: in: {kept}, 0 repaired, 0 guessed, 0 left out, 0 bytes skipped\n"
        tally.note(f"{name}, transferred", differs(repaired(tally, help, transferred(capture), "--guess"), wanted))
        if name.endswith("00 packets") and name.startswith("classic"):
            code, written, told = repaired(tally, help, transferred(capture[24:]), "--guess")
            tally.note(f"{name}, without its header", (code, written[24:]) != (GUESSED, capture[24:]) and f"it ended with {code}", not told.startswith(UNDONE) and f"it said {told!r}")


def try_texts(tally, help):
    """Checks sound captures in which each LF is after a CR, as in what was transferred."""
    for count in (1, 2, 3, 9, 70):
        capture, _ = help.classic("<", 0xA1B2C3D4, 1000, 1, [(FIRST + k * 10**9, len(TEXT), TEXT) for k in range(16, 16 + count)])
        faults = [re.search(rb"(?<!\r)\n", capture) is not None and "it has another LF"]
        for words in ((), ("--guess",)):
            kept = "1 packet kept" if count == 1 else f"{count} packets kept"
            faults.append(differs(repaired(tally, help, capture, *words), (DONE, capture, f"{SOUND}{kept}\n")))
        tally.note(f"{count} packets of text", *faults)


def try_names(tally, help):
    """Checks that the words name a capture that was transferred."""
    for name, capture in captures(help):
        if "8 packets" in name:
            continue
        is_blocks = name.startswith("PcapNg")
        for words in (["check", "in"], ["check", "--as-is", "in"], ["list", "in"]):
            with tempfile.TemporaryDirectory() as folder:
                help.put(folder, "in", transferred(capture)[:100000])
                code, _, told = cutting.ran(tally, folder, *words)
            tally.note(f"{words} of {name}", code != AT_FAULT and f"it ended with {code}", NAMED not in told and f"it said {told!r}")
        code, _, told = repaired(tally, help, transferred(capture)[:100000])
        wanted = [AT_FAULT] if is_blocks else [REPAIRED, GUESSED]
        tally.note(f"repair of {name}", code not in wanted and f"it ended with {code}", not told.endswith(NAMED) and f"it said {told!r}")


def try_all(tally, help):
    for tries in (try_undoing, try_texts, try_names):
        tries(tally, help)
