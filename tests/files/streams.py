"""Checks the standard streams of the programs if they are closed or no longer read, and how the programs show names, words and captures."""
import gzip
import itertools
import json
import os
import re
import struct
import subprocess

from outputs import CAPTURE, HEADER, SECONDS, TORN, Folder, packet

DONE, AT_FAULT, USAGE, FAILED, UNREAD = 0, 1, 2, 3, 141
REMEDIES = (
    "pcapfile: --as-is reads on after the error, and 'pcapfile repair' writes a well-formed capture\n",
    "pcapfile: --repair reads on after the error, and 'pcapfile repair' writes a well-formed capture\n",
    "pcapfile: 'pcapfile repair' writes a well-formed capture of the malformed part\n",
    "pcapfile: 'pcapfile repair' writes a well-formed capture, which 'pcapfile sort' reads\n",
    "pcapfile: 'pcapfile repair' writes a well-formed capture, which 'pcapfile list' reads\n",
)
FLAWED = CAPTURE + struct.pack("<IIII", 9, 0, 4, 1) + b"data"
TOP = os.path.dirname(os.path.dirname(os.path.dirname(os.path.abspath(__file__))))
CAPCOPY = os.path.join(TOP, "crates/capcopy/out/capcopy")
# The words, with what they write to standard output, and whether a sound run prints a message on standard error.
WORDS = (
    (["check", "in"], True, False),
    (["check", "--as-is", "flawed"], True, False),
    (["info", "in"], True, False),
    (["info", "--json", "in"], True, False),
    (["info", "--table", "--total", "in"], True, False),
    (["info", "--repair", "flawed"], True, True),
    (["list", "in"], True, False),
    (["list", "--csv", "in"], True, False),
    (["list", "--hex", "in"], True, False),
    (["list", "--as-is", "flawed"], True, False),
    (["convert", "in", "-o", "out"], False, False),
    (["convert", "--repair", "flawed", "-o", "out"], False, True),
    (["convert", "in", "-o", "-"], True, False),
    (["convert", "-", "-o", "out"], False, False),
    (["cut", "in", "--packets", "1", "-o", "out"], False, False),
    (["cut", "--repair", "flawed", "-o", "out"], False, True),
    (["cut", "in", "--every", "2", "-o", "out"], False, False),
    (["join", "in", "-o", "out"], False, False),
    (["merge", "in", "in", "-o", "out"], False, False),
    (["merge", "--to", "pcap", "in", "in", "-o", "out"], False, False),
    (["merge", "--append", "in", "in", "-o", "out"], False, False),
    (["merge", "--repair", "flawed", "in", "-o", "out"], False, True),
    (["sort", "in", "-o", "out"], False, False),
    (["sort", "in", "-o", "-"], True, False),
    (["repair", "in", "-o", "out"], False, True),
    (["repair", "--json", "flawed", "-o", "out"], True, False),
    (["repair", "flawed", "-o", "out"], False, True),
)


def without_remedy(status, said):
    """Returns the messages of a run, without the last line if it names the way to read more of a malformed capture."""
    for remedy in REMEDIES:
        if status == AT_FAULT and said.endswith(remedy):
            return said.removesuffix(remedy)
    return said


def content_of(folder):
    return {name: folder.get(name) for name in folder.names()}


def closing(numbers):
    def close():
        for number in numbers:
            os.close(number)

    return close


def try_closed(tally):
    """Checks each word with each of the standard streams closed. None of its lines may get into a file, and no file may be lost."""
    held = {"in": CAPTURE, "flawed": FLAWED, "out": b"old"}
    for words, writes, says in WORDS:
        with Folder(tally.program, **held) as folder:
            wanted = folder.run(*words, input=CAPTURE)[0]
            made = content_of(folder)
        for numbers in itertools.chain.from_iterable(itertools.combinations(range(3), count) for count in (1, 2, 3)):
            fails = (writes and 1 in numbers) or ("-" in words[:2] and 0 in numbers)
            with Folder(tally.program, **held) as folder:
                status, _, _ = folder.run(*words, preexec_fn=closing(numbers), **({} if 0 in numbers else {"input": CAPTURE}))
                left = content_of(folder)
            tally.note(
                f"{' '.join(words)}, closed {numbers}",
                status != (FAILED if fails else wanted) and f"it ended with {status}",
                left != (held if fails else made) and f"it left {({name: len(it) for name, it in left.items()})}",
            )
    if os.path.exists(CAPCOPY):
        for words, numbers in itertools.product((["list"], ["copy"], ["blocks"]), ((0,), (1,), (0, 1), (0, 1, 2))):
            with Folder(CAPCOPY) as folder:
                status, _, _ = folder.run(*words, preexec_fn=closing(numbers), **({} if 0 in numbers else {"input": CAPTURE}))
                tally.note(f"capcopy {words[0]}, closed {numbers}", status != FAILED and f"it ended with {status}", folder.names() and f"it left {folder.names()}")


def try_unread(tally):
    """Checks that a run ends without a message if nobody reads its output any more."""
    many = HEADER + packet(1, b"") * 200000
    flaws = HEADER + (struct.pack("<IIII", 1, 0, 4, 1) + b"data") * 20000
    words = [["list", "in"], ["list", "--json", "in"], ["list", "--csv", "in"], ["list", "--hex", "in"], ["list", "--as-is", "in"], ["check", "--as-is", "flaws"]]
    words += [[*it, "-o", "-"] for it in (["convert", "in"], ["convert", "--to", "pcap", "in"], ["cut", "in"], ["join", "in"], ["merge", "in"], ["merge", "--to", "pcap", "in"], ["sort", "in"], ["repair", "in"])]
    with Folder(tally.program, **{"in": many, "flaws": flaws}) as folder:
        for it in words:
            try_gone(tally, f"{' '.join(it)}, unread", [tally.program, *it], folder.path)
        if os.path.exists(CAPCOPY):
            for it in (["list"], ["copy"]):
                try_gone(tally, f"capcopy {it[0]}, unread", [CAPCOPY, *it], folder.path)


def try_gone(tally, name, words, folder):
    with open(f"{folder}/in", "rb") as given:
        with subprocess.Popen(words, cwd=folder, stdin=given, stdout=subprocess.PIPE, stderr=subprocess.PIPE) as ran:
            ran.stdout.read(1)
            ran.stdout.close()
            said = ran.stderr.read()
            status = ran.wait(SECONDS)
    tally.note(name, status != UNREAD and f"it ended with {status}", said and f"it said {said}")


SIGNS = ["\x1b[31m", "\r", "\n", "\t", "\x07", "\x08", "\x7f", "\x80", "\x9b31m", "\x9f", "\u061c", "\u200e", "\u200f", "\u202a", "\u202e", "\u2066", "\u2069", "\u2028", "\u2029"]
ACTS = re.compile("[\x00-\x09\x0b-\x1f\x7f-\x9f\u061c\u200e\u200f\u2028-\u202e\u2066-\u2069]")


def block(number, body):
    body += bytes(-len(body) % 4)
    return struct.pack("<II", number, len(body) + 12) + body + struct.pack("<I", len(body) + 12)


def option(code, text):
    text = text.encode()
    return struct.pack("<HH", code, len(text)) + text + bytes(-len(text) % 4)


def try_shown(tally):
    """Checks that no character of a name, a word or a capture acts on a terminal or begins a line."""
    for sign in SIGNS:
        try_names(tally, sign)
        text = f"a{sign}b"
        section = block(0x0A0D0D0A, struct.pack("<IHHq", 0x1A2B3C4D, 1, 0, -1) + b"".join(option(code, text) for code in (1, 2, 3, 4)))
        stored = section + block(1, struct.pack("<HHI", 1, 0, 0) + b"".join(option(code, text) for code in (2, 1, 3, 12, 15)))
        with Folder(tally.program, **{"in": stored}) as folder:
            for words in (["info", "in"], ["info", "--json", "in"]):
                status, written, said = folder.run(*words)
                written = written.decode()
                tally.note(f"{' '.join(words)} of {text!r}", status != DONE and f"it ended with {status}", (ACTS.search(written) or said) and f"it wrote {written!r} {said!r}")
            told = json.loads(written)
            interface = told["interfaces"][0]
            shown = told["comments"] + interface["comments"] + [interface[it] for it in ("name", "description", "hardware", "os")]
            shown += [told[it] for it in ("application", "hardware", "os")]
            tally.note(f"the texts {text!r} as JSON", shown != [text] * 9 and f"they are {shown}")


def try_names(tally, sign):
    name = f"x{sign}y"
    with Folder(tally.program, **{name: FLAWED, "in": CAPTURE, "torn": TORN}) as folder:
        os.mkdir(folder.at("d"))
        os.mkdir(folder.at("out.part"))
        os.mkdir(folder.at(f"{name}out.part"))
        missing = f"no{sign}ne"
        for words in (
            ["check", name], ["check", "--as-is", name], ["info", name], ["info", "--repair", name], ["list", name, "in"], ["list", "--as-is", name, "in"],
            ["convert", name, "-o", "d/o"], ["cut", name, "-o", "d/o"], ["join", name, "-o", "d/o"], ["merge", name, "-o", "d/o"], ["sort", name, "-o", "d/o"], ["repair", name, "-o", "d/o"],
            ["convert", "in", "-o", f"{name}out"], ["convert", "in", "-o", f"none/{name}"], ["convert", name, "-o", name], ["cut", "in", "--every", "1", "-o", f"{name}/"],
            ["join", "torn", name, "-o", "d/o"], *([it, missing, "-o", "d/o"] for it in ("convert", "cut", "join", "merge", "sort", "repair")),
            ["check", missing], ["info", missing], ["list", missing], [missing], [f"--{missing}"], ["check", f"--{missing}", "in"], ["check"],
            ["convert", "in", "--to", name, "-o", "d/o"], ["cut", "in", "--from", name, "-o", "d/o"], ["cut", "in", "--every", name, "-o", "d/o"], ["cut", "in", name, "-o", "d/o"],
        ):
            status, written, said = folder.run(*words)
            shown = written.decode() + said
            faults = ACTS.search(shown) or (sign == "\n" and any(line.startswith(("y", "ne")) for line in shown.splitlines()))
            tally.note(f"{words!r}", faults and f"it shows {shown!r}")
        _, written, _ = folder.run("info", "--json", name)
        _, table, _ = folder.run("info", "--table", name)
        rows = table.decode().splitlines()
        tally.note(f"{name!r} in a table", ACTS.search("".join(rows).replace("\t", "")) and f"it wrote {table}", [row.count("\t") for row in rows] != [16, 16] and f"it wrote {rows}")
        tally.note(f"{name!r} as JSON", ACTS.search(written.decode()) and f"it wrote {written}", json.loads(written)["file"] != name and f"it names {json.loads(written)['file']!r}")


def try_other_names(tally):
    """Checks that a name that isn't UTF-8 gives a message that says so, and that the other names are read."""
    for name in (b"caf\xe9", b"\xff", b"a\xc3", b"\xed\xa0\x80", b"\xf0\x9f\x98"):
        with Folder(tally.program, **{"in": CAPTURE}) as folder:
            with open(os.path.join(folder.path.encode(), name), "wb") as it:
                it.write(CAPTURE)
            for word in (["check"], ["info"], ["info", "--json"], ["info", "--table"], ["list"], ["check", "--as-is"], ["list", "--as-is"]):
                alone = folder.run(*word, "in", "in")
                status, written, said = folder.run(*word, "in", name, "in")
                shown = "".join(chr(it) if it < 128 else f"\\x{it:02x}" for it in name)
                tally.note(
                    f"{' '.join(word)} of {name}",
                    status != FAILED and f"it ended with {status}",
                    said != f"pcapfile: {shown}: a name that is not UTF-8 can't be opened\n" and said,
                    written != alone[1] and f"it wrote {written}",
                )
            status, _, said = folder.run("convert", "in", "-o", name + b"x")
            tally.note(f"an output of {name}", status != FAILED and f"it ended with {status}", "is not UTF-8" not in said and said)
            status, _, said = folder.run("convert", "in", "--to", name, "-o", "out")
            tally.note(f"a format of {name}", status != USAGE and f"it ended with {status}", ACTS.search(said) and said)


def try_twice(tally):
    """Checks that the program refuses to read standard input twice, before it writes anything."""
    lists = (["check"], ["check", "--as-is"], ["info"], ["info", "--json"], ["list"], ["list", "--csv"], ["list", "--as-is"])
    writing = (["merge", "-o", "out"], ["merge", "--append", "-o", "out"], ["join", "-o", "out"])
    for words in (*lists, *writing):
        for names in (["-", "-"], ["-", "in", "-"]):
            with Folder(tally.program, **{"in": CAPTURE, "out": b"old"}) as folder:
                ended = folder.run(*words, *names)
                said = f"error: '-' is given twice, but standard input can be read only once\nFor more information, try 'pcapfile {words[0]} --help'.\n"
                tally.note(
                    f"{' '.join(words)} of {' '.join(names)}",
                    ended != (USAGE, b"", said) and f"it ended with {ended}",
                    folder.get("out") != b"old" and "the output differs",
                )


def try_remedies(tally):
    """Checks that the last line names a way to read more if a malformed capture ends a word, and that no line does otherwise."""
    for words, remedy in (
        *((it, REMEDIES[0]) for it in (["check", "torn"], ["list", "torn"])),
        (["list", "--packets", "1-", "torn"], REMEDIES[4]),
        *((it, REMEDIES[1]) for it in (["info", "torn"], ["convert", "torn", "-o", "out"], ["cut", "torn", "-o", "out"], ["merge", "torn", "-o", "out"])),
        (["join", "torn", "-o", "out"], REMEDIES[2]),
        (["sort", "torn", "-o", "out"], REMEDIES[3]),
        *((it, None) for it in (["check", "--as-is", "torn"], ["list", "--as-is", "torn"], ["info", "--repair", "torn"], ["convert", "--repair", "torn", "-o", "out"])),
        *((it, None) for it in (["check", "in"], ["check", "none"], ["repair", "torn", "-o", "out"], ["list", "in"])),
    ):
        with Folder(tally.program, **{"in": CAPTURE, "torn": TORN}) as folder:
            status, _, said = folder.run(*words)
            faults = not said.endswith(remedy) if remedy else any(it in said for it in REMEDIES)
            tally.note(f"what {' '.join(words)} says of a remedy", faults and f"it ended with {status} and said {said!r}", remedy and status != AT_FAULT and f"it ended with {status}")


def try_foreign(tally):
    """Checks that for a file that is no capture no line names a way to read more, unless another file is a malformed capture."""
    section = block(0x0A0D0D0A, struct.pack("<IHHq", 0x1A2B3C4D, 1, 0, -1))
    files = {
        "empty": b"", "zipped": gzip.compress(CAPTURE), "page": b"<!DOCTYPE html>", "text": b"\nsome text, which begins with a newline", "one": b"\x0b",
        "in": CAPTURE, "torn": TORN, "opened": CAPTURE[:20], "begun": section[:3], "refused": section + b"garbage, for some bytes",
    }
    alone = ("empty", "zipped", "page", "text", "one")
    for words, has_remedy in (
        *((["check", it], False) for it in alone),
        *(([*word, it, "-o", "out"], False) for it in alone for word in (["convert"], ["cut"], ["merge"], ["sort"], ["join"])),
        *(([*word, it], False) for it in alone for word in (["info"], ["info", "--json"], ["info", "--table"], ["list"], ["list", "--csv"])),
        *(([word, "in", *alone, "in"], False) for word in ("check", "info", "list")),
        *(([word, "torn", *alone], True) for word in ("check", "info", "list")),
        *(([word, *alone, "torn"], True) for word in ("check", "info", "list")),
        *(([word, it], True) for it in ("opened", "refused") for word in ("check", "info", "list")),
        (["list", "begun"], True),
        (["merge", "torn", "text", "in", "-o", "out"], True),
        (["merge", "text", "torn", "in", "-o", "out"], True),
    ):
        with Folder(tally.program, **files) as folder:
            status, _, said = folder.run(*words)
            tally.note(
                f"whether {' '.join(words)} says how more is read",
                status not in (AT_FAULT, FAILED) and f"it ended with {status}",
                any(it in said for it in REMEDIES) != has_remedy and f"it said {said!r}",
            )


def try_times(tally):
    """Checks that a cut by time goes on past packets without a known time and counts them, and that it accepts every time of RFC 3339."""
    section = block(0x0A0D0D0A, struct.pack("<IHHq", 0x1A2B3C4D, 1, 0, -1)) + block(1, struct.pack("<HHI", 1, 0, 0))
    sound = block(6, struct.pack("<IIIII", 0, 0, 5, 4, 4) + b"data")
    refused = block(6, struct.pack("<IIIII", 0, 0, 5, 400, 400) + b"data")
    simple = block(3, struct.pack("<I", 4) + b"data")
    malformed, timeless = "1 packet with a malformed body", "2 packets without a time"
    for times in (["--from", "0"], ["--until", "9"], ["--from", "0", "--until", "9"]):
        with Folder(tally.program, **{"in": section + sound + refused + simple + sound + simple}) as folder:
            checked = folder.run("check", "in")[0]
            status, _, said = folder.run("cut", "in", *times, "-o", "out")
            tally.note(
                f"a packet that is refused, cut {times}",
                status != checked and f"it ended with {status}, and check with {checked}",
                said != f"pcapfile: in: left out {malformed}\npcapfile: in: left out {timeless}\n" and said,
                folder.get("out") != section + sound * 2 and "it has other packets",
            )
    with Folder(tally.program, **{"in": CAPTURE}) as folder:
        for time in ("9999-12-31T23:59:59Z", "9999-12-31T23:59:59.999999999Z", "9999-12-31T23:59:60Z", "9999-12-31T23:59:59-23:59", "9999-12-30T22:00:01z", "2554-07-21T23:34:33Z", "9999-12-31", "9999-12-31 23:59:59"):
            ended = folder.run("cut", "in", "--until", time, "-o", "out")
            tally.note(f"the time {time}", ended != (DONE, b"", "") and f"it ended with {ended}", folder.get("out") != CAPTURE and "it has other packets")
        for time in ("9999-02-29T00:00:00Z", "9999-13-01T00:00:00Z", "9999-12-32", "9999-", "9999-" + "1" * 100, "10000-01-01T00:00:00Z"):
            status = folder.run("cut", "in", "--until", time, "-o", "none")[0]
            tally.note(f"no time {time}", status != USAGE and f"it ended with {status}")


def try_first_block(tally):
    """Checks that the program reports a truncated first block, and one with a truncated option."""
    front = struct.pack("<IHHq", 0x1A2B3C4D, 1, 0, -1)
    for name, capture in (
        ("a first block that is cut short", block(0x0A0D0D0A, front)[:-3]),
        ("a custom option of two bytes", block(0x0A0D0D0A, front + struct.pack("<HH", 2988, 2) + b"ab\0\0" + bytes(4)) + block(1, struct.pack("<HHI", 1, 0, 0))),
    ):
        for word in ("check", "info"):
            with Folder(tally.program, **{"in": capture}) as folder:
                status, written, said = folder.run(word, "in")
            faults = not (said.startswith("pcapfile: in: pcapng, 0 blocks, unread from byte 0: ") and said.endswith(": the first block, or an option there, is cut short\n"))
            tally.note(f"{word} of {name}", (status, written) != (FAILED, b"") and f"it ended with {status} and wrote {written}", faults and said)


def try_about(tally):
    """Checks that capcopy prints its usage and its version on request, on standard output, and its usage on standard error otherwise."""
    if not os.path.exists(CAPCOPY):
        return
    usage = b"usage: capcopy list | copy [big|little micro|nano] | blocks\n"
    with open(f"{TOP}/VERSION", "rb") as it:
        version = b"capcopy " + it.read()
    wanted = {("--help",): usage, ("-h",): usage, ("--version",): version, ("-V",): version}
    for words in (*wanted, ("--help", "list"), ("list", "--help"), ("--hel",), ("--version.",), ("help",), ()):
        ran = subprocess.run([CAPCOPY, *words], input=CAPTURE, capture_output=True, timeout=SECONDS)
        ended = ran.returncode, ran.stdout, ran.stderr
        tally.note(f"capcopy {' '.join(words)}", ended != ((0, wanted[words], b"") if words in wanted else (USAGE, b"", usage)) and f"it gave {ended}")


def try_all(tally):
    for tries in (try_about, try_closed, try_unread, try_shown, try_other_names, try_twice, try_remedies, try_foreign, try_times, try_first_block):
        tries(tally)
