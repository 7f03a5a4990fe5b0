"""Checks which files `check` and `info` read with --recursive, in which order, and what they say of the others."""
import gzip
import json
import os
import random
import socket
import stat
import subprocess
import tempfile

import outputs
import streams

DONE, AT_FAULT, USAGE, FAILED = 0, 1, 2, 3
FOLDER = "is a folder; --recursive reads the captures in it"
PACKET = (1700000000 * 10**9, 60, bytes(60))


def captures(help):
    """Returns a classic capture, and one of blocks, each with what `check` says of it."""
    capture, _ = help.classic("<", 0xA1B2C3D4, 1000, 1, [PACKET])
    blocks, _ = help.blocks("<", [help.interface("<", 1), help.enhanced("<", 0, 1, 60, bytes(60))])
    return (capture, f"pcap, 1 packets, {len(capture)} bytes"), (blocks, f"pcapng, 3 blocks, {len(blocks)} bytes")


def entries(help):
    """Returns what is in a folder, in the order in which a command reads it. Each entry has a path, its content, what `check` writes of it, and
    what it says of it on standard error. The content of a link is the text of its target, and that of a pipe or a socket is a type."""
    (capture, sound), (blocks, sound_blocks) = captures(help)
    torn = "pcap, 0 packets, cut short at byte 24"
    return [
        ("B.pcap", capture, sound, None),
        ("a", blocks, sound_blocks, None),
        ("a-1", capture, sound, None),
        ("a.d/.hidden", capture, sound, None),
        ("a.d/empty/none/", None, None, None),
        ("a.d/over", "../a", sound_blocks, None),
        ("a.d/two words/deep/x", capture, sound, None),
        ("a.d/up", "..", None, None),
        ("a.d.pcap", capture, sound, None),
        ("b.txt", b"a text\n", None, None),
        ("begun", capture[:4], "pcap, 0 packets, cut short at byte 0", None),
        ("circle", "circle", None, "Too many levels of symbolic links (os error 40)"),
        ("data.CAP12", bytes(40), "pcap, 0 packets, refused at byte 0 by rule 1: ", None),
        ("dead", "missing", None, "No such file or directory (os error 2)"),
        ("empty", b"", None, None),
        ("empty.pcapng", b"", None, "is empty"),
        ("line", b"\n", None, None),
        ("logs.gz", gzip.compress(b"text"), None, None),
        ("packed.pcap.gz", gzip.compress(capture), None, "is a gzip file, not a capture; 'zcat FILE | pcapfile info -' reads it"),
        ("page", b"<html>", None, None),
        ("pcap", bytes(40), None, None),
        ("pipe.pcap", stat.S_IFIFO, None, None),
        ("socket.pcap", stat.S_IFSOCK, None, None),
        ("torn", capture[:-1], torn, None),
        ("wide", bytes.fromhex("34cdb2a1") + capture[4:], None, "has packet headers of 24 bytes, as a modified libpcap writes them; 'pcapfile repair' makes it a plain capture"),
        ("zeros", bytes(4000), None, None),
        ("\u00e9", capture, sound, None),
    ]


# The entries that are no captures: b.txt, empty, line, logs.gz, page, pcap and zeros.
SKIPPED = 7


def place(top, path, content):
    """Makes an entry of a folder."""
    target = os.path.join(top, path)
    os.makedirs(os.path.dirname(target), exist_ok=True)
    if content is None:
        return
    if content == stat.S_IFIFO:
        os.mkfifo(target)
    elif content == stat.S_IFSOCK:
        # The name of a socket has at most 108 bytes, so the test makes it from within the folder.
        before = os.getcwd()
        os.chdir(top)
        with socket.socket(socket.AF_UNIX) as it:
            it.bind(path)
        os.chdir(before)
    elif isinstance(content, str):
        os.symlink(content, target)
    else:
        with open(target, "wb") as it:
            it.write(content)


def placed(top, help, seed=1):
    """Makes the entries in a folder in another order than that of their names."""
    shuffled = entries(help)
    random.Random(seed).shuffle(shuffled)
    for path, content, *_ in shuffled:
        place(top, path, content)


def skips(count):
    return {0: [], 1: ["pcapfile: skipped 1 file that is not a capture"]}.get(count, [f"pcapfile: skipped {count} files that are not captures"])


def is_like(lines, wanted):
    """Returns whether each line is the wanted one, or begins with it if it ends at a rule's text."""
    return len(lines) == len(wanted) and all(line == it or (it.endswith(": ") and line.startswith(it)) for line, it in zip(lines, wanted))


def try_order(tally, help):
    """Checks the lines of `check` on each file of a folder, and on each message, for names of the folder in several forms."""
    for seed, name in enumerate(("in", "in/", "./in", "in/.", "link", "in/a.d/up", ".")):
        with tempfile.TemporaryDirectory() as folder:
            top = folder if name == "." else f"{folder}/in"
            os.makedirs(top, exist_ok=True)
            placed(top, help, seed)
            if name == "link":
                os.symlink("in", f"{folder}/link")
            code, written, said = tally.run(folder, ["--recursive", name], word="check")
            again = tally.run(folder, ["-r", name], word="check")
        before = name if name.endswith("/") else f"{name}/"
        lines = [f"{before}{path}: {line}" for path, _, line, _ in entries(help) if line]
        messages = [f"pcapfile: {before}{path}: {line}" for path, _, _, line in entries(help) if line] + skips(SKIPPED)
        messages.append(streams.REMEDIES[0].rstrip())
        tally.note(
            f"check --recursive {name}",
            code != FAILED and f"it ended with {code}",
            not is_like(written.decode().splitlines(), lines) and f"it wrote {written.decode()}, and not {lines}",
            said.splitlines() != messages and f"it said {said}, and not {messages}",
            again != (code, written, said) and f"-r gave {again}",
        )


def try_words(tally, help):
    """Checks the files that the other words read: those of `check`, each with a member or a column of its own, and their total."""
    read = [path for path, _, line, said in entries(help) if line or (said and "os error" not in said)]
    with tempfile.TemporaryDirectory() as folder:
        placed(f"{folder}/in", help)
        help.put(folder, "last", captures(help)[0][0])
        words = ["-r", "in", "last", "--total"]
        objects = [json.loads(it) for it in tally.run(folder, ["--json", *words], word="info")[1].decode().splitlines()]
        rows = [it.split("\t") for it in tally.run(folder, ["--table", *words], word="info")[1].decode().splitlines()]
        lines = tally.run(folder, words, word="info")[1].decode().splitlines()
        as_is = tally.run(folder, ["--as-is", *words[:-1]], word="check")
        repaired = tally.run(folder, ["--repair", "--json", *words], word="info")[1].decode().splitlines()
    names = [*(f"in/{it}" for it in read), "last"]
    tally.note("info --recursive --json", [it.get("file") for it in objects[:-1]] != names and f"it has {objects}", objects[-1]["files"] != len(names) and f"it ends with {objects[-1]}")
    tally.note("info --recursive --table", [it[0] for it in rows[1:-1]] != names and f"it has {rows}", rows[-1][-1] != f"{len(names)} files" and f"it ends with {rows[-1]}")
    sound = [f"{name}: {line}" for name, line in ((f"in/{path}", line) for path, _, line, _ in entries(help)) if line and not line.endswith(": ")]
    shown = [it for it in lines if it.startswith(("in/", "last: "))]
    tally.note("info --recursive", [it for it in shown if "refused" not in it] != [*sound, f"last: {captures(help)[0][1]}"] and f"it has {shown}")
    checked = [it for it in as_is[1].decode().splitlines() if " packets, " in it or " blocks, " in it]
    named = [it.split(": ")[0] for it in checked]
    wanted = [f"in/{path}" for path, _, line, _ in entries(help) if line and path not in ("data.CAP12", "begun")]
    tally.note("check --as-is --recursive", [it for it in named if it in (*wanted, "last")] != [*wanted, "last"] and f"it has {named}", not as_is[2].endswith(f"{skips(SKIPPED)[0]}\n") and f"it said {as_is[2]}")
    files = [json.loads(it).get("file") for it in repaired]
    tally.note("info --recursive --repair", not set(files) >= {"in/a", "in/torn", "last"} and f"it has {files}")


def ends(tally, name, folder, words, status, written, said, word="check"):
    found = tally.run(folder, words, word=word)
    tally.note(name, found != (status, written, said) and f"it ended with {found}, and not with {(status, written, said)}")


def try_few(tally, help):
    """Checks a folder without --recursive, an empty one, one with a single other file, one file, and names that are not there."""
    (capture, sound), _ = captures(help)
    line = f"in/x: {sound}\n".encode()
    with tempfile.TemporaryDirectory() as folder:
        place(folder, "in/x", capture)
        place(folder, "none/deep/", None)
        place(folder, "texts/a", b"a text")
        os.symlink("in", f"{folder}/link")
        for word, name in (("check", "in"), ("info", "link"), ("info", "in/."), ("check", "/")):
            ends(tally, f"{word} {name}", folder, [name], FAILED, b"", f"pcapfile: {name}: {FOLDER}\n", word)
        ends(tally, "check of a folder and a file", folder, ["in", "in/x"], FAILED, line, f"pcapfile: in: {FOLDER}\n")
        ends(tally, "check --as-is of a folder", folder, ["--as-is", "in"], FAILED, b"", f"pcapfile: in: {FOLDER}\n")
        ends(tally, "check -r of a file", folder, ["-r", "in/x"], DONE, line, "")
        ends(tally, "check -r of a text", folder, ["-r", "texts/a"], AT_FAULT, b"", "pcapfile: texts/a: is a text file, not a capture\n")
        ends(tally, "check -r of standard input", folder, ["-r", "-"], AT_FAULT, b"", "pcapfile: -: is empty\n")
        ends(tally, "check -r of two folders", folder, ["-r", "in", "in"], DONE, line * 2, "")
        ends(tally, "check -r of no file", folder, ["-r", "gone", "in"], FAILED, line, "pcapfile: gone: No such file or directory (os error 2)\n")
        ends(tally, "check -r of an empty folder", folder, ["-r", "none"], DONE, b"", "pcapfile: none: no captures found\n")
        ends(tally, "check -r of a text in a folder", folder, ["-r", "texts", "in"], DONE, line, f"pcapfile: texts: no captures found\n{skips(1)[0]}\n")
        ends(tally, "check -r and -q", folder, ["-r", "-q", "texts", "in"], DONE, line, f"pcapfile: texts: no captures found\n{skips(1)[0]}\n")
        for word in ("list", "convert", "merge"):
            code, _, _ = tally.run(folder, ["-r", "in", "-o", "out"], word=word)
            tally.note(f"{word} -r", code != USAGE and f"it ended with {code}")


def try_names(tally, help):
    """Checks names that are not UTF-8, which have a message each, and names that would act on a terminal."""
    (capture, sound), _ = captures(help)
    with tempfile.TemporaryDirectory() as folder:
        os.mkdir(f"{folder}/in")
        for name in (b"a", b"caf\xe9.pcap", b"\xff", b"z"):
            with open(os.path.join(folder.encode(), b"in", name), "wb") as it:
                it.write(capture)
        said = "pcapfile: in: a name in this folder is not UTF-8, and can't be opened\n" * 2
        ends(tally, "check -r of names that are not UTF-8", folder, ["-r", "in"], FAILED, f"in/a: {sound}\nin/z: {sound}\n".encode(), said)
    with tempfile.TemporaryDirectory() as folder:
        place(folder, "in/a\n\x1b[31m/x", capture)
        ends(tally, "check -r of a name with signs", folder, ["-r", "in"], DONE, f"in/a\\u{{a}}\\u{{1b}}[31m/x: {sound}\n".encode(), "")


def try_depth(tally, help):
    """Checks folders below each other, and one whose path is longer than the system allows."""
    (capture, sound), _ = captures(help)
    for depth in (1, 100, 800):
        with tempfile.TemporaryDirectory() as folder:
            path = "/".join(["in", *"d" * depth, "x"])
            place(folder, path, capture)
            ends(tally, f"check -r of {depth} folders", folder, ["-r", "in"], DONE, f"{path}: {sound}\n".encode(), "")
    with tempfile.TemporaryDirectory() as folder:
        place(folder, "in/z", capture)
        home, long = os.open(f"{folder}/in", os.O_RDONLY), "n" * 200
        for _ in range(25):
            os.mkdir(long, dir_fd=home)
            home, before = os.open(long, os.O_RDONLY, dir_fd=home), home
            os.close(before)
        os.close(home)
        code, written, said = tally.run(folder, ["-r", "in"], word="check")
        tally.note(
            "check -r of a path that is too long",
            code != FAILED and f"it ended with {code}",
            written != f"in/z: {sound}\n".encode() and f"it wrote {written!r}",
            (said.count("\n") != 1 or not said.startswith(f"pcapfile: in/{long}/")) and f"it said {said[:300]!r}",
        )


def try_access(tally, help):
    """Checks that an unreadable folder and an unreadable file are reported, and that the command goes on."""
    (capture, sound), _ = captures(help)
    with outputs.Folder(tally.program) as folder:
        for path, content in (("in/a/x", capture), ("in/b", capture), ("in/c", capture), ("in/d/x", capture), ("in/e", capture)):
            place(folder.path, path, content)
        os.chmod(folder.path, 0o755)
        for name, mode in (("in/a", 0), ("in/b", 0), ("in/d", 0o444)):
            os.chmod(folder.at(name), mode)
        run = folder.run_as_nobody if os.geteuid() == 0 else folder.run
        denied = "".join(f"pcapfile: {it}: Permission denied (os error 13)\n" for it in ("in/a", "in/b", "in/d/x"))
        found = run("check", "-r", "in")
        for name in ("in/a", "in/d"):
            os.chmod(folder.at(name), 0o755)
    wanted = (FAILED, f"in/c: {sound}\nin/e: {sound}\n".encode(), denied)
    tally.note("check -r of unreadable folders and files", found != wanted and f"it ended with {found}, and not with {wanted}")


def peak_of(tally, folder):
    """Returns the peak memory of a check of a folder, in bytes."""
    ran = subprocess.Popen([tally.program, "check", "-r", folder], stdout=subprocess.DEVNULL, stderr=subprocess.DEVNULL)
    _, status, used = os.wait4(ran.pid, 0)
    ran.returncode = os.waitstatus_to_exitcode(status)
    tally.note(f"check -r of {folder}", ran.returncode != DONE and f"it ended with {ran.returncode}")
    return used.ru_maxrss * 1024


def try_memory(tally, help):
    """Checks that the command keeps the names of the folders above a file, and not those of the folders that it has left."""
    (capture, _), _ = captures(help)
    with tempfile.TemporaryDirectory() as top:
        for kind, folders, files in (("one", 1, 1), ("many", 400, 50)):
            for k in range(folders):
                for n in range(files):
                    place(f"{top}/{kind}", f"{k}/{'n' * 200}{n}", capture if n == 0 else b"")
        grown = peak_of(tally, f"{top}/many") - peak_of(tally, f"{top}/one")
    tally.note("check -r, memory of many folders", grown > 1 << 20 and f"it grew by {grown} bytes")


def try_all(tally, help):
    for tries in (try_order, try_words, try_few, try_names, try_depth, try_access, try_memory):
        tries(tally, help)
