"""Checks outputs of `pcapfile`: links, the access to a replaced file, captures that are read, unfinished files, and names of parts."""
import fcntl
import os
import shutil
import signal
import stat
import struct
import subprocess
import tempfile
import time

DONE, AT_FAULT, USAGE, FAILED = 0, 1, 2, 3
NOBODY, OTHER = 65534, 1234
SECONDS = 60


def packet(seconds, data):
    return struct.pack("<IIII", seconds, 0, len(data), len(data)) + data


def block(kind, body):
    body += bytes(-len(body) % 4)
    return struct.pack("<II", kind, len(body) + 12) + body + struct.pack("<I", len(body) + 12)


HEADER = struct.pack("<IHHiIII", 0xA1B23C4D, 2, 4, 0, 0, 65535, 1)
CAPTURE = HEADER + b"".join(packet(k, bytes([k]) * k) for k in range(1, 6))
TORN = CAPTURE + b"\0" * 5
OTHER_CAPTURE = HEADER + packet(3, b"other")


class Folder:
    """A folder of files, in which the test sees what the program leaves there."""

    def __init__(self, program, **held):
        self.program, self.room = program, tempfile.TemporaryDirectory()
        self.path = self.room.name
        for name, content in held.items():
            self.put(name, content)

    def __enter__(self):
        return self

    def __exit__(self, *_):
        self.room.cleanup()

    def at(self, name):
        return os.path.join(self.path, name)

    def put(self, name, content):
        with open(self.at(name), "wb") as it:
            it.write(content)

    def get(self, name):
        """Returns the bytes of a file, or None if it does not exist."""
        if not os.path.isfile(self.at(name)):
            return None
        with open(self.at(name), "rb") as it:
            return it.read()

    def names(self):
        return sorted(os.listdir(self.path))

    def run(self, *words, **how):
        """Returns the status, the output and the messages."""
        return self.ran(self.program, *words, **how)

    def run_as_nobody(self, *words):
        """Returns the same of another user's run. The program is a copy, since that user may not reach the folder of the program."""
        with tempfile.TemporaryDirectory() as room:
            os.chmod(room, 0o755)
            program = shutil.copy(self.program, room)
            os.chmod(program, 0o755)
            return self.ran(program, *words, user=NOBODY, group=NOBODY, extra_groups=[])

    def ran(self, program, *words, **how):
        ran = subprocess.run([program, *words], cwd=self.path, capture_output=True, timeout=SECONDS, **how)
        return ran.returncode, ran.stdout, ran.stderr.decode()


COPY = ("convert", "--to", "pcap", "in", "-o")
# What a run prints that finds an unfinished file.
DELETED = "pcapfile: out.part: deleted, since no run is writing it\n"


def try_links(tally):
    """Checks that the program follows a link, also one to a missing file, and one over folders."""
    for name, prepare, target in (
        ("a link", lambda it: os.symlink("real", it.at("out")), "real"),
        ("a link to a link", lambda it: (os.symlink("next", it.at("out")), os.symlink("real", it.at("next"))), "real"),
        ("an absolute link", lambda it: os.symlink(it.at("real"), it.at("out")), "real"),
        ("a link that leads nowhere", lambda it: os.symlink("new", it.at("out")), "new"),
        ("a link into a folder", lambda it: (os.mkdir(it.at("deep")), os.symlink("deep/new", it.at("out"))), "deep/new"),
        ("a link out of a folder", lambda it: (os.mkdir(it.at("deep")), os.symlink("../real", it.at("deep/up")), os.symlink("deep/up", it.at("out"))), "real"),
    ):
        with Folder(tally.program, **{"in": CAPTURE, "real": b"old"}) as folder:
            prepare(folder)
            ended = folder.run(*COPY, "out")
            tally.note(
                name,
                ended != (DONE, b"", "") and f"it ended with {ended}",
                not os.path.islink(folder.at("out")) and "the link is gone",
                folder.get(target) != CAPTURE and "the file that it leads to is another one",
                any(it.endswith(".part") for it in folder.names()) and f"it left {folder.names()}",
            )
    with Folder(tally.program, **{"in": CAPTURE}) as folder:
        os.symlink("b", folder.at("a"))
        os.symlink("a", folder.at("b"))
        status, written, said = folder.run(*COPY, "a")
        tally.note("a ring of links", (status, written) != (FAILED, b"") and f"it ended with {status}", not said.startswith("pcapfile: a: ") and said)


def try_standard_output(tally):
    """Checks that /dev/stdout is standard output. A file keeps what it has in front, and remains the same file."""
    with Folder(tally.program, **{"in": CAPTURE, "f": b"before"}) as folder:
        number = os.stat(folder.at("f")).st_ino
        with open(folder.at("f"), "ab") as out:
            ran = subprocess.run([tally.program, *COPY, "/dev/stdout"], cwd=folder.path, stdout=out, stderr=subprocess.PIPE, timeout=SECONDS)
        tally.note(
            "/dev/stdout that is a file",
            (ran.returncode, ran.stderr) != (DONE, b"") and f"it ended with {ran.returncode} {ran.stderr}",
            folder.get("f") != b"before" + CAPTURE and f"the file has {folder.get('f')[:40]}",
            os.stat(folder.at("f")).st_ino != number and "it is another file",
            not os.path.islink("/dev/stdout") and "/dev/stdout is no link any more",
        )
    ran = subprocess.run([tally.program, "convert", "--to", "pcap", "-", "-o", "/dev/stdout"], input=CAPTURE, capture_output=True, timeout=SECONDS)
    tally.note("/dev/stdout that is a pipe", (ran.returncode, ran.stdout) != (DONE, CAPTURE) and f"it ended with {ran.returncode}, {len(ran.stdout)} bytes")


def access(path):
    found = os.stat(path)
    return oct(stat.S_IMODE(found.st_mode)), found.st_uid, found.st_gid


def try_access(tally):
    """Checks that a replaced file keeps its access. If its owner or group can't be kept, nobody gets more access."""
    for mode in (0o600, 0o640, 0o444, 0o664, 0o755):
        with Folder(tally.program, **{"in": CAPTURE, "out": b"old"}) as folder:
            os.chmod(folder.at("out"), mode)
            if os.geteuid() == 0:
                os.chown(folder.at("out"), OTHER, OTHER + 1)
            elif mode == 0o444:
                continue
            before = access(folder.at("out"))
            ended = folder.run(*COPY, "out")
            tally.note(
                f"a file of access {mode:o}",
                ended != (DONE, b"", "") and f"it ended with {ended}",
                access(folder.at("out")) != before and f"it had {before} and has {access(folder.at('out'))}",
                folder.get("out") != CAPTURE and "it was not replaced",
            )
    for mask in (0o022, 0o077):
        with Folder(tally.program, **{"in": CAPTURE}) as folder:
            folder.run(*COPY, "out", preexec_fn=lambda: os.umask(mask))
            tally.note(f"a new file under the mask {mask:o}", access(folder.at("out"))[0] != oct(0o666 & ~mask) and f"it has {access(folder.at('out'))}")
    if os.geteuid() != 0:
        print("the access of another user is not tried, since this one can't change users")
        return
    for mode, kept in ((0o666, 0o666), (0o662, 0o622), (0o642, 0o600), (0o606, 0o600)):
        with Folder(tally.program, **{"in": CAPTURE, "out": b"old"}) as folder:
            os.chmod(folder.path, 0o777)
            os.chmod(folder.at("out"), mode)
            os.chown(folder.at("out"), OTHER, OTHER + 1)
            ended = folder.run_as_nobody(*COPY, "out")
            wanted = (DONE, b"", "") if mode & 2 else None
            tally.note(
                f"a file of access {mode:o} that another user replaces",
                wanted and ended != wanted and f"it ended with {ended}",
                access(folder.at("out")) != (oct(kept), NOBODY, NOBODY) and f"it has {access(folder.at('out'))}",
            )
    with Folder(tally.program, **{"in": CAPTURE, "out": b"old"}) as folder:
        os.chmod(folder.path, 0o777)
        os.chmod(folder.at("out"), 0o444)
        os.chown(folder.at("out"), NOBODY, NOBODY)
        status, _, said = folder.run_as_nobody(*COPY, "out")
        tally.note(
            "a file that may only be read",
            status != FAILED and f"it ended with {status}",
            said != "pcapfile: out: Permission denied (os error 13)\n" and said,
            folder.get("out") != b"old" and "it was replaced",
            folder.names() != ["in", "out"] and f"it left {folder.names()}",
        )


def try_inputs(tally):
    """Checks that no spelling of a name destroys an input."""
    spellings = ["in", "./in", "../{}/in", "{}/in", "link", "hard", "here/in", "here/link", "absolute"]
    words = [
        ("convert", ["convert", "in", "-o"]),
        ("convert, repaired", ["convert", "--repair", "in", "-o"]),
        ("cut", ["cut", "in", "--packets", "1", "-o"]),
        ("join", ["join", "in", "other", "-o"]),
        ("merge", ["merge", "in", "other", "-o"]),
        ("merge, second", ["merge", "other", "in", "-o"]),
        ("sort", ["sort", "in", "-o"]),
        ("repair", ["repair", "in", "-o"]),
    ]
    for name, asked in words:
        for spelling in spellings:
            for content in (CAPTURE, TORN):
                with Folder(tally.program, **{"in": content, "other": OTHER_CAPTURE}) as folder:
                    os.symlink("in", folder.at("link"))
                    os.symlink(".", folder.at("here"))
                    os.link(folder.at("in"), folder.at("hard"))
                    os.symlink(folder.at("here/in"), folder.at("absolute"))
                    out = folder.path + "/in" if spelling.startswith("{}") else spelling.format(os.path.basename(folder.path))
                    before = folder.names()
                    status, _, said = folder.run(*asked, out)
                    tally.note(
                        f"{name} into its input as {spelling}, {len(content)} bytes",
                        status != FAILED and f"it ended with {status}",
                        said != f"pcapfile: {out}: is one of the inputs; choose another name for the output\n" and said,
                        folder.get("in") != content and "the input is lost",
                        folder.names() != before and f"it left {folder.names()}",
                    )
    with Folder(tally.program, **{"in": TORN, "other": OTHER_CAPTURE}) as folder:
        for name, asked in (("merge of standard input", ["merge", "-", "other", "-o", "./in"]), ("cut of standard input", ["cut", "-", "-o", "in"])):
            with open(folder.at("in"), "rb") as given:
                status, _, said = folder.run(*asked, stdin=given)
            tally.note(name, status != FAILED and f"it ended with {status}: {said}", folder.get("in") != TORN and "the input is lost")
        with open(folder.at("in"), "ab") as out:
            ran = subprocess.run([tally.program, "cut", "in", "-o", "-"], cwd=folder.path, stdout=out, stderr=subprocess.PIPE, timeout=SECONDS)
        tally.note("an input that standard output is appended to", ran.returncode != FAILED and f"it ended with {ran.returncode}", folder.get("in") != TORN and "the input has other bytes")
    with Folder(tally.program, **{"out.part": CAPTURE}) as folder:
        status, _, said = folder.run("convert", "out.part", "-o", "out")
        tally.note(
            "an unfinished file that is read",
            (status, said) != (FAILED, "pcapfile: out.part: is one of the inputs; choose another name for the output\n") and f"it ended with {status}: {said}",
            folder.get("out.part") != CAPTURE and "it is lost",
        )


def try_parts(tally):
    """Checks that parts get only names of files beside the named one, and that the program refuses any other output for them."""
    for way in (("--every", "1"), ("--bytes", "1"), ("--parts", "2")):
        for out in ("-", "here/", "here", ".", "..", "/dev/null", "/dev/none", "link", "/dev/shm/../none"):
            with Folder(tally.program, **{"in": CAPTURE}) as folder:
                os.mkdir(folder.at("here"))
                os.symlink("/dev/null", folder.at("link"))
                devices = sorted(os.listdir("/dev"))
                status, written, said = folder.run("cut", *way, "in", "-o", out)
                tally.note(
                    f"parts by {way[0]} of {out}",
                    status != USAGE and f"it ended with {status}",
                    written and f"it wrote {written}",
                    not said.startswith(f"error: {out}: ") and said,
                    folder.names() != ["here", "in", "link"] and f"it left {folder.names()}",
                    os.listdir(folder.at("here")) and "it left a file in the folder",
                    sorted(os.listdir("/dev")) != devices and "it left a file among devices",
                )
    with Folder(tally.program, **{"x-00002.pcap": CAPTURE}) as folder:
        status, _, said = folder.run("cut", "./x-00002.pcap", "--every", "1", "-o", "x.pcap")
        tally.note(
            "a part that is the capture itself",
            (status, said) != (FAILED, "pcapfile: x-00002.pcap: is one of the inputs; choose another name for the output\n") and f"it ended with {status}: {said}",
            folder.get("x-00002.pcap") != CAPTURE and "the capture is lost",
        )
    with Folder(tally.program, **{"in": CAPTURE}) as folder:
        for given in ("pipe", "/dev/stdin", "-"):
            if given == "pipe":
                os.mkfifo(folder.at("pipe"))
                subprocess.Popen(["sh", "-c", "cat in > pipe"], cwd=folder.path, stderr=subprocess.DEVNULL)
            status, _, said = folder.run("cut", given, "--parts", "2", "-o", "x.pcap", **({"input": CAPTURE} if given != "pipe" else {}))
            tally.note(f"parts of equal length of {given}", status != USAGE and f"it ended with {status}", "--parts needs a file" not in said and said)
            tally.note(f"no parts of {given}", any(it.startswith("x") for it in folder.names()) and f"it left {folder.names()}")


def try_unfinished(tally):
    """Checks that a run deletes what an ended run left, and reports that. It leaves the files that another run writes, and
    files that no run made."""
    with Folder(tally.program, **{"in": CAPTURE, "out.part": b"left", "out": b"old"}) as folder:
        ended = folder.run(*COPY, "out")
        tally.note(
            "an unfinished file of a run that was ended",
            ended != (DONE, b"", DELETED) and f"it ended with {ended}",
            folder.names() != ["in", "out"] and f"it left {folder.names()}",
            folder.get("out") != CAPTURE and "it was not replaced",
        )
    with Folder(tally.program, **{"in": CAPTURE, "victim": b"victim"}) as folder:
        os.link(folder.at("victim"), folder.at("out.part"))
        ended = folder.run(*COPY, "out")
        tally.note("an unfinished file with another name", ended != (DONE, b"", DELETED) and f"it ended with {ended}", folder.get("victim") != b"victim" and "the other name is lost")
    for name, make in (
        ("a link", lambda at: os.symlink("victim", at)),
        ("a link that leads nowhere", lambda at: os.symlink("none", at)),
        ("a folder", os.mkdir),
        ("a pipe", os.mkfifo),
    ):
        with Folder(tally.program, **{"in": CAPTURE, "victim": b"victim", "out": b"old"}) as folder:
            make(folder.at("out.part"))
            before = folder.names()
            status, _, said = folder.run(*COPY, "out")
            tally.note(
                f"{name} where the unfinished file stands",
                status != FAILED and f"it ended with {status}",
                said != "pcapfile: out.part: already exists; move it away, because out is first written under this name\n" and said,
                (folder.get("victim"), folder.get("out"), folder.names()) != (b"victim", b"old", before) and "another file was changed",
            )
    with Folder(tally.program, **{"in": CAPTURE, "out.part": b"held"}) as folder:
        with open(folder.at("out.part"), "rb") as held:
            fcntl.flock(held, fcntl.LOCK_EX)
            status, _, said = folder.run(*COPY, "out")
        tally.note(
            "a file that another run writes",
            (status, said) != (FAILED, "pcapfile: out.part: another run is writing it\n") and f"it ended with {status}: {said}",
            folder.get("out.part") != b"held" and "it was changed",
        )


def heed_signals():
    """Makes the program heed signals. A shell makes what it starts in the background ignore SIGINT, and so this test and its children."""
    for number in (signal.SIGINT, signal.SIGTERM, signal.SIGHUP):
        signal.signal(number, signal.SIG_DFL)


def begun(folder):
    """Starts a run that has begun to write OUT and waits for more of its input."""
    words = [folder.program, "convert", "--to", "pcap", "-", "-o", "out"]
    run = subprocess.Popen(words, cwd=folder.path, stdin=subprocess.PIPE, stderr=subprocess.PIPE, preexec_fn=heed_signals)
    run.stdin.write(CAPTURE)
    run.stdin.flush()
    for _ in range(6000):
        if "out.part" in folder.names():
            return run
        time.sleep(0.01)
    raise TimeoutError("the run made no out.part in a minute")


def try_ended_runs(tally):
    """Checks that a run spares OUT if a signal ends it, and that the next run writes OUT. Of two runs at once the second one gives up."""
    for number in (signal.SIGINT, signal.SIGTERM, signal.SIGHUP, signal.SIGKILL):
        with Folder(tally.program, **{"in": CAPTURE, "out": b"old"}) as folder:
            run = begun(folder)
            second = folder.run(*COPY, "out")
            run.send_signal(number)
            run.communicate()
            spared = folder.get("out")
            ended = folder.run(*COPY, "out")
            tally.note(
                f"a run that {number.name} ends",
                second != (FAILED, b"", "pcapfile: out.part: another run is writing it\n") and f"the second run ended with {second}",
                run.returncode != -number and f"it ended with {run.returncode}",
                spared != b"old" and "the output was changed",
                ended != (DONE, b"", DELETED) and f"the next one ended with {ended}",
                (folder.get("out"), folder.names()) != (CAPTURE, ["in", "out"]) and f"the next one left {folder.names()}",
            )


def try_long_names(tally):
    """Checks that names up to the system's longest one work, and that a longer one gives a message."""
    for length in (250, 251, 254, 255):
        for sign in ("a", "é"):
            name = (sign * 255).encode()[:length].decode(errors="ignore")
            with Folder(tally.program, **{"in": CAPTURE}) as folder:
                ended = folder.run(*COPY, name)
                tally.note(f"a name of {len(name.encode())} bytes", ended != (DONE, b"", "") and f"it ended with {ended}", folder.names() != sorted([name, "in"]) and "it left another file")
    with Folder(tally.program, **{"in": CAPTURE}) as folder:
        status, _, said = folder.run(*COPY, "a" * 256)
        tally.note("a name that is too long", (status, said) != (FAILED, f"pcapfile: {'a' * 256}: File name too long (os error 36)\n") and f"it ended with {status}: {said}")


def try_merges(tally):
    """Checks that a merge replaces nothing if it can read no input. A merge keeps the length of the frame check sequence."""
    for names in (["/dev/null"], ["text"], ["/dev/null", "text"]):
        with Folder(tally.program, text=b"this is no capture of packets", out=b"old") as folder:
            status, _, said = folder.run("merge", *names, "-o", "out")
            tally.note(f"a merge of {names}", status != AT_FAULT and f"it ended with {status}: {said}", folder.get("out") != b"old" and "the output was replaced", folder.names() != ["out", "text"] and f"it left {folder.names()}")
    # Ethernet, with 4 bytes of frame check sequence, and with all reserved bits of the field
    large = struct.pack("<IHHiIII", 0xA1B23C4D, 2, 4, 0, 0, 65535, 0x2FFF0001) + packet(1, b"fcs")
    section = block(0x0A0D0D0A, struct.pack("<IHHq", 0x1A2B3C4D, 1, 0, -1))
    described = block(1, struct.pack("<HHIHHB3xHHB3xHH", 1, 0, 65535, 9, 1, 9, 13, 1, 32, 0, 0))
    stored = block(6, struct.pack("<IIIII", 0, 0, 10**9, 3, 3) + b"fcs")
    with Folder(tally.program, large=large) as folder:
        said = "pcapfile: large: reserved bits beside the link type are left out\n"
        ended = folder.run("merge", "large", "-o", "out")
        tally.note(
            "a merge with the length of a check sequence",
            ended != (DONE, b"", said) and f"it ended with {ended}",
            folder.get("out") != section + described + stored and f"it has {folder.get('out')}",
        )
        ended = folder.run("convert", "large", "-o", "converted")
        tally.note(
            "a conversion with the length of a check sequence",
            ended != (DONE, b"", said) and f"it ended with {ended}",
            folder.get("converted") != section + described + stored and f"it has {folder.get('converted')}",
        )


def try_all(tally):
    for tries in (try_links, try_standard_output, try_access, try_inputs, try_parts, try_unfinished, try_ended_runs, try_long_names, try_merges):
        tries(tally)
