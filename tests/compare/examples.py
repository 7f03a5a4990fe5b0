"""Compares the example programs and `pcapfile convert` with tcpdump, tshark, capinfos and editcap, over captures: `compare(files, folder)`.

An example must write what these tools show for the same capture. If an example refuses a capture, it must have written a beginning of that.
The test does not compare captures that a tool refuses, and conversions that leave packets out.
"""
import os
import re
import subprocess
import tempfile

import left_out

TOP = os.path.dirname(os.path.dirname(os.path.dirname(os.path.abspath(__file__))))
TOOLS = ("tcpdump", "tshark", "capinfos", "editcap")
SECONDS = 600
PROGRAMS = ("pcapfile", "example_dissect", "example_feed", "example_replay")
# The offset after the snaplen of a classic capture, and the message about packets that a conversion leaves out.
LINK, LEFT_OUT = 20, re.compile(rb"(\d+) packets? ha(?:ve|s) no place there")

SAME, BEGINNING, DIFFERENT = range(3)


def output(*words, stdin=None):
    return subprocess.run(words, input=stdin, capture_output=True, timeout=SECONDS)


def fields(path, *names, options=()):
    """Returns for each packet the first value of each field, as tshark has it under some options."""
    words = [*options, *(word for name in names for word in ("-e", name))]
    ran = output("tshark", "-n", "-r", path, "-o", "ip.defragment:FALSE", "-T", "fields", "-E", "separator=|", "-E", "occurrence=f", *words)
    return [line.split("|") for line in ran.stdout.decode().splitlines()]


def carried(time):
    """Returns a time of tshark's with the microseconds that pass a second carried, which tshark doesn't do."""
    seconds, nanoseconds = time.split(".")
    more, rest = divmod(int(nanoseconds), 10**9)
    return f"{int(seconds) + more}.{rest:09}"


def feed(path):
    return "".join(f"{carried(time)} {size} bytes\n" for time, size in fields(path, "frame.time_epoch", "frame.cap_len"))


def replay(path):
    rows = fields(path, "frame.time_relative", "frame.cap_len")
    return "".join(f"{'0.000000000' if time.startswith('-') else time} {size} bytes\n" for time, size in rows)


def ends(names, ports, protocol):
    """Returns a packet's addresses and ports as text."""
    (from_name, to_name), (from_port, to_port) = names, ports
    if protocol not in ("6", "17"):
        return f"{from_name} > {to_name} protocol {protocol}"
    name = "TCP" if protocol == "6" else "UDP"
    if not (from_port and to_port):
        return f"{from_name} > {to_name} {name}, no ports"
    from_name, to_name = (f"[{name}]" if ":" in name else name for name in names)
    return f"{from_name}:{from_port} > {to_name}:{to_port} {name}"


def dissect(path):
    lines = []
    names = ("frame.number", "frame.time_epoch", "eth.type", "ip.src", "ip.dst", "ip.proto", "ipv6.src", "ipv6.dst", "ipv6.nxt")
    for row in fields(path, *names, "tcp.srcport", "tcp.dstport", "udp.srcport", "udp.dstport"):
        number, time, kind, *ip = row[:9]
        number = f"{number} {carried(time)}"
        four, six, tcp, udp = ip[:3], ip[3:6], row[9:11], row[11:13]
        shown = {"0x0800": four, "0x86dd": six}.get(kind)
        if not (shown and all(shown)):
            lines.append(f"{number} no IP\n")
        else:
            ports = tcp if shown[2] == "6" else udp
            lines.append(f"{number} {ends(shown[:2], ports, shown[2])}\n")
    return "".join(lines)


def is_pcapng_file(path):
    with open(path, "rb") as it:
        return it.read(4) == b"\n\r\r\n"


def convert(path):
    """Returns the packets as editcap converts them."""
    with tempfile.TemporaryDirectory() as folder:
        converted = os.path.join(folder, "converted.pcap")
        ran = output("editcap", "-F", "nsecpcap", path, converted)
        if ran.returncode:
            return None
        with open(converted, "rb") as it:
            return it.read()[LINK:]


def program(name):
    return os.path.join(TOP, "crates", name, "out", name)


def run_example(name, path, *words):
    with open(path, "rb") as it:
        ran = output(program(name), *words, stdin=it.read())
    return ran.stdout, ran.returncode == 0


def converted(path, to):
    """Returns what `pcapfile convert` writes for a capture in this format, whether it takes the whole capture, and how many packets it
    leaves out."""
    with open(path, "rb") as it:
        ran = output(program("pcapfile"), "convert", "--to", to, "-", "-o", "-", stdin=it.read())
    left_out = LEFT_OUT.search(ran.stderr)
    return ran.stdout, ran.returncode == 0, int(left_out[1]) if left_out else 0


def verdict(written, is_accepted, wanted):
    if written == wanted and is_accepted:
        return SAME
    return BEGINNING if not is_accepted and wanted.startswith(written) else DIFFERENT


def text_verdict(name, path, wanted, *words):
    written, is_accepted = run_example(name, path, *words)
    return verdict(written.decode(), is_accepted, wanted)


def lines_verdict(path):
    """Returns whether example_feed has as many lines as tcpdump counts packets, if example_feed and tcpdump both take the capture."""
    written, is_accepted = run_example("example_feed", path)
    counted_by = output("tcpdump", "--count", "-r", path)
    if counted_by.returncode or not is_accepted:
        return BEGINNING
    return SAME if counted_by.stdout.split()[0] == b"%d" % written.count(b"\n") else DIFFERENT


def verdicts(path):
    """Yields each example that takes this capture, with its verdict."""
    link = output("capinfos", "-T", "-r", "-E", path).stdout.decode().strip().split("\t")[-1]
    if is_pcapng_file(path):
        wanted = convert(path)
        written, is_accepted, left_out = converted(path, "pcap")
        if wanted is not None and left_out == 0:
            yield "pcapfile convert", verdict(written[LINK:], is_accepted, wanted)
    else:
        yield "example_feed", text_verdict("example_feed", path, feed(path))
        yield "example_feed, lines", lines_verdict(path)
        yield "example_replay", text_verdict("example_replay", path, replay(path), "0")
        if link == "ether":
            yield "example_dissect", text_verdict("example_dissect", path, dissect(path))


def compare(files, folder):
    """Prints each difference and a line of sums. Returns whether there is no difference."""
    missing = [name for name in PROGRAMS if not os.path.exists(program(name))]
    if missing:
        print(f"the examples were not compared: {' and '.join(missing)} must be built first")
        return False
    if not all([left_out.has(tool, f"the examples beside {tool}, in tests/compare") for tool in TOOLS]):
        return True
    counts = [0, 0, 0]
    for path in files:
        for name, found in verdicts(path):
            counts[found] += 1
            if found == DIFFERENT:
                print(f"{os.path.relpath(path, folder)}: {name}")
    same, beginning, different = counts
    print(f"examples: {same} answers are the same, {beginning} are a beginning that ends at a refusal, {different} differ")
    return same > 0 and different == 0
