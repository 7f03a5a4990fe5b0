"""Runs both commands of each row of docs/DIFFERENCES.md that has two, and checks that they give the same packets.

The captures have packets of several lengths and times. x.pcapng has two interfaces, and mixed.pcap is not in order of time. A command writes y.pcap, y.pcapng or parts of them, or
it reports. The test compares written packets by a reader made with struct alone, and of reports the number of packets.
"""
import glob
import os
import re
import subprocess
import tempfile

import left_out

SECONDS = 60
START, SECOND = 1700000000000000000, 10**9
ROW = re.compile(r"^\| `([^`]+)` \| `([^`]+)`(?:;[^|]*)? \|$", re.M)
HEADING = "## Coming from "
TOOLS = ("capinfos", "tcpdump", "tshark", "editcap", "mergecap", "reordercap")
COUNT = re.compile(r"(\d+) packets|^Number of packets: +(\d+)|^  Packets: +(\d+)", re.M)
LINES = ("tcpdump", "tshark")
# The names of a table's column that has the number of packets.
COUNTS = ("Number of packets", "packets")
UDP = bytes(12) + b"\x08\0" + bytes.fromhex("450000200000000040110000" + "0a0000010a000002" + "d43100350008")


def captures(help):
    """Returns the files of the commands: three classic captures, and one of blocks. The last packet of most is a duplicate."""
    data = [UDP[:36] + bytes([0, 53 + k % 2]) + UDP[38:] + bytes(k * 9) for k in range(10)]
    data.append(data[8])
    packets = [(START + k * SECOND // 2, len(it), it) for k, it in enumerate(data)]
    later = [(time + SECOND // 4, wire, data) for time, wire, data in packets]
    parts = [help.interface("<", 1, 0, True), help.interface("<", 1, 0, True)]
    parts += [help.enhanced("<", k % 2, time, wire, data) for k, (time, wire, data) in enumerate(packets)]
    made = [help.classic("<", 0xA1B2C3D4, 1000, 1, them)[0] for them in (packets, later)]
    mixed = help.classic("<", 0xA1B2C3D4, 1000, 1, packets[5:] + later + packets[:5])[0]
    return {"x.pcap": made[0], "z.pcap": made[1], "mixed.pcap": mixed, "x.pcapng": help.blocks("<", parts)[0]}


def outcome(help, command, held, program):
    """Returns what a command reports, and the packets that it writes, without the links of interfaces, which differ in form."""
    with tempfile.TemporaryDirectory() as folder:
        for name, content in held.items():
            help.put(folder, name, content)
        os.mkdir(f"{folder}/bin")
        os.symlink(program, f"{folder}/bin/pcapfile")
        env = {**os.environ, "TZ": "UTC", "PATH": f"{folder}/bin:{os.environ['PATH']}"}
        ran = subprocess.run(command, shell=True, cwd=folder, env=env, stdin=subprocess.DEVNULL, capture_output=True, text=True, timeout=SECONDS)
        parts = []
        for name in sorted(glob.glob(f"{folder}/y*")):
            with open(name, "rb") as it:
                parts.append([it[1:] for it in help.packets_of(it.read())])
    return ran.returncode, ran.stdout, parts


def count_of(command, report):
    """Returns how many packets a report has: lines of packets, empty lines after their bytes, or the number that the report states."""
    if {"-x", "--hex"} & set(command.split()):
        return report.splitlines().count("")
    if command.split()[0] in LINES or "list" in command.split():
        return len(report.splitlines())
    if "\t" in report.partition("\n")[0]:
        heads, row = (it.split("\t") for it in report.splitlines()[:2])
        return next((int(it) for head, it in zip(heads, row) if head in COUNTS), None)
    found = COUNT.search(report)
    return found and int(next(it for it in found.groups() if it))


def try_row(tally, help, theirs, ours):
    held = captures(help)
    code, report, parts = outcome(help, ours, held, tally.program)
    other_code, other_report, other_parts = outcome(help, theirs, held, tally.program)
    tally.note(
        f"{theirs} beside {ours}",
        (code, other_code) != (0, 0) and f"they ended with {other_code} and {code}",
        parts != other_parts and f"they wrote {[len(it) for it in other_parts]} and {[len(it) for it in parts]} packets, or others",
        not parts and count_of(ours, report) != count_of(theirs, other_report) and f"they reported {other_report!r} and {report!r}",
        not parts and not count_of(ours, report) and "no packet is reported",
    )


def try_all(tally, help, top):
    with open(f"{top}/docs/DIFFERENCES.md", encoding="utf-8") as it:
        table = it.read().partition(HEADING)[2].partition("\n\n- ")[0]
    rows = [(theirs, ours) for theirs, ours in ROW.findall(table.replace("\\|", "|")) if theirs.split()[0] in TOOLS]
    tally.note("docs/DIFFERENCES.md", len(rows) < 20 and f"it has {len(rows)} rows with two commands")
    for theirs, ours in rows:
        tool = theirs.split()[0]
        if left_out.has(tool, f"{tool} beside pcapfile, in tests/files/run") and ("tcpdump" not in ours or left_out.has("tcpdump", "filters, in tests/files/run")):
            try_row(tally, help, theirs, ours)
