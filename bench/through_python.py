"""Measures the ways through Python beside dpkt, scapy and tcpdump: `bench/run --python`."""

import os
import shutil
import subprocess
import sys

from captures import write_pcap, write_pcapng
from instructions import count
from python import FILTER, WAYS
from python_captures import over_ip
from python_picture import draw

TOP = os.path.dirname(os.path.dirname(os.path.abspath(__file__)))

# Each way that has a row, with the package's extension and without, and what else reads captures in Python.
OURS = (
    "iteration",
    "time_ns of each",
    "time_ns and bytes",
    "pairs",
    "columns",
    "to_pandas",
    "to_pandas(decode=True)",
    "filter",
    "open and one packet",
    "random access",
)
# Those of the chart, beside the others.
DRAWN = ("iteration", "pairs", "columns", "to_pandas", "to_pandas(decode=True)")
OTHERS = ("dpkt", "scapy, undecoded")
TCPDUMP = ("tcpdump -r -w /dev/null", "tcpdump -r -w - FILTER")
# Those whose instructions per packet are counted, by the extension, and by dpkt.
COUNTED = ("iteration", "pairs", "columns")
SMALL, LARGE = 10_000, 20_000
# With this, starting takes the same in each run.
SAME = {"PYTHONDONTWRITEBYTECODE": "1", "PYTHONHASHSEED": "0"}


def measure(room, packets, python, rounds, picture=None):
    """Prints processor seconds, instructions per packet and memory of each way. Draws python.svg if the caller names a folder."""
    package = built(room, python)
    captures = [("pcap", f"{room}/mixed.pcap", write_pcap), ("PcapNg", f"{room}/mixed.pcapng", write_pcapng)]
    for _, path, write in captures:
        for name, count in ((path, packets), (path + ".small", SMALL), (path + ".large", LARGE)):
            write(name, count)
            over_ip(name)
    ways = [(f"{way}, {name}", way, with_package(package, name)) for way in OURS for name in ("extension", "ctypes")]
    ways += [(way, way, dict(os.environ, **SAME)) for way in OTHERS]
    print(f"\n{packets} mixed packets of IP; processor seconds, the least of {rounds} rounds in turns; instructions a packet", flush=True)
    least, held = timed(ways, captures, python, rounds)
    if shutil.which("tcpdump"):
        time_tcpdump(least, captures, rounds)
    if picture:
        drawn = [(way, f"{way}, extension") for way in DRAWN] + [(way, way) for way in (*OTHERS, TCPDUMP[0])]
        rows = [(shown, shown in DRAWN, packets / least[name, "pcap"]) for shown, name in drawn if (name, "pcap") in least]
        draw(f"{picture}/python.svg", rows)
    print("\n| Through Python | pcap | PcapNg | pcap, instructions | PcapNg, instructions | MB held |\n|---|---|---|---|---|---|")
    for name, way, paths in [*ways, *((name, None, {}) for name in TCPDUMP)]:
        seconds = [least.get((name, kind)) for kind, _, _ in captures]
        if any(took is None for took in seconds):
            continue
        is_counted = way in COUNTED and paths.get("PCAPFILE_NATIVE") == "1" or way == "dpkt"
        numbers = [counted(way, path, python, paths) if is_counted else None for _, path, _ in captures]
        memory = f"{held[name]:.0f}" if name in held else ""
        cells = [*(f"{took:.4f}" for took in seconds), *("" if it is None else f"{it:.0f}" for it in numbers), memory]
        print(f"| {name} | {' | '.join(cells)} |", flush=True)


def time_tcpdump(least, captures, rounds):
    """Does the same for tcpdump."""
    for name in TCPDUMP:
        for kind, path, _ in captures:
            words = [FILTER if word == "FILTER" else word for word in name.split()[2:]]
            least[name, kind] = min(by_tcpdump(path, words) for _ in range(rounds))


def built(room, python):
    """Builds the package with its extension, compiled as a wheel's is."""
    paths = dict(os.environ, PCAPFILE_PROGRAM="")
    if not os.path.exists(f"{TOP}/portable/pcapfile.c"):
        paths["PCAPFILE_ARCHIVE"] = f"{TOP}/out/libpcapfile.a"
    command = [python, "setup.py", "-q", "build", "--build-base", f"{room}/made", "--build-lib", f"{room}/package"]
    done = subprocess.run(command, cwd=f"{TOP}/python", env=paths, capture_output=True, text=True)
    if done.returncode != 0:
        sys.exit(done.stderr)
    return f"{room}/package"


def with_package(package, name):
    return dict(os.environ, PYTHONPATH=package, PCAPFILE_NATIVE="1" if name == "extension" else "0", **SAME)


def one(way, path, python, paths, rounds=1):
    """Returns what python.py prints about a way: how many packets, and seconds."""
    command = [python, "-B", f"{TOP}/bench/python.py", path, way, str(rounds)]
    told = subprocess.run(command, env=paths, check=True, capture_output=True, text=True).stdout.split()
    return [0 if it == "None" else float(it) for it in told] or None


def timed(ways, captures, python, rounds):
    """Returns the least processor seconds of each way and capture, all in turns, and the peak memory of each way."""
    least, held = {}, {}
    for _ in range(rounds):
        for name, way, paths in ways:
            for kind, path, _ in captures:
                told = one(way, path, python, paths)
                if told is not None:
                    least[name, kind] = min(told[2], least.get((name, kind), told[2]))
                    held[name] = max(told[4] / 1e6, held.get(name, 0))
    return least, held


def counted(way, path, python, paths):
    """Returns the instructions per packet, without those of the start and the end."""
    if not shutil.which("valgrind") or WAYS[way][0] is None:
        return None
    few, many = (count([python, "-B", f"{TOP}/bench/python.py", f"{path}.{size}", way, "1"], path, paths=paths) for size in ("small", "large"))
    return (many[0] - few[0]) / (LARGE - SMALL) if few and many else None


def by_tcpdump(path, words):
    """Returns the processor seconds of a run of tcpdump."""
    before = os.times()
    subprocess.run(["tcpdump", "-r", path, *words], stdout=subprocess.DEVNULL, stderr=subprocess.DEVNULL, check=True)
    after = os.times()
    return after.children_user - before.children_user + after.children_system - before.children_system
