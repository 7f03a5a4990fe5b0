"""Runs tshark on captures. A start of it takes a quarter of a processor second, and a gate tests builds that write the same captures. So
tshark reads the same bytes once if PCAP_KEPT names a folder for its answers, as `.ci/gate` does."""
import collections
import hashlib
import json
import os
import subprocess

SECONDS = 300
# How a run ended: its status, and the bytes that it wrote to standard output and standard error.
Ended = collections.namedtuple("Ended", "returncode stdout stderr")


def read(folder, name, *words):
    """Returns how `tshark -r NAME WORDS..` ends in this folder."""
    with open(os.path.join(folder, name), "rb") as it:
        key = hashlib.sha256(repr((name, words, it.read())).encode()).hexdigest()
    kept = os.path.join(os.environ["PCAP_KEPT"], key) if "PCAP_KEPT" in os.environ else None
    if kept and os.path.exists(kept):
        with open(kept, encoding="ascii") as it:
            status, *written = json.load(it)
        return Ended(status, *map(bytes.fromhex, written))
    ran = subprocess.run(["tshark", "-r", name, *words], cwd=folder, capture_output=True, timeout=SECONDS, env={**os.environ, "TZ": "UTC"})
    if kept:
        with open(f"{kept}.{os.getpid()}", "w", encoding="ascii") as it:
            json.dump((ran.returncode, ran.stdout.hex(), ran.stderr.hex()), it)
        os.replace(it.name, kept)
    return Ended(ran.returncode, ran.stdout, ran.stderr)
