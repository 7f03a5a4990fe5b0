"""Checks how often `pcapfile` reads its input and writes its output. At a terminal one end of the input is enough, also after many
reads. The program writes no more often than its buffer needs, whatever it leaves out."""
import os
import socket
import subprocess
import tempfile
import termios

import ample

SECONDS, BUFFER = 20, 65536
# The character that ends the input at a terminal. No capture here has it.
END = 0xFE
WORDS = (
    ["check"], ["check", "--as-is"], ["info"], ["info", "--json"], ["info", "--table"], ["info", "--repair"], ["list"], ["list", "--utc"], ["list", "--as-is"],
    ["convert", "-o", "-"], ["convert", "--to", "pcap", "-o", "-"], ["convert", "--to", "pcapng", "-o", "-"], ["cut", "-o", "-"],
    ["cut", "--repair", "-o", "-"], ["join", "-o", "-"], ["merge", "-o", "-"], ["merge", "--repair", "-o", "-"], ["repair", "-o", "-"],
)


def terminal():
    """Returns a terminal, and the descriptor that types into it. The terminal passes each byte on unchanged, except the one that ends the input."""
    typed, input_ = os.openpty()
    mode = termios.tcgetattr(input_)
    mode[:4] = 0, 0, mode[2], termios.ICANON
    mode[6] = [bytes([os.fpathconf(input_, "PC_VDISABLE")])] * len(mode[6])
    mode[6][termios.VEOF] = bytes([END])
    termios.tcsetattr(input_, termios.TCSANOW, mode)
    return typed, input_


def ends_at_one_end(tally, words, capture):
    """Checks that a word ends with the end of its input at a terminal, as it does at the end of a pipe."""
    piped = subprocess.run([tally.program, *words, "-"], input=capture, capture_output=True, timeout=SECONDS)
    typed, input_ = terminal()
    with subprocess.Popen([tally.program, *words, "-"], stdin=input_, stdout=subprocess.PIPE, stderr=subprocess.PIPE) as ran:
        os.close(input_)
        # The first end only passes on what was typed before.
        os.write(typed, capture + bytes([END, END]))
        try:
            ended = *ran.communicate(timeout=SECONDS), ran.returncode
        except subprocess.TimeoutExpired:
            ran.kill()
            ended = None
    os.close(typed)
    tally.note(
        f"{' '.join(words)} at a terminal",
        ended is None and "it asks again behind the end",
        ended and ended != (piped.stdout, piped.stderr, piped.returncode) and f"it gave {str(ended)[-300:]}",
        piped.returncode and f"a pipe ends with {piped.returncode}",
    )


def try_ends(tally, help):
    packets = [(k, 9, b"packet") for k in range(20)]
    blocks, _ = help.blocks("<", [help.interface("<", 1), *(help.enhanced("<", 0, *it) for it in packets)])
    for capture in (ample.classic(packets), blocks):
        for words in WORDS:
            ends_at_one_end(tally, words, capture)


def writes(tally, words, files):
    """Returns how a run ended, and the bytes of each write to its standard output."""
    left, right = socket.socketpair(socket.AF_UNIX, socket.SOCK_SEQPACKET)
    with tempfile.TemporaryDirectory() as folder:
        for name, content in files.items():
            with open(f"{folder}/{name}", "wb") as it:
                it.write(content)
        with left, subprocess.Popen([tally.program, *words], cwd=folder, stdout=right, stderr=subprocess.DEVNULL) as ran:
            right.close()
            each = list(iter(lambda: left.recv(16 * BUFFER), b""))
    return ran.returncode, each


def try_writes(tally, help):
    """Checks that the program writes captures of several buffers by whole buffers. Every second packet has another time."""
    packets = [(10**9 * (1000 + k % 2), 300, bytes([k % 256]) * 300) for k in range(2000)]
    blocks, _ = help.blocks("<", [help.interface("<", 1), *(help.enhanced("<", 0, time // 1000, wire, data) for time, wire, data in packets)])
    held = {"in": ample.classic(packets), "blocks": blocks}
    for words in (
        ["cut", "in"], ["cut", "--from", "1001", "in"], ["cut", "--repair", "--from", "1001", "in"], ["cut", "--from", "1001", "blocks"],
        ["join", "in", "in"], ["join", "blocks"], ["merge", "in", "in"], ["merge", "in", "blocks"], ["repair", "in"], ["repair", "blocks"],
        ["convert", "in"], ["convert", "blocks"],
    ):
        status, each = writes(tally, [*words, "-o", "-"], held)
        most = sum(map(len, each)) // (BUFFER // 2) + 2
        tally.note(
            f"writes of {' '.join(words)}",
            status and f"it ended with {status}",
            not 100000 < sum(map(len, each)) and f"it wrote {sum(map(len, each))} bytes",
            len(each) > most and f"it wrote {sum(map(len, each))} bytes in {len(each)} writes, and not in {most}",
        )


def try_all(tally, help):
    for tries in (try_ends, try_writes):
        tries(tally, help)
