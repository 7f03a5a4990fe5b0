"""Functions that run the program `pcapfile` on files: the program inside the package, or an installed one."""

import json
import os
import re
import shutil
import subprocess
import sys
import tempfile
import warnings
from collections.abc import Iterable
from pathlib import Path
from typing import Any, Dict, List, NoReturn, Optional, Sequence, Union

from . import _arguments
from ._errors import CaptureError, CaptureWarning
from ._filter import Filter, Moment, nanoseconds_of
from ._open import open as open_capture

Name = Union[str, bytes, "os.PathLike[Any]"]

# The place of the program in a wheel.
_CARRIED = Path(__file__).parent / "bin" / "pcapfile"

# The program's exit statuses other than 0.
_REFUSED, _NOT_UNDERSTOOD, _NO_MEMORY = 1, 2, 4

# The exit statuses of a repair that wrote its output: the capture was sound, is repaired, or is repaired with guesses.
_REPAIRS = 0, 5, 6

# The beginning of each line that the program prints, the beginning of its hint for users of the command line, and a part of the line on a
# sound capture.
_HEAD, _HINT, _SOUND = "pcapfile: ", "--repair reads on", ": no damage found; "

# The most lines that a warning shows.
_SHOWN = 10


class ProgramError(CaptureError):
    """The program found a truncated or malformed capture. The text is the program's message. `offset` is None if the message has
    no place, or several.

    After a fault the output of `merge` has the packets of all captures up to there, and the numbered files of `cut` before the
    fault stay. Any other output stays unchanged.

        >>> try:
        ...     pcapfile.convert("broken.pcap", "converted.pcapng")
        ... except pcapfile.ProgramError as error:
        ...     print(error)
        broken.pcap: cut short at byte 24
    """

    # Every other CaptureError has a place, and callers of those need not ask for None.
    offset: Optional[int]  # type: ignore[assignment]

    def __init__(self, message: str) -> None:
        Exception.__init__(self, message)
        places = re.findall(r": (?:cut short|refused) at byte (\d+)", message)
        self.offset, self.status = int(places[0]) if len(places) == 1 else None, _REFUSED
        self._made_of = (message,)


def program() -> str:
    """Returns the path of the program: the one at PCAPFILE_PROGRAM, in the package, or on the PATH. It raises a FileNotFoundError
    if there is none."""
    named = os.environ.get("PCAPFILE_PROGRAM")
    if named:
        return named
    found = str(_CARRIED) if _CARRIED.exists() else shutil.which("pcapfile")
    if found is None:
        raise FileNotFoundError(f"the program pcapfile is neither at {_CARRIED} nor on the PATH; set PCAPFILE_PROGRAM to its path")
    return found


def main() -> NoReturn:
    """Replaces the process by the program, with the arguments of the command line."""
    where = None
    try:
        where = program()
        os.execv(where, ["pcapfile", *sys.argv[1:]])
    except OSError as error:
        print("pcapfile:", error if where is None else f"{where}: {error}", file=sys.stderr)
        sys.exit(3)


def info(file: Name, *, repaired: bool = False) -> Dict[str, Any]:
    """Returns facts of a capture in a file, as `pcapfile info --json` prints them: its packets, bytes, times, rates, sizes and
    interfaces.

    Decimal fractions are texts, so that they lose no digits. `check` says whether the capture is whole. `status` is 0 for a whole
    capture, and 1 for a truncated or malformed one; the other values then describe the packets before the fault. With
    `repaired=True` they describe the capture that `repair` would write.

    It raises an OSError if the file cannot be read.

        >>> pcapfile.info("capture.pcap")["packets"]
        1
    """
    done = _run(["info", "--json", *_repaired(repaired), "--", _named("file", file)])
    if done.returncode not in (0, _REFUSED) or not done.stdout:
        raise _error_of(done.returncode, _lines(done.stderr))
    _warn(_lines(done.stderr), 1)
    told: Dict[str, Any] = json.loads(done.stdout)
    return told


def merge(files: Sequence[Name], out: Name, *, repaired: bool = False) -> List[str]:
    """Merges captures of either format by time into one PcapNg capture. Every interface keeps a description of its own. If the
    name of `out` ends in .pcap, .cap or .dmp, the output is a classic capture, as `convert` makes it.

    Like `cut`, `convert` and `repair`, it returns the program's messages about what it left out or changed, which is mostly an
    empty list. It also issues them as a CaptureWarning.

    It raises a ProgramError for a truncated or malformed capture, and `out` then has everything before the fault. It raises
    an OSError for a file that cannot be read or written, and then `out` stays unchanged. With `repaired=True` it reads damaged
    captures as `repair` does.

        >>> pcapfile.merge(["monday.pcap", "tuesday.pcapng"], "both.pcapng")
        []
    """
    if _arguments.is_name(files) or not isinstance(files, Iterable):
        raise _arguments.wrong_type("files", files, "a sequence of names")
    named = [_named("files", file) for file in files]
    if not named:
        raise ValueError("files is empty, and must be at least one name")
    return _written(["merge", *_repaired(repaired)], named, out)


def cut(
    file: Name,
    out: Name,
    *,
    packets: Union[slice, range, None] = None,
    since: Optional[Moment] = None,
    until: Optional[Moment] = None,
    expression: Optional[str] = None,
    min_length: Optional[int] = None,
    max_length: Optional[int] = None,
    interface: Optional[int] = None,
    every: Optional[int] = None,
    parts: Optional[int] = None,
    at_least: Optional[int] = None,
    repaired: bool = False,
) -> List[str]:
    """Writes a part of a capture, or the whole capture in several files. It copies the header and the packets byte for byte.

    To write one part, give `packets`, a slice or a range of numbers from 0 on, as `indexed` numbers them; a range of times, from
    `since` to before `until`, as for `filter`; an `expression` of tcpdump, which libpcap compiles; the least or the greatest length
    on the wire; or the number of an `interface`. The part has the packets that pass all tests.

    To write several files, give `every`, the number of packets in a file, `parts`, the number of equal files, or `at_least`, the
    least number of bytes in a file. The names of the files have numbers: `out.pcap` becomes `out-00001.pcap` and so on.

    It returns messages like `merge`. It raises a ProgramError for a truncated or malformed capture. Then a single `out` stays
    unchanged, and the numbered files before the fault stay. It raises a ValueError for an impossible choice.

        >>> pcapfile.cut("capture.pcap", "first.pcap", packets=slice(10))
        []
        >>> pcapfile.cut("capture.pcap", "hour.pcap", since=1335956400, until=1335960000)
        []
    """
    words = ["cut", *_repaired(repaired)]
    if packets is not None:
        words.append(f"--packets={_numbers(packets)}")
    for word, name, moment in (("from", "since", since), ("until", "until", until)):
        if moment is not None:
            words.append(f"--{word}={_seconds(nanoseconds_of(name, moment) or 0)}")
    for word, name, count in (("min-len", "min_length", min_length), ("max-len", "max_length", max_length), ("interface", "interface", interface)):
        if count is not None:
            words.append(f"--{word}={_arguments.whole(name, count, 0)}")
    for word, name, count in (("every", "every", every), ("parts", "parts", parts), ("bytes", "at_least", at_least)):
        if count is not None:
            words.append(f"--{word}={_arguments.whole(name, count, 1)}")
    if expression is None:
        return _written(words, [_named("file", file)], out)
    with tempfile.NamedTemporaryFile("w") as compiled:
        compiled.write(_compiled(expression, file))
        compiled.flush()
        return _written([*words, f"--bpf={compiled.name}"], [_named("file", file)], out)


def _compiled(expression: str, file: Name) -> str:
    """Returns an expression as a program for the packets of a capture. It raises a ValueError if their link types differ."""
    chosen = Filter(expression)
    with open_capture(file) as capture:
        links = set(capture.link_types)
    if len(links) != 1:
        raise ValueError(f"expression is for one link type, and the capture has {len(links)}")
    return chosen.text(links.pop())


def convert(file: Name, out: Name, *, to: Optional[str] = None, repaired: bool = False) -> List[str]:
    """Converts a capture to the other format, or to the format `to`, which is "pcap" or "pcapng". If the capture has that format
    already, the output is a copy. It returns messages like `merge`. It raises a ProgramError for a truncated or malformed
    capture, and then `out` stays unchanged.

        >>> pcapfile.convert("capture.pcap", "capture.pcapng")
        []
    """
    words = [] if to is None else [f"--to={_arguments.one_of('to', to, ('pcap', 'pcapng'))}"]
    return _written(["convert", *_repaired(repaired), *words], [_named("file", file)], out)


def repair(file: Name, out: Name, *, header: Optional[str] = None, guess: bool = False, link: Optional[int] = None) -> List[str]:
    """Writes what can be read of a damaged capture as a capture that breaks no rule. It returns a message, with its place, for
    each packet and block that it changed or left out. The last message counts the packets or blocks that were kept, repaired,
    guessed and left out, and the skipped bytes. There is no message if the capture is sound. It raises a ProgramError if the header
    is malformed.

    If a classic capture has lost its header, give it as `header`, such as "little,micro,1": the byte order, the resolution and the
    link type. With `guess=True` the program chooses the byte order and resolution with the longest run of packets; the link type is
    then `link`, or Ethernet.

        >>> pcapfile.repair("capture.pcap", "sound.pcap")
        []
    """
    words = ["repair", *["--guess"] * guess]
    if not isinstance(header, (str, type(None))):
        raise _arguments.wrong_type("header", header, "a text")
    if header is not None:
        words.append(f"--header={header}")
    if link is not None:
        words.append(f"--link={_arguments.whole('link', link, 0)}")
    return _written(words, [_named("file", file)], out, _REPAIRS)


def _written(words: List[str], files: Sequence[Name], out: Name, statuses: Sequence[int] = (0,)) -> List[str]:
    done = _run([*words, b"--output=" + os.fsencode(_named("out", out)), "--", *files])
    lines = _lines(done.stderr)
    if done.returncode not in statuses:
        raise _error_of(done.returncode, lines)
    _warn(lines, 2)
    return lines


def _run(words: List[Any]) -> "subprocess.CompletedProcess[bytes]":
    given = [b"pcapfile", *map(os.fsencode, words[:1]), b"--quiet", *map(os.fsencode, words[1:])]
    return subprocess.run(given, executable=program(), stdin=subprocess.DEVNULL, capture_output=True, check=False)


def _named(argument: str, file: Name) -> Name:
    """Returns a file's name in a form that the program never takes for its standard input or output."""
    name: Name = _arguments.name_of(argument, file)
    return "./-" if os.fsencode(name) == b"-" else name


def _repaired(repaired: bool) -> List[str]:
    return ["--repair"] if repaired else []


def _numbers(packets: Union[slice, range]) -> str:
    """Returns a range of packets that begins at 0 in the program's form, which begins at 1."""
    if not isinstance(packets, (slice, range)):
        raise _arguments.wrong_type("packets", packets, "a slice or a range")
    begin, end = _arguments.whole("packets", packets.start or 0), packets.stop
    end = None if end is None else _arguments.whole("packets", end)
    if packets.step not in (None, 1):
        raise ValueError(f"the step of packets is {packets.step}, and must be 1")
    if begin < 0 or end is not None and end <= begin:
        raise ValueError(f"packets go from {begin} to {end}, and must be at least one packet from number 0 on")
    return f"{begin + 1}-{'' if end is None else end}"


def _seconds(nanoseconds: int) -> str:
    """Returns a time in the program's form."""
    sign, nanoseconds = "-" if nanoseconds < 0 else "", abs(nanoseconds)
    return f"{sign}{nanoseconds // 10**9}.{nanoseconds % 10**9:09}"


def _lines(said: bytes) -> List[str]:
    """Returns the lines that the program printed, without its name, its hint and the line on a sound capture."""
    lines = [line[len(_HEAD) :] if line.startswith(_HEAD) else line for line in os.fsdecode(said).split("\n")]
    return [line for line in lines if line and not line.startswith(_HINT) and _SOUND not in line]


def _warn(lines: List[str], depth: int) -> None:
    """Issues a warning in the name of the caller `depth` functions above this one."""
    if lines:
        more = [f"and {_more(len(lines) - _SHOWN)}"] if len(lines) > _SHOWN else []
        warnings.warn("\n".join(lines[:_SHOWN] + more), CaptureWarning, stacklevel=depth + 2)


def _more(count: int) -> str:
    return "1 line more" if count == 1 else f"{count} lines more"


def _error_of(status: int, lines: List[str]) -> Exception:
    """Returns the exception for an exit status and the lines that the program printed."""
    message = "\n".join(lines) or f"the program pcapfile ended with status {status}"
    if status == _REFUSED:
        return ProgramError(message)
    if status == _NOT_UNDERSTOOD:
        return ValueError(message)
    if status == _NO_MEMORY:
        return MemoryError(message)
    told = re.search(r"(.*): .*? \(os error (\d+)\)$", message)
    if told is None:
        return OSError(message)
    number, file = int(told[2]), told[1]
    return OSError(number, os.strerror(number), file) if len(lines) == 1 else OSError(number, message)
