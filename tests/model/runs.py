"""Answers whole runs over a capture as test_runs prints them."""
import zlib

from captures import MAGICS, capture_header, packet
from frames import first_state, frame
from left import Left
from refusals import Lacks, Refused
from shown import shown


class Packets:
    """Classic captures: a header, and then packets."""

    def begin(self, left):
        header = capture_header(left)
        _, self.resolution = MAGICS[header.fields["magic_number"].to_bytes(4, "big")]
        return left.order

    def item(self, order, left):
        left.order = order
        return packet(left, self.resolution), order

    def shown(self, items, order):
        return "packets " + " ".join(map(self.shown_item, items))

    @staticmethod
    def shown_item(item):
        sec, nsec, included, original = item.fields["header"].fields.values()
        return f"{sec}.{nsec}:{included}:{original}:{shown_bytes(item.fields['data_'])}"


class Blocks:
    """PcapNg captures: a section header, and then blocks."""

    def begin(self, left):
        return first_state(left)

    def item(self, state, left):
        left.order = state.order
        block = frame(left)
        return block, state.after(block)

    def shown(self, items, state):
        section = state.section.fields
        version = f"{section['major_version']}.{section['minor_version']}"
        interfaces = " ".join(f"{shown(it.fields['linktype'])}:{it.fields['snaplen']}" for it in state.interfaces)
        blocks = " ".join(map(self.shown_item, items))
        return f"blocks {blocks} section {state.order} {version} interfaces {interfaces}"

    @staticmethod
    def shown_item(block):
        try:
            block.value()
            word = "ok"
        except Refused as why:
            word = str(why).replace(" ", "_").replace(":", ";")
        return f"{block.kind().replace(':', '_')}:{block.length}:{block.order}:{word}"


def shown_bytes(it):
    return "x" + it.hex() if len(it) <= 64 else f"{zlib.crc32(it):08x}:{len(it)}"


class Run:
    """The longest front of the bytes: its items, the state after each, where each ends, and what ends it."""

    def __init__(self, form, data):
        left = Left(data, "big")
        self.form, self.items, self.rest = form, [], None
        self.states = [form.begin(left)]
        self.ends = [len(data) - len(left)]
        while self.ends[-1] < len(data):
            left = Left(data[self.ends[-1] :], "big")
            try:
                item, state = form.item(self.states[-1], left)
            except (Lacks, Refused) as why:
                self.rest = why
                break
            self.items.append(item)
            self.states.append(state)
            self.ends.append(len(data) - len(left))

    def shown(self, most=None):
        count = len(self.items) if most is None else min(most, len(self.items))
        return self.form.shown(self.items[:count], self.states[count])

    def told(self):
        return f"{self.shown()} used {self.ends[-1]} rest {self.rest or 'clean'}"


def parse(form, data, argument):
    return Run(form, data).told()


def read(form, data, argument):
    """Answers a reader that asks for what is missing. If the stream ends before that, it is an input error."""
    most = int(argument)
    try:
        run = Run(form, data)
    except Lacks:
        return "io"
    fault = "none"
    if most > len(run.items) and run.rest is not None:
        fault = "io" if isinstance(run.rest, Lacks) else run.rest
    return f"{run.shown(most)} fault {fault}"


def pieces(form, data, argument):
    """Returns the number of items in the pieces so far, after each piece."""
    run, fed, numbers = Run(form, data), 0, []
    for length in argument.split(",") if argument != "-" else ():
        fed += int(length)
        numbers.append(sum(1 for end in run.ends[1:] if end <= fed))
    return f"{run.told()} numbers {' '.join(map(str, numbers))}"


def exact(form, data, argument):
    """Counts the requests: each asks for exactly the missing bytes, while there are enough."""
    run, requests = Run(form, data), 0
    for number, start in enumerate([0, *run.ends]):
        given, is_asking = 0, start < len(data)
        while is_asking:
            left = Left(data[start : start + given], "big")
            try:
                form.item(run.states[number - 1], left) if number else form.begin(left)
                is_asking = False
            except Lacks as why:
                requests += 1
                given += why.count
                is_asking = start + given <= len(data)
            except Refused:
                is_asking = False
    return f"{run.told()} requests {requests}"


CALLS = {"parse": parse, "read": read, "pieces": pieces, "exact": exact}


def answer(line):
    """Returns what the call of this line gives: CALL|argument|capture in hexadecimal digits."""
    call, argument, digits = line.split("|")
    name, _, form = call.partition("_")
    try:
        told = CALLS[name](Packets() if form == "pcap" else Blocks(), bytes.fromhex(digits), argument)
    except (Lacks, Refused) as why:
        told = str(why)
    return " ".join(told.split())
