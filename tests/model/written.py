"""Writes blocks: their bytes, from their values."""
from blocks import TYPES
from left import padding
from links import NAMES
from options import KINDS

NUMBERS = {variant: number for number, (variant, _, _) in TYPES.items()}
LINKS = {name: int(number) for number, name in NAMES.items()}
CODES = {(kind, name): code for kind, rows in KINDS.items() for code, (name, _) in rows.items()}
CUSTOM = ("CustomUtf8", "CustomBinary")
# The number of bytes of the number in an option of this name. A time has two halves.
WIDTHS = {"IfTsResol": 1, "IfFcsLen": 1, "IfTzone": 4, "Flags": 4}
COUNTS = ("IfEuIAddr", "IfSpeed", "IfTsOffset", "DropCount", "IsbIfRecv", "IsbIfDrop", "IsbFilterAccept", "IsbOsDrop", "IsbUsrDeliv")
WIDTHS |= {name: 8 for name in COUNTS}
TIMES = ("IsbStartTime", "IsbEndTime")


class Writer:
    """Makes bytes of values, in one order."""

    def __init__(self, order):
        self.order = order

    def number(self, width, number, signed=False):
        return number.to_bytes(width, self.order, signed=signed)

    def time(self, time):
        """Writes a timestamp: its high half, and then its low half."""
        return self.number(4, time >> 32) + self.number(4, time & 0xFFFFFFFF)

    def coded(self, code, value):
        """Writes a code or a type, the length of a value, the value, and its padding."""
        return self.number(2, code) + self.number(2, len(value)) + padded(value)

    def option(self, kind, option):
        (held,) = option.parts
        if option.name in CUSTOM:
            return self.coded(held.fields["code"], self.number(4, held.fields["pen"]) + plain(held.fields["value"]))
        if option.name == "Unknown":
            return self.coded(held.fields["code"], held.fields["value"])
        return self.coded(CODES[kind, option.name], self.held(option.name, held))

    def held(self, name, held):
        """Writes the value of an option of this name."""
        if name in TIMES:
            return self.time(held)
        return self.number(WIDTHS[name], held) if name in WIDTHS else plain(held)

    def options(self, kind, options):
        """Writes a list of options, and the mark of its end. It writes nothing if there are no options."""
        return b"".join(self.option(kind, it) for it in options) + bytes(4) * bool(options)

    def record(self, record):
        (held,) = record.parts
        if record.name == "Unknown":
            return self.coded(held.fields["type_"], held.fields["value"])
        names = b"".join(plain(name) + b"\0" for name in held.fields["names"])
        return self.coded({"Ipv4": 1, "Ipv6": 2}[record.name], held.fields["ip_addr"] + names)

    def section(self, fields):
        versions = self.number(2, fields["major_version"]) + self.number(2, fields["minor_version"])
        return fields["magic"].to_bytes(4, "big") + versions + self.number(8, fields["section_length"], signed=True)

    def interface(self, fields):
        link = fields["linktype"]
        number = link.parts[0] if link.name == "Unknown" else LINKS[link.name]
        return self.number(2, number) + self.number(2, fields["reserved"]) + self.number(4, fields["snaplen"])

    def stored_packet(self, fields):
        lengths = self.number(4, fields["captured_len"]) + self.number(4, fields["original_len"])
        return self.time(fields["timestamp"]) + lengths + padded(fields["data_"])

    def packet(self, fields):
        head = self.number(2, fields["interface_id"]) + self.number(2, fields["drop_count"])
        return head + self.stored_packet(fields)

    def enhanced_packet(self, fields):
        return self.number(4, fields["interface_id"]) + self.stored_packet(fields)

    def simple_packet(self, fields):
        return self.number(4, fields["original_len"]) + padded(fields["data_"])

    def names(self, fields):
        return b"".join(map(self.record, fields["records"])) + bytes(4)

    def statistics(self, fields):
        return self.number(4, fields["interface_id"]) + self.time(fields["timestamp"])

    def journal_entry(self, fields):
        return padded(fields["journal_entry"])

    def unknown(self, fields):
        return padded(fields["value"])

    def body(self, block):
        """Writes the body of a block. It ends with the options, if the block's kind has them."""
        (held,) = block.parts
        body = HEADS[block.name](self, held.fields)
        if "options" in held.fields:
            body += self.options(f"{block.name}Option", held.fields["options"])
        return body

    def block(self, block):
        body = self.body(block)
        number = NUMBERS.get(block.name) or block.parts[0].fields["type_"].parts[0]
        length = self.number(4, len(body) + 12)
        return self.number(4, number) + length + body + length


HEADS = {
    "SectionHeader": Writer.section,
    "InterfaceDescription": Writer.interface,
    "Packet": Writer.packet,
    "SimplePacket": Writer.simple_packet,
    "NameResolution": Writer.names,
    "InterfaceStatistics": Writer.statistics,
    "EnhancedPacket": Writer.enhanced_packet,
    "SystemdJournalExport": Writer.journal_entry,
    "Unknown": Writer.unknown,
}


def plain(value):
    return value.encode() if isinstance(value, str) else bytes(value)


def padded(value):
    return bytes(value) + bytes(padding(len(value)))
