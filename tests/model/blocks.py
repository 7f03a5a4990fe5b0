"""Reads the bodies of blocks, and their records of names."""
from left import Left, padding
from links import link_type
from options import options, string
from refusals import rule, too_short
from shown import Lent, Value

SECTION_ORDERS = {b"\x1a\x2b\x3c\x4d": "big", b"\x4d\x3c\x2b\x1a": "little"}


def at_least(left, length, text):
    if len(left) < length:
        raise rule(text)


def section(left):
    at_least(left, 16, "SectionHeaderBlock: block length < 16")
    magic = left.take(4)
    if magic not in SECTION_ORDERS:
        raise rule("SectionHeaderBlock: invalid magic number")
    left.order = SECTION_ORDERS[magic]
    return Value(
        "SectionHeaderBlock",
        magic=int.from_bytes(magic, "big"),
        major_version=left.number(2),
        minor_version=left.number(2),
        section_length=left.number(8, signed=True),
        options=options("SectionHeaderOption", left),
    )


def interface(left):
    at_least(left, 8, "InterfaceDescriptionBlock: block length < 8")
    return Value(
        "InterfaceDescriptionBlock",
        linktype=link_type(left.number(2)),
        reserved=left.number(2),
        snaplen=left.number(4),
        options=options("InterfaceDescriptionOption", left),
    )


def stored_packet(name, left, head):
    """Reads what both kinds of packet share: a head, a time, two lengths, data with padding, options."""
    at_least(left, 20, "EnhancedPacketBlock: block length length < 20")
    fields = {name: left.number(width) for name, width in head}
    fields |= {"timestamp": left.time(), "captured_len": left.number(4), "original_len": left.number(4)}
    length = fields["captured_len"]
    at_least(left, length + padding(length), "EnhancedPacketBlock: captured_len + padding > block length")
    fields["data_"] = Lent(left.take(length))
    left.take(padding(length))
    return Value(f"{name}Block", **fields, options=options(f"{name}Option", left))


def packet(left):
    return stored_packet("Packet", left, (("interface_id", 2), ("drop_count", 2)))


def enhanced_packet(left):
    return stored_packet("EnhancedPacket", left, (("interface_id", 4),))


def simple_packet(left):
    at_least(left, 4, "SimplePacketBlock: block length < 4")
    return Value("SimplePacketBlock", original_len=left.number(4), data_=Lent(left.rest()))


def statistics(left):
    at_least(left, 12, "InterfaceStatisticsBlock: block length < 12")
    return Value(
        "InterfaceStatisticsBlock",
        interface_id=left.number(4),
        timestamp=left.time(),
        options=options("InterfaceStatisticsOption", left),
    )


def journal_entry(left):
    return Value("SystemdJournalExportBlock", journal_entry=Lent(left.rest()))


def name(left):
    """Returns the bytes before the first zero byte, as a string."""
    text, end, rest = left.bytes.partition(b"\0")
    if not end:
        raise rule("Non null terminated string")
    left.bytes = rest
    return string(text)


def named_address(kind, length, value):
    """Returns an address and the names for it."""
    at_least(value, length + 2, f"NameResolutionBlock: {kind} len < {length + 2}")
    address, names = Lent(value.take(length)), []
    while value:
        names.append(name(value))
    return Value(kind, ip_addr=address, names=names)


def ipv4_record(value):
    return named_address("Ipv4Record", 4, value)


def ipv6_record(value):
    return named_address("Ipv6Record", 16, value)


def record(left):
    if len(left) < 4:
        raise too_short()
    type_, length = left.number(2), left.number(2)
    at_least(left, length, "NameResolutionBlock: Record length > slice.len()")
    value = Left(left.take(length), left.order)
    if type_ == 0:
        if length != 0:
            raise rule("NameResolutionBlock: nrb_record_end length != 0")
        found = Value("End")
    elif type_ == 1:
        found = Value("Ipv4", ipv4_record(value))
    elif type_ == 2:
        found = Value("Ipv6", ipv6_record(value))
    else:
        found = Value("Unknown", Value("UnknownRecord", type_=type_, length=length, value=Lent(value.rest())))
    at_least(left, padding(length), "NameResolutionBlock: Record padding > slice.len()")
    left.take(padding(length))
    return found


def name_resolution(left):
    records = []
    while (found := record(left)).name != "End":
        records.append(found)
    return Value("NameResolutionBlock", records=records, options=options("NameResolutionOption", left))


# The number of each type, its variant of `ParsedBlock`, the program's word for it, and how its body is read.
TYPES = {
    0x0A0D0D0A: ("SectionHeader", "section", section),
    1: ("InterfaceDescription", "interface", interface),
    2: ("Packet", "packet", packet),
    3: ("SimplePacket", "simple", simple_packet),
    4: ("NameResolution", "names", name_resolution),
    5: ("InterfaceStatistics", "statistics", statistics),
    6: ("EnhancedPacket", "enhanced", enhanced_packet),
    9: ("SystemdJournalExport", "journal", journal_entry),
}


def parsed(number, left):
    """Reads the body of a block of this type. For an unknown type all bytes are the value, and are left as well."""
    if number in TYPES:
        variant, _, read = TYPES[number]
        return Value(variant, read(left))
    return Value(
        "Unknown",
        Value("UnknownBlock", type_=Value("Unknown", number), length=len(left), value=Lent(left.bytes)),
    )
