"""Answers calls on slices as test_replay prints them."""
from blocks import TYPES, ipv4_record, ipv6_record, name, parsed, record
from captures import capture_header, packet, packet_header
from left import Left
from options import custom_bytes, custom_text, options
from refusals import Lacks, Refused
from shown import shown

BODY = "ParsedBlock::from_slice "
NUMBERS = {variant: number for number, (variant, _, _) in TYPES.items()} | {"Unknown(77)": 77}


CALLS = {
    "PcapHeader::from_slice": lambda left, resolution, code: capture_header(left),
    "PacketHeader::from_slice": lambda left, resolution, code: packet_header(left, resolution),
    "Packet::from_slice": lambda left, resolution, code: packet(left, resolution),
    "CustomBinaryOption::from_slice": lambda left, resolution, code: custom_bytes(code, left.rest(), left.order),
    "CustomUtf8Option::from_slice": lambda left, resolution, code: custom_text(code, left.rest(), left.order),
    "EnhancedPacketOption::from_slice": lambda left, resolution, code: options("EnhancedPacketOption", left),
    "PacketOption::from_slice": lambda left, resolution, code: options("PacketOption", left),
    "Ipv4Record::from_slice": lambda left, resolution, code: ipv4_record(left),
    "Ipv6Record::from_slice": lambda left, resolution, code: ipv6_record(left),
    "Record::from_slice": lambda left, resolution, code: record(left),
    "str_from_u8_null_terminated": lambda left, resolution, code: name(left),
}


def answer(line):
    """Returns what the call of this line gives: CALL|order|resolution|code|slice in hexadecimal digits."""
    call, order, resolution, code, digits = line.split("|")
    left = Left(bytes.fromhex(digits), order)
    try:
        if call.startswith(BODY):
            found = parsed(NUMBERS[call.removeprefix(BODY)], left)
        else:
            found = CALLS[call](left, resolution, int(code))
        return f"ok {shown(left.bytes)} {shown(found)}"
    except (Lacks, Refused) as why:
        return str(why)
