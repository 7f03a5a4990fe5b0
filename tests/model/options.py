"""Reads the options of blocks: their lists, and what each code of each kind holds."""
from left import Left, padding
from refusals import no_string, rule, too_short
from shown import Lent, Value


def string(value):
    try:
        return value.decode("utf-8")
    except UnicodeDecodeError:
        raise no_string() from None


# Each function below returns an option's value from its bytes, their order, and the names of its kind and variant.


def text(value, order, kind, name):
    return string(value)


def any_bytes(value, order, kind, name):
    return Lent(value)


def some_bytes(value, order, kind, name):
    if not value:
        raise rule(f"{kind}: {name} is empty")
    return Lent(value)


def bytes_of(length):
    def read(value, order, kind, name):
        if len(value) != length:
            raise rule(f"{kind}: {name} length != {length}")
        return Lent(value)

    return read


def number_of(length):
    def read(value, order, kind, name):
        return int.from_bytes(bytes_of(length)(value, order, kind, name), order)

    return read


def count(value, order, kind, name):
    """Reads eight bytes, and ignores what follows them."""
    if len(value) < 8:
        raise too_short()
    return Left(value, order).number(8)


def moment(value, order, kind, name):
    """Reads two halves of a time, and ignores what follows them."""
    if len(value) < 8:
        raise too_short()
    return Left(value, order).time()


KINDS = {
    "SectionHeaderOption": {
        1: ("Comment", text),
        2: ("Hardware", text),
        3: ("OS", text),
        4: ("UserApplication", text),
    },
    "InterfaceDescriptionOption": {
        1: ("Comment", text),
        2: ("IfName", text),
        3: ("IfDescription", text),
        4: ("IfIpv4Addr", bytes_of(8)),
        5: ("IfIpv6Addr", bytes_of(17)),
        6: ("IfMacAddr", bytes_of(6)),
        7: ("IfEuIAddr", number_of(8)),
        8: ("IfSpeed", number_of(8)),
        9: ("IfTsResol", number_of(1)),
        10: ("IfTzone", number_of(4)),
        11: ("IfFilter", some_bytes),
        12: ("IfOs", text),
        13: ("IfFcsLen", number_of(1)),
        14: ("IfTsOffset", number_of(8)),
        15: ("IfHardware", text),
    },
    "EnhancedPacketOption": {
        1: ("Comment", text),
        2: ("Flags", number_of(4)),
        3: ("Hash", any_bytes),
        4: ("DropCount", number_of(8)),
    },
    "PacketOption": {
        1: ("Comment", text),
        2: ("Flags", number_of(4)),
        3: ("Hash", any_bytes),
    },
    "InterfaceStatisticsOption": {
        1: ("Comment", text),
        2: ("IsbStartTime", moment),
        3: ("IsbEndTime", moment),
        4: ("IsbIfRecv", count),
        5: ("IsbIfDrop", count),
        6: ("IsbFilterAccept", count),
        7: ("IsbOsDrop", count),
        8: ("IsbUsrDeliv", count),
    },
    "NameResolutionOption": {
        1: ("Comment", text),
        2: ("NsDnsName", text),
        3: ("NsDnsIpv4Addr", bytes_of(4)),
        4: ("NsDnsIpv6Addr", bytes_of(16)),
    },
}
CUSTOM_TEXTS = (2988, 19372)
CUSTOM_BYTES = (2989, 19373)


def custom(name, code, value, order, read):
    """Reads an option of an enterprise: its number, and then a text or bytes."""
    if len(value) < 4:
        raise too_short()
    left = Left(value, order)
    return Value(name, code=code, pen=left.number(4), value=read(left.rest()))


def custom_text(code, value, order):
    return custom("CustomUtf8Option", code, value, order, string)


def custom_bytes(code, value, order):
    return custom("CustomBinaryOption", code, value, order, Lent)


def option(kind, code, value, order):
    if code in CUSTOM_TEXTS:
        return Value("CustomUtf8", custom_text(code, value, order))
    if code in CUSTOM_BYTES:
        return Value("CustomBinary", custom_bytes(code, value, order))
    if code in KINDS[kind]:
        name, read = KINDS[kind][code]
        return Value(name, read(value, order, kind, name))
    return Value("Unknown", Value("UnknownOption", code=code, length=len(value), value=Lent(value)))


def options(kind, left):
    """Reads the options up to the end's mark, or to the end of the bytes."""
    found = []
    while left:
        if len(left) < 4:
            raise rule("Option: slice.len() < 4")
        code, length = left.number(2), left.number(2)
        if code == 0:
            break
        if length + padding(length) > len(left):
            raise rule("Option: length + pad.len() > slice.len()")
        found.append(option(kind, code, left.take(length), left.order))
        left.take(padding(length))
    return found
