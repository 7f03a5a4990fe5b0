"""Expressions of tcpdump, and packets of common protocols over Ethernet."""
import struct
import subprocess

EXPRESSIONS = (
    "", "ip", "ip6", "arp", "tcp", "udp", "icmp", "icmp6", "ip proto 47", "port 53", "udp port 53", "tcp port 80", "src port 12345",
    "dst portrange 50-60", "host 1.2.3.4", "src host 1.2.3.4", "dst net 5.6.0.0/16", "net 10.0.0.0/8", "not net 10.0.0.0/8",
    "tcp[tcpflags] & tcp-syn != 0", "tcp[tcpflags] & (tcp-syn|tcp-ack) == tcp-syn", "ip[8] < 5", "ip[0] & 0xf > 5", "greater 100",
    "less 60", "len >= 64", "ether host 02:00:00:00:00:01", "ether dst ff:ff:ff:ff:ff:ff", "ether broadcast", "ether multicast",
    "vlan", "vlan 5 and udp", "ip6 host 2001:db8::1", "ip6 net 2001:db8::/32", "tcp and (port 80 or port 443)",
    "udp and not port 53", "icmp[icmptype] = icmp-echo", "tcp[((tcp[12] & 0xf0) >> 2):4] = 0x47455420",
    "ip[2:2] - ((ip[0] & 0xf) << 2) > 8", "ether[0] & 1 = 0 and ip[16] >= 224", "udp[4:2] % 3 = 1", "ip[4:2] / 7 * 7 = ip[4:2]",
    "(tcp or udp) and ip[6:2] & 0x1fff = 0",
)
SECONDS = 60
MACS = bytes.fromhex("ffffffffffff020000000001")
OTHER_MACS = bytes.fromhex("020000000002020000000001")


def ipv4(protocol, payload, first=0x45, fragment=0, source=bytes((1, 2, 3, 4))):
    options = bytes((first & 0xF) * 4 - 20)
    head = struct.pack(">BBHHHBBH", first, 0, 20 + len(options) + len(payload), 7, fragment, 64, protocol, 0)
    return struct.pack(">H", 0x0800) + head + source + bytes((5, 6, 7, 8)) + options + payload


def ipv6(protocol, payload):
    head = struct.pack(">IHBB", 6 << 28, len(payload), protocol, 64)
    return struct.pack(">H", 0x86DD) + head + bytes.fromhex("20010db8" + 23 * "0" + "1" + "20010db8" + 23 * "0" + "2") + payload


def udp(source, to, data=b"query"):
    return struct.pack(">HHHH", source, to, 8 + len(data), 0) + data


def tcp(source, to, flags, data=b""):
    return struct.pack(">HHIIBBHHH", source, to, 1, 2, 5 << 4, flags, 1000, 0, 0) + data


def whole():
    """Returns the packets, whole."""
    query, request = udp(12345, 53), tcp(40000, 80, 0x18, b"GET / HTTP/1.1\r\n")
    datagrams = [ipv4(17, query), ipv4(17, udp(53, 12345), first=0x47), ipv4(17, udp(9, 55), fragment=3), ipv6(17, query),
                 ipv4(17, udp(1, 2, bytes(100)), source=bytes((10, 9, 8, 7)))]
    segments = [ipv4(6, tcp(40000, 80, 2)), ipv4(6, tcp(80, 40000, 0x12)), ipv4(6, request), ipv6(6, tcp(1, 443, 2))]
    address_request = struct.pack(">HHHBBH", 0x0806, 1, 0x0800, 6, 4, 1) + bytes(20)
    others = [ipv4(1, bytes((8, 0, 0, 0, 0, 1, 0, 1))), ipv6(58, bytes((128, 0, 0, 0))), ipv4(47, bytes(20)), address_request]
    tagged = [struct.pack(">HH", 0x8100, 5) + ipv4(17, udp(12345, 53)), struct.pack(">HH", 0x8100, 6) + ipv4(6, tcp(1, 80, 2))]
    return [macs + it for it in datagrams + segments + others + tagged for macs in (MACS, OTHER_MACS)]


def packets():
    """Returns each packet whole and cut at many places, with its original length."""
    return [(it[:end], len(it)) for it in whole() for end in (len(it), 14, 20, 24, 33, 34, 36, 38, 40, 47, 54, 57) if end <= len(it)]


def compiled(expression):
    """Returns the program that tcpdump makes from an expression."""
    ran = subprocess.run(["tcpdump", "-y", "EN10MB", "-ddd", expression], capture_output=True, check=True, timeout=SECONDS)
    return [tuple(map(int, line.split())) for line in ran.stdout.splitlines()[1:]]
