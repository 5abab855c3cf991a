"""What is in a capture: its packets, one by one, and of each the segment of TCP. tools/pcap.py reads captures by it.

A capture is pcap, as tcpdump writes it, or pcapng, as Wireshark does. What is passed over is no segment of TCP, or is
one that every receiver drops.
"""
import collections
import struct

# The start of 1970, in units of 100 ns since 1601.
EPOCH, SECOND = 116_444_736_000_000_000, 10_000_000
# The magic numbers of pcap: the order of its bytes, and how many parts a second has.
CLASSIC = {
    b"\xd4\xc3\xb2\xa1": ("<", 1_000_000), b"\xa1\xb2\xc3\xd4": (">", 1_000_000),
    b"\x4d\x3c\xb2\xa1": ("<", 1_000_000_000), b"\xa1\xb2\x3c\x4d": (">", 1_000_000_000),
}
# Kinds of blocks of pcapng, and the orders of its bytes by the magic number of a section.
SECTION, INTERFACE, OLD_PACKET, SIMPLE, ENHANCED = 0x0A0D0D0A, 1, 2, 3, 6
ORDERS = {b"\x4d\x3c\x2b\x1a": "<", b"\x1a\x2b\x3c\x4d": ">"}
RESOLUTION, OFFSET = 9, 14
# The longest packet and block that are read: as many bytes as libpcap takes.
LONGEST_PACKET, LONGEST_BLOCK = 262_144, 1 << 24
IP_TYPES, TAGS = (0x0800, 0x86DD), (0x8100, 0x88A8, 0x9100)
# Address families of IP in the header of a loopback packet, on the systems that there are.
FAMILIES = (2, 10, 23, 24, 28, 30)
TCP, FRAGMENT, AUTHENTICATION = 6, 44, 51
# Extension headers of IPv6, those that are passed over first: hop-by-hop and destination options.
OPTIONS, EXTENSIONS = (0, 60), (0, 60, 43, FRAGMENT, AUTHENTICATION, 135, 139, 140)
FIN, SYN, RST, ACK = 1, 2, 4, 16

# A packet: its number from 1 on, its moment, its link type, how many bytes it had, and those that are there.
Packet = collections.namedtuple("Packet", "number moment link length data")
# An interface of pcapng: its link type, how many bytes are kept of a packet, and its clock.
Interface = collections.namedtuple("Interface", "link most ticks offset")
# What IP carries: how many bytes of it are missing in the capture, and what is odd about it.
Carried = collections.namedtuple("Carried", "source target protocol data missing oddity")
# A segment of TCP; `source` and `target` are an address and a port.
Segment = collections.namedtuple(
    "Segment", "number moment source target sequence acknowledged flags data missing oddity")


class Fault(Exception):
    """What is wrong with a capture, in one line."""


class Source:
    """The bytes of a capture, which are read once, and how many packets were whole."""

    def __init__(self, stream):
        self.stream, self.count = stream, 0

    def read(self, size):
        """The next bytes."""
        found = self.stream.read(size)
        if len(found) < size:
            raise Fault(f"it is cut off behind {self.count} whole packets")
        return found

    def read_head(self, size):
        """The next bytes, or none where there are none."""
        first = self.stream.read(1)
        return first and first + self.read(size - 1)

    def packet(self, moment, link, length, data):
        """The next packet."""
        self.count += 1
        if link not in LINKS:
            raise Fault(f"packet {self.count} is of link type {link}, which is not read")
        if not 0 <= moment < 1 << 64:
            raise Fault(f"packet {self.count} has a moment before 1601 or past 2^64")
        return Packet(self.count, moment, link, length, data)

    def broken(self, what):
        """The fault that the capture is none behind the packets that were read."""
        return Fault(f"it is no capture behind {self.count} whole packets: {what}")


def opened(stream):
    """The format of a capture, and its packets."""
    source = Source(stream)
    magic = stream.read(4)
    if magic in CLASSIC:
        return classic(source, *CLASSIC[magic])
    if magic == SECTION.to_bytes(4, "big"):
        reader = Sections(source)
        first = reader.block(magic + source.read(4))
        return "pcapng {}.{}".format(*struct.unpack_from(reader.order + "HH", first[1], 4)), reader.packets()
    raise Fault("it is no capture: it begins neither as pcap nor as pcapng")


def classic(source, order, parts):
    """The format and the packets of pcap, behind its magic number."""
    major, minor, _, _, _, link = struct.unpack(order + "HHIIII", source.read(20))
    if (major, minor) != (2, 4):
        raise Fault(f"it is pcap of version {major}.{minor}, not 2.4")
    if link & 0xFFFF not in LINKS:
        raise Fault(f"it is of link type {link & 0xFFFF}, which is not read")
    return "pcap 2.4", classic_packets(source, order, parts, link & 0xFFFF)


def classic_packets(source, order, parts, link):
    while True:
        head = source.read_head(16)
        if not head:
            return
        seconds, part, size, length = struct.unpack(order + "IIII", head)
        if size > LONGEST_PACKET:
            raise source.broken(f"a packet of {size} bytes")
        moment = EPOCH + seconds * SECOND + part * SECOND // parts
        yield source.packet(moment, link, length, source.read(size))


class Sections:
    """The blocks of pcapng, and the interfaces of the section that is read."""

    def __init__(self, source):
        self.source, self.order, self.interfaces, self.moment = source, "", [], EPOCH

    def block(self, head):
        """The kind and the body of the block that begins so; a section's begins with its magic number."""
        magic = b""
        if head[:4] == SECTION.to_bytes(4, "big"):
            magic = self.source.read(4)
            if magic not in ORDERS:
                raise self.source.broken("a section of neither byte order")
            self.order, self.interfaces = ORDERS[magic], []
        kind, size = struct.unpack(self.order + "II", head)
        if size % 4 or not (28 if magic else 12) <= size <= LONGEST_BLOCK:
            raise self.source.broken(f"a block of {size} bytes")
        rest = self.source.read(size - 8 - len(magic))
        if rest[-4:] != head[4:]:
            raise self.source.broken("a block with two lengths")
        return kind, magic + rest[:-4]

    def packets(self):
        while True:
            head = self.source.read_head(8)
            if not head:
                return
            kind, body = self.block(head)
            try:
                packet = self.taken(kind, body)
            except struct.error:
                raise self.source.broken("a block that is too short") from None
            if packet:
                yield packet

    def taken(self, kind, body):
        """The packet of a block; None where it has none."""
        if kind == INTERFACE:
            self.interfaces.append(self.interface(body))
        elif kind in (ENHANCED, OLD_PACKET):
            form = self.order + ("IIIII" if kind == ENHANCED else "HxxIIII")
            number, high, low, size, length = struct.unpack_from(form, body)
            it = self.named(number)
            self.moment = EPOCH + it.offset * SECOND + (high << 32 | low) * SECOND // it.ticks
            return self.source.packet(self.moment, it.link, length, self.data(body, 20, size))
        elif kind == SIMPLE:
            length, = struct.unpack_from(self.order + "I", body)
            it = self.named(0)
            size = min(length, it.most or length)
            return self.source.packet(self.moment, it.link, length, self.data(body, 4, size))
        return None

    def named(self, number):
        """The interface of a number."""
        if number >= len(self.interfaces):
            raise self.source.broken(f"a packet of interface {number}, which is not described")
        return self.interfaces[number]

    def data(self, body, at, size):
        """The bytes of a packet in its block."""
        if size > len(body) - at:
            raise self.source.broken("a packet that is longer than its block")
        return body[at:at + size]

    def interface(self, body):
        """The interface that a block describes."""
        link, most = struct.unpack_from(self.order + "HxxI", body)
        found, at = {}, 8
        while at < len(body):
            code, size = struct.unpack_from(self.order + "HH", body, at)
            found[code] = body[at + 4:at + 4 + size]
            at += 4 + size + -size % 4
        resolution, = struct.unpack("B", found.get(RESOLUTION, b"\x06"))
        ticks = 2 ** (resolution & 0x7F) if resolution & 0x80 else 10 ** resolution
        offset, = struct.unpack(self.order + "q", found.get(OFFSET, bytes(8)))
        return Interface(link, most, ticks, offset)


# Where IP begins in a packet, by its link type. A struct.error is that the bytes end before.

def untagged(kind, rest):
    """The packet of IP behind tags of 802.1Q; None where it is of another kind."""
    while kind in TAGS:
        kind, = struct.unpack_from("!H", rest, 2)
        rest = rest[4:]
    return rest if kind in IP_TYPES else None


def behind_type(at, size):
    """What takes IP out of packets whose headers have so many bytes, and the type at a place."""
    return lambda data: untagged(struct.unpack_from("!H", data, at)[0], data[size:])


def behind_family(data):
    """IP in a packet of a loopback, which begins with an address family in either order."""
    is_ip = min(struct.unpack_from("<I", data)[0], struct.unpack_from(">I", data)[0]) in FAMILIES
    return data[4:] if is_ip else None


def whole(data):
    return data


# BSD loopback, Ethernet, raw IP, OpenBSD's loopback, cooked, raw IPv4 and IPv6, cooked of version 2.
LINKS = {
    0: behind_family, 1: behind_type(12, 14), 12: whole, 14: whole, 101: whole, 108: behind_family,
    113: behind_type(14, 16), 228: whole, 229: whole, 276: behind_type(0, 20),
}


def segment_of(packet):
    """The segment of TCP in a packet; None where there is none."""
    try:
        data = LINKS[packet.link](packet.data)
        if data is None:
            return None
        version, = struct.unpack_from("B", data)
        read = {4: of_ipv4, 6: of_ipv6}.get(version >> 4)
        carried = read and read(data, packet.length - len(packet.data) + len(data))
        return of_tcp(packet, carried) if carried and carried.protocol == TCP else None
    except struct.error:
        if len(packet.data) < packet.length:
            raise Fault(f"packet {packet.number} is cut before its headers end: it was captured with a snap "
                        f"length of {len(packet.data)}") from None
        return None


def of_ipv4(data, length):
    """What a packet of IPv4 carries; its options are passed over. Only the first fragment has the ports."""
    first, total, fragment, protocol, source, target = struct.unpack_from("!BxHxxHxBxx4s4s", data)
    head, total = (first & 15) * 4, total or length
    if not 20 <= head <= total or fragment & 0x1FFF:
        return None
    oddity = "is a fragment" if fragment & 0x2000 else ""
    return Carried(source, target, protocol, data[head:total], total - max(head, min(total, len(data))), oddity)


def of_ipv6(data, length):
    """What a packet of IPv6 carries, behind its extension headers."""
    size, kind, source, target = struct.unpack_from("!4xHBx16s16s", data)
    total, at, oddity = 40 + size if size else length, 40, ""
    while kind in EXTENSIONS:
        if kind not in OPTIONS:
            oddity = oddity or ("is a fragment" if kind == FRAGMENT else f"has an extension header of kind {kind}")
        if kind == FRAGMENT and struct.unpack_from("!H", data, at + 2)[0] >> 3:
            return None
        following, units = struct.unpack_from("!BB", data, at)
        at += 8 if kind == FRAGMENT else 4 * units + 8 if kind == AUTHENTICATION else 8 * units + 8
        kind = following
    return Carried(source, target, kind, data[at:total], total - max(at, min(total, len(data))), oddity)


def of_tcp(packet, carried):
    """The segment that IP carries."""
    source, target, sequence, acknowledged, head, flags = struct.unpack_from("!HHIIBB", carried.data)
    head, size = (head >> 4) * 4, len(carried.data) + carried.missing
    if not 20 <= head <= size:
        return None
    data = carried.data[head:]
    return Segment(packet.number, packet.moment, (carried.source, source), (carried.target, target), sequence,
                   acknowledged, flags, data, size - head - len(data), carried.oddity)
