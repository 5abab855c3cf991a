"""Captures: segments of TCP in packets of IP, in each kind of link, as pcap and pcapng; and the texts that these must
become."""
import io
import ipaddress
import struct

from tests.smb import frames
from tools.lib.connections import convert
from tools.lib.packets import Fault

# A client's stream, in its frames.
ALL_ACCESS, CREATE, OF_CHAIN = 0x1F01FF, 2, (1 << 64) - 1
FRAMES = [frames.negotiate(), frames.session_setup(1), frames.tree_connect(2, 1), frames.chain([
    frames.create(3, "a", ALL_ACCESS, CREATE, 0, 1, 1), frames.write(4, OF_CHAIN, 0, b"text", 1, 1),
    frames.read(5, OF_CHAIN, 0, 64, 1, 1), frames.close(6, OF_CHAIN, 1, 1), frames.close(7, 1, 1, 1)])]
STREAM = b"".join(FRAMES)
FIN, SYN, RST, PSH, ACK = 1, 2, 4, 8, 16
PORT = 4450
CLIENT, SERVER, OTHER = ("10.0.0.2", 50_000), ("10.0.0.1", PORT), ("10.0.0.3", 50_001)
CLIENT_6, SERVER_6 = ("fe80::2", 50_000), ("fe80::1", PORT)
WORLD = 1 << 32
# The first packet's time, and from one packet to the next: nanoseconds since 1970.
START, STEP = 1_764_177_000_123_456_000, 1_500_001_000
SECOND = 1_000_000_000


def time_of(index):
    """When the packet of an index is captured, in nanoseconds since 1970."""
    return START + index * STEP


def moment_of(index):
    """The same in units of 100 ns since 1601."""
    return 116_444_736_000_000_000 + time_of(index) // 100


def tcp(source, target, sequence, acknowledged, flags, data=b"", options=b""):
    """A segment between two ports."""
    return struct.pack("!HHIIBBHHH", source, target, sequence % WORLD, acknowledged % WORLD,
                       (20 + len(options)) // 4 << 4, flags, 65_535, 0, 0) + options + data


def ip(source, target, carried, protocol=6, **more):
    """A packet between two addresses."""
    addresses = [ipaddress.ip_address(it).packed for it in (source, target)]
    return (ipv4 if len(addresses[0]) == 4 else ipv6)(*addresses, carried, protocol, **more)


def ipv4(source, target, carried, protocol, options=b"", fragment=0, total=None):
    head = 20 + len(options)
    total = head + len(carried) if total is None else total
    return struct.pack("!BBHHHBBH4s4s", 0x40 | head // 4, 0, total, 7, fragment, 64, protocol, 0, source,
                       target) + options + carried


def ipv6(source, target, carried, protocol, headers=(), total=None):
    """With extension headers: the kind and the bytes of each, but for the first byte, the kind that follows."""
    kinds = [*(kind for kind, _ in headers), protocol]
    behind = b"".join(bytes([kinds[i + 1]]) + rest for i, (_, rest) in enumerate(headers)) + carried
    total = len(behind) if total is None else total
    return struct.pack("!IHBB16s16s", 0x60000000, total, kinds[0], 64, source, target) + behind


def ether_type(packet):
    return b"\x08\x00" if packet[0] >> 4 == 4 else b"\x86\xdd"


def ethernet(packet, tags=b""):
    """A frame of at least 60 bytes, as it is on the wire; tags of 802.1Q are before its type."""
    return (bytes(range(12)) + tags + ether_type(packet) + packet).ljust(60, b"\xee")


def cooked(packet, tags=b""):
    kind = tags[:2] or ether_type(packet)
    return struct.pack("!HHH8s", 0, 1, 6, bytes(8)) + kind + tags[2:] + ether_type(packet) * bool(tags) + packet


def cooked_2(packet):
    return ether_type(packet) + struct.pack("!HIHBB8s", 0, 1, 1, 0, 6, bytes(8)) + packet


def loopback(order, family):
    """What puts packets behind an address family."""
    return lambda packet: struct.pack(order + "I", family) + packet


def raw(packet):
    return packet


# A tag of 802.1Q, and two.
TAG, TAGS = b"\x81\x00\x00\x07", b"\x88\xa8\x00\x08\x81\x00\x00\x07"
# Link types, and what makes a packet of each of a packet of IP; whether that is of version 4, 6, or either.
LINKS = (
    (1, ethernet, 0), (1, lambda it: ethernet(it, TAG), 0), (1, lambda it: ethernet(it, TAGS), 0),
    (113, cooked, 0), (113, lambda it: cooked(it, TAG), 0), (276, cooked_2, 0),
    (12, raw, 0), (14, raw, 0), (101, raw, 0), (228, raw, 4), (229, raw, 6),
    (0, loopback("<", 2), 4), (0, loopback(">", 2), 4), (108, loopback(">", 2), 4),
    *((0, loopback(order, family), 6) for order in "<>" for family in (10, 23, 24, 28, 30)),
)


def pcap(packets, link=1, order="<", parts=1_000_000, most=None, version=(2, 4), times=time_of):
    """A capture as tcpdump writes it: packets with so many parts of a second, each of at most so many bytes."""
    magic = {1_000_000: 0xA1B2C3D4, SECOND: 0xA1B23C4D}[parts]
    found = [struct.pack(order + "IHHIIII", magic, *version, 0, 0, most or 262_144, link)]
    for i, packet in enumerate(packets):
        seconds, rest = divmod(times(i), SECOND)
        kept = packet[:most]
        found.append(struct.pack(order + "IIII", seconds, rest * parts // SECOND, len(kept), len(packet)) + kept)
    return b"".join(found)


def block(kind, body, order="<"):
    """A block of pcapng."""
    size = struct.pack(order + "I", 12 + len(body) + -len(body) % 4)
    return struct.pack(order + "I", kind) + size + body + bytes(-len(body) % 4) + size


def option(code, value, order="<"):
    return struct.pack(order + "HH", code, len(value)) + value + bytes(-len(value) % 4)


def section(order="<"):
    body = struct.pack(order + "IHHq", 0x1A2B3C4D, 1, 0, -1)
    return block(0x0A0D0D0A, body + option(4, b"a test", order) + option(0, b"", order), order)


def interface(link=1, order="<", resolution=None, offset=None, most=0):
    """The description of an interface; the options for its clock come behind another one."""
    options = [option(2, b"eth0", order)]
    if resolution is not None:
        options.append(option(9, bytes([resolution]), order))
    if offset is not None:
        options.append(option(14, struct.pack(order + "q", offset), order))
    return block(1, struct.pack(order + "HHI", link, 0, most) + b"".join(options) + option(0, b"", order), order)


def enhanced(packet, ticks, order="<", number=0, most=None):
    kept = packet[:most]
    body = struct.pack(order + "IIIII", number, ticks >> 32, ticks % WORLD, len(kept), len(packet))
    return block(6, body + kept + bytes(-len(kept) % 4) + option(1, b"why", order) + option(0, b"", order), order)


def old_packet(packet, ticks, order="<", number=0):
    body = struct.pack(order + "HHIIII", number, 3, ticks >> 32, ticks % WORLD, len(packet), len(packet))
    return block(2, body + packet, order)


def simple(packet, order="<", most=0):
    return block(3, struct.pack(order + "I", len(packet)) + packet[:most or None], order)


def pcapng(packets, link=1, order="<", most=None):
    """A capture as Wireshark writes it, with times in microseconds."""
    found = [enhanced(packet, time_of(i) // 1_000, order, most=most) for i, packet in enumerate(packets)]
    return section(order) + interface(link, order) + b"".join(found)


class Talk:
    """A connection whose packets are captured: each call gives a packet. Places count from the SYN's, which is 0."""

    def __init__(self, client=CLIENT, server=SERVER, first=1_000, server_first=9_000):
        self.client, self.server, self.first, self.server_first = client, server, first, server_first
        self.sent = self.answered = 1

    def says(self, place, data=b"", flags=ACK, **more):
        """A segment of the client at a place."""
        acknowledged = self.server_first + self.answered if flags & ACK else 0
        carried = tcp(self.client[1], self.server[1], self.first + place, acknowledged, flags, data)
        return ip(self.client[0], self.server[0], carried, **more)

    def hears(self, place, data=b"", flags=ACK, acknowledged=None):
        """A segment of the server at a place; it has all that the client sent, or what is acknowledged."""
        number = self.first + (self.sent if acknowledged is None else acknowledged)
        carried = tcp(self.server[1], self.client[1], self.server_first + place, number, flags, data)
        return ip(self.server[0], self.client[0], carried)

    def opened(self):
        """The three packets that open it."""
        options = b"\x02\x04\x05\xb4\x01\x03\x03\x07"
        syn = tcp(self.client[1], self.server[1], self.first, 0, SYN, options=options)
        answer = tcp(self.server[1], self.client[1], self.server_first, self.first + 1, SYN | ACK, options=options)
        return [ip(self.client[0], self.server[0], syn), ip(self.server[0], self.client[0], answer), self.says(1)]

    def sends(self, data):
        """The client's next bytes."""
        self.sent += len(data)
        return self.says(self.sent - len(data), data, ACK | PSH)

    def answers(self, data):
        """The server's next bytes."""
        self.answered += len(data)
        return self.hears(self.answered - len(data), data, ACK | PSH)

    def closed(self):
        """The packets that close it, first the client's side."""
        fin = self.says(self.sent, b"", FIN | ACK)
        self.sent += 1
        answer = self.hears(self.answered, b"", FIN | ACK)
        self.answered += 1
        return [fin, answer, self.says(self.sent)]

    def peers(self):
        """Both sides, as a comment of a text names them."""
        return " to ".join(f"[{host}]:{port}" if ":" in host else f"{host}:{port}" for host, port in
                           (self.client, self.server))


def made(capture, is_answers=False):
    """What a capture becomes, or the fault that is named."""
    lines = []
    try:
        convert(io.BytesIO(capture), "a", PORT, is_answers, lines.append)
    except Fault as why:
        return str(why)
    return "".join(lines)


def text(talks, events, version="pcap 2.4"):
    """The text of events: a sign and a connection; of a piece also which packet brought it, and its bytes."""
    lines = [f"# Connections to port {PORT} in 'a', {version}"]
    for sign, number, *piece in events:
        if sign == "+":
            lines.append(f"# {number}: {talks[number - 1].peers()}")
        if sign in ("closed", "reset"):
            lines.append(f"# {number}: the server {sign} it")
        elif piece:
            lines.append(f"> {number} {moment_of(piece[0])} {piece[1].hex()}")
        else:
            lines.append(f"{sign} {number}")
    return "\n".join(lines) + "\n"


def all_made(cases, is_answers=False):
    """Whether each capture becomes what it must; a case is its name, the capture and what that is."""
    wrong, count = 0, 0
    for name, capture, wanted in cases:
        found, count = made(capture, is_answers), count + 1
        if found != wanted:
            wrong += 1
            if wrong < 5:
                print(f"  {name}: it must become\n{wanted}\n  and became\n{found}")
    return wrong == 0 < count


def session(talk, pieces=FRAMES):
    """The packets of a client that opens a connection, sends pieces that the server acknowledges, and closes it."""
    found = talk.opened()
    for piece in pieces:
        found += [talk.sends(piece), talk.hears(1)]
    return found + talk.closed()


def events_of(pieces=FRAMES, number=1):
    """The events of the same."""
    return [("+", number), *((">", number, 3 + 2 * i, piece) for i, piece in enumerate(pieces)), ("-", number)]
