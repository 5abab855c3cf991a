"""The connections of a capture: their streams, put in order, and the text that these become."""
import heapq
import ipaddress
import itertools

from .packets import ACK, FIN, RST, SYN, Fault, opened, segment_of

# Sequence numbers are those of bytes modulo this, and a window has at most so many of them.
WORLD, WINDOW = 1 << 32, 1 << 30
# How many bytes of a stream are held while some before them are missing, and what a segment counts beside its bytes.
MOST_HELD, SEGMENT = 1 << 26, 128
MAGICS = (b"\xfeSMB", b"\xffSMB")


class Stream:
    """What one side of a connection sends, put in order.

    A place is a sequence number that is counted on past 2^32. `next` is the place behind the bytes that are in order,
    `end` that of the FIN or RST, `sent` the last where a segment began, and `acknowledged` the last that the other side
    said it got. `ahead` has the segments that come behind missing bytes, and `held` is how much they are.
    """

    def __init__(self, sequence):
        self.first = self.next = self.sent = self.acknowledged = sequence % WORLD
        self.end, self.ahead, self.held, self.order = None, [], 0, itertools.count()

    def place(self, sequence):
        """The place of a sequence number: of all that it may be, the nearest to what comes next."""
        return self.next + (sequence - self.next + WORLD // 2) % WORLD - WORLD // 2

    def is_ended(self):
        """Whether all bytes before its end are in order."""
        return self.next == self.end

    def take(self, sequence, data):
        """The bytes that are in order now that these have come, and were not before."""
        place = self.place(sequence)
        self.sent = max(self.sent, place)
        if data and place + len(data) > self.next:
            heapq.heappush(self.ahead, (place, next(self.order), data))
            self.held += SEGMENT + len(data)
        found = []
        while self.ahead and self.ahead[0][0] <= self.next:
            place, _, data = heapq.heappop(self.ahead)
            self.held -= SEGMENT + len(data)
            data = data[self.next - place:]
            found.append(data if self.end is None else data[:self.end - self.next])
            self.next += len(found[-1])
        return b"".join(found)

    def finish(self, sequence):
        """Notes the place of a FIN, behind which nothing is of the stream; one that bytes went past is passed over."""
        place = self.place(sequence)
        if place >= self.next and (self.end is None or place < self.end):
            self.end = place

    def reset(self, sequence):
        """Notes the place of an RST; one among bytes that the other side may not have got ends the stream at once."""
        is_late = self.acknowledged <= self.place(sequence) <= self.next
        self.finish(self.next if is_late else sequence)

    def acknowledge(self, sequence):
        """Notes that the other side has all before a sequence number."""
        self.acknowledged = max(self.acknowledged, self.place(sequence))

    def gap(self):
        """The first and the last sequence number of what was sent and is missing; None where there is none."""
        behind = self.ahead[0][0] if self.ahead else max(self.sent, self.acknowledged)
        return (self.next % WORLD, (behind - 1) % WORLD) if behind > self.next else None


class Connection:
    """A connection, from its SYN on: the streams of both sides, as far as they are known.

    `begun` has bytes of what is written that are looked at once more have come, `is_over` is that nothing more of it
    is written, and `is_left` that the side which is not written has ended it.
    """

    def __init__(self, syn):
        self.syn, self.peers = syn, f"{named(*syn.source)} to {named(*syn.target)}"
        self.client, self.server = Stream(syn.sequence + 1), None
        self.number, self.is_over, self.is_left, self.begun = 0, False, False, bytearray()

    def __str__(self):
        return f"connection {self.number} ({self.peers})"


def named(address, port):
    """An address and a port, as they are written."""
    host = ipaddress.ip_address(address)
    return f"[{host}]:{port}" if host.version == 6 else f"{host}:{port}"


class Connections:
    """The connections to a port, by their client's and the port's address.

    `opened` has the last one between the two, None where none was opened yet, `opening` one of which the SYN came and
    nothing of the client behind it, and `others` those that the port's side has begun.
    """

    def __init__(self, port, write):
        self.port, self.write, self.count = port, write, 0
        self.opened, self.opening, self.others = {}, {}, set()

    def take(self, segment):
        """Takes the next segment of the capture."""
        key, back = (segment.source, segment.target), (segment.target, segment.source)
        is_server = segment.source[1] == self.port and (segment.target[1] != self.port or back in self.opened)
        if not is_server and segment.target[1] != self.port or not segment.flags & (SYN | RST | ACK):
            return
        if segment.oddity:
            raise Fault(f"packet {segment.number} {segment.oddity}, which is not read")
        if self.is_other(back if is_server else key, is_server, segment.flags):
            return
        if is_server:
            self.take_of_server(back, segment)
        else:
            self.take_of_client(key, segment)

    def is_other(self, key, is_server, flags):
        """Whether a segment is of a connection that the port's side has begun, with a SYN that acknowledges nothing."""
        if flags & SYN:
            (self.others.add if is_server == (not flags & ACK) else self.others.discard)(key)
        return key in self.others

    def take_of_client(self, key, segment):
        """Takes a segment of the client; an RST just behind a SYN is of the connection that was to be opened."""
        if segment.flags & SYN:
            self.begin(key, segment)
            return
        begun = self.opening.get(key)
        distance = (segment.sequence - begun.client.first) % WORLD if begun else WORLD
        if distance == 0 and segment.flags & RST:
            del self.opening[key]
            return
        if not segment.flags & RST and self.goes_on(key, distance):
            self.open(key, segment.moment)
        connection = self.connection(key, segment)
        if connection:
            self.of_client(connection, segment)

    def take_of_server(self, key, segment):
        """Takes a segment of the server; where it refuses a SYN it has no connection from there."""
        begun = self.opening.get(key)
        is_answer = begun and segment.flags & ACK and segment.acknowledged == begun.client.first
        if is_answer and segment.flags & RST:
            del self.opening[key]
            if self.opened[key]:
                self.give_up(self.opened[key])
            return
        if is_answer and segment.flags & SYN:
            begun.server = Stream(segment.sequence + 1)
        connection = self.connection(key, segment)
        if connection and not segment.flags & SYN:
            self.of_server(connection, segment)

    def begin(self, key, segment):
        """Takes a SYN, which is nothing new where it came before."""
        for known in (self.opened.get(key), self.opening.get(key)):
            if known and known.client.first == (segment.sequence + 1) % WORLD:
                return
        self.opening[key] = Connection(segment)
        self.opened.setdefault(key, None)

    def goes_on(self, key, distance):
        """Whether a segment so far behind a SYN is of its connection, and not of one that there was before."""
        return distance == 0 if self.opened.get(key) else distance < WINDOW

    def open(self, key, moment):
        """Opens a connection: its client goes on behind its SYN. One that it had there before is over then."""
        if self.opened[key]:
            self.give_up(self.opened[key])
        it = self.opened[key] = self.opening.pop(key)
        self.count += 1
        it.number = self.count
        self.opens(it)
        if it.syn.data:
            self.of_client(it, it.syn._replace(moment=moment, sequence=it.client.first, flags=0))

    def connection(self, key, segment):
        """The open connection of a segment; None where it is not open yet, or is over."""
        if key not in self.opened and not segment.flags & RST:
            raise Fault(f"packet {segment.number} is of a connection whose opening (SYN) is not in the capture: "
                        f"{named(*key[0])} to {named(*key[1])}")
        it = self.opened.get(key)
        return it if it and not it.is_over else None

    def add(self, connection, stream, segment):
        """The bytes of a stream that are in order with this segment; notes its end, and what is over."""
        if segment.missing:
            raise Fault(f"packet {segment.number} is cut: it was captured with a snap length that leaves out "
                        f"{segment.missing} of its bytes")
        if segment.flags & RST:
            stream.reset(segment.sequence)
        elif segment.flags & FIN:
            stream.finish(segment.sequence + len(segment.data))
        found = stream.take(segment.sequence, b"" if segment.flags & RST else segment.data)
        if stream.held > MOST_HELD:
            self.refuse_gap(connection, stream)
        connection.is_over = stream.is_ended()
        return found

    def refuse_gap(self, connection, stream):
        """Raises a fault where bytes of a stream are missing."""
        gap = stream.gap()
        if gap:
            raise Fault(f"{connection}: packets were lost: the capture has no sequence numbers {gap[0]} to {gap[1]}")

    def end(self):
        """Ends the capture."""
        if not self.count:
            raise Fault(f"no connection to port {self.port} is opened in it")
        for connection in self.opened.values():
            if connection and not connection.is_over:
                self.refuse_gap(connection, self.stream_of(connection))


class Text(Connections):
    """What clients sent, as a text for a replay."""

    def stream_of(self, connection):
        """The stream that is written, and has to be whole."""
        return connection.client

    def opens(self, it):
        """Writes that a connection is opened."""
        self.write(f"# {it.number}: {it.peers}\n+ {it.number}\n")

    def of_client(self, it, segment):
        """Writes what comes of the client."""
        found = self.add(it, it.client, segment)
        if found:
            self.refuse_other(it, found)
            self.write(f"> {it.number} {segment.moment} {found.hex()}\n")
        if it.is_over:
            self.write(f"- {it.number}\n")

    def refuse_other(self, it, found):
        """Raises a fault where the first payload is not one of SMB."""
        if len(it.begun) < 8:
            it.begun = (it.begun + found)[:8]
            if it.begun[0] or not any(magic.startswith(it.begun[4:]) for magic in MAGICS):
                raise Fault(f"{it}: its first payload is not SMB: it begins with {it.begun.hex()}")

    def of_server(self, it, segment):
        """Notes what the server has got, and that it ends the connection."""
        if segment.flags & ACK:
            it.client.acknowledge(segment.acknowledged)
        if segment.flags & RST:
            self.write(f"# {it.number}: the server reset it\n")
            self.give_up(it)
        elif segment.flags & FIN and not it.is_left:
            it.is_left = True
            self.write(f"# {it.number}: the server closed it\n")

    def give_up(self, it):
        """Ends a connection of which nothing comes any more."""
        if it.is_over:
            return
        if it.client.acknowledged > it.client.next:
            self.refuse_gap(it, it.client)
        it.is_over = True
        self.write(f"- {it.number}\n")


class Answers(Connections):
    """What the server sent, as a replay prints it."""

    def stream_of(self, connection):
        """The stream that is written, and has to be whole."""
        return connection.server

    def opens(self, it):
        """Raises a fault where the server's stream has no beginning."""
        if not it.server:
            raise Fault(f"{it}: the server's SYN is not in the capture")

    def of_client(self, it, segment):
        """Notes what the client has got, and that it ends the connection."""
        it.is_left = it.is_left or bool(segment.flags & (FIN | RST))
        if segment.flags & ACK:
            it.server.acknowledge(segment.acknowledged)

    def of_server(self, it, segment):
        """Writes the frames that are whole now, and that the server ends the connection."""
        it.begun += self.add(it, it.server, segment)
        while len(it.begun) >= 4:
            size = 4 + int.from_bytes(it.begun[1:4], "big")
            if len(it.begun) < size:
                break
            self.write(f"< {it.number} {it.begun[:size].hex()}\n")
            del it.begun[:size]
        if it.is_over and not it.is_left:
            self.write(f"x {it.number}\n")

    def give_up(self, it):
        """Ends a connection of which nothing comes any more."""
        it.is_over = True


def convert(stream, name, port, is_answers, write):
    """Writes the lines of a capture, one or more at a time."""
    version, found = opened(stream)
    connections = (Answers if is_answers else Text)(port, write)
    if not is_answers:
        write(f"# Connections to port {port} in {name!a}, {version}\n")
    for packet in found:
        segment = segment_of(packet)
        if segment:
            connections.take(segment)
    connections.end()
