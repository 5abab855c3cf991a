"""A client over TCP: its stream, and what it asks to come in."""
import socket
import struct

from tests.smb.frames import chain, create, echoes, negotiate, query_directory, session_setup, tree_connect

ALL_ACCESS, OPEN_IF, LONGEST_PIECE = 0x1F01FF, 3, 65_536
PATIENCE = 60
STATUS_AT = 12
# How many requests a search has.
CHAIN = 16


class Client:
    """A client's stream."""

    def __init__(self, port, patience=PATIENCE, host='127.0.0.1', source=None):
        self.stream = socket.create_connection((host, port), patience, (source, 0) if source else None)

    def send(self, data):
        self.stream.sendall(data)
        return self

    def reply(self):
        """The payload of the next frame; none where the stream has ended."""
        head = self.bytes(4)
        return self.bytes(struct.unpack('>I', head)[0]) if len(head) == 4 else b''

    def bytes(self, count):
        found = b''
        while len(found) < count:
            try:
                part = self.stream.recv(count - len(found))
            except ConnectionResetError:
                part = b''
            if not part:
                break
            found += part
        return found

    def asks(self, data):
        """The status that answers a frame of one request."""
        self.send(data)
        reply = self.reply()
        return struct.unpack_from('<I', reply, STATUS_AT - 4)[0] if len(reply) >= 64 else None

    def negotiates(self):
        return self.asks(negotiate()) == 0

    def is_served(self):
        """Whether it negotiates and gets an answer to an ECHO."""
        return self.negotiates() and self.asks(echoes(1, 1)) == 0

    def is_ended(self):
        """Whether the share ends it, with nothing before."""
        return self.bytes(1) == b''

    def waiting(self):
        """How many bytes have come that are not read yet."""
        try:
            return len(self.stream.recv(1 << 20, socket.MSG_PEEK | socket.MSG_DONTWAIT))
        except BlockingIOError:
            return 0

    def end(self):
        self.stream.close()

    def reset(self):
        """Ends it so that the share's next read or send fails."""
        self.stream.setsockopt(socket.SOL_SOCKET, socket.SO_LINGER, struct.pack('ii', 1, 0))
        self.stream.close()


def opens_a_file(client):
    """Open 1 of a file, in session 1 and tree 1; the next MessageId is 4."""
    return (client.negotiates() and client.asks(session_setup(1)) == 0 and client.asks(tree_connect(2, 1)) == 0
            and client.asks(create(3, 'a', ALL_ACCESS, OPEN_IF, 0, 1, 1)) == 0)


def opens_the_root(client):
    """Open 1 of the folder at the top, in session 1 and tree 1; the next MessageId is 4."""
    return (client.negotiates() and client.asks(session_setup(1)) == 0 and client.asks(tree_connect(2, 1)) == 0
            and client.asks(create(3, '', 1, 1, 1, 1, 1)) == 0)


def search(first):
    """A chain of queries of the folder that is open 1, whose pattern matches no name."""
    return chain([query_directory(first + i, 1, 12, 1, '*b*x', 1024, 1, 1) for i in range(CHAIN)])
