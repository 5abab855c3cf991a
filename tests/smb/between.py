"""A server between clients and a share, which may change each answer: a wrong server, made of a right one."""
import socket
import struct
import threading

from tests.smb.client import PATIENCE

# Where a frame has the Status, the Command and the MessageId of its header.
STATUS_AT, COMMAND_AT, MESSAGE_ID_AT = 12, 16, 28


def status_of(frame):
    return struct.unpack_from('<I', frame, STATUS_AT)[0]


def command_of(frame):
    return struct.unpack_from('<H', frame, COMMAND_AT)[0]


def with_status(frame, status):
    """A frame with another status, and the body that it has."""
    return frame[:STATUS_AT] + struct.pack('<I', status) + frame[STATUS_AT + 4:]


class Between:
    """It listens while it is entered. `changes` is given each frame of an answer, and gives what is sent instead: the
    frame, other bytes, none where nothing is to come, or None where the connection is to be closed. `heard` has what
    each client said."""

    def __init__(self, port, changes):
        self.behind, self.changes, self.heard = port, changes, []
        self.listener = socket.create_server(('127.0.0.1', 0))
        self.port = self.listener.getsockname()[1]

    def __enter__(self):
        self.begin(self.accepts)
        return self

    def __exit__(self, *_):
        self.listener.shutdown(socket.SHUT_RDWR)
        self.listener.close()

    @staticmethod
    def begin(doing, *given):
        threading.Thread(target=doing, args=given, daemon=True).start()

    def accepts(self):
        while True:
            try:
                client = self.listener.accept()[0]
            except OSError:
                return
            share = socket.create_connection(('127.0.0.1', self.behind), PATIENCE)
            self.heard.append(bytearray())
            self.begin(self.brings, client, share, self.heard[-1])
            self.begin(self.answers, client, share)

    @staticmethod
    def brings(client, share, heard):
        """Brings what the client says to the share, until either ends."""
        try:
            for data in iter(lambda: client.recv(65_536), b''):
                heard += data
                share.sendall(data)
        except OSError:
            pass
        ends(share)

    def answers(self, client, share):
        """Brings what the share answers to the client, changed, until either ends."""
        try:
            for frame in frames_of(lambda: share.recv(65_536)):
                changed = self.changes(frame)
                if changed is None:
                    break
                client.sendall(changed)
        except OSError:
            pass
        ends(client)
        ends(share)


def ends(stream):
    """Ends a stream, also where another thread reads it."""
    try:
        stream.shutdown(socket.SHUT_RDWR)
    except OSError:
        pass


def frames_of(more):
    """The frames of a stream, each whole; `more` gives some of its bytes, and none at its end."""
    data = b''
    for part in iter(more, b''):
        data += part
        while len(data) >= 4 and len(data) >= 4 + int.from_bytes(data[:4], 'big'):
            size = 4 + int.from_bytes(data[:4], 'big')
            yield data[:size]
            data = data[size:]
