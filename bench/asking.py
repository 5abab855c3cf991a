"""A client whose requests go out in chains, the requests that a script asks, and a share with large limits.

A request here is a function of a MessageId, and gives a frame of it alone; its session and its tree are put in later.
"""
import contextlib
import itertools
import os
import struct
import tempfile
import time

from bench.beside import Guest, Server, status_of
from bench.exchanging import processor_seconds, take
from tests.smb.client import ALL_ACCESS, LONGEST_PIECE
from tests.smb.frames import chain, close, create, echoes, frame, header, query_directory

CONFIG = """share = "data"
label = "DATA"
guid = "000102030405060708090a0b0c0d0e0f"
capacity = 68719476736
created = 116444736000000000
hello = ""
guest = true

[limits]
connections = 4096
opens = 1048576
locks = 4096
entries = 4294967295
file_bytes = 17179869184
capacity = 68719476736
"""
OPEN, ID_BOTH_DIRECTORY = 1, 37
RELATED, ALL_ONES, FLAGS_AT, CHARGE_AT = 4, 0xFFFF_FFFF_FFFF_FFFF, 4 + 16, 4 + 6
# As many requests as a chain takes, and how many chains of few bytes are in flight.
CHAIN, IN_FLIGHT = 16, 8
# The process that served has gone to sleep by then, and what it took is counted.
SETTLED = 0.003


class Asker(Guest):
    """A client whose requests go out in chains."""

    def __init__(self, server):
        super().__init__(server)
        self.server = server
        for _ in range(10):
            self.asks(echoes(self.take(), 1))

    def chained(self, requests, charge=1):
        """A frame of some requests, each of which takes so many MessageIds."""
        first = self.next_id
        self.next_id += charge * len(requests)
        made = [request(first + charge * i) for i, request in enumerate(requests)]
        return self.addressed(chain(made) if len(made) > 1 else made[0])

    def chains(self, requests, length=CHAIN):
        """Frames of so many of the requests each, made as they are asked for."""
        requests = iter(requests)
        while some := list(itertools.islice(requests, length)):
            yield self.chained(some)

    def takes(self, allowed=(0,)):
        """The responses of the next frame, each of which has one of these statuses."""
        reply = take(self.client, struct.unpack('>I', take(self.client, 4))[0])
        found, behind = [], 1
        while behind:
            behind = struct.unpack_from('<I', reply, 20)[0]
            if status_of(reply) not in allowed:
                raise AssertionError(f'a request is answered with {status_of(reply):#x}')
            found.append(reply[:behind or len(reply)])
            reply = reply[behind:]
        return found

    def answers(self, frames, in_flight=IN_FLIGHT, allowed=(0,)):
        """The responses of each frame, of which so many are in flight; they are gone with the next ones."""
        waiting = 0
        for it in frames:
            if waiting == in_flight:
                yield self.takes(allowed)
                waiting -= 1
            self.client.send(it)
            waiting += 1
        for _ in range(waiting):
            yield self.takes(allowed)

    def does(self, requests):
        """Has all of some requests performed."""
        for _ in self.answers(self.chains(requests)):
            pass

    def opens(self, names, disposition=OPEN, options=0):
        """The numbers of new opens of these names."""
        frames = self.chains(opening(name, disposition, options) for name in names)
        return [number_of(it) for answers in self.answers(frames) for it in answers]

    def cost(self, frames, count, in_flight=1):
        """The server's processor microseconds for each of so many requests, which these frames have."""
        before = processor_seconds(self.server.process)
        for _ in self.answers(frames, in_flight):
            pass
        time.sleep(SETTLED)
        return (processor_seconds(self.server.process) - before) / count * 1e6


def number_of(response):
    """The number of the open that a CREATE made."""
    return struct.unpack_from('<Q', response, 64 + 64)[0]


def opening(name, disposition=OPEN, options=0):
    return lambda m: create(m, name, ALL_ACCESS, disposition, options)


def closing(m):
    """A CLOSE of what the request before it opened."""
    made = bytearray(close(m, ALL_ONES))
    struct.pack_into('<I', made, FLAGS_AT, RELATED)
    return bytes(made)


def listing(number, flags=0, pattern='*', room=LONGEST_PIECE):
    """A QUERY_DIRECTORY, with the CreditCharge that its room asks for."""
    def made(m):
        it = bytearray(query_directory(m, number, ID_BOTH_DIRECTORY, flags, pattern, room))
        struct.pack_into('<H', it, CHARGE_AT, -(-room // LONGEST_PIECE))
        return bytes(it)
    return made


def ended_by(command):
    """A request whose body says nothing, such as a LOGOFF."""
    return lambda m: frame(header(command, m) + struct.pack('<HH', 4, 0))


@contextlib.contextmanager
def served(program, count=1):
    """So many servers with large limits."""
    with tempfile.TemporaryDirectory() as folder, contextlib.ExitStack() as stack:
        config = os.path.join(folder, 'share.toml')
        with open(config, 'w', encoding='ascii') as out:
            out.write(CONFIG)
        servers = []
        for _ in range(count):
            servers.append(Server('smbshare', [program, 'serve', '--listen', '127.0.0.1:0', '--config', config]))
            stack.callback(servers[-1].end)
        yield servers
