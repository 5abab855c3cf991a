"""Times what another client waits for, over TCP, where the share drops what a client is owed.

A client sends READs of 65,536 bytes in one piece: 511 are answered by 33,531,820 bytes, which it may be owed; 560, as
many as are lent at once, by more than 33,554,432, which it may not. READs of 524,288 bytes are lent to the share one frame
at a time: 63 of them, and 560, by MessageIds that the client guesses. The program is stopped while the piece, the reset and
an ECHO of two other clients come, one that came before it and one that came behind, so that they are there at one time. What is timed is from when the program goes on to when both ECHOs are answered, and the program's own processor
time meanwhile, with the system's part in it. In the last row the program may have 24 MiB beside those of its start.
"""
import contextlib
import os
import signal
import socket
import statistics
import sys
import time

from bench.exchanging import processor_seconds
from tests.smb.client import ALL_ACCESS, LONGEST_PIECE, OPEN_IF
from tests.smb.frames import charge_of, create, echoes, negotiate, read, session_setup, tree_connect, write
from tests.smb.program import addresses_of, memory_of, Program

ROOM, TIMES = 24 << 20, 30
# How many READs are answered by what may be owed, and how many are lent at once.
MAY_BE_OWED, IN_A_PIECE = 511, 560
# The most bytes of a READ in dialect 2.1, and how many of these are asked for in a piece.
AT_ONCE, LONG_READS = 524_288, 63
SESSION_ID_AT, FILE_ID_AT = 40, 128


@contextlib.contextmanager
def stopped(share):
    """The program does nothing meanwhile. What is lent is a list, whose item is the moment at which it goes on."""
    moment = []
    os.kill(share.process.pid, signal.SIGSTOP)
    try:
        yield moment
    finally:
        moment.append(time.perf_counter())
        os.kill(share.process.pid, signal.SIGCONT)


class Reader:
    """A client that has a file of so many bytes open, and room for few bytes that come."""

    def __init__(self, share, name='a', size=LONGEST_PIECE):
        self.client = share.client()
        self.client.stream.setsockopt(socket.SOL_SOCKET, socket.SO_RCVBUF, 4_096)
        reply = self.client.send(negotiate()).reply() and self.client.send(session_setup(1)).reply()
        self.session = int.from_bytes(reply[SESSION_ID_AT:SESSION_ID_AT + 8], 'little')
        self.client.send(tree_connect(2, self.session)).reply()
        reply = self.client.send(create(3, name, ALL_ACCESS, OPEN_IF, 0, self.session, 1)).reply()
        self.open = int.from_bytes(reply[FILE_ID_AT:FILE_ID_AT + 8], 'little')
        if self.client.asks(write(4, self.open, 0, bytes(size), self.session, 1)) != 0:
            raise AssertionError('a file is not written')
        self.next = 4 + charge_of(size)

    def asks(self, count, first=None, size=LONGEST_PIECE):
        """Sends so many READs of so many bytes of the file, with the MessageIds from this one on."""
        first = first or self.next
        ids = range(first, first + count * charge_of(size), charge_of(size))
        self.client.send(b''.join(read(i, self.open, 0, size, self.session, 1) for i in ids))


def waited(share, others, what):
    """How long the ECHOs of other clients wait, of these MessageIds, that come together with this: the longest time, and the
    program's processor time."""
    before = processor_seconds(share.process)
    with stopped(share) as moment:
        what()
        for other, message_id in others:
            other.send(echoes(message_id, 1))
    if not all(other.reply() for other, _ in others):
        raise AssertionError('another client was ended')
    return time.perf_counter() - moment[0], processor_seconds(share.process) - before


def times_of(share, prepared, size, is_ended):
    """How long the ECHOs wait, each of so many times, and the most memory that the program had before, in MB.

    The client may have to be ended, with no byte that answers its piece.
    """
    before, taken, most = share.client(), [], 0
    if not before.negotiates():
        raise AssertionError('no client is served')
    for i in range(TIMES):
        reader, behind = Reader(share, size=size), share.client()
        if not behind.is_served() or before.asks(echoes(1 + 2 * i, 1)) != 0:
            raise AssertionError('no other client is served')
        what = prepared(share, reader)
        most = max(most, memory_of(share))
        taken.append(waited(share, ((before, 2 + 2 * i), (behind, 2)), what))
        if is_ended and not reader.client.is_ended():
            raise AssertionError('what a client is owed was not dropped')
        with contextlib.suppress(OSError):
            reader.client.reset()
        behind.end()
        time.sleep(0.02)
    before.end()
    return taken, most / 1e6


def nothing(share, reader):
    return lambda: None


def a_piece(share, reader):
    return lambda: reader.asks(MAY_BE_OWED)


def a_long_piece(share, reader):
    return lambda: reader.asks(LONG_READS, size=AT_ONCE)


def a_reset(share, reader):
    with stopped(share):
        reader.asks(MAY_BE_OWED)
    if not share.client().is_served():
        raise AssertionError('no other client is served')
    return reader.client.reset


def an_overflow(share, reader):
    return lambda: reader.asks(IN_A_PIECE)


def many_long_reads(share, reader):
    return lambda: reader.asks(IN_A_PIECE, size=AT_ONCE)


# What happens, how it is prepared, how many bytes the file has, the room for memory, and whether the client is ended.
ROWS = (('nothing', nothing, LONGEST_PIECE, None, False),
        ('511 READs come in a piece, and are answered', a_piece, LONGEST_PIECE, None, False),
        ('63 READs of 524,288 bytes come in a piece, and are answered', a_long_piece, AT_ONCE, None, False),
        ('the client resets that is owed the answers of 511 READs', a_reset, LONGEST_PIECE, None, False),
        ('560 READs come in a piece; more than 33,554,432 bytes are owed', an_overflow, LONGEST_PIECE, None, True),
        ('560 READs of 524,288 bytes come in a piece', many_long_reads, AT_ONCE, None, False),
        ('511 READs come in a piece; memory runs out', a_piece, LONGEST_PIECE, ROOM, True))


def drops(program):
    with program.serve() as share:
        start = addresses_of(share)
    print('| beside the ECHOs | memory before, MB | median wait, ms | longest wait, ms | processor, median ms |')
    print('|---|---|---|---|---|')
    for name, prepared, size, room, is_ended in ROWS:
        with program.serve(memory=room and start + room) as share:
            taken, most = times_of(share, prepared, size, is_ended)
            waits, spent = zip(*taken)
            median, longest, processor = (1e3 * it for it in (statistics.median(waits), max(waits), statistics.median(spent)))
            print(f'| {name} | {most:.0f} | {median:.1f} | {longest:.1f} | {processor:.1f} |', flush=True)


if __name__ == '__main__':
    drops(Program(*sys.argv[1:2]))
