"""The most memory that the program takes: full files, and 64 clients that read nothing of what they are owed.

Four files hold 16 MiB each, the capacity. Each client then sends, in one piece, so many READs of so many bytes, and takes
nothing. 511 READs of 65,536 bytes are answered by 33,531,820 bytes: more than 33,554,432 may not be owed, and more are not
read of a client that does not take what it was sent. READs of 524,288 bytes are performed one frame at a time, and the next
frame waits until the client took the answers before. In one row each frame has 16 of them, whose MessageIds the client
guesses; in one each client sends a frame of 1,048,576 bytes, but for its last byte.
"""
import struct
import sys
import time

from bench.drops import AT_ONCE, IN_A_PIECE, MAY_BE_OWED, Reader, stopped
from tests.smb.client import LONGEST_PIECE
from tests.smb.frames import read, write
from tests.smb.program import descriptors_of, memory_of, Program

CLIENTS, FILES, PIECES, CHAINED = 64, 4, 256, 16
LONGEST_PAYLOAD = 1_048_576


def most_of(share):
    """The most bytes of memory that the program had at one time."""
    with open(f'/proc/{share.process.pid}/status', encoding='ascii') as it:
        return 1_024 * int(next(line for line in it if line.startswith('VmHWM:')).split()[1])


def settled(share):
    """The most bytes of memory that the program had, once it has had no more for two seconds."""
    most = 0
    while most != most_of(share):
        most = most_of(share)
        time.sleep(2)
    return most


def fill(readers):
    """Writes the files that the first clients have open, each up to 16 MiB."""
    for reader in readers[:FILES]:
        for i in range(1, PIECES):
            frame = write(4 + i, reader.open, i * LONGEST_PIECE, b'x' * LONGEST_PIECE, reader.session, 1)
            if reader.client.asks(frame) != 0:
                raise AssertionError('a file is not filled')


def first_of(i):
    """The next MessageId of a client, by its place."""
    return 4 + PIECES if i < FILES else 5


def ask_all(share, readers, counts, size):
    """Each client sends so many READs; all are there before one is read."""
    with stopped(share):
        for i, (reader, count) in enumerate(zip(readers, counts)):
            reader.asks(count, first_of(i), size)


def each_asks(count, size):
    return lambda share, readers: ask_all(share, readers, [count] * CLIENTS, size)


def chained(frames):
    """One frame of the requests of these, each of which has the length of a multiple of 8 when it is padded."""
    bodies = [frame[4:] + bytes(-(len(frame) - 4) % 8) for frame in frames]
    linked = [body[:20] + struct.pack('<I', len(body)) + body[24:] for body in bodies[:-1]] + [frames[-1][4:]]
    return struct.pack('>I', sum(map(len, linked))) + b''.join(linked)


def chains(share, readers):
    with stopped(share):
        for i, reader in enumerate(readers):
            ids = range(first_of(i), first_of(i) + 8 * (IN_A_PIECE - CHAINED), 8)
            frames = [read(it, reader.open, 0, AT_ONCE, reader.session, 1) for it in ids]
            reader.client.send(b''.join(chained(frames[at:at + CHAINED]) for at in range(0, len(frames), CHAINED)))


def a_frame_but_for_a_byte(share, readers):
    for reader in readers:
        reader.client.send(struct.pack('>I', LONGEST_PAYLOAD) + bytes(LONGEST_PAYLOAD - 1))


# What 64 clients do, and how many bytes are then owed to each.
ROWS = (
    ('one READ of 524,288 bytes', AT_ONCE + 84, each_asks(1, AT_ONCE)),
    ('511 READs of 65,536 bytes', MAY_BE_OWED * (LONGEST_PIECE + 84), each_asks(MAY_BE_OWED, LONGEST_PIECE)),
    ('560 READs of 524,288 bytes', AT_ONCE + 84, each_asks(IN_A_PIECE, AT_ONCE)),
    ('560 of them in chains of 16', CHAINED * (AT_ONCE + 80) + 4, chains),
    ('a frame of 1,048,576 bytes but for one', 0, a_frame_but_for_a_byte),
)


def most_memory(program):
    print('| what each of 64 clients sends | MiB in files | bytes owed to each | before | with the files | most | once the clients went |')
    print('|---|---|---|---|---|---|---|')
    for name, owed, asks in ROWS:
        with program.serve() as share:
            before = memory_of(share)
            readers = [Reader(share, f'file {i % FILES}') for i in range(CLIENTS)]
            fill(readers)
            filled, descriptors = memory_of(share), descriptors_of(share)
            asks(share, readers)
            most = settled(share)
            for reader in readers:
                reader.client.reset()
            while descriptors_of(share) > descriptors - CLIENTS:
                time.sleep(0.01)
            figures = ' | '.join(f'{figure / 1e6:,.0f} MB' for figure in (before, filled, most, memory_of(share)))
            print(f'| {name} | {FILES * PIECES * LONGEST_PIECE >> 20} | {owed:,} | {figures} |', flush=True)


if __name__ == '__main__':
    most_memory(Program(*sys.argv[1:2]))
