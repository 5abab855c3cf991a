"""Times the proved program over TCP on one machine.

A client keeps so many requests in flight: where that is one, it sends a request, waits for its answer, and so on. The script's own time is a
part of each figure. A set-up is a connection that negotiates, sets up a session, connects to the share and ends. Idle: processor
time of the program in ten seconds in which nobody says anything. READs and WRITEs of 65,536 and of 524,288 bytes, each of a CreditCharge of 8,
stand beside each other, three times; the processor time for each MB is the program's own, with the system's part in it.
"""
import sys
import time

from bench.exchanging import processor_seconds, seconds_for
from tests.smb.client import ALL_ACCESS, LONGEST_PIECE, OPEN_IF, opens_a_file
from tests.smb.frames import charge_of, close, create, echoes, read, session_setup, tree_connect, write
from tests.smb.program import Program

IDLE_SECONDS = 10
PIECE = bytes(LONGEST_PIECE)
AT_ONCE, FILE_SIZE, TIMES = 524_288, 16 << 20, 3
LONG_PIECE = bytes(AT_ONCE)


def place(i):
    return i % 256 * LONGEST_PIECE


def long_place(i):
    return i // charge_of(AT_ONCE) * AT_ONCE % FILE_SIZE


def pair_of(i):
    """The frames of a CREATE and a CLOSE of the open that it makes; the MessageIds from 4 on are all of such pairs."""
    return create(i, 'b', ALL_ACCESS, OPEN_IF, 0, 1, 1) if i % 2 == 0 else close(i, 2 + (i - 4) // 2, 1, 1)


# What is exchanged, its bytes of a file, how often, how many are in flight, and the frame of a MessageId. Pairs come first: their opens' numbers follow from
# the MessageIds.
EXCHANGES = (
    ('CREATE, then CLOSE', 0, 20_000, 1, pair_of),
    ('ECHO', 0, 20_000, 1, lambda i: echoes(i, 1)),
    ('ECHO', 0, 40_000, 16, lambda i: echoes(i, 1)),
    ('WRITE of 65,536 bytes', LONGEST_PIECE, 2_000, 1, lambda i: write(i, 1, place(i), PIECE, 1, 1)),
    ('WRITE of 65,536 bytes', LONGEST_PIECE, 4_000, 8, lambda i: write(i, 1, place(i), PIECE, 1, 1)),
    ('READ of 65,536 bytes', LONGEST_PIECE, 2_000, 1, lambda i: read(i, 1, place(i), LONGEST_PIECE, 1, 1)),
    ('READ of 65,536 bytes', LONGEST_PIECE, 4_000, 8, lambda i: read(i, 1, place(i), LONGEST_PIECE, 1, 1)),
)


# WRITEs and READs of few and of many bytes: how many each has, and the frame of a MessageId; and how many are in flight of both.
LENGTHS = tuple((name, size, count, frame) for name, few, many in (
    ('WRITE', lambda i: write(i, 1, place(i), PIECE, 1, 1), lambda i: write(i, 1, long_place(i), LONG_PIECE, 1, 1)),
    ('READ', lambda i: read(i, 1, place(i), LONGEST_PIECE, 1, 1), lambda i: read(i, 1, long_place(i), AT_ONCE, 1, 1)),
) for size, count, frame in ((LONGEST_PIECE, 8_000, few), (AT_ONCE, 1_000, many)))
BYTES_IN_FLIGHT = (LONGEST_PIECE, AT_ONCE, 4 * AT_ONCE)


def beside(share, count):
    """So many other clients, which say nothing more."""
    clients = [share.client() for _ in range(count)]
    if not all(client.negotiates() for client in clients):
        raise AssertionError('a client is not served')
    return clients


def exchanges(program):
    print('| exchange | in flight | other clients | count | microseconds each | a second | MB/s |')
    print('|---|---|---|---|---|---|---|')
    for others in (0, 63):
        with program.serve() as share:
            clients = beside(share, others)
            client = share.client()
            if not opens_a_file(client):
                raise AssertionError('no file was opened')
            message_id = 4
            for name, size, count, in_flight, frame in EXCHANGES:
                took = seconds_for(client, (frame(i) for i in range(message_id, message_id + count)), in_flight)
                message_id += count
                rate = f'{size * count / took / 1e6:,.0f}' if size else ''
                print(f'| {name} | {in_flight} | {len(clients)} | {count:,} | {took / count * 1e6:.1f} | {count / took:,.0f} | {rate} |', flush=True)


def lengths(program):
    print('| bytes in flight | request | bytes | in flight | MB | MB/s by the clock | processor microseconds for each MB |')
    print('|---|---|---|---|---|---|---|')
    with program.serve() as share:
        client = share.client()
        if not opens_a_file(client):
            raise AssertionError('no file was opened')
        message_id = 4
        for asked in BYTES_IN_FLIGHT * TIMES:
            for name, size, count, frame in LENGTHS:
                in_flight = asked // size
                if in_flight == 0:
                    continue
                end = message_id + count * charge_of(size)
                before = processor_seconds(share.process)
                took = seconds_for(client, (frame(i) for i in range(message_id, end, charge_of(size))), in_flight)
                spent, message_id = processor_seconds(share.process) - before, end
                megabytes = size * count / 1e6
                print(f'| {asked:,} | {name} | {size:,} | {in_flight} | {megabytes:,.0f} | {megabytes / took:,.0f} | {spent / megabytes * 1e6:,.0f} |', flush=True)


def set_ups(program, count=5_000):
    print('| set-ups | seconds | a second |')
    print('|---|---|---|')
    with program.serve() as share:
        start = time.perf_counter()
        for i in range(count):
            client = share.client()
            if not client.negotiates() or client.asks(session_setup(1)) != 0 or client.asks(tree_connect(2, 1 + i)) != 0:
                raise AssertionError('a client is not served')
            client.reset()
        took = time.perf_counter() - start
        print(f'| {count:,} | {took:.2f} | {count / took:,.0f} |', flush=True)


def idle(program):
    print('| clients | processor milliseconds in 10 s |')
    print('|---|---|')
    for count in (0, 1, 64):
        with program.serve() as share:
            clients = beside(share, count)
            before = processor_seconds(share.process)
            time.sleep(IDLE_SECONDS)
            print(f'| {len(clients)} | {(processor_seconds(share.process) - before) * 1e3:.1f} |', flush=True)


def main(program):
    for place, measured in enumerate((exchanges, lengths, set_ups, idle)):
        print('\n' * (place > 0), end='')
        measured(program)


if __name__ == '__main__':
    main(Program(*sys.argv[1:2]))
