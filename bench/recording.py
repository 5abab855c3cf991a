"""Times the proved program over TCP with what it keeps and what it logs, on one machine.

Each kind of keeping, and then each level of a log, serves one client that sends a request, waits for its answer, and so
on, ROUNDS times in turn; each figure is the median. Then so many clients write at once to a share whose journal is
synced, each to its own file, WRITES times, and each waits for its answer. Then a share with so many MiB of files is
begun again from its journal: from the start of the program until it listens. The files lie in the folder that the
system gives for temporary ones, on its disk.
"""
import os
import statistics
import struct
import sys
import tempfile
import time

from bench.exchanging import seconds_for, take_reply
from tests.smb.client import ALL_ACCESS, LONGEST_PIECE, OPEN_IF, opens_a_file
from tests.smb.frames import create, echoes, read, session_setup, tree_connect, write
from tests.smb.program import Program

ROUNDS = 5
# How many clients write at once to a synced journal, how often each does, and how many bytes.
AT_ONCE, WRITES, SHORT = (1, 4, 16, 48), 100, 4_096
PIECE = os.urandom(LONGEST_PIECE)
KEPT = (('nothing', ()), ('--record', ('--record',)), ('--journal', ('--journal',)),
        ('--journal --sync', ('--sync', '--journal')))
LOGGED = (('no log', ()), ('--log-level sessions', ('--log-level', 'sessions', '--log')),
          ('--log-level refusals', ('--log-level', 'refusals', '--log')),
          ('--log-level requests', ('--log-level', 'requests', '--log')))
EXCHANGES = (
    ('ECHO', 5_000, lambda i: echoes(i, 1)),
    ('WRITE of 65,536 bytes', 400, lambda i: write(i, 1, i % 256 * LONGEST_PIECE, PIECE, 1, 1)),
    ('READ of 65,536 bytes', 400, lambda i: read(i, 1, i % 256 * LONGEST_PIECE, LONGEST_PIECE, 1, 1)),
)


def words_of(kind, folder, number):
    """The words of a kind of keeping, with a new file in a folder."""
    return kind + (os.path.join(folder, f'kept-{number}'),) if kind else ()


def times_of(program, words):
    """The microseconds of each exchange, one after the other, of one client of a new share."""
    with program.serve(*words) as share:
        client = share.client()
        if not opens_a_file(client):
            raise AssertionError('no file was opened')
        message_id, found = 4, []
        for _, count, frame in EXCHANGES:
            took = seconds_for(client, (frame(i) for i in range(message_id, message_id + count)), 1)
            message_id += count
            found.append(took / count * 1e6)
        return found


def exchanges(program, folder, kinds):
    found = {kind: [] for kind, _ in kinds}
    for number in range(ROUNDS):
        for kind, words in kinds:
            found[kind].append(times_of(program, words_of(words, folder, f'{number}-{kind.replace(" ", "").replace(",", "")}')))
            clear(folder)
    print('| served with | ' + ' | '.join(f'{name}, microseconds' for name, _, _ in EXCHANGES) + ' |')
    print('|---|' + '---|' * len(EXCHANGES))
    for kind, _ in kinds:
        medians = (statistics.median(times[place] for times in found[kind]) for place in range(len(EXCHANGES)))
        print(f'| {kind} | ' + ' | '.join(f'{median:,.1f}' for median in medians) + ' |', flush=True)


def comes_in(client, name):
    """Opens a file of a client's own, and gives its session's number and the open's."""
    if not client.negotiates():
        raise AssertionError('a client is not served')
    client.send(session_setup(1))
    session = struct.unpack_from('<Q', client.reply(), 40)[0]
    client.asks(tree_connect(2, session))
    client.send(create(3, name, ALL_ACCESS, OPEN_IF, 0, session, 1))
    return session, struct.unpack_from('<Q', client.reply(), 128)[0]


def microseconds_of_synced(program, folder, count):
    """How long a WRITE takes, where so many clients write at once to a share whose journal is synced."""
    with program.serve('--sync', '--journal', os.path.join(folder, f'synced-{count}')) as share:
        clients = [share.client() for _ in range(count)]
        opened = [comes_in(client, f'{number}') for number, client in enumerate(clients)]
        start = time.perf_counter()
        for i in range(WRITES):
            for client, (session, file) in zip(clients, opened):
                client.send(write(4 + i, file, i * SHORT, PIECE[:SHORT], session, 1))
            for client in clients:
                take_reply(client)
        return (time.perf_counter() - start) / WRITES / count * 1e6


def synced(program, folder):
    print(f'| clients | a WRITE of {SHORT:,} bytes with --journal --sync, microseconds |')
    print('|---|---|')
    for count in AT_ONCE:
        found = [microseconds_of_synced(program, folder, count) for _ in range(ROUNDS) if not clear(folder)]
        print(f'| {count} | {statistics.median(found):,.1f} |', flush=True)


def clear(folder):
    """Takes away what is in a folder."""
    for name in os.listdir(folder):
        os.remove(os.path.join(folder, name))


def fill(client, megabytes):
    """Writes so many MiB, 16 to a file."""
    message_id, parts = 3, min(megabytes, 16) * (1 << 20) // LONGEST_PIECE
    for file in range(max(1, megabytes // 16)):
        if client.asks(create(message_id, f'f{file}', ALL_ACCESS, OPEN_IF, 0, 1, 1)) != 0:
            raise AssertionError('no file was opened')
        first = message_id + 1
        frames = (write(i, file + 1, (i - first) * LONGEST_PIECE, PIECE, 1, 1) for i in range(first, first + parts))
        seconds_for(client, frames, 1)
        message_id = first + parts


def kept_files(program, folder, megabytes):
    """A journal of a share with so many MiB, and how long a start with it takes."""
    path = os.path.join(folder, f'journal-{megabytes}')
    with program.serve('--journal', path) as share:
        client = share.client()
        if not client.negotiates() or any(client.asks(it) != 0 for it in (session_setup(1), tree_connect(2, 1))):
            raise AssertionError('a client is not served')
        fill(client, megabytes)
    start = time.perf_counter()
    with program.serve('--journal', path):
        return path, time.perf_counter() - start


def restarts(program, folder):
    print('| MiB of files | MB of journal | seconds until it listens |')
    print('|---|---|---|')
    for megabytes in (1, 16, 64):
        path, took = kept_files(program, folder, megabytes)
        print(f'| {megabytes} | {os.path.getsize(path) / 1e6:,.1f} | {took:.2f} |', flush=True)


def main(program):
    with tempfile.TemporaryDirectory() as room:
        exchanges(program, room, KEPT)
        print()
        exchanges(program, room, LOGGED)
        print()
        synced(program, room)
        print()
        restarts(program, room)


if __name__ == '__main__':
    main(Program(*sys.argv[1:2]))
