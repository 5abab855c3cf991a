"""Times what clients wait for others, over TCP, beside one that searches a folder of 4,080 files with long names.

One client sends a piece of 39 chains of 16 queries whose pattern matches no name, or of as many as fit; the other one
ECHO after the other.
"""
import sys
import threading
import time

from tests.smb.client import ALL_ACCESS, LONGEST_PIECE, opens_the_root
from tests.smb.frames import chain, close, create, echoes, query_directory
from tests.smb.program import Program

FILES, NAME, CHAIN, CREATE, WANTED = 4_080, 251, 16, 2, 1_024
# The first ends at the last unit of each name; the others are looked at up to its first one.
PATTERNS = (('`*b*x`', '*b*x'), ('`*x`, `*b` 126 times', '*x' + '*b' * 126), ('`<x`, `<b` 126 times', '<x' + '<b' * 126))


def fill(client):
    """Makes the files; the next MessageId is told."""
    for i in range(FILES):
        client.send(create(4 + 2 * i, f'{i:04}' + 'b' * NAME, ALL_ACCESS, CREATE, 0, 1, 1) + close(5 + 2 * i, 2 + i, 1, 1))
        client.reply()
        client.reply()
    return 4 + 2 * FILES


def searches(pattern, first):
    """A piece of chains of queries, as many as fit."""
    one = len(chain([query_directory(0, 1, 12, 1, pattern, WANTED, 1, 1)] * CHAIN))
    return [chain([query_directory(first + CHAIN * i + j, 1, 12, 1, pattern, WANTED, 1, 1) for j in range(CHAIN)])
            for i in range(LONGEST_PIECE // one)]


def longest_wait(client, first, ended):
    """The longest time that an ECHO of a client waits until the other has ended, and the next MessageId."""
    longest = 0
    while not ended.is_set():
        begin = time.perf_counter()
        client.asks(echoes(first, 1))
        longest = max(longest, time.perf_counter() - begin)
        first += 1
    return longest, first


def take(client, count, ended):
    for _ in range(count):
        client.reply()
    ended.set()


def waits(program):
    print('| pattern | chains in a piece | one chain, ms | longest wait of another client, ms |')
    print('|---|---|---|---|')
    with program.serve() as share:
        searching, beside = share.client(), share.client()
        if not opens_the_root(searching) or not beside.negotiates():
            raise AssertionError('no client is served')
        first, echo = fill(searching), 1
        for name, pattern in PATTERNS:
            begin = time.perf_counter()
            searching.send(searches(pattern, first)[0])
            searching.reply()
            one = time.perf_counter() - begin
            frames = searches(pattern, first + CHAIN)
            first += CHAIN * (1 + len(frames))
            ended = threading.Event()
            searching.send(b''.join(frames))
            taking = threading.Thread(target=take, args=(searching, len(frames), ended))
            taking.start()
            longest, echo = longest_wait(beside, echo, ended)
            taking.join()
            print(f'| {name} | {len(frames)} | {1000 * one:.0f} | {1000 * longest:.0f} |', flush=True)


if __name__ == '__main__':
    waits(Program(*sys.argv[1:2]))
