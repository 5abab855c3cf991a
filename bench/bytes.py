"""Times the proved program on READ and WRITE, and on a CREATE of a file with other opens.

The file has 16 MiB: one byte is written at its end, and the rest are zeros. What a run without the requests takes is
subtracted. The text of the requests and of the answers is hex, which is most of the time.
"""
import sys

from bench.runs import Replays, piece, succeeds
from tests.smb.frames import close, create, negotiate, read, session_setup, tree_connect, write

READ_AND_WRITE, READ_DATA, OPEN_IF = 3, 1, 3
FILE_SIZE = 16 * 1024 * 1024


def begin(text):
    """A session and a tree, with open 1 of a file of 16 MiB: five frames."""
    text.write('+ 1\n')
    for frame in (negotiate(), session_setup(1), tree_connect(2, 1)):
        piece(text, 1, frame)
    piece(text, 1, create(3, 'file', READ_AND_WRITE, OPEN_IF, 0, 1, 1))
    piece(text, 1, write(4, 1, FILE_SIZE - 1, b'a', 1, 1))


def write_bytes(path, command, size, count):
    """A replay of so many READs or WRITEs of so many bytes, each at another place of the file."""
    with open(path, 'w') as text:
        begin(text)
        for i in range(count):
            offset = (i * 7919 * 4096) % (FILE_SIZE - size)
            request = read(5 + i, 1, offset, size, 1, 1) if command == 'READ' else write(5 + i, 1, offset, bytes(size), 1, 1)
            piece(text, 1, request)


def write_opens(path, opens, pairs):
    """A replay in which a file has so many opens, and is then opened and closed so often."""
    with open(path, 'w') as text:
        begin(text)
        for i in range(opens - 1):
            piece(text, 1, create(5 + i, 'file', READ_DATA, OPEN_IF, 0, 1, 1))
        for i in range(pairs):
            piece(text, 1, create(4 + opens + 2 * i, 'file', READ_DATA, OPEN_IF, 0, 1, 1))
            piece(text, 1, close(5 + opens + 2 * i, opens + 1 + i, 1, 1))


def seconds_of(replays, write_replay, arguments, wanted):
    return min(replays.replayed(write_replay, arguments, succeeds, wanted)[0] for _ in range(3))


def main(replays):
    print('| request | bytes | requests | microseconds a request | MB/s |')
    print('|---|---|---|---|---|')
    for command in ('READ', 'WRITE'):
        for size, count in ((4096, 4000), (65536, 400)):
            base = seconds_of(replays, write_bytes, (command, size, 0), 5)
            seconds = seconds_of(replays, write_bytes, (command, size, count), 5 + count) - base
            print(f'| {command} | {size:,} | {count:,} | {1e6 * seconds / count:.0f} | {size * count / 1e6 / seconds:.0f} |')
    print('\n| opens of the file | pairs of CREATE and CLOSE | microseconds a pair |')
    print('|---|---|---|')
    for opens in (1, 100, 1000):
        pairs = 10_000
        base = seconds_of(replays, write_opens, (opens, 0), 4 + opens)
        seconds = seconds_of(replays, write_opens, (opens, pairs), 4 + opens + 2 * pairs) - base
        print(f'| {opens:,} | {pairs:,} | {1e6 * seconds / pairs:.0f} |')


if __name__ == '__main__':
    main(Replays(*sys.argv[1:2]))
