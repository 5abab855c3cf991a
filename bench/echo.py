"""Times the proved program on ECHO requests.

Eight connections take turns; each stream is cut into pieces of 1, 7 and 4,096 bytes. Frames of one ECHO,
and of chains of 16. Four times the requests should cost about four times the time.
"""
import sys

from bench.runs import Replays, piece
from tests.smb.frames import echoes, negotiate

CONNECTIONS = 8
PIECES = [1, 7, 4096]


def pieces(stream):
    at, turn = 0, 0
    while at < len(stream):
        size = PIECES[turn % len(PIECES)]
        yield stream[at:at + size]
        at, turn = at + size, turn + 1


def write_replay(path, each, chain):
    """A replay of so many frames on each connection, with chains of this length."""
    streams = []
    for _ in range(CONNECTIONS):
        frames = [negotiate()] + [echoes(1 + chain * i, chain) for i in range(each)]
        streams.append(b''.join(frames))
    with open(path, 'w') as text:
        for number in range(1, CONNECTIONS + 1):
            text.write(f'+ {number}\n')
        for turn in zip(*(list(pieces(stream)) for stream in streams)):
            for number, part in enumerate(turn, 1):
                piece(text, number, part)


def measure(replays, requests, chain):
    each = requests // CONNECTIONS // chain
    seconds, peak, text = replays.replayed(write_replay, (each, chain), lambda line: True, CONNECTIONS * (1 + each))
    stream = CONNECTIONS * (len(negotiate()) + each * len(echoes(1, chain))) / 1e6
    print(f'| {requests:,} | {chain} | {stream:.1f} | {text:.1f} | {seconds:.2f} '
          f'| {stream / seconds:.1f} | {peak:.0f} |')


def main(replays):
    print('| requests | in a chain | MB of streams | MB of text | seconds | MB/s of streams | peak MiB |')
    print('|---|---|---|---|---|---|---|')
    for chain in (1, 16):
        for requests in (50_000, 200_000):
            measure(replays, requests, chain)


if __name__ == '__main__':
    main(Replays(*sys.argv[1:2]))
