"""Times the proved program on pairs of CREATE and CLOSE.

The files are made first, and then opened and closed in turn.
"""
import sys

from bench.runs import Replays, piece, succeeds
from tests.smb.frames import close, create, negotiate, session_setup, tree_connect

READ_DATA, OPEN, CREATE = 1, 1, 2


def write_replay(path, files, pairs):
    """A replay that makes so many files, closes each, and then opens and closes them so often."""
    with open(path, 'w') as text:
        text.write('+ 1\n')
        for frame in (negotiate(), session_setup(1), tree_connect(2, 1)):
            piece(text, 1, frame)
        for i in range(files + pairs):
            disposition = CREATE if i < files else OPEN
            piece(text, 1, create(3 + 2 * i, f'file{i % files}', READ_DATA, disposition, 0, 1, 1))
            piece(text, 1, close(4 + 2 * i, 1 + i, 1, 1))


def measure(replays, files, pairs):
    seconds, peak, _ = replays.replayed(write_replay, (files, pairs), succeeds, 3 + 2 * (files + pairs))
    print(f'| {files:,} | {pairs:,} | {seconds:.2f} | {1e6 * seconds / (files + pairs):.0f} | {peak:.0f} |')


def main(replays):
    print('| files | pairs | seconds | microseconds a pair | peak MiB |')
    print('|---|---|---|---|---|')
    for files in (10, 1_000):
        for pairs in (10_000, 40_000):
            measure(replays, files, pairs)


if __name__ == '__main__':
    main(Replays(*sys.argv[1:2]))
