"""Times the proved program on listings of directories.

A folder of so many files is listed from the start to its end, by class 37 into 65,536 bytes, with `*` and with 100 times
`*`. What a run without the listings takes is subtracted.
"""
import sys

from bench.runs import Replays, piece, succeeds
from tests.smb.frames import close, create, negotiate, query_directory, session_setup, tree_connect

ALL_ACCESS, OPEN_IF, DIRECTORY_FILE = 0x1F01FF, 3, 1
ID_BOTH_DIRECTORY, RESTART_SCANS = 37, 1
FIXED, NAME = 104, 2 * len('file0000')
IN_ONE = 65_536 // (FIXED + NAME)


def begin(text, files):
    """A session and a tree, with open 1 of a folder of so many files. Gives the number of frames, which is the next
    MessageId."""
    text.write('+ 1\n')
    for frame in (negotiate(), session_setup(1), tree_connect(2, 1)):
        piece(text, 1, frame)
    piece(text, 1, create(3, 'd', ALL_ACCESS, OPEN_IF, DIRECTORY_FILE, 1, 1))
    frames = 4
    for i in range(files):
        piece(text, 1, create(frames, f'd\\file{i:04}', ALL_ACCESS, OPEN_IF, 0, 1, 1))
        piece(text, 1, close(frames + 1, 2 + i, 1, 1))
        frames += 2
    return frames


def queries(files):
    """How many queries list the folder, with `.` and `..`."""
    return -(-(files + 2) // IN_ONE)


def write_listings(path, files, pattern, listings):
    """A replay in which the folder is listed so often."""
    with open(path, 'w') as text:
        frames = begin(text, files)
        for _ in range(listings):
            for i in range(queries(files)):
                flags = 0 if i else RESTART_SCANS
                piece(text, 1, query_directory(frames, 1, ID_BOTH_DIRECTORY, flags, pattern, 65_536, 1, 1))
                frames += 1


def main(replays):
    print('| files | pattern | listings | entries a second |')
    print('|---|---|---|---|')
    for files, listings in ((10, 5_000), (1_000, 10), (4_000, 1)):
        for pattern, told in (('*', '`*`'), ('*' * 100, '100 `*`')):
            def seconds(count):
                frames = 4 + 2 * files + count * queries(files)
                return min(replays.replayed(write_listings, (files, pattern, count), succeeds, frames)[0] for _ in range(3))

            took = seconds(listings) - seconds(0)
            print(f'| {files:,} | {told} | {listings:,} | {(files + 2) * listings / took:,.0f} |')


if __name__ == '__main__':
    main(Replays(*sys.argv[1:2]))
