"""Times the proved program on LOCK, and on a CLOSE beside locks of other files.

A pair is a LOCK of a byte and a LOCK that unlocks it, which has to go through all locks of the file, since they are older;
or a CREATE of a file and its CLOSE. What a run without the pairs takes is subtracted.
"""
import sys

from bench.runs import Replays, piece, succeeds
from tests.smb.frames import close, create, lock, negotiate, session_setup, tree_connect

READ_AND_WRITE, OPEN_IF = 3, 3
EXCLUSIVE, UNLOCK = 0x12, 4
PAIRS = 20_000


def begin(text, locks, files, have_locks):
    """A session and a tree, with open 1 of a file, on which it has so many locks, and opens of so many other files, each with a
    lock or none. Gives the number of frames, which is the next MessageId."""
    text.write('+ 1\n')
    for frame in (negotiate(), session_setup(1), tree_connect(2, 1)):
        piece(text, 1, frame)
    piece(text, 1, create(3, 'file', READ_AND_WRITE, OPEN_IF, 0, 1, 1))
    frames = 4
    if locks > 0:
        piece(text, 1, lock(frames, 1, [(2 * i + 1, 1, EXCLUSIVE) for i in range(locks)], 1, 1))
        frames += 1
    for i in range(files):
        piece(text, 1, create(frames, f'other{i}', READ_AND_WRITE, OPEN_IF, 0, 1, 1))
        frames += 1
        if have_locks:
            piece(text, 1, lock(frames, 2 + i, [(0, 1, EXCLUSIVE)], 1, 1))
            frames += 1
    return frames


def write_locks(path, locks, files, pairs):
    """A replay in which a byte of a file is locked and unlocked so often."""
    with open(path, 'w') as text:
        frames = begin(text, locks, files, True)
        for i in range(pairs):
            piece(text, 1, lock(frames + 2 * i, 1, [(0, 1, EXCLUSIVE)], 1, 1))
            piece(text, 1, lock(frames + 2 * i + 1, 1, [(0, 1, UNLOCK)], 1, 1))


def write_closes(path, files, have_locks, pairs):
    """A replay in which a file without locks is opened and closed so often."""
    with open(path, 'w') as text:
        frames = begin(text, 0, files, have_locks)
        for i in range(pairs):
            piece(text, 1, create(frames + 2 * i, 'file', READ_AND_WRITE, OPEN_IF, 0, 1, 1))
            piece(text, 1, close(frames + 2 * i + 1, 2 + files + i, 1, 1))


def microseconds(replays, write_replay, arguments, frames):
    """What a pair takes, where so many frames come before the pairs."""
    def seconds(pairs):
        return min(replays.replayed(write_replay, (*arguments, pairs), succeeds, frames + 2 * pairs)[0] for _ in range(3))

    return 1e6 * (seconds(PAIRS) - seconds(0)) / PAIRS


def main(replays):
    print('| other locks of the file | other files, each with an open and a lock | pairs of LOCK | microseconds a pair |')
    print('|---|---|---|---|')
    for locks, files in ((1, 0), (255, 0), (1, 1000)):
        time = microseconds(replays, write_locks, (locks, files), 5 + 2 * files)
        print(f'| {locks} | {files:,} | {PAIRS:,} | {time:.1f} |')
    print('\n| other files, each with an open | a lock on each | pairs of CREATE and CLOSE | microseconds a pair |')
    print('|---|---|---|---|')
    for files, have_locks in ((0, False), (1000, False), (1000, True)):
        time = microseconds(replays, write_closes, (files, have_locks), 4 + (2 if have_locks else 1) * files)
        print(f'| {files:,} | {"yes" if have_locks else "no"} | {PAIRS:,} | {time:.1f} |')


if __name__ == '__main__':
    main(Replays(*sys.argv[1:2]))
