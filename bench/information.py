"""Times the proved program on QUERY_INFO and SET_INFO, and on renames among other entries.

The file is five folders deep. A size is set to 0 and 4,096 in turn; a rename goes to another name in the same folder and back,
and the other entries stand in that folder. What a run without the requests takes is subtracted.
"""
import sys

from bench.runs import Replays, piece, succeeds
from tests.smb.frames import close, create, negotiate, query_info, rename, session_setup, set_info, tree_connect

ALL_ACCESS, OPEN_IF, DIRECTORY_FILE = 0x1F01FF, 3, 1
FILE_STANDARD, FILE_ALL, FILE_NETWORK_OPEN, FILE_END_OF_FILE = 5, 18, 34, 20
FOLDERS = ('a', 'a\\b', 'a\\b\\c', 'a\\b\\c\\d', 'a\\b\\c\\d\\e')
REQUESTS = 20_000


def begin(text, others):
    """A session and a tree, with open 6 of a file that is five folders deep, beside so many others. Gives the number of frames, which is the next
    MessageId."""
    text.write('+ 1\n')
    for frame in (negotiate(), session_setup(1), tree_connect(2, 1)):
        piece(text, 1, frame)
    frames = 3
    for folder in FOLDERS:
        piece(text, 1, create(frames, folder, ALL_ACCESS, OPEN_IF, DIRECTORY_FILE, 1, 1))
        frames += 1
    piece(text, 1, create(frames, FOLDERS[-1] + '\\file', ALL_ACCESS, OPEN_IF, 0, 1, 1))
    frames += 1
    for i in range(others):
        piece(text, 1, create(frames, f'{FOLDERS[-1]}\\other{i}', ALL_ACCESS, OPEN_IF, 0, 1, 1))
        piece(text, 1, close(frames + 1, 7 + i, 1, 1))
        frames += 2
    return frames


def write_queries(path, others, information_class, requests):
    """A replay in which a class of the file is asked for so often."""
    with open(path, 'w') as text:
        frames = begin(text, others)
        for i in range(requests):
            piece(text, 1, query_info(frames + i, 6, information_class, 1, 1))


def write_sizes(path, others, requests):
    """A replay in which the size of the file is set so often."""
    with open(path, 'w') as text:
        frames = begin(text, others)
        for i in range(requests):
            piece(text, 1, set_info(frames + i, 6, FILE_END_OF_FILE, (i % 2 * 4096).to_bytes(8, 'little'), 1, 1))


def write_renames(path, others, requests):
    """A replay in which the file is renamed so often."""
    with open(path, 'w') as text:
        frames = begin(text, others)
        for i in range(requests):
            piece(text, 1, rename(frames + i, 6, f'{FOLDERS[-1]}\\{("name", "file")[i % 2]}', 1, 1))


def microseconds(replays, write_replay, arguments, frames, requests):
    """What a request takes, where so many frames come before the requests."""
    def seconds(count):
        return min(replays.replayed(write_replay, (*arguments, count), succeeds, frames + count)[0] for _ in range(3))

    return 1e6 * (seconds(requests) - seconds(0)) / requests


def main(replays):
    print('| request | other entries | requests | microseconds a request |')
    print('|---|---|---|---|')
    frames = 4 + len(FOLDERS)
    for information_class in (FILE_ALL, FILE_STANDARD, FILE_NETWORK_OPEN):
        time = microseconds(replays, write_queries, (10, information_class), frames + 20, REQUESTS)
        print(f'| QUERY_INFO, class {information_class} | 10 | {REQUESTS:,} | {time:.1f} |')
    time = microseconds(replays, write_sizes, (10,), frames + 20, REQUESTS)
    print(f'| SET_INFO, class {FILE_END_OF_FILE} | 10 | {REQUESTS:,} | {time:.1f} |')
    for others, requests in ((10, REQUESTS), (4_000, REQUESTS // 20)):
        time = microseconds(replays, write_renames, (others,), frames + 2 * others, requests)
        print(f'| a rename | {others:,} | {requests:,} | {time:.1f} |')


if __name__ == '__main__':
    main(Replays(*sys.argv[1:2]))
