"""Times the proved program on requests beside few and many entries and opens.

    python3 -m bench.growth [PROGRAM [WORD]]

Each request is of a file among others in one folder. It comes so often beside few entries or opens, and as often beside many; what a run without
the requests takes is subtracted, and the least of some runs counts. `crates/smb_rows/out/smb_rows plain` replays over the plain tree and opens.
"""
import sys

from bench.runs import Replays, piece, succeeds
from tests.smb.frames import close, create, negotiate, query_directory, query_info, rename, session_setup, tree_connect

ALL_ACCESS, CREATE, OPEN, DIRECTORY_FILE, FILE_STANDARD = 0x1F01FF, 2, 1, 1, 5
ID_BOTH_DIRECTORY, RESTART_SCANS, TEN_ENTRIES = 37, 1, 1_300
REQUESTS, FEWER, RUNS = 20_000, 3_000, 3


class Client:
    """The frames of one client, in session 1 and tree 1; open 1 is of the folder `d`, open 2 of the file `d\\a`."""

    def __init__(self):
        self.frames = [negotiate(), session_setup(1), tree_connect(2, 1)]
        self.opens = 0
        self.opened('d', CREATE, DIRECTORY_FILE)
        self.opened('d\\a', CREATE)

    def asks(self, request, *words):
        self.frames.append(request(len(self.frames), *words, 1, 1))

    def opened(self, name, disposition, options=0):
        self.asks(create, name, ALL_ACCESS, disposition, options)
        self.opens += 1
        return self.opens

    def closed(self, number):
        self.asks(close, number)


def with_entries(client, count):
    for i in range(count):
        client.closed(client.opened(f'd\\file{i:04}', CREATE))


def with_opens_of_the_file(client, count):
    for _ in range(count - 1):
        client.opened('d\\a', OPEN)


def with_opens_of_files(client, count):
    with_entries(client, 1_000)
    for i in range(count):
        client.opened(f'd\\file{i:04}', OPEN)


def open_and_close(client, count):
    for _ in range(count):
        client.closed(client.opened('d\\a', OPEN))


def query(client, count):
    for _ in range(count):
        client.asks(query_info, 2, FILE_STANDARD)


def list_ten(client, count):
    for _ in range(count):
        client.asks(query_directory, 1, ID_BOTH_DIRECTORY, RESTART_SCANS, '*', TEN_ENTRIES)


def rename_and_back(client, count):
    for i in range(count):
        client.asks(rename, 2, f'd\\{"ba"[i % 2]}')


def write_replay(path, fill, filled, request, count):
    client = Client()
    fill(client, filled)
    request(client, count)
    with open(path, 'w') as text:
        text.write('+ 1\n')
        for frame in client.frames:
            piece(text, 1, frame)


def frames_of(fill, filled, request, count):
    client = Client()
    fill(client, filled)
    request(client, count)
    return len(client.frames)


def microseconds(replays, fill, filled, request, count):
    """What a request takes beside so many."""
    def seconds(times):
        wanted = frames_of(fill, filled, request, times)
        return min(replays.replayed(write_replay, (fill, filled, request, times), succeeds, wanted)[0]
                   for _ in range(RUNS))

    return 1e6 * (seconds(count) - seconds(0)) / count


REQUEST_NAMES = ((open_and_close, 'CREATE, then CLOSE'), (query, 'QUERY_INFO, class 5'), (list_ten, 'QUERY_DIRECTORY of ten'), (rename_and_back, 'a rename'))
BESIDE = ((with_entries, 'entries', 10, 4_080), (with_opens_of_the_file, 'opens of the file', 1, 1_000), (with_opens_of_files, 'opens of as many files', 1, 1_000))


def main(replays):
    count = FEWER if replays.words else REQUESTS
    print('| request | beside | microseconds | beside | microseconds | times |')
    print('|---|---|---|---|---|---|')
    for fill, what, few, many in BESIDE:
        for request, name in REQUEST_NAMES:
            less, more = (microseconds(replays, fill, filled, request, count) for filled in (few, many))
            print(f'| {name} | {few:,} {what} | {less:.1f} | {many:,} | {more:.1f} | {more / less:.2f} |', flush=True)


if __name__ == '__main__':
    main(Replays(*sys.argv[1:]))
