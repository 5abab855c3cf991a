"""Times single frames that ask as much as a frame may.

While one frame is performed every other client waits. Each case fills a share of its own, over TCP, and then sends frames of its
kind, one at a time: a figure is the longest time until one was answered, the script's part included.
"""
import struct
import sys
import time

from tests.smb.frames import (chain, close, create, frame, header, lock, query_directory, query_info, rename, session_setup, set_info, tree_connect,
                    write)
from tests.smb.client import ALL_ACCESS, OPEN_IF
from tests.smb.program import Program

DIRECTORY_FILE, DELETE_ON_CLOSE, OPEN = 1, 0x1000, 1
MOST_ENTRIES, MOST_OPENS, MOST_LOCKS, LONGEST_NAME = 4_096, 1_024, 256, 255
FILE_ALL, FILE_END_OF_FILE, ID_BOTH_DIRECTORY, RESTART_SCANS = 18, 20, 37, 1
EXCLUSIVE_AT_ONCE, UNLOCK = 0x12, 4
REPEATS = 5


class Filler:
    """A client that fills a share, in session 1 and tree 1, and counts its MessageIds and its opens."""

    def __init__(self, share):
        self.client = share.client()
        self.opens = 0
        self.message_id = 3
        if not self.client.negotiates() or self.client.asks(session_setup(1)) != 0 or self.client.asks(tree_connect(2, 1)) != 0:
            raise AssertionError('a client is not served')

    def ids(self, count):
        """So many MessageIds."""
        self.message_id += count
        return range(self.message_id - count, self.message_id)

    def asks(self, request, *words):
        """Makes a request of the next MessageId, which succeeds."""
        [message_id] = self.ids(1)
        status = self.client.asks(request(message_id, *words, 1, 1))
        if status != 0:
            raise AssertionError(f'{request.__name__} is answered with {status}')

    def opened(self, name, options=0):
        """Makes what has this name, or opens it, and gives the number of its open."""
        self.asks(create, name, ALL_ACCESS, OPEN_IF, options)
        self.opens += 1
        return self.opens

    def made(self, name, options=0):
        self.asks(close, self.opened(name, options))

    def took(self, requests):
        """The milliseconds of a frame; a request is a function of its MessageId."""
        data = chain([request(message_id) for request, message_id in zip(requests, self.ids(len(requests)))])
        start = time.perf_counter()
        if not self.client.send(data).reply():
            raise AssertionError('an answer is missing')
        return 1e3 * (time.perf_counter() - start)


def long_name(last, letter='n'):
    """A name of 255 units that differs from others in its last four."""
    return letter * (LONGEST_NAME - 4) + f'{last:04}'


def nested(count):
    """The paths of folders in folders."""
    names = [long_name(i, 'f') for i in range(count)]
    return ['\\'.join(names[:i + 1]) for i in range(count)]


def filled(filler, folders, files):
    """Makes folders in folders, and files in the last; gives the path of that one."""
    for path in nested(folders):
        filler.made(path, DIRECTORY_FILE)
    around = nested(folders)[-1] if folders else ''
    for i in range(files):
        filler.made('\\'.join(filter(None, (around, long_name(i)))))
    return around


def creates(filler, folders):
    """CREATEs of files deep among many, as many as a frame takes."""
    around = filled(filler, folders, MOST_ENTRIES - 2 * folders - 20)
    count = min(16, 130_000 // (128 + 2 * 256 * (folders + 1)))
    names = [f'{around}\\{long_name(9_000 + i)}' for i in range(count)]
    while True:
        yield [lambda m, name=name: create(m, name, ALL_ACCESS, OPEN_IF, 0, 1, 1) for name in names]


def creates_in_seven(filler):
    return creates(filler, 7)


def creates_in_thirty_one(filler):
    return creates(filler, 30)


def queries_deep(filler):
    around = filled(filler, 31, MOST_ENTRIES - 40)
    number = filler.opened(f'{around}\\{long_name(1)}')
    while True:
        yield [lambda m: query_info(m, number, FILE_ALL, 1, 1)] * 16


def opens_of_one_file(filler):
    """CREATEs and CLOSEs beside as many opens of the file as there may be."""
    for _ in range(MOST_OPENS - 8):
        filler.opened('file')
    while True:
        first = filler.opens
        filler.opens += 8
        yield ([lambda m: create(m, 'file', ALL_ACCESS, OPEN, 0, 1, 1)] * 8
               + [lambda m, number=first + i + 1: close(m, number, 1, 1) for i in range(8)])


def opened_folder(filler, files):
    """Makes a folder of so many files, and gives the number of its open."""
    filler.made('d', DIRECTORY_FILE)
    for i in range(files):
        filler.made(f'd\\{long_name(i)}')
    return filler.opened('d')


def renames_of_a_folder(filler):
    number = opened_folder(filler, MOST_ENTRIES - 10)
    while True:
        yield [lambda m, i=i: rename(m, number, long_name(i, 'd'), 1, 1) for i in range(16)]


def renames_deeper(filler):
    """A folder with many files comes to lie beneath others, and out again."""
    filled(filler, 20, 0)
    number = opened_folder(filler, MOST_ENTRIES - 40)
    places = [f'{nested(20)[i // 2]}\\d' if i % 2 == 0 else 'd' for i in range(16)]
    while True:
        yield [lambda m, place=place: rename(m, number, place, 1, 1) for place in places]


def renames_beside_opens(filler):
    """A folder is renamed while as many opens as may be are deep in others."""
    around = filled(filler, 30, 0)
    for i in range(MOST_OPENS - 2):
        filler.opened(f'{around}\\{long_name(i)}')
    number = opened_folder(filler, 1)
    while True:
        yield [lambda m, i=i: rename(m, number, long_name(i, 'd'), 1, 1) for i in range(16)]


def listings_by_letters(filler):
    """Listings by a pattern of letters and `*`, of which a longer part fits with each unit of a name, and which no name fits."""
    filler.made('d', DIRECTORY_FILE)
    for i in range(MOST_ENTRIES - 10):
        filler.made(f'd\\{i:04}{"a" * (LONGEST_NAME - 4)}')
    number = filler.opened('d')
    while True:
        yield [lambda m: query_directory(m, number, ID_BOTH_DIRECTORY, RESTART_SCANS, '*b' + '*a' * 126, 65_536, 1, 1)] * 16


def listings_by_stars(filler):
    number = opened_folder(filler, MOST_ENTRIES - 10)
    while True:
        yield [lambda m: query_directory(m, number, ID_BOTH_DIRECTORY, RESTART_SCANS, '*' * 254 + 'x', 65_536, 1, 1)] * 16


def sizes_of_a_file(filler):
    number = filler.opened('file')
    while True:
        yield [lambda m, i=i: set_info(m, number, FILE_END_OF_FILE, struct.pack('<Q', i % 2 * 16_777_216), 1, 1) for i in range(16)]


def writes_past_holes(filler):
    number = filler.opened('file')
    sizes = [lambda m: set_info(m, number, FILE_END_OF_FILE, bytes(8), 1, 1), lambda m: write(m, number, 16_777_215, b'x', 1, 1)]
    while True:
        yield sizes * 8


def locks_of_a_file(filler):
    number = filler.opened('file')
    elements = [(i, 1, EXCLUSIVE_AT_ONCE) for i in range(MOST_LOCKS)]
    unlocks = [(i, 1, UNLOCK) for i in reversed(range(MOST_LOCKS))]
    while True:
        yield [lambda m: lock(m, number, elements, 1, 1), lambda m: lock(m, number, unlocks, 1, 1)] * 7


def log_off(message_id):
    return frame(header(2, message_id, session_id=1) + struct.pack('<HH', 4, 0))


def logoff(filler):
    """The end of a session with all opens, each of a file that goes with it."""
    for i in range(MOST_ENTRIES - MOST_OPENS - 10):
        filler.made(long_name(i))
    for i in range(MOST_OPENS):
        filler.opened(long_name(i, 'd'), DELETE_ON_CLOSE)
    yield [log_off]


CASES = (
    ('16 CREATEs in 7 folders, beside 4,062 files', creates_in_seven),
    ('8 CREATEs in 30 folders, beside 4,016 files', creates_in_thirty_one),
    ('16 QUERY_INFOs, class 18, in 31 folders', queries_deep),
    ('8 CREATEs and 8 CLOSEs of a file with 1,016 opens', opens_of_one_file),
    ('16 renames of a folder with 4,086 files', renames_of_a_folder),
    ('16 renames of a folder with 4,056 files, into folders and out', renames_deeper),
    ('16 renames of a folder, beside 1,022 opens in 30 folders', renames_beside_opens),
    ('16 listings by 254 `*` and an x, which none of 4,086 files matches', listings_by_stars),
    ('16 listings by `*b` and 126 `*a`, which none of 4,086 files matches', listings_by_letters),
    ('16 sizes of a file, 0 and 16 MiB in turn', sizes_of_a_file),
    ('8 WRITEs at the end of 16 MiB that are not there', writes_past_holes),
    ('7 LOCKs and 7 unlocks of 256 ranges', locks_of_a_file),
    ('a LOGOFF with 1,024 opens, each of a file that is deleted', logoff),
)


def main(program):
    print('| frame | milliseconds |')
    print('|---|---|')
    for name, case in CASES:
        with program.serve() as share:
            filler = Filler(share)
            frames = case(filler)
            longest = max(filler.took(requests) for requests, _ in zip(frames, range(REPEATS)))
            print(f'| {name} | {longest:,.1f} |', flush=True)


if __name__ == '__main__':
    main(Program(*sys.argv[1:2]))
