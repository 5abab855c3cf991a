"""Times a client of the proved program while its journal is written anew beside others that write.

    python3 -m bench.renewed [--program PATH] [--folder FOLDER] [--mib N]

Writers rewrite files of so many MiB in all, in FOLDER's journal, until it is written anew twice; another client reads 4 KiB
of a file of its own, and each wait of it is noted: while there is a new file, and while there is none.
"""
import argparse
import multiprocessing
import os
import re
import statistics
import tempfile
import time

from tests.smb.client import ALL_ACCESS
from tests.smb.frames import read, write
from tests.smb.kept import Looking, killed
from tests.smb.program import GUEST, Program
from tests.smb.working import CREATE

MIB, PIECE, SHORT = 1 << 20, 1 << 16, 4_096
WRITERS, TIMES = 4, 2
CAPACITY, LONGEST = 1 << 34, 1 << 32
LIMITS = f'\n[limits]\ncapacity = {CAPACITY}\nfile_bytes = {LONGEST}\n'


class Writer(Looking):
    """A client that writes a file of its own anew, over and over."""

    def writes(self, size):
        file, at, data = self.opens(f'{self.number}', ALL_ACCESS, CREATE), 0, os.urandom(PIECE)
        while True:
            self.asks(write(self.next_id(), file, at % size, data, self.session, 1), 0, None)
            at += PIECE


def write_on(share, number, size):
    """Writes until this process is ended."""
    Writer(share, number).comes_in().writes(size)


def waits_of(share, file, times):
    """The waits of a client, with and without a new file, until the journal is written anew so often."""
    client = Looking(share).comes_in()
    number = client.opens('read', ALL_ACCESS, CREATE)
    client.asks(write(client.next_id(), number, 0, bytes(SHORT), client.session, 1), 0, None)
    waits, was_there, ended = {True: [], False: []}, False, 0
    while ended < times:
        is_there = os.path.exists(f'{file}.new')
        ended += was_there and not is_there
        begin = time.monotonic()
        client.asks(read(client.next_id(), number, 0, SHORT, client.session, 1), 0, None)
        waits[is_there].append(time.monotonic() - begin)
        was_there = is_there
    return waits


def show(what, waits):
    """Prints the median and the longest of some waits."""
    ordered = sorted(waits)
    print(f'{what}: {len(ordered):,} READs, median {statistics.median(ordered) * 1e3:.2f} ms, 99 of 100 within '
          f'{ordered[len(ordered) * 99 // 100] * 1e3:.2f}, longest {ordered[-1] * 1e3:.1f}')


def main():
    words = argparse.ArgumentParser(description=__doc__, formatter_class=argparse.RawDescriptionHelpFormatter)
    words.add_argument('--program')
    words.add_argument('--folder')
    words.add_argument('--mib', type=int, default=1_024)
    words = words.parse_args()
    program = Program(words.program) if words.program else Program()
    with tempfile.TemporaryDirectory(dir=words.folder) as folder:
        file, config = os.path.join(folder, 'kept'), os.path.join(folder, 'config.toml')
        with open(GUEST, encoding='ascii') as it, open(config, 'w', encoding='ascii') as out:
            out.write(re.sub('(?m)^capacity = [0-9]+', f'capacity = {CAPACITY}', it.read()) + LIMITS)
        with program.serve('--config', config, '--journal', file) as share:
            size = words.mib * MIB // WRITERS
            writers = [multiprocessing.Process(target=write_on, args=(share, i, size), daemon=True)
                       for i in range(1, WRITERS + 1)]
            for writer in writers:
                writer.start()
            waits = waits_of(share, file, TIMES)
            for writer in writers:
                writer.terminate()
            killed(share)
            print(share.process.stderr.read().decode(), end='')
        show('while there is no new file', waits[False])
        show('while there is one', waits[True])


if __name__ == '__main__':
    main()
