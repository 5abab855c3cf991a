"""Times READ and WRITE of a file that is kept in pages, over TCP, and what memory files take.

One client has one request in flight. The file has 16 MiB: whole, or with holes, where only each second page was ever written. MB/s are by the clock,
the script's part included, and by the program's processor time, which a busy machine disturbs less. Memory is what the program holds more than before.
"""
import random
import sys

from bench.exchanging import processor_seconds, seconds_for
from tests.smb.client import ALL_ACCESS, LONGEST_PIECE, OPEN_IF, opens_a_file
from tests.smb.frames import create, read, set_info, write
from tests.smb.program import Program

FILE_SIZE, PAGE, FILE_END_OF_FILE = 16 * 1024 * 1024, 4_096, 20


class Writer:
    """A client with open 1 of a file, which counts its MessageIds."""

    def __init__(self, share):
        self.share = share
        self.client = share.client()
        self.message_id = 4
        if not opens_a_file(self.client):
            raise AssertionError('no file was opened')

    def asks(self, request, *words):
        if self.client.asks(request(self.message_id, *words, 1, 1)) != 0:
            raise AssertionError(f'a {request.__name__} does not succeed')
        self.message_id += 1

    def timed(self, request, words):
        """The seconds, and the program's processor seconds, of a request with each of some words."""
        frames = [request(self.message_id + i, 1, *word, 1, 1) for i, word in enumerate(words)]
        self.message_id += len(frames)
        before = processor_seconds(self.share.process)
        took = seconds_for(self.client, frames, 1)
        return took, processor_seconds(self.share.process) - before


def fill(writer):
    write_whole(writer, 1)


def fill_with_holes(writer):
    give_a_size(writer, 1)
    for offset in range(0, FILE_SIZE, 2 * PAGE):
        writer.asks(write, 1, offset, b'x' * PAGE)


def in_sequence(size, count):
    return [i * size % FILE_SIZE for i in range(count)]


def at_random(size, count):
    places = random.Random(1)
    return [places.randrange(FILE_SIZE - size + 1) for _ in range(count)]


def exchanges(program):
    print('| request | bytes | places | file | count | MB/s by the clock | by processor time |')
    print('|---|---|---|---|---|---|---|')
    for filled, name in ((fill, 'whole'), (fill_with_holes, 'with holes')):
        for size, count in ((LONGEST_PIECE, 2_000), (PAGE, 8_000)):
            for places, where in ((in_sequence, 'in sequence'), (at_random, 'at random')):
                with program.serve() as share:
                    writer = Writer(share)
                    filled(writer)
                    offsets = places(size, count)
                    for request, words in ((read, [(offset, size) for offset in offsets]), (write, [(offset, bytes(size)) for offset in offsets])):
                        took, spent = writer.timed(request, words)
                        rates = ' | '.join(f'{size * count / it / 1e6:,.0f}' for it in (took, spent))
                        print(f'| {request.__name__.upper()} | {size:,} | {where} | {name} | {count:,} | {rates} |', flush=True)


def resident(process):
    with open(f'/proc/{process.pid}/status', encoding='ascii') as it:
        return next(int(line.split()[1]) for line in it if line.startswith('VmRSS')) * 1024


def write_whole(writer, number):
    for offset in range(0, FILE_SIZE, LONGEST_PIECE):
        writer.asks(write, number, offset, bytes(LONGEST_PIECE))


def give_a_size(writer, number):
    writer.asks(set_info, number, FILE_END_OF_FILE, FILE_SIZE.to_bytes(8, 'little'))


def memory(program):
    print('| files | what they hold | MiB in files | MiB of memory | times |')
    print('|---|---|---|---|---|')
    for hold, name in ((write_whole, '16 MiB each'), (give_a_size, 'a size of 16 MiB each, and no byte')):
        with program.serve() as share:
            writer = Writer(share)
            before = resident(share.process)
            hold(writer, 1)
            for number in range(2, 5):
                writer.asks(create, f'file{number}', ALL_ACCESS, OPEN_IF, 0)
                hold(writer, number)
            held = resident(share.process) - before
            print(f'| 4 | {name} | 64 | {held / 2**20:.1f} | {held / (4 * FILE_SIZE):.3f} |')


if __name__ == '__main__':
    exchanges(Program(*sys.argv[1:2]))
    print()
    memory(Program(*sys.argv[1:2]))
