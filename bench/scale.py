"""Measures the share at size: many files, a long file, many connections, and how long a client waits for others then.

    python3 -m bench.scale [--only files,bytes,connections,waits] [--entries N] [--gib N] [PROGRAM]

The tables, in Markdown:

files        a request beside 1,000 empty files in 100 directories, and beside N of them (by default 1,000,000), at
             random places, alone and in chains of 16; and the memory that an entry takes
bytes        READ and WRITE of 65,536 bytes in a file of 16 MiB, in 64 such files one behind the other, which no cache
             holds, and in a file of N GiB (by default 4, or 2 where less memory is there)
connections  ECHO, alone and beside 1,000 and 4,000 further connections, each with a session and an open
waits        the longest time that an ECHO of another client waits while requests are performed that have much to do,
             one alone and a chain of 16, and the processor time that these take

What is measured is the server's processor time, with the system's part in it, in microseconds a request: the client's
time is not in it. The servers that are compared stand beside each other and take turns, so that other work on the
machine meets all of them alike; processors are kept awake (bench/awake.py). A figure is the median of the turns. Waits are by the clock, of a process that does
nothing else: the median of some runs, and the longest. Where the machine is busy they say more than the server takes.

With GLIBC_TUNABLES=glibc.malloc.hugetlb=1 before it the servers have large pages, as examples/smbshare.service says.
"""
import argparse
import contextlib
import itertools
import multiprocessing
import os
import random
import resource
import signal
import statistics
import sys
import time

from bench.asking import CHAIN, OPEN, SETTLED, Asker, closing, ended_by, listing, number_of, opening, served
from bench.awake import awake
from bench.beside import Guest, status_of
from bench.exchanging import processor_seconds
from bench.waits import longest_wait
from tests.smb.client import LONGEST_PIECE, Client
from tests.smb.frames import close, echoes, read, rename, write
from tests.smb.program import PROVED, descriptors_of, memory_of

CREATE, OPEN_IF, DIRECTORY_FILE, DELETE_ON_CLOSE = 2, 3, 1, 0x1000
RESTART, SINGLE, AT_ONCE = 1, 2, 524_288
LOG_OFF, TREE_DISCONNECT = 2, 4
NO_MORE_FILES, NO_SUCH_FILE = 0x8000_0006, 0xC000_000F
PAGE, FILE, DIRECTORIES = 4_096, 16 << 20, 100
FEW, HELD, EACH, TURNS = 1_000, 20_000, 512, 11
CHILDREN, OPENS, DEPTH, RUNS = 100_000, 20_000, 30, 5


def row(*cells):
    print('| ' + ' | '.join(str(it) for it in cells) + ' |', flush=True)


def head(*cells):
    row(*cells)
    print('|---' * len(cells) + '|')


def path_of(i):
    """The path of a file: the directories have as many files each."""
    return f'd{i % DIRECTORIES:02}\\f{i:08}.txt'


def made_and_closed(names, options=0):
    for name in names:
        yield opening(name, CREATE, options)
        yield closing


class Files:
    """A server with so many empty files in directories, and a client that has some of them open."""

    def __init__(self, server, count):
        self.asker, self.count, self.places = Asker(server), count, random.Random(1)
        self.asker.does(made_and_closed((f'd{i:02}' for i in range(DIRECTORIES)), DIRECTORY_FILE))
        before = memory_of(server)
        self.asker.does(made_and_closed(map(path_of, range(count))))
        self.memory = memory_of(server) - before
        self.held = {}
        names = [path_of(i) for i in self.places.sample(range(count), min(count, HELD))]
        self.held = dict(zip(self.asker.opens(names), names))
        self.asker.does(self.writing(number) for number in self.held)
        self.folders = self.asker.opens(f'd{i:02}' for i in range(DIRECTORIES))

    @staticmethod
    def writing(number):
        return lambda m: write(m, number, 0, bytes(PAGE))

    def some(self):
        """Some of the opens, at random."""
        return self.places.sample(list(self.held), EACH)

    def cost(self, requests, length, each=EACH):
        return self.asker.cost(list(self.asker.chains(requests, length)), each)

    def opens_and_closes(self, length, names, disposition):
        """What CREATEs of these names take, and then CLOSEs of them."""
        asker, before = self.asker, processor_seconds(self.asker.server.process)
        frames = list(asker.chains((opening(name, disposition) for name in names), length))
        numbers = [number_of(it) for answers in asker.answers(frames, 1) for it in answers]
        time.sleep(SETTLED)
        took = (processor_seconds(asker.server.process) - before) / len(numbers) * 1e6
        return took, self.cost([lambda m, it=it: close(m, it) for it in numbers], length)

    def renames(self, length):
        """Files get other names in their directories, and then their own ones again."""
        some = [(it, self.held[it]) for it in self.some()]
        took = self.cost([lambda m, it=it, name=name: rename(m, it, name + 'r') for it, name in some], length)
        self.asker.does(lambda m, it=it, name=name: rename(m, it, name) for it, name in some)
        return took

    def single_entries(self, length):
        """Queries of one entry; the scans are at random places before."""
        for folder in self.folders:
            places = self.places.randrange(max(1, self.count // DIRECTORIES // 600))
            whole = [listing(folder)] * places
            self.asker.does([listing(folder, RESTART | (0 if whole else SINGLE)), *whole])
        requests = [listing(it, SINGLE) for it in self.folders * (EACH // DIRECTORIES)]
        self.places.shuffle(requests)
        return self.cost(requests, length, len(requests))

    def whole_listings(self):
        """What an entry takes of whole listings, each to its end."""
        asker, listed = self.asker, 0
        before = processor_seconds(asker.server.process)
        for folder in self.places.sample(self.folders, max(1, DIRECTORIES // max(1, self.count // FEW))):
            flags, status = RESTART, 0
            while status == 0:
                [[reply]] = asker.answers(asker.chains([listing(folder, flags)]), 1, (0, NO_MORE_FILES))
                flags, status = 0, status_of(reply)
            listed += self.count // DIRECTORIES + 2
        time.sleep(SETTLED)
        return (processor_seconds(asker.server.process) - before) / listed * 1e6

    def turn(self, length):
        """The microseconds of each request, in chains of so many."""
        new = [f'{path_of(i)}x' for i in self.places.sample(range(self.count), EACH)]
        found = {}
        found['CREATE, of a new file'], _ = self.opens_and_closes(length, new, CREATE)
        self.asker.does(it for name in new for it in (opening(name, OPEN, DELETE_ON_CLOSE), closing))
        old = [path_of(i) for i in self.places.sample(range(self.count), EACH)]
        found['CREATE, of an existing file'], found['CLOSE'] = self.opens_and_closes(length, old, OPEN)
        found['READ of 4,096 bytes'] = self.cost([lambda m, it=it: read(m, it, 0, PAGE) for it in self.some()], length)
        found['WRITE of 4,096 bytes'] = self.cost([self.writing(it) for it in self.some()], length)
        found['a rename'] = self.renames(length)
        found['QUERY_DIRECTORY of one entry'] = self.single_entries(length)
        if length == 1:
            found['a whole listing, by the entry'] = self.whole_listings()
        return found


def medians(turns):
    return {name: statistics.median(it[name] for it in turns) for name in turns[0]}


def compared(few, many):
    return f'{few:.2f}', f'{many:.2f}', f'{many / few:.2f}'


def files(program, options):
    with served(program, 2) as servers, awake(servers):
        shares = [Files(server, count) for server, count in zip(servers, (FEW, options.entries))]
        found = {}
        for length in (1, CHAIN):
            turns = [[share.turn(length) for share in shares] for _ in range(TURNS)]
            found[length] = [medians([it[place] for it in turns]) for place in (0, 1)]
    sizes = [f'{FEW:,} files, us', f'{options.entries:,} files, us', 'times']
    head('request', *sizes, *(f'in chains of {CHAIN}: {it}' for it in sizes))
    for name in found[1][0]:
        cells = [compared(*(it[name] for it in found[length])) for length in (1, CHAIN) if name in found[length][0]]
        row(name, *itertools.chain(*cells), *[''] * (6 - 3 * len(cells)))
    print()
    units = 2 * len(path_of(0).partition('\\')[2])
    head('files', 'MiB of memory', 'bytes a file', 'of these its name', 'beside its name')
    each = shares[1].memory / options.entries
    row(f'{options.entries:,}', f'{shares[1].memory / 2**20:,.0f}', f'{each:.0f}', units, f'{each - units:.0f}')


class Bytes:
    """A client with a row of opens of files, as one run of bytes, through which it goes in order, or at random."""

    def __init__(self, asker, numbers, size):
        self.asker, self.numbers, self.size = asker, numbers, size
        self.end, self.at, self.places = size * len(numbers), 0, random.Random(1)

    def cost(self, request, is_in_order, count=EACH):
        """What a request of 65,536 bytes takes; what is in order goes on behind where the last one in order ended."""
        frames = (self.asker.chained([self.one(request, is_in_order)]) for _ in range(count))
        return self.asker.cost(frames, count)

    def one(self, request, is_in_order):
        if is_in_order:
            number, offset = self.numbers[self.at // self.size], self.at % self.size
            self.at = (self.at + LONGEST_PIECE) % self.end
        else:
            number, offset = self.places.choice(self.numbers), self.places.randrange(self.size - LONGEST_PIECE + 1)
        return lambda m: request(m, number, offset)


def writing(m, number, offset):
    return write(m, number, offset, bytes(LONGEST_PIECE))


def reading(m, number, offset):
    return read(m, number, offset, LONGEST_PIECE)


def filled(asker, gib):
    """The three places, full, and what WRITEs of new bytes took in the second and in the third."""
    numbers = asker.opens([f'b{i:02}' for i in range(66)], CREATE)
    hot, cold = Bytes(asker, numbers[:1], FILE), Bytes(asker, numbers[1:65], FILE)
    large = Bytes(asker, numbers[65:], gib << 30)
    hot.cost(writing, True, hot.end // LONGEST_PIECE)
    turns = [[it.cost(writing, True, it.end // len(cold.numbers) // LONGEST_PIECE) for it in (cold, large)]
             for _ in cold.numbers]
    return (hot, cold, large), [statistics.median(it) for it in zip(*turns)]


def room(wanted):
    """As many GiB as are wanted for a file, or 2 where that with 4 beside it is not free."""
    with open('/proc/meminfo', encoding='ascii') as it:
        free = next(int(line.split()[1]) for line in it if line.startswith('MemAvailable')) >> 20
    return wanted if free >= wanted + 4 else min(wanted, 2)


def bytes_of_files(program, options):
    gib = room(options.gib)
    with served(program) as [server], awake([server]):
        places, (cold, large) = filled(Asker(server), gib)
        head('request of 65,536 bytes', 'places', 'one file of 16 MiB, us', '64 files of 16 MiB, us',
             f'a file of {gib} GiB, us', 'times the first', 'times the second')
        row('WRITE, of new bytes', 'in order', '', *compared(cold, large)[:2], '', f'{large / cold:.2f}')
        for is_in_order, where in ((True, 'in order'), (False, 'at random')):
            for request, name in ((writing, 'WRITE'), (reading, 'READ')):
                turns = [[it.cost(request, is_in_order) for it in places] for _ in range(2 * TURNS)]
                hot, cold, large = (statistics.median(it) for it in zip(*turns))
                row(name, where, *(f'{it:.2f}' for it in (hot, cold, large, large / hot, large / cold)))


def connections(program, _):
    counts = (0, 1_000, 4_000)
    with served(program, len(counts)) as servers, awake(servers):
        askers, memory, others = [Asker(server) for server in servers], [], []
        for server, count in zip(servers, counts):
            before = memory_of(server)
            others.append([Guest(server) for _ in range(count)])
            memory.append((memory_of(server) - before) / max(count, 1))
        turns = [[asker.cost(list(asker.chains([lambda m: echoes(m, 1)] * EACH, 1)), EACH) for asker in askers]
                 for _ in range(TURNS)]
    head('further connections', 'ECHO, us', 'times', 'bytes of memory a connection')
    found = [statistics.median(it) for it in zip(*turns)]
    for count, took, each in zip(counts, found, memory):
        row(f'{count:,}', f'{took:.2f}', f'{took / found[0]:.2f}', f'{each:,.0f}' if count else '')


class Other:
    """A process whose client sends ECHO after ECHO, while it is to."""

    def __init__(self, server):
        self.server, self.ended = server, multiprocessing.Event()
        self.pipe, theirs = multiprocessing.Pipe()
        multiprocessing.Process(target=self.works, args=(server.port, theirs), daemon=True).start()
        theirs.close()

    def works(self, port, pipe):
        self.pipe.close()
        client, first = Client(port), 1
        if not client.negotiates():
            raise AssertionError('no client is served')
        with contextlib.suppress(EOFError):
            while pipe.recv():
                pipe.send(None)
                longest, first = longest_wait(client, first, self.ended)
                pipe.send(longest)

    def waits(self, what):
        """The most milliseconds that an ECHO waits while this is done."""
        self.ended.clear()
        self.pipe.send(True)
        self.pipe.recv()
        time.sleep(0.05)
        what()
        time.sleep(0.05)
        self.ended.set()
        return 1e3 * self.pipe.recv()

    def takes(self, what):
        """The server's processor milliseconds for this, while nobody else asks."""
        before = processor_seconds(self.server.process)
        what()
        time.sleep(SETTLED)
        return 1e3 * (processor_seconds(self.server.process) - before)


def shown(name, other, *ways):
    """A row of what another client waits, for each way to do it, which is prepared anew for each run."""
    cells = []
    for prepared in ways:
        spent = statistics.median(other.takes(prepared()) for _ in range(RUNS))
        waited = [other.waits(prepared()) for _ in range(RUNS)]
        cells += [f'{spent:.1f}', f'{statistics.median(waited):.1f}, {max(waited):.1f}']
    row(name, *cells, *[''] * (4 - len(cells)))


def chain_done(asker, requests, charge=1, allowed=(0,)):
    """What sends one frame, and waits for its answer."""
    made = asker.chained(requests, charge)

    def does():
        for _ in asker.answers([made], 1, allowed):
            pass
    return does


def whole_listing(asker, number, length, room_of_one):
    """What lists a directory from the start to its end, in chains of so many queries."""
    charge = -(-room_of_one // LONGEST_PIECE)

    def does():
        flags, status = RESTART, 0
        while status == 0:
            requests = [listing(number, it, '*', room_of_one) for it in (flags, *[0] * (length - 1))]
            [answers] = asker.answers([asker.chained(requests, charge)], 1, (0, NO_MORE_FILES))
            flags, status = 0, status_of(answers[-1])
    return does


def behind_a_gone_name(asker, number, length):
    """Queries of a scan whose last name is not there any more: none comes behind it."""
    asker.does(made_and_closed(['d\\z']))
    whole_listing(asker, number, CHAIN, AT_ONCE)()
    asker.does([opening('d\\z', OPEN, DELETE_ON_CLOSE), closing])
    return chain_done(asker, [listing(number)] * length, 1, (NO_MORE_FILES,))


def waits_for_listings(program):
    with served(program) as [server]:
        other, asker = Other(server), Asker(server)
        shown('nothing', other, lambda: lambda: None)
        asker.does(made_and_closed(['d'], DIRECTORY_FILE))
        asker.does(made_and_closed(f'd\\f{i:08}.txt' for i in range(CHILDREN)))
        [number] = asker.opens(['d'])
        shown('a whole listing', other, lambda: whole_listing(asker, number, 1, LONGEST_PIECE),
              lambda: whole_listing(asker, number, CHAIN, AT_ONCE))

        def of_none(pattern):
            one, allowed = listing(number, RESTART, pattern), (NO_SUCH_FILE,)
            return [lambda length=length: chain_done(asker, [one] * length, 1, allowed) for length in (1, CHAIN)]

        for pattern in ('abc*', '*zzz'):
            shown(f'a query of `{pattern}`, which matches none', other, *of_none(pattern))
        shown('a query behind a name that is gone', other, lambda: behind_a_gone_name(asker, number, 1),
              lambda: behind_a_gone_name(asker, number, CHAIN))
        asker.does(made_and_closed(['l'], DIRECTORY_FILE))
        asker.does(made_and_closed(f'l\\{i:06}{"b" * 249}' for i in range(CHILDREN)))
        [number] = asker.opens(['l'])
        shown('a query of 127 `<b`, one of them `<x`, names of 255', other, of_none('<x' + '<b' * 126)[0])


def nested(depth):
    return ['\\'.join('k' * (i + 1)) for i in range(depth)]


def with_opens(server, around, options=0):
    """A client with opens of as many files in a directory, which are made where they are not there."""
    asker = Asker(server)
    asker.opens((f'{around}\\f{i:08}.txt' for i in range(OPENS)), OPEN_IF, options)
    return asker


def is_ended(asker):
    """Ends a client's connection, and waits until the server has closed it."""
    count = descriptors_of(asker.server)
    asker.client.end()
    while descriptors_of(asker.server) >= count:
        time.sleep(0.001)


def waits_for_ends(program):
    with served(program) as [server]:
        other = Other(server)
        path = nested(1)[0]
        Asker(server).does(made_and_closed([path], DIRECTORY_FILE))

        def request_of(command, options=0):
            return lambda: chain_done(with_opens(server, path, options), [ended_by(command)])

        def connection():
            asker = with_opens(server, path)
            return lambda: is_ended(asker)

        shown('LOGOFF', other, request_of(LOG_OFF))
        shown('LOGOFF, which deletes the files', other, request_of(LOG_OFF, DELETE_ON_CLOSE))
        shown('TREE_DISCONNECT', other, request_of(TREE_DISCONNECT))
        shown('the end of a connection', other, connection)


def renamings(number, names):
    return [lambda m, name=name: rename(m, number, name) for name in names]


def waits_for_renames(program):
    for depth in (1, DEPTH):
        with served(program) as [server]:
            other, asker = Other(server), Asker(server)
            asker.does(made_and_closed(nested(depth), DIRECTORY_FILE))
            beside = with_opens(server, nested(depth)[-1])
            [number] = asker.opens(['e'], CREATE, DIRECTORY_FILE)
            # Each name is another one: an entry's own would be no rename.
            names = (f'e{i}' for i in itertools.count())
            ways = [lambda length=length: chain_done(asker, renamings(number, itertools.islice(names, length)))
                    for length in (1, CHAIN)]
            shown(f'a rename of a directory, opens {depth} deep', other, *ways)
            beside.client.end()


def waits(program, _):
    print(f'With {CHILDREN:,} children of a directory, or {OPENS:,} opens:\n')
    times = ('processor ms', 'an ECHO waits, ms: median, most')
    head('request', *times, *(f'{CHAIN} in a chain: {it}' for it in times))
    waits_for_listings(program)
    waits_for_ends(program)
    waits_for_renames(program)


PARTS = {'files': files, 'bytes': bytes_of_files, 'connections': connections, 'waits': waits}


def main():
    words = argparse.ArgumentParser(prog='bench.scale')
    words.add_argument('program', nargs='?', default=PROVED)
    words.add_argument('--only', default=','.join(PARTS))
    words.add_argument('--entries', type=int, default=1_000_000)
    words.add_argument('--gib', type=int, default=4)
    options = words.parse_args()
    # The servers are ended then too.
    signal.signal(signal.SIGTERM, lambda number, _: sys.exit(128 + number))
    most = resource.getrlimit(resource.RLIMIT_NOFILE)[1]
    resource.setrlimit(resource.RLIMIT_NOFILE, (most, most))
    for place, name in enumerate(options.only.split(',')):
        print('\n' * (place > 0), end='')
        PARTS[name](os.path.abspath(options.program), options)


if __name__ == '__main__':
    main()
