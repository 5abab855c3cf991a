"""A kept share of which each allocation, and each write of its journal, is refused in turn."""
import os
import re
import subprocess
import tempfile
from concurrent.futures import ThreadPoolExecutor

from tests.keeping.journal import FIRST_BYTES, FRONT, batches_of
from tests.keeping.killing import Keeping, Marking
from tests.smb.client import ALL_ACCESS, PATIENCE
from tests.smb.frames import set_info, write
from tests.smb.kept import begins_to_keep, bytes_in, bytes_of, killed, put, tree_in, with_room
from tests.smb.preload import built
from tests.smb.program import Served, limits
from tests.smb.working import CREATE, DISPOSITION, Ended

SEED, REQUESTS, MOMENT = 20_261_126, 40, 134_000_000_000_000_000
# How many bytes one file has of a journal with which a share begins.
LONG = 60_000
MOST_SAID = 5


class Refusing(Served):
    """The program, serving a share that it keeps, which may end before it listens; what it says, and its port."""

    def __init__(self, program, file, system=None, longest=None):
        self.file = file
        self.process = begins_to_keep(program, file, '--clock', str(MOMENT), stdin=subprocess.DEVNULL,
                                      stdout=subprocess.DEVNULL, stderr=subprocess.PIPE, env=system,
                                      preexec_fn=limits(longest=longest) if longest else None)
        self.said, self.port = [], None
        for line in iter(self.process.stderr.readline, b''):
            self.said.append(line.decode())
            if found := re.fullmatch(r'listening on 127\.0\.0\.1:(\d+)\n', self.said[-1]):
                self.port = int(found[1])
                return
        self.process.wait()

    def ended_well(self):
        """Whether it has ended by itself, for want of memory: before it served, or since a line could not be made."""
        said = self.said + self.process.stderr.read().decode().splitlines(keepends=True)
        unkept = f'journal: {self.file}: cannot be written: no memory\n'
        return (self.process.wait(), *said[-1:]) in ((3, 'no memory\n'), (1, unkept))


class Trial:
    """A journal, or none yet, on which a share begins; what a client of number 0 has in it, and what others have."""

    def __init__(self, program, library, journal=None, own=None, others=None):
        self.program, self.library = program, library
        self.journal, self.own, self.others = journal, own or {}, others or {}

    def works(self, share):
        """What may be there once the client has made so many requests, or was ended, also behind a kill."""
        if share.port is None:
            return [self.own]
        try:
            client = Marking(share, 0, SEED, self.own)
        except ConnectionError:
            return [self.own]
        try:
            client.comes_in()
            for _ in range(REQUESTS):
                client.does_one()
        except (Ended, ConnectionError):
            pass
        return client.may_be_left() + Keeping.may_be_left(client)

    def begun(self, folder):
        """A new copy of the journal."""
        file = os.path.join(folder, 'kept')
        return put(file, bytes_of(self.journal)) if self.journal else file

    def fault_behind(self, file, outcomes):
        """What is wrong with what a share has that begins again; nothing where it is one of the outcomes."""
        with Refusing(self.program, file) as share:
            if share.port is None:
                return f'it does not begin again: {share.said}'
            seen = bytes_in(tree_in(share))
        if seen in [{**self.others, **outcome} for outcome in outcomes]:
            return ''
        return f'there are {({name: data and len(data) for name, data in seen.items()})}'

    def fault_at_allocation(self, number):
        """What is wrong where the allocation of a number is refused; None where there are fewer."""
        with tempfile.TemporaryDirectory() as folder:
            file, refused = self.begun(folder), os.path.join(folder, 'refused')
            system = {'LD_PRELOAD': self.library, 'REFUSE': str(number), 'REFUSED': refused}
            with Refusing(self.program, file, system) as share:
                outcomes = self.works(share)
                if not os.path.exists(refused):
                    return None
                if share.process.poll() is not None and not share.ended_well():
                    return f'it ends with {share.process.returncode} and says {share.said}'
                killed(share)
            return self.fault_behind(file, outcomes)

    def fault_at_write(self, length):
        """What is wrong where no byte can be written behind so many of the journal; None where none is."""
        with tempfile.TemporaryDirectory() as folder:
            file = with_room(self.begun(folder))
            with Refusing(self.program, file, longest=length) as share:
                outcomes = self.works(share)
                if share.port is not None and share.process.poll() is None and os.path.getsize(file) < length:
                    return None
                _, said = share.process.communicate(timeout=PATIENCE)
                if share.process.returncode != 1 or os.path.getsize(file) > length:
                    return f'it ends with {share.process.returncode} and says {share.said}, {said}'
            return self.fault_behind(file, outcomes)


def are_well(faults):
    """Whether nothing is wrong at any of the places, of which there have to be some."""
    wrong = [f'{number}: {fault}' for number, fault in faults if fault]
    for fault in wrong[:MOST_SAID]:
        print(f'  {fault}', flush=True)
    print(f'  {len(faults)} refused, {len(wrong)} of them wrong', flush=True)
    return bool(faults) and not wrong


def is_well_at_each_allocation(trial):
    """Whether nothing is wrong at each number, from 1 up to that at which nothing is refused any more."""
    faults, at_once = [], 4 * os.cpu_count()
    with ThreadPoolExecutor(os.cpu_count()) as pool:
        while True:
            numbers = range(len(faults) + 1, len(faults) + 1 + at_once)
            found = list(pool.map(trial.fault_at_allocation, numbers))
            faults += [(number, fault) for number, fault in zip(numbers, found) if fault is not None]
            if None in found:
                return are_well(faults)


def trial_of_a_start(program, library, folder):
    """A trial over a journal of many batches, and of a file that is marked and goes at the next start."""
    file, work = os.path.join(folder, 'whole'), Trial(program, library)
    with Refusing(program, file) as share:
        own, other = work.works(share)[0], Marking(share, 1, SEED, {}).comes_in()
        for name in ('1 long', '1 marked'):
            number = other.opens(name, ALL_ACCESS, CREATE)
            other.asks(write(other.next_id(), number, 0, bytes(LONG), other.session, 1), 0, None)
        other.asks(set_info(other.next_id(), number, DISPOSITION, b'\1', other.session, 1), 0, None)
        killed(share)
    return Trial(program, library, file, own, {'1 long': bytes(LONG)})


def each_allocation_of_a_kept_share(program):
    """From its first moment on, up to the end of a client's first requests."""
    with built('refuse_allocation') as library:
        return is_well_at_each_allocation(Trial(program, library))


def each_allocation_of_a_start(program):
    """Where a journal is read, what is marked goes, and a client then goes on with its files."""
    with built('refuse_allocation') as library, tempfile.TemporaryDirectory() as folder:
        return is_well_at_each_allocation(trial_of_a_start(program, library, folder))


def each_write_of_a_journal(program):
    """Where the journal is full behind each of its batches, and within each: in its front, its changes and its back."""
    with tempfile.TemporaryDirectory() as folder:
        trial, file = Trial(program, None), os.path.join(folder, 'whole')
        with Refusing(program, file) as share:
            trial.works(share)
            killed(share)
        ends = [FIRST_BYTES, *batches_of(bytes_of(file))]
        within = [(begin, begin + 9, begin + FRONT + 3, end - 4) for begin, end in zip(ends, ends[1:-1])]
        places = [20, *(place for places in within for place in places)]
        with ThreadPoolExecutor(os.cpu_count()) as pool:
            return are_well(list(zip(places, pool.map(trial.fault_at_write, places))))


TESTS = (each_allocation_of_a_kept_share, each_allocation_of_a_start, each_write_of_a_journal)
