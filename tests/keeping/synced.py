"""With --sync one wait is for all pieces that are ready, and nothing is answered before it."""
import contextlib
import os
import tempfile
import time

from tests.keeping.journal import seen
from tests.smb.client import ALL_ACCESS
from tests.smb.frames import write
from tests.smb.kept import Looking, differs, ended, keeping, killed
from tests.smb.preload import odd_system
from tests.smb.working import CREATE, Ended

CLIENTS, ROUNDS, PART = 8, 4, b'p' * 3_000
# How long the first client is ahead of the others, in seconds: less than a wait takes.
AHEAD = 0.05


class Writer(Looking):
    """A client with a file of its own, to which it writes a part at a time."""

    def begins(self, name):
        self.comes_in()
        self.name, self.file, self.count = name, self.opens(name, ALL_ACCESS, CREATE), 0
        return self

    def sends(self):
        self.frame = write(self.next_id(), self.file, self.count, PART, self.session, 1)
        self.client.send(self.frame)

    def is_answered(self):
        """Whether its WRITE is answered well; not where its stream ends before."""
        with contextlib.suppress(Ended, ConnectionError):
            self.takes(self.frame, 0, None)
            self.count += len(PART)
            return True
        return False


@contextlib.contextmanager
def served(program, folder):
    """A share with a journal on a slow disk, and the file that has a byte for each wait."""
    syncs = os.path.join(folder, 'syncs')
    with odd_system('sync', ODD_SYNCS=syncs) as system:
        with keeping(program, '--journal', os.path.join(folder, 'kept'), '--sync', system=system) as share:
            yield share, syncs


def are_answered(writers):
    """Who of them is answered, where the first one sends a little before the others."""
    writers[0].sends()
    time.sleep(AHEAD)
    for writer in writers[1:]:
        writer.sends()
    return [writer.is_answered() for writer in writers]


def written(writers):
    return {writer.name: PART * (writer.count // len(PART)) for writer in writers}


def who_comes_meanwhile_waits_for_one_sync(program):
    """While the first writer's bytes are waited for seven others write: one wait more is for all of them, and behind a
    kill all is there that was answered."""
    with tempfile.TemporaryDirectory() as folder:
        with served(program, folder) as (share, syncs):
            writers = [Writer(share).begins(f'{number}') for number in range(CLIENTS)]
            before = os.path.getsize(syncs)
            answered = [are_answered(writers) for _ in range(ROUNDS)]
            count = os.path.getsize(syncs) - before
            killed(share)
        wrong = [differs(answered, [[True] * CLIENTS] * ROUNDS, 'answered'), not 1 <= count <= 3 * ROUNDS]
        if wrong[1]:
            print(f'  {count} waits for {CLIENTS} writers in {ROUNDS} rounds', flush=True)
        return not any([*wrong, differs(seen(program, os.path.join(folder, 'kept')), written(writers), 'behind it')])


def nothing_is_answered_whose_wait_fails(program):
    """The first writer's bytes last, and it is answered. The wait for all others fails: none of them is answered, and the
    server ends and says why."""
    with tempfile.TemporaryDirectory() as folder:
        with served(program, folder) as (share, syncs):
            writers = [Writer(share).begins(f'{number}') for number in range(CLIENTS)]
            with open(f'{syncs}.fails', 'wb'):
                answered = are_answered(writers)
            status, said = ended(share)
        file = os.path.join(folder, 'kept')
        wrong = [differs(answered, [True] + [False] * (CLIENTS - 1), 'answered'), differs(status, 1, 'status'),
                 differs(said, f'journal: {file}: cannot be written: another fault of the system\n', 'said')]
        return not any(wrong) and seen(program, file)[writers[0].name] == PART


TESTS = [who_comes_meanwhile_waits_for_one_sync, nothing_is_answered_whose_wait_fails]
