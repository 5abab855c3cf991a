"""Clients whose server is killed again and again, and what has to be there behind a restart."""
import contextlib
import os
import random
import struct
import tempfile
import threading
import time

from tests.smb.client import ALL_ACCESS
from tests.smb.disk import MIB, fill, small_disk
from tests.smb.frames import close, create, rename, replace, set_info, write
from tests.smb.kept import Looking, begins_to_keep, bytes_in, extracted, keeping, killed, tree_in, tree_of
from tests.smb.working import (CREATE, DELETE_ON_CLOSE, DIRECTORY_FILE, DISPOSITION, END_OF_FILE, FILE_ID_AT, OPEN,
                               SUPERSEDE, Ended, Wrong)

OVERWRITE_IF = 5
COLLISION, NO_SUCH_OPEN = 0xC0000035, 0xC0000128
# How many clients there are, how many files each has at most, and how many bytes each and a WRITE has.
CLIENTS, MOST_FILES, LONGEST, LONGEST_WRITE = 3, 4, 12_000, 1_500
# Within how many seconds a server is killed; which round has what was written settled, in which one the server is killed
# too while it begins, and in which one the disk is full: how many bytes it has, and how many are left then.
SOONEST, LATEST, SETTLED, KILLED_TWICE, FULL, DISK, LEFT = 0.05, 0.6, 4, 5, 5, 256 * MIB, 100_000
# Which round has the journal written anew: how many bytes a file has by which it gets long, how many of them are written at
# a time, and within how many seconds the server is killed once the new one is begun.
ANEW, LARGE, PIECE, WITHIN = 2, 15 * MIB, 1 << 16, 0.02
# Over how many kills a journal is kept.
OF_ONE, OF_ONE_UNPROVED = 25, 10


class Keeping(Looking):
    """A client at work on files of its own names. It knows what they are now, and what they are behind the request that
    is under way: for each file or folder its bytes, and which of them go once the client's connection ends."""

    def __init__(self, share, number, seed, files):
        super().__init__(share, number, seed)
        self.now = self.next = files, frozenset()
        self.file = None
        self.count = sum(1 for _ in files) + self.chance.randrange(1_000_000) * 10

    def may_be_left(self):
        """What may be there once the client's connection has ended: with and without the request that is under way."""
        return [{name: data for name, data in files.items() if name not in going}
                for files, going in (self.now, self.next)]

    def asks_for(self, frame, files, going, status=0):
        """Asks for what makes the files these; they are so once it is answered."""
        self.next = files, going
        reply = self.asks(frame, status, None)
        self.now = self.next
        return reply

    def works_on(self, wrong):
        """Works until the share has ended the client; what is wrong is noted."""
        try:
            self.comes_in()
            while True:
                self.does_one()
        except (Ended, ConnectionError):
            pass
        except Exception as error:
            wrong.append(repr(error))

    def does_one(self):
        """Asks for one thing."""
        files, going = self.now
        if self.file is None:
            own = [name for name, data in files.items() if data is not None]
            self.chance.choice(self.without_file(own))(files, own)
        elif self.name in going:
            self.chance.choice((self.writes_it, self.keeps, self.closes_it))(files, going)
        else:
            self.chance.choice((self.writes_it, self.writes_it, self.writes_it, self.sets_its_size, self.renames_to,
                                self.replaces, self.marks, self.closes_it, self.is_refused))(files, going)

    def without_file(self, own):
        """What may be asked for where no file is open."""
        if len(own) > MOST_FILES:
            return [self.opens_to_delete]
        with_own = [self.opens_it, self.makes_anew, self.opens_to_delete] if own else []
        return [self.makes, self.makes, self.makes_folder] + with_own

    def new_name(self, files):
        """A name that is in none of the files, perhaps in a folder of the client."""
        self.count += 1
        folders = [f'{name}\\' for name, data in files.items() if data is None]
        folder = self.chance.choice(folders + [''])
        return f'{folder}{self.number} {self.count}'

    def some_bytes(self):
        size = self.chance.randint(1, LONGEST_WRITE)
        return self.chance.getrandbits(8 * size).to_bytes(size, 'big')

    def opened(self, name, files, going, disposition=OPEN, options=0):
        """Opens a file, after which the files are these."""
        frame = create(self.next_id(), name, ALL_ACCESS, disposition, options, self.session, 1)
        reply = self.asks_for(frame, files, going)
        self.name, self.file = name, struct.unpack_from('<Q', reply, FILE_ID_AT)[0]

    # Requests where no file is open.

    def makes(self, files, _):
        """A new file, which at times goes with its open."""
        name, is_lost = self.new_name(files), self.chance.random() < 0.2
        self.opened(name, {**files, name: b''}, frozenset([name] if is_lost else []), CREATE, DELETE_ON_CLOSE * is_lost)
        self.stays = is_lost

    def makes_folder(self, files, _):
        name = f'{self.number} folder'
        if name in files:
            return
        frame = create(self.next_id(), name, ALL_ACCESS, CREATE, DIRECTORY_FILE, self.session, 1)
        reply = self.asks_for(frame, {**files, name: None}, frozenset())
        self.ends(struct.unpack_from('<Q', reply, FILE_ID_AT)[0])

    def opens_it(self, files, own):
        self.stays = False
        self.opened(self.chance.choice(own), files, frozenset())

    def makes_anew(self, files, own):
        """An old file, which loses its bytes."""
        name, self.stays = self.chance.choice(own), False
        self.opened(name, {**files, name: b''}, frozenset(), self.chance.choice((OVERWRITE_IF, SUPERSEDE)))

    def opens_to_delete(self, files, own):
        name, self.stays = self.chance.choice(own), True
        self.opened(name, files, frozenset([name]), OPEN, DELETE_ON_CLOSE)

    # Requests of the file that is open.

    def writes_it(self, files, going):
        old, data = files[self.name], self.some_bytes()
        at = self.chance.randrange(min(len(old) + 100, LONGEST))
        new = old[:at] + bytes(max(0, at - len(old))) + data + old[at + len(data):]
        self.asks_for(write(self.next_id(), self.file, at, data, self.session, 1), {**files, self.name: new}, going)

    def sets_its_size(self, files, going):
        size, old = self.chance.randrange(LONGEST), files[self.name]
        new = old[:size] + bytes(max(0, size - len(old)))
        frame = set_info(self.next_id(), self.file, END_OF_FILE, struct.pack('<Q', size), self.session, 1)
        self.asks_for(frame, {**files, self.name: new}, going)

    def renames_to(self, files, going):
        self.renamed(self.new_name(files), files, going, rename)

    def replaces(self, files, going):
        """Takes the name of another file, which goes."""
        others = [name for name, data in files.items() if data is not None and name != self.name]
        if others:
            self.renamed(self.chance.choice(others), files, going, replace)

    def renamed(self, name, files, going, spelled):
        frame = spelled(self.next_id(), self.file, name, self.session, 1)
        others = {other: data for other, data in files.items() if other != self.name}
        self.asks_for(frame, {**others, name: files[self.name]}, going)
        self.name = name

    def marks(self, files, going):
        frame = set_info(self.next_id(), self.file, DISPOSITION, b'\1', self.session, 1)
        self.asks_for(frame, files, going | {self.name})

    def keeps(self, files, going):
        """Takes the mark away; what an open itself deletes goes all the same."""
        frame = set_info(self.next_id(), self.file, DISPOSITION, b'\0', self.session, 1)
        self.asks_for(frame, files, going if self.stays else going - {self.name})

    def closes_it(self, files, going):
        left = {name: data for name, data in files.items() if name not in going}
        self.asks_for(close(self.next_id(), self.file, self.session, 1), left, frozenset())
        self.file = None

    def is_refused(self, files, going):
        """Asks for what is refused, and changes nothing."""
        other = self.chance.choice(list(files))
        frame, status = self.chance.choice((
            (create(self.next_id(), other, ALL_ACCESS, CREATE, 0, self.session, 1), COLLISION),
            (write(self.message_id - 1, self.file + 1_000, 0, b'refused', self.session, 1), NO_SUCH_OPEN)))
        self.asks_for(frame, files, going, status)


def difference(found, outcomes):
    """A difference between what is there, and what may be there."""
    may = outcomes[0]
    for name in sorted({*found, *may}):
        if found.get(name, 0) != may.get(name, 0):
            told = [data if not isinstance(data, bytes) else f'{len(data)} bytes' for data in
                    (found.get(name, 'nothing'), *(outcome.get(name, 'nothing') for outcome in outcomes))]
            return f'{name!r} is {told[0]}, not {told[1]}, nor {told[2]}'
    return 'nothing'


class Marking(Keeping):
    """The same where the server is killed: then a file goes that is marked, and not one that its open was to delete."""
    mark = next_mark = False

    def may_be_left(self):
        return [{name: data for name, data in files.items() if not (is_marked and name in going)}
                for (files, going), is_marked in ((self.now, self.mark), (self.next, self.next_mark))]

    def asks_for(self, frame, files, going, status=0):
        reply = super().asks_for(frame, files, going, status)
        self.mark = self.next_mark
        return reply

    def opened(self, name, files, going, disposition=OPEN, options=0):
        self.next_mark = False
        super().opened(name, files, going, disposition, options)

    def marks(self, files, going):
        self.next_mark = True
        super().marks(files, going)

    def keeps(self, files, going):
        self.next_mark = False
        super().keeps(files, going)

    def closes_it(self, files, going):
        self.next_mark = False
        super().closes_it(files, going)


class Large(Looking):
    """A client that writes a large file over and over, so that the journal gets long."""

    def writes_until(self, is_long):
        """Writes until it is long, or its server is gone."""
        with contextlib.suppress(Ended, ConnectionError):
            file, at = self.comes_in().opens(f'{CLIENTS} large', ALL_ACCESS, OVERWRITE_IF), 0
            while not is_long():
                self.asks(write(self.next_id(), file, at % LARGE, bytes([at // LARGE % 256]) * PIECE, self.session, 1), 0, None)
                at += PIECE


class Journal:
    """A journal that servers are killed on, and what may be there of each client's files."""

    def __init__(self, program, folder, seed, may_be_full):
        self.program, self.folder, self.seed, self.chance = program, folder, seed, random.Random(seed)
        self.may_be_full = may_be_full
        self.file, self.answered = os.path.join(folder, 'journal'), 0
        self.may_be_left, self.under_way, self.happened, self.anew = [[{}]] * CLIENTS, 0, 0, 0

    def compare(self, share):
        """All that a client sees: it is what may be there."""
        seen = tree_in(share)
        of_all = [{name: data for name, data in bytes_in(seen).items() if name.startswith(f'{number} ')}
                  for number in range(CLIENTS)]
        if sum(map(len, of_all)) + (f'{CLIENTS} large' in seen) != len(seen):
            raise Wrong(f'there are names of nobody: {list(seen)}')
        for found, outcomes in zip(of_all, self.may_be_left):
            if found not in outcomes:
                raise Wrong(difference(found, outcomes))
            self.under_way += outcomes[0] != outcomes[-1]
            self.happened += outcomes[0] != outcomes[-1] == found
        self.may_be_left = [[found] for found in of_all]
        return seen

    def is_killed_at_its_begin(self):
        """A server that is killed, perhaps before it has read the journal."""
        process = begins_to_keep(self.program, self.file)
        time.sleep(self.chance.uniform(0, 0.2))
        process.kill()
        process.wait()

    def round(self, number):
        """Kills a server on which clients work."""
        if number % KILLED_TWICE == KILLED_TWICE - 1:
            self.is_killed_at_its_begin()
        words = ['--sync'] if number % SETTLED == SETTLED - 1 else []
        wrong, ballast = [], None
        if self.may_be_full and number % FULL == FULL - 3:
            ballast = fill(self.folder, LEFT)
        with keeping(self.program, '--journal', self.file, *words) as share:
            self.compare(share)
            clients = [Marking(share, i, f'{self.seed}/{number}', self.may_be_left[i][0]) for i in range(CLIENTS)]
            threads = [threading.Thread(target=client.works_on, args=(wrong,)) for client in clients]
            for thread in threads:
                thread.start()
            if number % ANEW == ANEW - 1:
                Large(share, CLIENTS).writes_until(lambda: os.path.exists(f'{self.file}.new'))
                time.sleep(self.chance.uniform(0, WITHIN))
            else:
                time.sleep(self.chance.uniform(SOONEST, LATEST))
            killed(share)
            self.anew += os.path.exists(f'{self.file}.new')
            for thread in threads:
                thread.join()
        if ballast:
            os.remove(ballast)
        if wrong:
            raise Wrong(wrong[0])
        self.answered += sum(client.answered for client in clients)
        self.may_be_left = [client.may_be_left() for client in clients]
        if ballast:
            # A client that was ended has lost the files that were to go with its opens.
            self.may_be_left = [left + Keeping.may_be_left(client) for left, client in zip(self.may_be_left, clients)]

    def is_extracted(self):
        """Whether an extraction gives what a client sees behind the last restart."""
        with keeping(self.program, '--journal', self.file) as share:
            seen = self.compare(share)
            killed(share)
        folder = os.path.join(self.folder, 'extracted')
        return extracted(self.program, self.file, folder) == (0, '') and tree_of(folder) == seen


def is_kept_over(program, rounds, seed):
    """Whether nothing is lost that was acknowledged, and nothing is there that was refused, over so many rounds."""
    with tempfile.TemporaryDirectory() as folder, small_disk(DISK) as disk:
        journal = Journal(program, disk or folder, seed, disk is not None)
        for number in range(rounds):
            try:
                journal.round(number)
            except Exception as error:
                raise Wrong(f'seed {seed}, round {number}: {error!r}') from error
        if not journal.is_extracted():
            raise Wrong(f'seed {seed}: what is extracted is not what a client sees')
        print(f'  seed {seed}: {rounds} kills, {journal.answered:,} answers, {os.path.getsize(journal.file):,} bytes; '
              f'of {journal.under_way} changes under way {journal.happened} had happened; {journal.anew} new journals were '
              'under way', flush=True)
        return True


def nothing_acknowledged_is_lost_behind_kills(program, kills, seed):
    """The same over so many kills, a new journal for each so many of them."""
    of_one = OF_ONE_UNPROVED if program.is_unproved else OF_ONE
    return all(is_kept_over(program, min(of_one, kills - done), seed + done) for done in range(0, kills, of_one))
