"""A journal that gets much longer than its files need is written anew while it is served."""
import os
import struct
import tempfile
import threading
import time

from tests.keeping.journal import INTERNAL_INFORMATION, NUMBER_AT, seen
from tests.smb.client import ALL_ACCESS, LONGEST_PIECE, PATIENCE
from tests.smb.disk import MIB, fill, small_disk
from tests.smb.frames import query_info, write
from tests.smb.kept import Looking, bytes_in, differs, keeping, killed, tree_in
from tests.smb.working import CREATE, DIRECTORY_FILE, OPEN

# How many bytes a file has that is written again and again, and how often that is done at a time. How many bytes a
# journal has at most beside twice those that its files need, and how many beside half as many again as these and an
# eighth where no turn has more than 128 KiB.
SIZE, TIMES, SPARE, BESIDE = 16 * LONGEST_PIECE, 50, 64 * MIB, 50 * MIB
# How many files of that size there are where the new file takes a while; how many clients write to them, for how many
# seconds, and for how many at most; and the seed.
FILES, CLIENTS, SECONDS, LONGEST, SEED = 24, 4, 8, 300, 20_261_130
# After how many times a journal of these files is written anew, and how many bytes are left on a disk that has room for
# that, and not for the new file.
UNTIL_LONG, LEFT = 68, 74 * MIB
# How long a disk is that has room for a journal and its next file, and not for the one before it too; until how many
# new ones there were files are written there; by how many bytes that one gets shorter at a time, and for how many
# seconds it surely has not.
DISK, NEW_ONES, STEP, WHOLE_SECONDS = 128 * MIB, 2, 32 * MIB, 50


def writes_anew(client, number, turn):
    """Writes a whole file anew, and gives the bytes that it has then."""
    data = struct.pack('<Q', turn) * (LONGEST_PIECE // 8)
    for at in range(0, SIZE, LONGEST_PIECE):
        client.asks(write(client.next_id(), number, at, data, client.session, 1), 0, None)
    return data * (SIZE // LONGEST_PIECE)


def number_in(client, name):
    """The number by which a client knows a file."""
    opened = client.opens(name, ALL_ACCESS, OPEN)
    reply, _ = client.any_status(query_info(client.next_id(), opened, INTERNAL_INFORMATION, client.session, 1))
    client.ends(opened)
    return reply[NUMBER_AT:NUMBER_AT + 8]


def one_that_is_long_is_written_anew(program):
    """It has its files, with their numbers, and its rights; a link to it stays one; it is said each time; and a program
    that begins with it has all of them."""
    with tempfile.TemporaryDirectory() as folder:
        file, link, wrong = os.path.join(folder, 'kept'), os.path.join(folder, 'link'), []
        os.symlink(file, link)
        with keeping(program, '--journal', file) as share:
            killed(share)
        os.chmod(file, 0o640)
        with keeping(program, '--journal', link) as share:
            client = Looking(share).comes_in()
            for name in ('gone', 'folder'):
                client.ends(client.opens(name, ALL_ACCESS, CREATE, DIRECTORY_FILE))
            number, sizes = client.opens('folder\\long', ALL_ACCESS, CREATE), []
            for turn in range(3 * TIMES):
                data = writes_anew(client, number, turn)
                sizes.append(os.path.getsize(file))
            client.ends(number)
            found = number_in(client, 'folder\\long')
            killed(share)
            said = share.process.stderr.read().decode().splitlines()
        anew = [line for line in said if line.startswith(f'journal: {link}: written anew, with ')]
        wrong += [differs(len(anew) > 1 and anew == said, True, said), differs(max(sizes) < SPARE, True, max(sizes))]
        rights = os.stat(file).st_mode & 0o777, os.path.islink(link), sorted(os.listdir(folder))
        wrong.append(differs(rights, (0o640, True, ['kept', 'kept.room', 'link', 'link.room']), 'rights and names'))
        with keeping(program, '--journal', file) as share:
            wrong.append(differs(share.before, [], 'said again'))
            tree = {'gone': None, 'folder': None, 'folder\\long': data}
            wrong.append(differs(bytes_in(tree_in(share)) == tree, True, 'files'))
            wrong.append(differs(number_in(Looking(share).comes_in(), 'folder\\long') == found, True, 'number'))
            killed(share)
        return not any(wrong)


class Writer(Looking):
    """A client that writes files of its own anew, over and over, and knows what each has."""

    def begins(self, count):
        self.comes_in()
        self.files = [self.opens(f'{self.number} {i}', ALL_ACCESS, CREATE) for i in range(count)]
        self.has, self.turns, self.is_to_end = {}, 0, False
        for i in range(count):
            self.writes(i)
        return self

    def writes(self, i):
        self.turns += 1
        self.has[f'{self.number} {i}'] = writes_anew(self, self.files[i], self.turns * CLIENTS + self.number)

    def writes_until_the_end(self):
        while not self.is_to_end:
            self.writes(self.chance.randrange(len(self.files)))


class Growth:
    """How long a journal was at most, and how often another file got its name."""

    def __init__(self, file):
        found = os.stat(file)
        self.file, self.most, self.anew, self.number = file, found.st_size, 0, found.st_ino

    def look(self):
        found = os.stat(self.file)
        self.most, self.anew = max(self.most, found.st_size), self.anew + (found.st_ino != self.number)
        self.number = found.st_ino


def at_work(share, growth):
    """The waits of a client that opens a file and closes it beside others that write, for some seconds and until their
    journal was written anew twice, and what their files are then."""
    writers = [Writer(share, i, SEED).begins(FILES // CLIENTS) for i in range(CLIENTS)]
    threads = [threading.Thread(target=writer.writes_until_the_end) for writer in writers]
    for thread in threads:
        thread.start()
    looking, begun, waits = Looking(share, CLIENTS).comes_in(), time.monotonic(), []
    while time.monotonic() < begun + (SECONDS if growth.anew > 1 else LONGEST):
        begin = time.monotonic()
        looking.ends(looking.opens('0 0'))
        waits.append(time.monotonic() - begin)
        growth.look()
    for writer in writers:
        writer.is_to_end = True
    for thread in threads:
        thread.join()
    return waits, {name: data for writer in writers for name, data in writer.has.items()}


def it_is_short_beside_clients_that_write(program):
    """Four clients write to all of their files as fast as they can: the journal is never longer than twice what these
    need, and some; and it has what they wrote."""
    with tempfile.TemporaryDirectory() as folder:
        file = os.path.join(folder, 'kept')
        with keeping(program, '--journal', file) as share:
            growth = Growth(file)
            waits, found = at_work(share, growth)
            killed(share)
            anew = share.process.stderr.read().decode().count(': written anew, with ')
        most = FILES * SIZE * 13 // 8 + BESIDE
        wrong = [differs(growth.most < most, True, (growth.most, most)), differs(anew > 1, True, anew)]
        wrong.append(differs(seen(program, file) == found, True, 'files'))
        print(f'  written anew {anew} times, {growth.most:,} bytes at most; a CREATE with its CLOSE waited '
              f'{max(waits):.3f} seconds at most', flush=True)
        return not any(wrong)


def one_for_which_there_is_no_room_goes_on(program):
    """It gets longer, nobody is refused, and it is said why it is not written anew."""
    with small_disk(2 * FILES * SIZE + SPARE) as disk:
        if disk is None:
            return True
        file = os.path.join(disk, 'kept')
        with keeping(program, '--journal', file) as share:
            writer = Writer(share, 0, SEED).begins(FILES)
            fill(disk, LEFT)
            for i in range(UNTIL_LONG):
                writer.writes(i % FILES)
            tree = bytes_in(tree_in(share))
            killed(share)
            said = share.process.stderr.read().decode()
        wrong = [differs(said, f'journal: {file}: not written anew: no room on the disk\n', 'said')]
        wrong += [differs(tree == writer.has, True, 'files'), differs(os.path.exists(f'{file}.new'), False, 'new')]
        return not any(wrong) and not differs(seen(program, file) == tree, True, 'kept')


def one_that_a_killed_program_left_is_begun_again(program):
    """Of a new file that is not all there nothing is taken: the journal is whole, and is written anew from its begin."""
    with tempfile.TemporaryDirectory() as folder:
        file = os.path.join(folder, 'kept')
        with keeping(program, '--journal', file) as share:
            writer = Writer(share, 0, SEED).begins(FILES)
            while not os.path.exists(f'{file}.new'):
                writer.writes(writer.turns % FILES)
            killed(share)
        is_left = os.path.exists(f'{file}.new')
        with keeping(program, '--journal', file) as share:
            client, end = Looking(share).comes_in(), time.monotonic() + PATIENCE
            while os.path.exists(f'{file}.new') and time.monotonic() < end:
                client.ends(client.opens('0 0'))
            wrong = [differs(os.path.exists(f'{file}.new'), False, 'new')]
            wrong.append(differs(bytes_in(tree_in(share)) == writer.has, True, 'files'))
            killed(share)
        wrong.append(differs(os.path.getsize(file) < SPARE, True, 'size'))
        print(f'  a new file was {"" if is_left else "not "}left', flush=True)
        return not any(wrong) and not differs(seen(program, file) == writer.has, True, 'kept')


def written_until_anew(writer, file):
    """Writes until the journal has the name of another file; gives the one that had it, which is open, and how long it was
    at least."""
    held, growth = os.open(file, os.O_RDONLY), Growth(file)
    while not growth.anew:
        length = growth.most
        writer.writes(writer.turns % FILES)
        growth.look()
    return held, length


def the_one_before_is_left_whole(program):
    """For a minute, so that who copies it has all of it; once another one comes it gets shorter, a step each turn. One
    that has another name stays."""
    with tempfile.TemporaryDirectory() as folder:
        file, link = os.path.join(folder, 'kept'), os.path.join(folder, 'link')
        with keeping(program, '--journal', file) as share:
            writer = Writer(share, 0, SEED).begins(FILES)
            first, _ = written_until_anew(writer, file)
            whole, end = os.fstat(first).st_size, time.monotonic() + WHOLE_SECONDS
            os.link(file, link)
            while time.monotonic() < end and not os.path.exists(f'{file}.new'):
                writer.writes(writer.turns % FILES)
            wrong = [differs(os.fstat(first).st_size, whole, 'the first one, before another one is written')]
            second, length = written_until_anew(writer, file)
            writer.writes(0)
            wrong.append(differs(os.fstat(first).st_size, whole - STEP, 'the first one, behind the second'))
            wrong.append(differs(os.path.getsize(link) >= length > whole // 2, True, (os.path.getsize(link), length)))
            killed(share)
        for held in (first, second):
            os.close(held)
        return not any(wrong) and not differs(seen(program, file) == writer.has, True, 'files')


def the_one_before_gives_its_room(program):
    """Where the disk has no room for it beside the journal and a new one: nobody is refused, and nothing is said."""
    with small_disk(DISK) as disk:
        if disk is None:
            return True
        file = os.path.join(disk, 'kept')
        with keeping(program, '--journal', file) as share:
            writer = Writer(share, 0, SEED).begins(FILES)
            for _ in range(NEW_ONES):
                os.close(written_until_anew(writer, file)[0])
            writer.writes(0)
            killed(share)
            said = share.process.stderr.read().decode().splitlines()
        anew = [line for line in said if line.startswith(f'journal: {file}: written anew, with ')]
        return not differs(anew == said and len(anew) >= NEW_ONES, True, said) and not differs(
            seen(program, file) == writer.has, True, 'files')


TESTS = (one_that_is_long_is_written_anew, it_is_short_beside_clients_that_write,
         one_for_which_there_is_no_room_goes_on, one_that_a_killed_program_left_is_begun_again,
         the_one_before_is_left_whole, the_one_before_gives_its_room)
