"""A journal on a disk that is full: what needs room is refused, all else goes on, and nothing acknowledged is lost."""
import contextlib
import os
import tempfile
import threading
import time

from tests.keeping.journal import seen
from tests.smb.client import ALL_ACCESS, PATIENCE
from tests.smb.disk import MIB, fill, small_disk
from tests.smb.frames import rename, set_info, write
from tests.smb.kept import ROOM, Looking, begun, bytes_in, differs, keeping, killed
from tests.smb.working import CREATE, DISPOSITION, OPEN, Ended

# How many bytes a disk has, and how many of them are free beside the room that a journal takes.
DISK, FREE = 24 * MIB, 2 * MIB
# How many seconds a share takes at most to see that there is room.
SEES_ROOM = 5
LONG_NAME, WRITTEN = 'n' * 250, 50_000
NO_ROOM = 'no room on the disk: until there is room files are read, renamed and removed, and not written'
OF_ITS_ROOM = 'the file of its room, which has its name and .room'
AGAIN = 'there is room again'


class Writer(Looking):
    """A client that writes to one file, and knows how many bytes of it are acknowledged."""

    def begins(self, name):
        self.comes_in()
        self.file, self.count = self.opens(name, ALL_ACCESS, CREATE), 0
        return self

    def adds(self):
        frame = write(self.next_id(), self.file, self.count, b'x' * WRITTEN, self.session, 1)
        self.asks(frame, 0, None)
        self.count += WRITTEN

    def adds_until_it_ends(self):
        with contextlib.suppress(Ended, ConnectionError):
            while self.count < DISK:
                self.adds()
        return self.count


def sizes(tree):
    """How many bytes each file has; those that are not all the same are of another kind."""
    return {name: data and (len(data), len({*data})) for name, data in tree.items()}


def says(share, line):
    """Whether the share says this next on standard error."""
    found = share.process.stderr.readline().decode()
    return not differs(found, line, 'said')


def goes_on_beside_it(share):
    """Whether a client reads, renames, removes and asks for an ECHO as ever."""
    client = Looking(share).comes_in()
    number = client.opens('kept', ALL_ACCESS, OPEN)
    client.asks(rename(client.next_id(), number, 'renamed', client.session, 1), 0, None)
    client.ends(number)
    number = client.opens('goes', ALL_ACCESS, OPEN)
    client.asks(set_info(client.next_id(), number, DISPOSITION, b'\1', client.session, 1), 0, None)
    client.ends(number)
    found = bytes_in(client.tree())
    client.client.end()
    return found


def makes(share, *names):
    client = Looking(share).comes_in()
    for name in names:
        client.ends(client.opens(name, ALL_ACCESS, CREATE))
    client.client.end()


def writes_again(share, name):
    """How many bytes a new client wrote to a new file, once the share saw that there is room."""
    until = time.monotonic() + SEES_ROOM
    while True:
        try:
            writer = Writer(share).begins(name)
            writer.adds()
            return writer.count
        except (Ended, AssertionError):
            if time.monotonic() > until:
                raise


def what_needs_room_is_refused(program):
    """The client that writes is ended; others read, rename and remove; it is said once; with room again all goes on;
    and all that was acknowledged is there behind a kill."""
    with small_disk(DISK) as disk:
        if disk is None:
            return True
        file = os.path.join(disk, 'kept')
        with keeping(program, '--journal', file) as share:
            wrong = [differs(os.path.getsize(f'{file}.room'), ROOM, 'room at first')]
            makes(share, 'kept', 'goes')
            ballast = fill(disk, FREE)
            writer = Writer(share).begins('long')
            count = writer.adds_until_it_ends()
            wrong += [not says(share, f'journal: {file}: {NO_ROOM}\n'), count < FREE - WRITTEN, count > DISK // 2]
            found, wanted = goes_on_beside_it(share), {'renamed': b'', 'long': b'x' * count}
            wrong.append(differs(sizes(found), sizes(wanted), 'beside a full disk'))
            with contextlib.suppress(Ended):
                Writer(share).begins('small').adds()
                wrong.append(differs(True, False, 'written'))
            os.remove(ballast)
            wanted['again'] = b'x' * writes_again(share, 'again')
            wrong.append(not says(share, f'journal: {file}: {AGAIN}\n'))
            killed(share)
        found = {name: data for name, data in seen(program, file).items() if name != 'small'}
        return not any([*wrong, differs(sizes(found), sizes(wanted), 'behind a kill')])


def what_passes_the_margin_waits(program):
    """Clients that rename use up all room that is left: then nothing is answered, until there is room; nothing ends,
    and nothing that was acknowledged is lost."""
    with small_disk(DISK) as disk:
        if disk is None:
            return True
        file = os.path.join(disk, 'kept')
        with keeping(program, '--journal', file) as share:
            makes(share, 'a')
            ballast, client, names = fill(disk), Looking(share).comes_in(), []
            number, waited, freed = client.opens('a', ALL_ACCESS, OPEN), None, threading.Event()

            def renames():
                while not freed.is_set():
                    name = f'{LONG_NAME}{len(names):05}'
                    client.asks(rename(client.next_id(), number, name, client.session, 1), 0, None)
                    names.append(name)

            thread = threading.Thread(target=renames)
            thread.start()
            while waited != len(names):
                waited = len(names)
                time.sleep(2)
            is_alive, room = share.process.poll() is None, os.path.getsize(f'{file}.room')
            freed.set()
            os.remove(ballast)
            thread.join(PATIENCE)
            killed(share)
            wrong = [differs(is_alive, True, 'alive'), differs(len(names), waited + 1, 'renames'),
                     differs(room < ROOM // 4, True, (room, waited))]
        return not any([*wrong, differs(seen(program, file), {names[-1]: b''}, 'behind a kill')])


def readers_and_writers_beside_a_full_disk(program):
    """Writers are ended and come again for a time, readers are not, and none of them waits for the others."""
    with small_disk(DISK) as disk:
        if disk is None:
            return True
        file, ends, longest, refused = os.path.join(disk, 'kept'), threading.Event(), [0.0], []
        with keeping(program, '--journal', file) as share:
            makes(share, 'read')
            fill(disk, FREE)

            def writes(name):
                while not ends.is_set():
                    with contextlib.suppress(Ended, AssertionError, ConnectionError):
                        writer = Writer(share).begins(f'{name} {len(refused)}')
                        writer.adds_until_it_ends()
                    refused.append(name)

            threads = [threading.Thread(target=writes, args=(name,)) for name in 'ab']
            for thread in threads:
                thread.start()
            reader, until = Looking(share).comes_in(), time.monotonic() + 3
            while time.monotonic() < until:
                begin = time.monotonic()
                reader.bytes_of('read')
                longest.append(time.monotonic() - begin)
            ends.set()
            for thread in threads:
                thread.join()
            is_alive = share.process.poll() is None
            killed(share)
        wrong = [differs(is_alive, True, 'alive'), differs(max(longest) < 1, True, max(longest)), len(refused) < 2]
        return not any(wrong)


def room_that_cannot_be_made_is_named(program):
    """Where a folder has its name, or another program has it; the journal stays as it was."""
    with tempfile.TemporaryDirectory() as folder:
        file = os.path.join(folder, 'kept')
        os.mkdir(f'{file}.room')
        wanted = 1, f'journal: {file}: {OF_ITS_ROOM}: cannot be written: is a directory; move that one away\n'
        found = begun(program, '--journal', file)
        os.rmdir(f'{file}.room')
        return not differs(found, wanted, 'refused') and not differs(seen(program, file), {}, 'then')


TESTS = (what_needs_room_is_refused, what_passes_the_margin_waits, readers_and_writers_beside_a_full_disk,
         room_that_cannot_be_made_is_named)
