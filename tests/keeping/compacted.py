"""What `smbshare compact` makes of a journal, of a record, and of a journal of events of before."""
import os
import random
import struct
import tempfile

from tests.keeping.damaged import OTHER_VERSION
from tests.keeping.folders import DAMAGED_AT_ONCE, NEITHER
from tests.keeping.journal import FIRST, FIRST_BYTES, batches_of, turned
from tests.keeping.recordings import made_old
from tests.smb.chance import some_bytes
from tests.smb.client import ALL_ACCESS, LONGEST_PIECE
from tests.smb.frames import query_directory, rename, set_info, write
from tests.smb.kept import ENTRIES_AT, FOLDER, Looking, bytes_of, cut_end, differs, keeping, killed, put
from tests.smb.working import (CREATE, DELETE_ON_CLOSE, DIRECTORY_FILE, DISPOSITION, END_OF_FILE, OPEN,
                               SUPERSEDE)

BASIC, WITH_NUMBERS, READONLY, HIDDEN, SYSTEM, NORMAL, WRITE_ATTRIBUTES = 4, 38, 1, 2, 4, 0x80, 0x100
# A moment, in units of 100 ns since 1601, and the last that a request sets.
MOMENT, LAST = 134_000_000_000_000_000, (1 << 63) - 1
SEED = 20_261_126


class Whole(Looking):
    """A client that sees all that a share shows of its files and folders."""

    def sets(self, name, times, attributes):
        """Sets the four times and the attributes of what has this name."""
        number = self.opens(name, WRITE_ATTRIBUTES, OPEN)
        basic = struct.pack('<4QI4x', *times, attributes)
        self.asks(set_info(self.next_id(), number, BASIC, basic, self.session, 1), 0, None)
        self.ends(number)

    def makes(self, name, data=b'', options=0):
        number = self.opens(name, ALL_ACCESS, CREATE, options)
        self.writes(number, data)
        self.ends(number)

    def writes(self, number, data):
        for at in range(0, len(data), LONGEST_PIECE):
            part = data[at:at + LONGEST_PIECE]
            self.asks(write(self.next_id(), number, at, part, self.session, 1), 0, None)

    def shown(self, folder=''):
        """Of each name in a folder and below, `.` among them, all that a listing shows, and the bytes of a file."""
        number, found = self.opens(folder, 1, OPEN, DIRECTORY_FILE), {}
        while True:
            frame = query_directory(self.next_id(), number, WITH_NUMBERS, 0, '*', LONGEST_PIECE, self.session, 1)
            reply, status = self.any_status(frame)
            if status != 0:
                break
            found.update(shown_in(reply[ENTRIES_AT:], folder))
        self.ends(number)
        for path, fields in list(found.items()):
            is_folder = fields[6] & FOLDER != 0
            found[path] = fields, None if is_folder else self.bytes_of(path)
            found.update(self.shown(path) if is_folder and not path.endswith('\\.') else {})
        return found


def shown_in(entries, folder):
    """The entries of a FileIdFullDirectoryInformation: times, sizes, attributes and number by path; of `..` nothing."""
    found, at, step = {}, 0, None
    while step != 0:
        step = struct.unpack_from('<I', entries, at)[0]
        *fields, attributes, length, number = struct.unpack_from('<6QII8xQ', entries, at + 8)
        name = entries[at + 80:at + 80 + length].decode('utf-16-le', 'surrogatepass')
        if name != '..':
            found[f'{folder}\\{name}' if folder or name == '.' else name] = (*fields, attributes, number)
        at += step
    return found


def work(share):
    """Makes files and folders, with all that can be set of them, by more requests than it takes."""
    client, big = Whole(share).comes_in(), some_bytes(random.Random(SEED), 70_001)
    client.makes('Folder', options=DIRECTORY_FILE)
    client.makes('Folder\\inner', options=DIRECTORY_FILE)
    client.makes('Folder\\inner\\f', big)
    client.makes('empty')
    client.makes('Gr\u00f6\u00dfe \U0001f600', b'named')
    client.makes('alone\ud800', b'surrogate')
    client.makes('sparse')
    client.makes('before', b'renamed')
    for name, access in (('sparse', ALL_ACCESS), ('before', ALL_ACCESS)):
        number = client.opens(name, access, OPEN)
        if name == 'sparse':
            client.asks(write(client.next_id(), number, 5_000, b'x', client.session, 1), 0, None)
        else:
            client.asks(rename(client.next_id(), number, 'Folder\\AFTER', client.session, 1), 0, None)
        client.ends(number)
    for _ in range(12):
        client.ends(client.opens('gone', ALL_ACCESS, CREATE, DELETE_ON_CLOSE))
        number = client.opens('again', ALL_ACCESS, SUPERSEDE)
        client.writes(number, big)
        client.ends(number)
    client.sets('Folder\\inner\\f', (MOMENT, 1, LAST, MOMENT + 7), HIDDEN | SYSTEM | READONLY)
    client.sets('empty', (5, 6, 7, 8), NORMAL)
    client.sets('Folder\\inner', (MOMENT + 1, MOMENT + 2, MOMENT + 3, MOMENT + 4), HIDDEN)
    client.sets('', (MOMENT + 5, MOMENT + 6, MOMENT + 7, MOMENT + 8), SYSTEM)
    return client


def shown_by(program, file):
    """All that a share shows that begins with a journal."""
    with keeping(program, '--journal', file) as share:
        found = Whole(share).comes_in().shown()
        killed(share)
    return found


def worked(program, form, file, moment):
    """A file of one of these forms that is longer than it need be, whose times go on from a moment, and what the share
    showed, but for a file that is marked at its end."""
    with keeping(program, form, file, '--clock', str(moment)) as share:
        client = work(share)
        number = client.opens('marked', ALL_ACCESS, CREATE)
        shown = client.shown()
        client.asks(set_info(client.next_id(), number, DISPOSITION, b'\1', client.session, 1), 0, None)
        killed(share)
    return file, {path: it for path, it in shown.items() if path != 'marked'}


def compacted(program, file, to):
    """The status and standard error of a compaction of a file into another."""
    with open(file, 'rb') as old, open(to, 'wb') as new:
        return program.ran('compact', given=old, stdout=new)[::2]


def is_shown(program, file, shown):
    """Whether a share that begins with a journal shows the same."""
    found = shown_by(program, file)
    others = {path: [it.get(path, ['nothing'])[0] for it in (found, shown)] for path in {*found, *shown}
              if found.get(path) != shown.get(path)}
    return not differs(others, {}, 'shown')


def a_journal_is_compacted(program):
    """Names, bytes, sizes, attributes, numbers and all times are the same, also of the root, and times that no request
    can set; so they are of a compaction of what was compacted. Each has a seed of its own, and is much shorter."""
    with tempfile.TemporaryDirectory() as folder:
        file, shown = worked(program, '--journal', os.path.join(folder, 'kept'), LAST + 1)
        old, new, again = bytes_of(file), os.path.join(folder, 'new'), os.path.join(folder, 'again')
        wrong = differs([compacted(program, file, new), compacted(program, new, again)], [(0, '')] * 2, 'what is said')
        first, second = bytes_of(new), bytes_of(again)
        is_one = (first.startswith(FIRST) and batches_of(first)[-1] == len(first) == len(second) < len(old) / 4
                  and first[:FIRST_BYTES] != second[:FIRST_BYTES] and bytes_of(file) == old)
        return is_one and not wrong and is_shown(program, new, shown) and is_shown(program, again, shown)


def recordings_are_compacted(program):
    """A record, and a journal of events: a share shows the same that begins with what is made of them."""
    with tempfile.TemporaryDirectory() as folder:
        record, shown = worked(program, '--record', os.path.join(folder, 'record'), LAST + 1)
        new, found = os.path.join(folder, 'new'), []
        for file in (record, made_old(record)):
            found.append(not differs(compacted(program, file, new), (0, ''), file) and is_shown(program, new, shown))
        return all(found)


def one_that_is_cut_is_compacted(program):
    """It is said how much is left out, and what is made has the files that are whole: one of several MiB, of which the
    last are zeros."""
    with tempfile.TemporaryDirectory() as folder:
        file, new = os.path.join(folder, 'kept'), os.path.join(folder, 'new')
        with keeping(program, '--journal', file) as share:
            client = Whole(share).comes_in()
            client.makes('a', some_bytes(random.Random(SEED), 1_100_001))
            number = client.opens('a', ALL_ACCESS)
            size = struct.pack('<Q', (3 << 20) + 1)
            client.asks(set_info(client.next_id(), number, END_OF_FILE, size, client.session, 1), 0, None)
            client.ends(number)
            shown = client.shown()
            whole = os.path.getsize(file)
            client.makes('b')
            killed(share)
        cut = put(os.path.join(folder, 'cut'), bytes_of(file)[:whole + 9])
        return not differs(compacted(program, cut, new), (0, cut_end('standard input', 9)), 'cut') and \
            is_shown(program, new, shown)


def what_is_neither_is_not_compacted(program):
    """A text, nothing, one of another version, a damaged one; from a pipe, and onto a full disk."""
    with tempfile.TemporaryDirectory() as folder:
        file, _ = worked(program, '--journal', os.path.join(folder, 'kept'), MOMENT)
        data, new = bytes_of(file), os.path.join(folder, 'new')
        said = {b'no journal\n': NEITHER, b'': NEITHER, data.replace(b' 3 ', b' 4 ', 1): OTHER_VERSION,
                turned(data): DAMAGED_AT_ONCE}
        other = os.path.join(folder, 'other')
        wrong = [differs(compacted(program, put(other, it), new), (1, f'journal: {why}\n'), why)
                 for it, why in said.items()]
        wrong.append(differs(program.ran('compact', given=data)[::2],
                             (1, 'journal: standard input is no file: give the recording by <\n'), 'a pipe'))
        for name, longest in ((new, 5_000), ('/dev/full', None)):
            with open(file, 'rb') as it, open(name, 'wb') as full:
                found = program.ran('compact', given=it, stdout=full, longest=longest)[::2]
            wrong.append(differs(found, (1, 'output: failed\n'), name))
        return not any(wrong)


TESTS = (a_journal_is_compacted, recordings_are_compacted, one_that_is_cut_is_compacted,
         what_is_neither_is_not_compacted)
