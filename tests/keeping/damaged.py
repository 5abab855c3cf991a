"""Journals and records that are damaged, of another kind, in use, without rights or full, and what is said of them."""
import os
import re
import tempfile

from tests.keeping import recordings
from tests.keeping.journal import FIRST_BYTES, STATES, batches_of, make, seen
from tests.smb.client import ALL_ACCESS
from tests.smb.frames import set_info, write
from tests.smb.kept import (Looking, begun, bytes_in, bytes_of, differs, ended, extracted, keeping, killed, put,
                            tree_of, with_room)
from tests.smb.working import CREATE, DISPOSITION, Ended

# How long a file is at which a write fails.
FULL, TOO_LARGE = 12_345, 'cannot be written: file too large'
DAMAGED = r'damaged behind \d+ bytes, in batch \d+: take a back-up of it'
NO_JOURNAL = 'no journal: its first line is not that of one; name a file that --journal made'
OF_EVENTS = ('a journal of events, which an older program made: `smbshare compact < OLD > NEW` makes one of its files, '
             'name that')
OTHER_VERSION = 'a journal of another version: serve it with the program that made it'
IN_USE = 'in use by another program: end that one, or name another file'
EXISTS = 'it exists already, so no folder can be put into it: leave --from out, or name another file'


def is_refused(program, file, said):
    """Whether a start is refused by what matches this, in one line that names the file, and its bytes stay."""
    before, found = bytes_of(file), begun(program, '--journal', file)
    if found[0] == 1 and re.fullmatch(f'journal: {re.escape(file)}: {said}\n', found[1]) and bytes_of(file) == before:
        return True
    print(f'  {os.path.basename(file)}: {found}, not {said!r}', flush=True)
    return False


def a_bit_that_was_turned_is_found(program):
    """Anywhere behind the first line: the start is refused, with its place, and the file stays. What looks like a lost
    end can't be told from one: a length, an end, in the last batch alone."""
    with tempfile.TemporaryDirectory() as folder:
        data = bytes_of(make(program, os.path.join(folder, 'kept')))
        last, found = batches_of(data)[-2], []
        step = 41 if program.is_unproved else 7
        for place in range(FIRST_BYTES, last, step):
            other = data[:place] + bytes([data[place] ^ (1 << place % 8)]) + data[place + 1:]
            found.append(is_refused(program, put(os.path.join(folder, 'other'), other), DAMAGED))
        return all(found)


def batches_of_others_are_found(program):
    """Two that are swapped, one given twice, one left out, and one of another journal."""
    with tempfile.TemporaryDirectory() as folder:
        data = bytes_of(make(program, os.path.join(folder, 'kept')))
        other = bytes_of(make(program, os.path.join(folder, 'other')))
        ends = [FIRST_BYTES, *batches_of(data)]
        parts = [data[begin:end] for begin, end in zip(ends, ends[1:])]
        others = [other[begin:end] for begin, end in zip(ends, ends[1:])]
        wrong = {'swapped': [*parts[:1], parts[2], parts[1], *parts[3:]], 'twice': [*parts[:2], *parts[1:]],
                 'left out': [*parts[:1], *parts[2:]], 'of another': [*parts[:2], others[2], *parts[3:]]}
        files = [put(os.path.join(folder, name), data[:FIRST_BYTES] + b''.join(it)) for name, it in wrong.items()]
        return all([is_refused(program, file, DAMAGED) for file in files])


def what_is_no_journal_is_refused(program):
    """A text, zeros, a record, a journal of events, one of another version; and a folder, and a file without one."""
    with tempfile.TemporaryDirectory() as folder:
        record, events = recordings.make_both(program, folder)
        first = bytes_of(make(program, os.path.join(folder, 'kept')))[:FIRST_BYTES]
        said = {b'a text\n' * 9: NO_JOURNAL, b'a text': NO_JOURNAL, b'\n': NO_JOURNAL, bytes(1_000): NO_JOURNAL,
                first[:-1] + b'0\n': OTHER_VERSION, first.replace(b' 3 ', b' 4 '): OTHER_VERSION,
                bytes_of(record): NO_JOURNAL, bytes_of(events): OF_EVENTS}
        found = [is_refused(program, put(os.path.join(folder, 'file'), data), why) for data, why in said.items()]
        absent = os.path.join(folder, 'absent', 'file')
        wanted = {folder: 'cannot be read: is a directory; name a file that you may read',
                  absent: 'cannot be written: no such file'}
        wrong = [differs(begun(program, '--journal', it), (1, f'journal: {it}: {why}\n'), it)
                 for it, why in wanted.items()]
        return all(found) and not any(wrong)


def one_in_use_is_refused(program):
    """A second server on one journal, which the first one goes on with; and on a record, also as a journal."""
    with tempfile.TemporaryDirectory() as folder:
        journal, record = make(program, os.path.join(folder, 'journal')), os.path.join(folder, 'record')
        exists = (1, f'record: {record}: cannot be written: it exists already; name a new file\n')
        with keeping(program, '--journal', journal) as share, keeping(program, '--record', record) as recorded:
            client = Looking(share).comes_in()
            found = [is_refused(program, journal, IN_USE), is_refused(program, record, IN_USE),
                     begun(program, '--record', record) == exists, recorded.client().is_served()]
            client.ends(client.opens('a', ALL_ACCESS, CREATE))
            killed(share)
        return not differs(found, [True] * 4, 'in use') and seen(program, journal) == {**STATES[-1], 'a': b''}


def a_record_is_made_over_nothing(program):
    """What exists is refused, a text and an empty file, and has its bytes, also where a folder is to be put into it."""
    with tempfile.TemporaryDirectory() as folder:
        wrong = []
        for data in (b'', b'a text\n'):
            file = put(os.path.join(folder, 'file'), data)
            for words, why in (((), 'cannot be written: it exists already; name a new file'), (('--from', folder), EXISTS)):
                found = begun(program, *words, '--record', file), bytes_of(file), os.listdir(folder)
                wanted = (1, f'record: {file}: {why}\n'), data, ['file']
                wrong.append(differs(found, wanted, f'{data} {words}'))
        return not any(wrong)


def one_without_rights_is_refused(program):
    """To read it, or to write it. The system's owner has all rights."""
    with tempfile.TemporaryDirectory() as folder:
        file = make(program, os.path.join(folder, 'kept'))
        if os.geteuid() == 0:
            print('  left out, since all rights are there', flush=True)
            return True
        denied = 'cannot be read: permission denied; name a file that you may read'
        os.chmod(file, 0o400)
        refused = is_refused(program, file, denied)
        os.chmod(file, 0o200)
        return begun(program, '--journal', file) == (1, f'journal: {file}: {denied}\n') and refused


# A file to which no more can be written.

def written_until_it_ends(share):
    """How many bytes of a file were acknowledged, in WRITEs of 500 bytes, until the share ended the client."""
    client, count = Looking(share).comes_in(), 0
    try:
        number = client.opens('a', ALL_ACCESS, CREATE)
        while count < 100 * FULL:
            client.asks(write(client.next_id(), number, count, b'x' * 500, client.session, 1), 0, None)
            count += 500
    except Ended:
        pass
    return count


def is_full_at(program, form, length):
    """Whether a share ends where its file has so many bytes, says and logs it, and has in it what was acknowledged."""
    with tempfile.TemporaryDirectory() as folder:
        file, log, to = (os.path.join(folder, name) for name in ('kept', 'log', 'to'))
        with keeping(program, f'--{form}', with_room(file), '--log', log, longest=length) as share:
            count, end = written_until_it_ends(share), ended(share)
        wrong = [differs(end, (1, f'{form}: {file}: {TOO_LARGE}\n'), f'{form}, at {length}'),
                 f"\tfailed: the {form} can't be written: file too large\t" not in bytes_of(log).decode()]
        left = extracted(program, file, to) == (0, '') and bytes_in(tree_of(to))
        again = seen(program, file) if form == 'journal' else left
        is_there = left == again == {'a': b'x' * count} and 0 < count < length
        return not any(wrong) and not differs(is_there, True, f'{form}, at {length}, {count} acknowledged')


def a_share_whose_file_is_full_ends(program):
    """Wherever in a batch or a line it is full."""
    return all([is_full_at(program, *place) for place in (
        ('journal', FULL), ('journal', FULL + 300), ('journal', FULL + 590), ('record', FULL), ('record', FULL + 600))])


def a_full_file_does_not_begin(program):
    """Where no first line can be written, and no batch of a journal that says that what is marked is gone. What was
    there is there once it can be written."""
    with tempfile.TemporaryDirectory() as folder:
        journal, new, record = make(program, os.path.join(folder, 'kept')), *(os.path.join(folder, it) for it in 'nr')
        with keeping(program, '--journal', journal) as share:
            client = Looking(share).comes_in()
            number = client.opens('marked', ALL_ACCESS, CREATE)
            client.asks(set_info(client.next_id(), number, DISPOSITION, b'\1', client.session, 1), 0, None)
            killed(share)
        wrong = [differs(begun(program, f'--{form}', file, longest=length), (1, f'{form}: {file}: {TOO_LARGE}\n'), file)
                 for form, file, length in (('journal', new, 20), ('record', record, 20),
                                            ('journal', journal, os.path.getsize(journal) + 3))]
        there = [seen(program, it) for it in (journal, new)]
        return not any([*wrong, differs(there, [STATES[-1], {}], 'what is there')])


def a_full_file_takes_no_folder(program):
    """Where a folder's files do not fit into the journal that is made for them: none is left, and it is said why."""
    with tempfile.TemporaryDirectory() as folder:
        journal, source = os.path.join(folder, 'kept'), os.path.join(folder, 'from')
        os.mkdir(source)
        put(os.path.join(source, 'a'), bytes(5_000))
        with keeping(program, '--journal', journal, '--from', source) as share:
            killed(share)
        whole, wrong = os.path.getsize(journal), []
        os.remove(journal)
        for length in (20, 200, 3_000, whole - 200, whole - 5):
            refused = begun(program, '--journal', journal, '--from', source, longest=length)
            wanted = (1, f'journal: {journal}: {TOO_LARGE}\n'), ['from']
            wrong.append(differs((refused, os.listdir(folder)), wanted, length))
        return not any(wrong)


TESTS = (a_bit_that_was_turned_is_found, batches_of_others_are_found, what_is_no_journal_is_refused,
         one_in_use_is_refused, a_record_is_made_over_nothing, one_without_rights_is_refused,
         a_share_whose_file_is_full_ends, a_full_file_does_not_begin, a_full_file_takes_no_folder)
