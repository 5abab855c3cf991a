"""What is said of a file that can't be made, by its name, and of each file that can't be taken out of a journal."""
import os
import tempfile

from tests.smb.client import ALL_ACCESS, LONGEST_PIECE
from tests.smb.frames import write
from tests.smb.kept import Looking, begun, bytes_in, differs, keeping, killed, taken_out, tree_of
from tests.smb.working import CREATE, DIRECTORY_FILE


def a_name_is_shown_in_one_line(program):
    """A file's name with a line feed and a control character to a terminal, and one that has letters beyond ASCII."""
    with tempfile.TemporaryDirectory() as folder:
        absent, wrong = os.path.join(folder, 'absent'), []
        for name, shown in (('a\nb', r'a\nb'), ('a\x1b[31mb', r'a\u{1b}[31mb'), ('\u00e4 b', '\u00e4 b')):
            for form, found in (('record', begun(program, '--record', f'{absent}/{name}')),
                                ('journal', begun(program, '--journal', f'{absent}/{name}'))):
                said = f'{form}: {absent}/{shown}: cannot be written: no such file\n'
                wrong.append(differs(found, (1, said), repr(name)))
            said = f'journal: {absent}/{shown}: cannot be read: no such file; name a file that you may read\n'
            wrong.append(differs(program.ran('check-journal', f'{absent}/{name}'), (1, b'', said), repr(name)))
        return not any(wrong)


def writes(client, name, data):
    """Makes a file of these bytes."""
    number = client.opens(name, ALL_ACCESS, CREATE)
    for at in range(0, len(data), LONGEST_PIECE // 2):
        part = data[at:at + LONGEST_PIECE // 2]
        client.asks(write(client.next_id(), number, at, part, client.session, 1), 0, None)
    client.ends(number)


def with_files(program, folder, names):
    """A journal of a share with these files, and folders where there are no bytes."""
    journal = os.path.join(folder, 'journal')
    with keeping(program, '--journal', journal) as share:
        client = Looking(share).comes_in()
        for name, data in names.items():
            if data is None:
                client.ends(client.opens(name, ALL_ACCESS, CREATE, DIRECTORY_FILE))
            else:
                writes(client, name, data)
        killed(share)
    return journal


# A name of 200 letters, which are 400 bytes: more than a folder of the system takes.
LONG = '\u00e4' * 200


def an_extraction_names_what_it_cannot_make(program):
    """Files and a folder whose names are too long for the system: the others are taken out, and the status is 1."""
    with tempfile.TemporaryDirectory() as folder:
        names = {'a': b'first', f'{LONG}1': b'second', 'in': None, f'in\\{LONG}2': b'third', 'in\\b': b'fourth',
                 f'{LONG}3': None, f'{LONG}3\\c': b'fifth', 'z': b'last'}
        journal, to = with_files(program, folder, names), os.path.join(folder, 'to')
        status, errors = taken_out(program, journal, to)
        said = sorted(f'folder: {to}/{name}: cannot be written: name too long'
                      for name in (f'{LONG}1', f'in/{LONG}2', f'{LONG}3'))
        found = bytes_in(tree_of(to)) if os.path.isdir(to) else None
        wanted = {'a': b'first', 'in': None, 'in\\b': b'fourth', 'z': b'last'}
        return not any([differs((status, sorted(errors.splitlines())), (1, said), 'what is said'),
                        differs(found, wanted, 'what is taken out')])


def an_extraction_names_what_it_cannot_write(program):
    """Files for which there is no room: of them there is a part, and the others are whole."""
    with tempfile.TemporaryDirectory() as folder:
        names = {'a': b'first', 'b': bytes(30_000), 'c': b'second', 'd': bytes(20_001), 'e': bytes(20_000)}
        journal, to = with_files(program, folder, names), os.path.join(folder, 'to')
        status, errors = taken_out(program, journal, to, longest=20_000)
        said = [f'folder: {to}/{name}: cannot be written: file too large' for name in ('b', 'd')]
        found = bytes_in(tree_of(to)) if os.path.isdir(to) else {}
        whole = {name: data for name, data in found.items() if name in ('a', 'c', 'e')}
        return not any([differs((status, errors.splitlines()), (1, said), 'what is said'),
                        differs(whole, {name: names[name] for name in ('a', 'c', 'e')}, 'what is taken out')])


def many_that_cannot_be_made_leave_no_open(program):
    """More files than a share has opens: each is named, and the last file is taken out."""
    with tempfile.TemporaryDirectory() as folder:
        names = {**{f'{LONG}{number:04}': b'' for number in range(1_100)}, 'z': b'last'}
        journal, to = with_files(program, folder, names), os.path.join(folder, 'to')
        status, errors = taken_out(program, journal, to)
        found = bytes_in(tree_of(to)) if os.path.isdir(to) else None
        kinds = {line.rpartition(': ')[2] for line in errors.splitlines()}
        return not any([differs((status, errors.count('\n'), kinds), (1, 1_100, {'name too long'}), 'what is said'),
                        differs(found, {'z': b'last'}, 'what is taken out')])


TESTS = (a_name_is_shown_in_one_line, an_extraction_names_what_it_cannot_make, an_extraction_names_what_it_cannot_write)
# What takes an unproved program minutes.
TESTS_OF_MANY = (many_that_cannot_be_made_leave_no_open,)
