"""The list beside a folder of what the system does not keep of its files."""
import os
import struct
import tempfile

from tests.keeping.folders import make
from tests.smb.client import ALL_ACCESS
from tests.smb.frames import query_info, set_info, write
from tests.smb.kept import (OF_1970, SECOND, Looking, begun, bytes_in, bytes_of, differs, extracted, keeping, killed,
                            names_in, put, taken_out)
from tests.smb.program import GUEST
from tests.smb.working import CREATE, DIRECTORY_FILE, OPEN

BASIC = 4
HIDDEN, SYSTEM, ARCHIVE, NORMAL = 2, 4, 0x20, 0x80
FIRST = '# smbshare attributes 1\n'
# Where an answer to a QUERY_INFO has its information.
INFORMATION_AT = 72
# Files and folders that a client makes: a name, whether it is a folder, and its attributes.
MADE = (('hidden', False, HIDDEN), ('nothing', False, NORMAL), ('all', False, HIDDEN | SYSTEM | ARCHIVE),
        ('folder', True, HIDDEN), ('folder\\within', False, HIDDEN | ARCHIVE), ('odd \u00e4', False, SYSTEM))
OTHERS = '.attributes: 1 lines are of other files than the folder has: passed over\n'


def times_of(i):
    """Four times of a file: of its creation, the last access, the last write and the change."""
    return [OF_1970 + (1_000_000_000 + 1_000 * i + j) * SECOND + 7 for j in range(4)]


def basic(client, name, options=0):
    """The times and attributes that a share shows of what stands at a path, but for that of the last access."""
    number = client.opens(name, 0x80, OPEN, options)
    reply = client.asks(query_info(client.next_id(), number, BASIC, client.session, 1), 0, None)
    created, _, written, changed, attributes = struct.unpack_from('<QQQQI', reply, INFORMATION_AT)
    client.ends(number)
    return created, written, changed, attributes


def make_all(client):
    """Makes files and folders with attributes and times; what a share shows of them by their paths."""
    found = {}
    for i, (name, is_folder, attributes) in enumerate(MADE):
        number = client.opens(name, ALL_ACCESS, CREATE, DIRECTORY_FILE * is_folder)
        if not is_folder:
            client.asks(write(client.next_id(), number, 0, name.encode(), client.session, 1), 0, None)
        client.ends(number)
    for i, (name, is_folder, attributes) in reversed(list(enumerate(MADE))):
        number = client.opens(name, ALL_ACCESS, OPEN)
        buffer = struct.pack('<QQQQII', *times_of(i), attributes, 0)
        client.asks(set_info(client.next_id(), number, BASIC, buffer, client.session, 1), 0, None)
        client.ends(number)
    return all_of(client)


def all_of(client):
    return {name: basic(client, name) for name, _, _ in MADE}


def listed_folder(program, folder, form='journal'):
    """A folder that was taken out of a share with attributes and times, and what the share shows."""
    file, to = os.path.join(folder, form), os.path.join(folder, 'to')
    with keeping(program, f'--{form}', file) as share:
        shown = make_all(Looking(share).comes_in())
        killed(share)
    found = extracted(program, file, to)
    if found != (0, ''):
        raise AssertionError(f'it is taken out with {found}')
    return to, shown


def attributes_and_times_come_back(program):
    """Out of a journal or a record, and into a share with a journal, a record or neither; the list is a text with a
    line for each."""
    wrong = []
    for form in ('journal', 'record'):
        with tempfile.TemporaryDirectory() as folder:
            to, shown = listed_folder(program, folder, form)
            lines = bytes_of(f'{to}.attributes').decode().splitlines()
            wrong.append(differs((lines[0] + '\n', len(lines)), (FIRST, 1 + len(MADE)), 'lines'))
            for words in ((), ('--journal', os.path.join(folder, 'j')), ('--record', os.path.join(folder, 'r'))):
                with keeping(program, '--from', to, *words) as share:
                    found = share.before, all_of(Looking(share).comes_in())
                    killed(share)
                wrong.append(differs(found, ([], shown), f'{form}, {words[:1]}'))
    return not any(wrong)


def a_folder_that_keeps_all_has_no_list(program):
    """Of files that were put in from a folder, and not changed since, there is none."""
    with tempfile.TemporaryDirectory() as folder:
        source, journal, to = make(folder), os.path.join(folder, 'journal'), os.path.join(folder, 'to')
        with keeping(program, '--from', source, '--journal', journal) as share:
            killed(share)
        found = extracted(program, journal, to)
        return not differs((found, names_in(folder)), ((0, ''), ['from', 'journal', 'to']), 'no list')


def a_list_is_not_written_over(program):
    """Where one exists, nothing is made; it stays as it was."""
    with tempfile.TemporaryDirectory() as folder:
        to, _ = listed_folder(program, folder)
        os.rename(to, to + ' before')
        before, found = bytes_of(f'{to}.attributes'), taken_out(program, os.path.join(folder, 'journal'), to)
        said = f'folder: {to}.attributes: a list of attributes exists already: take it away, or name another folder\n'
        return not differs((found, os.path.exists(to), bytes_of(f'{to}.attributes') == before),
                           ((1, said), False, True), 'over a list')


def lines_of_other_files_are_passed_over(program):
    """Of a file that was written since, by its size or its time alone, and of one that is gone; that is counted."""
    def longer(to):
        put(os.path.join(to, 'hidden'), b'longer than it was')

    def later(to):
        os.utime(os.path.join(to, 'hidden'))

    def gone(to):
        os.remove(os.path.join(to, 'hidden'))

    wrong = []
    for change in (longer, later, gone):
        with tempfile.TemporaryDirectory() as folder:
            to, shown = listed_folder(program, folder)
            change(to)
            with keeping(program, '--from', to) as share:
                client = Looking(share).comes_in()
                found = share.before, {name: basic(client, name) for name in shown if name != 'hidden'}
                is_hidden = change is not gone and basic(client, 'hidden')[3] & HIDDEN != 0
                killed(share)
            del shown['hidden']
            wrong.append(differs((found, is_hidden), (([to + OTHERS], shown), False), change.__name__))
    return not any(wrong)


def is_refused(program, rule, data, limits=''):
    """Whether a folder is refused beside which there is a list of these bytes."""
    with tempfile.TemporaryDirectory() as folder:
        source, config = os.path.join(folder, 'from'), os.path.join(folder, 'config')
        os.mkdir(source)
        put(os.path.join(source, 'a'), b'a')
        put(f'{source}.attributes', data)
        put(config, bytes_of(GUEST) + limits.encode())
        found = [begun(program, '--from', source, *words, config=config)
                 for words in ((), ('--journal', os.path.join(folder, 'journal')), ('--skip',))]
        said = 1, f'folder: {source}.attributes: {rule}\n'
        return not differs((found, names_in(folder)), ([said] * 3, ['config', 'from', 'from.attributes']), data[:60])


def lists_are_refused(program):
    """One of another version, no list, a text, bytes, one whose line is damaged or cut, that has a path twice, or more
    lines than the share may have entries. All are refused by name, and nothing is served."""
    line = 'file H 1 {0} {0} {0} {0} a\n'.format(OF_1970)
    damaged = 'line {} is damaged: take a back-up of it, or take the line away'
    no_list = 'no list of attributes, though it has the name of one: give it another name'
    lines = ('file H 1 2 3 4 a', 'file X 1 2 3 4 5 a', 'file  1 2 3 4 5 a', 'link H 1 2 3 4 5 a', 'file H -1 2 3 4 5 a',
             'file H 1 2 3 4 5 ', 'file H 1 2 3 4 5 a\\b', 'file H 1 2 3 4 5 a\\u{61}', 'file H 1 2 3 4 5 a\tb',
             f'file H 1 2 3 4 {1 << 63} a', '', 'file H 1 2 3 4 5 \udcff')
    found = [is_refused(program, damaged.format(3), (FIRST + line + bad + '\n').encode('utf-8', 'surrogateescape'))
             for bad in lines]
    found += [is_refused(program, damaged.format(3), (FIRST + line + line).encode()),
              is_refused(program, damaged.format(2), (FIRST + line[:-1]).encode()),
              is_refused(program, no_list, b''), is_refused(program, no_list, b'a text\n'),
              is_refused(program, no_list, FIRST[:-1].encode()), is_refused(program, no_list, bytes(100)),
              is_refused(program, 'a list of attributes of another version: take it away, or serve the folder with the '
                         'program that made it', FIRST.replace('1', '2').encode() + line.encode()),
              is_refused(program, 'has more lines than the share has room for files and folders: raise limits.entries, '
                         'or take lines away', (FIRST + line + line.replace(' a\n', ' b\n')).encode(),
                         '[limits]\nentries = 1\n')]
    return all(found)


def odd_paths_are_listed(program):
    """Names with a character that a list writes otherwise come back too."""
    with tempfile.TemporaryDirectory() as folder:
        source = os.path.join(folder, 'from')
        os.mkdir(source)
        for name in ('a\x7fb', 'a b', '#', ' '):
            put(os.path.join(source, name), b'a')
        lines = ''.join(f'file HA 1 {OF_1970} {OF_1970 + 1} {OF_1970 + 2} {OF_1970 + 3} {name}\n'
                        for name in ('a\\u{7F}b', 'a b', '#', ' '))
        for name in os.listdir(source):
            os.utime(os.path.join(source, name), ns=(0, 0))
        put(f'{source}.attributes', (FIRST + lines).encode())
        with keeping(program, '--from', f'{source}//') as share:
            client = Looking(share).comes_in()
            found = share.before, [basic(client, name) for name in sorted(bytes_in(client.tree()))]
            killed(share)
        wanted = [(OF_1970 + 1, OF_1970 + 2, OF_1970 + 3, HIDDEN | ARCHIVE)] * 4
        return not differs(found, ([], wanted), 'odd paths')


TESTS = (attributes_and_times_come_back, a_folder_that_keeps_all_has_no_list, a_list_is_not_written_over,
         lines_of_other_files_are_passed_over, lists_are_refused, odd_paths_are_listed)
