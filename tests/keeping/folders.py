"""Folders that a share begins with, and that are made of what it keeps."""
import os
import signal
import subprocess
import tempfile

from tests.keeping.damaged import EXISTS, IN_USE, OTHER_VERSION
from tests.keeping.journal import FIRST, seen, turned
from tests.smb.client import ALL_ACCESS
from tests.smb.frames import write
from tests.smb.kept import (Looking, begun, bytes_in, bytes_of, differs, extracted, keeping, killed, names_in, put,
                            tree_in, tree_of)
from tests.smb.program import GUEST, TOP, Served
from tests.smb.working import CREATE

MIB = 1 << 20
# A folder that takes a while to be put in: how many files it has, and how many bytes each; how many bytes a file has in
# which a part of it is.
MANY, LONG, IN_PART = 120, 50_000, 200_000
NEITHER = 'no journal and no record: its first line is not that of one; name a file that --journal or --record made'
DAMAGED_AT_ONCE = 'damaged behind 0 bytes, in batch 1: take a back-up of it'
NOT_TAKEN, LONGER = 'not a name that the share takes: rename it', ': raise limits.file_bytes, or leave it out'
# Names that a share takes, though they are odd.
ODD = ('with blanks in it', ' at its start', 'at its end ', 'a dot.', '.hidden', '-n', "quote's", '100%', '#', '~',
       '$HOME', 'Gr\u00f6\u00dfe', 'Gro\u0308\u00dfe', '\u65e5\u672c\u8a9e', '\U0001f600', 'n' * 255, 'DESKTOP.INI',
       'con', 'x;y,z=[1]')


def make(folder):
    """The path of a new folder: two levels, READONLY ones, an empty one, odd names, and a time before 1970."""
    at = os.path.join(folder, 'from')
    os.makedirs(os.path.join(at, 'one', 'two'))
    os.makedirs(os.path.join(at, 'empty'))
    os.makedirs(os.path.join(at, 'folder may only be read'))
    put(os.path.join(at, 'a'), b'')
    put(os.path.join(at, 'one', 'b'), os.urandom(61_440))
    put(os.path.join(at, 'one', 'two', 'c'), os.urandom(200_001))
    put(os.path.join(at, 'one', 'two', 'may only be read'), b'only read')
    put(os.path.join(at, 'folder may only be read', 'd'), b'd')
    for name in ODD:
        put(os.path.join(at, name), name.encode())
    stamp(at)
    os.utime(os.path.join(at, 'a'), ns=(0, -10 ** 10))
    os.chmod(os.path.join(at, 'one', 'two', 'may only be read'), 0o444)
    os.chmod(os.path.join(at, 'folder may only be read'), 0o555)
    return at


def stamp(folder):
    """Gives each file and folder a time of its own, a folder behind what is in it."""
    for i, (at, _, files) in enumerate(os.walk(folder, topdown=False)):
        for j, name in enumerate(files):
            moment = 1_000_000_000 + 1_000_000 * i + 1_001 * j
            os.utime(os.path.join(at, name), ns=(0, moment * 10 ** 9 + 999_999_999))
        os.utime(at, ns=(0, (1_500_000_000 + i) * 10 ** 9 + 1))


def is_extracted(program, file, folder, tree):
    """Whether a file holds this tree."""
    return extracted(program, file, folder) == (0, '') and tree_of(folder) == tree


def a_folder_is_served_and_extracted(program):
    """Names, bytes, times and rights are the same over SMB, and in an extraction of the record."""
    with tempfile.TemporaryDirectory() as folder:
        source, record = make(folder), os.path.join(folder, 'record')
        tree = tree_of(source)
        with keeping(program, '--from', source) as share:
            seen = tree_in(share)
        with keeping(program, '--from', source, '--record', record) as share:
            seen_recorded = tree_in(share)
            killed(share)
        return seen == seen_recorded == tree and is_extracted(program, record, os.path.join(folder, 'to'), tree)


def a_folder_is_kept_in_a_journal(program):
    """The same behind a restart, and by a second extraction."""
    with tempfile.TemporaryDirectory() as folder:
        source, journal = make(folder), os.path.join(folder, 'journal')
        tree = tree_of(source)
        with keeping(program, '--from', source, '--journal', journal) as share:
            seen = tree_in(share)
            killed(share)
        os.rename(source, source + ' no more')
        with keeping(program, '--journal', journal) as share:
            seen_again = tree_in(share)
            killed(share)
        return seen == seen_again == tree and is_extracted(program, journal, os.path.join(folder, 'to'), tree)


def is_refused(program, rule, name, prepare, journal=True, config=GUEST):
    """Whether a folder is refused with the name of a file in it, before it listens, and without a journal left."""
    with tempfile.TemporaryDirectory() as folder:
        source, file = os.path.join(folder, 'from'), os.path.join(folder, 'journal')
        os.mkdir(source)
        put(os.path.join(source, 'a'), b'a')
        prepare(source)
        found = begun(program, '--from', source, *(('--journal', file) if journal else ()), config=config)
        if found == (1, f'folder: {source}/{name}: {rule}\n') and os.listdir(folder) == ['from']:
            return True
        print(f'  {name!r}: {found}, there are {os.listdir(folder)}', flush=True)
        return False


def names_are_refused(program):
    """One with a character that a share does not take, or that is no text; and two that differ in case alone."""
    def named(*names):
        return lambda source: [put(os.path.join(os.fsencode(source), name), b'') for name in names]

    return all([is_refused(program, NOT_TAKEN, 'x:y', named(b'x:y')),
                is_refused(program, NOT_TAKEN, 'x\\y', named(b'x\\y')),
                is_refused(program, NOT_TAKEN, 'x\\ny', named(b'x\ny')),
                is_refused(program, 'not a name in Unicode: rename it', 'x\\xFF', named(b'x\xff')),
                is_refused(program, 'another name differs from it in case alone: rename one of both', 'b',
                           named(b'B', b'b'))])


def what_is_no_file_is_refused(program):
    """A symbolic link, to a file, a folder or nothing, and a pipe, also below the folder."""
    def below(source):
        os.makedirs(os.path.join(source, 'x', 'y'))
        os.symlink('/', os.path.join(source, 'x', 'y', 'z'))

    link = 'a symbolic link, which is not followed: take it out of the folder'
    return all([is_refused(program, link, 'b', lambda source: os.symlink('a', os.path.join(source, 'b'))),
                is_refused(program, link, 'b', lambda source: os.symlink('nothing', os.path.join(source, 'b'))),
                is_refused(program, link, 'x/y/z', below),
                is_refused(program, 'neither a file nor a folder: take it out of the folder', 'b',
                           lambda source: os.mkfifo(os.path.join(source, 'b')))])


def what_is_too_long_is_refused(program):
    """A file of a byte more than 16 MiB; and a path of 33 names."""
    def long(source):
        with open(os.path.join(source, 'b'), 'wb') as file:
            file.truncate(16 * MIB + 1)

    def nested(source):
        os.makedirs(os.path.join(source, deep))

    deep = '/'.join(['x'] * 33)
    return all([is_refused(program, f'longer than 16,777,216 bytes{LONGER}', 'b', long),
                is_refused(program, 'more than 32 names in its path: move it up', deep, nested)])


def what_is_past_the_limits_is_refused(program):
    """By limits of a configuration: a fourth file, in order, in the folder or below; and a file of a byte too many."""
    def four(source):
        for name in 'bcd':
            put(os.path.join(source, name), b'')

    def below(source):
        os.mkdir(os.path.join(source, 'b'))
        for name in 'cd':
            put(os.path.join(source, 'b', name), b'')

    with tempfile.TemporaryDirectory() as folder:
        config = put(os.path.join(folder, 'config'), bytes_of(GUEST) + b'[limits]\nentries = 3\nfile_bytes = 5000\n')
        many = 'more than 3 files and folders: raise limits.entries, or leave it out'
        return all([is_refused(program, many, 'd', four, config=config),
                    is_refused(program, many, 'b/d', below, config=config),
                    is_refused(program, many, 'd', four, False, config),
                    is_refused(program, f'longer than 5,000 bytes{LONGER}', 'b',
                               lambda source: put(os.path.join(source, 'b'), bytes(5001)), config=config)])


def a_folder_is_not_read_again(program):
    """Where the journal exists it is gone on with, and that is said; where it doesn't, what is no folder is refused."""
    with tempfile.TemporaryDirectory() as folder:
        journal, source, wrong = os.path.join(folder, 'journal'), os.path.join(folder, 'from'), []
        os.mkdir(source)
        put(os.path.join(source, 'a'), b'first')
        with keeping(program, '--from', source, '--journal', journal) as share:
            killed(share)
        put(os.path.join(source, 'b'), b'second')
        for at in (source, source + ' absent'):
            with keeping(program, '--from', at, '--journal', journal) as share:
                said = [f'{at}: not read again: the share has the files of the journal {journal}\n']
                wrong.append(differs((share.before, bytes_in(tree_in(share))), (said, {'a': b'first'}), at))
                killed(share)
        for at, why in ((source + '2', 'no such file'), (journal, 'not a directory')):
            refused = begun(program, '--from', at, '--journal', journal + '2')
            wrong.append(differs(refused, (1, f'folder: {at}/: cannot be read: {why}\n'), at))
        return not any(wrong) and names_in(folder) == ['from', 'journal']


def an_empty_file_takes_a_folder(program):
    """It is replaced by a journal, which is its owner's alone; where the folder can't be taken it stays."""
    with tempfile.TemporaryDirectory() as folder:
        journal, source = put(os.path.join(folder, 'journal'), b''), os.path.join(folder, 'from')
        os.chmod(journal, 0o644)
        refused = begun(program, '--from', source, '--journal', journal), bytes_of(journal), os.listdir(folder)
        said = f'folder: {source}/: cannot be read: no such file\n'
        os.mkdir(source)
        put(os.path.join(source, 'a'), b'first')
        with keeping(program, '--from', source, '--journal', journal) as share:
            found = [share.before, bytes_in(tree_in(share))]
            killed(share)
        found += [seen(program, journal), bytes_of(journal).startswith(FIRST), os.stat(journal).st_mode & 0o777,
                  names_in(folder)]
        return not any([differs(refused, ((1, said), b'', ['journal']), 'no folder'),
                        differs(found, [[], {'a': b'first'}, {'a': b'first'}, True, 0o600, ['from', 'journal']], 'it')])


def make_long(folder):
    """The path of a new folder that takes a while to be put in, and what it has."""
    source = os.path.join(folder, 'from')
    os.mkdir(source)
    for i in range(MANY):
        put(os.path.join(source, f'file {i}'), bytes(LONG))
    return source, {f'file {i}': bytes(LONG) for i in range(MANY)}


def waits_until_in_part(process, file):
    """Waits until a program has put a part of a folder into a new file, or all of it, or has ended."""
    while process.poll() is None and not os.path.exists(file):
        try:
            if os.path.getsize(f'{file}.new') > IN_PART:
                return
        except FileNotFoundError:
            pass


def a_folder_that_was_put_in_part_is_not_served(program):
    """Where the program is killed while it puts a folder into a new journal or record, that isn't there; the same words
    make it, and nothing else is left."""
    wrong = []
    for form in ('journal', 'record'):
        with tempfile.TemporaryDirectory() as folder:
            file, (source, files) = os.path.join(folder, form), make_long(folder)
            words = ('--config', GUEST, '--from', source, f'--{form}', file)
            putting = program.begins('serve', '--listen', '127.0.0.1:0', *words, stderr=subprocess.DEVNULL)
            waits_until_in_part(putting, file)
            putting.kill()
            putting.wait()
            if os.path.exists(file):
                os.remove(file)
            with program.serve(*words) as share:
                found = bytes_in(tree_in(share)) == files, names_in(folder)
            wrong.append(differs(found, (True, ['from', form]), form))
    return not any(wrong)


class Putting(Served):
    """A server that is stopped while it puts a folder into a file, and then goes on; `meanwhile` has what another one
    said that was begun in between, and what that had to say."""

    def __init__(self, program, form, source, file):
        self.program, self.form, self.source, self.file = program, form, source, file
        super().__init__(program, '--config', GUEST, *self.words())

    def words(self):
        return '--from', self.source, f'--{self.form}', self.file

    def first_line(self):
        waits_until_in_part(self.process, self.file)
        self.process.send_signal(signal.SIGSTOP)
        os.waitpid(self.process.pid, os.WUNTRACED)
        is_there = os.path.exists(self.file)
        self.meanwhile = begun(self.program, *self.words()), self.refused(is_there)
        self.process.send_signal(signal.SIGCONT)
        return super().first_line()

    def refused(self, is_there):
        """What a second server has to say, where the file is there, or not yet."""
        if is_there and self.form == 'record':
            return 1, f'record: {self.file}: {EXISTS}\n'
        not_read = f'{self.source}: not read again: the share has the files of the journal {self.file}\n' * is_there
        return 1, f'{not_read}{self.form}: {self.file}: {IN_USE}\n'


def one_that_is_put_in_is_in_use(program):
    """A second server with the same words, while the first one puts a folder in, or once that is there, is refused; the
    first one serves all, and keeps what its client writes."""
    wrong = []
    for form in ('journal', 'record'):
        with tempfile.TemporaryDirectory() as folder:
            file, (source, files), to = os.path.join(folder, form), make_long(folder), os.path.join(folder, 'to')
            with Putting(program, form, source, file) as share:
                client, files['behind'] = Looking(share).comes_in(), b'more'
                number = client.opens('behind', ALL_ACCESS, CREATE)
                client.asks(write(client.next_id(), number, 0, files['behind'], client.session, 1), 0, None)
                wrong += [differs(*share.meanwhile, 'while it is put in'),
                          differs(begun(program, *share.words()), share.refused(True), 'once it is there'),
                          differs(bytes_in(client.tree()) == files, True, f'{form}: all is served')]
                killed(share)
            left = names_in(folder), extracted(program, file, to), bytes_in(tree_of(to)) == files
            again = form == 'record' or seen(program, file) == files
            wrong.append(differs((*left, again), (['from', form], (0, ''), True, True), f'{form}, behind it'))
    return not any(wrong)


def a_refused_address_leaves_no_file(program):
    """Where it cannot listen, the same words with a right address do what they say."""
    with tempfile.TemporaryDirectory() as folder:
        source, found = os.path.join(folder, 'from'), []
        os.mkdir(source)
        for i, words in enumerate((('--record',), ('--from', source, '--journal'))):
            file = os.path.join(folder, str(i))
            serve = ('serve', '--listen', '192.0.2.1:0', '--turns', '1', '--config', GUEST)
            refused = program.ran(*serve, *words, file)[::2]
            found.append((refused, begun(program, *words, file)[0]))
        if found != [((1, 'listen: failed\n'), 0)] * 2:
            print(f'  {found}', flush=True)
            return False
        return True


def an_extraction_is_refused(program):
    """Into a folder or over a file that exists; and from a pipe, a text, nothing, a journal of another version, and a
    damaged one."""
    with tempfile.TemporaryDirectory() as folder:
        journal, text = os.path.join(folder, 'journal'), put(os.path.join(folder, 'text'), b'a text\n')
        with keeping(program, '--from', os.path.join(TOP, 'examples'), '--journal', journal) as share:
            killed(share)
        data, to = bytes_of(journal), os.path.join(folder, 'to')
        others = bytes_of(text), b'', data.replace(b' 3 ', b' 4 ', 1), turned(data)
        found = [extracted(program, journal, folder), extracted(program, journal, text),
                 program.ran('extract', to, given=data)[::2],
                 *(extracted(program, put(os.path.join(folder, 'other'), other), to) for other in others)]
        said = [f'folder: {name}/: it exists already: name a new folder' for name in (folder, text)]
        said += ['journal: standard input is no file: give the recording by <', f'journal: {NEITHER}',
                 f'journal: {NEITHER}', f'journal: {OTHER_VERSION}', f'journal: {DAMAGED_AT_ONCE}']
        wrong = differs(found, [(1, f'{line}\n') for line in said], 'refused')
        return not wrong and not os.path.exists(to) and bytes_of(text) == b'a text\n'


TESTS = (a_folder_is_served_and_extracted, a_folder_is_kept_in_a_journal, names_are_refused, what_is_no_file_is_refused,
         what_is_too_long_is_refused, what_is_past_the_limits_is_refused, a_folder_is_not_read_again,
         an_empty_file_takes_a_folder, a_folder_that_was_put_in_part_is_not_served, one_that_is_put_in_is_in_use,
         a_refused_address_leaves_no_file, an_extraction_is_refused)
