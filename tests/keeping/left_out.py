"""What of a folder can't be in a share: all of it is named, and left out where that is asked for."""
import contextlib
import os
import tempfile
import threading

from tests.keeping.folders import NOT_TAKEN
from tests.smb.kept import begun, bytes_in, bytes_of, differs, extracted, killed, names_in, put, tree_in, tree_of
from tests.smb.program import GUEST

LINK = 'a symbolic link, which is not followed: take it out of the folder'
SPECIAL = 'neither a file nor a folder: take it out of the folder'
SAME = 'another name differs from it in case alone: rename one of both'
MANY = 'more than {} files and folders: raise limits.entries, or leave it out'
LONG = 'longer than 5,000 bytes: raise limits.file_bytes, or leave it out'
NO_ROOM = 'no room in the share: raise capacity, or leave it out'
CHANGED = 'it changed while it was read: try again while nobody writes there'
LIMITS = b'[limits]\nentries = 30\nfile_bytes = 5000\n'


def make(folder):
    """A folder with things that can't be in a share, the lines that name them, and what is left."""
    source = os.path.join(folder, 'from')
    os.makedirs(os.path.join(source, 'folder', 'deeper'))
    os.makedirs(os.path.join(source, 'x:y', 'not seen'))
    put(os.path.join(source, 'x:y', 'a'), b'a')
    for name, data in (('B', b'B'), ('b', b'b'), ('folder/a', b'a'), ('folder/deeper/c', b'c'), ('long', bytes(5001)),
                       ('z', b'z')):
        put(os.path.join(source, name), data)
    os.symlink('z', os.path.join(source, 'folder', 'link'))
    os.mkfifo(os.path.join(source, 'pipe'))
    put(os.path.join(os.fsencode(source), b'x\xff'), b'')
    refused = [('b', SAME), ('folder/link', LINK), ('long', LONG), ('pipe', SPECIAL), ('x:y', NOT_TAKEN),
               ('x\\xFF', 'not a name in Unicode: rename it')]
    left = {'B': b'B', 'folder': None, 'folder\\a': b'a', 'folder\\deeper': None, 'folder\\deeper\\c': b'c', 'z': b'z'}
    return source, refused, left


def said_of(source, refused, end=''):
    return ''.join(f'folder: {source}/{name}: {rule}{end}\n' for name, rule in refused)


def config_in(folder, limits=LIMITS):
    return put(os.path.join(folder, 'config'), bytes_of(GUEST) + limits)


def all_faults_are_listed(program):
    """Each thing has its line, with a journal, a record or neither; the status is that of one, and no file is left."""
    wrong = []
    for form in ((), ('--journal',), ('--record',)):
        with tempfile.TemporaryDirectory() as folder:
            (source, refused, _), config = make(folder), config_in(folder)
            words = form and (*form, os.path.join(folder, 'kept'))
            found = begun(program, '--from', source, *words, config=config), names_in(folder)
            wrong.append(differs(found, ((1, said_of(source, refused)), ['config', 'from']), form))
    return not any(wrong)


def what_cannot_be_there_is_left_out(program):
    """With --skip the same lines say so, and all else is served and kept."""
    wrong = []
    for form in ((), ('--journal',), ('--record',)):
        with tempfile.TemporaryDirectory() as folder:
            (source, refused, left), config = make(folder), config_in(folder)
            kept, to = os.path.join(folder, 'kept'), os.path.join(folder, 'to')
            words = '--config', config, '--from', source, '--skip', *(form and (*form, kept))
            with program.serve(*words) as share:
                found = ''.join(share.before), bytes_in(tree_in(share))
                killed(share)
            wrong.append(differs(found, (said_of(source, refused, ': left out'), left), form))
            if form:
                taken = extracted(program, kept, to), bytes_in(tree_of(to))
                wrong.append(differs(taken, ((0, ''), left), 'taken out'))
    return not any(wrong)


def what_has_no_room_is_left_out(program):
    """A file that no room is left for is not there in part, and one behind it that fits is there; so are as many as the
    share may have."""
    with tempfile.TemporaryDirectory() as folder:
        source, config = os.path.join(folder, 'from'), os.path.join(folder, 'config')
        os.makedirs(os.path.join(source, 'e'))
        for name, size in (('a', 200_000), ('b', 300_000), ('c', 100_000), ('d', 1), ('e/f', 1), ('e/g', 1)):
            put(os.path.join(source, name), bytes(size))
        text = bytes_of(GUEST).decode().replace('capacity = 67108864', 'capacity = 409600')
        put(config, text.encode() + b'[limits]\nentries = 4\n')
        words = '--config', config, '--from', source, '--skip'
        with program.serve(*words) as share:
            found = ''.join(share.before), sorted(bytes_in(tree_in(share)))
            killed(share)
        refused = [('b', NO_ROOM), ('e/f', MANY.format(4)), ('e/g', MANY.format(4))]
        return not differs(found, (said_of(source, refused, ': left out'), ['a', 'c', 'd', 'e']), 'room')


def a_thousand_faults_have_lines(program):
    """Of more it is said how many; so of names past those that a share may have."""
    with tempfile.TemporaryDirectory() as folder:
        source, many = os.path.join(folder, 'from'), os.path.join(folder, 'many')
        os.mkdir(source)
        os.mkdir(many)
        for i in range(1_003):
            os.symlink('nothing', os.path.join(source, f'{i:04}'))
        for i in range(40):
            put(os.path.join(many, f'{i:02}'), b'')
        status, said = begun(program, '--from', source)
        lines = said.splitlines()
        found = status, len(lines), lines[:1], lines[-1:]
        wanted = 1, 1_001, [f'folder: {source}/0000: {LINK}'], ['folder: and 3 more']
        status, said = begun(program, '--from', many, config=config_in(folder))
        lines = said.splitlines()
        past = status, len(lines), lines[0].endswith(MANY.format(30)), lines[-1:]
        return not any([differs(found, wanted, 'links'),
                        differs(past, (1, 2, True, ['folder: and 9 more']), 'names')])


def share_leaves_out_too(program):
    """`share` says the same, and serves what is left."""
    with tempfile.TemporaryDirectory() as folder:
        source = os.path.join(folder, 'from')
        os.mkdir(source)
        put(os.path.join(source, 'a'), b'a')
        os.symlink('a', os.path.join(source, 'b'))
        status, _, said = program.ran('share', source, '--listen', '127.0.0.1:0')
        return not differs((status, said), (1, said_of(source, [('b', LINK)])), 'share')


def a_folder_that_cannot_be_read_ends_it(program):
    """Also with --skip."""
    with tempfile.TemporaryDirectory() as folder:
        absent = os.path.join(folder, 'absent')
        found = begun(program, '--from', absent, '--skip')
        return not differs(found, (1, f'folder: {absent}/: cannot be read: no such file\n'), 'absent')


@contextlib.contextmanager
def growing(file):
    """A file that gets longer all the while."""
    ends = threading.Event()

    def grow():
        with open(file, 'ab', buffering=0) as it:
            while not ends.wait(0.0005):
                it.write(b'x')

    thread = threading.Thread(target=grow)
    thread.start()
    try:
        yield
    finally:
        ends.set()
        thread.join()


def a_file_that_changes_is_left_out(program):
    """One that is written while it is read; nothing of it is there, and what is behind it is."""
    with tempfile.TemporaryDirectory() as folder:
        source = os.path.join(folder, 'from')
        os.mkdir(source)
        file = put(os.path.join(source, 'a'), bytes((1 if program.is_unproved else 12) << 20))
        put(os.path.join(source, 'b'), b'b')
        with growing(file), program.serve('--config', GUEST, '--from', source, '--skip') as share:
            found = ''.join(share.before), bytes_in(tree_in(share))
            killed(share)
        said = said_of(source, [('a', CHANGED)], ': left out')
        return not differs(found, (said, {'b': b'b'}), 'one that changes')


TESTS = (a_file_that_changes_is_left_out, all_faults_are_listed, what_cannot_be_there_is_left_out,
         what_has_no_room_is_left_out, a_thousand_faults_have_lines, share_leaves_out_too,
         a_folder_that_cannot_be_read_ends_it)
