"""What is whole of a damaged journal is taken out of it."""
import os
import re
import tempfile

from tests.keeping.damaged import OTHER_VERSION
from tests.keeping.folders import NEITHER
from tests.keeping.journal import FIRST_BYTES, FRONT, batches_of
from tests.smb.client import ALL_ACCESS
from tests.smb.frames import write
from tests.smb.kept import Looking, bytes_in, bytes_of, differs, keeping, killed, put, tree_of
from tests.smb.working import CREATE, DIRECTORY_FILE

UNKNOWN = 'journal: standard input: of what lay wholly in the damage nothing is known\n'
LATE = 'met behind damage for the first time: bytes of it may be missing'
LONG = 5_000
# What a client does: a path, whether a folder is made, and the offset of bytes that are written, or None where a file
# is made.
STEPS = (('f', True, None, b''), ('f\\a', False, None, b''), ('f\\a', False, 0, b'text'), ('f\\a', False, 4, b'more'),
         ('b', False, None, b''), ('b', False, 0, bytes(range(1, 251)) * 20), ('g', True, None, b''),
         ('g\\c', False, None, b''), ('g\\c', False, 0, b'c'), ('f\\a', False, 8, b'end'))
WHOLE = {'f': None, 'f\\a': b'textmoreend', 'b': STEPS[5][3], 'g': None, 'g\\c': b'c'}


class Stepping(Looking):
    """A client that makes files step by step, each of which stays open."""

    def steps(self, file):
        """Where the batches of each step begin and end in a journal."""
        opens, found, end = {}, [], len(bytes_of(file))
        for path, is_folder, offset, data in STEPS:
            if offset is None:
                opens[path] = self.opens(path, ALL_ACCESS, CREATE, DIRECTORY_FILE * is_folder)
            else:
                self.asks(write(self.next_id(), opens[path], offset, data, self.session, 1), 0, None)
            begin, end = end, len(bytes_of(file))
            found.append((begin, end))
        return found


def made(program, folder):
    """A journal, and where the batches of each step begin and end in it."""
    file = os.path.join(folder, 'journal')
    with keeping(program, '--journal', file) as share:
        steps = Stepping(share).comes_in().steps(file)
        killed(share)
    return bytes_of(file), steps


def salvaged(program, data, folder):
    """The status and standard error of a salvage of a journal's bytes, in which the folder is `to`, and the files."""
    file, to = put(os.path.join(folder, 'damaged'), data), os.path.join(folder, 'to')
    with open(file, 'rb') as it:
        status, _, errors = program.ran('extract', '--salvage', to, given=it)
    if bytes_of(file) != data:
        raise AssertionError('the journal is written')
    return status, errors.replace(to, 'to'), bytes_in(tree_of(to)) if os.path.exists(to) else None


def damaged(begin, end):
    return f'journal: standard input: bytes {begin} to {end} are damaged\n'


def losses(*rows):
    return ''.join(f'folder: to/{path}: {missing}\n' for path, missing in rows) + UNKNOWN


def is_salvaged(program, change, said, files):
    """Whether a journal that is changed so is taken out with these lines and files. What is said is made of the steps'
    places."""
    with tempfile.TemporaryDirectory() as folder:
        data, steps = made(program, folder)
        found = salvaged(program, change(data, steps), folder)
        return not differs(found, (1, said(data, steps), files), change.__name__)


def a_whole_journal_is_extracted(program):
    """As without --salvage, with status 0; also where its end is cut."""
    with tempfile.TemporaryDirectory() as folder:
        data, steps = made(program, folder)
        found = salvaged(program, data, folder)
        again = os.path.join(folder, 'again')
        os.mkdir(again)
        cut = salvaged(program, data[:-1], again)
        last = steps[-1][1] - steps[-1][0] - 1
        said = f'journal: standard input: its last batch was cut: {last} bytes are left out\n'
        return not any([differs(found, (0, '', WHOLE), 'whole'),
                        differs(cut, (0, said, {**WHOLE, 'f\\a': b'textmore'}), 'cut')])


def turned_at(data, at):
    return data[:at] + bytes([data[at] ^ 1]) + data[at + 1:]


LATER = ('b', LATE), ('g', LATE), ('f/a', 'bytes 4 to 8 may be missing'), ('g/c', LATE)


def a_bit_is_turned(program):
    """In the midst, in the front or the back of a batch: what was written by it is missing, and all else is there."""
    def in_changes(data, steps):
        return turned_at(data, steps[3][0] + FRONT + 3)

    def in_front(data, steps):
        return turned_at(data, steps[3][0] + 2)

    def said(data, steps):
        return damaged(*steps[3]) + losses(*LATER)

    files = {**WHOLE, 'f\\a': b'text\0\0\0\0end'}
    return all(is_salvaged(program, change, said, files) for change in (in_changes, in_front))


def zeros_are_passed(program):
    """In place of the batches of three steps."""
    with tempfile.TemporaryDirectory() as folder:
        data, steps = made(program, folder)
        zeros = data[:steps[3][0]] + bytes(steps[5][1] - steps[3][0]) + data[steps[5][1]:]
        status, errors, files = salvaged(program, zeros, folder)
        begin, end = map(int, re.findall(r'bytes (\d+) to (\d+) are damaged', errors)[0])
        return not differs((status, begin, end >= steps[5][1], files['f\\a']),
                           (1, steps[3][0], True, b'text\0\0\0\0end'), 'zeros')


def a_batch_is_cut_out(program):
    """What is behind it is read from the second batch on: the check before the first one is gone."""
    with tempfile.TemporaryDirectory() as folder:
        data, steps = made(program, folder)
        (begin, end), (_, behind) = steps[5], steps[6]
        status, errors, files = salvaged(program, data[:begin] + data[end:], folder)
        lost = [path for path in files if path.startswith('lost+found\\')]
        is_named = errors.startswith(damaged(begin, begin + behind - end))
        return not any([differs((status, is_named), (1, True), 'cut out'),
                        differs((files['f\\a'], files['b'], 'g' in files), (WHOLE['f\\a'], b'', False), 'files'),
                        differs([files[path] for path in lost], [b'c'], 'lost'),
                        differs(f'folder: to/{"".join(lost)}: its folder is not known\n'.replace('\\', '/') in errors,
                                True, errors)])


def the_first_batch_is_gone(program):
    """Or the first line: what is behind is taken without the folders that only they knew."""
    wrong = []
    for gone in ('batch', 'line'):
        with tempfile.TemporaryDirectory() as folder:
            data, steps = made(program, folder)
            first = batches_of(data)[0]
            left = data[:FIRST_BYTES] + data[first:] if gone == 'batch' else data[FIRST_BYTES:]
            status, errors, files = salvaged(program, left, folder)
            wrong += [differs((status, errors.endswith(UNKNOWN)), (1, True), gone),
                      differs((files['b'], files['g\\c']), (WHOLE['b'], b'c'), gone)]
    return not any(wrong)


def what_is_no_journal_is_refused(program):
    """A text, nothing, one of another version; also a folder that exists. Nothing is made."""
    with tempfile.TemporaryDirectory() as folder:
        data, _ = made(program, folder)
        found = [salvaged(program, other, folder) for other in (b'a text\n', b'', data.replace(b' 3 ', b' 4 ', 1))]
        said = [f'journal: {NEITHER}\n', f'journal: {NEITHER}\n', f'journal: {OTHER_VERSION}\n']
        return not differs(found, [(1, line, None) for line in said], 'refused')


def each_byte_may_be_another(program):
    """Wherever a byte is another one, it ends by itself, and all files that it takes out are those of some step or have
    zeros where bytes are missing."""
    wrong = []
    with tempfile.TemporaryDirectory() as folder:
        data, steps = made(program, folder)
        for i in range(0, len(data), 331 if program.is_unproved else 61):
            within = os.path.join(folder, str(i))
            os.mkdir(within)
            status, errors, files = salvaged(program, data[:i] + bytes([data[i] ^ 0x55]) + data[i + 1:], within)
            longest = max((len(it) for it in (files or {}).values() if it is not None), default=0)
            if status not in (0, 1) or longest > LONG or (files is None) == ('damaged\n' in errors):
                wrong.append((i, status, errors, files))
    return not differs(wrong, [], 'bytes')


TESTS = (a_whole_journal_is_extracted, a_bit_is_turned, zeros_are_passed, a_batch_is_cut_out, the_first_batch_is_gone,
         what_is_no_journal_is_refused, each_byte_may_be_another)
