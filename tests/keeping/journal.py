"""Journals: what is written to them, what is left of one that was cut, and under what a share goes on with one."""
import os
import re
import tempfile
import threading

from tests.keeping.recordings import faults_at, make_both
from tests.smb.client import ALL_ACCESS
from tests.smb.frames import close, echoes, query_info, read, write
from tests.smb.kept import (Looking, begun, bytes_in, bytes_of, checked, cut_end, differs, keeping, killed, put,
                            taken_out, tree_in, tree_of)
from tests.smb.program import GUEST, TOP
from tests.smb.working import CREATE, DIRECTORY_FILE, OPEN

# The first line: what it begins with, how many bytes it has with its two numbers, of as many digits, and where these
# are.
FIRST, FIRST_BYTES, DIGITS, SEED_AT, LEAST_AT = b'# smbshare journal 3 ', 55, 16, 21, 38
# A batch: of its front the first 8 bytes say how many bytes of changes it has; how many there are besides.
FRONT, BACK = 24, 9
INTERNAL_INFORMATION, NUMBER_AT = 6, 72
# How often files are read, listed, and the share asked for an ECHO; how often a journal is checked that is written, and
# how often it is at most.
READS, CHECKS, MOST_WRITES = 1_000, 20, 3_000
# What a small journal keeps, as its turns leave it one after the other.
STATES = [{}, {'f': None}, *({'f': None, 'f\\a': data} for data in (b'', b'text', b'textmore'))]


def make(program, file, *words):
    """A small journal: a folder, and a file in it that is written twice."""
    with keeping(program, '--journal', file, *words) as share:
        client = Looking(share).comes_in()
        client.ends(client.opens('f', ALL_ACCESS, CREATE, DIRECTORY_FILE))
        number = client.opens('f\\a', ALL_ACCESS, CREATE)
        for at, data in ((0, b'text'), (4, b'more')):
            client.asks(write(client.next_id(), number, at, data, client.session, 1), 0, None)
        client.ends(number)
        killed(share)
    return file


def batches_of(data, at=FIRST_BYTES):
    """Where each batch ends."""
    ends = []
    while at < len(data):
        at += FRONT + int.from_bytes(data[at:at + 8], 'little') + BACK
        ends.append(at)
    return ends


def turned(data):
    """A journal that is damaged at once: a bit is another one in the front of its first batch."""
    at = FIRST_BYTES + FRONT - 2
    return data[:at] + bytes([data[at] ^ 1]) + data[at + 1:]


def seen(program, file, *words):
    """What a client sees of what a journal keeps."""
    with keeping(program, '--journal', file, *words) as share:
        found = bytes_in(tree_in(share))
        killed(share)
    return found


def what_was_written_is_there(program):
    """Behind a restart, with --sync or without, and the file has whole batches alone, and is its owner's alone."""
    with tempfile.TemporaryDirectory() as folder:
        found = []
        for words in ((), ('--sync',)):
            file = make(program, os.path.join(folder, f'kept{len(words)}'), *words)
            data = bytes_of(file)
            found.append(data.startswith(FIRST) and batches_of(data)[-1] == len(data))
            found.append(seen(program, file, *words) == STATES[-1] and bytes_of(file) == data)
            found.append(os.stat(file).st_mode & 0o777 == 0o600)
        return all(found)


def whole_of(data, length):
    """How many bytes of a journal are whole that is cut at a length, and how many are left out of it."""
    whole = max([0] + [end for end in batches_of(data) if end <= length])
    return whole, max(0, length - (whole or FIRST_BYTES))


def one_that_is_cut_anywhere_has_whole_turns(program):
    """Cut at any byte it keeps what some turn left, never less than where it is cut before; it is said how much is left
    out, and a share goes on behind it."""
    with tempfile.TemporaryDirectory() as folder:
        data = bytes_of(make(program, os.path.join(folder, 'kept')))
        ends, kept, wrong = batches_of(data), [], []
        step = 37 if program.is_unproved else 5
        for length in sorted({*range(0, len(data), step), len(data) - 1, *ends, *(end - 1 for end in ends)}):
            file, (whole, left) = put(os.path.join(folder, 'cut'), data[:length]), whole_of(data, length)
            with keeping(program, '--journal', file) as share:
                said, client = ''.join(share.before), Looking(share).comes_in()
                found = bytes_in(client.tree())
                client.ends(client.opens('behind', ALL_ACCESS, CREATE))
                killed(share)
            again = seen(program, file)
            is_said = said == cut_end(file, left) and bytes_of(file)[:whole] == data[:whole]
            if not is_said or again != {**found, 'behind': b''}:
                wrong.append((length, said, found, again))
            kept.append(STATES.index(found))
        return not any([differs(wrong[:3], [], 'wrong'), differs(kept, sorted(kept), 'turns'),
                        differs({*kept}, {*range(len(STATES))}, 'all turns')])


def one_that_is_cut_at_each_byte_is_extracted(program):
    """What is taken out is what some turn left, never less than where it is cut before, and it is said how much is left
    out; the file stays as it is. Of no byte nothing is taken out."""
    with tempfile.TemporaryDirectory() as folder:
        data = bytes_of(make(program, os.path.join(folder, 'kept')))
        kept = {}

        def fault_of(length):
            file, to = put(os.path.join(folder, f'cut {length}'), data[:length]), os.path.join(folder, f'to {length}')
            found = taken_out(program, file, to)
            if found != (0, cut_end('standard input', whole_of(data, length)[1])) or bytes_of(file) != data[:length]:
                return f'cut at {length} of {len(data)}: {found}'
            kept[length] = STATES.index(bytes_in(tree_of(to)))
            return None

        faults = faults_at(range(len(data), 0, -7 if program.is_unproved else -1), fault_of)
        turns = [kept[length] for length in sorted(kept)]
        return not faults and not differs(turns, sorted(turns), 'turns') and turns[-1] == len(STATES) - 1


def line_of(file, batches, tree, whole, left=0):
    """What a check says of a journal that keeps these files: its status, standard output and standard error."""
    texts = [data for data in tree.values() if data is not None]
    said = (f'{file}: {batches} batches; {len(texts)} files and {len(tree) - len(texts)} folders, with '
            f'{sum(map(len, texts))} bytes; {whole} bytes of it are whole')
    return (1, f'{said}, and {left} behind them of a cut batch\n', '') if left else (0, f'{said}\n', '')


def a_check_says_what_is_whole(program):
    """Of a journal that is whole, or cut at any byte, and of an empty file."""
    with tempfile.TemporaryDirectory() as folder:
        data = bytes_of(make(program, os.path.join(folder, 'kept')))
        ends = batches_of(data)

        def fault_of(length):
            file, (whole, left) = put(os.path.join(folder, f'cut {length}'), data[:length]), whole_of(data, length)
            batches, found = sum(end <= length for end in ends), checked(program, file)
            tree = STATES[max(batches - 1, 0)]
            wanted = line_of(file, batches, tree, whole or min(length, FIRST_BYTES), left)
            return '' if found == wanted else f'cut at {length} of {len(data)}: {found}, not {wanted}'

        near = {end + more for end in (FIRST_BYTES, *ends) for more in (-1, 0, 1)}
        return not faults_at(sorted({*range(0, len(data), 11), *(it for it in near if it <= len(data))}), fault_of)


def one_that_is_served_is_checked(program):
    """Behind an answer it is whole, and has what was changed; while a client writes its end may be cut, and no more."""
    with tempfile.TemporaryDirectory() as folder:
        file, ends = make(program, os.path.join(folder, 'kept')), threading.Event()
        with keeping(program, '--journal', file) as share:
            client, writes = Looking(share).comes_in(), []
            number = client.opens('new', ALL_ACCESS, CREATE)

            def works():
                while not ends.is_set() and len(writes) < MOST_WRITES:
                    client.asks(write(client.next_id(), number, 0, b'x' * 700, client.session, 1), 0, None)
                    writes.append(None)

            found = [checked(program, file)]
            wanted = [line_of(file, len(STATES) + 1, {**STATES[-1], 'new': b''}, os.path.getsize(file))]
            writing = threading.Thread(target=works)
            writing.start()
            beside = [program.ran('check-journal', file) for _ in range(CHECKS)]
            ends.set()
            writing.join()
            tree, batches = {**STATES[-1], 'new': bytes(700)}, len(STATES) + 1 + len(writes)
            found.append(checked(program, file))
            wanted.append(line_of(file, batches, tree, os.path.getsize(file)))
            killed(share)
        wrong = [it for it in beside if it[0] not in (0, 1) or b'bytes of it are whole' not in it[1] or it[2]]
        return not any([differs(found, wanted, 'behind an answer'), differs(wrong[:3], [], 'while it is written')])


def a_check_is_refused(program):
    """Of what is damaged, and of what is no journal, as a start is; of what is not there, which is not made; and where
    its line can't be written."""
    with tempfile.TemporaryDirectory() as folder:
        file, wrong, absent = make(program, os.path.join(folder, 'kept')), [], os.path.join(folder, 'absent')
        data, (record, events) = bytes_of(file), make_both(program, folder)
        damaged = put(os.path.join(folder, 'damaged'), turned(data))
        other = put(os.path.join(folder, 'other'), data.replace(b' 3 ', b' 4 ', 1))
        for name, said in ((damaged, 'damaged'), (record, 'no journal'), (events, 'a journal of events'),
                           (other, 'a journal of another version')):
            found, of_start = checked(program, name), begun(program, '--journal', name)
            wrong.append(differs(found, (1, '', of_start[1]), name))
            wrong.append(differs(found[2].startswith(f'journal: {name}: {said}'), True, found))
        for name, why in ((absent, 'no such file'), (folder, 'is a directory')):
            said = f'journal: {name}: cannot be read: {why}; name a file that you may read\n'
            wrong.append(differs(program.ran('check-journal', name), (1, b'', said), name))
        with open('/dev/full', 'wb') as full:
            found = program.ran('check-journal', file, stdout=full)[::2]
        return not any([*wrong, differs(found, (1, 'output: failed\n'), 'full')]) and not os.path.exists(absent)


def with_zeros_behind_it_goes_on(program):
    """As some file systems leave a file that was longer."""
    with tempfile.TemporaryDirectory() as folder:
        data = bytes_of(make(program, os.path.join(folder, 'kept')))
        ends = batches_of(data)
        found = []
        for length in (ends[-1], ends[-2] + 7, ends[-2] + FRONT + 3):
            file = put(os.path.join(folder, 'zeros'), data[:length] + bytes(5_000))
            found.append(begun(program, '--journal', file)[0] == 0)
            found.append(os.path.getsize(file) in (ends[-1], ends[-2]))
        return all(found)


def one_whose_name_is_gone_is_served_on(program):
    """Where the file is removed, or another one gets its name: a client's files are there as long as it is served."""
    def replaced(file):
        os.replace(put(f'{file} other', b'a text\n'), file)

    with tempfile.TemporaryDirectory() as folder:
        found = []
        for gone in (os.remove, replaced):
            file = make(program, os.path.join(folder, 'kept'))
            with keeping(program, '--journal', file) as share:
                gone(file)
                client = Looking(share).comes_in()
                number = client.opens('behind', ALL_ACCESS, CREATE)
                client.asks(write(client.next_id(), number, 0, b'more', client.session, 1), 0, None)
                client.ends(number)
                found.append(bytes_in(tree_in(share)))
                killed(share)
            if os.path.exists(file):
                os.remove(file)
        return not differs(found, [{**STATES[-1], 'behind': b'more'}] * 2, 'what is there')


def what_changes_nothing_adds_no_byte(program):
    """READs, listings, ECHOs, and clients that come and go."""
    with tempfile.TemporaryDirectory() as folder:
        file = make(program, os.path.join(folder, 'kept'))
        size = os.path.getsize(file)
        with keeping(program, '--journal', file) as share:
            client = Looking(share).comes_in()
            number = client.opens('f\\a', 1)
            for _ in range(READS):
                client.asks(read(client.next_id(), number, 0, 8, client.session, 1), 0, None)
                client.any_status(echoes(client.next_id(), 1))
            client.ends(number)
            for _ in range(READS // 20):
                tree_in(share)
            killed(share)
        return os.path.getsize(file) == size


def numbers_stay(program):
    """An entry keeps its number over restarts, and one that was removed is never given again."""
    with tempfile.TemporaryDirectory() as folder:
        file = make(program, os.path.join(folder, 'kept'))
        found = []
        for name in ('new', 'newer'):
            with keeping(program, '--journal', file) as share:
                client = Looking(share).comes_in()
                found.append((number_of(client, 'f\\a', 1, OPEN), number_of(client, name, ALL_ACCESS, CREATE, 0x1000)))
                client.client.end()
                tree_in(share)
                killed(share)
        (old, new), (same, newer) = found
        return old == same and new < newer


def number_of(client, name, access, disposition, options=0):
    """The number of a file; with DELETE_ON_CLOSE (0x1000) it goes behind that."""
    number = client.opens(name, access, disposition, options)
    reply = client.asks(query_info(client.next_id(), number, INTERNAL_INFORMATION, client.session, 1), 0, None)
    client.asks(close(client.next_id(), number, client.session, 1), 0, None)
    return int.from_bytes(reply[NUMBER_AT:NUMBER_AT + 8], 'little')


def another_configuration_goes_on(program):
    """Another label, guid and moment, less room, other limits, other users, and another way to log in."""
    with tempfile.TemporaryDirectory() as folder:
        file, text = make(program, os.path.join(folder, 'kept')), bytes_of(GUEST)
        data, found, limits = bytes_of(file), [], b'\n[limits]\nentries = 2\nfile_bytes = 4096\n'
        for old, new in ((b'"DATA"', b'"OTHER"'), (b'0001', b'0002'), (b'67108864', b'4096'), (b'11644', b'11645')):
            text = text.replace(old, new)
            if new not in text:
                return False
        for config in (put(os.path.join(folder, 'config'), text + limits), os.path.join(TOP, 'share.toml')):
            with program.serve('--journal', file, '--config', config) as share:
                found.append(bytes_in(tree_in(share)) == STATES[-1])
                killed(share)
        found.append(begun(program, '--journal', file, '--login', 'ntlm')[0] == 0)
        return all(found) and not differs(bytes_of(file), data, 'the file')


# What is said of files that do not fit a configuration's limits, and its capacity.
UNFIT = ((b'67108864', b'4096', 'the files take more space than the capacity: raise capacity'),
         (b'[limits]', b'[limits]\nentries = 3',
          'there are more files and folders than the limits allow: raise limits.entries'),
         (b'[limits]', b'[limits]\nfile_bytes = 4999',
          r'file \d+ has more bytes than the limits allow: raise limits.file_bytes'))


def files_that_do_not_fit_are_refused(program):
    """By the capacity, by how many there are, and by the bytes of one: the file is named, and stays as it is."""
    with tempfile.TemporaryDirectory() as folder:
        file, wrong = make(program, os.path.join(folder, 'kept')), []
        with keeping(program, '--journal', file) as share:
            client = Looking(share).comes_in()
            client.ends(client.opens('g', ALL_ACCESS, CREATE))
            number = client.opens('h', ALL_ACCESS, CREATE)
            client.asks(write(client.next_id(), number, 0, bytes(5_000), client.session, 1), 0, None)
            client.ends(number)
            killed(share)
        data = bytes_of(file)
        for old, new, why in UNFIT:
            config = put(os.path.join(folder, 'config'), (bytes_of(GUEST) + b'\n[limits]\n').replace(old, new))
            status, said = begun(program, '--journal', file, config=config)
            is_said = status == 1 and re.fullmatch(f'journal: {re.escape(file)}: {why}\n', said) is not None
            wrong.append(differs((is_said, bytes_of(file) == data), (True, True), f'{why}: {said!r}'))
        return not any(wrong)


TESTS = (what_was_written_is_there, one_that_is_cut_anywhere_has_whole_turns, one_that_is_cut_at_each_byte_is_extracted,
         a_check_says_what_is_whole, one_that_is_served_is_checked, a_check_is_refused, with_zeros_behind_it_goes_on,
         one_whose_name_is_gone_is_served_on, what_changes_nothing_adds_no_byte, numbers_stay,
         another_configuration_goes_on, files_that_do_not_fit_are_refused)
