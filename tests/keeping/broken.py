"""Copies of a journal that was written anew which were broken off, and journals of the version before."""
import contextlib
import os
import random
import tempfile

from tests.keeping.compacted import compacted
from tests.keeping.journal import (DIGITS, FIRST, FIRST_BYTES, LEAST_AT, SEED_AT, STATES, batches_of, line_of, make,
                                   seen)
from tests.keeping.killing import CLIENTS, Large
from tests.smb.client import ALL_ACCESS
from tests.smb.frames import write
from tests.smb.kept import (Looking, begun, bytes_in, bytes_of, checked, cut_end, differs, keeping, killed, put,
                            taken_out, tree_in, tree_of)
from tests.smb.working import CREATE

SEED, PLACES = 20_261_201, 12
# How many small files a journal has, of how many bytes each, beside the large one by which it gets long.
FILES, SIZE, LARGE_FILE = 40, 1_000, f'{CLIENTS} large'
# What is written to one file behind the moment at which a journal was written anew, a turn each.
LATER = (b'one', b'two', b'three')
# What the version before begins with, and how many bytes its first line has.
BEFORE, BEFORE_BYTES = b'# smbshare journal 2 ', 38


def of_before(data):
    """A journal of the version before, with the same batches."""
    return BEFORE + data[SEED_AT:SEED_AT + DIGITS] + b'\n' + data[FIRST_BYTES:]


def first_bytes(file, count=FIRST_BYTES):
    with open(file, 'rb') as it:
        return it.read(count)


def makes(client, name, *data):
    """Makes a file, and puts bytes into it, a turn each; gives all of them."""
    number, whole = client.opens(name, ALL_ACCESS, CREATE), b''
    for it in data:
        client.asks(write(client.next_id(), number, len(whole), it, client.session, 1), 0, None)
        whole += it
    client.ends(number)
    return whole


def make_renewed(program, folder):
    """A journal that was written anew and then written on; what its small files are; and the first lines that its next
    file had."""
    file, lines = os.path.join(folder, 'kept'), set()
    with keeping(program, '--journal', file) as share:
        client, first = Looking(share).comes_in(), os.stat(file).st_ino
        files = {f'0 {i}': makes(client, f'0 {i}', bytes([1 + i]) * SIZE) for i in range(FILES)}

        def is_anew():
            if os.stat(file).st_ino != first:
                return True
            with contextlib.suppress(FileNotFoundError):
                lines.add(first_bytes(f'{file}.new'))
            return False

        Large(share, CLIENTS).writes_until(is_anew)
        files['later'] = makes(client, 'later', *LATER)
        killed(share)
    return file, files, lines


def least_of(data):
    """How many bytes a journal has at least, with its first line."""
    return FIRST_BYTES + int(data[LEAST_AT:LEAST_AT + DIGITS], 16)


def refusal(missing, wanted):
    return f'{missing} of its first {wanted} bytes are missing: it is a copy that was broken off, take another'


def is_refused(program, folder, data, missing):
    """Whether a part of a journal is refused by all that read one; it stays, and nothing is made of it."""
    file, to, new = (os.path.join(folder, name) for name in ('part', 'to', 'new'))
    why, named = refusal(missing, least_of(data)), f'journal: {put(file, data)}: '
    found = [begun(program, '--journal', file), checked(program, file), taken_out(program, file, to),
             compacted(program, file, new)]
    wanted = [(1, f'{named}{why}\n'), (1, '', f'{named}{why}\n'), *[(1, f'journal: {why}\n')] * 2]
    is_left = bytes_of(file) == data and not os.path.exists(to) and os.path.getsize(new) == 0
    return not differs(found, wanted, f'{len(data)} bytes') and not differs(is_left, True, 'what is left')


def small_in(files):
    return {name: data for name, data in files.items() if name != LARGE_FILE}


def the_begin_of_one_that_was_written_anew_is_refused(program):
    """A copy that has not all bytes which the journal had when it got its name, where it ends anywhere, and where zeros
    are behind that; one that has them begins with whole turns. The number is in the first line shortly before the name is
    its own."""
    with tempfile.TemporaryDirectory() as folder:
        file, files, lines = make_renewed(program, folder)
        data, chance = bytes_of(file), random.Random(SEED)
        least, ends = least_of(data), batches_of(data)
        without = data[:LEAST_AT] + b'0' * DIGITS + b'\n'
        wrong = [differs(without in lines and lines <= {b'', without, data[:FIRST_BYTES]}, True, lines)]
        wrong.append(differs(least in ends and least < len(data), True, (least, len(data))))
        places = {FIRST_BYTES, least - 1, *chance.sample(ends[:ends.index(least)], 3),
                  *(chance.randrange(FIRST_BYTES, least) for _ in range(PLACES))}
        wrong += [not is_refused(program, folder, data[:place], least - place) for place in sorted(places)]
        whole = max(end for end in ends if end < least - 1)
        zeros = data[:least - 1] + bytes(5_000)
        wrong.append(not is_refused(program, folder, zeros, least - whole))
        later = ends[ends.index(least):]
        wrong += [not begins_well(program, folder, data[:place], files)
                  for place in (later[::len(later) - 1] if program.is_unproved else later)]
        print(f'  written anew with {least:,} bytes; refused at {len(places)} places', flush=True)
        return not any(wrong)


def begins_well(program, folder, data, files):
    """Whether a share begins with all small files, and with some of the turns that came later."""
    found = small_in(seen(program, put(os.path.join(folder, 'part'), data)))
    later = found.pop('later', None)
    is_turn = later is None or later in [b''.join(LATER[:count]) for count in range(len(LATER) + 1)]
    wanted = {name: data for name, data in files.items() if name != 'later'}
    return not differs(found == wanted, True, f'{len(data)} bytes') and not differs(is_turn, True, later)


def a_part_of_what_is_compacted_is_refused(program):
    """What compact writes says itself how long it is."""
    with tempfile.TemporaryDirectory() as folder:
        file, new = make(program, os.path.join(folder, 'kept')), os.path.join(folder, 'compacted')
        wrong = [differs(compacted(program, file, new), (0, ''), 'what is said')]
        data = bytes_of(new)
        wrong.append(differs(least_of(data), len(data), 'number'))
        wrong += [not is_refused(program, folder, data[:place], len(data) - place)
                  for place in range(FIRST_BYTES, len(data), 23)]
        return not any(wrong) and not differs(seen(program, new), STATES[-1], 'files')


def one_of_the_version_before_goes_on(program):
    """It is read, checked, taken out and written on as ever, also where its end is cut, and where it has but its first
    line, or a part of that."""
    with tempfile.TemporaryDirectory() as folder:
        data = of_before(bytes_of(make(program, os.path.join(folder, 'new'))))
        ends, file, wrong = batches_of(data, BEFORE_BYTES), os.path.join(folder, 'kept'), []
        for length in (5, BEFORE_BYTES - 1, BEFORE_BYTES, ends[0], ends[-2] + 7, ends[-1]):
            whole, batches = max([0] + [end for end in ends if end <= length]), sum(end <= length for end in ends)
            left, tree = max(0, length - (whole or BEFORE_BYTES)), STATES[max(0, batches - 1)]
            said = line_of(put(file, data[:length]), batches, tree, whole or min(length, BEFORE_BYTES), left)
            wrong.append(differs(checked(program, file), said, f'checked, {length}'))
            found = taken_out(program, file, to := os.path.join(folder, f'to {length}'))
            wrong.append(differs(found, (0, cut_end('standard input', left)), f'taken out, {length}'))
            wrong.append(differs(bytes_in(tree_of(to)), tree, f'what is taken out, {length}'))
            with keeping(program, '--journal', file) as share:
                wrong.append(differs(''.join(share.before), cut_end(file, left), f'said, {length}'))
                makes(Looking(share).comes_in(), 'more', b'text')
                killed(share)
            wrong.append(differs(seen(program, file), {**tree, 'more': b'text'}, f'seen, {length}'))
            begin = FIRST if length < BEFORE_BYTES else data[:whole or length]
            wrong.append(differs(bytes_of(file).startswith(begin), True, f'begin, {length}'))
        return not any(wrong)


def one_of_the_version_before_is_written_anew(program):
    """Once it is long: then it is of this version, and has its files."""
    with tempfile.TemporaryDirectory() as folder:
        file = make(program, os.path.join(folder, 'kept'))
        put(file, of_before(bytes_of(file)))
        with keeping(program, '--journal', file) as share:
            Large(share, CLIENTS).writes_until(lambda: first_bytes(file).startswith(FIRST))
            found = bytes_in(tree_in(share))
            killed(share)
        data = bytes_of(file)
        wrong = [differs(small_in(found), STATES[-1], 'files'), differs(seen(program, file) == found, True, 'kept')]
        wrong.append(differs(FIRST_BYTES < least_of(data) <= len(data), True, (least_of(data), len(data))))
        return not any(wrong)


TESTS = (the_begin_of_one_that_was_written_anew_is_refused, a_part_of_what_is_compacted_is_refused,
         one_of_the_version_before_goes_on, one_of_the_version_before_is_written_anew)
