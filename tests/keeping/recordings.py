"""What a share's clients took, answered again by a record, whole or cut, and by a journal of events of before."""
import os
import random
import re
import struct
import tempfile
import threading
from concurrent.futures import ThreadPoolExecutor

from tests.keeping.events import of_record
from tests.smb import ntlm
from tests.smb.client import ALL_ACCESS, LONGEST_PIECE
from tests.smb.frames import echoes, negotiate, read, session_setup, tree_connect, write
from tests.smb.kept import (Heard, Looking, answered_in, begun, bytes_in, bytes_of, cut_end, differs, keeping, killed,
                            put, taken_out, tree_of)
from tests.smb.working import CREATE, SESSION_ID_AT, Working

# The moment of the first piece; how many clients work, and how often each sends some requests.
SEED, MOMENT, AT_WORK, WORKS = 20_261_126, 133_000_000_000_000_000, 3, 4
# The last bytes of a recording, at each of which it is cut.
LAST = 400
DENIED = 0xC000006D
# Who logs in by NTLM, as a guest.
USER = 'somebody'


class Hearing:
    """A share whose clients keep what they take of their streams."""

    def __init__(self, share):
        self.share, self.clients = share, []

    def client(self):
        self.clients.append(Heard(self.share.port))
        return self.clients[-1]


def works(client, wrong):
    """Some requests at once, some times; they are answered as the client's model of its file has them."""
    try:
        client.comes_in()
        for _ in range(WORKS):
            client.works()
        client.goes()
    except Exception as error:
        wrong.append(repr(error))


def several_work_at_once(hearing):
    """Clients in threads, at whose files nothing is wrong."""
    wrong = []
    clients = [Working(hearing, number, SEED) for number in range(AT_WORK)]
    threads = [threading.Thread(target=works, args=(client, wrong)) for client in clients]
    for thread in threads:
        thread.start()
    for thread in threads:
        thread.join()
    if wrong:
        raise AssertionError(wrong[0])


def one_is_ended(hearing):
    """By the share, behind an answer, for bytes that are no frame."""
    client = hearing.client().send(negotiate() + b'\x85')
    if len(client.reply()) != 128 or not client.is_ended():
        raise AssertionError('bytes that are no frame do not end a connection')


def one_is_reset(hearing):
    """By the client, with answers that it has not taken."""
    client = Looking(hearing).comes_in()
    number = client.opens('much', ALL_ACCESS, CREATE)
    data = b'x' * LONGEST_PIECE
    client.asks(write(client.next_id(), number, 0, data, client.session, 1), 0, None)
    client.client.send(b''.join(read(client.next_id(), number, 0, len(data), client.session, 1) for _ in range(8)))
    client.client.bytes(100_000)
    client.client.reset()


def one_sends_single_bytes(hearing):
    client = hearing.client()
    for byte in negotiate() + echoes(1, 2):
        client.send(bytes([byte]))
    client.reply()
    client.reply()


def heard_of(lines, number):
    """The bytes of the frames that a replay answers to a connection."""
    begin = f'< {number} '
    return b''.join(bytes.fromhex(line[len(begin):]) for line in lines if line.startswith(begin))


def are_moments(record):
    """Whether a record's pieces come one unit of time behind the other."""
    moments = [int(line.split()[2]) for line in bytes_of(record).decode('ascii').splitlines() if line.startswith('> ')]
    return moments == list(range(MOMENT, MOMENT + len(moments))) and moments


def made_old(record):
    """The file of a journal of events that has those of a record."""
    return put(f'{record} old', of_record(bytes_of(record)))


def a_record_is_answered_again(program):
    """Several clients at once, one that the share ends, one that resets, one that sends single bytes: a replay answers
    to each connection what its client took, also of a journal of the same events."""
    with tempfile.TemporaryDirectory() as folder:
        file = os.path.join(folder, 'kept')
        with keeping(program, '--record', file, '--clock', str(MOMENT)) as share:
            hearing = Hearing(share)
            several_work_at_once(hearing)
            for doing in (one_is_ended, one_is_reset, one_sends_single_bytes):
                doing(hearing)
            is_served = share.client().is_served()
            killed(share)
        lines = answered_in(program, file)
        is_right = is_served and are_moments(file) and answered_in(program, made_old(file)) == lines
        is_ended, is_reset = AT_WORK + 1, AT_WORK + 2
        for number, client in enumerate(hearing.clients, 1):
            again = heard_of(lines, number)
            is_right = is_right and client.heard and again.startswith(client.heard)
            is_right = is_right and (number == is_reset or again == client.heard)
        return is_right and [line for line in lines if line.startswith('x ')] == [f'x {is_ended}']


def logs_in(client):
    """Whether a client comes in by NTLM as a guest, and has a tree."""
    client.negotiates()
    reply = client.send(session_setup(1, ntlm.NEGOTIATE_OF_NOBODY)).reply()
    session = struct.unpack_from('<Q', reply, SESSION_ID_AT)[0]
    return (struct.unpack_from('<I', reply, 8)[0] == ntlm.MORE_PROCESSING
            and client.asks(session_setup(2, ntlm.authenticate(USER), session)) == 0
            and client.asks(tree_connect(3, session)) == 0)


def a_login_is_answered_again(program):
    """By NTLM, with the system's challenges, as a guest; behind a login that is denied, and one never finished."""
    with tempfile.TemporaryDirectory() as folder:
        file = os.path.join(folder, 'kept')
        with keeping(program, '--record', file, '--login', 'ntlm') as share:
            clients = [Heard(share.port) for _ in range(3)]
            is_well = (clients[0].negotiates() and clients[0].asks(session_setup(1, b'no token')) == DENIED
                       and clients[1].negotiates()
                       and clients[1].asks(session_setup(1, ntlm.NEGOTIATE_OF_NOBODY)) == ntlm.MORE_PROCESSING
                       and logs_in(clients[2]))
            killed(share)
        lines = answered_in(program, file)
        return (is_well and [heard_of(lines, 1 + i) for i in range(3)] == [client.heard for client in clients]
                and answered_in(program, made_old(file)) == lines)


# A recording that is cut, or changed: a record, and a journal of the same events.

def make_both(program, folder):
    """A small record, and a journal of its events: a file that is made, written twice and closed, and another client
    that was let in."""
    record = os.path.join(folder, 'record')
    with keeping(program, '--record', record, '--clock', str(MOMENT)) as share:
        client = Looking(share).comes_in()
        number = client.opens('f', ALL_ACCESS, CREATE)
        for at, data in ((0, b'text'), (4, b'more')):
            client.asks(write(client.next_id(), number, at, data, client.session, 1), 0, None)
        client.ends(number)
        Looking(share).comes_in()
        killed(share)
    return record, made_old(record)


def lines_of(data):
    """The lines of a recording, with the bytes behind the heads of pieces."""
    found, at = [], 0
    while at < len(data):
        end = data.index(b'\n', at) + 1
        if data[at:at + 2] == b'b ':
            end += int(data[at:end].split()[3]) + 1
        found.append(data[at:end])
        at = end
    return found


def ends_of(lines):
    """Where each line ends."""
    found = [0]
    for line in lines:
        found.append(found[-1] + len(line))
    return found[1:]


def apart(program):
    """How far the places are apart at which a recording is cut or changed: an unproved program is slow."""
    return 20 if program.is_unproved else 1


def places_of(program, data):
    """Where a recording is cut: near each end of a line, and at each of the last bytes, or some of them."""
    ends = ends_of(lines_of(data))
    near = {place for end in ends for place in ((end - 1, end, end + 1) if not program.is_unproved else (end,))}
    last = set(range(len(data) - LAST, len(data), apart(program)))
    return sorted(place for place in near | last if ends[0] <= place <= len(data))


def faults_at(places, fault_of):
    """What is wrong at some places; several are tried at once."""
    with ThreadPoolExecutor(os.cpu_count()) as pool:
        faults = [fault for fault in pool.map(fault_of, places) if fault]
    for fault in faults[:10]:
        print(f'  {fault}', flush=True)
    print(f'  {len(places)} places, {len(faults)} of them wrong', flush=True)
    return faults


def those_that_are_cut_are_answered_in_part(program):
    """A replay of each cut answers a part of what the whole recording answers, from its begin on."""
    with tempfile.TemporaryDirectory() as folder:
        def is_cut_well(file):
            data, whole = bytes_of(file), answered_in(program, file)

            def fault_of(place):
                status, output, errors = program.ran('replay', '--recording', put(f'{file}.{place}', data[:place]))
                lines = output.decode('ascii').splitlines()
                if (status, errors) != (0, '') or whole[:len(lines)] != lines:
                    return f'{file}, cut at {place} of {len(data)}: {status}, {errors!r}, another line {len(lines)}'
                return None

            return not faults_at(places_of(program, data), fault_of)

        return all([is_cut_well(file) for file in make_both(program, folder)])


def files_of(data):
    """What the file of a small recording has that was cut: the bytes of its WRITEs that are whole."""
    def has(text):
        return text + b'\n' in data or text.hex().encode() + b'\n' in data

    texts = [text for text in (b'text', b'more') if has(text)]
    return {'f': b''.join(texts)} if has('f'.encode('utf-16-le')) else {}


def those_that_are_cut_are_extracted(program):
    """Near each end of a line: what is whole is taken out, and it is said how much of a last line is left out."""
    with tempfile.TemporaryDirectory() as folder:
        def is_cut_well(word, file):
            data = bytes_of(file)
            ends = ends_of(lines_of(data))

            def fault_of(place):
                to, left = f'{file} to {place}', place - max(end for end in ends if end <= place)
                found = taken_out(program, put(f'{file}.{place}', data[:place]), to)
                files = bytes_in(tree_of(to))
                if (found, files) == ((0, cut_end('standard input', left, word, 'line')), files_of(data[:place])):
                    return None
                return f'{word}, cut at {place} of {len(data)}: {found}, {files}'

            near = {place for end in ends for place in (end - 1, end, end + 1, end + 17)}
            return not faults_at(sorted(place for place in near if ends[1] <= place <= len(data)), fault_of)

        record, journal = make_both(program, folder)
        return is_cut_well('record', record) and is_cut_well('journal', journal)


def a_journal_of_events_that_was_changed_is_found(program):
    """A byte of it anywhere behind the comments of its begin, but for the very last line feed; a line that is missing,
    but for the last one; and two that are swapped."""
    with tempfile.TemporaryDirectory() as folder:
        _, file = make_both(program, folder)
        data, chance = bytes_of(file), random.Random(SEED)
        lines, others = lines_of(data), {}
        for place in range(ends_of(lines)[1], len(data) - 1, apart(program)):
            byte = data[place] ^ chance.choice((1, 2, 4, 8, 16, 64, 128))
            others[f'byte {place}'] = data[:place] + bytes([byte]) + data[place + 1:]
        for i in range(2, len(lines) - 1):
            others[f'without line {i + 1}'] = b''.join(lines[:i] + lines[i + 1:])
            others[f'swapped at line {i + 1}'] = b''.join([*lines[:i], lines[i + 1], lines[i], *lines[i + 2:]])

        def fault_of(name):
            status, _, errors = program.ran('replay', '--recording', put(os.path.join(folder, name), others[name]))
            if status == 1 and re.fullmatch('journal: line [0-9]+: .+: take a back-up of it\n', errors):
                return None
            return f'{name} of {len(data)}: {status}, {errors!r}'

        return not faults_at(others, fault_of)


def what_is_no_recording_is_not_replayed(program):
    """A journal, and a text."""
    with tempfile.TemporaryDirectory() as folder:
        journal, text = os.path.join(folder, 'journal'), put(os.path.join(folder, 'text'), b'a text\n')
        begun(program, '--journal', journal)
        said = 'journal: no recording: its first line is not that of one; name a file that --record made\n'
        return not any([differs(program.ran('replay', '--recording', it), (1, b'', said), it)
                        for it in (journal, text)])


TESTS = (a_record_is_answered_again, a_login_is_answered_again, those_that_are_cut_are_answered_in_part,
         those_that_are_cut_are_extracted, a_journal_of_events_that_was_changed_is_found,
         what_is_no_recording_is_not_replayed)
