"""What `--log` writes of a share that is served: who came, what was refused, and why a client ended."""
import os
import re
import tempfile
import time

from tests.logging.replayed import a_recording_is_logged_as_it_was_served, uses_up_turns
from tests.smb import ntlm
from tests.smb.client import ALL_ACCESS, LONGEST_PIECE, OPEN_IF
from tests.smb.frames import close, create, read, rename, write
from tests.smb.kept import Looking, bytes_in, bytes_of, extracted, keeping, killed, tree_of
from tests.smb.program import GUEST
from tests.smb.working import CREATE, OPEN

FIELDS = ['moment', 'connection', 'peer', 'user', 'event', 'status', 'microseconds']
# A name that would make a line, fields, and a command to a terminal, and how it is written.
HOSTILE = 'a\n2026\t1\x1b[2J\u202e\u2028'
ESCAPED = r'a\u{A}2026\u{9}1\u{1B}[2J\u{202E}\u{2028}'
# How long a line may take to be there.
PATIENCE = 10


def fields_of(file):
    """The fields of each line of a log, behind the first line; each has as many as that."""
    lines = [line.split('\t') for line in bytes_of(file).decode().splitlines()]
    if lines[:1] != [FIELDS] or any(len(line) != len(FIELDS) for line in lines):
        raise AssertionError(f'lines of other fields: {lines}')
    return lines[1:]


def events_of(file):
    """User, event and status of each line, and why a request was refused, where that is said."""
    whys = [re.search(r'^\d+ why="(.*)"$', line[6]) for line in fields_of(file)]
    return [(*line[3:6], why[1]) if why else tuple(line[3:6]) for line, why in zip(fields_of(file), whys)]


def waits_for(file, count, what=b'\n'):
    """Waits until a log has this more than so many times."""
    end = time.monotonic() + PATIENCE
    while bytes_of(file).count(what) <= count and time.monotonic() < end:
        time.sleep(0.01)


def works(share):
    """Makes a file, renames it, reads it and behind its end, and asks for two that can't be had. Gives the client."""
    client = Looking(share).comes_in()
    number = client.opens('june.txt', ALL_ACCESS, CREATE)
    client.asks(write(client.next_id(), number, 0, b'secret bytes', client.session, 1), 0, None)
    client.asks(rename(client.next_id(), number, 'july.txt', client.session, 1), 0, None)
    client.asks(read(client.next_id(), number, 0, 100, client.session, 1), 0, None)
    client.any_status(read(client.next_id(), number, 100, 1, client.session, 1))
    client.asks(close(client.next_id(), number, client.session, 1), 0, None)
    client.any_status(create(client.next_id(), 'none', ALL_ACCESS, OPEN, 0, client.session, 1))
    client.any_status(create(client.next_id(), HOSTILE, ALL_ACCESS, OPEN, 0, client.session, 1))
    return client


def logged(program, *words):
    """The events of a log of that work, by the first words of each, and all bytes of the log."""
    with tempfile.TemporaryDirectory() as folder:
        file = os.path.join(folder, 'log')
        with keeping(program, '--log', file, *words) as share:
            client = works(share)
            client.client.end()
            waits_for(file, 0, b'\tended: ')
            time.sleep(0.5)
            killed(share)
        if os.stat(file).st_mode & 0o777 != 0o600:
            raise AssertionError('others may read the log')
        return events_of(file), bytes_of(file)


GOES = b'\tended: by the client\t'
STARTED = ('-', 'started', '-')
REFUSED = [('guest', r'CREATE none OPEN access=read,write', 'STATUS_OBJECT_NAME_NOT_FOUND',
            'C9 the entry is absent, and has to exist'),
           ('guest', f'CREATE {ESCAPED} OPEN access=read,write', 'STATUS_OBJECT_NAME_INVALID',
            'C5 the name has a component that is not allowed, or more than 32')]


def is_like(found, wanted):
    """Whether the events are these, with their reasons, where an event may go on behind what is wanted of it."""
    if len(found) == len(wanted) and all(one[0] == other[0] and one[1].startswith(other[1]) and one[2] == other[2]
                                         and one[3:] == other[3:] for one, other in zip(found, wanted)):
        return True
    print(f'  {found}', flush=True)
    return False


def refusals_are_logged(program):
    """Where nothing else is asked for: who came, came in and went, and what was refused and why, in one line each; the end of a
    file is no refusal."""
    found, data = logged(program)
    return b'secret' not in data and is_like(
        found, [STARTED, ('-', 'opened', '-'), ('guest', 'SESSION_SETUP', 'STATUS_SUCCESS'), *REFUSED,
                ('guest', 'ended: by the client', '-')])


def sessions_are_logged(program):
    found, _ = logged(program, '--log-level', 'sessions')
    return is_like(found, [STARTED, ('-', 'opened', '-'), ('guest', 'SESSION_SETUP', 'STATUS_SUCCESS'),
                           ('guest', 'TREE_CONNECT \\\\s\\data', 'STATUS_SUCCESS'),
                           ('guest', 'ended: by the client', '-')])


def requests_are_logged(program):
    found, data = logged(program, '--log-level', 'requests')
    done = 'STATUS_SUCCESS'
    return b'secret' not in data and is_like(found, [
        STARTED, ('-', 'opened', '-'), ('-', 'NEGOTIATE ', done), ('guest', 'SESSION_SETUP', done),
        ('guest', 'TREE_CONNECT ', done), ('guest', 'CREATE june.txt CREATE access=read,write', done),
        ('guest', 'WRITE june.txt offset=0 length=12', done),
        ('guest', 'SET_INFO june.txt rename to july.txt', done), ('guest', 'READ july.txt offset=0 length=100', done),
        ('guest', 'READ july.txt offset=100 length=1', 'STATUS_END_OF_FILE'), ('guest', 'CLOSE july.txt', done), *REFUSED, ('guest', 'ended: by the client', '-')])


# Who logs in by a wrong password, the name as it is logged, and why he is denied.
DENIED = (('ann', 'ann', "LG8 the account's proof is wrong, or that of NTLM version 1"),
          ('bob', 'bob', 'LG10 no such account, and guests may not come in'),
          ('b\n\t"\\u{9}', r'b\u{A}\u{9}"\u{5C}u{9}', 'LG10 no such account, and guests may not come in'))


def denied_logins_are_logged(program):
    """By NTLM, with why and the name that was typed; no proof and no hash is in it."""
    with tempfile.TemporaryDirectory() as folder:
        file, accounts = os.path.join(folder, 'log'), ntlm.accounts_file(folder, ntlm.account('ann'))
        with program.serve('--login', 'ntlm', '--accounts', accounts, '--log', file) as share:
            for user, _, _ in DENIED:
                ntlm.logs_in(share.client(), user, bytes(16))
            waits_for(file, len(DENIED) - 1, b'LOGON_FAILURE')
        found = [(it[1], *it[3:]) for it in events_of(file) if it[2] == 'STATUS_LOGON_FAILURE']
    if found != [(f'SESSION_SETUP name={name}', why) for _, name, why in DENIED]:
        print(f'  {found}', flush=True)
        return False
    return True


def why_a_client_ended_is_logged(program):
    """One that speaks HTTP, one that says nothing, and one that is the 65th."""
    with tempfile.TemporaryDirectory() as folder:
        file = os.path.join(folder, 'log')
        with keeping(program, '--log', file, '--idle-new', '1') as share:
            share.client().send(b'GET / HTTP/1.0\r\n\r\n').is_ended()
            share.client().is_ended()
            clients = [share.client() for _ in range(64)]
            if not all(client.negotiates() for client in clients):
                return False
            share.client().is_ended()
            waits_for(file, 70)
            killed(share)
        found = [it[1] for it in events_of(file)]
    no_frame = "ended: by the share, F1 a frame's first byte is not 0"
    return (found[:5] == ['started', 'opened', no_frame, 'opened', 'ended: silence']
            and found[5:69] == ['opened'] * 64 and found[69] == 'refused: 64 connections are open')


def a_client_past_a_limit_is_logged(program):
    """Where a configuration lets two be connected, the third."""
    with tempfile.TemporaryDirectory() as folder:
        file, config = (os.path.join(folder, name) for name in ('log', 'config'))
        with open(GUEST, 'rb') as guests, open(config, 'wb') as limited:
            limited.write(guests.read() + b'[limits]\nconnections = 2\n')
        with program.serve('--config', config, '--log', file) as share:
            clients = [share.client() for _ in range(2)]
            if not all(client.negotiates() for client in clients):
                return False
            share.client().is_ended()
            waits_for(file, 4)
            killed(share)
        return [it[1] for it in events_of(file)] == ['started', 'opened', 'opened', 'refused: 2 connections are open']


def asks_for_much(share, count=240):
    """Asks for 15.7 MB at once, and takes none of it. Gives the client."""
    client = Looking(share).comes_in()
    number = client.opens('much', ALL_ACCESS, OPEN_IF)
    client.asks(write(client.next_id(), number, 0, bytes(LONGEST_PIECE), client.session, 1), 0, None)
    frames = [read(client.next_id(), number, 0, LONGEST_PIECE, client.session, 1) for _ in range(count)]
    client.client.send(b''.join(frames))
    return client


def who_is_owed_most_is_logged(program):
    """Of four who take none of their answers, where all together may be owed 33,554,432 bytes."""
    with tempfile.TemporaryDirectory() as folder:
        file = os.path.join(folder, 'log')
        with keeping(program, '--log', file, '--owed', '33554432') as share:
            clients = [asks_for_much(share) for _ in range(4)]
            waits_for(file, 0, b'ended: ')
            killed(share)
        found = [it[1] for it in events_of(file)]
        return len(clients) == 4 and found.count('ended: owed most, and all together too much') > 0


def a_full_disk_stops_no_share(program):
    """It is said once; with --log-must the server ends."""
    with tempfile.TemporaryDirectory() as folder:
        file = os.path.join(folder, 'log')
        with keeping(program, '--log', file, '--log-level', 'requests', longest=400) as share:
            works(share)
            is_served = Looking(share).comes_in() is not None
            share.process.kill()
            said = share.process.stderr.read().decode()
        os.remove(file)
        with keeping(program, '--log', file, '--log-must', longest=200) as share:
            client = share.client()
            client.send(b'no request')
            _, errors = share.process.communicate(timeout=PATIENCE)
            status = share.process.returncode
        counts = said.count('log: failed\n'), errors.decode().count('log: failed\n')
        return is_served and counts == (1, 1) and status == 1


def comes_and_goes(share, file):
    """A client comes in and goes, a second after the last line, and its last line is waited for. Gives the events of a log, those of
    requests by their command."""
    time.sleep(1.1)
    before = bytes_of(file).count(GOES) if os.path.isfile(file) else 0
    Looking(share).comes_in().client.end()
    end = time.monotonic() + PATIENCE
    while not (os.path.isfile(file) and bytes_of(file).count(GOES) > before) and time.monotonic() < end:
        time.sleep(0.01)
    events = [line.split('\t')[4] for line in bytes_of(file).decode().splitlines()]
    return [event.split(' ')[0] if event[:1].isupper() else event for event in events]


def a_log_follows_its_name(program):
    """Who moves or removes the file finds later lines in a new one of its name, of mode 600. Where a directory has the name lines
    go on in the file that was moved, until the name is free."""
    visit = ['opened', 'SESSION_SETUP', 'ended: by the client']
    with tempfile.TemporaryDirectory() as folder:
        file, *moved = (os.path.join(folder, name) for name in ('log', 'log.1', 'log.2'))
        with keeping(program, '--log', file) as share:
            first = comes_and_goes(share, file)
            os.rename(file, moved[0])
            kept, second = bytes_of(moved[0]), comes_and_goes(share, file)
            os.remove(file)
            third, mode = comes_and_goes(share, file), os.stat(file).st_mode & 0o777
            os.rename(file, moved[1])
            os.mkdir(file)
            fourth = comes_and_goes(share, moved[1])
            os.rmdir(file)
            fifth = comes_and_goes(share, file)
            killed(share)
        is_kept = bytes_of(moved[0]) == kept
    found = (first, second, third, fourth, fifth)
    if found != (['event', 'started', *visit], visit, visit, visit + visit, visit) or mode != 0o600 or not is_kept:
        print(f'  {found}, {mode:o}, {is_kept}', flush=True)
        return False
    return True


def one_that_cannot_be_made_is_refused(program):
    with tempfile.TemporaryDirectory() as folder:
        absent = os.path.join(folder, 'absent', 'log')
        words = ['serve', '--listen', '127.0.0.1:0', '--turns', '1', '--config', GUEST]
        wrong = (('--log', absent), ('--log-must',), ('--log-level', 'refusals'))
        found = [program.ran(*words, *more) for more in wrong]
    print(f'  {found[0][2]!r}', flush=True)
    return (found[0][0] == 1 and found[0][2].startswith('log: cannot be written: ')
            and all(status == 2 and '--log-level and --log-must are only taken with --log' in errors
                    for status, _, errors in found[1:]))


def standard_error_has_the_lines(program):
    """With `-`, behind where it listens."""
    with keeping(program, '--log', '-') as share:
        works(share).client.end()
        time.sleep(1)
        share.process.kill()
        lines = share.process.stderr.read().decode().splitlines()
    return lines[-1].split('\t')[4] == 'ended: by the client' and sum('\tCREATE ' in line for line in lines) == 2


def a_share_is_logged_and_kept(program):
    """What is kept is what is kept without a log, and a last line counts it."""
    with tempfile.TemporaryDirectory() as folder:
        file, journal = os.path.join(folder, 'log'), os.path.join(folder, 'journal')
        with keeping(program, '--log', file, '--journal', journal, '--turns', '40', '--idle', '1') as share:
            works(share).client.end()
            uses_up_turns(share)
            share.process.wait(timeout=60)
        to = os.path.join(folder, 'to')
        files = extracted(program, journal, to) == (0, '') and bytes_in(tree_of(to))
        last, stopped = (event for _, event, _ in events_of(file)[-2:])
        if files != {'july.txt': b'secret bytes'} or ' files=1 used_bytes=4096' not in last:
            print(f'  {files}, {last!r}', flush=True)
            return False
        return last.startswith('minute connections=') and stopped == 'stopped'


def a_pipe_that_is_closed_stops_no_share(program):
    """A log whose reader is gone: the share is served on."""
    with tempfile.TemporaryDirectory() as folder:
        pipe = os.path.join(folder, 'log')
        os.mkfifo(pipe)
        holder = os.open(pipe, os.O_RDWR)
        with keeping(program, '--log', pipe) as share:
            os.close(holder)
            works(share)
            return Looking(share).comes_in() is not None


def a_replay_of_a_record_is_logged_too(program):
    return a_recording_is_logged_as_it_was_served(program, works)


TESTS = (refusals_are_logged, sessions_are_logged, requests_are_logged, denied_logins_are_logged, why_a_client_ended_is_logged,
         a_client_past_a_limit_is_logged, who_is_owed_most_is_logged,
         a_full_disk_stops_no_share, a_log_follows_its_name, one_that_cannot_be_made_is_refused, standard_error_has_the_lines,
         a_share_is_logged_and_kept, a_pipe_that_is_closed_stops_no_share, a_replay_of_a_record_is_logged_too)
