"""What `--log` writes of connections that are closed as they are accepted, and of addresses that wait behind wrong
passwords."""
import os
import re
import tempfile
import time

from tests.logging.served import fields_of, waits_for
from tests.smb import ntlm
from tests.smb.kept import killed

ONE, OTHER = '127.0.0.1', '127.0.0.2'
# How many lines of them there are in a second.
MOST = 10
NOT_OF_HOSTS = 'refused: not of --hosts'


def lines_of(file):
    """Connection, address and event of each line, behind the first one that says that it is started."""
    return [(line[1], line[2].rpartition(':')[0], line[4]) for line in fields_of(file)[1:]]


def who_is_kept_out_is_logged(program):
    """With the address, at the level that has least; connections are numbered as if it had not come."""
    with tempfile.TemporaryDirectory() as folder:
        file, clients = os.path.join(folder, 'log'), []
        words = ('--hosts', f'{ONE},{OTHER}', '--per-address', '1', '--log', file, '--log-level', 'sessions')
        with program.serve(*words) as share:
            for source in ('127.0.0.3', ONE, ONE, OTHER, OTHER):
                clients.append(share.client(source))
                waits_for(file, 1 + len(clients))
            killed(share)
        found = lines_of(file)
    wanted = [('-', '127.0.0.3', NOT_OF_HOSTS), ('1', ONE, 'opened'), ('-', ONE, 'refused: 1 connection of its address is open'),
              ('2', OTHER, 'opened'), ('-', OTHER, 'refused: 1 connection of its address is open')]
    if found != wanted:
        print(f'  {found}', flush=True)
    return found == wanted


def lines_have_a_limit(program, count=300):
    """Of many who are kept out few have a line; the next one tells how many had none."""
    with tempfile.TemporaryDirectory() as folder:
        file = os.path.join(folder, 'log')
        with program.serve('--hosts', OTHER, '--log', file) as share:
            begin = time.monotonic()
            if not all(share.client().is_ended() for _ in range(count)):
                return False
            seconds = time.monotonic() - begin
            time.sleep(1.1)
            before = len(lines_of(file))
            share.client().is_ended()
            waits_for(file, 2 + before)
            killed(share)
        events = [event for _, _, event in lines_of(file)]
    told = [int(it[1]) for it in (re.fullmatch(f'{NOT_OF_HOSTS}, and (\\d+) before it', event) for event in events) if it]
    is_right = (MOST <= before <= MOST * (seconds + 1) and len(events) == before + 1 and len(events) + sum(told) == count + 1
                and events[:MOST] == [NOT_OF_HOSTS] * MOST and events[-1].startswith(f'{NOT_OF_HOSTS}, and '))
    if not is_right:
        print(f'  {seconds:.1f} seconds, {before} lines, {events[MOST:]}', flush=True)
    return is_right


def without_the_words_nothing_is_kept_out(program):
    """The log of sixty of one address and one of another is as it was."""
    with tempfile.TemporaryDirectory() as folder:
        file = os.path.join(folder, 'log')
        with program.serve('--log', file) as share:
            clients = [share.client(source) for source in (ONE,) * 60 + (OTHER,)]
            waits_for(file, 1 + len(clients))
            killed(share)
        found = lines_of(file)
    return found == [(str(1 + i), OTHER if i == 60 else ONE, 'opened') for i in range(61)]


def who_is_kept_back_is_logged(program):
    """By the fifth wrong password and by the next, with the address, at the level that has least."""
    with tempfile.TemporaryDirectory() as folder:
        file, accounts = os.path.join(folder, 'log'), ntlm.accounts_file(folder, ntlm.account('ann'))
        words = ('--login', 'ntlm', '--accounts', accounts, '--log', file, '--log-level', 'sessions')
        with program.serve(*words) as share:
            for _ in range(6):
                ntlm.logs_in(share.client(OTHER), 'ann', bytes(16))
            waits_for(file, 1, b'\tkept back: ')
            killed(share)
        found = [line for line in lines_of(file) if line[2].startswith('kept back')]
    wanted = [('-', OTHER, 'kept back: 5 wrong passwords, for 1 second'),
              ('-', OTHER, 'kept back: 6 wrong passwords, for 2 seconds')]
    if found != wanted:
        print(f'  {found}', flush=True)
    return found == wanted


TESTS = (who_is_kept_out_is_logged, lines_have_a_limit, without_the_words_nothing_is_kept_out,
         who_is_kept_back_is_logged)
