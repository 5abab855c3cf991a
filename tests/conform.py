"""The tester of other servers: the program beside itself is equal, what differs is found and told, and wrong servers
are named as what they are."""
import json
import os
import re
import tempfile

from conform.tables import TABLES, chance, stored
from tests import conform_reports, conform_servers
from tests.conform_runs import WRITE, names_at_the_top, other_status, ran, served
from tests.smb import ntlm
from tests.smb.between import Between, command_of, status_of
from tests.smb.rows import Rows

# Of each table each so many-th script is played, by an unproved program fewer; and so many by chance, of a seed.
EVERY, SEED, BY_CHANCE = (5, 35), '1', ('500', '40')


def the_program_is_equal_to_itself(program):
    """A part of each table, and scripts by chance: no script differs, all tables are told, and nothing is left."""
    every, count = EVERY[program.is_unproved], BY_CHANCE[program.is_unproved]
    with served(program) as share:
        status, output, errors = ran(program, share.port, '--every', str(every), '--seed', SEED, '--scripts', count)
        counts = re.search(r'scripts: (\S+) were played, (\S+) are equal, 0 differ', output)
        print(f'  {" ".join(output.splitlines()[1:3])}', flush=True)
        return ((status, errors) == (0, '') and counts and counts[1] == counts[2]
                and all(f'  {table}: ' in output for table in (*TABLES, 'random')) and not names_at_the_top(share))


def a_dialect_is_chosen(program):
    """In dialect 2.0.2 alone the rows of that dialect are played, and none is left out but for its own sake."""
    with served(program) as share:
        status, output, _ = ran(program, share.port, '--only', 'rows', '--every', '10', '--dialect', '2.0.2')
        return status == 0 and 'dialect 0x0202' in output and 'does not speak' not in output


def each_row_is_played_or_left_out_for_a_reason(_):
    """Most rows of a share that a client can meet are played; the reason of each other is known."""
    played, left_out = stored.scripts(), stored.left_out()
    print(f'  {len(played)} rows can be played, {sum(left_out.values())} can not', flush=True)
    elsewhere = left_out['of a text, not of a share'] + left_out['of another configuration']
    return (len(played) >= 120 and len(played) + sum(left_out.values()) == len(Rows().lines)
            and left_out['the connection is ended'] >= 25 and sum(left_out.values()) < 257
            and sum(left_out.values()) - elsewhere < 87)


def rows_are_answered_as_they_are_stored(program):
    """In a directory of its own nearly each row that is played has the statuses that it is stored with."""
    words = ('--only', 'rows', *(('--every', '4') if program.is_unproved else ()))
    with served(program) as share:
        status, output, _ = ran(program, share.port, *words)
        other = re.search(r'not played: (\d+) of rows: in a directory of its own it is another row', output)
        return status == 0 and 'rows: ' in output and int(other[1] if other else 0) <= 10


def an_account_logs_in(program):
    """By its password, and by no other; the report is written as JSON too."""
    with tempfile.TemporaryDirectory() as folder:
        accounts = ntlm.accounts_file(folder, ntlm.account('ann'))
        right, wrong, report = (os.path.join(folder, name) for name in ('right', 'wrong', 'report'))
        for name, password in ((right, 'Password\n'), (wrong, 'password\n')):
            with open(name, 'w', encoding='ascii') as file:
                file.write(password)
        words = ('--only', 'dispositions', '--every', '100', '--user', 'ann')
        with served(program, '--accounts', accounts) as share:
            comes = ran(program, share.port, *words, '--password-file', right, '--json', report)
            stays = ran(program, share.port, *words, '--password-file', wrong)
            at = f'conform: 127.0.0.1:{share.port}'
        with open(report, encoding='utf-8') as file:
            told = json.load(file)
        return (comes[0] == 0 and told['user'] == 'ann' and told['scripts'] == told['equal scripts'] == 3
                and stays == (2, '', f'{at}: it does not let in ann: STATUS_LOGON_FAILURE\n'))


def another_status_is_found(program):
    """A server that answers ACCESS_DENIED for SHARING_VIOLATION: its row comes first, with the first script that shows
    it."""
    with served(program) as share, Between(share.port, other_status) as server:
        status, output, errors = ran(program, server.port, '--only', 'sharing', '--every', '211')
        told = output.split('\n\n')[1].splitlines()
        return ((status, errors) == (1, '')
                and re.fullmatch(r'C15, it has an open .* \(\[MS-SMB2\] 3\.3\.5\.9\): \d+ differ', told[0])
                and re.fullmatch(r'  \d+ differ in a CREATE: Status: wanted STATUS_SHARING_VIOLATION, found '
                                 r'STATUS_ACCESS_DENIED \(sharing \d+\)', told[1])
                and told[2] == '    the shortest: sharing/READ_DATA.---+READ_DATA.---'
                and re.search(r'found:  response CREATE .*Status=ACCESS_DENIED', output)
                and not names_at_the_top(share))


def one_field_that_differs_is_found(program):
    """A server whose answers to WRITE count a byte less."""
    def counts_less(frame):
        return frame[:72] + b'\1' + frame[73:] if command_of(frame) == WRITE and status_of(frame) == 0 else frame

    with served(program) as share, Between(share.port, counts_less) as server:
        status, output, _ = ran(program, server.port, '--only', 'locks', '--every', '100')
        return status == 1 and '2 differ in a WRITE: Count: wanted 40, found 1 (locks 2)' in output


def a_seed_gives_the_same_scripts(_):
    """Script i of a seed is always the same, and no other's."""
    scripts = list(chance.scripts(7, 20))
    return (scripts == list(chance.scripts(7, 30))[:20] and scripts[3] == chance.script('7.3')
            and len({it.steps for it in (*scripts, *chance.scripts(8, 20))}) == 40)


def a_script_by_chance_is_made_short(program):
    """Of a script that was made by chance those steps are left that show what differs: two CREATEs, what is there."""
    with served(program) as share, Between(share.port, other_status) as server:
        status, output, errors = ran(program, server.port, '--only', 'random', '--seed', '1', '--scripts', '40')
        told = re.search(r'the shortest: random/1\.\d+\n((?:      \d.*\n)+)', output)
        steps = told[1].splitlines()
        return ((status, errors) == (1, '') and len(steps) <= 3 and 'CREATE' in steps[-1]
                and not names_at_the_top(share))


TESTS = (
    the_program_is_equal_to_itself, a_dialect_is_chosen, each_row_is_played_or_left_out_for_a_reason,
    rows_are_answered_as_they_are_stored, an_account_logs_in, another_status_is_found, one_field_that_differs_is_found,
    a_seed_gives_the_same_scripts, a_script_by_chance_is_made_short, *conform_reports.TESTS, *conform_servers.TESTS,
)


def tests(words):
    return [(test, words.program) for test in TESTS]
