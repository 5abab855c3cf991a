"""Times the proved program on logins by NTLM beside logins by a token.

A set-up is a connection that opens, negotiates, logs in, connects to the share and ends: three requests by a token,
four by NTLM. Of the accounts it is the last that logs in, since they are looked through in order. In a replay the
program alone is timed; the proofs of passwords are made before. Over TCP the script's own time is a part of each
figure, also that in which it makes a proof.
"""
import hashlib
import struct
import sys
import tempfile
import time

from bench.runs import Replays, piece, succeeds
from tests.smb import ntlm
from tests.smb.frames import negotiate, session_setup, tree_connect
from tests.smb.program import GUEST, Program

SEED = bytes(range(16))
NT_HASH = bytes.fromhex(ntlm.PASSWORD_HASH)


def challenge_of(session):
    """The challenge of a session under the seed."""
    return hashlib.md5(SEED + struct.pack('<Q', session)).digest()[:8]


def login_of(user, session):
    """The last message of a user's login; a guest's where none is named."""
    if user is None:
        return ntlm.authenticate('somebody')
    return ntlm.authenticate(user, ntlm.response_to(challenge_of(session), user, NT_HASH))


def write_by_token(path, count, _user):
    """A replay of so many set-ups by a token."""
    with open(path, 'w') as text:
        for number in range(1, count + 1):
            text.write(f'+ {number}\n')
            piece(text, number, negotiate())
            piece(text, number, session_setup(1))
            piece(text, number, tree_connect(2, number))
            text.write(f'- {number}\n')


def write_by_ntlm(path, count, user):
    """A replay of so many set-ups by NTLM."""
    with open(path, 'w') as text:
        for number in range(1, count + 1):
            text.write(f'+ {number}\n')
            piece(text, number, negotiate())
            piece(text, number, session_setup(1, ntlm.NEGOTIATE))
            piece(text, number, session_setup(2, login_of(user, number), number))
            piece(text, number, tree_connect(3, number))
            text.write(f'- {number}\n')


def accounts_file(folder, count):
    """The name of a file of so many accounts."""
    return ntlm.accounts_file(folder, ''.join(ntlm.account(f'user{i}') for i in range(count)))


def words_of(folder, accounts):
    """The words of a share to which these accounts, and guests, log in by NTLM; by a token where there are none."""
    if accounts is None:
        return []
    named = ['--accounts', accounts_file(folder, accounts)] if accounts else ['--config', GUEST]
    return ['--login', 'ntlm', '--seed', SEED.hex(), *named]


def seconds_in_a_replay(program, words, user, count):
    """How long a replay of so many set-ups takes."""
    write = write_by_ntlm if words else write_by_token
    return Replays(program.path, 'replay', *words).replayed(write, (count, user), succeeds, 3 * count)[0]


def sets_up(client, user, number):
    """Whether a client is set up, by NTLM where it is a user or a guest, else by a token."""
    if user == 'token':
        return (client.negotiates() and client.asks(session_setup(1)) == 0
                and client.asks(tree_connect(2, number)) == 0)
    nt_hash = None if user is None else NT_HASH
    return (ntlm.comes_in(client, user or 'somebody', nt_hash)
            and client.asks(tree_connect(3, number)) == 0)


def seconds_over_tcp(program, words, user, count):
    """How long so many set-ups take, one after the other."""
    with program.serve(*words) as share:
        start = time.perf_counter()
        for number in range(1, count + 1):
            client = share.client()
            if not sets_up(client, user, number):
                raise AssertionError('a client is not served')
            client.reset()
        return time.perf_counter() - start


# What a login is, how many accounts there are (none for a token), and who logs in.
LOGINS = (
    ('by a token', None, 'token'),
    ('by NTLM, a guest', 0, None),
    ('by NTLM, the only account', 1, 'user0'),
    ('by NTLM, the last of 1,000 accounts', 1_000, 'user999'),
)


def measure(program, where, seconds_for, count):
    for name, accounts, user in LOGINS:
        with tempfile.TemporaryDirectory() as folder:
            took = seconds_for(program, words_of(folder, accounts), user, count)
        each = took / count * 1e6
        print(f'| {where} | {name} | {count:,} | {took:.2f} | {each:.1f} | {count / took:,.0f} |', flush=True)


def main(program):
    print('| where | login | set-ups | seconds | microseconds a set-up | a second |')
    print('|---|---|---|---|---|---|')
    measure(program, 'replay', seconds_in_a_replay, 20_000)
    measure(program, 'TCP', seconds_over_tcp, 5_000)


if __name__ == '__main__':
    main(Program(*sys.argv[1:2]))
