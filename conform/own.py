"""The project's own program, which is served beside the server under test."""
import os

from conform.login import GUEST, Server
from tests.run import UNPROVED
from tests.smb import ntlm
from tests.smb.program import GUEST as GUESTS, PROVED, Program

SHARE, NAME = 'data', 'the project\'s own program'


def program_at(path=None):
    """The program of a path; else the proved one where it is there, or the unproved one; none where neither is."""
    found = path or next((it for it in (PROVED, UNPROVED) if os.access(it, os.X_OK)), None)
    if found is None or not os.access(found, os.X_OK) or os.path.isdir(found):
        return None
    return Program(found, is_unproved=True)


def hash_of(program, password):
    """The NT hash of a password in UTF-8, as the program makes it; none where it takes none of it."""
    status, output, _ = program.run('nt-hash', given=password)
    return bytes.fromhex(output.decode('ascii')) if status == 0 else None


def log_in(folder):
    """The log of a program that serves with this folder."""
    return os.path.join(folder, 'log')


def serves(program, folder, user, nt_hash):
    """The program, serving guests, and the user of an account where it is not a guest who logs in; it logs what it
    refuses."""
    words = ('--config', GUESTS, '--login', 'ntlm', '--log', log_in(folder), '--log-level', 'refusals')
    if user != GUEST:
        words += ('--accounts', ntlm.accounts_file(folder, ntlm.account(user, nt_hash.hex())))
    return program.serve(*words)


def server_of(share, user, nt_hash):
    """Where it is served, to be logged in to by the same user."""
    return Server(NAME, '127.0.0.1', share.port, SHARE, user, nt_hash, share.patience)
