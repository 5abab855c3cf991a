"""What the program does where its memory runs out, or is little.

For some command lines tests/c/refuse_allocation.c refuses the first allocation that the program makes, then the second,
and so on until a run makes fewer.
"""
import os
import resource
import tempfile
from concurrent.futures import ThreadPoolExecutor

from tests.smb.frames import frame
from tests.smb.preload import built
from tests.smb.program import TOP
from tests.words.program import BY_NTLM, NOT_TEXT, accounts_file, ran
from tests.words.refusals import ACCOUNTS, NEGOTIATE

MOST_ALLOCATIONS = 10_000
NO_MEMORY = (3, b'no memory\n')


def ran_by(program, words, given, accounts, **how):
    """What a run gave; with accounts it runs in a folder of its own, where accounts.toml has them, and what is in the folder
    then is given too."""
    if accounts is None:
        return ran(program, words, given, **how)
    with tempfile.TemporaryDirectory() as folder:
        laid(folder, accounts)
        found = ran(program, words, given, cwd=folder, **how)
        return (*found, contents(folder))


def laid(folder, accounts):
    with open(os.open(os.path.join(folder, 'accounts.toml'), os.O_WRONLY | os.O_CREAT, 0o600), 'w', encoding='utf-8') as file:
        file.write(accounts)


def contents(folder):
    """The text of each file of a folder."""
    found = {}
    for name in os.listdir(folder):
        with open(os.path.join(folder, name), encoding='utf-8') as file:
            found[name] = file.read()
    return found


def ran_without(program, library, number, words, given, accounts):
    """What a run gave, and whether the allocation of this number was refused in it."""
    with tempfile.TemporaryDirectory() as folder:
        mark = os.path.join(folder, 'refused')
        system = {**os.environ, 'LD_PRELOAD': library, 'REFUSE': str(number), 'REFUSED': mark}
        return ran_by(program, words, given, accounts, env=system), os.path.exists(mark)


def ends_without_memory(program, *words, given=b'', accounts=None):
    """Whether a run in which memory is refused ends for want of it, in at least one place, or as if there had been
    enough; with accounts, whose file is then as it was. Several are tried at a time."""
    enough, ended, at_once = ran_by(program, words, given, accounts), 0, 4 * os.cpu_count()
    as_it_was = () if accounts is None else ({'accounts.toml': accounts},)
    with built('refuse_allocation') as library, ThreadPoolExecutor(os.cpu_count()) as pool:
        for first in range(1, MOST_ALLOCATIONS, at_once):
            numbers = range(first, first + at_once)
            tried = pool.map(lambda number: ran_without(program, library, number, words, given, accounts), numbers)
            for number, (found, was_refused) in zip(numbers, tried):
                if not was_refused:
                    return ended > 0
                is_end = found[:3:2] == NO_MEMORY and found[3:] == as_it_was
                ended += is_end
                if not is_end and found != enough:
                    print(f'  refusal {number}: {found}')
                    return False
    return False


def help_ends_without_memory(program):
    return ends_without_memory(program, '--help') and ends_without_memory(program, 'serve', '--help')


def version_ends_without_memory(program):
    return ends_without_memory(program, '--version')


def wrong_words_end_without_memory(program):
    return all(ends_without_memory(program, *words) for words in (('other',), ('serve', '--turns', 'x'), (NOT_TEXT,)))


def replay_ends_without_memory(program):
    return ends_without_memory(program, 'replay', '--config', os.path.join(TOP, 'share.toml'), given=b'+ 1\n- 1\n')


def replay_by_ntlm_ends_without_memory(program):
    with accounts_file(ACCOUNTS.encode()) as name:
        return ends_without_memory(program, *BY_NTLM, '--accounts', name, given=b'+ 1\n- 1\n')


def check_ends_without_memory(program):
    with accounts_file(ACCOUNTS.encode()) as name:
        return ends_without_memory(program, 'check', '--login', 'ntlm', '--accounts', name)


def nt_hash_ends_without_memory(program):
    return ends_without_memory(program, 'nt-hash', given=b'Password')


def account_ends_without_memory(program):
    """The file is then as it was, and nothing beside it."""
    return all(ends_without_memory(program, 'account', action, 'accounts.toml', *words, given=b'Password', accounts=ACCOUNTS)
               for action, *words in (('add', 'eve', '--readonly'), ('password', 'ann'), ('remove', 'ann'), ('list',),
                                      ('add', 'guest')))


def show_ends_without_memory(program):
    return ends_without_memory(program, 'show', given=b'00000044fe534d42')


def fields_end_without_memory(program):
    return ends_without_memory(program, 'show', '--fields', given=frame(NEGOTIATE).hex().encode())


def replay_takes_a_small_multiple_of_its_text(program):
    """A text of 8 MiB is replayed where the program may have 64 MiB; with all events read first it took 120."""
    def limit():
        resource.setrlimit(resource.RLIMIT_AS, (64 << 20, 64 << 20))
    return ran(program, ('replay',), b'+ 1\n' + b'- 1\n' * (2 << 20), preexec_fn=limit) == (0, b'', b'')


TESTS = (
    help_ends_without_memory, version_ends_without_memory, wrong_words_end_without_memory,
    replay_ends_without_memory, replay_by_ntlm_ends_without_memory, check_ends_without_memory, nt_hash_ends_without_memory,
    account_ends_without_memory,
    show_ends_without_memory, fields_end_without_memory,
    replay_takes_a_small_multiple_of_its_text,
)
