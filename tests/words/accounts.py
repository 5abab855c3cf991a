"""The command `account`: what it makes of a file of accounts, what it refuses, and that a fault leaves the file as it was."""
import contextlib
import fcntl
import os
import pty
import signal
import stat
import subprocess
import tempfile
import time

from tests.smb.ntlm import PASSWORD_HASH as HASH
from tests.smb.program import TOP

OTHER = 'a' * 32
ASKS = os.path.join(TOP, 'tools', 'smbshare-account')
FIRST = f"""# who may log in, and why

  [[account]]   # of the office
name = "ann"
  "nt_hash" = '{OTHER.upper()}'  # from last year

# may not write
[[account]]
nt_hash = "{OTHER}"
# a comment within
readonly = true
name = "bob"
# the end
"""
ANN = FIRST.partition('\n  [[')[0] + '\n# may not write' + FIRST.partition('# may not write')[2]
ADDED = f'\n[[account]]\nname = "Eve \\"E\\" \\\\"\nnt_hash = "{HASH}"\n'
EVE = 'Eve "E" \\'
NOT_TEXT = b'\xff'


class Folder:
    """A folder with a file of accounts, or without, and the program."""

    def __init__(self, program, folder):
        self.program, self.folder, self.path = program, folder, os.path.join(folder, 'accounts.toml')

    def put(self, text, mode=0o600):
        with open(self.path, 'wb') as file:
            file.write(text.encode())
        os.chmod(self.path, mode)

    def text(self):
        with open(self.path, 'rb') as file:
            return file.read().decode()

    def names(self):
        return sorted(os.listdir(self.folder))

    def run(self, action, *words, given=b'Password\n', **how):
        return self.program.ran('account', action, self.path, *words, given=given, **how)

    def refuses(self, said, action, *words, **how):
        """Whether it is refused in one line that has this in it, with the file and the folder as they were."""
        before = self.names(), self.text() if os.path.exists(self.path) else None
        status, output, errors = self.run(action, *words, **how)
        after = self.names(), self.text() if os.path.exists(self.path) else None
        if (status, output, errors.count('\n')) != (1, b'', 1) or said not in errors or before != after:
            print(f'  {action} {words}: {status}, {errors!r}, {before != after}')
            return False
        return HASH not in errors and OTHER not in errors


@contextlib.contextmanager
def folder_of(program, text=None, mode=0o600):
    with tempfile.TemporaryDirectory() as folder:
        it = Folder(program, folder)
        if text is not None:
            it.put(text, mode)
        yield it


def an_account_is_added_at_the_end(program):
    with folder_of(program, FIRST) as it:
        found = it.run('add', EVE), it.text(), it.names(), stat.S_IMODE(os.stat(it.path).st_mode)
        return found == ((0, b'', ''), FIRST + ADDED, ['accounts.toml'], 0o600)


def a_file_is_made_by_add_alone(program):
    with folder_of(program) as it:
        wrong = all(it.refuses('no such file: `account add` makes it', *words)
                    for words in (('remove', 'ann'), ('password', 'ann'), ('list',)))
        made = it.run('add', 'ann', '--readonly')
        text = f'[[account]]\nname = "ann"\nnt_hash = "{HASH}"\nreadonly = true\n'
        return wrong and (made, it.text()) == ((0, b'', ''), text) and stat.S_IMODE(os.stat(it.path).st_mode) == 0o600


def an_account_is_taken_away_with_its_lines(program):
    """What was added goes without a trace."""
    with folder_of(program, FIRST) as it:
        added = it.run('add', EVE)[0], it.run('remove', EVE.upper())[0], it.text()
        return added == (0, 0, FIRST) and it.run('remove', 'ANN')[0] == 0 and it.text() == ANN


def a_password_changes_its_digits_alone(program):
    with folder_of(program, FIRST) as it:
        ann = it.run('password', 'Ann')[0], it.text()
        bob = it.run('password', 'bob')[0], it.text()
        first = FIRST.replace(OTHER.upper(), HASH)
        return ann == (0, first) and bob == (0, first.replace(OTHER, HASH))


def accounts_are_listed(program):
    with folder_of(program, FIRST) as it:
        it.run('add', EVE)
        listed = it.run('list', given=b'')
        with open('/dev/full', 'wb') as full:
            failed = it.program.ran('account', 'list', it.path, stdout=full)
        it.put('')
        return (listed == (0, f'ann\nbob, to read only\n{EVE}\n'.encode(), '') and it.run('list') == (0, b'', '')
                and failed[::2] == (1, 'output: failed\n'))


def who_is_added_logs_in(program):
    """What is written is what `check` reads."""
    with folder_of(program) as it:
        it.run('add', 'ann')
        found = program.ran('check', '--login', 'ntlm', '--accounts', it.path)
        return found[0] == 0 and b'account: ann\n' in found[1]


def names_are_refused(program):
    taken, unlawful = 'an account of this name, in any case', 'not changed: account.name: '
    with folder_of(program, FIRST) as it:
        return (all(it.refuses(taken, 'add', name) for name in ('ann', 'BOB'))
                and all(it.refuses(unlawful, 'add', name) for name in ('', 'x' * 257, 'guest', 'GUEST', 'a\nb', '\u00e4'))
                and all(it.refuses('no account of this name', action, 'eve') for action in ('remove', 'password')))


def passwords_are_one_line(program):
    cases = ((b'', 'password: none is there'), (b'\n', 'password: empty'), (b'a\nb\n', 'password: more than one line'),
             (b'a\n\n', 'password: more than one line'), (NOT_TEXT, 'password: no text'),
             (b'x' * 4097, 'password: longer than 4096 bytes'), (b'x' * 100_000, 'password: '))
    with folder_of(program, FIRST) as it:
        refused = all(it.refuses(said, *words, given=given) for given, said in cases
                      for words in (('add', 'eve'), ('password', 'ann')))
        closed = it.refuses('password: cannot be read', 'add', 'eve', given=os.open(it.folder, os.O_RDONLY))
    with folder_of(program) as it:
        taken = [it.run('add', f'a{number}', given=given)[0] for number, given in enumerate((b'a', b'x' * 4096 + b'\n'))]
        odd = it.run('add', 'odd', given=b'Password\r\n')
        return refused and closed and taken == [0, 0] and odd[0] == 0 and 'carriage return' in odd[2]


def words_go_together(program):
    wrong = ((), ('other', 'f'), ('add',), ('add', 'f'), ('remove', 'f'), ('password', 'f'), ('list', 'f', 'ann'), ('list',),
             ('add', 'f', 'ann', 'Password'), ('list', 'f', '--readonly'), ('password', 'f', 'ann', '--readonly'))
    found = [program.ran('account', *words) for words in wrong]
    return all(it[:2] == (2, b'') and it[2].startswith('error: ') for it in found)


def files_that_no_share_takes_are_refused(program):
    """Half written, of others' mode, with two of one name, no text, too long; a line says which rule is broken, and where."""
    twice = FIRST + f'[[account]]\nname = "ANN"\nnt_hash = "{OTHER}"\n'
    cases = ((FIRST[:FIRST.index(OTHER)], 'file: a text in TOML, no key given twice; line 9'),
             (FIRST.replace(OTHER, OTHER[1:]), 'account.nt_hash: a text of 32 hex digits; account 2'),
             (twice, 'account.name: no two accounts have the same name, in any case; account 3'),
             (FIRST + '#' * (1 << 20), 'file: at most 1048576 bytes'), ('share = "a"\n' + FIRST, 'keys: none but account'))
    changes = (('add', 'eve'), ('remove', 'ann'), ('password', 'ann'), ('list',))
    with folder_of(program) as it:
        for text, said in cases:
            it.put(text)
            if not all(it.refuses(f'accounts.toml: refused, and to be mended by hand: {said}', *words) for words in changes):
                return False
        for mode in (0o640, 0o604, 0o602, 0o610):
            it.put(FIRST, mode)
            if not all(it.refuses('others have rights to it, and must have none (chmod 600)', *words) for words in changes):
                return False
    return True


def tables_that_lines_do_not_show_are_left(program):
    inline = f'account = [{{name = "ann", nt_hash = "{OTHER}"}}]\n'
    hidden = f'[[account]]\nname = "ann"\nnt_hash = "\\u0061{OTHER[1:]}"\n'
    lines = f'[[account]]\nnt_hash = "{OTHER}"\nname = """\\\n  [[x\\\n"""\n'
    with folder_of(program, inline) as it:
        found = [it.refuses('change it by hand', *words) for words in (('add', 'eve'), ('remove', 'ann'), ('password', 'ann'))]
        it.put(hidden)
        found += [it.refuses('change it by hand', 'password', 'ann')]
        it.put(lines)
        found += [it.refuses('change it by hand', *words) for words in (('remove', '[[x'), ('password', '[[x'))]
        return all(found) and it.run('list') == (0, b'[[x\n', '')


def lines_of_windows_stay(program):
    with folder_of(program, FIRST.replace('\n', '\r\n')) as it:
        changed = it.run('password', 'bob')[0], it.text()
        removed = it.run('remove', 'ann')[0], it.text()
        return (changed == (0, FIRST.replace(OTHER, HASH).replace('\n', '\r\n'))
                and removed == (0, ANN.replace(OTHER, HASH).replace('\n', '\r\n')))


def a_last_line_without_its_end_gets_one(program):
    with folder_of(program, '# none yet') as it:
        return it.run('add', EVE)[0] == 0 and it.text() == '# none yet\n' + ADDED


def a_file_has_room_for_so_many(program):
    full = FIRST + '#' * ((1 << 20) - len(FIRST) - 10)
    with folder_of(program, full) as it:
        return it.refuses('more than 1048576 bytes', 'add', 'eve') and it.run('remove', 'bob')[0] == 0


def many_accounts_take_a_second(program):
    """10,000, of a file that is nearly as long as it may be; an unproved program is tried with fewer, and has more time."""
    count = 300 if program.is_unproved else 10_000
    text = ''.join(f'[[account]]\nname = "user{number}"\nnt_hash = "{OTHER}"\n' for number in range(count))
    with folder_of(program, text) as it:
        changes = (('add', 'eve'), ('password', f'user{count - 1}'), ('remove', 'user0'), ('list',))
        for words in changes:
            begin = time.monotonic()
            found = it.run(*words)
            took = time.monotonic() - begin
            if found[0] != 0 or found[1].count(b'\n') != count * (words == ('list',)) or took > 1 and not program.is_unproved:
                print(f'  {words}: {found[0]}, {took:.2f} seconds')
                return False
        return it.refuses('an account of this name', 'add', 'USER7')


def a_file_in_use_is_left(program):
    with folder_of(program, FIRST) as it, open(it.path, 'rb') as held:
        fcntl.flock(held, fcntl.LOCK_EX)
        in_use = all(it.refuses('in use: another program changes it, try again', *words)
                     for words in (('add', 'eve'), ('remove', 'ann'), ('password', 'ann')))
        return in_use and it.run('list')[0] == 0


def changes_at_once_lose_nothing(program):
    """Of several at once each is made, or refused as in use; those that were made are all there."""
    with folder_of(program, FIRST) as it, tempfile.NamedTemporaryFile() as password, contextlib.ExitStack() as inputs:
        password.write(b'Password')
        password.flush()
        begun = [(name, program.begins('account', 'add', it.path, name, stderr=subprocess.PIPE,
                                       stdin=inputs.enter_context(open(password.name, 'rb'))))
                 for name in (f'a{number}' for number in range(8))]
        ended = [(name, process.communicate(timeout=program.patience)[1], process.returncode) for name, process in begun]
        made = {name for name, _, status in ended if status == 0}
        refused = all(status == 1 and b'in use: another program changes it' in errors for name, errors, status in ended
                      if name not in made)
        listed = it.run('list')[1].decode().splitlines()
        return made and refused and set(listed) == {'ann', 'bob, to read only', *made} and it.names() == ['accounts.toml']


def what_lies_beside_it_is_left(program):
    with folder_of(program, FIRST) as it:
        beside = it.path + '.new'
        with open(beside, 'wb') as file:
            file.write(b'of another')
        refused = it.refuses(f'not changed: {beside} is there', 'remove', 'ann')
        with open(beside, 'rb') as file:
            return refused and file.read() == b'of another'


def a_failed_write_leaves_it(program):
    """The new file can't be written whole, or can't be made; a file that is new goes then too."""
    with folder_of(program, FIRST) as it:
        short = it.refuses('the new file cannot be written: file too large', 'add', 'eve', longest=100)
    with folder_of(program) as it:
        gone = it.refuses('the new file cannot be written: file too large', 'add', 'eve', longest=10)
        it.path = os.path.join(it.folder, 'no', 'accounts.toml')
        return short and gone and it.refuses('cannot be made: no such file', 'add', 'eve')


def a_link_to_it_stays(program):
    with folder_of(program, FIRST) as it:
        link = os.path.join(it.folder, 'link')
        os.symlink('accounts.toml', link)
        added = program.ran('account', 'add', link, EVE, given=b'Password')
        return added == (0, b'', '') and os.path.islink(link) and it.text() == FIRST + ADDED


def its_owner_stays(program):
    """Where root changes it."""
    if os.geteuid() != 0:
        return True
    with folder_of(program, FIRST) as it:
        os.chown(it.path, 12345, 54321)
        changed, found = it.run('add', 'eve')[0], os.stat(it.path)
        return (changed, found.st_uid, found.st_gid, stat.S_IMODE(found.st_mode)) == (0, 12345, 54321, 0o600)


def typed(program, command, lines, **how):
    """What comes of a command whose standard streams are a terminal, at which each line is typed once something was asked for."""
    here, there = pty.openpty()
    process = subprocess.Popen(command, stdin=there, stdout=there, stderr=there, start_new_session=True, **how)
    os.close(there)
    said = b''
    for line in (*lines, None):
        with contextlib.suppress(OSError):
            while part := os.read(here, 4096):
                said += part
                if line is not None and said.rstrip().endswith((b':', b'unseen')):
                    break
        if line is not None:
            os.write(here, line)
    status = process.wait(program.patience)
    os.close(here)
    return status, said.replace(b'\r\n', b'\n')


def a_terminal_is_told_that_it_shows(program):
    with folder_of(program, FIRST) as it:
        status, said = typed(program, [program.path, 'account', 'add', it.path, EVE], [b'Password\n'])
        return status == 0 and b'what is typed is seen' in said and b'Password' in said and it.text() == FIRST + ADDED


def a_script_asks_twice_unseen(program):
    system = {**os.environ, 'SMBSHARE': program.path}
    with folder_of(program, FIRST) as it:
        words = [ASKS, 'add', it.path, EVE]
        differ = typed(program, words, [b'Password\n', b'password\n'], env=system)
        left = it.text() == FIRST
        added = typed(program, words, [b'Password\n', b'Password\n'], env=system)
        whole = it.text() == FIRST + ADDED
        piped = subprocess.run([ASKS, 'password', it.path, 'ann'], input=b'Password', env=system, check=False)
        listed = subprocess.run([ASKS, 'list', it.path], stdout=subprocess.PIPE, env=system, check=False)
    return (differ[0] == 1 and b'differ' in differ[1] and left and added[0] == 0 and whole
            and not any(b'assword\n' in said for _, said in (differ, added))
            and piped.returncode == 0 and listed.stdout == f'ann\nbob, to read only\n{EVE}\n'.encode())


def a_script_asks_for_each_account_of_a_share(program):
    """With a program in the share's place that prints its words and what it is given."""
    with tempfile.TemporaryDirectory() as folder:
        prints = os.path.join(folder, 'prints')
        with open(prints, 'w', encoding='ascii') as out:
            out.write('#!/bin/sh\necho "<$*>"\ncat\n')
        os.chmod(prints, 0o700)
        words = ['share', folder, '--account', 'ann', '--account=bob']
        system = {**os.environ, 'SMBSHARE': prints}
        status, said = typed(program, [ASKS, *words], [b'one\n', b'one\n', b'two\n', b'two\n'], env=system)
        given = subprocess.run([ASKS, *words, '--passwords', 'a'], input=b'', stdout=subprocess.PIPE, env=system, check=False)
    return (status == 0 and said.endswith(f'<{" ".join(words)}>\none\ntwo\n'.encode()) and said.count(b'one') == 1
            and given.stdout == f'<{" ".join(words)} --passwords a>\n'.encode())


def a_script_that_is_ended_lets_the_terminal_show_again(program):
    here, there = pty.openpty()
    with folder_of(program, FIRST) as it:
        process = subprocess.Popen([ASKS, 'password', it.path, 'ann'], stdin=there, stdout=there, stderr=there,
                                   start_new_session=True, env={**os.environ, 'SMBSHARE': program.path})
        os.read(here, 4096)
        process.send_signal(signal.SIGTERM)
        status = process.wait(program.patience)
        shows = subprocess.run(['stty', '-a'], stdin=there, stdout=subprocess.PIPE, check=False).stdout
    os.close(here)
    os.close(there)
    return status == 143 and b' echo ' in shows and b'-echo ' not in shows


TESTS = (
    an_account_is_added_at_the_end, a_file_is_made_by_add_alone, an_account_is_taken_away_with_its_lines,
    a_password_changes_its_digits_alone, accounts_are_listed, who_is_added_logs_in, names_are_refused, passwords_are_one_line,
    words_go_together, files_that_no_share_takes_are_refused, tables_that_lines_do_not_show_are_left, lines_of_windows_stay,
    a_last_line_without_its_end_gets_one, a_file_has_room_for_so_many, many_accounts_take_a_second, a_file_in_use_is_left,
    changes_at_once_lose_nothing,
    what_lies_beside_it_is_left, a_failed_write_leaves_it, a_link_to_it_stays, its_owner_stays,
    a_terminal_is_told_that_it_shows, a_script_asks_twice_unseen,
    a_script_asks_for_each_account_of_a_share, a_script_that_is_ended_lets_the_terminal_show_again,
)
