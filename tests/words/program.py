"""The words of the program: which it takes, and what it says of a fault."""
import contextlib
import functools
import hashlib
import os
import pty
import resource
import socket
import struct
import tempfile

from tests.smb import ntlm
from tests.smb.frames import close, create, frame, session_setup, tree_connect
from tests.smb.program import GUEST, TOP
from tests.words.refusals import (ACCOUNTS, BAD_EVENTS, BROKEN, BROKEN_ACCOUNTS, ENDINGS, HASH, MORE_CREDITS,
                                  NEGOTIATE, NOTICES, REFUSED_REQUESTS, SHARE_RULE, UNREADABLE, request)
from tools import frame as frame_tool

CONFIG_LIMIT = 1_048_576
REFUSED = b'config: refused\n'
NOT_TEXT = b'\xff'
ACCOUNTS_REFUSED = b'accounts: refused\n'
# Words of a login by NTLM that a replay takes.
BY_NTLM = ('replay', '--login', 'ntlm', '--seed', '000102030405060708090A0B0C0D0E0F')


def share_toml():
    """The configuration that is an example."""
    with open(os.path.join(TOP, 'share.toml'), encoding='utf-8') as example:
        return example.read()


def ran(program, words, given=b'', **others):
    """The status, standard output and standard error of a run."""
    return program.run(*words, given=given, **others)


def words_have_their_status(program):
    """Words that are taken by no command, and those that ask for help."""
    wrong = (['replay', '--config'], ['replay', '--other'], ['replay', 'more'], ['show', 'more'], ['--explain'],
             ['other'], ['--other'], ['compact', 'more'], ['extract'], ['serve', '--listen', '127.0.0.1:0', '--sync'],
             ['check-journal'], ['check-journal', 'a', 'b'])
    taken = ran(program, ['replay', '--config', 'no such file', '--explain'])
    return (all(ran(program, words)[0] == 2 for words in wrong)
            and ran(program, ['--help'])[0] == ran(program, ['--version'])[0] == 0
            and taken[0] == 1 and b'no such file' in taken[2])


def word_that_is_no_text_is_wrong(program):
    for words in ((NOT_TEXT,), (b'--' + NOT_TEXT,), ('replay', NOT_TEXT), ('serve', '--listen', NOT_TEXT),
                  ('replay', '--config', 'a', NOT_TEXT)):
        status, output, errors = ran(program, words)
        if (status, output) != (2, b'') or not errors.startswith(b'error: ') or b'Usage: ' not in errors:
            print(f'  {words}: {status}, {errors!r}')
            return False
    return ran(program, ('show', '--config', NOT_TEXT))[:2] == (2, b'')


def name_that_is_no_text_is_opened(program):
    with tempfile.TemporaryDirectory() as folder:
        name = os.path.join(os.fsencode(folder), NOT_TEXT)
        with open(name, 'wb') as file:
            file.write(share_toml().encode())
        there = [ran(program, words) for words in (('replay', '--config', name), ('replay', b'--config=' + name))]
        other = ran(program, ('replay', '--config', name + b'x'))
        return there == [(0, b'', b'')] * 2 and other == (1, b'', b'config: cannot be read\n')


def help_that_is_not_written_failed(program):
    with open('/dev/full', 'wb') as full:
        return ran(program, ('--help',), stdout=full)[::2] == (1, b'output: failed\n')


def help_has_examples_and_what_is_built_in(program):
    whole = ran(program, ('--help',))[1]
    examples = {name: f'smbshare {name}'.encode() for name in ('replay', 'serve', 'show')}
    own = all(b'Example' in (text := ran(program, (name, '--help'))[1]) and example in text
              for name, example in examples.items())
    return own and all(text in whole for text in (*examples.values(), b'Built in', b'`data`', b'`ann`', b'--explain'))


def help_names_explain(program):
    return all(b'--explain' in ran(program, (name, '--help'))[1] for name in ('replay', 'serve'))


def with_config(program, text, *words):
    """What a replay by a configuration of this text gives."""
    with tempfile.NamedTemporaryFile() as file:
        file.write(text)
        file.flush()
        return ran(program, ('replay', '--config', file.name, *words))


@contextlib.contextmanager
def accounts_file(text, mode=0o600):
    """The name of a file of accounts with this text, to which there are these rights."""
    with tempfile.NamedTemporaryFile() as file:
        file.write(text)
        file.flush()
        os.chmod(file.name, mode)
        yield file.name


def with_accounts(program, text, *words, mode=0o600):
    """What a replay by accounts of this text gives; what it prints has no hash in it."""
    with accounts_file(text, mode) as name:
        found = ran(program, (*BY_NTLM, '--accounts', name, *words))
    if any(HASH[:-1].encode() in printed.lower() for printed in found[1:]):
        raise AssertionError(f'a hash is printed: {found}')
    return found


def padded(length):
    """The example, with a comment that makes it this long."""
    text = share_toml().encode() + b'\n#'
    return text + b'-' * (length - len(text))


def configuration_has_a_limit(program):
    too_long = REFUSED + b'file: at most 1048576 bytes\n'
    return (with_config(program, padded(CONFIG_LIMIT)) == (0, b'', b'')
            and with_config(program, padded(CONFIG_LIMIT + 1)) == (1, b'', REFUSED)
            and with_config(program, padded(CONFIG_LIMIT + 1), '--explain') == (1, b'', too_long))


def endless_configuration_is_refused(program):
    return ran(program, ('replay', '--config', '/dev/zero')) == (1, b'', REFUSED)


def explains(run, whole, broken, refused):
    """Whether a text is refused by each change that breaks a rule, and says why where it is asked to."""
    for old, new, said in broken:
        if whole.count(old) != 1:
            raise AssertionError(f'{old!r} is not once in the text')
        text = whole.replace(old, new).encode()
        status, output, errors = run(text, '--explain')
        if (status, output) != (1, b'') or errors != refused + said.encode() + b'\n':
            print(f'  {new!r}: {status}, {errors!r}')
            return False
        if run(text) != (1, b'', refused):
            return False
    return True


def broken_rules_are_explained(program):
    run = functools.partial(with_config, program)
    return (explains(run, share_toml(), BROKEN, REFUSED)
            and run(NOT_TEXT, '--explain') == (1, b'', REFUSED + b'file: a text in UTF-8\n'))


def tokens_are_never_shown(program):
    """Whichever rule a configuration with this token breaks."""
    secret = share_toml().replace('token = "61"', 'token = "5ec4e7xx"')
    broken = [secret, secret.replace('xx"', ''), secret.replace('token =', 'tokens ='), secret.replace('[[user]]', ''),
              secret.replace('xx', '') + '[[user]]\nname = "bob"\ntoken = "5ec4e7"\n']
    found = [with_config(program, text.encode(), '--explain') for text in broken]
    return all(status == 1 and b'5ec4e7' not in errors for status, _, errors in found)


def broken_accounts_are_explained(program):
    return explains(functools.partial(with_accounts, program), ACCOUNTS, BROKEN_ACCOUNTS, ACCOUNTS_REFUSED)


def accounts_are_read_as_a_configuration_is(program):
    """Their length, their text, what cannot be opened, and a name that is no text."""
    long = ACCOUNTS.encode() + b'#' * (CONFIG_LIMIT - len(ACCOUNTS))
    longest_name = ACCOUNTS.replace('"bob"', f'"{"b" * 256}"').encode()
    with accounts_file(b'') as name:
        linked = name.encode() + NOT_TEXT
        os.link(name, linked)
        try:
            there = [ran(program, (*BY_NTLM, *words)) for words in (('--accounts', linked), (b'--accounts=' + linked,))]
        finally:
            os.unlink(linked)
    unread, longer = b'accounts: cannot be read\n', b'file: at most 1048576 bytes\n'
    return (all(with_accounts(program, text) == (0, b'', b'') for text in (ACCOUNTS.encode(), b'', long, longest_name))
            and there == [(0, b'', b'')] * 2
            and with_accounts(program, long + b'#', '--explain') == (1, b'', ACCOUNTS_REFUSED + longer)
            and with_accounts(program, NOT_TEXT, '--explain') == (1, b'', ACCOUNTS_REFUSED + b'file: a text in UTF-8\n')
            and ran(program, (*BY_NTLM, '--accounts', '/nowhere')) == (1, b'', unread)
            and ran(program, (*BY_NTLM, '--explain', '--accounts', '/nowhere'))
            == (1, b'', unread + b'/nowhere: no such file\n'))


def accounts_are_their_owners_alone(program):
    """Whoever else has any right to the file, to read, to write or to run it."""
    said = ACCOUNTS_REFUSED + b'file: no rights for anyone but its owner, such as mode 600\n'
    others = [with_accounts(program, ACCOUNTS.encode(), '--explain', mode=0o600 | 1 << bit) for bit in range(6)]
    return (others == [(1, b'', said)] * 6
            and with_accounts(program, ACCOUNTS.encode(), mode=0o644) == (1, b'', ACCOUNTS_REFUSED)
            and with_accounts(program, ACCOUNTS.encode(), mode=0o700) == (0, b'', b''))


def serve_takes_accounts_too(program):
    """What is wrong with a configuration comes first, and then what is wrong with the accounts."""
    serve, at = ('serve', '--turns', '1', '--login', 'ntlm', '--explain', '--listen'), '127.0.0.1:0'
    with accounts_file(ACCOUNTS.encode()) as name, accounts_file(b'[[account]]') as other:
        served = ran(program, (*serve, at, '--accounts', name))
        refused = [ran(program, (*serve, where, '--accounts', other)) for where in (at, 'x')]
        unlistened = ran(program, (*serve, 'x', '--accounts', name))
        both = ran(program, (*serve, at, '--accounts', other, '--config', other))
    return (served[0] == 0 and served[2].count(b'\n') == 2 and HASH.encode() not in served[2]
            and refused == [(1, b'', ACCOUNTS_REFUSED + b'account.name: a text; account 1; missing\n')] * 2
            and unlistened[2].startswith(b'listen: failed\n') and both[2].startswith(REFUSED))


def a_seed_that_is_given_is_said(program):
    serve = ('serve', '--turns', '1', '--listen', '127.0.0.1:0', '--login', 'ntlm')
    given, quiet = ran(program, (*serve, '--seed', '0' * 32)), ran(program, serve)
    return (given[0] == quiet[0] == 0 and given[2].count(b'\n') == 4 and b'--seed' in given[2]
            and quiet[2].count(b'\n') == 3 and b'--seed' not in quiet[2])


def words_of_ntlm_go_together(program):
    """Accounts and a seed are for NTLM alone, a replay by it has a seed, and a seed is 32 hex digits."""
    serve, replay, seed = ('serve', '--listen', '127.0.0.1:0', '--turns', '1'), ('replay',), ('--seed', '0' * 32)
    wrong = [(*words, *more, *login) for words in (serve, replay) for more in (seed, ('--accounts', '/nowhere'))
             for login in ((), ('--login', 'token'))]
    wrong += [(*words, '--login', 'ntlm', '--seed', digits) for words in (serve, replay)
              for digits in ('', '0' * 31, '0' * 33, '0' * 31 + 'x', '0x' + '0' * 30)]
    wrong += [(*replay, '--login', 'ntlm'), ('nt-hash', 'Password'), ('show', '--login', 'ntlm')]
    for words in wrong:
        status, output, errors = ran(program, words)
        if (status, output) != (2, b'') or not errors.startswith(b'error: ') or b'Usage: ' not in errors:
            print(f'  {words}: {status}, {errors!r}')
            return False
    return True


def replays_by_ntlm_repeat(program):
    """By one seed the answers are the same, by another the challenge is another; a guest comes in where they may."""
    text = b'+ 1\n> 1 0 ' + (frame(NEGOTIATE) + session_setup(1, ntlm.NEGOTIATE)).hex().encode() + b'\n'
    first, again, other = (ran(program, words, text) for words in (BY_NTLM, BY_NTLM, (*BY_NTLM[:-1], 'ff' * 16)))
    challenge = hashlib.md5(bytes(range(16)) + struct.pack('<Q', 1)).digest()[:8]
    return (first[0] == other[0] == 0 and first == again != other
            and challenge.hex().encode() in first[1] and challenge.hex().encode() not in other[1]
            and first[1].count(b'\n') == 2 and ran(program, BY_NTLM, b'?') == (1, b'', b'line 1: unreadable\n'))


def passwords_are_hashed(program):
    """The hash of [MS-NLMP] 4.2.2.1.2, and of the empty password; one line feed at the end is dropped, and no more."""
    empty, password = b'31d6cfe0d16ae931b73c59d7e0c089c0', HASH.encode()
    cases = [ran(program, ('nt-hash',), given) for given in (b'Password', b'Password\n', b'', b'\n')]
    odd = (b'Password\n\n', b'Password\r\n', b'password', '\u00e4\U0001f511'.encode())
    others = {ran(program, ('nt-hash',), given)[1] for given in odd}
    return (cases == [(0, digits + b'\n', b'') for digits in (password, password, empty, empty)]
            and len(others) == 4 and all(len(line) == 33 for line in others) and password + b'\n' not in others
            and ran(program, ('nt-hash',), NOT_TEXT) == (1, b'', b'input: unreadable\n'))


def a_hash_that_is_not_written_failed(program):
    with open('/dev/full', 'wb') as full:
        return ran(program, ('nt-hash',), b'Password', stdout=full)[::2] == (1, b'output: failed\n')


def serve_explains_too(program):
    with tempfile.NamedTemporaryFile() as file:
        words = ('serve', '--listen', '127.0.0.1:0', '--config', file.name)
        said = f'{SHARE_RULE}; missing, usually: share = "data"\n'.encode()
        return (ran(program, (*words, '--explain')) == (1, b'', REFUSED + said)
                and ran(program, words) == (1, b'', REFUSED))


def check_says_what_would_be_served(program):
    """The share with its limits, and who may come in; on standard error what `serve` says beside; never a hash or a token."""
    share = ('share: data', 'label: DATA', 'capacity: 67108864 bytes',
             'limits: 64 clients, 1024 opens, 256 locks of a file, 4096 files and folders, 16777216 bytes a file')
    text = ACCOUNTS + f'[[account]]\nname = "eve"\nnt_hash = "{HASH[::-1]}"\nreadonly = true\n'
    with open(GUEST, encoding='utf-8') as guests, accounts_file(text.encode()) as accounts:
        with accounts_file((guests.read() + 'guest_readonly = true\n').encode()) as readers:
            found = [ran(program, ('check', *words)) for words in (
                (), ('--config', GUEST), ('--config', readers, '--login', 'ntlm', '--accounts', accounts))]
    names = [line.split('"')[1] for line in ACCOUNTS.splitlines() if line.startswith('name')]
    said = (('login: token, users: 1', 'guests: no'), ('login: token, users: 0', 'guests: yes'),
            (f'login: ntlm, accounts: {len(names) + 1}', *(f'account: {name}' for name in names), 'account: eve, to read only',
             'guests: yes, to read only', 'signing: offered'))
    notices = [errors.count(b'\n') for _, _, errors in found]
    wanted = [(0, ''.join(f'{line}\n' for line in share + lines)) for lines in said]
    if [(status, output.decode()) for status, output, _ in found] != wanted or notices != [1, 0, 0]:
        print(f'  {found}')
        return False
    return True


def examples_are_what_they_say(program):
    """Each configuration of examples/ is taken, with these lines of what is served."""
    for name, lines in (('office', (b'limits: 200 clients, 16384 opens,', b'guests: no\n')),
                        ('device', (b'limits: 16 clients, 256 opens,', b'guests: yes\n')),
                        ('readers', (b'guests: yes, to read only\n',))):
        config = os.path.join(TOP, 'examples', f'{name}.toml')
        status, output, _ = ran(program, ('check', '--config', config, '--login', 'ntlm'))
        if status != 0 or not all(line in output for line in lines):
            print(f'  {name}: {status}, {output!r}')
            return False
    return True


def check_refuses_as_serve_does(program):
    """The same words and status for a configuration, for accounts, and for options that don't go together."""
    at = ('--listen', '127.0.0.1:0', '--turns', '1')
    with accounts_file(b'share = 1') as config, accounts_file(b'[[account]]') as accounts, accounts_file(ACCOUNTS.encode(), 0o644) as shown:
        cases = (('--config', config), ('--config', config, '--explain'), ('--config', '/nowhere', '--explain'),
                 ('--login', 'ntlm', '--accounts', accounts, '--explain'), ('--login', 'ntlm', '--accounts', shown, '--explain'))
        found = [(ran(program, ('check', *words)), ran(program, ('serve', *at, *words))) for words in cases]
        alone = ran(program, ('check', '--accounts', accounts))
    with open('/dev/full', 'wb') as full:
        unwritten = ran(program, ('check',), stdout=full)[::2]
    if any(checked != served or checked[0] != 1 for checked, served in found):
        print(f'  {found}')
        return False
    return alone[:2] == (2, b'') and unwritten == (1, b'output: failed\n')


def addresses_are_explained(program):
    in_use = socket.create_server(('127.0.0.1', 0))
    port = in_use.getsockname()[1]
    cases = ((f'127.0.0.1:{port}', 'in use: another program listens there; end that one, or name another port'),
             ('192.0.2.1:0', 'not an address of this machine; name one of its own, or 0.0.0.0 for all of them'),
             ('localhost:4450', 'not ADDR:PORT, an IP address with a port, such as 127.0.0.1:4450'),
             ('127.0.0.1', 'not ADDR:PORT, an IP address with a port, such as 127.0.0.1:4450'))
    with in_use:
        found = [ran(program, ('serve', '--turns', '1', '--explain', '--listen', address)) for address, _ in cases]
    said = [(1, b'', f'listen: failed\n{address}: {why}\n'.encode()) for address, why in cases]
    return found == said


def files_that_are_not_read_are_explained(program):
    cases = (('/nowhere', b'no such file'), ('/', b'is a directory'))
    found = [ran(program, ('replay', '--explain', '--config', name)) for name, _ in cases]
    said = [(1, b'', b'config: cannot be read\n' + name.encode() + b': ' + why + b'\n') for name, why in cases]
    if found != said:
        print(f'  {found}')
    return found == said


def streams_that_fail_are_explained(program):
    """Standard input that is a folder, and standard output that is full."""
    folder = os.open('/', os.O_RDONLY)
    try:
        unread = ran(program, ('replay', '--explain'), given=folder)
    finally:
        os.close(folder)
    with open('/dev/full', 'wb') as full:
        unwritten = ran(program, ('check', '--explain'), stdout=full)[::2]
    return (unread == (1, b'', b"input: failed\nstandard input can't be read to its end: give it from a file, by <\n")
            and unwritten[0] == 1 and unwritten[1].startswith(b'output: failed\nstandard output takes no more: '))


def on_a_terminal(program, words, given):
    """The status of a run whose standard error is a terminal, and what it writes there."""
    here, there = pty.openpty()
    status, _, _ = ran(program, words, given, stderr=there)
    os.close(there)
    said = b''
    try:
        while part := os.read(here, 4096):
            said += part
    except OSError:
        pass
    os.close(here)
    return status, said.replace(b'\r\n', b'\n')


def a_terminal_is_told_more(program):
    explained = ran(program, ('replay', '--explain'), b'+ 2\n')
    return all(on_a_terminal(program, words, b'+ 2\n') == explained[::2] for words in (('replay',), ()))


def serve_says_that_nobody_can_log_in(program):
    serve = ('serve', '--turns', '1', '--listen', '127.0.0.1:0')
    built_in, guest = ran(program, serve)[2], ran(program, (*serve, '--config', GUEST))[2]
    return built_in.count(b'\n') == 2 and b'guest.toml' in built_in and guest.count(b'\n') == 1


def notices_of(program, text, mode, accounts):
    """What `serve` says behind where it listens, by a configuration of this text and mode, and perhaps by accounts."""
    serve = ('serve', '--turns', '1', '--listen', '127.0.0.1:0')
    with accounts_file(text.encode(), mode) as config, accounts_file((accounts or '').encode()) as name:
        words = () if accounts is None else ('--login', 'ntlm', '--accounts', name)
        status, output, errors = ran(program, (*serve, '--config', config, *words))
    return (status, output) == (0, b'') and tuple(errors.decode().splitlines()[1:])


def serve_says_what_is_not_as_it_may_be_wanted(program):
    """Where no client can log in, and where everyone may write to a configuration with tokens; it starts then too."""
    for has_user, guest, mode, accounts, said in NOTICES:
        text = share_toml() if has_user else share_toml()[:share_toml().index('[[user]]')]
        found = notices_of(program, text.replace('guest = false', f'guest = {guest}'), mode, accounts)
        if found != said:
            print(f'  {has_user}, {guest}, {mode:o}, {accounts!r}: {found}')
            return False
    return True


def serve_says_what_the_machine_lacks(program):
    """More room for files than memory, and more clients than descriptors."""
    most, files = 1 << 46, resource.getrlimit(resource.RLIMIT_NOFILE)
    text = share_toml().replace('capacity = 67108864', f'capacity = {most}')
    limits = f'[limits]\nconnections = 185\ncapacity = {most}\n'
    resource.setrlimit(resource.RLIMIT_NOFILE, (200, files[1]))
    try:
        lacking = notices_of(program, text + limits, 0o600, None)
        enough = notices_of(program, share_toml() + limits.replace('185', '184'), 0o600, None)
    finally:
        resource.setrlimit(resource.RLIMIT_NOFILE, files)
    begins = (f'capacity: {most} bytes, more than the ', 'connections: 185 clients want 201 descriptors, and the program may have 200 ')
    if len(lacking) != 2 or not all(line.startswith(it) for line, it in zip(lacking, begins)) or enough != ():
        print(f'  {lacking}, {enough}')
        return False
    return True


def unreadable_lines_are_explained(program):
    for line, said in UNREADABLE:
        status, output, errors = ran(program, ('replay', '--explain'), b'+ 1\n' + line + b'\n')
        is_said = errors.startswith(b'line 2: unreadable\n' + said) and errors.count(b'\n') == 2
        if (status, output) != (1, b'') or not is_said:
            print(f'  {line!r}: {status}, {errors!r}')
            return False
        if ran(program, ('replay',), b'+ 1\n' + line + b'\n') != (1, b'', b'line 2: unreadable\n'):
            return False
    return True


def bad_events_are_explained(program):
    for text, said in BAD_EVENTS:
        line = f'line {text.count(bytes([10]))}: bad event\n'
        told = f'{line}connections are numbered as they open: {said}\n'.encode()
        explained, quiet = ran(program, ('replay', '--explain'), text), ran(program, ('replay',), text)
        if explained != (1, b'', told) or quiet != (1, b'', line.encode()):
            print(f'  {text!r}: {explained}, {quiet}')
            return False
    opened = b''.join(b'+ %d\n' % number for number in range(1, 66))
    many = b'line 65: too many connections\nat most 64 connections are open at a time\n'
    few = b'line 3: too many connections\nat most 2 connections are open at a time\n'
    with open(GUEST, 'rb') as guests, accounts_file(guests.read() + b'[limits]\nconnections = 2\n') as config:
        return (ran(program, ('replay', '--explain'), opened) == (1, b'', many)
                and ran(program, ('replay', '--explain', '--config', config), opened) == (1, b'', few))


def endings_are_explained(program):
    """Where the last frame comes whole, and where each byte comes by itself; then the rest goes with it."""
    for last, before, rule in ENDINGS:
        stream = b''.join(frame(payload) for payload in before) + last
        whole = b'+ 1\n> 1 0 ' + stream.hex().encode() + b'\n'
        single = b'+ 1\n' + b''.join(b'> 1 0 %02x\n' % byte for byte in stream)
        status, output, errors = ran(program, ('replay', '--explain'), whole)
        if (status, errors) != (0, f'x 1, line 2: {rule}\n'.encode()) or not output.endswith(b'x 1\n'):
            print(f'  {rule}: {status}, {errors!r}')
            return False
        alone, quiet = ran(program, ('replay', '--explain'), single), ran(program, ('replay',), whole)
        if quiet != (0, output, b'') or alone[:2] != (0, output) or f': {rule}\n'.encode() not in alone[2]:
            return False
    return True


# What a client sends who comes in: MORE_CREDITS, a SESSION_SETUP and a TREE_CONNECT.
COMES_IN = frame(MORE_CREDITS) + session_setup(1) + tree_connect(2, 1)


def lines_of_pieces(*pieces):
    """A text of a client whose pieces come one by one, from its second line on."""
    return b'+ 1\n' + b''.join(b'> 1 0 ' + piece.hex().encode() + b'\n' for piece in pieces)


def refused_requests_are_explained(program):
    """On standard error with --explain, and with --reasons behind the answer; but for these lines nothing is another."""
    for payload, status, why in REFUSED_REQUESTS:
        text, said = lines_of_pieces(COMES_IN, frame(payload)), f'< 1, line 3: {why}\n'.encode()
        quiet, explained, reasons = (ran(program, ('replay', *more), text) for more in ((), ('--explain',), ('--reasons',)))
        shown = ran(program, ('show', '--fields'), reasons[1])[1].splitlines(True)
        if (quiet[::2] != (0, b'') or explained != (0, quiet[1], said) or reasons != (0, quiet[1] + b'# ' + said, b'')
                or f' STATUS_{status} '.encode() not in shown[-2] or shown[-1] != b'# ' + said):
            print(f'  {why}: {explained[2]!r}, {reasons[1]!r}, {shown[-2:]!r}')
            return False
    return True


def a_reason_is_behind_its_answer(program):
    """Of several frames in one piece, and of a chain; the last ends the connection."""
    absent, names = create(3, 'a', 1, 1, 0, 1, 1), create(5, '\\a', 1, 1, 0, 1, 1)
    related = request(7, flags=4, command=6, body=close(7, (1 << 64) - 1, 1, 1)[68:])
    missing = create(6, 'a', 1, 1, 0, 1, 1)[4:]
    missing += bytes(-len(missing) % 8)
    chained = frame(missing[:20] + struct.pack('<I', len(missing)) + missing[24:] + related)
    piece = absent + frame(request(4)) + names + chained + b'\x85'
    text = lines_of_pieces(COMES_IN, piece)
    quiet, found = (ran(program, ('replay', *more), text)[1].splitlines() for more in ((), ('--reasons',)))
    marks = [line.split(b',', 2)[1] if line[:1] == b'#' else line[:1] for line in found[3:]]
    said = [line.split(b': ')[1].split(b',')[0] for line in found if line[:1] == b'#']
    if ([line for line in found if line[:1] != b'#'] != quiet or said != [b'C9', b'C3', b'C9', b'P7', b'F1']
            or marks != [b'<', b' line 3: C9', b'<', b'<', b' line 3: C3', b'<', b' line 3: C9', b' line 3: P7', b'x',
                         b' line 3: F1']):
        print(f'  {found[3:]!r}')
        return False
    return ran(program, ('replay', '--recording', os.devnull, '--reasons'))[0] == 2


def fields_of_requests_are_shown(program):
    """The stored run of examples/, of its first client; and what is wrong with a stream, in words."""
    with open(os.path.join(TOP, 'examples', 'two_clients'), encoding='utf-8') as events:
        stream = ''.join(line.split()[3] for line in events if line.startswith('> 1 '))
    shown = (0, b"""1.1 NEGOTIATE mid=0 Credits=31 Dialects=0x0202,0x0210
2.1 SESSION_SETUP mid=1 Credits=31 Buffer=1 bytes PreviousSessionId=0
3.1 TREE_CONNECT mid=2 SessionId=1 Credits=1 Path="\\\\\\\\s\\\\data"
4.1 CREATE mid=3 SessionId=1 TreeId=1 Credits=1 Name="plan.txt" CreateDisposition=Create \
DesiredAccess=READ_DATA|WRITE_DATA ShareAccess=READ
5.1 WRITE mid=4 SessionId=1 TreeId=1 Credits=1 FileId=1 Offset=0 Buffer=11 bytes
6.1 READ mid=5 SessionId=1 TreeId=1 Credits=1 FileId=1 Offset=0 Length=65536 MinimumCount=0
7.1 CLOSE mid=6 SessionId=1 TreeId=1 Credits=1 FileId=1
""", b'')
    wrong = (1, b'1: H2: a wrong ProtocolId\n', b'')
    return (ran(program, ('show', '--fields'), stream.encode()) == shown
            and ran(program, ('show', '--fields'), frame(bytes(64)).hex().encode()) == wrong)


def statuses_of_replies_are_shown(program):
    with open(os.path.join(TOP, 'examples', 'two_clients.answers'), 'rb') as answers:
        shown = ran(program, ('show', '--fields'), answers.read() + b'x 2\n')[1].splitlines()
    return (shown[3] == b'< 1 CREATE mid=3 STATUS_SUCCESS SessionId=1 TreeId=1 Credits=1 bytes=152'
            and shown[9] == b'< 2 CREATE mid=3 STATUS_SHARING_VIOLATION SessionId=2 TreeId=1 Credits=1 bytes=73'
            and shown[-1] == b'x 2'
            and ran(program, ('show', '--fields'), b'< 1 00') == (1, b'', b'input: unreadable\n'))


def statuses_have_one_list_of_names(program):
    """A reply of each status is shown by the name that tools/frame.py has for it."""
    for name, number in frame_tool.STATUSES.items():
        reply = request(1, flags=1)
        reply = reply[:8] + struct.pack('<I', number) + reply[12:]
        shown = ran(program, ('show', '--fields'), b'< 1 ' + frame(reply).hex().encode())[1].decode()
        known = name not in ('BUFFER_TOO_SMALL', 'INSUFFICIENT_RESOURCES')
        if (f' STATUS_{name} ' if known else f' 0x{number:08X} ') not in shown:
            print(f'  {name}: {shown!r}')
            return False
    return True


def other_faults_have_one_line(program):
    return ran(program, ('show',), b'0') == (1, b'', b'input: unreadable\n')


def parts_are_one_text(program):
    """A fault far behind the first part of a text is found in its line, after the answers before it."""
    skipped, ends = b'#\n' * 3_000, b'- 1\n' * 3_000
    return (ran(program, ('replay',), b'+ 1\n' + ends + skipped + ends + b'?\n') == (1, b'', b'line 9002: unreadable\n')
            and ran(program, ('replay',), b'+ 1\n' + ends + b'+ 3\n') == (1, b'', b'line 3002: bad event\n')
            and ran(program, ('replay',), b'+ 1\n> 1 0 85\n' + ends + b'?') == (1, b'x 1\n', b'line 3003: unreadable\n')
            and ran(program, ('replay',), b'+ 1\n' + ends) == (0, b'', b''))


def each_event_of_a_part_and_the_next_is_performed(program):
    """A piece that ends its connection, at each place around the end of a part."""
    for before in range(60, 70):
        text = b'+ 1\n' + b'#\n' * before + b'+ 2\n' + b'- 2\n' * before + b'> 1 0 85\n+ 3\n'
        if ran(program, ('replay',), text) != (0, b'x 1\n', b''):
            return False
    return True


TESTS = (
    words_have_their_status, word_that_is_no_text_is_wrong, name_that_is_no_text_is_opened,
    help_that_is_not_written_failed, help_has_examples_and_what_is_built_in, help_names_explain,
    configuration_has_a_limit,
    endless_configuration_is_refused, broken_rules_are_explained, tokens_are_never_shown,
    broken_accounts_are_explained, accounts_are_read_as_a_configuration_is, accounts_are_their_owners_alone,
    serve_takes_accounts_too, a_seed_that_is_given_is_said, words_of_ntlm_go_together, replays_by_ntlm_repeat,
    passwords_are_hashed, a_hash_that_is_not_written_failed, serve_explains_too,
    check_says_what_would_be_served, check_refuses_as_serve_does, examples_are_what_they_say,
    addresses_are_explained, files_that_are_not_read_are_explained, streams_that_fail_are_explained,
    a_terminal_is_told_more,
    serve_says_that_nobody_can_log_in, serve_says_what_is_not_as_it_may_be_wanted, serve_says_what_the_machine_lacks,
    unreadable_lines_are_explained, bad_events_are_explained,
    endings_are_explained, refused_requests_are_explained, a_reason_is_behind_its_answer, fields_of_requests_are_shown, statuses_of_replies_are_shown,
    statuses_have_one_list_of_names, other_faults_have_one_line, parts_are_one_text,
    each_event_of_a_part_and_the_next_is_performed,
)
