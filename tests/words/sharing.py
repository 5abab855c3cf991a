"""The command `share`: what it serves and says, for whom, what it keeps, and what it says of each word that is wrong."""
import os
import socket
import struct
import subprocess
import tempfile

from tests.smb import ntlm
from tests.smb.client import ALL_ACCESS, OPEN_IF, Client
from tests.smb.frames import close, create, read, tree_connect, write
from tests.smb.kept import BYTES_AT, names_in
from tests.smb.program import Served
from tests.smb.working import FILE_ID_AT, SESSION_ID_AT
from tests.words.faults import differs, put
from tests.words.without_memory import ends_without_memory

ENDS_WITH = 'changes are '
NAME_RULE = '1 to 80 characters from ! to ~, none of them one of " * / : < > ? \\ |'
FOLDER_NAME = f"the share can't have the folder's name, but {NAME_RULE}; name it by --name NAME"
NOT_A_SIZE = 'not a size: say a number of bytes above 0, or of KiB, MiB, GiB or TiB, such as 1073741824 or 10GiB'
IN_USE = 'in use: another program listens there; end that one, or name another port'
OPEN = ('others can reach it, and nobody is named: say --account NAME for each who may come in, --guests to let in '
        'everyone, or listen at 127.0.0.1')
EACH = 'give one for each --account, in their order, each in a line of its own'
NOT_AN_ACCOUNT = "not an account's name: say "
TAKEN = 'an account before it has this name, whatever the case of its letters: say each once'
GUEST_NAME = 'the name of guests, who have no password: say another one, or --guests to let them in'
FREE = ('--listen', '127.0.0.1:0')
TEXT = b'hello'
GUESTS = 'guests are not signed: Windows lets them in where it allows insecure guest logons\n'


class Shared(Served):
    """A folder that is shared at a free port, and what is said of it."""

    def __init__(self, program, *words, given=b''):
        self.process = program.begins('share', *FREE, *words, stdin=subprocess.PIPE, stdout=subprocess.PIPE,
                                      stderr=subprocess.PIPE)
        self.process.stdin.write(given)
        self.process.stdin.close()
        self.process.stdin = None
        self.before, self.patience = [], program.patience
        self.port = int(self.first_line().rsplit(':', 1)[1])
        self.said = []
        while not self.said or not self.said[-1].startswith(ENDS_WITH):
            self.said.append(self.process.stderr.readline().decode())
            if not self.said[-1]:
                raise AssertionError(f'it says {self.said!r}')

    def comes_in(self, name, user, nt_hash=None):
        """A client that logs in as this user and connects to the share of this name; None where it is not let in."""
        client = Visitor(self.port, self.patience)
        return client if client.comes_in(name, user, nt_hash) else None


class Visitor(Client):
    """A client that has a session and a tree."""

    def __init__(self, port, patience):
        super().__init__(port, patience)
        self.last, self.session, self.asked = b'', 0, 2

    def reply(self):
        self.last = super().reply()
        return self.last

    def next(self):
        self.asked += 1
        return self.asked

    def comes_in(self, name, user, nt_hash):
        if not ntlm.comes_in(self, user, nt_hash):
            return False
        self.session = struct.unpack_from('<Q', self.last, SESSION_ID_AT)[0]
        return self.asks(tree_connect(self.next(), self.session, f'\\\\s\\{name}')) == 0

    def opens(self, name, access, disposition):
        """The number of a new open; None where it is refused."""
        if self.asks(create(self.next(), name, access, disposition, 0, self.session, 1)) != 0:
            return None
        return struct.unpack_from('<Q', self.last, FILE_ID_AT)[0]

    def bytes_of(self, name):
        """What a file has, at most 100 bytes; None where it can't be opened."""
        number = self.opens(name, 1, 1)
        if number is None:
            return None
        self.asks(read(self.next(), number, 0, 100, self.session, 1))
        found = self.last[BYTES_AT:]
        self.asks(close(self.next(), number, self.session, 1))
        return found

    def writes(self, name, data):
        """Whether it makes a file with these bytes."""
        number = self.opens(name, ALL_ACCESS, OPEN_IF)
        return (number is not None and self.asks(write(self.next(), number, 0, data, self.session, 1)) == 0
                and self.asks(close(self.next(), number, self.session, 1)) == 0)


def hash_of(program, password):
    return bytes.fromhex(program.run('nt-hash', given=password.encode())[1].decode())


def made(folder, name='docs'):
    """The path of a folder with two files, one of them in a folder."""
    at = os.path.join(folder, name)
    os.makedirs(os.path.join(at, 'inner'))
    put(os.path.join(at, 'a.txt'), TEXT.decode(), 0o644)
    put(os.path.join(at, 'inner', 'b.txt'), 'x' * 5_000, 0o644)
    return at


def a_folder_is_shared_with_guests(program):
    """On this machine, under the folder's last name; what is changed is not changed in the folder."""
    with tempfile.TemporaryDirectory() as folder:
        at = made(folder)
        with Shared(program, at + '/') as share:
            client = share.comes_in('docs', 'somebody')
            found = client and client.bytes_of('a.txt')
            written = client and client.writes('new.txt', b'new')
            said = ''.join(share.said)
        wanted = (f'share docs: 3 files and folders of {at}/, 12288 bytes of 67121152\n', 'for everyone on this machine, as a guest',
                  f'smbclient -N //127.0.0.1/docs -p {share.port}\n', f'port={share.port},vers=2.1,guest\n',
                  'net use Z: \\\\127.0.0.1\\docs\n', GUESTS, 'nothing is encrypted: ', f'changes are lost when this ends, and not made in {at}/: --journal FILE keeps them\n')
        missing = [it for it in wanted if it not in said]
        print(''.join(f'  not said: {it}\n' for it in missing) + (said if missing else ''), end='', flush=True)
        return found == TEXT and written and not missing and sorted(os.listdir(at)) == ['a.txt', 'inner']


def accounts_come_in_by_their_passwords(program):
    """In the order of their lines, from standard input or a file; and no guest, but with --guests."""
    ann, bob = hash_of(program, 'Password'), hash_of(program, 'p\u00e4ss word')
    lines = 'Password\np\u00e4ss word\n'.encode()
    with tempfile.TemporaryDirectory() as folder:
        at, file = made(folder), put(os.path.join(folder, 'passwords'), lines.decode())
        words = (at, '--name', 'Data$', '--account', 'ann', '--account', 'b"o\\b')
        for given, more in ((lines, ()), (lines[:-1], ()), (b'', ('--passwords', file)), (lines, ('--guests',))):
            with Shared(program, *words, *more, given=given) as share:
                comes = [share.comes_in('Data$', *who) is not None
                         for who in (('ann', ann), ('B"O\\B', bob), ('ann', bob), ('somebody', None))]
            come = more == ('--guests',)
            said = 'for ann, b"o\\b by a password' + (', and everyone' if come else ', to read')
            warned = (GUESTS in ''.join(share.said)) == come
            if comes != [True, True, False, come] or not warned or said not in ''.join(share.said) or share.before:
                print(f'  {more}: {comes}, {share.before}, {share.said}', flush=True)
                return False
    return True


def passwords_that_others_may_read_are_said(program):
    """And a carriage return that is taken as a part of one."""
    with tempfile.TemporaryDirectory() as folder:
        at, file = made(folder), put(os.path.join(folder, 'passwords'), 'Password\r\n', 0o640)
        words = (at, '--account', 'ann', '--passwords', file)
        with Shared(program, *words) as share:
            comes = share.comes_in('docs', 'ann', hash_of(program, 'Password\r')) is not None
        wanted = [f'passwords of {file}: others than its owner have a right to it (chmod 600)\n',
                  'a password ends in a carriage return, which is taken as a part of it; give it without where '
                  'it is not meant\n']
        return comes and not differs(share.before, wanted, 'before it listens')


def a_journal_goes_on(program):
    """A later start begins with what was changed, and does not look at the folder, under another name and with another
    room, too; but not with less than the files take."""
    with tempfile.TemporaryDirectory() as folder:
        at, journal = made(folder), os.path.join(folder, 'journal')
        words, found = (at, '--journal', journal), []
        with Shared(program, *words, '--capacity', '100MiB') as share:
            client = share.comes_in('docs', 'somebody')
            kept = client and client.bytes_of('a.txt') == TEXT and client.writes('new.txt', b'new')
        os.rename(at, at + '.away')
        for name, more in (('docs', ()), ('other', ('--name', 'other', '--capacity', '1MiB'))):
            with Shared(program, *words, *more) as share:
                client = share.comes_in(name, 'somebody')
                found.append([client and client.bytes_of(it) for it in ('a.txt', 'new.txt')])
                said = (f'share {name}: the files of the journal {journal}, which goes on; {at} is not taken again\n',
                        f'changes are kept in {journal}, and not in {at}: start again with the same --journal\n')
                found.append([it in share.said for it in said])
        little = '--capacity 8KiB: too little: the files take 16384 bytes; say more, or leave --capacity out'
        wrong = differs(refused(program, *words, '--capacity', '8KiB'), little, 'less room')
        return kept and not differs(found, [[TEXT, b'new'], [True] * 2] * 2, 'what goes on') and not wrong


def an_empty_file_takes_the_folder(program):
    """As one does that is not there: a later start goes on with it, and does not look at the folder."""
    with tempfile.TemporaryDirectory() as folder:
        at, journal, found = made(folder), put(os.path.join(folder, 'journal'), ''), []
        for away in (f'{at}.away', f'{at}.further'):
            with Shared(program, at, '--name', 'docs', '--journal', journal) as share:
                client = share.comes_in('docs', 'somebody')
                found.append((client and client.bytes_of('a.txt'), names_in(folder)))
            if os.path.exists(at):
                os.rename(at, away)
        wanted = [(TEXT, ['docs', 'journal']), (TEXT, ['docs.away', 'journal'])]
        return not differs(found, wanted, 'what is there')


def refused(program, *words, given=b''):
    """What it says where it is refused, without the beginning; all that came of it where that is not so."""
    status, output, errors = program.run('share', *FREE, *words, given=given)
    lines = errors.decode().splitlines()
    if (status, output, len(lines)) == (1, b'', 1) and lines[0].startswith('share: '):
        return lines[0][len('share: '):]
    return status, output, lines


def sizes_are_refused(program):
    """A unit that is none, a sign, an exponent, nothing, 0, more than a share can have, and less than the folder takes."""
    with tempfile.TemporaryDirectory() as folder:
        at = made(folder)
        texts = [(it, NOT_A_SIZE) for it in ('10G', '10GB', '10gib', '10 GiB', '0', '0GiB', '-1', '+1', '1e9', '1.5GiB', 'GiB', '', 'ten')]
        texts += [(it, 'more than a share can have: say at most 64TiB') for it in ('65TiB', '70368744177665', '9' * 30, '99999999TiB')]
        texts += [('8KiB', 'too little: the files take 12288 bytes; say more, or leave --capacity out')]
        wrong = [differs(refused(program, at, f'--capacity={text}'), f'--capacity {text}: {rule}', text) for text, rule in texts]
        return not any([*wrong, differs(refused(program, at, '--capacity', '-1'), f'--capacity -1: {NOT_A_SIZE}', 'a sign')])


def sizes_are_taken(program):
    """Bytes, each unit, and the greatest; a share has the next multiple of 4,096."""
    with tempfile.TemporaryDirectory() as folder:
        at, wrong = made(folder), []
        for text, room in (('12289', 16_384), ('16KiB', 16_384), ('1MiB', 1 << 20), ('10GiB', 10 << 30), ('64TiB', 64 << 40)):
            with Shared(program, at, '--capacity', text) as share:
                wrong.append(differs(share.said[0].split(', ')[1], f'12288 bytes of {room}\n', text))
        return not any(wrong)


def names_are_refused(program):
    """A folder's that no share can have, and one that is asked for."""
    with tempfile.TemporaryDirectory() as folder:
        blank, long = made(folder, 'my docs'), made(folder, 'n' * 81)
        wrong = [differs(refused(program, at), f'{at}: {FOLDER_NAME}', at) for at in (blank, long, '/')]
        wrong += [differs(refused(program, blank, f'--name={name}'), f'--name {name}: not a name of a share: say {NAME_RULE}', name)
                  for name in ('', 'my docs', 'a/b', 'a\\b', 'gr\u00fcn', 'n' * 81)]
        with Shared(program, blank, '--name', 'docs') as share:
            taken = share.comes_in('docs', 'somebody') is not None
        return taken and not any(wrong)


def a_folder_without_a_last_name_has_that_of_its_path(program):
    with tempfile.TemporaryDirectory() as folder:
        at, wrong = made(folder), []
        for name in ('.', '..', 'inner/..', './'):
            inner = os.path.join(at, 'inner') if name == '..' else at
            share = program.begins('share', *FREE, name, stdin=subprocess.DEVNULL, stdout=subprocess.PIPE,
                                   stderr=subprocess.PIPE, cwd=inner)
            said = [share.stderr.readline().decode() for _ in range(2)]
            share.kill()
            share.communicate()
            wrong.append(differs(said[1].split(':')[0], 'share docs', name))
        return not any(wrong)


def accounts_are_refused(program):
    """Two of one name in other letters, that of guests, and names that no account has."""
    cases = ((('ann', 'bob', 'ANN'), 'ANN', TAKEN), (('Guest',), 'Guest', GUEST_NAME), (('',), '', NOT_AN_ACCOUNT + '1 to 256 characters'),
             (('n' * 257,), 'n' * 257, NOT_AN_ACCOUNT + '1 to 256 characters'),
             (('\u00e4',), '\u00e4', NOT_AN_ACCOUNT + 'no characters but those from blank to ~'))
    with tempfile.TemporaryDirectory() as folder:
        at = made(folder)
        return not any([differs(refused(program, at, *(f'--account={it}' for it in names)), f'--account {name}: {rule}', names)
                        for names, name, rule in cases])


def passwords_are_refused(program):
    """None, fewer and more lines than accounts, an empty one, what is no text, and a file that can't be read."""
    cases = ((b'', f'none: {EACH.replace(", in their order", "")}'), (b'one\n', f'1 lines for 2 accounts: {EACH}'),
             (b'one\ntwo\nthree\n', f'3 lines for 2 accounts: {EACH}'), (b'one\ntwo\n\n', f'3 lines for 2 accounts: {EACH}'),
             (b'\n', f'1 lines for 2 accounts: {EACH}'), (b'one\n\n', f'line 2 is empty: {EACH}'),
             (b'\ntwo', f'line 1 is empty: {EACH}'), (b'\xff\ntwo', 'not a text in UTF-8: write them in UTF-8, one a line'),
             (b'x' * (1 << 20) + b'\n', 'more than 1048576 bytes: give one line for each --account'))
    two = ('--account', 'ann', '--account', 'bob')
    with tempfile.TemporaryDirectory() as folder:
        at, file, absent, wrong = made(folder), os.path.join(folder, 'passwords'), os.path.join(folder, 'absent'), []
        for text, rule in cases:
            with open(os.open(file, os.O_CREAT | os.O_WRONLY | os.O_TRUNC, 0o600), 'wb') as it:
                it.write(text)
            wrong += [differs(refused(program, at, *two, given=text), f'passwords on standard input: {rule}', text[:9]),
                      differs(refused(program, at, *two, '--passwords', file), f'passwords of {file}: {rule}', text[:9])]
        left = 'name a file that you may read, or leave --passwords out'
        wrong += [differs(refused(program, at, *two, '--passwords', absent), f'passwords of {absent}: cannot be read: no such file; {left}', 1),
                  differs(refused(program, at, '--passwords', file),
                          f'--passwords {file}: there is no account for them: say --account NAME for each line', 'no account')]
        return not any(wrong)


def addresses_are_refused(program):
    """One that is none, and one that others reach where nobody is named; with an account or --guests it is taken."""
    with tempfile.TemporaryDirectory() as folder:
        at, wrong = made(folder), []
        for address, rule in (('0.0.0.0:0', OPEN), ('[::]:0', OPEN), ('192.0.2.1:4450', OPEN),
                              ('localhost:4450', 'not ADDR:PORT: say an IP address with a port, such as 127.0.0.1:4450')):
            status, _, errors = program.ran('share', at, '--listen', address, given=b'')
            wrong.append(differs((status, errors), (1, f'share: --listen {address}: {rule}\n'), address))
        for words, given in ((('--guests',), b''), (('--account', 'ann'), b'Password\n')):
            share = program.begins('share', at, '--listen', '0.0.0.0:0', *words, stdin=subprocess.PIPE, stdout=subprocess.PIPE,
                                   stderr=subprocess.PIPE)
            share.stdin.write(given)
            share.stdin.close()
            share.stdin = None
            said = [share.stderr.readline().decode() for _ in range(4)]
            share.kill()
            share.communicate()
            wrong.append(differs((said[0][:18], '//HOST/docs' in said[3]), ('listening on 0.0.0', True), words))
        with socket.create_server(('127.0.0.1', 0)) as taken:
            address = f'127.0.0.1:{taken.getsockname()[1]}'
            found = program.ran('share', at, '--listen', address, given=b'')
        in_use = f'listen: failed\n{address}: {IN_USE}\n'
        return not any([*wrong, differs(found, (1, b'', in_use), 'in use')])


def folders_are_refused(program):
    """A file, and none; what is in one and can't be in a share is said as `serve --from` says it. An empty one is shared."""
    with tempfile.TemporaryDirectory() as folder:
        at, absent, empty = made(folder), os.path.join(folder, 'absent'), os.path.join(folder, 'empty')
        os.mkdir(empty)
        file = os.path.join(at, 'a.txt')
        wrong = [differs(refused(program, it), f'{it}: cannot be read: {why}; name a folder that you may read', it)
                 for it, why in ((file, 'not a directory'), (absent, 'no such file'), ('', 'no such file'))]
        os.symlink(file, os.path.join(at, 'link'))
        linked = program.ran('share', *FREE, at, given=b'')
        with Shared(program, empty) as share:
            is_shared = share.comes_in('empty', 'somebody') is not None
        return is_shared and not any([*wrong, differs(linked, (1, b'', f'folder: {at}/link: a symbolic link, which is not followed: take it out of the folder\n'), 'a link')])


def limits_are_those_of_the_folder(program):
    """More files than a share has by default, and one longer than a file may be by default."""
    with tempfile.TemporaryDirectory() as folder:
        at = os.path.join(folder, 'many')
        os.mkdir(at)
        for number in range(4_200):
            put(os.path.join(at, f'f{number}'), '')
        with open(os.path.join(at, 'long'), 'wb') as it:
            it.truncate(20 << 20)
        with Shared(program, at) as share:
            client = share.comes_in('many', 'somebody')
            return client is not None and client.bytes_of('long') == bytes(100) and client.writes('f4200', b'x')


def more_than_the_memory_is_said(program):
    """Before it is taken: of a file of 4 TiB, which has holes alone."""
    with tempfile.TemporaryDirectory() as folder:
        at = made(folder, 'great')
        with open(os.path.join(at, 'holes'), 'wb') as it:
            it.truncate(1 << 42)
        share = program.begins('share', *FREE, at, stdin=subprocess.DEVNULL, stdout=subprocess.PIPE, stderr=subprocess.PIPE)
        said = share.stderr.readline().decode()
        share.kill()
        share.communicate()
        return said.startswith(f'{at}: its files take {(1 << 42) + 12_288} bytes, more than the ')


def journals_are_refused(program):
    """A file that is no journal, and a record."""
    with tempfile.TemporaryDirectory() as folder:
        at, record = made(folder), os.path.join(folder, 'record')
        program.ran('serve', '--turns', '1', *FREE, '--record', record)
        rule = 'no journal: its first line is not that of one; name a file that --journal made'
        return not any([differs(program.ran('share', *FREE, at, '--journal', name, given=b''),
                                (1, b'', f'journal: {name}: {rule}\n'), name)
                        for name in (os.path.join(at, 'a.txt'), record)])


def a_password_is_no_word(program):
    """No word takes one, and it is shown by none of what is said."""
    with tempfile.TemporaryDirectory() as folder:
        at = made(folder)
        with Shared(program, at, '--account', 'ann', given=b'a secret\n') as share:
            with open(f'/proc/{share.process.pid}/cmdline', 'rb') as it:
                words = it.read()
            said = ''.join(share.said)
        wrong = program.run('share', at, '--password', 'x')[0]
        return b'secret' not in words and 'secret' not in said and wrong == 2


def several_addresses_are_listened_at(program):
    """By `share` and by `serve`, of IPv4 and of IPv6: at each clients come, in any order; one that is in use is named."""
    hosts, wrong = ('127.0.0.1', '::1', '127.0.0.2'), []
    listen = [word for host in hosts for word in ('--listen', f'[{host}]:0' if ':' in host else f'{host}:0')]
    with tempfile.TemporaryDirectory() as folder:
        at = made(folder)
        for words in (('share', at), ('serve',)):
            share = program.begins(*words, *listen, stdin=subprocess.DEVNULL, stdout=subprocess.PIPE, stderr=subprocess.PIPE)
            ports = [int(share.stderr.readline().decode().rpartition(':')[2]) for _ in hosts]
            clients = [Client(ports[i], program.patience, hosts[i]) for i in (2, 0, 1, 1, 0, 2, 2, 2)]
            wrong.append(differs([it.is_served() for it in clients], [True] * len(clients), words))
            share.kill()
            share.communicate()
        with socket.create_server(('127.0.0.1', 0)) as taken:
            address = f'127.0.0.1:{taken.getsockname()[1]}'
            said = f'listen: failed\n{address}: {IN_USE}\n'
            for words in (('share', at), ('serve', '--explain', '--turns', '1')):
                wrong.append(differs(program.ran(*words, *listen, '--listen', address, given=b''), (1, b'', said), words))
        many, said = FREE * 17, 'listen: too many addresses: give at most 16\n'
        for words in (('share', at), ('serve', '--turns', '1')):
            wrong.append(differs(program.ran(*words, *many, given=b''), (1, b'', said), words))
    return not any(wrong)


def sharing_ends_without_memory(program):
    """Up to where it would listen, at an address that another program has: with accounts, and with names that are looked for."""
    with tempfile.TemporaryDirectory() as folder, socket.create_server(('127.0.0.1', 0)) as taken:
        at, address = made(folder), ('--listen', f'127.0.0.1:{taken.getsockname()[1]}')
        file, journal = put(os.path.join(folder, 'passwords'), 'Password\nsecret\n'), os.path.join(folder, 'journal')
        with Shared(program, at, '--journal', journal):
            pass
        runs = ((at, '--account', 'ann', '--account', 'bob', '--capacity', '1GiB', '--passwords', file),
                (os.path.join(at, 'inner', '..'), '--guests'), (at, '--name', 'a b'), (at, '--capacity', '10G'),
                (at, '--account', 'guest'), (at, '--journal', journal))
        return all(ends_without_memory(program, 'share', *words, *address) for words in runs)


TESTS = (a_folder_is_shared_with_guests, accounts_come_in_by_their_passwords, passwords_that_others_may_read_are_said,
         a_journal_goes_on, an_empty_file_takes_the_folder, sizes_are_refused, sizes_are_taken, names_are_refused,
         a_folder_without_a_last_name_has_that_of_its_path, accounts_are_refused, passwords_are_refused, addresses_are_refused,
         folders_are_refused, limits_are_those_of_the_folder, more_than_the_memory_is_said, journals_are_refused, a_password_is_no_word,
         several_addresses_are_listened_at)
WITHOUT_MEMORY = (sharing_ends_without_memory,)
