"""Credentials of systemd, reasons in plain words, names of shares and passwords that may not be wanted, the unit of
systemd, and that what is shown can be written by tools/frame.py."""
import os
import re
import shlex
import socket
import subprocess
import sys
import tempfile

from tests.smb.client import PATIENCE, Client
from tests.smb.program import TOP
from tests.words.refusals import ACCOUNTS
from tools import frame as frame_tool

FOLDER = 'CREDENTIALS_DIRECTORY'
BY_NTLM = ('replay', '--explain', '--login', 'ntlm', '--seed', '0' * 32)
NOT_PRIVATE = (1, b'', b'accounts: refused\nfile: no rights for anyone but its owner, such as mode 600\n')
CARRIAGE_RETURN = (b'the password ends in a carriage return, which is taken as a part of it; give it without where '
                   b'it is not meant\n')
READ, WRITE = 'name a file that you may read', 'name a file that you may write to'
NAMED_IPC = ('the share is named IPC$: clients ask a share of that name for other things than files, and may not show '
             'these; give it another name')

# tools/serve.sh, where the program is built.
SERVE = '''
import sys
import serve
serve.program_for = lambda is_proved: sys.argv[1]
sys.exit(serve.start(sys.argv[2:]))
'''


def ran(program, words, given=b'', system=None):
    """The status, standard output and standard error of a run, with these variables besides."""
    return program.run(*words, given=given, env={**os.environ, **(system or {})})


def put(name, text, mode=0o600):
    """Makes a file of this text and mode, and gives its name."""
    with open(name, 'w', encoding='utf-8') as it:
        it.write(text)
    os.chmod(name, mode)
    return name


def with_accounts(program, name, folder):
    """What a replay by a file of accounts gives, where the variable names this folder; None: where there is none."""
    return ran(program, (*BY_NTLM, '--accounts', name), system={} if folder is None else {FOLDER: folder})


def differs(found, wanted, what):
    """Whether it is not what is wanted, which is said."""
    if found == wanted:
        return False
    print(f'  {what}: {found}, not {wanted}', flush=True)
    return True


def a_credential_may_be_read_by_its_group(program):
    """In the folder that the variable names, also with a separator behind it, and whatever its owner may."""
    with tempfile.TemporaryDirectory() as folder:
        name, wrong = put(os.path.join(folder, 'accounts.toml'), ACCOUNTS), []
        for mode in (0o440, 0o640, 0o040, 0o400, 0o600):
            os.chmod(name, mode)
            if mode != 0o040 or os.geteuid() == 0:
                wrong += [differs(with_accounts(program, name, at), (0, b'', b''), f'{mode:o}, {at}') for at in (folder, folder + '/')]
        return not any(wrong)


def no_other_file_may_be_read_by_its_group(program):
    """Without the variable, and where it names another folder: one above, below or beside, nothing, or one that is no path."""
    with tempfile.TemporaryDirectory() as folder:
        inner, beside = os.path.join(folder, 'in'), os.path.join(folder, 'i')
        os.mkdir(inner)
        os.mkdir(beside)
        name = put(os.path.join(inner, 'accounts.toml'), ACCOUNTS, 0o440)
        others = (None, '', '/', folder, beside, name, name[:-5], 'in', inner[1:], inner + 'x', '/' * 5_000)
        wrong = [differs(with_accounts(program, name, other), NOT_PRIVATE, other and other[:99]) for other in others]
        relative = with_accounts(program, os.path.relpath(name), os.path.relpath(inner))
        return not any([*wrong, differs(relative, NOT_PRIVATE, 'paths that do not begin at the root')])


def a_credential_has_no_other_rights(program):
    """For its group no right but to read it, and for others none; and its name is one in the folder itself."""
    with tempfile.TemporaryDirectory() as folder:
        name, wrong = put(os.path.join(folder, 'accounts.toml'), ACCOUNTS), []
        for mode in (0o460, 0o450, 0o444, 0o442, 0o441, 0o420, 0o410, 0o404, 0o644):
            os.chmod(name, mode)
            wrong.append(differs(with_accounts(program, name, folder), NOT_PRIVATE, f'{mode:o}'))
        os.mkdir(os.path.join(folder, 'in'))
        inner = put(os.path.join(folder, 'in', 'accounts.toml'), ACCOUNTS, 0o440)
        os.chmod(name, 0o440)
        for at in (inner, os.path.join(folder, 'in', '..', 'accounts.toml'), os.path.join(folder, '.', 'accounts.toml')):
            wrong.append(differs(with_accounts(program, at, folder), NOT_PRIVATE, at))
        return not any(wrong)


def reasons_are_said_in_plain_words(program):
    """Of a configuration, accounts, a log, a folder, a record, a journal and a recording, each named in one line; never in the
    words of the system's library."""
    serve = ('serve', '--listen', '127.0.0.1:0', '--turns', '1')
    with tempfile.TemporaryDirectory() as folder:
        file, absent = put(os.path.join(folder, 'file'), 'a text'), os.path.join(folder, 'absent', 'file')
        below, odd, shown = os.path.join(file, 'below'), os.path.join(folder, 'a\nb'), os.path.join(folder, 'a\\nb')
        cases = ((('replay', '--explain', '--config', absent), f'config: cannot be read\n{absent}: no such file\n'),
                 (('replay', '--explain', '--config', folder), f'config: cannot be read\n{folder}: is a directory\n'),
                 (('replay', '--explain', '--config', odd), f'config: cannot be read\n{shown}: no such file\n'),
                 ((*BY_NTLM, '--accounts', odd), f'accounts: cannot be read\n{shown}: no such file\n'),
                 ((*BY_NTLM, '--accounts', absent), f'accounts: cannot be read\n{absent}: no such file\n'),
                 ((*BY_NTLM, '--accounts', below), f'accounts: cannot be read\n{below}: not a directory\n'),
                 ((*serve, '--log', absent), f'log: cannot be written: no such file: {absent}; {WRITE}\n'),
                 ((*serve, '--log', folder), f'log: cannot be written: is a directory: {folder}; {WRITE}\n'),
                 ((*serve, '--from', absent), f'folder: {absent}/: cannot be read: no such file\n'),
                 ((*serve, '--from', file), f'folder: {file}/: cannot be read: not a directory\n'),
                 ((*serve, '--record', absent), f'record: {absent}: cannot be written: no such file\n'),
                 ((*serve, '--record', file), f'record: {file}: cannot be written: it exists already; name a new file\n'),
                 ((*serve, '--journal', absent), f'journal: {absent}: cannot be written: no such file\n'),
                 ((*serve, '--journal', below), f'journal: {below}: cannot be read: not a directory; {READ}\n'),
                 (('replay', '--recording', absent), f'journal: {absent}: cannot be read: no such file; {READ}\n'))
        return not any([differs(ran(program, words), (1, b'', said.encode()), words) for words, said in cases])


def a_share_named_ipc_is_said(program):
    """In any case of its letters; it is served all the same, and of another name nothing is said."""
    with open(os.path.join(TOP, 'guest.toml'), encoding='utf-8') as it:
        text = it.read()
    with tempfile.TemporaryDirectory() as folder:
        wrong = []
        for name, said in (('IPC$', (NAMED_IPC,)), ('ipc$', (NAMED_IPC,)), ('IPC', ()), ('data', ())):
            config = put(os.path.join(folder, 'share.toml'), text.replace('share = "data"', f'share = "{name}"'))
            status, _, errors = ran(program, ('serve', '--listen', '127.0.0.1:0', '--turns', '1', '--config', config))
            wrong.append(differs((status, tuple(errors.decode().splitlines()[1:])), (0, said), name))
        return not any(wrong)


def a_carriage_return_in_a_password_is_said(program):
    """Also before the line feed that is dropped; it is hashed with the rest, and nothing is said of one in its midst."""
    plain, returned = ran(program, ('nt-hash',), b'Password'), ran(program, ('nt-hash',), b'Password\r')
    wrong = [differs(ran(program, ('nt-hash',), b'Password\r\n'), returned, 'a line feed behind it'),
             differs(returned[::2], (0, CARRIAGE_RETURN), 'alone'), differs(plain[::2], (0, b''), 'none'),
             differs(ran(program, ('nt-hash',), b'Pass\rword')[::2], (0, b''), 'in its midst'),
             differs(ran(program, ('nt-hash',), b'\r\r\n')[::2], (0, CARRIAGE_RETURN), 'two')]
    return not any(wrong) and returned[1] != plain[1] and len(returned[1]) == 33


def shown_frames():
    """The words of all frames that the demo shows."""
    with open(os.path.join(TOP, 'examples', 'demo.answers'), encoding='utf-8') as answers:
        return [line.split(' ', 2)[2] for line in answers.read().splitlines() if re.match(r'[<>] \d+ ', line)]


def what_the_demo_shows_can_be_written(_program):
    """Each frame; and one with a text as a buffer is the one with its bytes in hex, also with blanks, quotes and a semicolon."""
    frames = shown_frames()
    texts = [words for words in frames if "Buffer='" in words]
    for words in frames:
        frame_tool.as_bytes(frame_tool.write(words))
    for words in texts:
        before, text = words.split("Buffer='")
        if frame_tool.write(words) != frame_tool.write(f'{before}Buffer={text[:-1].encode().hex()}'):
            return False
    odd = "it's 1 ; ECHO \\ 'x'"
    as_hex = f'WRITE FileId=1 Buffer={odd.encode().hex()} ; ECHO MessageId=1'
    return len(texts) > 5 and frame_tool.write(f'WRITE FileId=1 Buffer={odd!r} ; ECHO MessageId=1') == frame_tool.write(as_hex)


def unit_words(variables):
    """The words that the unit of systemd starts the program with, but for the program's own."""
    with open(os.path.join(TOP, 'examples', 'smbshare.service'), encoding='utf-8') as it:
        text = it.read().replace('\\\n', ' ')
    line = re.search(r'^ExecStart=(.*)$', text, re.MULTILINE)[1]
    return shlex.split(re.sub(r'\$\{(\w+)\}', lambda found: variables[found[1]], line))[1:]


def the_unit_serves(program):
    """Its words, at a free port: with accounts as systemd 254 hands them out, for clients of IPv4 and of IPv6."""
    with tempfile.TemporaryDirectory() as folder:
        variables = {name: folder for name in (FOLDER, 'STATE_DIRECTORY', 'LOGS_DIRECTORY')}
        put(os.path.join(folder, 'accounts.toml'), ACCOUNTS, 0o440)
        words = unit_words(variables)
        at, config = words.index('--listen') + 1, words.index('--config') + 1
        is_as_told = words[at] == '[::]:445' and '--explain' in words
        words[at], words[config] = '[::]:0', os.path.join(TOP, 'guest.toml')
        share = program.begins(*words, stdin=subprocess.DEVNULL, stderr=subprocess.PIPE,
                               env={**os.environ, **variables})
        try:
            line = share.stderr.readline().decode()
            if not line.startswith('listening on [::]:'):
                print(f'  {line!r}', flush=True)
                return False
            client, other = Client(int(line.rpartition(':')[2])), Client.__new__(Client)
            other.stream = socket.create_connection(('::1', int(line.rpartition(':')[2])), PATIENCE)
            return is_as_told and client.is_served() and other.is_served()
        finally:
            share.kill()
            share.communicate()


def the_example_is_in_the_document(_program):
    """docs/EMBEDDING.md has the program that serves over TCP as the gate runs it."""
    with open(os.path.join(TOP, 'crates', 'smb_example', 'src', 'over_tcp.rt'), encoding='utf-8') as it:
        lines = [f'    {line}'.rstrip() for line in it.read().splitlines()]
    with open(os.path.join(TOP, 'docs', 'EMBEDDING.md'), encoding='utf-8') as it:
        return '\n'.join(lines) in it.read()


def serve_sh_hands_on_every_word(program):
    """What it does with a command's words is what the program does, but for a note; and so with words of no command."""
    wrong = []
    for words in (('extract', '--help'), ('compact', '--help'), ('nt-hash',), ('sevre',), ('replay', '--other')):
        run = subprocess.run((sys.executable, '-c', SERVE, program.path, *words), cwd=TOP, input=b'Password',
                             capture_output=True, timeout=PATIENCE, env={**os.environ, 'PYTHONPATH': 'tools/lib'})
        note, _, errors = run.stderr.partition(b'\n')
        wrong += [differs((run.returncode, run.stdout, errors), ran(program, words, b'Password'), words),
                  differs(note[:6], b'note: ', words)]
    return not any(wrong)


TESTS = (a_credential_may_be_read_by_its_group, no_other_file_may_be_read_by_its_group, a_credential_has_no_other_rights,
         serve_sh_hands_on_every_word, reasons_are_said_in_plain_words, a_share_named_ipc_is_said,
         a_carriage_return_in_a_password_is_said, what_the_demo_shows_can_be_written, the_unit_serves,
         the_example_is_in_the_document)
