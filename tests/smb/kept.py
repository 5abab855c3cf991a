"""A share that is kept in a file, and a client that sees all of it."""
import collections
import os
import re
import struct
import subprocess

from tests.smb.client import ALL_ACCESS, LONGEST_PIECE, PATIENCE, Client
from tests.smb.frames import close, create, query_directory, read
from tests.smb.program import GUEST
from tests.smb.working import DIRECTORY_FILE, FILE_ID_AT, HEADER, OPEN, Working

# Attributes, and what answers where a folder has no more names.
READONLY, FOLDER, NO_MORE_FILES = 1, 0x10, 0x80000006
# Where a response to a READ has its bytes, and one to a QUERY_DIRECTORY its entries.
BYTES_AT, ENTRIES_AT = 80, 72
# How many units of 100 ns a second has, and which one is that of 1970.
SECOND, OF_1970 = 10_000_000, 116_444_736_000_000_000

# What is said of a journal or a recording whose end is cut.
CUT = r'(?:journal|record): standard input: its last (?:batch|line) was cut: (?:1 byte is|\d+ bytes are) left out\n'

# How many bytes of room a journal of few files has.
ROOM = 4 << 20

# What a client sees of a file or a folder: its bytes, None of a folder; whether it is READONLY; and when it was
# written, in seconds since 1970.
Entry = collections.namedtuple('Entry', 'bytes is_readonly written')


def keeping(program, *words, **limits):
    """The program, serving a share that lets guests in, with these words behind."""
    return program.serve('--config', GUEST, *words, **limits)


def with_room(file):
    """A journal's name, beside which there is a file of room: a hole, which no limit of a file's size forbids."""
    with open(f'{file}.room', 'wb') as it:
        it.truncate(ROOM)
    return file


def names_in(folder):
    """What is in a folder, but for files of room."""
    return sorted(name for name in os.listdir(folder) if not name.endswith('.room'))


def begins_to_keep(program, file, *words, **how):
    """A process of the program that begins to serve a share, which it keeps in a journal."""
    words = ('serve', '--listen', '127.0.0.1:0', '--config', GUEST, *words, '--journal', file)
    return program.begins(*words, **{'stderr': subprocess.DEVNULL, **how})


def begun(program, *words, config=GUEST, longest=None):
    """What a server says that takes one turn, where it comes to it: its status and standard error."""
    at_once = ('serve', '--listen', '127.0.0.1:0', '--turns', '1', '--config', config)
    status, _, errors = program.ran(*at_once, *words, longest=longest)
    return status, errors


def ended(share):
    """The status of a server that ends by itself, and what it said behind its first line."""
    _, errors = share.process.communicate(timeout=PATIENCE)
    return share.process.returncode, errors.decode()


def killed(share):
    """Ends a server by SIGKILL, and waits until it is gone."""
    share.process.kill()
    share.process.wait()


def answered_in(program, file):
    """The lines that a replay of a recording prints; it has to end well."""
    status, output, errors = program.ran('replay', '--recording', file)
    if (status, errors) != (0, ''):
        raise AssertionError(f'the replay ends with {status}: {errors!r}')
    return output.decode('ascii').splitlines()


def taken_out(program, file, folder, longest=None):
    """The status and standard error of an extraction of a file into a folder."""
    with open(file, 'rb') as it:
        return program.ran('extract', folder, given=it, longest=longest)[::2]


def extracted(program, file, folder):
    """The same, without the line that its end is cut."""
    status, errors = taken_out(program, file, folder)
    return status, re.sub(CUT, '', errors)


def checked(program, file):
    """The status, standard output and standard error of a check of a journal, which is not written by it."""
    before = bytes_of(file), os.stat(file).st_mtime_ns
    status, output, errors = program.ran('check-journal', file)
    if (bytes_of(file), os.stat(file).st_mtime_ns) != before:
        raise AssertionError(f'a check writes to {file}')
    return status, output.decode(), errors


def cut_end(name, count, word='journal', end='batch'):
    """What is said of a file whose end is cut, where so many bytes of it are left out."""
    left = '1 byte is' if count == 1 else f'{count} bytes are'
    return f'{word}: {name}: its last {end} was cut: {left} left out\n' if count else ''


def differs(found, wanted, what):
    """Whether it is not what is wanted, which is said."""
    if found == wanted:
        return False
    print(f'  {what}: {found}, not {wanted}', flush=True)
    return True


def bytes_of(file):
    with open(file, 'rb') as it:
        return it.read()


def put(file, data):
    """Makes a file of these bytes, and gives its name."""
    with open(file, 'wb') as it:
        it.write(data)
    return file


def entry_of(path):
    """What stands at a path of the system, as a share has it: nothing was written before 1970."""
    found = os.stat(path)
    data = None if os.path.isdir(path) else bytes_of(path)
    return Entry(data, found.st_mode & 0o200 == 0, max(0, found.st_mtime_ns // 10 ** 9))


def tree_of(folder):
    """All files and folders below a folder of the system, by their paths as a share has them."""
    found = {}
    for at, folders, files in os.walk(folder):
        for name in folders + files:
            path = os.path.join(at, name)
            found[os.path.relpath(path, folder).replace('/', '\\')] = entry_of(path)
    return found


def bytes_in(tree):
    """The bytes of all files and folders, without their times and attributes."""
    return {path: entry.bytes for path, entry in tree.items()}


class Looking(Working):
    """A client that comes in, and lists and reads all files."""

    def __init__(self, share, number=0, seed=0):
        super().__init__(share, number, seed)

    def comes_in(self):
        self.logs_in()
        return self

    def opens(self, name, access=ALL_ACCESS, disposition=OPEN, options=0):
        """The number of a new open."""
        reply = self.asks(create(self.next_id(), name, access, disposition, options, self.session, 1), 0, None)
        return struct.unpack_from('<Q', reply, FILE_ID_AT)[0]

    def ends(self, number):
        self.asks(close(self.next_id(), number, self.session, 1), 0, None)

    def any_status(self, frame):
        """The answer to a request, whatever its status, and that."""
        self.client.send(frame)
        reply = self.client.reply()
        if len(reply) < HEADER:
            raise AssertionError('the share ends the client')
        return reply, struct.unpack_from('<I', reply, 8)[0]

    def bytes_of(self, name):
        """All bytes of a file."""
        number, found = self.opens(name, 1), b''
        while True:
            reply, status = self.any_status(read(self.next_id(), number, len(found), LONGEST_PIECE, self.session, 1))
            if status != 0:
                self.ends(number)
                return found
            found += reply[BYTES_AT:]

    def entries(self, folder):
        """The entries of a folder, in parts as they come: a name, attributes, and when each was written."""
        number = self.opens(folder, 1, OPEN, DIRECTORY_FILE)
        while True:
            frame = query_directory(self.next_id(), number, 1, 0, '*', LONGEST_PIECE, self.session, 1)
            reply, status = self.any_status(frame)
            if status != 0:
                self.ends(number)
                if status != NO_MORE_FILES:
                    raise AssertionError(f'a folder is listed with status {status:08x}')
                return
            yield from listed(reply[ENTRIES_AT:])

    def tree(self, folder=''):
        """All files and folders, by their paths."""
        found = {}
        for name, attributes, written in list(self.entries(folder)):
            path = f'{folder}\\{name}' if folder else name
            is_folder = attributes & FOLDER != 0
            data = None if is_folder else self.bytes_of(path)
            found[path] = Entry(data, attributes & READONLY != 0, (written - OF_1970) // SECOND)
            found.update(self.tree(path) if is_folder else {})
        return found


def listed(entries):
    """The entries of a FileDirectoryInformation, without the folder itself and the one above."""
    at, step = 0, None
    while step != 0:
        step, written = struct.unpack_from('<I', entries, at)[0], struct.unpack_from('<Q', entries, at + 24)[0]
        attributes, length = struct.unpack_from('<II', entries, at + 56)
        name = entries[at + 64:at + 64 + length].decode('utf-16-le')
        if name not in ('.', '..'):
            yield name, attributes, written
        at += step


def tree_in(share):
    """All files and folders that a new client sees."""
    client = Looking(share).comes_in()
    found = client.tree()
    client.client.end()
    return found


class Heard(Client):
    """A client's stream, with all bytes that were taken of it."""

    def __init__(self, port):
        super().__init__(port)
        self.heard = b''

    def bytes(self, count):
        found = super().bytes(count)
        self.heard += found
        return found
