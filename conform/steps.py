"""The language of scripts: each step is one request of a client, A or B, but for `List`, which is as many as it takes.

    Script('sharing', 'READ_DATA.r--+WRITE_DATA.rwd', (
        Open('x', 'READ_DATA', 'OPEN_IF', share='SHARE_READ'),
        Open('x', 'WRITE_DATA', by='B')))

Names are those of [MS-SMB2], as tools/frame.py takes them; several are joined by `|`. A file is named within the
script's own directory. An open is called as its client is, or as `of` says where one has several. A step whose open is
not there is left out.
"""
import collections
import struct
from dataclasses import dataclass

from conform.wire import command_in, command_name
from tools.frame import Unread, read_message, told

# A script: the table that it is of, its name, which is one word, its steps, and the dialect that it has to be spoken
# in, where it is not as good in either.
Script = collections.namedtuple('Script', 'table name steps dialect', defaults=(None,))

ALL, NOTHING = 'SHARE_READ|SHARE_WRITE|SHARE_DELETE', '0'
BASIC, RENAME, DISPOSITION, ALLOCATION, END_OF_FILE, STANDARD = 4, 10, 13, 19, 20, 5
OF_A_FILE, OF_THE_SHARE = 1, 2
# The table whose scripts are made by chance.
RANDOM = 'random'
# What the open is called by which a script makes what is there before it asks for anything.
MADE = 'made'
RESTART_SCANS, RETURN_SINGLE_ENTRY, REOPEN = 1, 2, 16
QUERY_FLAGS = {'RESTART_SCANS': RESTART_SCANS, 'RETURN_SINGLE_ENTRY': RETURN_SINGLE_ENTRY, 'REOPEN': REOPEN}
WHOLE = 65_536
# All rights, which a line shows as a word.
ALL_ACCESS = struct.pack('<I', 0x1F01FF)
# What only numbers a request; and how many characters of one a line shows.
NUMBERS, LONGEST = ('MessageId', 'SessionId', 'TreeId', 'Credits'), 400


def short(text, longest=LONGEST):
    return text if len(text) <= longest else f'{text[:longest]}.. ({len(text)} characters)'


def listed(text):
    return text.replace('|', ', ')


class Step:
    """What all steps have: the label of their open, and whether it has to be there."""
    command, needs_open, of = '', True, ''

    @property
    def label(self):
        return self.of or self.by

    def words(self):
        """The step as a line of a report."""
        return f'{self.by}: {self.told()}{f" [{self.of}]" if self.of else ""}'


@dataclass(frozen=True)
class Open(Step):
    """A CREATE."""
    name: str
    access: str = 'READ_DATA'
    disposition: str = 'OPEN'
    share: str = ALL
    options: str = '0'
    attributes: str = '0'
    of: str = ''
    by: str = 'A'
    command, needs_open = 'CREATE', False

    def fields(self, side):
        return {'DesiredAccess': self.access, 'FileAttributes': self.attributes, 'ShareAccess': self.share,
                'CreateDisposition': self.disposition, 'CreateOptions': self.options, 'Name': side.path(self.name)}

    def told(self):
        shares = 'all' if self.share == ALL else 'nothing' if self.share == NOTHING else listed(self.share)
        options = f', options {listed(self.options)}' if self.options != '0' else ''
        attributes = f', attributes {listed(self.attributes)}' if self.attributes != '0' else ''
        name = self.name or 'of the script\'s directory'
        return (f'CREATE {name}, {self.disposition}, access {listed(self.access)}, shares {shares}'
                f'{options}{attributes}')


@dataclass(frozen=True)
class Close(Step):
    """A CLOSE, which asks for the file's attributes where `looks` is set."""
    looks: bool = False
    of: str = ''
    by: str = 'A'
    command = 'CLOSE'

    def fields(self, side):
        return {'Flags': int(self.looks), 'FileId': side.file_id(self)}

    def told(self):
        return 'CLOSE, and asks for attributes' if self.looks else 'CLOSE'


@dataclass(frozen=True)
class Flush(Step):
    """A FLUSH."""
    of: str = ''
    by: str = 'A'
    command = 'FLUSH'

    def fields(self, side):
        return {'FileId': side.file_id(self)}

    def told(self):
        return 'FLUSH'


@dataclass(frozen=True)
class Read(Step):
    """A READ."""
    offset: int
    length: int
    least: int = 0
    of: str = ''
    by: str = 'A'
    command = 'READ'

    def fields(self, side):
        return {'Length': self.length, 'Offset': self.offset, 'FileId': side.file_id(self),
                'MinimumCount': self.least, 'Buffer': '00'}

    def told(self):
        return f'READ {self.length} bytes at {self.offset}{f", at least {self.least}" if self.least else ""}'


@dataclass(frozen=True)
class Write(Step):
    """A WRITE."""
    offset: int
    data: bytes
    of: str = ''
    by: str = 'A'
    command = 'WRITE'

    def fields(self, side):
        return {'Offset': self.offset, 'FileId': side.file_id(self), 'Buffer': self.data.hex()}

    def told(self):
        return f'WRITE {len(self.data)} bytes at {self.offset}'


@dataclass(frozen=True)
class Lock(Step):
    """A LOCK of elements, each an offset, a length and flags."""
    elements: tuple
    of: str = ''
    by: str = 'A'
    command = 'LOCK'

    def fields(self, side):
        elements = ','.join(f'{offset}:{length}:{flags}' for offset, length, flags in self.elements)
        return {'FileId': side.file_id(self), 'Locks': elements}

    def told(self):
        return 'LOCK ' + '; '.join(f'{length} bytes at {offset}, {listed(flags)}'
                                   for offset, length, flags in self.elements)


@dataclass(frozen=True)
class QueryInfo(Step):
    """A QUERY_INFO of the open's entry, or of the share."""
    number: int
    room: int = WHOLE
    kind: int = OF_A_FILE
    of: str = ''
    by: str = 'A'
    command = 'QUERY_INFO'

    def fields(self, side):
        return {'InfoType': self.kind, 'FileInfoClass': self.number, 'OutputBufferLength': self.room,
                'FileId': side.file_id(self)}

    def told(self):
        return f'QUERY_INFO of type {self.kind}, class {self.number}, room for {self.room} bytes'


@dataclass(frozen=True)
class SetInfo(Step):
    """A SET_INFO of the open's entry; `says` is what its bytes say."""
    number: int
    data: bytes
    says: str = ''
    of: str = ''
    by: str = 'A'
    command = 'SET_INFO'

    def fields(self, side):
        return {'FileInfoClass': self.number, 'FileId': side.file_id(self), 'Buffer': self.data.hex()}

    def told(self):
        return f'SET_INFO of class {self.number}, {self.says or f"{len(self.data)} bytes"}'


@dataclass(frozen=True)
class Rename(Step):
    """A SET_INFO that renames the open's entry."""
    name: str
    replaces: bool = False
    of: str = ''
    by: str = 'A'
    command = 'SET_INFO'

    def fields(self, side):
        units = side.path(self.name).encode('utf-16-le')
        data = struct.pack('<B7xQI', self.replaces, 0, len(units)) + units
        return {'FileInfoClass': RENAME, 'FileId': side.file_id(self), 'Buffer': data.hex()}

    def told(self):
        return f'SET_INFO, a rename to {self.name}, {"replaces" if self.replaces else "replaces nothing"}'


@dataclass(frozen=True)
class List(Step):
    """QUERY_DIRECTORY until it is refused, or at most so many times; only the first has RESTART_SCANS."""
    pattern: str = '*'
    number: int = 1
    flags: int = 0
    room: int = WHOLE
    most: int = 0
    of: str = ''
    by: str = 'A'
    command = 'QUERY_DIRECTORY'

    def fields(self, side, flags=None):
        return {'FileInformationClass': self.number, 'Flags': self.flags if flags is None else flags,
                'FileId': side.file_id(self), 'FileName': self.pattern, 'OutputBufferLength': self.room}

    def told(self):
        flags = [name for name, bit in QUERY_FLAGS.items() if self.flags & bit]
        times = {0: ', until it is refused', 1: ''}.get(self.most, f', at most {self.most} times')
        return (f'QUERY_DIRECTORY {self.pattern}, class {self.number}, room for {self.room} bytes'
                f'{", " + ", ".join(flags) if flags else ""}{times}')


@dataclass(frozen=True)
class Comes(Step):
    """A client of a row comes in, to what the row calls session and tree connect by these numbers."""
    session: int
    tree: int
    dialect: int
    by: str
    needs_open = False

    def told(self):
        return f'comes in, in dialect {self.dialect:#06x}'


@dataclass(frozen=True)
class Frame(Step):
    """A frame of a row: its requests, and the row's answers, of which a CANCEL has none."""
    messages: tuple
    stored: tuple
    by: str
    needs_open = False

    @property
    def command(self):
        return self.commands()[0]

    def commands(self):
        """The command of each request; of one that is none its number."""
        return [command_name(command_in(it)) for it in self.messages]

    def told(self):
        return ' ; '.join(short(told_message(it)) for it in self.messages)


def told_message(message):
    """A request in the words of tools/frame.py, without what only numbers it."""
    try:
        words = read_message(message).split(' ')
    except Unread:
        return message.hex()
    text = ' '.join(it for it in words if it.partition('=')[0] not in NUMBERS)
    return text.replace(told('DesiredAccess', 4, ALL_ACCESS), 'all')


# SET_INFO by what it says.

def attributes_are(flags, says, **whose):
    return SetInfo(BASIC, struct.pack('<QQQQI4x', 0, 0, 0, 0, flags), f'attributes are {says}', **whose)


def deletes(is_marked=True, **whose):
    says = 'it is to be deleted' if is_marked else 'it is not to be deleted'
    return SetInfo(DISPOSITION, struct.pack('<B', is_marked), says, **whose)


def ends_at(size, **whose):
    return SetInfo(END_OF_FILE, struct.pack('<Q', size), f'it ends at {size}', **whose)


def takes_room(size, **whose):
    return SetInfo(ALLOCATION, struct.pack('<Q', size), f'it has room for {size} bytes', **whose)
