"""A row's frames with a server's own numbers put in place: of sessions, tree connects, opens and MessageIds; and with
its names in the directory of a script."""
import collections
import struct

from conform.steps import RENAME
from conform.wire import CANCEL, CREDITS, HEADER_SIZE, charge_in, command_in, command_name, session_in
from tools.frame import REQUESTS, table

TREE_CONNECT, CREATE, SET_INFO = 3, 5, 17
# A session, a tree connect and half a FileId that no server gave; and the greatest of each, which have their meaning.
NO_SESSION, NO_TREE, NO_OPEN = 0x7FFF_FFFF_0123_4567, 0x7FFF_0123, bytes.fromhex('6745230123456701')
MOST_OF_4, MOST_OF_8 = 2 ** 32 - 1, 2 ** 64 - 1
NAME_AT, RENAME_FIXED, BODY_OF_SET_INFO = 120, 20, 96

# What is asked, as far as it says which fields of an answer are compared.
Asked = collections.namedtuple('Asked', 'command kind number looks room flags')


class NotWhole(Exception):
    """A name that can't be put into a directory, since its place or its length is none."""


def offset_of(command, field):
    """Where a request's body has a field, in the message; none where it has none."""
    at = HEADER_SIZE
    for name, width, *_ in table(REQUESTS.get(command, ''))[0]:
        if name == field:
            return at
        at += width
    return None


def number_at(message, command, field, width):
    """A number of a request's body; 0 where the message ends before."""
    at = offset_of(command, field)
    return int.from_bytes(message[at:at + width], 'little')


def asked_in(message):
    """What a request asks, as far as it says what is compared."""
    command = command_name(command_in(message))
    if command == 'QUERY_INFO':
        return Asked(command, number_at(message, command, 'InfoType', 1),
                     number_at(message, command, 'FileInfoClass', 1), False, 0, 0)
    if command == 'QUERY_DIRECTORY':
        return Asked(command, 0, number_at(message, command, 'FileInformationClass', 1), False,
                     number_at(message, command, 'OutputBufferLength', 4), number_at(message, command, 'Flags', 1))
    looks = command == 'CLOSE' and number_at(message, command, 'Flags', 2) == 1
    return Asked(command, 0, 0, looks, 0, 0)


def whole_body(message):
    """A request with the byte of its buffer that its StructureSize counts, where the row ends before it: some servers
    want it, and none may look at it."""
    fields = table(REQUESTS.get(command_name(command_in(message)), ''))[0]
    if not fields or message[64:66] != int(fields[0][2]).to_bytes(2, 'little'):
        return message
    missing = HEADER_SIZE + int(fields[0][2]) - len(message)
    return message + bytes(missing == 1)


def used_by(message):
    """How many MessageIds a request uses."""
    return 0 if command_in(message) == CANCEL else charge_in(message)


class Places:
    """The numbers of a row, and those that a server has in their place."""

    def __init__(self):
        self.sessions, self.trees, self.opens = {}, {}, {}

    def comes_in(self, step, link):
        self.sessions[step.session] = link.session
        self.trees[step.session, step.tree] = link.tree

    def placed(self, message, link, path, share):
        """A request of a row as this server is asked it; `path` gives a name its place, `share` is the share's path."""
        message = whole_body(named(message, path, share))
        session, tree = session_in(message), struct.unpack_from('<I', message, 36)[0]
        head = (message[:14] + struct.pack('<H', CREDITS) + message[16:24]
                + struct.pack('<Q', link.next_id(used_by(message))) + message[32:36]
                + struct.pack('<IQ', self.tree(session, tree), self.session(session)))
        return head + self.with_open(message[48:], offset_of(command_name(command_in(message)), 'FileId'))

    def session(self, number):
        return self.sessions.get(number, number if number in (0, MOST_OF_8) else NO_SESSION)

    def tree(self, session, number):
        found = self.trees.get((session, number))
        return found if found is not None else number if number in (0, MOST_OF_4) else NO_TREE

    def with_open(self, rest, at):
        """What follows a header's SessionId, with the FileId that this server gave."""
        if at is None or len(rest) < at - 48 + 16:
            return rest
        at -= 48
        return rest[:at] + self.open(rest[at:at + 16]) + rest[at + 16:]

    def open(self, file_id):
        """A FileId of this server: of an open that a CREATE made; else one that is of no open."""
        if file_id in self.opens or file_id == b'\xff' * 16:
            return self.opens.get(file_id, file_id)
        of_half = self.opens.get(file_id[:8] * 2)
        if of_half:
            return of_half[:8] + bytes(it ^ 0xFF for it in of_half[8:])
        return NO_OPEN * 2 if file_id[:8] == file_id[8:] else NO_OPEN + NO_OPEN[::-1]

    def learns(self, asked, stored, answer):
        """Keeps the numbers that an answer gave, by those of the row's."""
        command = command_in(asked)
        if command == CREATE and 'FileId' in answer.fields:
            self.opens[stored[128:144]] = bytes.fromhex(answer.fields['FileId'])
        if command == TREE_CONNECT and answer.status == 0:
            self.trees[session_in(stored), struct.unpack_from('<I', stored, 36)[0]] = answer.fields['TreeId']


def named(message, path, share):
    """A request whose names are in the directory of a script."""
    command = command_in(message)
    if command == CREATE:
        return with_name(message, path)
    if command == TREE_CONNECT:
        return with_share(message, share)
    is_rename = command == SET_INFO and message[64:68] == struct.pack('<HBB', 33, 1, RENAME)
    return with_target(message, path) if is_rename else message


def in_folder(units, path):
    """A name in the directory of a script; a separator in front stays there."""
    name = units.decode('utf-16-le', 'surrogatepass')
    text = '\\' + path(name[1:]) if name.startswith('\\') else path(name)
    return text.encode('utf-16-le', 'surrogatepass')


def with_name(message, path):
    """A CREATE with another name; what is behind the name stays there."""
    if len(message) < NAME_AT:
        return message
    at, size, contexts = struct.unpack_from('<HHI', message, 108)
    if size % 2 or size and at != NAME_AT or NAME_AT + size > len(message):
        raise NotWhole
    name = in_folder(message[NAME_AT:NAME_AT + size], path)
    behind = message[NAME_AT + size:] if size else b''
    if contexts:
        raise NotWhole
    fields = struct.pack('<HH', NAME_AT, len(name))
    return message[:108] + fields + message[112:NAME_AT] + name + behind


def with_share(message, share):
    """A TREE_CONNECT of the share of the rows asks for the share of this server."""
    at, size = struct.unpack_from('<HH', message, 68)
    name = message[at:at + size].decode('utf-16-le', 'replace')
    if at != 72 or name.rpartition('\\')[2].lower() != 'data' or name.count('\\') != 3:
        return message
    units = share.encode('utf-16-le')
    return message[:68] + struct.pack('<HH', at, len(units)) + units + message[at + size:]


def with_target(message, path):
    """A rename to another name; what is wrong with the length of the name stays wrong."""
    length, at = struct.unpack_from('<IH', message, 68)
    if at != BODY_OF_SET_INFO or at + length > len(message) or length < RENAME_FIXED:
        return message
    buffer = message[at:at + length]
    size, units = struct.unpack_from('<I', buffer, 16)[0], buffer[RENAME_FIXED:]
    if size % 2 and size < len(units) or len(units) % 2 or 0 < size < len(units):
        raise NotWhole
    name = in_folder(units, path) if units else b''
    buffer = buffer[:16] + struct.pack('<I', max(size and size + len(name) - len(units), 0)) + name
    return message[:68] + struct.pack('<I', len(buffer)) + message[72:at] + buffer + message[at + length:]
