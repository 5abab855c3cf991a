"""A client at work on a file of its own, which checks each answer by its own model of that file."""
import random
import struct

from tests.smb.chance import some_bytes
from tests.smb.client import ALL_ACCESS, LONGEST_PIECE
from tests.smb.frames import (close, create, lock, negotiate, query_directory, query_info, read, rename, session_setup,
                              set_info, tree_connect, write)

SUPERSEDE, OPEN, CREATE = 0, 1, 2
DIRECTORY_FILE, DELETE_ON_CLOSE = 1, 0x1000
STANDARD, DISPOSITION, END_OF_FILE, NAMES, RESTART_SCANS = 5, 13, 20, 12, 1
SHARED, EXCLUSIVE, UNLOCK, FAIL_IMMEDIATELY = 1, 2, 4, 16
AT_ITS_END, LOCK_CONFLICT, NOT_GRANTED = 0xC0000011, 0xC0000054, 0xC0000055
# Where a response has its Credits, MessageId and SessionId; where that of a CREATE has its EndOfFile and FileId.
CREDITS_AT, MESSAGE_ID_AT, SESSION_ID_AT, SIZE_AT, FILE_ID_AT, HEADER = 14, 24, 40, 112, 128, 64
REFUSAL, SET = struct.pack('<H7x', 9), struct.pack('<H', 2)
CLUSTER = 4_096
# How many bytes a file of these clients has at most, and how many requests are sent at once.
LONGEST_FILE, MOST_AT_ONCE = 400_000, 8


class Wrong(Exception):
    """An answer that is none by the client's own model."""


class Ended(Exception):
    """The share has ended the client's stream."""


class Working:
    """A client that comes in, opens the folder at the top, and makes a file of its own."""

    def __init__(self, share, number, seed, options=0):
        self.chance = random.Random(f'{seed}/{number}')
        self.client, self.number, self.options = share.client(), number, options
        self.message_id = self.session = self.answered = self.renames = 0
        self.folder = self.file = self.held = None
        self.name, self.bytes = f'{number:02} 0', bytearray()

    def logs_in(self):
        self.asks(negotiate(self.next_id()), 0, None)
        reply = self.asks(session_setup(self.next_id()), 0, None)
        self.session = struct.unpack_from('<Q', reply, SESSION_ID_AT)[0]
        self.asks(tree_connect(self.next_id(), self.session), 0, None)

    def comes_in(self):
        self.logs_in()
        self.folder = self.opened('', 1, OPEN, DIRECTORY_FILE)
        self.make()

    def make(self):
        """Makes the file, or has it without bytes."""
        self.bytes, self.held = bytearray(), None
        self.file = self.opened(self.name, ALL_ACCESS, SUPERSEDE, self.options)

    def opened(self, name, access, disposition, options):
        """The number of a new open; what it shows has the size of the file."""
        frame = create(self.next_id(), name, access, disposition, options, self.session, 1)
        reply = self.asks(frame, 0, None)
        size = len(self.bytes) if disposition == OPEN and name else 0
        if struct.unpack_from('<Q', reply, SIZE_AT)[0] != size:
            raise Wrong(f'client {self.number}: a CREATE shows another size than {size}')
        return struct.unpack_from('<Q', reply, FILE_ID_AT)[0]

    def next_id(self):
        self.message_id += 1
        return self.message_id - 1

    def asks(self, frame, status, body):
        """The answer to a request, which has this status and body; a body may be a test of it, or be left open."""
        return self.ask_at_once([(frame, status, body)])

    def ask_at_once(self, requests):
        """Sends some requests, and takes their answers in turn; the last one is returned."""
        try:
            self.client.send(b''.join(frame for frame, _, _ in requests))
        except ConnectionError:
            raise Ended from None
        for request in requests:
            reply = self.takes(*request)
        return reply

    def reply(self):
        """The payload of the next frame, and whether it is whole: its stream may end within it."""
        head = self.client.bytes(4)
        payload = self.client.bytes(int.from_bytes(head, 'big')) if len(head) == 4 else b''
        if len(payload) < HEADER:
            raise Ended
        return payload, len(payload) == int.from_bytes(head, 'big')

    def takes(self, frame, status, body):
        reply, is_whole = self.reply()
        asked, found = frame[4:4 + HEADER], reply[:HEADER]
        is_right = (
            found[:6] == asked[:6] and found[12:14] == asked[12:14] and found[16] & 1
            and found[MESSAGE_ID_AT:MESSAGE_ID_AT + 8] == asked[MESSAGE_ID_AT:MESSAGE_ID_AT + 8]
            and struct.unpack_from('<H', found, CREDITS_AT)[0] >= 1
            and (not self.session or struct.unpack_from('<Q', found, SESSION_ID_AT)[0] == self.session)
            and struct.unpack_from('<I', found, 8)[0] == status)
        behind = reply[HEADER:]
        if isinstance(body, bytes):
            is_right = is_right and body.startswith(behind) and (not is_whole or behind == body)
        elif body is not None:
            is_right = is_right and (not is_whole or body(behind))
        if not is_right:
            raise Wrong(f'client {self.number}: asked {asked.hex()}, status {status:08x}, got {reply[:200].hex()}')
        if not is_whole:
            raise Ended
        self.answered += 1
        return reply

    def works(self):
        """Does one thing after the other: mostly some requests at once, at times what needs an answer in between."""
        chance = self.chance.random()
        if chance < 0.05 and not self.options:
            self.opens_again()
        elif chance < 0.08 and not self.options:
            self.makes_anew()
        else:
            doing = (self.writes, self.writes, self.reads, self.reads, self.sets_size, self.locks, self.looks,
                     self.renames_it, self.lists)
            self.ask_at_once([self.chance.choice(doing)() for _ in range(self.chance.randint(1, MOST_AT_ONCE))])

    def opens_again(self):
        self.asks(*self.closes(self.file))
        self.file, self.held = self.opened(self.name, ALL_ACCESS, OPEN, 0), None

    def makes_anew(self):
        self.deletes()
        self.make()

    def deletes(self):
        self.asks(set_info(self.next_id(), self.file, DISPOSITION, b'\1', self.session, 1), 0, SET)
        self.asks(*self.closes(self.file))

    def goes(self):
        """Deletes the file, closes what is open, and ends."""
        self.deletes()
        self.asks(*self.closes(self.folder))
        self.client.end()

    # Requests, and the status and the body that have to answer them.

    def closes(self, number):
        return close(self.next_id(), number, self.session, 1), 0, struct.pack('<H58x', 60)

    def is_held(self, at, size):
        """Whether the lock that the client holds overlaps a range."""
        return self.held is not None and self.held[0] < at + size and at < self.held[0] + self.held[1]

    def place(self):
        """A place and a size of some bytes of the file."""
        at = self.chance.randrange(LONGEST_FILE)
        size = self.chance.choice((1, 17, CLUSTER, LONGEST_PIECE, self.chance.randint(1, LONGEST_PIECE)))
        return at, min(size, LONGEST_FILE - at)

    def writes(self):
        at, size = self.place()
        data = some_bytes(self.chance, size)
        frame = write(self.next_id(), self.file, at, data, self.session, 1)
        if self.is_held(at, size) and self.held[2] == SHARED:
            return frame, LOCK_CONFLICT, REFUSAL
        self.bytes += bytes(max(0, at - len(self.bytes)))
        self.bytes[at:at + size] = data
        return frame, 0, struct.pack('<HHIII', 17, 0, size, 0, 0)

    def reads(self):
        at, size = self.place()
        frame, data = read(self.next_id(), self.file, at, size, self.session, 1), bytes(self.bytes[at:at + size])
        if not data:
            return frame, AT_ITS_END, REFUSAL
        return frame, 0, struct.pack('<HBBIII', 17, 80, 0, len(data), 0, 0) + data

    def sets_size(self):
        size = self.chance.randrange(LONGEST_FILE)
        self.bytes = self.bytes[:size] + bytes(max(0, size - len(self.bytes)))
        return set_info(self.next_id(), self.file, END_OF_FILE, struct.pack('<Q', size), self.session, 1), 0, SET

    def locks(self):
        """Locks a range where none is held; else unlocks it, or is refused a lock over it."""
        done = 0, struct.pack('<HH', 4, 0)
        if self.held is None:
            self.held = (*self.place(), self.chance.choice((SHARED, EXCLUSIVE)))
            flags, outcome = self.held[2] | FAIL_IMMEDIATELY, done
        elif self.chance.random() < 0.7:
            flags, outcome = UNLOCK, done
        else:
            flags, outcome = EXCLUSIVE | FAIL_IMMEDIATELY, (NOT_GRANTED, REFUSAL)
        frame = lock(self.next_id(), self.file, [(*self.held[:2], flags)], self.session, 1)
        self.held = None if flags == UNLOCK else self.held
        return frame, *outcome

    def looks(self):
        size = len(self.bytes)
        shown = struct.pack('<QQIBBH', -(-size // CLUSTER) * CLUSTER, size, 1, 0, 0, 0)
        frame = query_info(self.next_id(), self.file, STANDARD, self.session, 1)
        return frame, 0, struct.pack('<HHI', 9, 72, len(shown)) + shown

    def renames_it(self):
        self.renames += 1
        self.name = f'{self.number:02} {self.renames}'
        return rename(self.next_id(), self.file, self.name, self.session, 1), 0, SET

    def lists(self):
        """The file alone, or all files: it is among them once."""
        name, is_alone = self.name, self.chance.random() < 0.5
        pattern = f'{self.number:02} *' if is_alone else '*'

        def is_right(body):
            names = names_of(body[8:])
            return names == [name] if is_alone else names[:2] == ['.', '..'] and names.count(name) == 1

        number = self.next_id()
        frame = query_directory(number, self.folder, NAMES, RESTART_SCANS, pattern, LONGEST_PIECE, self.session, 1)
        return frame, 0, is_right


def names_of(listing):
    """The names of a listing of names alone."""
    found, at = [], 0
    while True:
        step, _, length = struct.unpack_from('<III', listing, at)
        found.append(listing[at + 12:at + 12 + length].decode('utf-16-le'))
        if step == 0:
            return found
        at += step
