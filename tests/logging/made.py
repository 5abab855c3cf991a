"""A client of a share and the log of what it does, as they are set by hand in rows.py."""
import datetime
import struct

from tests.smb import frames
from tools.lib.refusals import rows, tables

FIELDS = ['moment', 'connection', 'peer', 'user', 'event', 'status', 'microseconds']
# When the built-in share was made, which is when a replay begins; and when the first piece comes, which is 2025-12-08
# 06:11:07.123; and how much later each other one does.
CREATED, FIRST, STEP = 116_444_736_000_000_000, 134_096_478_671_230_000, 12_340_000
SUCCESS = 'STATUS_SUCCESS'
# The bytes of a response by its command, without those of its buffer.
SIZES = {'NEGOTIATE': 128, 'SESSION_SETUP': 72, 'LOGOFF': 68, 'TREE_CONNECT': 80, 'TREE_DISCONNECT': 68, 'CREATE': 152,
         'CLOSE': 124, 'FLUSH': 68, 'READ': 80, 'WRITE': 80, 'LOCK': 68, 'ECHO': 68, 'QUERY_DIRECTORY': 72,
         'QUERY_INFO': 72, 'SET_INFO': 66}
# The bytes of a refusal, before a payload, and of a header.
REFUSAL, FRAME_HEAD, HEADER = 73, 4, 64
# The sentence of each row, of the last of a label.
SENTENCES = dict(rows(tables()))
# A command, and a class of information.
FLUSH, NAMES = 7, 12


def date_of(moment):
    """A moment as the log has it."""
    date = datetime.datetime(1601, 1, 1) + datetime.timedelta(microseconds=moment // 10)
    return f'{date:%Y-%m-%d %H:%M:%S}.{date.microsecond // 1000:03}'


def without_comma(why):
    """A reason as the log has it: without the comma behind its label."""
    return why.replace(',', '', 1)


class Answer:
    """How a request is logged and answered; `more` is how many bytes its response has in its buffer, and `why` the row of
    docs/PROFILE.md by which it is refused: of one that is to be logged with it the label."""

    def __init__(self, event, status=SUCCESS, more=0, user=None, why=None):
        self.event, self.status, self.more, self.user, self.why = event, status, more, user, why

    def microseconds(self):
        """The last field as the log has it: a replay takes no time."""
        return f'0 why="{self.why} {SENTENCES[self.why]}"' if self.why else '0'

    def size(self):
        """How many bytes the response has."""
        return SIZES[self.event.split()[0]] + self.more if self.status == SUCCESS else REFUSAL


class Row:
    """A text of events, and its log."""

    def __init__(self, about):
        self.events, self.lines = [f'# {about}'], ['\t'.join(FIELDS)]
        self.moment, self.opened = CREATED, 0
        self.requests = self.bytes_in = self.bytes_out = 0

    def logs(self, connection, event, user='-', status='-', microseconds='-'):
        """A line of the log, at the moment of the last piece."""
        self.lines.append('\t'.join([date_of(self.moment), str(connection), '-', user, event, status, microseconds]))

    def brings(self, connection, piece):
        """A piece of a client's stream."""
        self.moment = max(self.moment + STEP, FIRST)
        self.events.append(f'> {connection} {self.moment} {piece.hex()}')
        self.bytes_in += len(piece)

    def answers(self, connection, user, answers):
        """The responses of a frame."""
        sizes = [answer.size() for answer in answers]
        self.bytes_out += FRAME_HEAD + sum(size + -size % 8 for size in sizes[:-1]) + sizes[-1]
        self.requests += len(answers)
        for answer in answers:
            self.logs(connection, answer.event, answer.user or user, answer.status, answer.microseconds())

    def texts(self, connections=0, sessions=0, opens=0):
        """The text of the events and that of the log, whose last line says what there is."""
        self.logs('-', f'minute connections={connections} sessions={sessions} opens={opens} requests={self.requests} '
                  f'bytes_in={self.bytes_in} bytes_out={self.bytes_out} out_of_memory=0')
        return '\n'.join(self.events) + '\n', '\n'.join(self.lines) + '\n'


class Client:
    """A client of a row, on a connection of its own."""

    def __init__(self, row):
        row.opened += 1
        self.row, self.number, self.user, self.session, self.tree, self.message_id = row, row.opened, '-', 0, 0, 0
        row.events.append(f'+ {self.number}')
        row.logs(self.number, 'opened')

    def makes(self, make, *words):
        """The frame of the next request, in the client's session and tree connect."""
        self.message_id += 1
        return make(self.message_id - 1, *words, self.session, self.tree)

    def sends(self, piece, *answers):
        """A piece that has a whole frame, and its answers."""
        self.row.brings(self.number, piece)
        if answers:
            self.row.answers(self.number, self.user, answers)

    def asks(self, event, make, *words, status=SUCCESS, more=0, why=None):
        """A request by the function that makes its frame, with its words."""
        self.sends(self.makes(make, *words), Answer(event, status, more, why=why))

    def refused(self, status, why, event, make, *words):
        """A request that is refused by the row of this label, which is logged but where it is None."""
        self.asks(event, make, *words, status=f'STATUS_{status}', why=why)

    def negotiates(self, event='NEGOTIATE 2.1', dialects=(0x0210,)):
        self.asks(event, negotiate, dialects)

    def logs_in(self, session, previous=0):
        """A login, whose session has this number."""
        self.sends(self.makes(login, previous), Answer('SESSION_SETUP', user='ann'))
        self.session, self.user = session, 'ann'

    def connects(self):
        """The first tree connect of the session."""
        self.asks(r'TREE_CONNECT \\server\data', connect, r'\\server\data')
        self.tree = 1

    def comes_in(self, session):
        self.negotiates()
        self.logs_in(session)
        self.connects()
        return self

    def leaves(self):
        """The client's end, where the share has not ended it."""
        self.row.events.append(f'- {self.number}')
        self.row.logs(self.number, 'ended: by the client', self.user)

    def is_ended(self, piece, why):
        """A piece by which the share ends the connection. None of its requests is performed, so none counts."""
        self.row.brings(self.number, piece)
        self.row.logs(self.number, f'ended: by the share, {without_comma(why)}', self.user)


def request(message_id, command, body, session, tree):
    """A frame of a request with this body."""
    return frames.frame(frames.header(command, message_id, session_id=session, tree_id=tree) + body)


def short(message_id, command, session, tree):
    """A frame of a request whose body has 4 bytes."""
    return request(message_id, command, struct.pack('<HH', 4, 0), session, tree)


def negotiate(message_id, dialects, session, tree):
    return frames.negotiate(message_id, dialects)


def login(message_id, previous, session, tree):
    """A frame of a SESSION_SETUP by ann's token, which ends a session before."""
    return frames.session_setup(message_id, previous=previous)


def login_by(message_id, token, session, tree):
    return frames.session_setup(message_id, token)


def connect(message_id, path, session, tree):
    return frames.tree_connect(message_id, session, path)


def create(message_id, name, access, disposition, share, options, session, tree):
    """A frame of a CREATE, which says how it shares."""
    return frames.create(message_id, name, access, disposition, options, session, tree, share)


def flush(message_id, number, session, tree):
    return request(message_id, FLUSH, struct.pack('<HHIQQ', 24, 0, 0, number, number), session, tree)


def query(message_id, kind, number, information_class, session, tree):
    """A frame of a QUERY_INFO of this kind of information."""
    made = frames.query_info(message_id, number, information_class, session, tree)
    place = FRAME_HEAD + HEADER + 2
    return made[:place] + bytes([kind]) + made[place + 1:]


def search(message_id, number, pattern, session, tree):
    """A frame of a QUERY_DIRECTORY of names."""
    return frames.query_directory(message_id, number, NAMES, 0, pattern, 65_536, session, tree)


def set_size(message_id, number, information_class, size, session, tree):
    return frames.set_info(message_id, number, information_class, struct.pack('<Q', size), session, tree)


def related(made):
    """A frame whose request is related to the one before it."""
    place = FRAME_HEAD + 16
    return made[:place] + struct.pack('<I', 4) + made[place + 4:]


def login_again(message_id, session, *_):
    """A frame of a SESSION_SETUP of a session that there is."""
    return frames.session_setup(message_id, b'a', session)


def in_pieces(client, frames, pieces):
    """A stream in other pieces than its frames: of each piece the frames that it completes are answered."""
    ends, at = [sum(len(made) for made, _ in frames[:i + 1]) for i in range(len(frames))], 0
    for piece in pieces:
        client.sends(piece)
        for end, (_, answer) in zip(ends, frames):
            if at < end <= at + len(piece):
                client.row.answers(client.number, '-', [answer])
        at += len(piece)
