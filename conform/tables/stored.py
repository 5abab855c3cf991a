"""The rows of the share that a client can play (crates/smb_rows/stdin): their frames, behind a login of its own.

What no client can play, or what is no matter of another server, is left out, with the reason: `left_out` counts it.
"""
import collections
import functools

from conform.places import NotWhole, named
from conform.steps import Comes, Frame, Script
from conform.wire import CANCEL, Fault, charge_in, command_in, messages_of, number_in, session_in
from tests.smb.between import frames_of
from tests.smb.rows import Rows
from tools import frame as frame_tool

NEGOTIATE, SESSION_SETUP, TREE_CONNECT, LOGINS = 0, 1, 3, (0, 1)
# What lines say that no client can play, and why.
REASONS = (
    (('=', '!', 'show', 'hex', ':', 'nothing'), 'of a text, not of a share'),
    (('config',), 'of another configuration'),
    (('ntlm', 'account'), 'of logins'),
    (('times',), 'of a limit of this share'),
    (('x',), 'the connection is ended'),
)


class LeftOut(Exception):
    """Why a row is not played."""


def scripts():
    """The rows that are played."""
    return [it for it in all_rows().values() if isinstance(it, Script)]


def left_out():
    """How many rows are not played, by the reason."""
    return collections.Counter(it for it in all_rows().values() if isinstance(it, str))


@functools.lru_cache(maxsize=None)
def all_rows():
    """Each row, by its name: its script, or the reason why it has none."""
    rows = Rows()
    return {name: script_or_reason(rows, name) for name in rows.lines}


def script_or_reason(rows, name):
    try:
        return script_of(name, lines_of(rows, name), rows.named)
    except LeftOut as why:
        return str(why)
    except Fault:
        return 'no frame of SMB2'


def lines_of(rows, name):
    """The lines of a row, with those of the rows that it follows."""
    found = []
    for line in rows.lines[name]:
        sign, _, rest = line.partition(' ')
        found += lines_of(rows, rest) if sign == 'after' else [line]
    return found


def script_of(name, lines, known):
    """The script of a row's lines."""
    signs = [line.partition(' ')[0] for line in lines]
    for which, why in REASONS:
        if any(sign in which for sign in signs):
            raise LeftOut(why)
    last = max((i for i, sign in enumerate(signs) if sign != '-'), default=0)
    if '-' in signs[:last]:
        raise LeftOut('a connection ends within it')
    answers, events = answers_in(lines, known), requests_in(lines, known)
    steps, clients = [], {}
    for number, frame in events:
        messages = messages_of(frame[4:])
        client = clients.setdefault(number, Client(number, answers.get(number, {})))
        steps += client.steps(messages)
    if not any(isinstance(it, Frame) for it in steps):
        raise LeftOut('of how a client comes in')
    dialect = next(it.dialect for it in steps if isinstance(it, Comes))
    return Script('rows', name, tuple(steps), dialect)


def streams_in(lines, signs, known):
    """The frames that lines with these signs have, each with the number of its connection, in order."""
    rests = collections.defaultdict(bytes)
    for line in lines:
        sign, _, text = line.partition(' ')
        number, _, words = text.partition(' ')
        if sign not in signs:
            continue
        rests[number] += frame_tool.as_bytes(words.replace('|', ' '), known)
        frames = list(frames_of(iter((rests[number], b'')).__next__))
        rests[number] = rests[number][sum(map(len, frames)):]
        yield from ((number, frame) for frame in frames)


def requests_in(lines, known):
    return streams_in(lines, ('>', '>>'), known)


def answers_in(lines, known):
    """The row's answers of each connection, by their MessageIds."""
    found = collections.defaultdict(dict)
    for number, frame in streams_in(lines, ('<',), known):
        found[number].update({number_in(it): it for it in messages_of(frame[4:])})
    return found


class Client:
    """A connection of a row, whose first three requests are a login in the place of which another one comes."""

    def __init__(self, number, answers):
        self.number, self.answers = number, answers
        self.seen, self.next, self.dialect = 0, 0, 0

    def steps(self, messages):
        """The steps that a frame is."""
        stored = tuple(self.answer(it) for it in messages)
        self.counts(messages)
        self.seen += 1
        if self.seen <= 3:
            return self.comes(messages, stored)
        if any(command_in(it) in LOGINS for it in messages):
            raise LeftOut('of logins')
        for it in messages:
            checked(it)
        return [Frame(tuple(messages), stored, self.number)]

    def answer(self, message):
        """The row's answer to a request; a CANCEL has none."""
        if command_in(message) == CANCEL:
            return None
        if number_in(message) not in self.answers:
            raise LeftOut('the connection is ended')
        return self.answers[number_in(message)]

    def counts(self, messages):
        """Each MessageId is the next one; a CANCEL uses none."""
        for it in messages:
            if command_in(it) == CANCEL:
                continue
            if number_in(it) != self.next:
                raise LeftOut('MessageIds out of turn')
            if charge_in(it) > 1 and self.dialect == 0x0202:
                raise LeftOut('a charge in dialect 2.0.2')
            self.next += charge_in(it)

    def comes(self, messages, stored):
        """Nothing, and behind the third request that the client comes in."""
        wanted = (NEGOTIATE, SESSION_SETUP, TREE_CONNECT)[self.seen - 1]
        status = int.from_bytes(stored[0][8:12], 'little') if stored[0] else 1
        if len(messages) > 1 or command_in(messages[0]) != wanted or status:
            raise LeftOut('of how a client comes in')
        if wanted == NEGOTIATE:
            self.dialect = int.from_bytes(stored[0][68:70], 'little')
        if wanted != TREE_CONNECT:
            return []
        tree = int.from_bytes(stored[0][36:40], 'little')
        return [Comes(session_in(stored[0]), tree, self.dialect, self.number)]


def checked(message):
    """A request whose names can be put into a directory."""
    try:
        named(message, lambda name: f'folder\\{name}', '\\\\server\\share')
    except NotWhole:
        raise LeftOut('a name whose place or length is none') from None
