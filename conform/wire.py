"""A stream to a server: requests by the standard's names, and answers that are looked at before they are believed.

What a server does that no client can go on from is a Fault, which is told within a bound of time: it closes the
connection, it stalls, or its bytes are no answer to what was asked.
"""
import collections
import hashlib
import hmac
import socket
import struct
import time

from tests.smb.client import Client
from tests.smb.frames import HEADER
from tools import frame as frame_tool

HEADER_FIELDS, HEADER_SIZE = [it[0] for it in frame_tool.table(frame_tool.HEADER)[0]], 64
# How long a payload may be; how many credits a request asks for; and the flags of a response, of one that is not the
# last, with the status that such a one has, and of a message that is signed.
LONGEST, CREDITS, LOGOFF, CANCEL = 8_388_608, 31, 2, 12
IS_RESPONSE, IS_ASYNC, PENDING, IS_SIGNED = 1, 2, 0x103, 8
# The SessionId of a related request of a chain, which is in the session of the one before it ([MS-SMB2] 3.2.4.1.4).
AS_BEFORE = 2 ** 64 - 1
# What waits for other clients, a LOCK and a CHANGE_NOTIFY; for how many seconds it is awaited where a server says that
# it is worked on; and how a server ends what was cancelled.
MAY_WAIT, LONGEST_WAIT, CANCELLED = (10, 15), 1, (0xC0000120, 0xC000007E, 0xC0000055)
# How many bytes of what is no answer are shown; and the name of what is wrong with a body, among its fields.
SHOWN, BROKEN = 32, 'what is wrong with the body'
STALLS = 'it stalls'

# An answer: its status, the fields of its header and body by the standard's names, its buffer, and its frame.
Answer = collections.namedtuple('Answer', 'status fields buffer frame')


class Fault(Exception):
    """What a server did that no client can go on from: of which kind, more of it, and the command that was asked."""

    def __init__(self, kind, more=''):
        super().__init__(kind, more)
        self.kind, self.more, self.command = kind, more, ''

    def __str__(self):
        asked = f', where {self.command} was asked' if self.command else ''
        return f'{self.kind}{asked}{f": {self.more}" if self.more else ""}'


def numbers_of(values):
    """The numbers of fields; those of 16 bytes are hex."""
    return {name: raw.hex() if len(raw) == 16 else int.from_bytes(raw, 'little') for name, raw in values.items()}


class Link(Client):
    """A client's stream to a server. Each answer has to come within some seconds."""

    def __init__(self, host, port, patience):
        try:
            super().__init__(port, patience, host)
        except OSError as why:
            raise Fault('it cannot be reached', why.strerror or str(why)) from None
        self.patience, self.deadline = patience, 0
        self.message_id, self.credits, self.charge, self.session, self.tree = 0, 1, 0, 0, 0
        # The key by which requests are signed, where the server wants that, until the LOGOFF; each refusal, a command
        # and a status; and the answer that says of a request that it waits for other clients.
        self.key, self.refusals, self.pending = b'', [], None

    def next_id(self, charge=1):
        """The first of so many MessageIds, which are used by that."""
        self.message_id += charge
        return self.message_id - charge

    def bytes(self, count):
        """So many bytes, all of which come before the deadline."""
        found = bytearray()
        while len(found) < count:
            self.stream.settimeout(max(self.deadline - time.monotonic(), 0.001))
            try:
                part = self.stream.recv(count - len(found))
            except socket.timeout:
                half = f', but {len(found)} bytes of {count}' if found else ''
                raise Fault(STALLS, f'no whole answer within {self.patience:g} seconds{half}') from None
            except OSError:
                part = b''
            if not part:
                raise Fault('it closes the connection', f'within a frame, behind {len(found)} bytes' if found else '')
            found += part
        return bytes(found)

    def frame(self):
        """The payload of the next frame, whole."""
        head = self.bytes(4)
        size = int.from_bytes(head[1:], 'big')
        if head[0] or not HEADER_SIZE <= size <= LONGEST:
            raise Fault('it answers bytes that are no frame', f'they begin with {head.hex()}')
        return self.bytes(size)

    def asks(self, command, fields):
        """The frame of a request with these texts of fields, and the answer to it."""
        texts = {'CreditCharge': self.charge, 'Credits': CREDITS, 'MessageId': self.next_id(), 'TreeId': self.tree,
                 'SessionId': self.session, **fields}
        frame = framed_words(command, texts)
        return frame, self.answer_to(frame)

    def answer_to(self, frame):
        """The answer to a frame of one request."""
        return self.answers_to(frame)[0]

    def answers_to(self, frame):
        """The answers to a frame of a request or of a chain, in the order of its requests; a CANCEL has none."""
        asked = [it for it in messages_of(frame[4:]) if command_in(it) != CANCEL]
        try:
            self.sends(frame, asked)
            return self.comes_for(asked)
        except Fault as fault:
            fault.command = fault.command or command_name(command_in(asked[0]))
            raise

    def sends(self, frame, asked):
        charge = sum(charge_in(it) for it in asked)
        if self.credits < charge:
            raise Fault('it grants no credits', f'{self.credits}, where {charge} are wanted' if charge > 1 else '')
        self.credits -= charge
        self.begins_to_wait()
        try:
            self.send(self.signed(frame))
        except OSError:
            raise Fault('it closes the connection') from None

    def begins_to_wait(self):
        self.deadline = time.monotonic() + self.patience
        self.stream.settimeout(self.patience)

    def comes_for(self, asked):
        """The answers to these requests, behind those that only say that one is worked on."""
        waiting, found, self.pending = {number_in(it): it for it in asked}, {}, None
        while waiting:
            for message in messages_of(self.awaited()):
                self.takes(self.looked_at(message, waiting), waiting, found)
        answers = [found[number_in(it)] for it in asked]
        self.refusals += [(command_name(it.fields['Command']), it.status) for it in answers if it.status]
        if any(self.is_logged_off(it) for it in answers):
            self.key = b''
        return answers

    def is_logged_off(self, answer):
        """Whether an answer says that the session is over, and with it its key."""
        return answer.fields['Command'] == LOGOFF and answer.status == 0 and answer.fields['SessionId'] == self.session

    def awaited(self):
        """The payload of the next frame. Where none comes, what waits for other clients is cancelled."""
        try:
            return self.frame()
        except Fault as fault:
            if fault.kind != STALLS or self.pending is None:
                raise
        self.cancels(self.pending)
        self.pending = None
        return self.frame()

    def takes(self, answer, waiting, found):
        """Takes an answer. That of a request which was cancelled is that it waits."""
        number = answer.fields['MessageId']
        if answer.status == PENDING and answer.fields['HeaderFlags'] & IS_ASYNC:
            found[number] = answer
            if answer.fields['Command'] in MAY_WAIT:
                self.pending, self.deadline = answer, min(self.deadline, time.monotonic() + LONGEST_WAIT)
            return
        del waiting[number]
        if number not in found or answer.status not in CANCELLED:
            found[number] = answer

    def cancels(self, pending):
        """Sends a CANCEL of the request of which an answer says that it is worked on ([MS-SMB2] 3.2.4.24)."""
        number, of = pending.fields['MessageId'], pending.frame[36:44]
        frame = framed_words('CANCEL', {'HeaderFlags': IS_ASYNC, 'MessageId': number, 'SessionId': self.session})
        self.begins_to_wait()
        self.send(self.signed(frame[:36] + of + frame[44:]))

    def signed(self, frame):
        """A frame whose requests in this session are signed where there is a key; of another session there is none
        ([MS-SMB2] 3.1.4.1)."""
        if not self.key:
            return frame
        own = (self.session, AS_BEFORE)
        messages = messages_of(frame[4:])
        return frame[:4] + b''.join(with_signature(it, self.key) if session_in(it) in own else it for it in messages)

    def looked_at(self, message, waiting):
        """A response that answers one of the requests that wait."""
        fields = dict(zip(HEADER_FIELDS, HEADER.unpack_from(message)))
        is_message = fields['ProtocolId'] == 0x424D53FE and fields['HeaderStructureSize'] == HEADER_SIZE
        if not is_message or not fields['HeaderFlags'] & IS_RESPONSE:
            raise Fault('it answers what is no response of SMB2', message[:SHOWN].hex())
        asked = waiting.get(fields['MessageId'])
        if asked is None:
            wanted = ' or '.join(map(str, waiting))
            raise Fault('it answers with a wrong MessageId', f'{fields["MessageId"]}, not {wanted}')
        if fields['Command'] != command_in(asked):
            raise Fault('it answers another command', f'{fields["Command"]}, not {command_in(asked)}')
        if self.session and session_in(asked) == self.session != fields['SessionId']:
            raise Fault('it answers in another session', f'{fields["SessionId"]}, not {self.session}')
        self.checks_signature(message, fields)
        self.credits += fields['Credits']
        return answer_of(message, fields)

    def checks_signature(self, message, fields):
        """Where requests are signed their answers are, by the same key, but one that is not the last; of another
        session there is no key here ([MS-SMB2] 3.2.5.1.3)."""
        if not self.key or fields['Status'] == PENDING or fields['SessionId'] != self.session:
            return
        if not fields['HeaderFlags'] & IS_SIGNED:
            if fields['Status'] == 0:
                raise Fault('it does not sign what it answers')
        elif with_signature(message, self.key) != message:
            raise Fault('it answers with a wrong signature', message[48:HEADER_SIZE].hex())


def messages_of(payload):
    """The messages of a payload, each up to the next one. A NextCommand that names no place is a Fault."""
    found = []
    while payload:
        step = int.from_bytes(payload[20:24], 'little')
        if len(payload) < HEADER_SIZE or step and not HEADER_SIZE <= step <= len(payload) - HEADER_SIZE:
            raise Fault('it answers what is no response of SMB2', payload[:SHOWN].hex())
        found.append(payload[:step or len(payload)])
        payload = payload[step:] if step else b''
    return found


def with_signature(message, key):
    """A message with IS_SIGNED, and the signature that the key makes of it."""
    flags = struct.unpack_from('<I', message, 16)[0] | IS_SIGNED
    unsigned = message[:16] + struct.pack('<I', flags) + message[20:48] + bytes(16) + message[HEADER_SIZE:]
    signature = hmac.new(key, unsigned, hashlib.sha256).digest()[:16]
    return unsigned[:48] + signature + unsigned[HEADER_SIZE:]


def command_name(number):
    """The name of a command; its number where it has none."""
    return frame_tool.COMMANDS[number] if number < len(frame_tool.COMMANDS) else f'command {number}'


def command_in(message):
    return struct.unpack_from('<H', message, 12)[0]


def number_in(message):
    """The MessageId of a message."""
    return struct.unpack_from('<Q', message, 24)[0]


def session_in(message):
    return struct.unpack_from('<Q', message, 40)[0]


def charge_in(message):
    """How many MessageIds a request uses, as far as its CreditCharge says."""
    return max(struct.unpack_from('<H', message, 6)[0], 1)


def framed_words(command, texts):
    """The frame of a request with these texts of fields."""
    words = [command, *(f'{name}={text}' for name, text in texts.items())]
    return framed(b''.join(frame_tool.put_message(words, is_last=True)))


def framed(payload):
    return len(payload).to_bytes(4, 'big') + payload


def whole(answer):
    """An answer whose body is whole: without what it says nobody can go on."""
    if BROKEN in answer.fields:
        fault = Fault('it answers a body that is none', answer.fields[BROKEN])
        fault.command = command_name(answer.fields['Command'])
        raise fault
    return answer


def answer_of(payload, header):
    """The answer of a message, whose header is looked at already; of a body that is none only what is wrong."""
    status, command, frame = header['Status'], command_name(header['Command']), framed(payload)
    try:
        fields, buffers = frame_tool.layout(command, True, status)
        is_error = fields[-1][0] == 'ErrorData'
        # Some servers leave the last byte of an error's body out.
        values = numbers_of(frame_tool.read_fields(payload + bytes(is_error), fields, HEADER_SIZE)[0])
        buffer = buffer_of(payload, values, fields, buffers)
    except frame_tool.Unread as why:
        return Answer(status, {**header, BROKEN: str(why)}, b'', frame)
    return Answer(status, {**header, **values}, buffer, frame)


def buffer_of(payload, values, fields, buffers):
    """The bytes of a response's `Buffer`, which are in its payload."""
    if values['StructureSize'] != int(fields[0][2]):
        raise frame_tool.Unread(f'its StructureSize is {values["StructureSize"]}, not {fields[0][2]}')
    if all(it[0] != 'Buffer' for it in buffers):
        return b''
    at = next(values[it[0]] for it in fields if it[3] == 'Buffer')
    size = next(values[it[0]] for it in fields if it[4] == 'Buffer')
    if size and at + size > len(payload):
        raise frame_tool.Unread(f'its buffer has {size} bytes at {at} of {len(payload)}')
    return payload[at:at + size]
