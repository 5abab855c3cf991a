"""Messages that are signed in dialects 2.0.2 and 2.1 ([MS-SMB2] 3.1.4.1), and a client that signs what it sends."""
import hashlib
import hmac
import struct

from tests.smb import ntlm
from tests.smb.client import STATUS_AT, Client
from tests.smb.frames import frame, session_setup

FLAGS_AT, NEXT_AT, SIGNATURE_AT, SIGNED = 16, 20, 48, 8
# Where a SESSION_SETUP request has its SecurityMode, and a NEGOTIATE response its own.
SETUP_MODE_AT, NEGOTIATED_MODE_AT = 64 + 3, 64 + 2


def signature(key, message):
    """The signature of a message, whatever it has in the signature's place."""
    return hmac.new(key, message[:SIGNATURE_AT] + bytes(16) + message[64:], hashlib.sha256).digest()[:16]


def messages_of(payload):
    """The messages of a payload, each with its padding."""
    found = []
    while payload:
        size = struct.unpack_from('<I', payload, NEXT_AT)[0] or len(payload)
        found.append(payload[:size])
        payload = payload[size:]
    return found


def with_flag(message):
    return message[:FLAGS_AT] + bytes([message[FLAGS_AT] | SIGNED]) + message[FLAGS_AT + 1:]


def with_signature(message, sixteen):
    return message[:SIGNATURE_AT] + sixteen + message[64:]


def signed(one, key):
    """A frame whose messages are signed by a key."""
    flagged = [with_flag(message) for message in messages_of(one[4:])]
    return frame(b''.join(with_signature(message, signature(key, message)) for message in flagged))


def has_flag(message):
    return message[FLAGS_AT] & SIGNED != 0


def is_right(message, key):
    """Whether a message says that it is signed, and bears its own signature by a key."""
    return has_flag(message) and message[SIGNATURE_AT:64] == signature(key, message)


def is_unsigned(message):
    return not has_flag(message) and message[SIGNATURE_AT:64] == bytes(16)


def status_of(message):
    return struct.unpack_from('<I', message, STATUS_AT - 4)[0]


class SigningClient(Client):
    """A client that logs in by a password, and signs what it sends by the key of its session."""
    session, key, negotiated, entered = 0, b'', b'', b''

    def logs_in(self, user='ann', nt_hash=ntlm.PASSWORD_HASH, mode=1, previous=0, begin=1):
        """Whether it comes in by two messages, 1 and 2 or those from another number on, each of this SecurityMode."""
        def with_mode(setup):
            return setup[:4 + SETUP_MODE_AT] + bytes([mode]) + setup[4 + SETUP_MODE_AT + 1:]

        nt_hash = bytes.fromhex(nt_hash)
        first = self.send(with_mode(session_setup(begin, ntlm.NEGOTIATE, previous=previous))).reply()
        self.session = struct.unpack_from('<Q', first, 40)[0]
        challenge = first[first.index(ntlm.CHALLENGE) + 24:][:8]
        response = ntlm.response_to(challenge, user, nt_hash)
        asked = session_setup(begin + 1, ntlm.authenticate(user, response), self.session, previous)
        self.entered = self.send(with_mode(asked)).reply()
        self.key = ntlm.session_key(user, nt_hash, response)
        return status_of(self.entered) == 0

    def answers(self, asked):
        """The messages that answer a frame; none where the share ends the connection."""
        return messages_of(self.send(asked).reply())

    def asks_signed(self, asked):
        """The message that answers a frame of one request, which is signed."""
        return self.answers(signed(asked, self.key))[0]
