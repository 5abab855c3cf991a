"""Logins by NTLM, and their messages ([MS-NLMP] 2.2.1)."""
import hashlib
import hmac
import os
import struct

from tests.smb.client import STATUS_AT
from tests.smb.frames import session_setup

SIGN, UNICODE = b'NTLMSSP\0', 1
# What else other servers want of a client: REQUEST_TARGET, NTLM, ALWAYS_SIGN and EXTENDED_SESSIONSECURITY.
USUAL = UNICODE | 0x4 | 0x200 | 0x8000 | 0x80000
# The first message of a client, without and with fields for a domain and a workstation, which are empty; and how that
# begins which answers it.
NEGOTIATE = SIGN + struct.pack('<II', 1, UNICODE)
NEGOTIATE_OF_NOBODY = NEGOTIATE + bytes(16)
USUAL_NEGOTIATE = SIGN + struct.pack('<II', 1, USUAL) + bytes(16)
CHALLENGE = SIGN + struct.pack('<I', 2)
# The status of the answer to the first message; and what a right login ends with: its status, and the session's flags, a
# guest's, which an account has too where nothing is signed, and an account's.
MORE_PROCESSING, COMES_IN, USER_COMES_IN = 0xC0000016, (0, 1), (0, 0)
# The NT hash of the password `Password` ([MS-NLMP] 4.2.2.1.2).
PASSWORD_HASH = 'a4f49c406510bdcab6824ee7c30fd852'
# The names of SPNEGO and of NTLM ([MS-SPNG] 1.9), as objects of DER.
SPNEGO, NTLM = bytes.fromhex('06062b0601050502'), bytes.fromhex('060a2b06010401823702020a')


def account(name, nt_hash=PASSWORD_HASH, more=''):
    """An account in a file of accounts; who has it logs in by `Password`, where no other hash is given."""
    return f'[[account]]\nname = "{name}"\nnt_hash = "{nt_hash}"\n{more}'


def accounts_file(folder, text):
    """The name of a file of accounts in a folder, which is its owner's alone."""
    name = os.path.join(folder, 'accounts')
    with open(os.open(name, os.O_CREAT | os.O_WRONLY, 0o600), 'w', encoding='ascii') as file:
        file.write(text)
    return name


def response_to(challenge, user, nt_hash, domain='', moment=0, target=b''):
    """The NT response of NTLM's second version ([MS-NLMP] 3.3.2) to a challenge of 8 bytes, at a moment, and with what
    the challenge tells of its server."""
    blob = b'\1\1' + bytes(6) + struct.pack('<Q', moment) + b'a nonce.' + bytes(4) + target + bytes(4)
    return hmac.new(response_key(user, nt_hash, domain), challenge + blob, hashlib.md5).digest() + blob


def response_key(user, nt_hash, domain=''):
    return hmac.new(nt_hash, (user.upper() + domain).encode('utf-16-le'), hashlib.md5).digest()


def session_key(user, nt_hash, response, domain=''):
    """The key of a session that an NT response began, where no other is exchanged: requests are signed by it."""
    return hmac.new(response_key(user, nt_hash, domain), response[:16], hashlib.md5).digest()


def challenge_in(message):
    """The challenge of 8 bytes in a server's message, and what it tells of the server; nothing where it has no end."""
    length, at = struct.unpack_from('<HxxI', message, 40)
    return message[24:32], message[at:at + length] if at + length <= len(message) else b''


def der(tag, content):
    """An object of DER."""
    size = len(content)
    length = size.to_bytes((size.bit_length() + 7) // 8, 'big')
    return bytes([tag, *([size] if size < 0x80 else [0x80 | len(length), *length])]) + content


def first_token(message):
    """The NegTokenInit (RFC 4178) that lists NTLM and holds its first message."""
    fields = der(0xa0, der(0x30, NTLM)) + der(0xa2, der(4, message))
    return der(0x60, SPNEGO + der(0xa0, der(0x30, fields)))


def next_token(message):
    """The NegTokenResp that holds a message."""
    return der(0xa1, der(0x30, der(0xa2, der(4, message))))


def authenticate(user, response=b'', flags=UNICODE):
    """The last message of a login, with this NT response; a guest has none."""
    name = user.encode('utf-16-le')
    nothing = struct.pack('<HHI', 0, 0, 64)
    named = struct.pack('<HHI', len(name), len(name), 64)
    responded = struct.pack('<HHI', len(response), len(response), 64 + len(name))
    return (SIGN + struct.pack('<I', 3) + nothing + responded + nothing + named + nothing * 2
            + struct.pack('<I', flags) + name + response)


def comes_in(client, user, nt_hash=None):
    """Whether a login is right: a guest's without the hash of a password, or an account's where sessions may be signed."""
    return logs_in(client, user, nt_hash) == (COMES_IN if nt_hash is None else USER_COMES_IN)


def logs_in(client, user, nt_hash=None):
    """The status that ends a login of two messages, and the flags of the session; none where there is no challenge.

    Without the hash of a password there is no response in it.
    """
    return login_at(client, 1, user, nt_hash) if client.negotiates() else None


def login_at(client, message_id, user, nt_hash=None, behind=b''):
    """The same of a client that has negotiated; its messages have this MessageId and the next one, and these bytes come
    behind."""
    first = client.send(session_setup(message_id, NEGOTIATE)).reply()
    session = struct.unpack_from('<Q', first, 40)[0]
    if struct.unpack_from('<I', first, STATUS_AT - 4)[0] != MORE_PROCESSING or CHALLENGE not in first:
        return None
    challenge = first[first.index(CHALLENGE) + 24:][:8]
    response = b'' if nt_hash is None else response_to(challenge, user, nt_hash)
    last = client.send(session_setup(message_id + 1, authenticate(user, response), session) + behind).reply()
    return struct.unpack_from('<I', last, STATUS_AT - 4)[0], struct.unpack_from('<H', last, 66)[0]
