"""How a client comes in to a server: NEGOTIATE, a login by NTLM, and a TREE_CONNECT."""
import collections
import os
import struct
import time

from conform.statuses import name_of
from conform.wire import CREDITS, Link, framed_words, whole
from tests.smb import ntlm
from tests.smb.frames import session_setup, tree_connect

DIALECTS, OF_1970 = (0x0202, 0x0210), 116_444_736_000_000_000
SIGNING_REQUIRED, IS_GUEST, IS_NULL = 2, 1, 2
# Who comes in as a guest: a name, and the NT hash of the empty password.
GUEST, NO_PASSWORD = 'guest', bytes.fromhex('31d6cfe0d16ae931b73c59d7e0c089c0')

# A server: what it is called in a report, where it is, its share, who logs in there, and for how many seconds one
# waits for an answer.
Server = collections.namedtuple('Server', 'name host port share user nt_hash patience')


class Refused(Exception):
    """The server lets nobody in, as far as it was asked."""


def must_be(server, doing, answer, status=0):
    """The answer, which has this status and a body."""
    if answer.status != status:
        raise Refused(f'{server.name}: {doing}: {name_of(answer.status)}')
    return whole(answer)


def comes_in(server, guid, dialects=DIALECTS):
    """A client of this ClientGuid that is in at a server's share, and the dialect that it speaks there."""
    link = Link(server.host, server.port, server.patience)
    try:
        dialect, wants_signatures = negotiates(server, link, guid, dialects)
        logs_in(server, link, wants_signatures)
        frame = tree_connect(link.next_id(), link.session, share_path(server))
        answer = must_be(server, f'its share {server.share} cannot be connected', link.answer_to(frame))
        link.tree = answer.fields['TreeId']
    except BaseException:
        link.end()
        raise
    return link, dialect


def share_path(server):
    return f'\\\\{server.host}\\{server.share}'


def speaks(server, dialect):
    """Whether a server speaks a dialect, where no other is offered."""
    link = Link(server.host, server.port, server.patience)
    try:
        negotiates(server, link, new_guid(), (dialect,))
    except Refused:
        return False
    finally:
        link.end()
    return True


def new_guid():
    """A ClientGuid, by which a server knows one machine from another."""
    return os.urandom(16)


def negotiates(server, link, guid, dialects):
    """The dialect, and whether the server wants requests signed. Who offers 2.0.2 alone has a ClientGuid of zeros
    ([MS-SMB2] 2.2.3)."""
    sent = bytes(16) if dialects == DIALECTS[:1] else guid
    frame = framed_words('NEGOTIATE', {'MessageId': link.next_id(), 'Credits': CREDITS, 'ClientGuid': sent.hex(),
                                       'Dialects': ','.join(map(str, dialects))})
    answer = must_be(server, 'it speaks neither dialect 2.0.2 nor 2.1', link.answer_to(frame))
    dialect = answer.fields['DialectRevision']
    if dialect not in dialects:
        raise Refused(f'{server.name}: it speaks dialect {dialect:#06x}, which was not offered')
    link.charge = 1 if dialect > 0x0202 else 0
    return dialect, answer.fields['SecurityMode'] & SIGNING_REQUIRED != 0


def logs_in(server, link, wants_signatures):
    """A login of two messages, each in a token of SPNEGO. What a guest asks for is never signed."""
    frame = session_setup(link.next_id(), ntlm.first_token(ntlm.USUAL_NEGOTIATE))
    answer = must_be(server, 'it takes no login by NTLM', link.answer_to(frame), ntlm.MORE_PROCESSING)
    session, token = answer.fields['SessionId'], answer.buffer
    at = token.find(ntlm.CHALLENGE)
    if at < 0:
        raise Refused(f'{server.name}: it answers a login with no challenge of NTLM')
    try:
        challenge, target = ntlm.challenge_in(token[at:])
    except struct.error:
        raise Refused(f'{server.name}: it answers a challenge that is too short') from None
    moment = OF_1970 + time.time_ns() // 100
    response = ntlm.response_to(challenge, server.user, server.nt_hash, moment=moment, target=target)
    message = ntlm.authenticate(server.user, response, ntlm.USUAL)
    frame = session_setup(link.next_id(), ntlm.next_token(message), session)
    answer = must_be(server, f'it does not let in {server.user}', link.answer_to(frame))
    link.session = session
    if wants_signatures and not answer.fields['SessionFlags'] & (IS_GUEST | IS_NULL):
        link.key = ntlm.session_key(server.user, server.nt_hash, response)
