"""Servers that misbehave, which the tester of other servers names as what they are, within its bound of time."""
import hashlib
import hmac
import os
import re
import socket
import struct
import tempfile
import time

from conform.wire import AS_BEFORE, messages_of
from tests.conform_runs import DIALECTS, LOCK, NEGOTIATE, READ, SESSION_SETUP, other_status, ran, served, side_at
from tests.smb import ntlm
from tests.smb.between import MESSAGE_ID_AT, Between, command_of, frames_of, status_of, with_status
from tests.smb.frames import chain, close

# How many seconds an answer may take, and a run with a wrong server.
PATIENCE, LONGEST = 3, 60
LOCK_NOT_GRANTED, PENDING, CANCELLED, CANCEL = 0xC0000055, 0x103, 0xC0000120, 12
ASYNC_ID = struct.pack('<Q', 7)
FLAGS_AT, IS_ASYNC, IS_SIGNED, SIGNATURE_AT, GUID_AT = 20, 2, 8, 52, 80


def insists_on_signing(frame):
    """A NEGOTIATE's answer with SIGNING_REQUIRED, and a SESSION_SETUP's without IS_GUEST."""
    if status_of(frame) == 0 and command_of(frame) in (NEGOTIATE, SESSION_SETUP):
        return frame[:70] + (b'\3' if command_of(frame) == NEGOTIATE else b'\0') + frame[71:]
    return frame


def signature_of(frame, key):
    """The signature of a frame of one message."""
    return hmac.new(key, frame[4:SIGNATURE_AT] + bytes(16) + frame[SIGNATURE_AT + 16:], hashlib.sha256).digest()[:16]


def signed(frame, key):
    """A frame with IS_SIGNED, and the signature that the key makes of it."""
    frame = frame[:FLAGS_AT] + bytes([frame[FLAGS_AT] | IS_SIGNED]) + frame[FLAGS_AT + 1:]
    return frame[:SIGNATURE_AT] + signature_of(frame, key) + frame[SIGNATURE_AT + 16:]


def requests_in(heard):
    """The frames that a client said."""
    return list(frames_of(iter((bytes(heard), b'')).__next__))


def key_of(heard):
    """The key of the session that a client's last message of its login began."""
    message = requests_in(heard)[2]
    message = message[message.index(ntlm.SIGN):]
    size, at = struct.unpack_from('<HxxI', message, 20)
    return ntlm.session_key('ann', bytes.fromhex(ntlm.PASSWORD_HASH), message[at:at + size])


def ran_signed(program, changes):
    """A run as ann with a server that insists on signing: `changes` is given each later answer and the session's key.
    Gives what the tester said, and what was heard of it."""
    def answers(frame):
        is_later = command_of(frame) not in (NEGOTIATE, SESSION_SETUP)
        return changes(frame, key_of(server.heard[-1])) if is_later else insists_on_signing(frame)

    with tempfile.TemporaryDirectory() as folder:
        accounts, password = ntlm.accounts_file(folder, ntlm.account('ann')), os.path.join(folder, 'password')
        with open(password, 'w', encoding='ascii') as file:
            file.write('Password')
        with served(program, '--accounts', accounts, '--signing', 'off') as share, Between(share.port, answers) as server:
            words = ('--only', 'dispositions', '--every', '100', '--user', 'ann', '--password-file', password)
            return ran(program, server.port, *words), server.heard


def requests_are_signed_where_the_server_insists(program):
    """Behind the login, by the key of the session that the client's last message began."""
    (status, _, errors), heard = ran_signed(program, signed)
    requests, key = requests_in(heard[0]), key_of(heard[0])
    return ((status, errors, len(heard)) == (0, '', 1) and not any(it[FLAGS_AT] & IS_SIGNED for it in requests[:3])
            and all(it[FLAGS_AT] & IS_SIGNED and it[SIGNATURE_AT:SIGNATURE_AT + 16] == signature_of(it, key)
                    for it in requests[3:]))


def are_signed(link):
    """Whether a client signs what a chain asks in its session, in that of the request before, and in another one."""
    frame = chain([close(9, 1, it, link.tree) for it in (link.session, AS_BEFORE, link.session + 1)])
    return [bool(it[FLAGS_AT - 4] & IS_SIGNED) for it in messages_of(link.signed(frame)[4:])]


def only_what_is_asked_in_the_session_is_signed(program):
    """And nothing once it is logged off, which a LOGOFF that is refused does not do."""
    key, found = bytes(16), []
    with served(program) as share, Between(share.port, lambda frame: signed(frame, key)) as server:
        side = side_at(server.port, share.patience)
        link = side.link('A')
        link.key = key
        for session in (link.session + 1, link.session):
            link.asks('LOGOFF', {'SessionId': session})
            found.append(are_signed(link))
        side.loses_clients()
    return found == [[True, True, False], [False] * 3]


def another_signature_is_named(program):
    """A server that signs by another key, and one that insists and does not sign itself."""
    ways = {'it answers with a wrong signature': lambda frame, key: signed(frame, bytes(16)),
            'it does not sign what it answers': lambda frame, key: frame}
    for said, changes in ways.items():
        (status, output, errors), _ = ran_signed(program, changes)
        if (status, output) != (2, '') or f'{said}, where TREE_CONNECT was asked' not in errors:
            print(f'  {said}: {status}, {output}{errors}')
            return False
    return True


def guids(share, dialects):
    """The ClientGuids of client A, of B, and of A when it comes in anew."""
    with Between(share.port, lambda frame: frame) as server:
        side = side_at(server.port, share.patience, dialects)
        for clients in ('AB', 'A'):
            for client in clients:
                side.link(client)
            side.loses_clients()
        return [bytes(it[GUID_AT:GUID_AT + 16]) for it in server.heard]


def each_client_has_a_guid_of_its_own(program):
    """And keeps it. It is zeros where 2.0.2 alone is offered."""
    with served(program) as share:
        of_a, of_b, anew = guids(share, DIALECTS)
        return of_a == anew and len({of_a, of_b, bytes(16)}) == 3 and guids(share, DIALECTS[:1]) == [bytes(16)] * 3


# Servers that misbehave: at the login, and at each READ, which no directory needs to be removed.

def wrong_number(frame):
    return frame[:MESSAGE_ID_AT] + struct.pack('<Q', 77) + frame[MESSAGE_ID_AT + 8:]


MISBEHAVING = {
    'it closes the connection': lambda frame: None,
    'it stalls': lambda frame: b'',
    'it answers bytes that are no frame': lambda frame: b'HTTP/1.1 400 Bad Request\r\n\r\n',
    'it answers what is no response of SMB2': lambda frame: frame[:4] + b'\xffSMB' + frame[8:],
    'it answers with a wrong MessageId': wrong_number,
}


def short_body(frame):
    """A frame that ends behind two bytes of its body."""
    return b'\0\0\0\x42' + frame[4:70]


def half_a_frame(frame):
    return frame[:-9]


def another_dialect(frame):
    """A NEGOTIATE's answer of dialect 3.0, which was not offered."""
    return frame[:72] + b'\0\3' + frame[74:] if command_of(frame) == NEGOTIATE else frame


def is_named(program, share, changes, said):
    """Whether a server that misbehaves at its first answer is named, within some seconds; the status is 2."""
    with Between(share.port, changes) as server:
        begin = time.monotonic()
        status, output, errors = ran(program, server.port, '--patience', str(PATIENCE))
        is_so = ((status, output) == (2, '') and errors.startswith(f'conform: 127.0.0.1:{server.port}: {said}')
                 and time.monotonic() - begin < LONGEST)
        if not is_so:
            print(f'  {said}: {status}, {errors}')
        return is_so


def a_wrong_server_is_named_at_once(program):
    """What misbehaves at its first answer is named, with the command."""
    named = {f'{kind}, where NEGOTIATE was asked': changes for kind, changes in MISBEHAVING.items()}
    named.update({
        'it answers a body that is none, where NEGOTIATE was asked': short_body,
        'it stalls, where NEGOTIATE was asked: no whole answer within 3 seconds, but ': half_a_frame,
        'it speaks dialect 0x0300, which was not offered': another_dialect,
    })
    with served(program) as share:
        return all([is_named(program, share, changes, said) for said, changes in named.items()])


def one_that_closes_within_a_frame_is_named(program):
    """With how many bytes had come."""
    class Cut(Between):
        def answers(self, client, share):
            client.sendall(share.recv(65_536)[:20])
            client.shutdown(socket.SHUT_RDWR)

    with served(program) as share, Cut(share.port, None) as server:
        status, output, errors = ran(program, server.port, '--patience', str(PATIENCE))
        said = 'it closes the connection, where NEGOTIATE was asked: within a frame, behind 16 bytes'
        return (status, output) == (2, '') and said in errors


def a_server_that_goes_wrong_is_named(program):
    """What misbehaves at each READ is a difference of each such script, and the end of the run behind the third."""
    with served(program) as share:
        for kind, changes in MISBEHAVING.items():
            def at_reads(frame):
                return changes(frame) if command_of(frame) == READ else frame

            with Between(share.port, at_reads) as server:
                words = ('--only', 'locks', '--every', '30', '--patience', str(PATIENCE))
                status, output, errors = ran(program, server.port, *words)
            said = f'3 differ in a READ: Status: wanted STATUS_SUCCESS, found {kind} (locks 3)'
            if (status, errors) != (1, '') or said not in output or f'{kind}, where READ was asked' not in output:
                print(f'  {kind}: {status}, {output}{errors}')
                return False
    return True


def what_differed_stays_where_the_server_ends_then(program):
    """A server that answers nothing more behind what differs: that is told, and where it ended."""
    ended = []

    def changes(frame):
        changed = other_status(frame)
        ended.extend([True] * (changed != frame))
        return changed if changed != frame or not ended else None

    name = 'sharing/READ_DATA.---+READ_DATA.---'
    with served(program) as share, Between(share.port, changes) as server:
        status, output, errors = ran(program, server.port, '--only', name)
        return ((status, errors) == (1, '') and '1 differ in a CREATE: Status: wanted STATUS_SHARING' in output
                and f'beside the steps of a script: {name}: it closes the connection, where CLOSE was asked' in output
                and 'stopped: ' in output and 'left on the server: conform-' in output)


def a_body_that_is_none_is_found(program):
    """It is a difference of each script that shows it, and the run goes on."""
    def at_reads(frame):
        return short_body(frame) if command_of(frame) == READ else frame

    with served(program) as share, Between(share.port, at_reads) as server:
        status, output, _ = ran(program, server.port, '--only', 'locks', '--every', '30')
        return (status == 1 and 'READ: what is wrong with the body: wanted nothing, found its bytes end' in output
                and 'stopped' not in output)


def pending(frame):
    """An answer that says that a request is worked on."""
    frame = with_status(frame, PENDING)
    return frame[:FLAGS_AT] + bytes([frame[FLAGS_AT] | IS_ASYNC]) + frame[FLAGS_AT + 1:36] + ASYNC_ID + frame[44:]


class Waiting(Between):
    """Refused LOCKs are answered as pending, and behind a CANCEL of that answer's AsyncId as cancelled."""
    last = b''

    def brings(self, client, share, heard):
        super().brings(Heard(client, self), share, heard)

    def changed(self, frame):
        if command_of(frame) != LOCK or status_of(frame) != LOCK_NOT_GRANTED:
            return frame
        self.last = pending(frame)
        return self.last


class Heard:
    """What a client says, but for a CANCEL, which is answered."""

    def __init__(self, client, server):
        self.client, self.server = client, server

    def recv(self, count):
        data = self.client.recv(count)
        if len(data) > 44 and command_of(data) == CANCEL and data[36:44] == ASYNC_ID:
            self.client.sendall(with_status(self.server.last, CANCELLED))
            return self.client.recv(count)
        return data


def a_lock_that_waits_is_cancelled(program):
    """A server that waits for a lock, which no answer here does: what it found is STATUS_PENDING, and the run goes
    on."""
    with served(program) as share, Waiting(share.port, lambda frame: server.changed(frame)) as server:
        words = ('--only', 'locks/*overlapping.then-exclusive-by-B', '--patience', str(PATIENCE))
        status, output, errors = ran(program, server.port, *words)
        return ((status, errors) == (1, '') and 'stopped' not in output and 'beside' not in output
                and '2 differ in a LOCK: Status: wanted STATUS_LOCK_NOT_GRANTED, found STATUS_PENDING' in output)


def words_and_servers_are_refused(program):
    """Wrong words, and a server that can't be reached or has another share: status 2, and one line that says it."""
    with socket.create_server(('127.0.0.1', 0)) as listener:
        closed = listener.getsockname()[1]
    with served(program) as share:
        of_words = (('--only', 'x'), ('--every', '0'), ('--patience', 'x'), ('--user', 'ann'), ('--other',),
                    ('--expect', '/nowhere'), ('--program', '/nowhere'), ('--dialect', '3.0'), ('--seed', 'x'),
                    ('--scripts', '0'), ('--only', 'locks/nothing'))
        refused = [ran(program, share.port, *words) for words in of_words]
        no_share = ran(program, share.port, '--share', 'other')
    no_server = ran(program, closed)
    return (all(status == 2 and output == '' and errors for status, output, errors in refused)
            and no_share[0] == no_server[0] == 2 and no_share[2].endswith('STATUS_BAD_NETWORK_NAME\n')
            and re.fullmatch(rf'conform: 127\.0\.0\.1:{closed}: it cannot be reached: Connection refused\n',
                             no_server[2]))


TESTS = (
    each_client_has_a_guid_of_its_own, requests_are_signed_where_the_server_insists,
    only_what_is_asked_in_the_session_is_signed, another_signature_is_named, a_wrong_server_is_named_at_once,
    one_that_closes_within_a_frame_is_named, a_server_that_goes_wrong_is_named, a_body_that_is_none_is_found,
    what_differed_stays_where_the_server_ends_then, a_lock_that_waits_is_cancelled, words_and_servers_are_refused,
)
