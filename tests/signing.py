"""Sessions that are signed: by a client of its own, which signs, and by one on the path who changes what is said.

Each test serves a share to ann, who logs in by her password. The signatures are made and checked by Python's own
HMAC-SHA256. What smbclient, libsmbclient, impacket, rclone and smbtorture do is tried by hand.
"""
import contextlib
import os
import struct
import tempfile

from tests.smb import ntlm
from tests.smb.frames import chain, close, create, echoes, frame, header, logoff, negotiate, read, tree_connect, write
from tests.smb.program import GUEST
from tests.smb.signed import (NEGOTIATED_MODE_AT, SigningClient, is_right, is_unsigned, messages_of, signature, signed,
                              status_of, with_flag, with_signature)

ALL_ACCESS, OPEN_IF = 0x1F01FF, 3
ACCESS_DENIED, NOT_SUPPORTED, SESSION_DELETED = 0xC0000022, 0xC00000BB, 0xC0000203
# The body of a response that is an error.
ERROR_BODY = struct.pack('<HBBIB', 9, 0, 0, 0, 0)


@contextlib.contextmanager
def served(program, mode, *words):
    with tempfile.TemporaryDirectory() as folder:
        accounts = ntlm.accounts_file(folder, ntlm.account('ann') + ntlm.account('bob'))
        with program.serve('--login', 'ntlm', '--accounts', accounts, '--signing', mode, *words) as share:
            yield share


def client_of(share):
    return SigningClient(share.port, share.patience)


def comes_in(share, mode=1, user='ann'):
    """A client that negotiated and logged in, or none."""
    client = client_of(share)
    client.negotiated = client.send(negotiate()).reply()
    return client if status_of(client.negotiated) == 0 and client.logs_in(user, mode=mode) else None


def opens(client, name='a'):
    """A client's open of a file, by signed requests: its number; the next MessageId is 5."""
    connected = client.asks_signed(tree_connect(3, client.session))
    created = client.asks_signed(create(4, name, ALL_ACCESS, OPEN_IF, 0, client.session, 1))
    right = is_right(connected, client.key) and is_right(created, client.key)
    return struct.unpack_from('<Q', created, 64 + 64)[0] if right and status_of(created) == 0 else 0


def bytes_of(share, name='a'):
    """The bytes of a file, read by a client of its own."""
    client = comes_in(share)
    number = opens(client, name)
    answer = client.asks_signed(read(5, number, 0, 4096, client.session, 1))
    return answer[80:] if status_of(answer) == 0 else b''


def who_signs_is_answered_signed(program):
    """In `offered` and in `required` each response to a signed request is signed over its very bytes, and so is that which
    lets ann in; she is no guest."""
    def is_well(mode, says):
        with served(program, mode) as share:
            client = comes_in(share)
            number = opens(client)
            written = client.asks_signed(write(5, number, 0, b'signed', client.session, 1))
            found = client.asks_signed(read(6, number, 0, 6, client.session, 1))
            asked = client.asks_signed(frame(header(11, 7, session_id=client.session, tree_id=1) + bytes(64)))
            return (struct.unpack_from('<H', client.negotiated, NEGOTIATED_MODE_AT)[0] == says
                    and is_right(client.entered, client.key) and struct.unpack_from('<H', client.entered, 66)[0] == 0
                    and number and status_of(written) == 0 and is_right(written, client.key)
                    and found[80:] == b'signed' and is_right(found, client.key)
                    and status_of(asked) == NOT_SUPPORTED and is_right(asked, client.key))

    return is_well('offered', 1) and is_well('required', 3)


def who_does_not_sign_is_refused_where_that_is_required(program):
    """By ACCESS_DENIED with the error body, unsigned, where the share requires it, and where the client said in its
    SESSION_SETUP that it does; in `offered` an unsigned request is answered unsigned."""
    def answer(share, mode):
        client = comes_in(share, mode)
        return client.answers(tree_connect(3, client.session))[0]

    with served(program, 'required') as share:
        refused = answer(share, 1)
    with served(program, 'offered') as share:
        asked, taken = answer(share, 2), answer(share, 1)
    return (all(status_of(it) == ACCESS_DENIED and is_unsigned(it) and it[64:] == ERROR_BODY
                for it in (refused, asked))
            and status_of(taken) == 0 and is_unsigned(taken))


def with_bit(message, bit):
    changed = bytearray(message)
    changed[bit // 8] ^= 1 << bit % 8
    return bytes(changed)


def no_changed_request_changes_a_file(program):
    """Each bit of a signed WRITE is turned, on a connection of its own: it is refused, or the connection ends, and the file
    is as it was."""
    with served(program, 'required') as share:
        first = comes_in(share)
        number = opens(first)
        if status_of(first.asks_signed(write(5, number, 0, b'before', first.session, 1))) != 0:
            return False
        size = len(write(5, number, 0, b'after!', first.session, 1)) - 4
        for bit in range(8 * size):
            client = comes_in(share)
            number = opens(client)
            asked = signed(write(5, number, 0, b'after!', client.session, 1), client.key)
            answers = client.answers(frame(with_bit(asked[4:], bit)))
            client.end()
            if answers and status_of(answers[0]) == 0:
                print(f'  bit {bit}: {answers[0].hex()}')
                return False
        return bytes_of(share) == b'before'


def no_other_signature_is_taken(program):
    """Not one by another session's key, one of another request, one that is cut off, nor the same request again."""
    with served(program, 'required') as share:
        ann, bob = comes_in(share), comes_in(share, user='bob')
        number, other = opens(ann), opens(bob, 'b')
        asked = write(5, number, 0, b'by bob', ann.session, 1)
        by_bob = ann.answers(signed(asked, bob.key))[0]
        echo = with_flag(echoes(6, 1)[4:])
        moved = ann.answers(frame(with_signature(echo, signature(ann.key, with_flag(echoes(7, 1)[4:])))))
        cut = ann.answers(write(7, number, 0, b'cut', ann.session, 1))[0]
        again = signed(write(8, number, 0, b'again!', ann.session, 1), ann.key)
        once, twice = ann.answers(again), ann.answers(again)
        return (other and status_of(by_bob) == ACCESS_DENIED and is_right(by_bob, ann.key)
                and [status_of(it) for it in moved] == [0] and status_of(cut) == ACCESS_DENIED
                and status_of(once[0]) == 0 and not twice and bytes_of(share) == b'again!')


def several_at_once_are_checked_and_signed(program):
    """Of twelve WRITEs of several lengths, sent at once, one bears the signature of the one before it: that one alone is
    refused. READs of all of them and of a chain, sent at once, are each answered with a signature over their bytes."""
    lengths, wrong, size = (65_536,) * 3 + (1, 65_536, 30_000, 65_536, 64, 65_536, 65_536, 8_192, 65_536), 6, 65_536

    def at_once(client, asked):
        client.send(b''.join(asked))
        return [messages_of(client.reply()) for _ in asked]

    with served(program, 'required') as share:
        client = comes_in(share)
        number, place = opens(client), (client.session, 1)
        asked = [signed(write(5 + i, number, i * size, bytes([65 + i]) * length, *place), client.key)
                 for i, length in enumerate(lengths)]
        asked[wrong] = frame(with_signature(asked[wrong][4:], asked[wrong - 1][4:][48:64]))
        written = [it[0] for it in at_once(client, asked)]
        asked = [signed(read(17 + i, number, i * size, length, *place), client.key) for i, length in enumerate(lengths)]
        both = chain([read(29, number, 0, size, *place), read(30, number, 3 * size, 1, *place)])
        found = sum(at_once(client, asked + [signed(both, client.key)]), [])
        wanted = [bytes([65 + i if i != wrong else 0]) * length for i, length in enumerate(lengths)]
        return ([status_of(it) for it in written] == [ACCESS_DENIED if i == wrong else 0 for i in range(len(lengths))]
                and all(is_right(it, client.key) for it in written + found)
                and [it[80:][:length] for it, length in zip(found, lengths + (size, 1))] == wanted + [b'A' * size, b'D'])


def each_request_of_a_chain_is_checked(program):
    """Of three requests of a chain one that is changed is refused alone; so is one whose padding is changed."""
    def chain_of(client, number):
        return chain([write(5, number, 0, b'one', client.session, 1), write(6, number, 8, b'two', client.session, 1),
                      close(7, number, client.session, 1)])

    def answers(share, at):
        client = comes_in(share)
        number = opens(client)
        messages = messages_of(signed(chain_of(client, number), client.key)[4:])
        if at is not None:
            messages[1] = messages[1][:at] + bytes([messages[1][at] ^ 1]) + messages[1][at + 1:]
        found = client.answers(frame(b''.join(messages)))
        return [status_of(it) for it in found], all(is_right(it, client.key) for it in found)

    with served(program, 'offered') as share:
        client = comes_in(share)
        size = len(messages_of(chain_of(client, 1)[4:])[1])
        whole, changed, padded = answers(share, None), answers(share, 112), answers(share, size - 1)
    one = ([0, ACCESS_DENIED, 0], True)
    return whole == ([0, 0, 0], True) and changed == one and padded == one


def who_is_gone_is_told_so_signed(program):
    """Behind a LOGOFF, and where another connection took the session's place, a signed request of it is answered by
    USER_SESSION_DELETED, signed by its key, whatever its own signature; an unsigned one unsigned. Behind 16 other logins of the
    connection the key is gone."""
    def is_told(client, message_id):
        echo = tree_connect(message_id, client.session)
        right, plain = client.asks_signed(echo), client.answers(tree_connect(message_id + 1, client.session))[0]
        wrong = client.answers(frame(with_flag(tree_connect(message_id + 2, client.session)[4:])))[0]
        return (all(status_of(it) == SESSION_DELETED for it in (right, plain, wrong))
                and is_right(right, client.key) and is_unsigned(plain) and is_right(wrong, client.key))

    with served(program, 'required') as share:
        client, gone = comes_in(share), (0, b'')
        left = client.asks_signed(logoff(3, client.session))
        told = status_of(left) == 0 and is_right(left, client.key) and is_told(client, 4)
        gone, message_id = (client.session, client.key), 7
        for _ in range(16):
            told = told and client.logs_in(begin=message_id)
            told = told and status_of(client.asks_signed(logoff(message_id + 2, client.session))) == 0
            message_id += 3
        client.session, client.key = gone
        forgotten = client.asks_signed(tree_connect(message_id, client.session))
        first, second = comes_in(share), client_of(share)
        came = second.negotiates() and second.logs_in(previous=first.session)
        return (told and status_of(forgotten) == SESSION_DELETED and is_unsigned(forgotten) and came and is_told(first, 3))


def guests_come_in_unsigned(program):
    """A guest has no key: what it sends is not checked, and nothing that answers it is signed, where signing is required too."""
    with served(program, 'required', '--config', GUEST) as share:
        client = client_of(share)
        comes = ntlm.logs_in(client, 'somebody') == ntlm.COMES_IN
        flagged = client.answers(frame(with_flag(tree_connect(3, 1)[4:])))[0]
        plain = client.answers(echoes(4, 1))[0]
    return comes and all(status_of(it) == 0 and is_unsigned(it) for it in (flagged, plain))


def without_signing_all_is_as_ever(program):
    """With `off` ann is shown as a guest, and nothing is signed or checked; without a word it is `offered`, and she is none."""
    def flags_of(client):
        return struct.unpack_from('<H', client.entered, 66)[0]

    with served(program, 'off') as share, tempfile.TemporaryDirectory() as folder:
        client = comes_in(share)
        flagged = client.answers(frame(with_flag(tree_connect(3, client.session)[4:])))[0]
        accounts = ntlm.accounts_file(folder, ntlm.account('ann'))
        with program.serve('--login', 'ntlm', '--accounts', accounts) as usual:
            user = comes_in(usual)
    return (flags_of(client) == 1 and all(is_unsigned(it) for it in (client.entered, flagged)) and status_of(flagged) == 0
            and flags_of(user) == 0 and is_right(user.entered, user.key))


def a_recording_has_the_keys(program):
    """What was recorded of signed sessions is replayed to the very answers, that which says that signing is required too."""
    def is_well(mode, folder):
        name, said = os.path.join(folder, mode), []
        with served(program, mode, '--record', name) as share:
            client = client_of(share)
            said.append(client.send(negotiate()).reply())
            client.logs_in()
            said.append(client.entered)
            for asked in (tree_connect(3, client.session), create(4, 'a', ALL_ACCESS, OPEN_IF, 0, client.session, 1)):
                said.append(client.send(signed(asked, client.key)).reply())
        status, output, errors = program.ran('replay', '--recording', name)
        return (status, errors) == (0, '') and all(it.hex() in output.decode() for it in said)

    with tempfile.TemporaryDirectory() as folder:
        return is_well('offered', folder) and is_well('required', folder)


def words_that_do_not_go_together_are_named(program):
    """Signing without accounts is a wrong command line, and in a configuration a fault of its key; where accounts have to sign,
    and guests come too, a line says so."""
    with tempfile.TemporaryDirectory() as folder, open(GUEST, encoding='ascii') as guest:
        name = os.path.join(folder, 'signed.toml')
        with open(name, 'w', encoding='ascii') as it:
            it.write('signing = "required"\n' + guest.read())
        words = program.run('serve', '--listen', '127.0.0.1:0', '--login', 'ntlm', '--signing', 'offered')
        key = program.ran('serve', '--listen', '127.0.0.1:0', '--config', name, '--explain')
        wrong = program.ran('check', '--config', GUEST, '--signing', 'on')
        accounts = ntlm.accounts_file(folder, ntlm.account('ann'))
        both = program.ran('check', '--config', GUEST, '--login', 'ntlm', '--accounts', accounts, '--signing', 'required')
    return (words[0] == 2 and key[0] == 1 and 'signing: off, without accounts' in key[2] and wrong[0] == 2
            and b'signing: required of accounts\n' in both[1] and 'what they send is not signed' in both[2])


TESTS = (who_signs_is_answered_signed, who_does_not_sign_is_refused_where_that_is_required,
         no_changed_request_changes_a_file, no_other_signature_is_taken,
         several_at_once_are_checked_and_signed, each_request_of_a_chain_is_checked,
         who_is_gone_is_told_so_signed, guests_come_in_unsigned, without_signing_all_is_as_ever, a_recording_has_the_keys,
         words_that_do_not_go_together_are_named)


def tests(words):
    return [(test, words.program) for test in TESTS]
