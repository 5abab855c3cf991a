"""The program over TCP: what it prints, its statuses, who may connect, and that it serves beside peers that misbehave.

Each test starts it anew. None waits for a time to pass but where the program itself is to wait; where an answer does
not come at all, its test fails after 60 seconds.
"""
import os
import socket
import struct
import tempfile
import time

from tests import connecting
from tests.smb import ntlm
from tests.smb.client import (ALL_ACCESS, CHAIN, LONGEST_PIECE, OPEN_IF, STATUS_AT, opens_a_file, opens_the_root,
                              search)
from tests.smb.frames import (close, create, echoes, negotiate, query_directory, read, rename, session_setup, set_info,
                              tree_connect, write)
from tests.smb.preload import odd_system
from tests.smb.program import GUEST, TOP, giving_back, memory_of

# Where a NEGOTIATE's reply has the moment, in units of 100 ns since 1601, and which one is that of 1970.
MOMENT_AT, OF_1970 = 104, 116_444_736_000_000_000


def a_client_is_served(program):
    with program.serve() as share:
        return share.client().is_served()


def a_file_is_written_and_read(program):
    with program.serve() as share:
        client = share.client()
        if not opens_a_file(client) or client.asks(write(4, 1, 0, b'text', 1, 1)) != 0:
            return False
        reply = client.send(read(5, 1, 0, 4, 1, 1)).reply()
        return reply[-4:] == b'text' and client.asks(close(6, 1, 1, 1)) == 0


def bytes_come_one_by_one(program):
    """Another client is served behind each byte, so that the next comes in a turn of its own."""
    with program.serve() as share:
        client, beside = share.client(), share.client()
        if not beside.negotiates():
            return False
        for i, byte in enumerate(negotiate()):
            client.send(bytes([byte]))
            if beside.asks(echoes(1 + i, 1)) != 0:
                return False
        return len(client.reply()) == 128


def an_end_is_told(program):
    """Bytes that are no frame end a connection; the answer before them comes whole."""
    with program.serve() as share:
        client = share.client().send(negotiate() + b'\x85')
        return len(client.reply()) == 128 and client.is_ended() and share.client().is_served()


def sixty_four_are_served(program):
    """The next one is ended at once, until another has gone."""
    with program.serve() as share:
        clients = [share.client() for _ in range(64)]
        if not all(client.negotiates() for client in clients) or not share.client().is_ended():
            return False
        clients[7].end()
        while True:
            client = share.client()
            try:
                if client.negotiates():
                    break
            except ConnectionError:
                pass
        return clients[63].asks(echoes(1, 1)) == 0


def as_many_are_served_as_limits_let(program):
    """Of a configuration that lets 80 be served the 81st is ended at once."""
    with open(GUEST, encoding='ascii') as it, tempfile.TemporaryDirectory() as folder:
        config = os.path.join(folder, 'share.toml')
        with open(config, 'w', encoding='ascii') as out:
            out.write(it.read() + '\n[limits]\nconnections = 80\n')
        with program.serve('--config', config) as share:
            clients = [share.client() for _ in range(80)]
            return (all(client.negotiates() for client in clients) and share.client().is_ended()
                    and all(client.asks(echoes(1, 1)) == 0 for client in clients))


def others_go_on_beside_ends(program):
    """Peers that close or reset in each state: before a byte, in a header, after an answer, with one not read."""
    with program.serve() as share:
        beside = share.client()
        if not beside.negotiates():
            return False
        for begun in (b'', negotiate()[:3], negotiate()[:40], negotiate(), negotiate() + echoes(1, 1)[:10], b'\x85'):
            share.client().send(begun).end()
            share.client().send(begun).reset()
            answered = share.client()
            if not answered.negotiates():
                return False
            answered.reset()
        silent = share.client()
        return beside.asks(echoes(1, 1)) == 0 and share.client().is_served() and silent.negotiates()


def one_that_never_reads_holds_up_nobody(program):
    """It asks for 64 KiB over and over, until the share takes no more of it."""
    with program.serve() as share:
        greedy = share.client()
        if not opens_a_file(greedy) or greedy.asks(write(4, 1, 0, bytes(LONGEST_PIECE), 1, 1)) != 0:
            return False
        greedy.stream.settimeout(2)
        message_id = 5
        try:
            while message_id < 20_000:
                greedy.send(read(message_id, 1, 0, LONGEST_PIECE, 1, 1))
                message_id += 1
        except (socket.timeout, ConnectionError):
            pass
        return share.client().is_served()


def slow_reader_takes_every_byte(program, count=30):
    """Replies that are far more than the system buffers are taken in small parts, and none is lost."""
    with program.serve() as share:
        client = share.client()
        if not opens_a_file(client) or client.asks(write(4, 1, 0, b'x' * LONGEST_PIECE, 1, 1)) != 0:
            return False
        for i in range(count):
            client.send(read(5 + i, 1, 0, LONGEST_PIECE, 1, 1))
        return all(client.reply()[-LONGEST_PIECE:] == b'x' * LONGEST_PIECE for _ in range(count))


def without_descriptors_it_goes_on(program):
    """Where no descriptor is left, the connections that it has are served; another one once one of them has gone."""
    with program.serve(descriptors=12) as share:
        clients = [share.client() for _ in range(20)]
        served = [client for client in clients[:4] if client.is_served()]
        if len(served) < 4:
            return False
        for client in clients[4:19]:
            client.end()
        served[0].end()
        return served[3].asks(echoes(2, 1)) == 0 and clients[19].is_served()


def silence_is_an_end(program):
    """With a limit of three seconds: who is silent is ended; who is not, is not."""
    with program.serve('--idle', '3') as share:
        silent, speaking = share.client(), share.client()
        if not speaking.negotiates():
            return False
        silent.stream.settimeout(0.2)
        message_id = 1
        while True:
            try:
                if silent.stream.recv(1) == b'':
                    return speaking.asks(echoes(message_id, 1)) == 0
            except socket.timeout:
                if speaking.asks(echoes(message_id, 1)) != 0:
                    return False
                message_id += 1


def what_is_taken_is_life(program, count=200, seconds=9):
    """With a limit of five seconds a client that says nothing for longer, but takes what it asked for, is not ended."""
    with program.serve('--idle', '5') as share:
        client = share.client()
        if not opens_a_file(client) or client.asks(write(4, 1, 0, b'x' * LONGEST_PIECE, 1, 1)) != 0:
            return False
        client.send(b''.join(read(5 + i, 1, 0, LONGEST_PIECE, 1, 1) for i in range(count)))
        begin = time.monotonic()
        for i in range(count):
            if client.reply()[-LONGEST_PIECE:] != b'x' * LONGEST_PIECE:
                return False
            time.sleep(max(0, begin + seconds * i / count - time.monotonic()))
        return client.asks(echoes(5 + count, 1)) == 0


def others_go_on_beside_a_search(program, files=300, chains=39):
    """Of a piece that holds many chains of queries one is performed, and then others are heard, before the next."""
    with program.serve() as share:
        searching, beside = share.client(), share.client()
        if not beside.negotiates() or not opens_the_root(searching):
            return False
        for i in range(files):
            name = f'{i:04}' + 'b' * 200
            searching.send(create(4 + 2 * i, name, ALL_ACCESS, 2, 0, 1, 1) + close(5 + 2 * i, 2 + i, 1, 1))
            if not searching.reply() or not searching.reply():
                return False
        first = 4 + 2 * files
        searching.send(b''.join(search(first + CHAIN * i) for i in range(chains)))
        one = len(searching.reply())
        return one > 0 and beside.asks(echoes(1, 1)) == 0 and searching.waiting() < one * (chains - 1)


def searches_come_in_parts(program):
    """Each frame of a stream of queries and ECHOs is answered once and in order, however its bytes are cut."""
    with program.serve() as share:
        client, first = share.client(), 4
        if not opens_the_root(client):
            return False
        for part in (1, 3, 61, 1667, 1668, 1669, 4096, 2 * LONGEST_PIECE):
            frames = []
            for i in range(8 if part < 61 else 50):
                frames.append((first, search(first)) if i % 3 != 1 else (first, echoes(first, CHAIN)))
                first += CHAIN
            stream = b''.join(one for _, one in frames)
            for at in range(0, len(stream), part):
                client.send(stream[at:at + part])
            if any(struct.unpack_from('<Q', client.reply(), 24)[0] != number for number, _ in frames):
                return False
        return client.asks(echoes(first, 1)) == 0


def who_is_never_answered_is_ended(program):
    """After two seconds, whether or not bytes come; who was answered stays."""
    with program.serve('--idle-new', '2') as share:
        silent, answered, slow = share.client(), share.client(), share.client()
        if not answered.negotiates():
            return False
        slow.stream.settimeout(0.2)
        for byte in negotiate():
            try:
                slow.send(bytes([byte]))
                if slow.stream.recv(1) == b'':
                    break
            except socket.timeout:
                pass
            except ConnectionError:
                break
        else:
            return False
        return silent.is_ended() and answered.asks(echoes(1, 1)) == 0


def one_never_answered_makes_room(program):
    """Where all places are taken, a newcomer gets that of the first that was never answered; who was answered stays."""
    with program.serve() as share:
        answered = share.client()
        if not answered.negotiates():
            return False
        silent = [share.client() for _ in range(63)]
        newcomers = []
        for one in silent[:2]:
            newcomers.append(share.client())
            if not newcomers[-1].is_served() or not one.is_ended():
                return False
        return silent[2].negotiates() and answered.asks(echoes(1, 1)) == 0


def a_clock_before_1970_is_1970(program):
    with odd_system('clock') as system, program.serve(system=system) as share:
        reply = share.client().send(negotiate()).reply()
        return struct.unpack_from('<Q', reply, MOMENT_AT)[0] == OF_1970


def a_port_that_is_not_allowed_is_refused(program):
    words = ('serve', '--turns', '1', '--listen', '127.0.0.1:80')
    said = 'listen: failed\n127.0.0.1:80: no right to the port: those below 1024 are the system\'s; ' \
           'name a higher one, or give the program CAP_NET_BIND_SERVICE\n'
    with odd_system('port') as system:
        return (program.ran(*words, env=system) == (1, b'', 'listen: failed\n')
                and program.ran(*words, '--explain', env=system) == (1, b'', said))


def so_many_turns_are_taken(program):
    status, output, errors = program.ran('serve', '--listen', '127.0.0.1:0', '--turns', '2')
    return (status, output) == (0, b'') and errors.startswith('listening on 127.0.0.1:') and errors.count('\n') == 2


def addresses_are_refused(program):
    failed = (1, b'', 'listen: failed\n')
    with program.serve() as share:
        addresses = (f'127.0.0.1:{share.port}', '192.0.2.1:0', 'localhost:4450', '127.0.0.1', '', '127.0.0.1:65536')
        return all(program.ran('serve', '--turns', '1', '--listen', address) == failed for address in addresses)


def configurations_are_looked_at_first(program):
    serve, config = ('serve', '--listen', 'x'), os.path.join(TOP, 'share.toml')
    taken = program.ran('serve', '--turns', '1', '--listen', '127.0.0.1:0', '--config', config)
    return (taken[0] == 0 and program.ran(*serve, '--config', '/nowhere') == (1, b'', 'config: cannot be read\n')
            and program.ran(*serve, '--config', os.path.abspath(__file__)) == (1, b'', 'config: refused\n'))


def two_clients_are_replayed(program):
    """Whether the stored run of two clients and one file gets its stored answers."""
    run = os.path.join(TOP, 'examples', 'two_clients')
    with open(run, 'rb') as events, open(f'{run}.answers', 'rb') as answers:
        return program.run('replay', given=events) == (0, answers.read(), b'')


def guests_log_in_by_ntlm(program):
    """Guests come in where the configuration lets them, and say how they log in; elsewhere nobody does."""
    with program.serve('--login', 'ntlm', '--config', GUEST) as share:
        client = share.client()
        comes = ntlm.logs_in(client, 'somebody') == ntlm.COMES_IN and client.asks(tree_connect(3, 1)) == 0
    with program.serve('--login', 'ntlm') as share:
        client = share.client()
        first = client.negotiates() and client.send(session_setup(1, ntlm.NEGOTIATE)).reply()
        session = struct.unpack_from('<Q', first, 40)[0]
        stays = client.asks(session_setup(2, ntlm.authenticate('somebody'), session)) == DENIED
    return comes and stays


def hash_of(program, password):
    """The NT hash of a password, as the program has it."""
    return bytes.fromhex(program.run('nt-hash', given=password.encode())[1].decode())


def served_to_ann(program, folder, *words):
    """A share to which ann logs in by the password `Password`."""
    name = ntlm.accounts_file(folder, ntlm.account('ann', ntlm.PASSWORD_HASH.upper()))
    return program.serve('--login', 'ntlm', '--accounts', name, *words)


DENIED = 0xC000006D
# What answers one more login than the sessions that a connection may have.
NOT_ACCEPTED, SESSIONS = 0xC00000D0, 16


def an_account_logs_in_by_its_password(program):
    """By the right password, in any case of the name; by no other, and nobody else, but guests where they may come."""
    right, wrong = hash_of(program, 'Password'), hash_of(program, 'password')
    with tempfile.TemporaryDirectory() as folder, served_to_ann(program, folder) as share:
        for session, user in ((1, 'ann'), (2, 'ANN')):
            client = share.client()
            if not ntlm.comes_in(client, user, right) or client.asks(tree_connect(3, session)) != 0:
                return False
        denied = [ntlm.logs_in(share.client(), user, nt_hash)[0]
                  for user, nt_hash in (('ann', wrong), ('ann', None), ('bob', right), ('', None))]
    guests = ('--config', GUEST)
    with tempfile.TemporaryDirectory() as folder, served_to_ann(program, folder, *guests) as share:
        comes = [ntlm.logs_in(share.client(), user, nt_hash)
                 for user, nt_hash in (('ann', right), ('bob', wrong), ('', None))]
        stays = ntlm.logs_in(share.client(), 'ann', wrong)[0]
    return (denied == [DENIED] * 4 and comes == [ntlm.USER_COMES_IN, ntlm.COMES_IN, ntlm.COMES_IN]
            and stays == DENIED)


# The rights that MaximalAccess names of who may write and of who may only read, and the status of what is denied.
WRITERS, READERS, ACCESS_DENIED = ALL_ACCESS, 0x1200A9, 0xC0000022
WITH_READERS = ('--config', os.path.join(TOP, 'examples', 'readers.toml'))


def maximal_access(client, message_id, session):
    """What the response to a TREE_CONNECT has as MaximalAccess."""
    return struct.unpack_from('<I', client.send(tree_connect(message_id, session)).reply(), 64 + 12)[0]


def joins(client, token, session):
    """The MaximalAccess of a client that comes in by one token, as this session."""
    comes = client.negotiates() and client.asks(session_setup(1, token)) == 0
    return maximal_access(client, 2, session) if comes else None


def only_reads(client, session, number):
    """Whether a client that may only read opens the file `a` as open `number`, reads and lists, and changes nothing."""
    denied = [create(3, 'a', ALL_ACCESS, 1, 0, session, 1), create(4, 'b', 1, OPEN_IF, 0, session, 1),
              create(5, 'b', 1, 2, 0, session, 1), create(6, 'a', 1, 5, 0, session, 1),
              create(7, 'a', 0x10001, 1, 0x1000, session, 1)]
    if any(client.asks(request) != ACCESS_DENIED for request in denied):
        return False
    opens = client.asks(create(8, 'a', 0x02000000, OPEN_IF, 0, session, 1)) == 0
    reads = client.send(read(9, number, 0, 4, session, 1)).reply()[-4:] == b'text'
    changes = [write(10, number, 0, b'x', session, 1), rename(11, number, 'b', session, 1),
               set_info(12, number, 20, bytes(8), session, 1), set_info(13, number, 4, bytes(40), session, 1)]
    kept = all(client.asks(request) == ACCESS_DENIED for request in changes)
    lists = (client.asks(create(14, '', 1, 1, 1, session, 1)) == 0
             and client.asks(query_directory(15, number + 1, 12, 0, '*', 1024, session, 1)) == 0)
    return opens and reads and kept and lists


def readers_read_and_writers_write(program):
    """By examples/readers.toml ann may write; bob, and a guest, may only read."""
    with program.serve(*WITH_READERS) as share:
        ann, bob, guest = share.client(), share.client(), share.client()
        told = joins(ann, b'a', 1), joins(bob, b'b', 2), joins(guest, b'?', 3)
        writes = (ann.asks(create(3, 'a', ALL_ACCESS, OPEN_IF, 0, 1, 1)) == 0
                  and ann.asks(write(4, 1, 0, b'text', 1, 1)) == 0)
        return told == (WRITERS, READERS, READERS) and writes and only_reads(bob, 2, 2) and only_reads(guest, 3, 4)


def accounts_may_only_read_too(program):
    """An account with `readonly`, and guests where the configuration has `guest_readonly`; by NTLM."""
    right = hash_of(program, 'Password')
    with tempfile.TemporaryDirectory() as folder:
        name = ntlm.accounts_file(folder, ntlm.account('ann') + ntlm.account('bob', more='readonly = true\n'))
        told = []
        for words in (WITH_READERS, ('--config', GUEST)):
            with program.serve('--login', 'ntlm', '--accounts', name, *words) as share:
                for session, (user, nt_hash) in enumerate((('ann', right), ('BOB', right), ('somebody', None)), 1):
                    client = share.client()
                    comes = ntlm.comes_in(client, user, nt_hash)
                    told.append(comes and maximal_access(client, 3, session))
    return told == [WRITERS, READERS, READERS, WRITERS, READERS, WRITERS]


def challenge_of(program, *words):
    """The bytes that a new share answers to the first message of the first login."""
    with program.serve('--login', 'ntlm', *words) as share:
        client = share.client()
        return client.negotiates() and client.send(session_setup(1, ntlm.NEGOTIATE)).reply()[64:]


def challenges_come_from_the_seed(program):
    """By one seed they are the same in each run; without one they are others each time."""
    seed = ('--seed', '00112233445566778899aabbccddeeff')
    given, again, one, other = (challenge_of(program, *words) for words in (seed, seed, (), ()))
    return ntlm.SIGN in given and given == again and len({given, one, other}) == 3


def room_is_given_back(program, count=400):
    """The room for what a client was owed, 26 MB, is not kept once it took all and stays: less than 8 MiB are."""
    with program.serve(system=giving_back()) as share:
        client = share.client()
        if not opens_a_file(client) or client.asks(write(4, 1, 0, b'x' * LONGEST_PIECE, 1, 1)) != 0:
            return False
        before = memory_of(share)
        client.send(b''.join(read(5 + i, 1, 0, LONGEST_PIECE, 1, 1) for i in range(count)))
        taken = all(client.reply()[-LONGEST_PIECE:] == b'x' * LONGEST_PIECE for _ in range(count))
        return taken and client.asks(echoes(5 + count, 1)) == 0 and memory_of(share) - before < 8_388_608


def begins_logins(share, connections):
    """Whether so many clients each begin 16 logins and finish none, and a 17th is refused; then they go."""
    for _ in range(connections):
        client = share.client()
        if not client.negotiates():
            return False
        client.send(b''.join(session_setup(1 + i, ntlm.NEGOTIATE) for i in range(SESSIONS + 1)))
        found = [struct.unpack_from('<I', client.reply(), STATUS_AT - 4)[0] for _ in range(SESSIONS + 1)]
        if found != [ntlm.MORE_PROCESSING] * SESSIONS + [NOT_ACCEPTED]:
            return False
        client.end()
    return True


def unfinished_logins_take_no_memory(program):
    """10,000 logins that are begun on connections which then end, behind as many: not 64 KiB more are taken."""
    connections = 10_000 // SESSIONS
    with program.serve('--login', 'ntlm', system=giving_back()) as share:
        begun = begins_logins(share, connections)
        before = memory_of(share)
        return begun and begins_logins(share, connections) and memory_of(share) - before < 65_536


def words_are_refused(program):
    at = ('--listen', 'x')
    wrong = ((), at[:1], (*at, '--turns', '0'), (*at, '--idle', '-1'), (*at, '--login', 'x'))
    return all(program.ran('serve', *words)[0] == 2 for words in wrong)


TESTS = (
    a_client_is_served, a_file_is_written_and_read, bytes_come_one_by_one, an_end_is_told, sixty_four_are_served,
    as_many_are_served_as_limits_let, others_go_on_beside_ends, one_that_never_reads_holds_up_nobody,
    slow_reader_takes_every_byte, without_descriptors_it_goes_on, silence_is_an_end, others_go_on_beside_a_search,
    searches_come_in_parts, what_is_taken_is_life, who_is_never_answered_is_ended, one_never_answered_makes_room,
    room_is_given_back, so_many_turns_are_taken, addresses_are_refused, configurations_are_looked_at_first,
    two_clients_are_replayed, words_are_refused, guests_log_in_by_ntlm, an_account_logs_in_by_its_password,
    challenges_come_from_the_seed, readers_read_and_writers_write, accounts_may_only_read_too,
    unfinished_logins_take_no_memory, a_clock_before_1970_is_1970, a_port_that_is_not_allowed_is_refused,
)


def tests(words):
    return [(test, words.program) for test in (*TESTS, *connecting.TESTS)]
