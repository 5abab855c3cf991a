"""Who may connect to the program over TCP: by --hosts of which addresses, and by --per-address how many of one; and how
long an address waits behind wrong passwords.

A client comes from the address that it binds: all of 127.0.0.0/8 are this machine's.
"""
import contextlib
import os
import socket
import tempfile
import time

from tests.smb import ntlm
from tests.smb.client import Client
from tests.smb.frames import echoes, negotiate
from tests.smb.program import GUEST, descriptors_of, memory_of

ONE, OTHER = '127.0.0.1', '127.0.0.2'
# Networks, and which addresses they let in and keep out.
NETWORKS = (
    ('127.0.0.2', (OTHER,), (ONE, '127.0.0.3', '127.0.1.2')),
    ('10.0.0.0/8,127.0.0.2,127.0.1.0/24', (OTHER, '127.0.1.1', '127.0.1.255'), (ONE, '127.0.2.1')),
    ('127.0.0.4/30', ('127.0.0.4', '127.0.0.7'), ('127.0.0.3', '127.0.0.8')),
    ('127.0.0.2/31,127.0.0.9/32', (OTHER, '127.0.0.3', '127.0.0.9'), (ONE, '127.0.0.8', '127.0.0.10')),
    ('127.128.0.0/9', ('127.128.0.0', '127.255.255.254'), (ONE, '127.127.255.255')),
    ('0.0.0.0/0', (ONE, OTHER, '127.255.0.1'), ()),
    ('0.0.0.0/1', (ONE,), ()),
    ('128.0.0.0/1', (), (ONE, OTHER)),
    ('::/0', (), (ONE, OTHER)),
    ('::ffff:127.0.0.2', (OTHER,), (ONE,)),
    ('::ffff:127.0.0.0/127', (ONE,), (OTHER,)),
)
# Of IPv6, with a client from ::1.
NETWORKS_OF_6 = (('::1', True), ('::/127', True), ('::/0', True), ('0.0.0.0/0', False), ('fd00::/8', False), ('::2/127', False),
                 ('::1/128,fd00::/8', True))


def comes_in(share, source):
    """Whether a client from an address is served; False where it is ended with nothing before."""
    client = share.client(source)
    try:
        return client.is_served()
    except ConnectionError:
        return False
    finally:
        client.end()


def is_kept_out(share, source):
    client = share.client(source)
    try:
        return client.is_ended()
    finally:
        client.end()


def comes_again(share, source):
    """A client from an address, once there is a place for it."""
    while True:
        client = share.client(source)
        try:
            if client.negotiates():
                return client
        except ConnectionError:
            pass
        client.end()


def hosts_alone_are_let_in(program):
    wrong = []
    for hosts, inside, outside in NETWORKS:
        with program.serve('--hosts', hosts) as share:
            wrong += [(hosts, it, 'is kept out') for it in inside if not comes_in(share, it)]
            wrong += [(hosts, it, 'comes in') for it in outside if not is_kept_out(share, it)]
    print(''.join(f'  {it}\n' for it in wrong), end='', flush=True)
    return not wrong


def port_of(share):
    """The port of the next address that a program says it listens at."""
    return int(share.process.stderr.readline().decode().rpartition(':')[2])


def has_ipv6():
    try:
        with socket.create_server(('::1', 0), family=socket.AF_INET6):
            return True
    except OSError:
        return False


def hosts_of_ipv6_are_let_in(program):
    """From ::1, where the machine has it; a client of IPv4 counts as one also where it is listened for at [::]."""
    wrong = []
    if not has_ipv6():
        print('  this machine has no ::1', flush=True)
        return True
    for hosts, comes in NETWORKS_OF_6:
        with program.serve('--listen', '[::1]:0', '--hosts', hosts) as share:
            client = Client(port_of(share), program.patience, '::1')
            if (client.is_served() if comes else not client.is_ended()) is not comes:
                wrong.append((hosts, '::1'))
    for hosts, comes in (('127.0.0.2', True), ('::ffff:127.0.0.0/104', True), ('::/0', False), ('127.0.0.1', False)):
        with program.serve('--listen', '[::]:0', '--hosts', hosts) as share:
            client = Client(port_of(share), program.patience, source=OTHER)
            if (client.is_served() if comes else not client.is_ended()) is not comes:
                wrong.append((hosts, 'at [::]'))
    print(''.join(f'  {it}\n' for it in wrong), end='', flush=True)
    return not wrong


def who_is_kept_out_takes_nothing(program, count=500):
    """No place, no number, no descriptor and no memory; and who is in is served between."""
    with program.serve('--hosts', OTHER) as share:
        inside = [share.client(OTHER) for _ in range(63)]
        if not all(client.negotiates() for client in inside) or not is_kept_out(share, ONE):
            return False
        memory, descriptors = memory_of(share), descriptors_of(share)
        for i in range(count):
            if not is_kept_out(share, ONE) or inside[i % 63].asks(echoes(1 + i // 63, 1)) != 0:
                return False
        took = memory_of(share) - memory, descriptors_of(share) - descriptors
        print(f'  {took}', flush=True)
        return took[0] < 65_536 and took[1] == 0 and comes_in(share, OTHER)


def so_many_of_an_address_are_let_in(program):
    """A third one is ended at once, others come in meanwhile, and there is a place once one has gone."""
    with program.serve('--per-address', '2') as share:
        first, second = share.client(ONE), share.client(ONE)
        if not first.negotiates() or not second.negotiates() or not is_kept_out(share, ONE):
            return False
        other, silent = share.client(OTHER), share.client(OTHER)
        if not other.is_served() or not is_kept_out(share, OTHER) or not comes_in(share, '127.0.0.3'):
            return False
        silent.reset()
        first.end()
        third, fourth = comes_again(share, ONE), comes_again(share, OTHER)
        return (is_kept_out(share, ONE) and is_kept_out(share, OTHER)
                and all(client.asks(echoes(message_id, 1)) == 0 for client, message_id in (
                    (second, 1), (third, 1), (fourth, 1), (other, 2))))


def one_address_leaves_places_to_others(program):
    """Of sixty-four places it may have sixty."""
    with program.serve('--per-address', '60') as share:
        clients = [share.client(ONE) for _ in range(60)]
        if not all(client.negotiates() for client in clients):
            return False
        beside = [share.client(f'127.0.0.{2 + i}') for i in range(4)]
        return (all(is_kept_out(share, ONE) for _ in range(20)) and all(client.is_served() for client in beside)
                and is_kept_out(share, '127.0.0.9') and all(client.asks(echoes(1, 1)) == 0 for client in clients))


def all_of_an_ipv6_network_count_as_one(program):
    """::1 by itself; with IPv4 beside it at [::], which counts by its own address."""
    if not has_ipv6():
        print('  this machine has no ::1', flush=True)
        return True
    with program.serve('--listen', '[::]:0', '--per-address', '1') as share:
        port = port_of(share)
        first = Client(port, program.patience, '::1')
        if not first.is_served() or not Client(port, program.patience, '::1').is_ended():
            return False
        mapped = Client(port, program.patience, source=OTHER)
        return mapped.is_served() and is_kept_out(share, OTHER) and comes_in(share, ONE)


def who_makes_room_is_counted_no_more(program):
    """Where all places are taken, one that was never answered ends for another, and leaves its address a place."""
    with program.serve('--per-address', '32') as share:
        silent = [share.client(ONE) for _ in range(32)]
        if not is_kept_out(share, ONE):
            return False
        others = [share.client(OTHER) for _ in range(32)]
        if not all(client.negotiates() for client in others):
            return False
        beside = share.client('127.0.0.3')
        return beside.is_served() and sum(map(is_over, silent)) == 1 and share.client(ONE).is_served()


def is_over(client):
    """Whether the share has ended it, without a wait."""
    client.stream.setblocking(False)
    try:
        return client.stream.recv(1) == b''
    except BlockingIOError:
        return False
    except ConnectionError:
        return True


def both_hold_together(program):
    with program.serve('--hosts', '127.0.0.0/30', '--per-address', '1') as share:
        first, other = share.client(ONE), share.client(OTHER)
        return (first.is_served() and other.is_served() and is_kept_out(share, ONE) and is_kept_out(share, OTHER)
                and is_kept_out(share, '127.0.0.4') and comes_in(share, '127.0.0.3'))


# What answers a wrong password, and behind how many of them an address waits.
DENIED, FEWEST = 0xC000006D, 5
RIGHT, WRONG = bytes.fromhex(ntlm.PASSWORD_HASH), bytes(16)


@contextlib.contextmanager
def served_to_ann(program, *words):
    """A share to which ann logs in by her password."""
    with tempfile.TemporaryDirectory() as folder:
        accounts = ntlm.accounts_file(folder, ntlm.account('ann'))
        with program.serve('--login', 'ntlm', '--accounts', accounts, *words) as share:
            yield share


def are_denied(share, source, count):
    """Whether so many logins by a wrong password are denied, each once it is answered, on connections of their own."""
    return all(ntlm.logs_in(share.client(source), 'ann', WRONG)[0] == DENIED for _ in range(count))


def waits(client, begin, seconds):
    """Whether what a client asked is answered, and not before so many seconds behind a moment have passed."""
    is_answered = len(client.reply()) >= 64
    passed = time.monotonic() - begin
    if passed < seconds:
        print(f'  answered after {passed:.2f} of {seconds} seconds', flush=True)
    return is_answered and passed >= seconds


def wrong_passwords_are_slowed_down(program):
    """Behind the fifth an address waits a second, and behind the next ones twice as long each time; who is in is
    answered meanwhile, and so are others."""
    with served_to_ann(program) as share:
        inside, early = share.client(ONE), share.client(ONE)
        if not ntlm.comes_in(inside, 'ann', RIGHT) or not early.negotiates() or not are_denied(share, ONE, FEWEST - 1):
            return False
        for i, seconds in enumerate((1, 2, 4)):
            begin = time.monotonic()
            if not are_denied(share, ONE, 1):
                return False
            late = share.client(ONE).send(negotiate())
            early.send(echoes(1 + i, 1))
            if inside.asks(echoes(3 + i, 1)) != 0 or not comes_in(share, OTHER):
                return False
            if not waits(late, begin, seconds) or not waits(early, begin, seconds):
                return False
        return True


def four_wrong_passwords_slow_nobody_down(program):
    """Nor do wrong ones of other addresses, and right ones: a client is answered in less time than it would wait."""
    with served_to_ann(program) as share:
        begin = time.monotonic()
        if not all(are_denied(share, f'127.0.0.{1 + i}', FEWEST - 1) for i in range(4)):
            return False
        if not all(ntlm.comes_in(share.client(ONE), 'ann', RIGHT) for _ in range(20)):
            return False
        print(f'  {time.monotonic() - begin:.2f} seconds', flush=True)
        begin = time.monotonic()
        return share.client(ONE).is_served() and time.monotonic() - begin < 1


def who_is_in_waits_for_its_own_wrong_passwords(program):
    """A guest, who tries those of an account on its own connection, until it has come in again."""
    with served_to_ann(program, '--config', GUEST) as share:
        guest = share.client(ONE)
        if not ntlm.comes_in(guest, 'somebody'):
            return False
        for i in range(FEWEST):
            begin = time.monotonic()
            if ntlm.login_at(guest, 3 + 2 * i, 'ann', WRONG)[0] != DENIED:
                return False
        message_id = 3 + 2 * FEWEST
        if not waits(guest.send(echoes(message_id, 1)), begin, 1):
            return False
        if ntlm.login_at(guest, message_id + 1, 'somebody') != ntlm.COMES_IN or not are_denied(share, ONE, 1):
            return False
        begin = time.monotonic()
        return guest.asks(echoes(message_id + 3, 1)) == 0 and time.monotonic() - begin < 2


def who_ends_at_once_is_counted(program):
    """Bytes that are no frame, behind a wrong password, end the connection in the same turn."""
    with served_to_ann(program) as share:
        for _ in range(FEWEST):
            client, begin = share.client(ONE), time.monotonic()
            is_denied = client.negotiates() and ntlm.login_at(client, 1, 'ann', WRONG, b'\x85')[0] == DENIED
            if not is_denied or not client.is_ended():
                return False
        return waits(share.client(ONE).send(negotiate()), begin, 1)


def ticks_of(share):
    """How many ticks of a processor's time the program took."""
    with open(f'/proc/{share.process.pid}/stat', encoding='ascii') as it:
        return sum(map(int, it.read().rpartition(')')[2].split()[11:13]))


def who_waits_costs_nothing(program):
    """The program sleeps, though bytes wait to be read."""
    with served_to_ann(program) as share:
        if not are_denied(share, ONE, FEWEST):
            return False
        begin = time.monotonic()
        if not are_denied(share, ONE, 1):
            return False
        late = share.client(ONE).send(negotiate() + b''.join(echoes(1 + i, 1) for i in range(20)))
        ticks = ticks_of(share)
        is_well = waits(late, begin, 2)
        took = (ticks_of(share) - ticks) / os.sysconf('SC_CLK_TCK')
        print(f'  {took:.2f} seconds of a processor', flush=True)
        return is_well and took < 0.5 and all(len(late.reply()) >= 64 for _ in range(20))


def a_clock_for_tests_slows_nobody_down(program):
    """Ten wrong passwords would take half a minute."""
    with served_to_ann(program, '--clock', '133000000000000000') as share:
        begin = time.monotonic()
        return are_denied(share, ONE, 10) and time.monotonic() - begin < 15


TESTS = (hosts_alone_are_let_in, hosts_of_ipv6_are_let_in, who_is_kept_out_takes_nothing, so_many_of_an_address_are_let_in,
         one_address_leaves_places_to_others, all_of_an_ipv6_network_count_as_one, who_makes_room_is_counted_no_more,
         both_hold_together, wrong_passwords_are_slowed_down, four_wrong_passwords_slow_nobody_down,
         who_is_in_waits_for_its_own_wrong_passwords, who_ends_at_once_is_counted, who_waits_costs_nothing,
         a_clock_for_tests_slows_nobody_down)
