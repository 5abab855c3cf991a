"""Of --hosts and --per-address, of `serve` and of `share`: which words are taken, and what is said of each that is not."""
import contextlib
import itertools
import os
import socket
import tempfile

from tests.words.faults import differs
from tests.words.without_memory import ends_without_memory

NOT_AN_ADDRESS = 'not an IP address, nor a network of them: say such as 10.1.2.3, 192.168.1.0/24 or fd00::/8; no name is looked up'
GAP = 'nothing on one side of a comma: say an address or a network on each'
NOT_A_PREFIX = 'not a prefix of it: say a number from 0 to {} behind the slash'
NONE = 'none: say at least one address or network, such as 10.1.2.3 or 192.168.1.0/24'
TOO_MANY = 'too many networks: give at most 64'
# Lists, and what is said of each.
BROKEN = (
    ('', NONE),
    *((it, f'{it}: {GAP}') for it in (',', '10.1.2.3,', ',10.1.2.3', '10.1.2.3,,10.1.2.4')),
    *((f'10.1.2.3,{it}', f'{it}: {NOT_AN_ADDRESS}') for it in (
        'localhost', 'example.org', '10.1.2', '10.1.2.3.4', '10.1.2.256', '010.1.2.3', ' 10.1.2.3', '10.1.2.3 ', '/24', '10.1.2.3:445',
        '[::1]', 'fe80::1%eth0', ':::', '10.1.2.3-10.1.2.9', '*')),
    *((it, f'{it}: {NOT_A_PREFIX.format(32)}') for it in (
        '192.168.1.0/33', '192.168.1.0/', '192.168.1.0/x', '192.168.1.0/-1', '192.168.1.0/+1', '192.168.1.0/24/8', '192.168.1.0/ 24',
        '192.168.1.0/255.255.255.0', '192.168.1.0/4294967328', '0.0.0.0/256')),
    *((it, f'{it}: {NOT_A_PREFIX.format(128)}') for it in ('fe80::1/129', 'fd00::/', '::/1000', '::/f')),
    *((f'fd00::/8,{it}', f'{it}: bits behind its prefix are set: say {first}') for it, first in (
        ('192.168.1.5/24', '192.168.1.0/24'), ('192.168.1.5/31', '192.168.1.4/31'), ('10.0.0.1/0', '0.0.0.0/0'),
        ('255.255.255.255/1', '128.0.0.0/1'), ('fd00::1/8', 'fd00::/8'), ('fe80::1/127', 'fe80::/127'), ('::1/0', '::/0'),
        ('ffff::/1', '8000::/1'), ('2001:db8:0:1::/48', '2001:db8::/48'))),
    ('10.1.2.3,a\x1bb\n', f'a\\u{{1b}}b\\n: {NOT_AN_ADDRESS}'),
    (','.join(['10.1.2.3'] * 65), TOO_MANY),
    (','.join(f'10.{i}.0.0/16' for i in range(200)), TOO_MANY),
)
TAKEN = ('10.1.2.3', '192.168.1.0/24,10.1.2.3,fd00::/8', '0.0.0.0/0', '::/0', '127.0.0.1/32', '::1/128', '::ffff:10.0.0.0/104',
         '10.1.2.3,10.1.2.3', ','.join(['10.1.2.3'] * 64))


@contextlib.contextmanager
def commands():
    """The words that serve, and those that share a folder, at a port that another program has; and the folder."""
    with tempfile.TemporaryDirectory() as folder, socket.create_server(('127.0.0.1', 0)) as taken:
        at = ('--listen', f'127.0.0.1:{taken.getsockname()[1]}')
        yield (('serve', '--turns', '1', *at), ('share', folder, *at)), folder


def lists_are_refused(program):
    """Before anything listens, and before a password is asked for: where the port is taken, the list is told, and not the port."""
    wrong = []
    with commands() as (both, folder):
        for words, (text, said) in itertools.product(both, BROKEN):
            named = ('--account', 'ann', '--passwords', os.path.join(folder, 'none')) if words[0] == 'share' else ()
            found = program.ran(*words, *named, f'--hosts={text}', given=b'')
            wrong.append(differs(found, (1, b'', f'hosts: {said}\n'), (words[0], text)))
    return not any(wrong)


def lists_are_taken(program):
    """What is refused then is the port."""
    wrong = []
    with commands() as (both, _):
        for words, text in itertools.product(both, TAKEN):
            status, _, errors = program.ran(*words, f'--hosts={text}', given=b'')
            wrong.append(differs((status, errors.splitlines()[0]), (1, 'listen: failed'), (words[0], text)))
    return not any(wrong)


def numbers_are_refused(program):
    """A number from 1 to 4,096 alone is taken."""
    wrong, numbers = [], (('0', 2), ('4097', 2), ('-1', 2), ('x', 2), ('', 2), ('1', 1), ('4096', 1))
    with commands() as (both, _):
        for words, (number, status) in itertools.product(both, numbers):
            found, _, errors = program.ran(*words, f'--per-address={number}', given=b'')
            is_named = '--per-address' in errors if status == 2 else errors.startswith('listen: failed\n')
            wrong.append(differs((found, is_named), (status, True), (words[0], number)))
    return not any(wrong)


def it_ends_without_memory(program):
    """Up to where it would listen, with lists that are taken and with such as are not."""
    lists = ('192.168.1.0/24,fd00::/8', '10.1.2.3,', '10.1.2.3,localhost')
    with commands() as (both, _):
        return all(ends_without_memory(program, *words, '--hosts', text) for words, text in itertools.product(both, lists))


TESTS = (lists_are_refused, lists_are_taken, numbers_are_refused)
WITHOUT_MEMORY = (it_ends_without_memory,)
