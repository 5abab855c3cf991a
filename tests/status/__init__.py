"""The status of a share: who asks at its door, what he is answered, and who is kept out."""
import datetime
import os
import resource
import socket
import tempfile
import time

from tests.smb import ntlm
from tests.smb.kept import differs
from tests.smb.program import GUEST, TOP
from tests.status import asked, shown
from tests.status.watched import SOON, Watched, metrics_of, works

PAGES = ('/', '/status.json', '/metrics')
# How many ask at once; how many descriptors a test has beside theirs; after how many seconds one is ended who asks too
# slowly.
AT_ONCE, SPARE, PATIENCE = 1_000, 64, 5
# How long a file of room is.
ROOM = 123_456


def who_is_there_is_shown(program):
    """A client, its session and its open, in each of the three forms."""
    with Watched(program) as it:
        before = it.json()
        client = works(it.share, 'file')
        found, (_, fields, page), (_, _, text) = it.json(), it.get('/'), it.get('/metrics')
        address = '%s:%d' % client.client.stream.getsockname()
        client.client.end()
        (connection,), (opened,), metrics = found['connections'], found['opens'], metrics_of(text)
        shown = (before['connections'], before['opens'], connection['dialect'], connection['address'],
                 len(connection['sessions']), opened['connection'], opened['entry'], 'name' in opened,
                 found['limits']['opens']['used'], found['requests']['WRITE'])
        wrong = [differs(shown, ([], [], '2.1', address, 1, connection['number'], 2, False, 1, 1), 'JSON'),
                 differs([metrics[f'smbshare_{name}'] for name in ('connections', 'requests_total{command="WRITE"}',
                                                                   'used_bytes')], [1, 1, 8_192], 'metrics')]
        return (address in page and fields['Cache-Control'] == 'no-store'
                and "default-src 'none'" in fields['Content-Security-Policy'] and not any(wrong))


def names_are_shown_where_they_are_asked_for(program):
    """And can't be markup, nor end a string."""
    name = "a&lt; ';"
    with Watched(program, '--status-names') as it:
        client = works(it.share, name)
        names, page = [opened['name'] for opened in it.json()['opens']], it.get('/')[2]
        client.client.end()
        return not differs(names, [name], 'names') and 'a&amp;lt; &#39;;' in page and name not in page


def users_and_refusals_are_shown(program):
    """Of accounts: a right password and a wrong one."""
    with tempfile.TemporaryDirectory() as folder:
        accounts = ntlm.accounts_file(folder, ntlm.account('ann'))
        with Watched(program, '--login', 'ntlm', '--accounts', accounts) as it:
            client, wrong = it.share.client(), it.share.client()
            ntlm.logs_in(client, 'ann', bytes.fromhex(ntlm.PASSWORD_HASH))
            ntlm.logs_in(wrong, 'ann', bytes(16))
            found = it.json()
            users = [(session['user'], session['signed']) for connection in found['connections']
                     for session in connection['sessions']]
            return not differs((users[:1], found['refusals'].get('STATUS_LOGON_FAILURE')), ([('ann', True)], 1), found)


def what_is_no_request_for_it_is_refused(program):
    """Another method, page and host, a head that is too long, and what is no request."""
    with Watched(program) as it:
        host = f'127.0.0.1:{it.port}'
        asked = {b'GET / HTTP/1.1\r\nHost: elsewhere.example\r\n\r\n': 421,
                 b'GET /x HTTP/1.1\r\nHost: localhost\r\n\r\n': 404,
                 f'POST / HTTP/1.1\r\nHost: {host}\r\n\r\n'.encode(): 405, b'no request\r\n\r\n': 400,
                 b'GET / HTTP/1.1\r\nHost: localhost\r\nLong: ' + b'x' * 9_000 + b'\r\n\r\n': 431,
                 b'GET / HTTP/1.1\r\nHost: localhost\r\n\r\n': 200}
        wrong = [differs(it.raw(data)[:12], b'HTTP/1.1 %d' % status, data[:60]) for data, status in asked.items()]
        long = it.raw(b'GET / HTTP/1.1\r\nHost: localhost\r\nLong: ' + b'x' * 1_000_000)
        return not any(wrong) and long[:12] in (b'HTTP/1.1 431', b'') and it.share.client().is_served()


def who_asks_slowly_is_ended(program):
    """One who says nothing, and one who sends a byte a second; the share goes on meanwhile, and so does its status."""
    with Watched(program) as it:
        silent, slow = (socket.create_connection(('127.0.0.1', it.port), SOON) for _ in range(2))
        begin, ended = time.monotonic(), set()
        while len(ended) < 2 and time.monotonic() - begin < 4 * PATIENCE:
            for asked in {silent, slow} - ended:
                try:
                    if asked is slow:
                        asked.sendall(b'G')
                    asked.settimeout(0.3)
                    if asked.recv(1) == b'':
                        ended.add(asked)
                except TimeoutError:
                    pass
                except ConnectionError:
                    ended.add(asked)
            if it.get('/metrics')[0] != 200 or not it.share.client().is_served():
                return False
        took = time.monotonic() - begin
        return not differs((len(ended), took > PATIENCE - 1), (2, True), f'ended, behind {took:.1f} seconds')


def descriptors():
    """How many descriptors this process may have, as many as the system lets it."""
    _, most = resource.getrlimit(resource.RLIMIT_NOFILE)
    resource.setrlimit(resource.RLIMIT_NOFILE, (most, most))
    return most


def many_are_answered(program):
    """So many who ask at once, and a client that is served beside."""
    with Watched(program) as it:
        count = min(AT_ONCE // 10 if program.is_unproved else AT_ONCE, descriptors() - SPARE)
        asked = [socket.create_connection(('127.0.0.1', it.port), SOON) for _ in range(count)]
        client = works(it.share, 'file')
        for i, one in enumerate(asked):
            one.sendall(f'GET {PAGES[i % 3]} HTTP/1.1\r\nHost: localhost\r\n\r\n'.encode())
        client.client.end()
        found = set()
        for one in asked:
            found.add(one.recv(12))
            one.close()
        return not differs(found, {b'HTTP/1.1 200'}, 'answers')


def a_journal_is_shown(program):
    """By its length; of a share that has none, or is recorded, none is."""
    with tempfile.TemporaryDirectory() as folder:
        file, record = os.path.join(folder, 'journal'), os.path.join(folder, 'record')
        with Watched(program, '--journal', file) as it:
            works(it.share, 'file')
            found, size = [it.json()['journal']['bytes']], os.path.getsize(file)
        for words in ((), ('--record', record), ('--from', os.path.join(TOP, 'examples'))):
            with Watched(program, *words) as it:
                found.append(it.json()['journal'])
        return not differs(found, [size, None, None, None], 'what is shown') and size > 5_000


def room_and_last_write_are_shown(program, words, verb):
    """Of a journal that is served with these words; its file of room is one of the test's own."""
    with tempfile.TemporaryDirectory() as folder:
        file = os.path.join(folder, 'journal')
        with Watched(program, '--journal', file, *words) as it:
            works(it.share, 'file')
            had_room = os.path.exists(f'{file}.room')
            before = it.json()['journal']['room_bytes']
            with open(f'{file}.other', 'wb') as other:
                other.truncate(ROOM)
            os.replace(other.name, f'{file}.room')
            found, (_, _, page), (_, _, text) = it.json()['journal'], it.get('/'), it.get('/metrics')
            written = os.stat(file).st_mtime_ns // 1_000_000
        synced = written / 1_000 if verb == 'synced' else None
        moment = datetime.datetime.fromtimestamp(written // 1_000, datetime.timezone.utc)
        said = (f'<p>{os.path.getsize(file)} bytes, {ROOM} bytes of room, {verb} last {moment:%Y-%m-%d %H:%M:%S}'
                f'.{written % 1_000:03} UTC</p>')
        metrics = [metrics_of(text).get(f'smbshare_journal_{name}') for name in (
            'room_bytes', 'last_write_timestamp_seconds', 'last_sync_timestamp_seconds')]
        return not any([differs((before is not None, said in page), (had_room, True), page),
                        differs((found['room_bytes'], found['written'], found['synced']),
                                (ROOM, written / 1_000, synced), 'JSON'),
                        differs(metrics, [ROOM, written / 1_000, synced], 'metrics')])


def a_journals_room_and_last_write_are_shown(program):
    """In each of the three forms; with --sync its last write is called a sync."""
    return all([room_and_last_write_are_shown(program, *how) for how in (((), 'written'), (('--sync',), 'synced'))])


def an_address_is_looked_at(program):
    """One that others reach is refused, and taken where that is asked for; words without it are wrong."""
    serve = ('serve', '--listen', '127.0.0.1:0', '--turns', '1', '--config', GUEST)
    open_one = program.ran(*serve, '--status', '0.0.0.0:0')
    taken = program.ran(*serve, '--status', '0.0.0.0:0', '--status-anywhere')
    said = 'status: others can reach it: name a loopback address, as 127.0.0.1:9100, or say --status-anywhere\n'
    statuses = [program.run(*serve, *words)[0] for words in (('--status', 'here'), ('--status-names',),
                                                             ('--status-anywhere',))]
    return (not any([differs(open_one, (1, b'', said), 'open'), differs(statuses, [1, 2, 2], 'words')])
            and taken[0] == 0 and 'status: whoever reaches it sees who is there and what is open\n' in taken[2])


TESTS = (who_is_there_is_shown, names_are_shown_where_they_are_asked_for, users_and_refusals_are_shown,
         what_is_no_request_for_it_is_refused, who_asks_slowly_is_ended, many_are_answered, a_journal_is_shown,
         a_journals_room_and_last_write_are_shown, an_address_is_looked_at, *asked.TESTS, *shown.TESTS)


def tests(words):
    return [(test, words.program) for test in TESTS]
