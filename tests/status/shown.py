"""What a share's status says of a share at work, to the byte: as a page, as JSON and as metrics."""
import os
import re
import struct
import tempfile
import time

from tests.smb.client import OPEN_IF, Client
from tests.smb.frames import create, echoes, frame, header, lock, read
from tests.smb.kept import Heard, Looking, differs
from tests.smb.program import TOP
from tests.smb.working import CREATE, DELETE_ON_CLOSE, EXCLUSIVE, FAIL_IMMEDIATELY, FILE_ID_AT
from tests.status.watched import Watched

# A user that means something in each of the texts, and how a page, JSON and a label of a metric spell it.
USER = '<a href="x">\\n\n&\'\t\x1f\x7f\u00fc\U0001f600'
IN_HTML = '&lt;a href=&quot;x&quot;&gt;\\u{5C}n\\u{A}&amp;&#39;\\u{9}\\u{1F}\\u{7F}\u00fc\U0001f600'
IN_JSON = '<a href=\\"x\\">\\\\u{5C}n\\\\u{A}&\'\\\\u{9}\\\\u{1F}\\\\u{7F}\u00fc\U0001f600'
# FILE_GENERIC_WRITE and DELETE.
WRITES_AND_DELETES, ACCESS_DENIED, UNKNOWN_COMMAND = 0x130116, 0xC0000022, 19
# The most rows of connections and opens together, and of one of them where there are many of the other.
ROWS, HALF = 1_000, 500
MOMENT, SECONDS = r'\d{4}-\d\d-\d\d \d\d:\d\d:\d\d\.\d{3}', r'\d+\.\d{3}'


def in_toml(text):
    """A text as TOML has it."""
    return '"' + ''.join(it if it.isprintable() and it not in '"\\' else f'\\U{ord(it):08X}' for it in text) + '"'


def config_of(folder, *lines):
    """A configuration with two users, one of whom may only read, and these lines in front."""
    with open(os.path.join(TOP, 'share.toml'), encoding='utf-8') as it:
        front = it.read().partition('[[user]]')[0]
    users = (f'[[user]]\nname = {in_toml(USER)}\ntoken = "61"\n', '[[user]]\nname = "bob"\ntoken = "62"\nreadonly = true\n')
    with open(os.path.join(folder, 'share.toml'), 'w', encoding='utf-8') as it:
        it.write('\n'.join((front, *users, *lines)))
    return it.name


def is_refused(client):
    """A READ through an open that may not read, and a request of no command; another client breaks a rule and is ended."""
    asked = read(client.next_id(), client.number, 0, 1, client.session, 1)
    if client.client.asks(asked) != ACCESS_DENIED:
        raise AssertionError('a READ is let in')
    client.client.asks(frame(header(UNKNOWN_COMMAND, client.next_id(), session_id=client.session) + bytes(4)))


def works(share):
    """Three clients: of the user, who has an open; one that says nothing; and one that may only read. A fourth one asks
    with a MessageId that is not in its window, and is ended."""
    client, silent = Looking(share).comes_in(), share.client()
    asked = create(client.next_id(), 'a&b.txt', WRITES_AND_DELETES, CREATE, DELETE_ON_CLOSE, client.session, 1, 0)
    client.number = struct.unpack_from('<Q', client.asks(asked, 0, None), FILE_ID_AT)[0]
    ranges = [(at, 1, EXCLUSIVE | FAIL_IMMEDIATELY) for at in range(2)]
    client.asks(lock(client.next_id(), client.number, ranges, client.session, 1), 0, None)
    is_refused(client)
    broken = share.client()
    if not broken.negotiates() or not broken.send(echoes(77, 1)).is_ended():
        raise AssertionError('a MessageId is taken that is not in the window')
    return client, silent


def lacks(text, rows, what):
    """Whether a text has not each of these, in this order; which one it lacks is said."""
    at = 0
    for row in rows:
        found = re.compile(row).search(text, at)
        if found is None:
            print(f'  {what}: {row!r} is not in {text[at:]!r}', flush=True)
            return True
        at = found.end()
    return False


def cell(*values):
    """Cells of a row, those of numbers aligned."""
    return ''.join(f'<td class="n">{it}</td>' if isinstance(it, int) else f'<td>{it}</td>' for it in values)


def page_of(address):
    """The rows of the page, as expressions."""
    user = re.escape(IN_HTML)
    return [
        re.escape('<!DOCTYPE html>\n<html lang="en">\n'), re.escape('<meta http-equiv="refresh" content="2">\n'),
        rf'<p>{MOMENT} UTC, served since {MOMENT}</p>\n',
        r'<p>\d+ bytes received, \d+ bytes sent, longest turn \d+\.\d+ seconds</p>\n',
        f'<tr>{cell("connections", 2, 64, 62)}</tr>\n', f'<tr>{cell("opens", 1, 1024, 1023)}</tr>\n',
        f'<tr>{cell("bytes owed to clients", 0, 1073741824, 1073741824)}</tr>\n',
        f'<tr>{cell(1, re.escape(address))}<td>{MOMENT}</td>{cell("2.1", 1, user, "no", "no")}</tr>\n',
        rf'<tr>{cell(2)}<td>127\.0\.0\.1:\d+</td><td>{MOMENT}</td><td>-</td><td class="n">-</td>{cell(*"---")}</tr>\n</table>\n',
        f'<tr>{cell(1, 1, user, 2, "write append delete", "none", "yes", 2)}<td>-</td></tr>\n</table>\n',
        f'<tr>{cell("READ", 1)}</tr>\n', f'<tr>{cell("unknown", 1)}</tr>\n</table>\n',
        f'<tr>{cell("STATUS_ACCESS_DENIED", 1)}</tr>\n', f'<tr>{cell("E3", 1)}</tr>\n</table>\n</body>\n</html>\n']


def json_of(address):
    """The rows of the JSON object, as expressions."""
    rows = [
        '{"moment":SECONDS,"since":SECONDS,"sessions":1,\n',
        '"limits":{"connections":{"used":2,"most":64},"opens":{"used":1,"most":1024},"entries":{"used":1,"most":4096},'
        '"bytes":{"used":0,"most":67108864},"owed_bytes":{"used":0,"most":1073741824}},\n',
        '"journal":null,\n', '"requests":{"NEGOTIATE":2,"SESSION_SETUP":1,"LOGOFF":0,', '"READ":1,',
        '"unknown":1},\n"refusals":{"STATUS_BUFFER_OVERFLOW":0,', '"STATUS_ACCESS_DENIED":1,', '},\n"endings":{"F1":0,',
        '"E3":1,"E4":0,', '"E7":0},\n"received_bytes":',
        f'"connections":[\n{{"number":1,"address":"{address}","since":SECONDS,"dialect":"2.1","sessions":['
        f'{{"number":1,"user":"{IN_JSON}","signed":false,"read_only":false}}]}},\n', '{"number":2,"address":"127.0.0.1:',
        '","since":SECONDS,"dialect":null,"sessions":[]}],\n"more_connections":0,\n',
        f'"opens":[\n{{"number":1,"connection":1,"user":"{IN_JSON}","entry":2,"access":"write append delete","shares":"none",'
        '"delete_on_close":true,"locks":2}],\n"more_opens":0}\n']
    return [re.escape(row).replace('SECONDS', SECONDS) for row in rows]


def metrics_of():
    """The rows of the metrics, as expressions."""
    rows = [
        '# HELP smbshare_start_time_seconds Since when the share is served, since 1970.\n'
        '# TYPE smbshare_start_time_seconds gauge\nsmbshare_start_time_seconds SECONDS\n',
        '# TYPE smbshare_sessions gauge\nsmbshare_sessions 1\n', '# TYPE smbshare_connections gauge\nsmbshare_connections 2\n',
        '# TYPE smbshare_connections_limit gauge\nsmbshare_connections_limit 64\n', 'smbshare_opens 1\n', 'smbshare_entries 1\n',
        'smbshare_used_bytes 0\n', 'smbshare_capacity_bytes 67108864\n', 'smbshare_owed_bytes 0\n',
        'smbshare_owed_limit_bytes 1073741824\n',
        '# HELP smbshare_requests_total Requests that were performed.\n# TYPE smbshare_requests_total counter\n'
        'smbshare_requests_total{command="NEGOTIATE"} 2\n',
        'smbshare_requests_total{command="READ"} 1\n', 'smbshare_requests_total{command="unknown"} 1\n',
        '# TYPE smbshare_refusals_total counter\n', 'smbshare_refusals_total{status="STATUS_ACCESS_DENIED"} 1\n',
        'smbshare_endings_total{rule="E3"} 1\n', 'smbshare_received_bytes_total ', 'smbshare_sent_bytes_total ',
        'smbshare_longest_turn_seconds ', f'smbshare_user_sessions{{user="{IN_JSON}"}} 1\n']
    return [re.escape(row).replace('SECONDS', SECONDS) for row in rows]


def a_share_at_work_is_shown(program):
    """By each row of each form; a user's name makes no tag, ends no string and no label."""
    with tempfile.TemporaryDirectory() as folder, Watched(program, config=config_of(folder)) as it:
        client, silent = works(it.share)
        page, text, metrics = it.get('/')[2], it.get('/status.json')[2], it.get('/metrics')[2]
        address = '%s:%d' % client.client.stream.getsockname()
        silent.end()
        return not any([lacks(page, page_of(address), 'page'), lacks(text, json_of(address), 'JSON'),
                        lacks(metrics, metrics_of(), 'metrics')])


def once(it, holds):
    """The JSON object once something holds of it, or behind some time."""
    begin, found = time.monotonic(), it.json()
    while not holds(found) and time.monotonic() - begin < it.share.patience:
        time.sleep(0.1)
        found = it.json()
    return found


def who_may_only_read_is_shown(program):
    """And what came and went, to the byte; behind the end of a client nothing of it is there."""
    with tempfile.TemporaryDirectory() as folder, Watched(program, config=config_of(folder)) as it:
        reader = Reading(it.share).comes_in()
        (connection,) = it.json()['connections']
        reader.client.end()
        behind = once(it, lambda found: not found['connections'])
        return not any([
            differs(connection['sessions'], [{'number': 1, 'user': 'bob', 'signed': False, 'read_only': True}], 'session'),
            differs((behind['sessions'], behind['limits']['connections']['used'], behind['requests']['TREE_CONNECT']),
                    (0, 0, 1), 'behind its end'),
            differs((behind['received_bytes'], behind['sent_bytes']), (reader.client.sent, len(reader.client.heard)),
                    'counts')])


class Reading(Looking):
    """A client of the user who may only read."""

    def logs_in(self):
        self.client.end()
        self.client = Token(self.port, b'b')
        super().logs_in()

    def __init__(self, share):
        self.port = share.port
        super().__init__(share)


class Token(Heard):
    """A client's stream, whose SESSION_SETUP has another token; with how many bytes were sent."""

    def __init__(self, port, token):
        super().__init__(port)
        self.token, self.sent = token, 0

    def send(self, data):
        data = data[:-1] + self.token if data[16:18] == b'\1\0' else data
        self.sent += len(data)
        return super().send(data)


def only_so_many_rows_are_shown(program):
    """1,000 at most, at least 500 of them opens where there are as many, and how many more there are."""
    with tempfile.TemporaryDirectory() as folder:
        config = config_of(folder, '[limits]', f'connections = {ROWS}')
        with Watched(program, config=config) as it:
            client = Looking(it.share).comes_in()
            for number in range(HALF + 10):
                client.opens(f'{number}', disposition=OPEN_IF)
            few = it.json()
            others = [Client(it.share.port, program.patience) for _ in range(HALF + 99)]
            many = once(it, lambda found: found['limits']['connections']['used'] > len(others))
            for other in others:
                other.end()
        counts = [tuple(len(found[it]) + more * 1j for it, more in (
            ('connections', found['more_connections']), ('opens', found['more_opens']))) for found in (few, many)]
        return not differs(counts, [(1, HALF + 10), (HALF + 100j, HALF + 10j)], 'rows, and how many more')


TESTS = (a_share_at_work_is_shown, who_may_only_read_is_shown, only_so_many_rows_are_shown)
