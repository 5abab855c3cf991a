"""Requests at a share's status: by which page or refusal each is answered, whole, in pieces, and for which host."""
import socket

from tests.smb.kept import differs
from tests.status.watched import SOON, Watched

# The most bytes of a request's head, and the most fields.
LONGEST_HEAD, MOST_FIELDS = 8_192, 64
# The type of each page.
HTML, JSON, METRICS = 'text/html; charset=utf-8', 'application/json', 'text/plain; version=0.0.4; charset=utf-8'
REFUSAL = 'text/plain; charset=utf-8'
# The fields that each answer has behind its length, its type and its own.
FIELDS = ("Connection: close\r\nCache-Control: no-store\r\nX-Content-Type-Options: nosniff\r\n"
          "Content-Security-Policy: default-src 'none'; style-src 'unsafe-inline'\r\n")


def answer(it, data):
    """The status and the type of what answers some bytes."""
    head, _, _ = it.raw(data).decode().partition('\r\n\r\n')
    fields = dict(line.split(': ', 1) for line in head.split('\r\n')[1:])
    return int(head[9:12] or 0), fields.get('Content-Type')


def answers_to(it, requests):
    """Whether each request is answered by what is said of it."""
    return not any([differs(answer(it, data), wanted, data[:60]) for data, wanted in requests.items()])


def each_page_has_a_path(program):
    """Whatever query is behind it; in HTTP/1.0 no host has to be named, and a line may end in a line feed alone."""
    with Watched(program) as it:
        return answers_to(it, {
            b'GET / HTTP/1.1\r\nHost: 127.0.0.1:%d\r\n\r\n' % it.port: (200, HTML),
            b'GET /?again HTTP/1.1\r\nhost: LocalHost:%d\r\nAccept: */*\r\n\r\nbehind' % it.port: (200, HTML),
            b'GET / HTTP/1.0\r\n\r\n': (200, HTML),
            b'GET /status.json HTTP/1.1\nHOST:127.0.0.1\n\n': (200, JSON),
            b'GET /metrics HTTP/1.1\r\nHost: localhost\r\n\r\n': (200, METRICS)})


def what_is_no_request_or_another_one_is_refused(program):
    """Bytes of other protocols, no host or two, other paths and methods."""
    host = b' HTTP/1.1\r\nHost: localhost\r\n\r\n'
    with Watched(program) as it:
        return answers_to(it, {
            **{data: (400, REFUSAL) for data in (
                b'\0\0\0f\xfeSMB@\0', b'\x16\x03\x01\x02\0\x01\0', b'GET /\r\n\r\n', b'GET / HTTP/1.1\r\n\r\n',
                b'GET / HTTP/1.1\r\nHost: localhost\r\nHost: localhost\r\n\r\n')},
            **{data: (404, REFUSAL) for data in (
                b'GET /status' + host, b'GET //metrics HTTP/1.0\r\n\r\n', b'GET * HTTP/1.0\r\n\r\n')},
            **{data: (405, REFUSAL) for data in (
                b'POST / HTTP/1.1\r\nHost: localhost\r\nContent-Length: 1\r\n\r\na', b'HEAD /' + host, b'get /' + host)}})


def hosts_are_taken(program, address, words, ours, others):
    """Where an address is listened at; {} stands for the port."""
    with Watched(program, *words, address=address) as it:
        asked = {b'GET / HTTP/1.1\r\nHost: %s\r\n\r\n' % host.replace('{}', str(it.port)).encode(): wanted
                 for hosts, wanted in ((ours, (200, HTML)), (others, (421, REFUSAL))) for host in hosts}
        return answers_to(it, asked)


def requests_for_other_hosts_are_refused(program):
    """Also for another port: a name of a page that a browser has open may lead here."""
    return all([
        hosts_are_taken(program, '127.0.0.1', (), ('127.0.0.1', '127.0.0.1:{}', 'localhost', 'LOCALHOST:{}'),
                        ('', 'evil.example', 'evil.example:{}', 'localhost.evil.example', '127.0.0.1:1',
                         'localhost:80', 'localhost:', '127.0.0.2', '[127.0.0.1]', '[::1]:{}', '127.0.0.1:{}:{}',
                         'user@127.0.0.1')),
        hosts_are_taken(program, '[::1]', (), ('[::1]', '[::1]:{}', '[0::1]:{}'),
                        ('::1', '[::1', '[::2]:{}', '127.0.0.1')),
        hosts_are_taken(program, '0.0.0.0', ('--status-anywhere',), ('192.0.2.7', '[2001:db8::1]:{}'),
                        ('evil.example', '192.0.2.7:1'))])


def answered_byte_by_byte(it, data, wait):
    """Behind how many bytes a request is answered that comes byte by byte, each this many seconds behind the one before;
    and the status."""
    with socket.create_connection(('127.0.0.1', it.port), SOON) as asked:
        for sent in range(len(data)):
            asked.sendall(data[sent:sent + 1])
            asked.settimeout(wait if sent + 1 < len(data) else SOON)
            try:
                return sent + 1, asked.recv(12)[9:]
            except TimeoutError:
                pass
    return None


def a_request_is_answered_with_its_last_byte(program):
    """And one that can't be any more is refused at once."""
    whole = b'GET /metrics HTTP/1.0\r\n\r\n'
    with Watched(program) as it:
        found = answered_byte_by_byte(it, whole, 0.03), answered_byte_by_byte(it, b'\0GET', SOON)
        return not differs(found, ((len(whole), b'200'), (1, b'400')), 'byte by byte')


def of_length(length):
    """A request whose head has this number of bytes."""
    return b'GET / HTTP/1.0\r\na: '.ljust(length - 4, b'b') + b'\r\n\r\n'


def a_head_has_its_limits(program):
    """Of bytes and of fields."""
    with Watched(program) as it:
        return answers_to(it, {
            **{of_length(LONGEST_HEAD + more): wanted for more, wanted in ((0, (200, HTML)), (1, (431, REFUSAL)))},
            **{b'GET / HTTP/1.0\r\n' + (MOST_FIELDS + more) * b'a: b\r\n' + b'\r\n': wanted
               for more, wanted in ((0, (200, HTML)), (1, (431, REFUSAL)))}})


def an_answer_is_whole(program):
    """It says how long it is and what, that the connection ends, and that nothing of it is kept or run."""
    with Watched(program) as it:
        head, _, body = it.raw(b'GET /status.json HTTP/1.0\r\n\r\n').decode().partition('\r\n\r\n')
        page = f'HTTP/1.1 200 OK\r\nContent-Length: {len(body)}\r\nContent-Type: {JSON}\r\n{FIELDS}'
        refusal = it.raw(b'POST / HTTP/1.0\r\n\r\n').decode()
        wanted = ('HTTP/1.1 405 Method Not Allowed\r\nContent-Length: 23\r\n'
                  f'Content-Type: {REFUSAL}\r\nAllow: GET\r\n{FIELDS}\r\n405 Method Not Allowed\n')
        return not any([differs(f'{head}\r\n', page, 'page'), differs(refusal, wanted, 'refusal')])


TESTS = (each_page_has_a_path, what_is_no_request_or_another_one_is_refused, requests_for_other_hosts_are_refused,
         a_request_is_answered_with_its_last_byte, a_head_has_its_limits, an_answer_is_whole)
