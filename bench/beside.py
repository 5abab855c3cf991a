"""Times the proved program beside smbd, where that is installed, and beside two limits.

    python3 -m bench.beside [PROGRAM [CHART]]

One limit answers each request and does nothing else; the other keeps bytes, and copies those of a READ and a WRITE once
(bench/limit.c). Each server has one client, which keeps so many requests in flight; the servers take turns, TIMES each.
A figure is the median of the processor time that a server takes for a request, with the system's part in it: the
client's time is not in it. A chart of the same, where this program is 1, is written to CHART.
"""
import contextlib
import os
import pathlib
import re
import shutil
import statistics
import struct
import subprocess
import sys
import tempfile
import time

from bench.exchanging import take
from tests.smb import ntlm
from tests.smb.client import ALL_ACCESS, LONGEST_PIECE, OPEN_IF, Client
from tests.smb.frames import chain, close, create, echoes, negotiate, read, session_setup, tree_connect, write
from tests.smb.program import TOP, Program

TIMES, SMBD = 7, shutil.which('smbd')
PIECE, RELATED = bytes(LONGEST_PIECE), 0xFFFF_FFFF_FFFF_FFFF
TREE_AT, SESSION_AT, STATUS_AT = 40, 44, 12
PENDING = 0x103
# What is exchanged, how often in a turn, how many are in flight, where a FileId is in its frame, and the frame of a MessageId.
EXCHANGES = (
    ('ECHO', 6_000, 1, None, lambda i: echoes(i, 1)),
    ('ECHO', 12_000, 16, None, lambda i: echoes(i, 1)),
    ('CREATE and CLOSE, a chain', 4_000, 1, None, lambda i: made_and_closed(i)),
    ('READ of 65,536 bytes', 1_500, 1, 4 + 64 + 16, lambda i: read(i, 0, i % 64 * LONGEST_PIECE, LONGEST_PIECE)),
    ('READ of 65,536 bytes', 3_000, 8, 4 + 64 + 16, lambda i: read(i, 0, i % 64 * LONGEST_PIECE, LONGEST_PIECE)),
    ('WRITE of 65,536 bytes', 1_500, 1, 4 + 64 + 16, lambda i: write(i, 0, i % 64 * LONGEST_PIECE, PIECE)),
    ('WRITE of 65,536 bytes', 3_000, 8, 4 + 64 + 16, lambda i: write(i, 0, i % 64 * LONGEST_PIECE, PIECE)),
)


def made_and_closed(i):
    """A chain of two requests: a file is opened, or made, and closed."""
    made = bytearray(chain([create(2 * i, 'b', ALL_ACCESS, OPEN_IF), close(2 * i + 1, RELATED)]))
    second = 4 + struct.unpack_from('<I', made, 4 + 20)[0]
    struct.pack_into('<I', made, second + 16, 4)
    return bytes(made)


def status_of(reply):
    """The status of a response."""
    return struct.unpack_from('<I', reply, STATUS_AT - 4)[0]


class Server:
    """A server that listens, what its processes are, and how its client is let in."""

    def __init__(self, name, words, port=None, by_ntlm=False):
        self.name, self.by_ntlm = name, by_ntlm
        self.process = subprocess.Popen(words, stdin=subprocess.DEVNULL, stdout=subprocess.PIPE, stderr=subprocess.STDOUT,
                                        start_new_session=True)
        self.port = port or int(re.search(rb'listening on 127\.0\.0\.1:(\d+)', self.process.stdout.readline())[1])

    def processor_seconds(self):
        """What its processes have taken so far."""
        own = {str(self.process.pid)}
        of = dict(line.split() for line in subprocess.check_output(['ps', '-eo', 'pid=,ppid='], text=True).splitlines())
        while more := {pid for pid, parent in of.items() if parent in own} - own:
            own |= more
        spent = 0
        for pid in own:
            with contextlib.suppress(OSError):
                spent += int(pathlib.Path(f'/proc/{pid}/schedstat').read_text(encoding='ascii').split()[0])
        return spent / 1e9

    def end(self):
        self.process.terminate()
        self.process.wait()


class Guest:
    """A client of a server with a file that it has opened, and the numbers that the server gave."""

    def __init__(self, server):
        self.client, self.next_id = Client(server.port), 0
        self.asks(negotiate(self.take()))
        self.session = self.logs_in(server.by_ntlm)
        self.tree = struct.unpack_from('<I', self.asks(tree_connect(self.take(), self.session)), TREE_AT - 4)[0]
        opened = self.asks(self.addressed(create(self.take(), 'a', ALL_ACCESS, OPEN_IF)))
        self.file = opened[64 + 64:64 + 80]

    def take(self):
        self.next_id += 1
        return self.next_id - 1

    def reply(self):
        """The next response, but for those that say that one comes later."""
        while True:
            reply = bytes(take(self.client, struct.unpack('>I', take(self.client, 4))[0]))
            if status_of(reply) != PENDING:
                return reply

    def asks(self, data, wanted=0):
        self.client.send(data)
        reply = self.reply()
        if status_of(reply) != wanted:
            raise AssertionError(f'a request is answered with {status_of(reply):#x}')
        return reply

    def seconds_for(self, frames, in_flight):
        """How long it takes until each of some frames is answered, with so many in flight."""
        waiting = 0
        start = time.perf_counter()
        for frame in frames:
            if waiting == in_flight:
                self.passes_one()
                waiting -= 1
            self.client.send(frame)
            waiting += 1
        for _ in range(waiting):
            self.passes_one()
        return time.perf_counter() - start

    def passes_one(self):
        """Takes a response, which is not kept; it has to be a success."""
        while True:
            reply = take(self.client, struct.unpack('>I', take(self.client, 4))[0])
            status = status_of(reply)
            if status != PENDING:
                break
        if status != 0:
            raise AssertionError(f'a request is answered with {status:#x}')

    def logs_in(self, by_ntlm):
        """The session of a guest."""
        if not by_ntlm:
            return struct.unpack_from('<Q', self.asks(session_setup(self.take())), SESSION_AT - 4)[0]
        first = self.asks(session_setup(self.take(), ntlm.NEGOTIATE_OF_NOBODY), ntlm.MORE_PROCESSING)
        session = struct.unpack_from('<Q', first, SESSION_AT - 4)[0]
        self.asks(session_setup(self.take(), ntlm.authenticate('somebody'), session))
        return session

    def addressed(self, data, file_at=None):
        """A frame with the session and the tree in each request, and the file in its one."""
        data, place = bytearray(data), 4
        while True:
            struct.pack_into('<IQ', data, place + TREE_AT - 4, self.tree, self.session)
            behind = struct.unpack_from('<I', data, place + 20)[0]
            if behind == 0:
                break
            place += behind
        if file_at is not None:
            data[file_at:file_at + 16] = self.file
        return bytes(data)


def fills(guest):
    """Has the file's bytes there before any is read."""
    for i in range(64):
        number = guest.take()
        guest.asks(guest.addressed(write(number, 0, i * LONGEST_PIECE, PIECE), 4 + 64 + 16))


def turn(server, guest, row):
    """The processor microseconds and the microseconds of a request, in one turn."""
    name, count, in_flight, file_at, frame = row
    if 'CREATE' in name:
        first = (guest.next_id + 1) // 2
        while guest.next_id < 2 * first:
            guest.asks(echoes(guest.take(), 1))
        numbers, guest.next_id = range(first, first + count), 2 * (first + count)
    else:
        numbers, guest.next_id = range(guest.next_id, guest.next_id + count), guest.next_id + count
    frames = [guest.addressed(frame(i), file_at) for i in numbers]
    before = server.processor_seconds()
    took = guest.seconds_for(frames, in_flight)
    return (server.processor_seconds() - before) / count * 1e6, took / count * 1e6


def samba(folder, port, more=''):
    """smbd, with a share `data` for guests in a folder, and more lines of its configuration."""
    share = os.path.join(folder, 'data')
    os.mkdir(share, 0o777)
    os.chmod(share, 0o777)
    places = '\n'.join(f'{it} directory = {folder}' for it in ('private', 'lock', 'state', 'cache', 'pid', 'ncalrpc'))
    conf = os.path.join(folder, 'smb.conf')
    pathlib.Path(conf).write_text(f'[global]\nserver role = standalone server\nmap to guest = Bad User\nguest account = root\n'
                                  f'smb ports = {port}\ninterfaces = 127.0.0.1\nbind interfaces only = yes\nlog file = {folder}/log\n'
                                  f'server max protocol = SMB2_10\ndisable netbios = yes\n{places}\n{more}\n'
                                  f'[data]\npath = {share}\nguest ok = yes\nread only = no\n', encoding='ascii')
    server = Server('smbd', [SMBD, '-F', '--no-process-group', '-s', conf], port, by_ntlm=True)
    end = time.monotonic() + 10
    while time.monotonic() < end:
        with contextlib.suppress(OSError):
            Client(port).end()
            return server
        time.sleep(0.1)
    raise AssertionError('smbd does not listen')


def limit(folder, kind):
    program = os.path.join(folder, 'limit')
    if not os.path.exists(program):
        subprocess.run(['cc', '-O2', '-o', program, os.path.join(TOP, 'bench', 'limit.c')], check=True)
    return Server({'nothing': 'answers alone', 'copy': 'one copy'}[kind], [program, kind])


def medians(servers, client=Guest):
    """Of each exchange and server the medians of processor time and of time by the clock, in microseconds a request."""
    found = {}
    for row in EXCHANGES:
        guests = [(server, client(server)) for server in servers]
        for _, guest in guests:
            fills(guest)
        turns = [[turn(server, guest, row) for server, guest in guests] for _ in range(TIMES)]
        for place, (server, guest) in enumerate(guests):
            guest.client.end()
            found[row[0], row[2], server.name] = [statistics.median(it[place][kind] for it in turns) for kind in (0, 1)]
    return found


def table(found, names):
    print('| exchange | in flight | ' + ' | '.join(f'{it}, processor microseconds' for it in names) + ' | by the clock: '
          + ', '.join(names) + ' |')
    print('|---|---|' + '---|' * (len(names) + 1))
    for name, _, in_flight, _, _ in EXCHANGES:
        cells = [found[name, in_flight, it] for it in names]
        print(f'| {name} | {in_flight} | ' + ' | '.join(f'{processor:.1f}' for processor, _ in cells) + ' | '
              + ', '.join(f'{clock:.1f}' for _, clock in cells) + ' |')


def chart(found, names, file):
    """Bars of each exchange: the processor time of each server, where this program's is 1."""
    colours = dict(zip(names, ('#1f6f8b', '#c0392b', '#95a5a6', '#7f8c8d')))
    width, left, bar, gap, scale = 860, 230, 13, 14, 110
    longest, parts, top = 5.0, [], 56
    for name, _, in_flight, _, _ in EXCHANGES:
        own = found[name, in_flight, names[0]][0]
        parts.append(f'<text x="{left - 8}" y="{top + len(names) * bar / 2 + 4}" text-anchor="end">{name}, {in_flight} in flight</text>')
        for it in names:
            ratio = found[name, in_flight, it][0] / own
            length = min(ratio, longest) * scale
            parts.append(f'<rect x="{left}" y="{top}" width="{length:.1f}" height="{bar - 2}" fill="{colours[it]}"/>'
                         f'<text x="{left + length + 5:.1f}" y="{top + bar - 4}">{ratio:.2f}</text>')
            top += bar
        top += gap
    legend = ''.join(f'<rect x="{left + place * 150}" y="28" width="11" height="11" fill="{colours[it]}"/>'
                     f'<text x="{left + place * 150 + 16}" y="38">{it}</text>' for place, it in enumerate(names))
    pathlib.Path(file).write_text(
        f'<svg xmlns="http://www.w3.org/2000/svg" width="{width}" height="{top}" font-family="sans-serif" font-size="11">'
        f'<rect width="{width}" height="{top}" fill="white"/>'
        f'<text x="{left}" y="16" font-size="13">Processor time of a request, where that of smbshare is 1: less is faster</text>'
        f'{legend}{"".join(parts)}</svg>\n', encoding='utf-8')


def main(words):
    program = Program(*words[:1])
    with tempfile.TemporaryDirectory() as folder:
        own = Server('smbshare', [program.path, 'serve', '--listen', '127.0.0.1:0'])
        servers = [own] + ([samba(folder, 44_511)] if SMBD else []) + [limit(folder, 'copy'), limit(folder, 'nothing')]
        try:
            found = medians(servers)
        finally:
            for server in servers:
                server.end()
    names = [server.name for server in servers]
    table(found, names)
    if len(words) > 1:
        chart(found, names, words[1])


if __name__ == '__main__':
    main(sys.argv[1:])
