"""Measures what a status costs a share: without one, with one that nobody asks for, and asked for ten times a second.

The three servers stand beside each other and take turns, TURNS each, with processors kept awake (bench/awake.py). Each has
a client that sends a request, waits for its answer, and so on, beside OTHERS with OPENS opens among them. A process of its
own asks for the page and for the metrics in turn. A figure is the median of the server's own processor time, with the
system's part in it, and behind it by the clock; the wait is the longest of an ECHO in all turns.
"""
import contextlib
import http.client
import multiprocessing
import statistics
import sys
import time

from bench.awake import awake
from bench.exchanging import processor_seconds, seconds_for, take_reply
from tests.smb.client import ALL_ACCESS, LONGEST_PIECE, OPEN_IF
from tests.smb.frames import echoes, read, write
from tests.smb.kept import Looking
from tests.smb.program import GUEST, Program
from tests.status import Watched

TURNS, OTHERS, OPENS, EVERY = 31, 50, 1_000, 0.1
ECHOS, READS = 20_000, 6_000
PAGES = ('/', '/metrics')
PLAIN, WATCHED, ASKED = 'no --status', '--status', '--status, asked ten times a second'


def asks(port, is_wanted):
    """Asks for the status while that is wanted."""
    pages = 0
    while True:
        is_wanted.wait()
        asked = http.client.HTTPConnection('127.0.0.1', port, timeout=30)
        asked.request('GET', PAGES[pages % len(PAGES)])
        asked.getresponse().read()
        asked.close()
        pages += 1
        time.sleep(EVERY)


class Side:
    """A server of a kind, with its clients, one of which is timed."""

    def __init__(self, program, kind, stack):
        self.kind, self.is_wanted, self.turns = kind, multiprocessing.Event(), []
        if kind == PLAIN:
            self.share = stack.enter_context(program.serve('--config', GUEST))
        else:
            watched = stack.enter_context(Watched(program))
            self.share = watched.share
        if kind == ASKED:
            asking = multiprocessing.Process(target=asks, args=(watched.port, self.is_wanted), daemon=True)
            asking.start()
            stack.callback(asking.kill)
        self.others = [self.comes_in(other) for other in range(OTHERS)]
        self.timed = Looking(self.share).comes_in()
        self.number = self.timed.opens('timed', ALL_ACCESS, OPEN_IF)
        first = write(self.timed.next_id(), self.number, 0, bytes(LONGEST_PIECE), self.timed.session, 1)
        self.timed.asks(first, 0, None)
        self.next = self.timed.next_id()

    def comes_in(self, other):
        """A client that has its part of the opens."""
        client = Looking(self.share).comes_in()
        for i in range(OPENS // OTHERS):
            client.opens(f'{other}-{i}', ALL_ACCESS, OPEN_IF)
        return client

    def echoes(self):
        """The longest wait for an ECHO, and the time of all of them, in seconds."""
        longest, begin = 0, time.perf_counter()
        for i in range(self.next, self.next + ECHOS):
            sent = time.perf_counter()
            self.timed.client.send(echoes(i, 1))
            take_reply(self.timed.client)
            longest = max(longest, time.perf_counter() - sent)
        self.next += ECHOS
        return longest, time.perf_counter() - begin

    def reads(self):
        """The time of all READs, in seconds."""
        frames = (read(self.next + i, self.number, 0, LONGEST_PIECE, self.timed.session, 1) for i in range(READS))
        took = seconds_for(self.timed.client, frames, 1)
        self.next += READS
        return took

    def turn(self):
        """Notes processor seconds and seconds of the ECHOs and of the READs, and the longest wait."""
        if self.kind == ASKED:
            self.is_wanted.set()
        begin = processor_seconds(self.share.process)
        longest, echoing = self.echoes()
        between = processor_seconds(self.share.process)
        reading = self.reads()
        end = processor_seconds(self.share.process)
        self.is_wanted.clear()
        self.turns.append(((between - begin) / ECHOS, echoing / ECHOS, (end - between) / READS, reading / READS, longest))

    def row(self):
        echo, by_clock, reading, read_by_clock, longest = zip(*self.turns)
        figures = [f'{statistics.median(it) * 1e6:,.2f}' for it in (echo, by_clock, reading, read_by_clock)]
        print(f'| {self.kind} | {figures[0]}, {figures[1]} | {figures[2]}, {figures[3]} | {max(longest) * 1e3:,.1f} |')


def main(program):
    with contextlib.ExitStack() as stack:
        sides = [Side(program, kind, stack) for kind in (PLAIN, WATCHED, ASKED)]
        with awake([side.share for side in sides]):
            for _ in range(TURNS):
                for side in sides:
                    side.turn()
        print('| served with | ECHO, microseconds of the processor, by the clock | READ of 65,536 bytes | longest wait for an '
              'ECHO, ms |')
        print('|---|---|---|---|')
        for side in sides:
            side.row()


if __name__ == '__main__':
    main(Program(*sys.argv[1:2]))
