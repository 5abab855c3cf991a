"""Clients that know what their files were, and from when to when."""
import collections
import math
import time

from tests.keeping.killing import CLIENTS, Marking
from tests.smb.kept import bytes_in
from tests.smb.working import Wrong

# What the name of the file is by which a journal gets long.
LARGE_FILE = f'{CLIENTS} large'


class Followed(Marking):
    """A client that notes what a server that is killed may leave of its files: each state, when it could be first, and
    when it could be last. States before a moment that is asked for are left out."""

    def __init__(self, share, number, seed, needed_from):
        super().__init__(share, number, seed, {})
        self.states, self.needed_from = collections.deque([[0, math.inf, {}]]), needed_from

    def asks_for(self, frame, files, going, status=0):
        """A request may have happened once it is sent, and what was before it is no more once it is answered."""
        left = {name: data for name, data in files.items() if not (self.next_mark and name in going)}
        self.states.append([time.monotonic(), math.inf, left])
        reply = super().asks_for(frame, files, going, status)
        self.states[-2][1] = time.monotonic()
        while self.states[0][1] < self.needed_from():
            self.states.popleft()
        return reply

    def spans(self, files, begin, end):
        """From when to when its files were these, within two moments."""
        return [(max(first, begin), min(last, end)) for first, last, left in self.states
                if left == files and first <= end and last >= begin]


def files_of_each(tree):
    """What is there of each client's files; beside these there is the large file alone."""
    found = bytes_in(tree)
    of_each = [{name: data for name, data in found.items() if name.startswith(f'{i} ')} for i in range(CLIENTS)]
    if sum(map(len, of_each)) + (LARGE_FILE in found) != len(found):
        raise Wrong(f'there are names of nobody: {list(found)}')
    return of_each


def last_moment(clients, of_each, begin, end):
    """The last moment, within two, at which the files of all clients were these; None where there was none."""
    spans = [client.spans(files, begin, end) for client, files in zip(clients, of_each)]
    lasts = sorted({last for of_one in spans for _, last in of_one}, reverse=True)
    return next((moment for moment in lasts
                 if all(any(first <= moment <= last for first, last in of_one) for of_one in spans)), None)
