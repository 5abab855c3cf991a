"""What a share does where an allocation is really refused, against what it does without that.

With the word `refusals` smb_rows plays the events of tests/memory/events.py, and tests/c/refuse_allocation.c refuses
its first allocation, then its second, and so on until a run makes fewer. Memory has to run out in the event that asks
for it, and in no other. The events before it are answered as in the run without a refusal, those behind it as by a new
share to which came what tests/memory/cuts.py makes of the events: the first requests of that event, as many as the
program said, and then the end of its connection. It is so over both pairs of tree and opens, and where the share is
served to peers.
"""
import collections
import functools
import os
import re
import tempfile
from concurrent.futures import ThreadPoolExecutor
from dataclasses import dataclass, field, replace

from tests.memory.cuts import FIRST_BYTES, HEADER, SMB1, cut, messages_of, requests_at
from tests.memory.events import MOMENT, events
from tests.smb.preload import built
from tests.smb.program import Program
from tools import frame as frame_tool

MOST_SAID = 5
NO_MEMORY = (3, 'no memory\n')
EVENTS = events()
# The events of a share that is served: its clock is asked for no piece of a client that is gone, so it stands still.
AT_ONE_MOMENT = [replace(it, moment=MOMENT) for it in EVENTS]
PAIRS = {'slots': (), 'plain': ('plain',)}


@dataclass
class Played:
    """What a run gave: its status and standard error; of each event that began the lines of its answers; where memory
    ran out, and behind how many requests; the lines behind the last event; and the bytes that each allocation asked
    for, those before the first event and those of each."""
    status: int
    errors: str
    answers: list = field(default_factory=list)
    ran_out: dict = field(default_factory=dict)
    sizes: list = field(default_factory=list)

    def add(self, line):
        if line.startswith('event '):
            self.answers.append([])
        elif ran_out := re.fullmatch(r'no memory, after (\d+) requests', line):
            self.ran_out[len(self.answers) - 1] = int(ran_out[1])
        else:
            self.answers[-1].append(line)


@dataclass(frozen=True)
class Player:
    """The program that plays events, and the library that refuses an allocation of it."""
    program: Program
    library: str

    def played(self, listed, words, number=0):
        """What the program gives for events, where the allocation of a number is refused."""
        with tempfile.NamedTemporaryFile() as sizes:
            system = {'LD_PRELOAD': self.library, 'REFUSE': str(number), 'ALLOCATIONS': sizes.name}
            text = ''.join(it.line() for it in listed)
            status, output, errors = self.program.ran('refusals', *words, given=text.encode(), env=system)
            found = Played(status, errors)
            for line in output.decode().splitlines():
                found.add(line)
            found.sizes = [list(map(int, line.split())) for line in sizes.read().decode().split('\n')]
        return found


class Share:
    """A share over a pair of tree and opens, the run of events on it, and those of the events as they are cut."""

    def __init__(self, player, pair, listed):
        self.played, self.words, self.events = player.played, PAIRS[pair], listed
        self.whole = self.played(listed, self.words)
        self.cut = functools.lru_cache(None)(self.cut_anew)
        self.bounds = functools.lru_cache(None)(self.bounds_anew)

    def cut_anew(self, place, done):
        """Of the events where memory ran out in one: their places, and what a new share gives."""
        numbered = cut(self.events, place, done)
        return [it for it, _ in numbered], self.played([it for _, it in numbered], self.words)

    def answers_behind(self, place, done):
        """The answers to the events behind one in which memory ran out, by their places."""
        places, found = self.cut(place, done)
        return {it: lines for it, lines in zip(places, found.answers) if it is not None and it > place}

    def bounds_anew(self, place):
        """How many of an event's allocations are made for its first 1, 2, 3 .. requests: as many as where the chain
        ends there, but for the one that is made when its frame is joined."""
        frames, found = requests_at(self.events, place), []
        ends = {sum(map(len, frames[:i + 1])) for i in range(len(frames))}
        count = sum(map(len, frames))
        for done in range(1, count):
            places, run = self.cut(place, done)
            made = len(run.sizes[places.index(place) + 1])
            found.append(made if done in ends else made - 1)
        return found + [len(self.whole.sizes[place + 1])] * (count > 0)


def allocations_of(sizes):
    """The place of the event that each allocation of a run is made in, None before the first, and its index there."""
    return [(i - 1 if i else None, j) for i, made in enumerate(sizes) for j in range(len(made))]


def command_of(share, place, index):
    """The command of the request that an allocation of an event is made for."""
    if share.events[place].mark == '+':
        return 'opening'
    requests = [it for frame in requests_at(share.events, place) for it in frame]
    if not requests:
        return 'part of a frame'
    asked = requests[sum(bound <= index for bound in share.bounds(place)[:-1])]
    return 'SMB_COM_NEGOTIATE' if asked.startswith(SMB1) else frame_tool.COMMANDS[asked[12]]


def answer_end(share, place, done):
    """Where in its frame the response to an event's request of a number begins and ends; None where there is none."""
    frames = [bytes.fromhex(it.split()[2]) for it in share.whole.answers[place] if it[0] == '<']
    parts = messages_of(frames[0]) if len(frames) == 1 else []
    if len(parts) != sum(map(len, requests_at(share.events, place))):
        return None
    ends = [FIRST_BYTES + sum(map(len, parts[:i])) for i in range(len(parts) + 1)]
    return ends[done - 1], ends[done]


def is_for_bytes(share, place, index):
    """Whether an allocation is made for the bytes of a READ's response: for all that the answer has up to there, far
    more than a longer header would ask for."""
    if command_of(share, place, index) != 'READ':
        return False
    done = 1 + sum(bound <= index for bound in share.bounds(place)[:-1])
    place_of = answer_end(share, place, done)
    return bool(place_of) and share.whole.sizes[place + 1][index] >= place_of[1] > 2 * (place_of[0] + HEADER)


def least_and_most(share, place, index):
    """How many requests may have been performed where an allocation of an event was refused. It is 0 at the first,
    before any is looked at. Where requests are joined in one frame, it is all at the last."""
    bounds = share.bounds(place)
    if index == 0 or not bounds:
        return 0, 0
    behind = sum(bound <= index for bound in bounds[:-1])
    stays_open = all(it[0] == '<' for it in share.whole.answers[place])
    if len(share.whole.answers[place]) == 1 and stays_open and index == bounds[-1] - 1:
        return len(bounds), len(bounds)
    return behind + is_for_bytes(share, place, index), behind + 1


def fault_of_program(found, whole):
    """What is wrong with a run in which the program finds no memory for itself: it ends, or does without."""
    is_end = (found.status, found.errors) == NO_MEMORY
    as_with_memory = (found.status, found.errors, found.answers) == (0, '', whole.answers)
    return None if is_end or as_with_memory else f'it ends with {found.status} {found.errors!r}'


def fault_of_refusal(share, number, place, index):
    """What is wrong with a run in which an allocation is refused, that of an index in an event's; None where nothing
    is."""
    found = share.played(share.events, share.words, number)
    if place is None:
        return fault_of_program(found, share.whole)
    if (found.status, found.errors) != (0, '') or list(found.ran_out) != [place]:
        return f'memory runs out in {found.ran_out}, with {found.status} {found.errors!r}'
    done = found.ran_out[place]
    least, most = least_and_most(share, place, index)
    if not least <= done <= most:
        return f'{done} requests were performed, and not {least} to {most}'
    if found.answers[:place] != share.whole.answers[:place] or found.answers[place]:
        return 'the events before it are answered otherwise'
    behind = share.answers_behind(place, done)
    for later in range(place + 1, len(share.events)):
        if found.answers[later] != behind.get(later, []):
            return f'behind {done} requests event {later} is answered otherwise: {share.events[later].line()[:160]}'
    return None


@dataclass
class Served:
    """What became of a share that was served: how often memory ran out, how often each connection was closed, and all
    bytes that it took, in hex."""
    count: int
    closed: dict
    taken: dict


def served_of(run):
    """What the last lines of a run say of a share that was served; None where they do not."""
    text = '\n'.join(run.answers[-1]) + '\n'
    count = re.match(r'no memory (\d+) times\n', text)
    told = re.findall(r'connection (\d+): closed (\d+) times\n< \1 ([0-9a-f]*)\n', text)
    if not count or len(run.answers[-1]) != 1 + 2 * len(told):
        return None
    return Served(int(count[1]), {int(it[0]): int(it[1]) for it in told}, {int(it[0]): it[2] for it in told})


def taken_of(answers):
    """The bytes of all frames in some events' answers, in hex, by their connections."""
    found = collections.defaultdict(str)
    for line in (it for lines in answers for it in lines if it[0] == '<'):
        found[int(line.split()[1])] += line.split()[2]
    return found


class ServedShare:
    """A share over a pair of tree and opens that is served to peers of which the events come."""

    def __init__(self, player, pair):
        self.share = Share(player, pair, AT_ONE_MOMENT)
        self.words = (*PAIRS[pair], 'served')
        self.run = self.share.played(AT_ONE_MOMENT, self.words)
        self.whole = served_of(self.run)
        self.others = functools.lru_cache(None)(self.others_anew)

    def is_as_its_events(self):
        """Whether without a refusal no memory ran out, and each connection took what the events are answered one by
        one."""
        taken = taken_of(self.share.whole.answers)
        return (self.whole.count == 0 and max(self.whole.closed.values()) <= 1
                and all(self.whole.taken[it] == taken[it] for it in self.whole.taken))

    def others_anew(self, place, done):
        """What the other connections take where memory ran out in an event behind so many requests."""
        gone, is_opening = AT_ONE_MOMENT[place].connection, AT_ONE_MOMENT[place].mark == '+'
        taken = taken_of(self.share.cut(place, done)[1].answers)
        return {it: taken[it - (is_opening and it > gone)] for it in self.whole.taken if it != gone}

    def command(self, place, _index):
        """What an allocation of an event is made for."""
        if place == len(AT_ONE_MOMENT):
            return 'the program itself'
        requests = sum(map(len, requests_at(AT_ONE_MOMENT, place)))
        return command_of(self.share, place, 0) if requests < 2 else 'chain'

    def fault_of_refusal(self, number, place, _index):
        """What is wrong with a run in which an allocation is refused, that was made in an event; None where nothing
        is."""
        run = self.share.played(AT_ONE_MOMENT, self.words, number)
        if place in (None, len(AT_ONE_MOMENT)):
            return fault_of_program(run, self.run)
        if (run.status, run.errors) != (0, '') or not (found := served_of(run)):
            return f'it ends with {run.status} {run.errors!r}'
        gone = AT_ONE_MOMENT[place].connection
        if found.count != 1 or found.closed != {**self.whole.closed, gone: 1}:
            return f'memory ran out {found.count} times, and these were closed: {found.closed}'
        if found.taken.pop(gone) != taken_of(self.share.whole.answers[:place])[gone]:
            return 'that connection took other bytes before'
        most = sum(map(len, requests_at(AT_ONE_MOMENT, place)))
        if not any(found.taken == self.others(place, done) for done in range(most + 1)):
            return 'other connections took what they take behind none of its first requests'
        return None


def summed(counts):
    return ', '.join(f'{name} {count}' for name, count in counts.items())


def all_refused(what, allocations, fault, command):
    """Whether no refusal of a run has a fault, of which there have to be some; prints how many were made by command."""
    counts, faults = collections.Counter(), 0
    with ThreadPoolExecutor(os.cpu_count()) as pool:
        found = list(pool.map(fault, range(1, len(allocations) + 1), *zip(*allocations)))
    for number, (why, (place, index)) in enumerate(zip(found, allocations), 1):
        faults += why is not None
        if why and faults <= MOST_SAID:
            print(f'  {what}: allocation {number}, of event {place}: {why}')
        counts['the program itself' if place is None else command(place, index)] += 1
    print(f'  {what}: {sum(counts.values())} refused: {summed(counts)}')
    return bool(allocations) and not faults


def a_share_without_memory_is_as_defined(program, pair):
    with built('refuse_allocation') as library:
        share = Share(Player(program, library), pair, EVENTS)
        whole = share.whole
        if whole.ran_out or (whole.status, whole.errors) != (0, '') or len(whole.answers) != len(EVENTS):
            print(f'  {pair}: without a refusal memory runs out in {whole.ran_out}, with {whole.status} {whole.errors}')
            return False
        allocations = allocations_of(whole.sizes)
        again = share.played(EVENTS, share.words, len(allocations) + 1)
        return again.answers == whole.answers and all_refused(
            pair, allocations, functools.partial(fault_of_refusal, share), functools.partial(command_of, share))


def a_served_share_without_memory_ends_one_connection(program, pair):
    with built('refuse_allocation') as library:
        served = ServedShare(Player(program, library), pair)
        if not served.is_as_its_events():
            print(f'  {pair}: without a refusal memory ran out {served.whole.count} times, or answers differ')
            return False
        return all_refused(f'{pair}, served', allocations_of(served.run.sizes), served.fault_of_refusal, served.command)


TESTS = (a_share_without_memory_is_as_defined, a_served_share_without_memory_ends_one_connection)
