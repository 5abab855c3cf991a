"""Counts the proved program's allocations for a request.

A row compares replays that differ in 1,000 requests, each in a piece of its own; before these stand as many and
more, so that no buffer is new. tests/c/count_allocations.c counts: the counts are the same in each run. A time is the
difference of the least times of some runs that are not counted, so it is rough where other work is done beside it.

`CREATE and CLOSE` opens the one file that stands and closes it, in turn. `CLOSE` is alone: 1,000 opens are left
standing in both replays, and in one they are closed at the end, the last one first. `CREATE` is the first less the
second.

A line of the text costs something by itself: its piece and its event are held until the end. So a third replay
brings the same pieces on a connection that has ended, where they are passed over. What a request costs beyond
that is the share's; the answer, which is held until the end too, is in it. The row `a line alone` tells what the
line of an ECHO costs there.
"""
import os
import re
import sys
import tempfile

from bench.runs import Replays, piece, succeeds
from tests.smb.frames import close, create, echoes, negotiate, session_setup, tree_connect
from tests.smb.preload import built

READ_DATA, OPEN, CREATE = 1, 1, 2
COUNT = 1_000
# So many requests, and so many bytes of text, stand before the 1,000: since a vector doubles, none grows there.
BEFORE = 1_030
BEFORE_BYTES = 1_100_000
RUNS = 40


def opening(message_id, disposition=OPEN):
    return create(message_id, 'file', READ_DATA, disposition, 0, 1, 1)


def made():
    """Frames up to MessageId 4: a client comes in, makes the file and closes it, which is open 1."""
    return [negotiate(), session_setup(1), tree_connect(2, 1), opening(3, CREATE), close(4, 1, 1, 1)]


def echo(first, count):
    return [echoes(first + i, 1) for i in range(count)]


def pairs(first, count):
    """Frames that open the file and close it, so often, where all requests from MessageId 3 on were such ones."""
    frames = []
    for i in range(first, first + 2 * count, 2):
        frames += [opening(i), close(i + 1, (i - 1) // 2, 1, 1)]
    return frames


def echo_case():
    """Frames that go before, and those that are counted."""
    return made() + echo(5, BEFORE), echo(5 + BEFORE, COUNT)


def pair_case():
    return made() + pairs(5, BEFORE), pairs(5 + 2 * BEFORE, COUNT)


def close_case():
    """The opens 2 to 1,001 are made, and closed from the last one on."""
    first = 5 + BEFORE - COUNT
    opens = [opening(first + i) for i in range(COUNT)]
    closes = [close(first + COUNT + i, 1 + COUNT - i, 1, 1) for i in range(COUNT)]
    return made() + echo(5, BEFORE - COUNT) + opens, closes


def write_replay(path, before, number, after):
    """A replay that brings frames on connection 1, and then others on this one; connection 2 has ended."""
    with open(path, 'w') as text:
        text.write('+ 1\n+ 2\n- 2\n')
        for frame in before:
            piece(text, 1, frame)
        text.write('#' * (BEFORE_BYTES - text.tell()) + '\n')
        for frame in after:
            piece(text, number, frame)


def write_case(folder, before, after):
    """Writes three replays: without the requests that are counted, with them, and with their pieces passed over.

    Gives the path of each, and how many requests succeed in it.
    """
    replays = []
    for number, more in ((1, []), (1, after), (2, after)):
        path = os.path.join(tempfile.mkdtemp(dir=folder), 'replay')
        write_replay(path, before, number, more)
        replays.append((path, len(before) + (len(more) if number == 1 else 0)))
    return replays


def performed(replays, folder, replay, wanted):
    """Performs a replay, and gives its seconds; ends the benchmark where not so many requests succeed."""
    answers = os.path.join(folder, 'answers')
    status, seconds, _ = replays.timed(replay, answers)
    with open(answers) as lines:
        found = sum(1 for line in lines if succeeds(line))
    if status != 0 or found != wanted:
        sys.exit(f'status {status}, {found} requests and not {wanted}')
    return seconds


def counted(replays, folder, library, replay, wanted):
    """Performs a replay with the library, and gives how many allocations were made, and of how many bytes."""
    counts = os.path.join(folder, 'counts')
    os.environ.update(LD_PRELOAD=library, ALLOCATIONS=counts)
    performed(replays, folder, replay, wanted)
    del os.environ['LD_PRELOAD'], os.environ['ALLOCATIONS']
    with open(counts) as line:
        return [int(number) for number in re.findall(r'\d+', line.read())[:2]]


def less(many, few):
    return [more - fewer for more, fewer in zip(many, few)]


def least_times(replays, folder, texts):
    """The least microseconds of each replay. They take turns, so that what is done beside them hits all alike."""
    turns = [[performed(replays, folder, *text) for text in texts] for _ in range(RUNS)]
    return [1e6 * min(seconds) for seconds in zip(*turns)]


def measured(replays, folder, library, cases):
    """For each case the allocations, bytes and microseconds of a request that is counted, and of its line alone."""
    texts = [text for case in cases for text in write_case(folder, *case())]
    times = least_times(replays, folder, texts)
    costs = [[*counted(replays, folder, library, *text), time] for text, time in zip(texts, times)]
    return [[[figure / COUNT for figure in less(costs[i + more], costs[i])] for more in (1, 2)]
            for i in range(0, len(costs), 3)]


def show(name, cost, line):
    beyond = less(cost, line)
    print(f'| {name} | {cost[0]:.1f} | {cost[1]:,.0f} | {beyond[0]:.1f}, of {beyond[1]:,.0f} bytes | {cost[2]:.1f} |')


def main(replays):
    with tempfile.TemporaryDirectory() as folder, built('count_allocations') as library:
        lone, pair, closed = measured(replays, folder, library, [echo_case, pair_case, close_case])
    print('| request | allocations a request | bytes a request | beyond the text\'s own | microseconds a request |')
    print('|---|---|---|---|---|')
    show('a line alone', lone[1], lone[1])
    show('ECHO', *lone)
    show('CREATE and CLOSE', *pair)
    show('CREATE', less(pair[0], closed[0]), less(pair[1], closed[1]))
    show('CLOSE', *closed)


if __name__ == '__main__':
    main(Replays(*sys.argv[1:2]))
