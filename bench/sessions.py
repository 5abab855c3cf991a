"""Times the proved program on connection set-ups.

A set-up is a connection that opens, negotiates, sets up a session, connects a tree and ends. Other sessions
stand meanwhile, 16 on each of up to 63 connections: a set-up should cost the same however many there are.
"""
import sys

from bench.runs import Replays, piece, succeeds
from tests.smb.frames import negotiate, session_setup, tree_connect


def write_replay(path, standing, count):
    """A replay of so many set-ups beside 16 sessions on each of `standing` connections."""
    with open(path, 'w') as text:
        for number in range(1, standing + 1):
            text.write(f'+ {number}\n')
            piece(text, number, negotiate())
            for message_id in range(1, 17):
                piece(text, number, session_setup(message_id))
        for i in range(count):
            number = standing + 1 + i
            session_id = 16 * standing + 1 + i
            text.write(f'+ {number}\n')
            piece(text, number, negotiate())
            piece(text, number, session_setup(1))
            piece(text, number, tree_connect(2, session_id))
            text.write(f'- {number}\n')


def measure(replays, standing, count):
    seconds, peak, _ = replays.replayed(write_replay, (standing, count), succeeds, 17 * standing + 3 * count)
    print(f'| {count:,} | {16 * standing:,} | {seconds:.2f} | {1e6 * seconds / count:.0f} '
          f'| {peak:.0f} |')


def main(replays):
    print('| set-ups | sessions that stand | seconds | microseconds a set-up | peak MiB |')
    print('|---|---|---|---|---|')
    for standing in (0, 63):
        for count in (10_000, 40_000):
            measure(replays, standing, count)


if __name__ == '__main__':
    main(Replays(*sys.argv[1:2]))
