"""What a share does where memory is refused, by the program smb_rows, and how many allocations a request takes."""
import os

from tests.memory import allocations, refused
from tests.smb.program import TOP, Program


def add_words(reader):
    reader.add_argument('--rows', default=os.path.join(TOP, 'crates', 'smb_rows', 'out', 'smb_rows'), metavar='PATH',
                        help='memory: the program smb_rows')


def tests(words):
    rows = Program(words.rows)
    return ([(test, rows, pair) for test in refused.TESTS for pair in refused.PAIRS]
            + [(test, words.program, rows) for test in allocations.TESTS])
