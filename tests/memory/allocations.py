"""How many allocations the program makes for a request: what no proof says of the tree that it serves.

tests/c/count_allocations.c counts, and the counts are the same in each run. smb_rows replays over the plain tree and
opens with the word `plain`. What a request costs is the difference of two replays that differ in one line: in one the
request comes on a connection that is open, in the other on one that has ended, where it is passed over.
"""
import os
import re
import tempfile

from tests.smb.frames import close, create, negotiate, rename, session_setup, set_info, tree_connect
from tests.smb.preload import built

ALL_ACCESS, CREATE, OPEN, DIRECTORY_FILE, FILE_END_OF_FILE = 0x1F01FF, 2, 1, 1, 20
MOMENT, FILES, LONGEST_FILE = 116_444_736_000_000_000, 1_000, 16_777_216
ENDED = 3


def comes_in():
    return [negotiate(), session_setup(1), tree_connect(2, 1)]


class Maker:
    """The frames of a client that makes files and folders, and closes each, in session 1 and tree 1."""

    def __init__(self):
        self.frames = comes_in()
        self.opens = 0

    def makes(self, name, options=0):
        self.opens += 1
        message_id = len(self.frames)
        self.frames += [create(message_id, name, ALL_ACCESS, CREATE, options, 1, 1),
                        close(message_id + 1, self.opens, 1, 1)]
        return self


def made_folders(beneath):
    """Frames that make the folder `d` with so many files, and `e` with those of 1,000 that are left; and how many opens
    they made."""
    maker = Maker().makes('d', DIRECTORY_FILE).makes('e', DIRECTORY_FILE)
    for i in range(FILES + 1):
        maker.makes(f'{"d" if i < beneath else "e"}\\{i}')
    return maker.frames, maker.opens


def enters(name, number):
    """Frames of a client that comes in beside another one, and opens what has this name: the open of this number."""
    return [negotiate(), session_setup(1), tree_connect(2, 2), create(3, name, ALL_ACCESS, OPEN, 0, 2, 1)], number


def line(connection, frame):
    return f'> {connection} {MOMENT} {frame.hex()}\n'


def replay(makes, enters, last, connection):
    """The text of a replay: what one client sends, what another one sends, and a last frame on a connection."""
    lines = [f'+ {i}\n' for i in range(1, ENDED + 1)] + [f'- {ENDED}\n']
    lines += [line(1, frame) for frame in makes] + [line(2, frame) for frame in enters]
    return ''.join(lines) + line(connection, last)


def counted(text, program, *words):
    """How many allocations a program makes for a replay, and the statuses of its answers."""
    with built('count_allocations') as library, tempfile.NamedTemporaryFile() as counts:
        system = {**os.environ, 'LD_PRELOAD': library, 'ALLOCATIONS': counts.name}
        _, output, _ = program.run(*words, given=text.encode(), env=system)
        allocations = int(re.search(r'\d+', counts.read().decode()).group())
        return allocations, [answer.split()[2][24:32] for answer in output.decode().splitlines()]


def cost(makes, enters, last, *words):
    """How many allocations a request costs; None where a request before it, or itself, does not succeed."""
    with_it, answers = counted(replay(makes, enters, last, 2), *words)
    without, fewer = counted(replay(makes, enters, last, ENDED), *words)
    if len(answers) != len(makes) + len(enters) + 1 or len(fewer) != len(answers) - 1 or set(answers) != {'00000000'}:
        return None
    return with_it - without


def rename_of_a_folder(beneath, *words):
    """What the rename of a folder with so many files beneath costs, to a name of 255 units, by who made none."""
    made, opens = made_folders(beneath)
    frames, number = enters('d', opens + 1)
    return cost(made, frames, rename(4, number, 'n' * 255, 2, 1), *words)


def size_of_a_file(program, size):
    """What it costs to give an empty file a size."""
    maker = Maker().makes('a')
    frames, number = enters('a', maker.opens + 1)
    frame = set_info(4, number, FILE_END_OF_FILE, size.to_bytes(8, 'little'), 2, 1)
    return cost(maker.frames, frames, frame, program)


def a_rename_costs_the_same_with_1_and_1_000_files_beneath(program, _):
    one, many = rename_of_a_folder(1, program), rename_of_a_folder(FILES, program)
    return one is not None and one == many


def a_rename_over_the_plain_tree_costs_1_000_more(program, rows):
    plain, slots = rename_of_a_folder(FILES, rows, 'plain'), rename_of_a_folder(FILES, program)
    return plain is not None and slots is not None and plain >= slots + FILES


def a_file_grows_without_memory(program, _):
    none, all_of_it = size_of_a_file(program, 0), size_of_a_file(program, LONGEST_FILE)
    return none is not None and none == all_of_it


TESTS = (a_rename_costs_the_same_with_1_and_1_000_files_beneath, a_rename_over_the_plain_tree_costs_1_000_more,
         a_file_grows_without_memory)
