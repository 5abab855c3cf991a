"""What a share keeps in a file: nothing acknowledged is lost where the program is killed, a record says what was
answered, and what is done with a file that is cut, changed, of another kind or full; and folders."""
from tests.keeping import (attributes, broken, compacted, damaged, folders, full, journal, killing, left_out, named,
                           recordings, refused, renewed, salvaged, synced)

SEED, KILLS = 20_261_126, 20
PARTS = {'journal': journal.TESTS, 'recordings': recordings.TESTS, 'damaged': damaged.TESTS, 'named': named.TESTS,
         'many': named.TESTS_OF_MANY, 'folders': folders.TESTS, 'attributes': attributes.TESTS,
         'left_out': left_out.TESTS, 'compacted': compacted.TESTS, 'refused': refused.TESTS, 'full': full.TESTS,
         'renewed': renewed.TESTS, 'broken': broken.TESTS, 'salvaged': salvaged.TESTS, 'synced': synced.TESTS}


def add_words(reader):
    reader.add_argument('--kills', type=int, default=KILLS, metavar='N',
                        help='keeping: how often the program is killed')
    reader.add_argument('--part', action='append', choices=('killed', *PARTS), help='keeping: a part alone')


def tests(words):
    """With an unproved program fewer places are tried, a journal is kept over fewer kills, no share of many files is
    taken out, and no allocation is refused: it is slow, and has checks before them."""
    program, wanted = words.program, words.part or ('killed', *PARTS)
    kills = (killing.nothing_acknowledged_is_lost_behind_kills, program, words.kills, words.seed or SEED)
    return [kills] * ('killed' in wanted) + [
        (test, program) for part, tests in PARTS.items() if part in wanted
        and not (part in ('many', 'refused') and program.is_unproved) for test in tests]
