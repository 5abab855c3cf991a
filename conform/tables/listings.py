"""QUERY_DIRECTORY of a few names, by pattern, class, flags and room."""
from conform.steps import REOPEN, RESTART_SCANS, RETURN_SINGLE_ENTRY, Close, List, Open, Rename, Script, deletes
from conform.tables.common import FILE, FOLDER, READONLY, makes

NAMES = ('a', 'Ab', 'b.txt', 'bc.txt', 'B2.TX', 'c.tar.gz', 'd.d')
PATTERNS = ('*', '*.*', '*.', '.*', '*.txt', '*.TXT', '?', '??', '?b', 'b?.txt', 'b*', '*c*', '**', 'a', 'A', 'ab', 'x',
            '<', '<.', '<.txt', '<.tx>', '>', '>>', '>>>>>>', 'b>>.txt', '"', '*"', '*"txt', '<"txt', '<"*', 'c<gz',
            'c.<', 'c<.gz', '.', '..', 'a*b', 'b.t?t', '?????', '?.???', '*.tar.*', 'd?', '>.>', '<.<', '*a')
CLASSES = (1, 2, 3, 12, 37, 38)
ROOMS = (0, 11, 12, 13, 63, 64, 66, 94, 100, 104, 150, 300, 1_000)
# A directory of its own: a subdirectory, a READONLY file and files of some names.
FILES = tuple(step for i, name in enumerate(NAMES) for step in makes(FILE, name, b'.' * i))
ALL = (*FILES, *makes(FOLDER, 'dir'), *makes(READONLY, 'ro', b''))
LISTS = (Open('', 'READ_DATA', options='DIRECTORY_FILE'),)


def scripts():
    for pattern in PATTERNS:
        yield Script('listings', f'pattern.{named(pattern)}', (*ALL, *LISTS, List(pattern), Close()))
    yield Script('listings', 'begins-with-a-dot', (
        *makes(FILE, '.d'), *LISTS, List('.*'), List('<d', flags=RESTART_SCANS), Close()))
    for number in (*CLASSES, 0, 4, 13, 50, 60):
        known = number in CLASSES
        lists = List(number=number) if known else List(number=number, most=1)
        yield Script('listings', f'class.{number}', (*ALL, *LISTS, lists, Close()))
    for number in CLASSES:
        for room in ROOMS:
            yield Script('listings', f'room.{room}.class-{number}', (*ALL, *LISTS, List(number=number, room=room)))
    yield from of_flags()
    yield from of_opens()


def named(pattern):
    """A pattern as one word of letters that a line of `--expect` takes as they are."""
    return pattern.replace('*', 'any').replace('?', 'one').replace('"', 'dot')


def of_flags():
    """Scans that go on, begin again, and give entries one by one."""
    ones = {'goes-on': 0, 'restarts': RESTART_SCANS, 'reopens': REOPEN}
    for name, flags in ones.items():
        for first in ('*', 'b*', 'x'):
            for second in ('*', '*.txt', 'x'):
                yield Script('listings', f'{name}.{named(first)}.then-{named(second)}', (
                    *ALL, *LISTS, List(first), List(second, flags=flags, most=1 if flags == REOPEN else 0), Close()))
        for pattern in ('*', '*.txt', 'x'):
            yield Script('listings', f'single.{name}.{named(pattern)}', (
                *ALL, *LISTS, List(pattern, flags=RETURN_SINGLE_ENTRY, most=2),
                List(pattern, flags=flags | RETURN_SINGLE_ENTRY, most=1 if flags == REOPEN else 0), Close()))


def of_opens():
    """The open of a file; access that lists nothing; what comes and goes between two queries."""
    yield Script('listings', 'of-a-file', (*ALL, Open('a'), List(most=1), Close()))
    for access in ('READ_ATTRIBUTES', 'WRITE_DATA', 'EXECUTE', 'DELETE', 'READ_EA'):
        yield Script('listings', f'access.{access}', (
            *ALL, Open('', access, options='DIRECTORY_FILE'), List(most=1), Close()))
    gone = (Open('a', 'DELETE', by='B'), deletes(by='B'))
    renamed = (Open('a', 'READ_DATA|DELETE', by='B'), Rename('zz', by='B'), Close(by='B'))
    for name, steps in (('pending', gone), ('deleted', (*gone, Close(by='B'))), ('renamed', renamed)):
        yield Script('listings', f'beside.{name}', (*ALL, *LISTS, *steps, List(), Close()))
