"""QUERY_INFO of a file and of a directory, by class and by the room that is given."""
from conform.information import LAYOUTS, size_of
from conform.steps import OF_A_FILE, OF_THE_SHARE, WHOLE, Close, Open, QueryInfo, Script, deletes
from conform.tables.common import FILE, FOLDER, READONLY, makes

# Classes that are none of a file, or of the share, to be asked for.
UNKNOWN = {OF_A_FILE: (0, 1, 10, 13, 19, 20, 77, 200), OF_THE_SHARE: (0, 9, 77, 200)}
EACH = 'READ_DATA|READ_ATTRIBUTES'
ACCESSES = ('READ_DATA', 'WRITE_DATA', 'EXECUTE', 'DELETE', 'READ_ATTRIBUTES', 'READ_CONTROL', 'GENERIC_READ',
            'GENERIC_WRITE', 'GENERIC_EXECUTE', 'GENERIC_ALL', 'MAXIMUM_ALLOWED')


def scripts():
    for what in (FILE, FOLDER, READONLY):
        for (kind, number), layout in LAYOUTS.items():
            for room in sorted({0, size_of(layout) - 1, size_of(layout), size_of(layout) + 1, WHOLE}):
                yield script(what, kind, number, room)
        for kind, numbers in UNKNOWN.items():
            for number in numbers:
                yield script(what, kind, number, WHOLE)
    yield from of_access()


def script(what, kind, number, room):
    return Script('information', f'{what}.type-{kind}.class-{number}.room-{room}', (
        *makes(what, 'x'), Open('x', EACH), QueryInfo(number, room, kind), Close()))


def of_access():
    """By the access of the open: what it was granted is a class of its own; and of an entry that is to be deleted."""
    for what in (FILE, FOLDER):
        for access in ACCESSES:
            for number in (4, 5, 8, 18, 34, 35):
                yield Script('information', f'access.{what}.{access}.class-{number}', (
                    *makes(what, 'x'), Open('x', access), QueryInfo(number), Close()))
        yield Script('information', f'deleted.{what}', (
            *makes(what, 'x'), Open('x', 'READ_DATA|DELETE'), deletes(), QueryInfo(5), QueryInfo(18), deletes(False),
            QueryInfo(5), Close()))
