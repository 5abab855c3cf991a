"""Two opens of one entry, one of which deletes it, and their closes in either order: when is the name gone?"""
from conform.steps import STANDARD, Close, Open, QueryInfo, Script, deletes
from conform.tables.common import FILE, FOLDER, READONLY, looks_at, makes

ACCESS, ON_CLOSE = 'READ_DATA|DELETE', 'DELETE_ON_CLOSE'


def opens(by, way):
    """The open of a client, which deletes when it is closed where the way is so."""
    return Open('x', ACCESS, options=ON_CLOSE if way == f'{by}-on-close' else '0', by=by)


def sets(way):
    """The SET_INFO of a way to delete, between the opens and the closes."""
    if way.endswith('disposition'):
        return (deletes(by=way[0]),)
    if way.endswith('takes-back'):
        return (deletes(by=way[0]), deletes(False, by='A'))
    return ()


WAYS = ('none', 'A-on-close', 'B-on-close', 'A-disposition', 'B-disposition', 'A-takes-back', 'B-takes-back')


def scripts():
    for what in (FILE, FOLDER, READONLY):
        for way in WAYS:
            for first, second in ('AB', 'BA'):
                for between in ('nothing', 'open', 'create', 'write'):
                    yield Script('deletes', f'{what}.{way}.{first}-first.then-{between}', (
                        *makes(what, 'x'), opens('A', way), opens('B', way), *sets(way),
                        QueryInfo(STANDARD), QueryInfo(STANDARD, by='B'), Close(by=first),
                        *tries(between, second), Close(by=second), *looks_at('x')))
    yield from of_full_directories()


def tries(between, by):
    """What is tried between the two closes."""
    return {
        'nothing': (), 'open': (Open('x', 'READ_DATA', of='third'), Close(of='third')),
        'create': (Open('x', 'READ_DATA', 'OPEN_IF', of='third'), Close(of='third'),
                   Open('x\\y', 'READ_DATA', 'CREATE', of='third'), Close(of='third')),
        'write': (QueryInfo(STANDARD, by=by), deletes(False, by=by), QueryInfo(STANDARD, by=by)),
    }[between]


def of_full_directories():
    """A directory in which a file is, or comes to be."""
    for way in WAYS:
        for when in ('before', 'after'):
            child = (Open('x\\y', 'READ_DATA', 'CREATE', of='child'), Close(of='child'))
            parts = (*child, opens('A', way), opens('B', way), *sets(way))
            if when == 'after':
                parts = (opens('A', way), opens('B', way), *child, *sets(way))
            yield Script('deletes', f'full.{way}.{when}', (
                *makes(FOLDER, 'x'), *parts, QueryInfo(STANDARD), Close(by='A'), Close(by='B'), *looks_at('x', 'x\\y')))
    for access in ('READ_DATA', 'READ_DATA|DELETE', 'READ_ATTRIBUTES', 'MAXIMUM_ALLOWED'):
        yield Script('deletes', f'access.{access}', (
            *makes(FILE, 'x'), Open('x', access, options=ON_CLOSE), deletes(), Close(), *looks_at('x')))
