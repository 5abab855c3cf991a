"""Two opens of one file: a LOCK by the one, a LOCK by either, and then READ and WRITE by both."""
from conform.steps import Close, Lock, Open, Read, Script, Write

WAYS = {'shared': 'SHARED|FAIL_IMMEDIATELY', 'exclusive': 'EXCLUSIVE|FAIL_IMMEDIATELY', 'unlock': 'UNLOCK'}
ACCESS = 'READ_DATA|WRITE_DATA'
# The first range and the second, each an offset and a length.
RANGES = {
    'equal': ((10, 10), (10, 10)), 'overlapping': ((10, 10), (15, 10)), 'inside': ((10, 10), (12, 2)),
    'apart': ((10, 10), (20, 10)), 'empty-inside': ((10, 10), (15, 0)), 'empty-before': ((10, 10), (10, 0)),
    'over-empty': ((15, 0), (10, 10)), 'both-empty': ((10, 0), (10, 0)), 'past-the-end': ((100, 10), (105, 10)),
}
BOTH = (Open('x', ACCESS, 'CREATE'), Write(0, bytes(range(40))), Open('x', ACCESS, by='B'))
# Both read and write in the first range, in the second, and apart from both.
AFTER = tuple(step for at in (12, 22, 32) for by in 'AB'
              for step in (Read(at, 2, by=by), Write(at, b'..', by=by)))
ENDS = (Close(), Lock(((10, 10, WAYS['exclusive']),), by='B'), Close(by='B'))


def scripts():
    for first in ('shared', 'exclusive'):
        for by in 'AB':
            for second in WAYS:
                for name, (range_1, range_2) in RANGES.items():
                    yield Script('locks', f'{first}.{name}.then-{second}-by-{by}', (
                        *BOTH, Lock(((*range_1, WAYS[first]),)), Lock(((*range_2, WAYS[second]),), by=by), *AFTER,
                        Lock(((*range_1, WAYS['unlock']),)), *AFTER[:4], *ENDS))
    yield from of_several_elements()
    yield from of_odd_elements()


def of_several_elements():
    """Requests of two elements: where the second is refused, does the first stay?"""
    for first in ('shared', 'exclusive', 'unlock'):
        for second in ('shared', 'exclusive', 'unlock'):
            for name, held in (('nothing-held', ()), ('second-held', ((20, 10, WAYS['exclusive']),)),
                               ('both-held', ((10, 10, WAYS['exclusive']), (20, 10, WAYS['exclusive'])))):
                held = (Lock(held),) if held else ()
                both = Lock(((10, 10, WAYS[first]), (20, 10, WAYS[second])))
                yield Script('locks', f'elements.{first}+{second}.{name}', (*BOTH, *held, both, *AFTER, *ENDS))


def of_odd_elements():
    """Ranges at the end of all numbers, and flags that are none."""
    odd = {'to-the-last': (2 ** 64 - 1, 1), 'past-the-last': (2 ** 64 - 1, 2), 'empty-at-the-last': (2 ** 64 - 1, 0),
           'all': (0, 2 ** 64 - 1), 'from-one': (1, 2 ** 64 - 1)}
    for name, at in odd.items():
        for way in WAYS:
            yield Script('locks', f'odd.{name}.{way}', (*BOTH, Lock(((*at, WAYS[way]),)), *AFTER, *ENDS))
    for flags in (0, 3, 16, 5, 20, 32):
        yield Script('locks', f'odd.flags-{flags}', (*BOTH, Lock(((10, 10, str(flags)),)), *AFTER[:4], *ENDS))
    for access in ('READ_DATA', 'WRITE_DATA', 'APPEND_DATA', 'EXECUTE', 'READ_ATTRIBUTES', 'DELETE'):
        for way in ('shared', 'exclusive'):
            yield Script('locks', f'access.{access}.{way}', (
                Open('x', access, 'CREATE'), Lock(((0, 1, WAYS[way]),)), Close()))
