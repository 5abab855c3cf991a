"""Scripts by chance, from a seed: two clients at work on a few names. Script i of a seed is always the same."""
import random

from conform.information import LAYOUTS, size_of
from conform.steps import (ALL, NOTHING, RANDOM, RESTART_SCANS, RETURN_SINGLE_ENTRY, WHOLE, Close, Flush, List, Lock,
                           Open, QueryInfo, Read, Rename, Script, Write, attributes_are, deletes, ends_at, takes_room)
from conform.tables.common import FILE, FOLDER, makes
from conform.tables.dispositions import DISPOSITIONS
from conform.tables.locks import WAYS

# What is there before: a file and a directory, in which another file is.
BEFORE = (*makes(FILE, 'x', bytes(range(40))), *makes(FOLDER, 'd'), *makes(FILE, 'd\\x'))
NAMES = ('x', 'x', 'x', 'X', 'y', 'y', 'z.txt', 'd', 'd', 'd\\x', 'd\\x', 'd\\y', 'd\\e', 'd\\e\\x', '')
ACCESSES = ('READ_DATA', 'WRITE_DATA', 'APPEND_DATA', 'EXECUTE', 'DELETE', 'READ_ATTRIBUTES', 'WRITE_ATTRIBUTES',
            'READ_DATA|WRITE_DATA', 'READ_DATA|DELETE', 'READ_DATA|WRITE_DATA|DELETE', 'MAXIMUM_ALLOWED',
            'GENERIC_READ', 'GENERIC_WRITE', 'READ_CONTROL', *['GENERIC_ALL'] * 9)
SHARES = (*[ALL] * 20, NOTHING, 'SHARE_READ', 'SHARE_WRITE', 'SHARE_DELETE', 'SHARE_READ|SHARE_WRITE',
          'SHARE_READ|SHARE_DELETE')
OPTIONS = (*['0'] * 8, 'DIRECTORY_FILE', 'NON_DIRECTORY_FILE', 'DELETE_ON_CLOSE')
ATTRIBUTES = (*['0'] * 5, 'NORMAL', 'READONLY', 'HIDDEN', 'SYSTEM|ARCHIVE')
WAYS_TO_OPEN = ('OPEN_IF', 'OPEN_IF', 'OPEN', *DISPOSITIONS)
PATTERNS = ('*', '*', 'x', '*.txt', '?', 'd*', '<.txt', 'none')
KINDS = ((Open, 9), (Close, 4), (Write, 4), (Read, 4), (Lock, 3), (Rename, 3), (List, 2), (QueryInfo, 3), (Flush, 1),
         (deletes, 2), (attributes_are, 1), (ends_at, 2), (takes_room, 1))
LEAST, MOST, OPENS = 4, 16, 5


def scripts(seed, count):
    """So many scripts of a seed."""
    return (script(f'{seed}.{i}') for i in range(count))


def script(name):
    """The script of a name, which is its seed and its number."""
    return Script(RANDOM, name, tuple(steps(random.Random(name))))


def steps(chance):
    """First what is there, and an open; then what comes, mostly of opens that were made."""
    kinds, weights = zip(*KINDS)
    labels = [('A', '1')]
    yield from BEFORE
    yield opened(chance, *labels[0])
    for _ in range(chance.randint(LEAST, MOST)):
        kind = chance.choices(kinds, weights)[0]
        if kind is Open:
            by = chance.choice('AAB')
            labels = [*labels, (by, str(len(labels) + 1))][-OPENS:]
            yield opened(chance, *labels[-1])
        else:
            by, label = chance.choice(labels)
            yield STEPS[kind](chance, {'by': by, 'of': label})


def opened(chance, by, label):
    return Open(chance.choice(NAMES), chance.choice(ACCESSES), chance.choice(WAYS_TO_OPEN),
                chance.choice(SHARES), chance.choice(OPTIONS), chance.choice(ATTRIBUTES), by=by, of=label)


def offset(chance):
    return chance.choice((0, 0, 1, 5, 10, 20, 4_096, 65_535))


def size(chance):
    return chance.choice((0, 1, 5, 10, 10, 30, 4_096, 65_536))


def locked(chance, whose):
    elements = tuple((offset(chance), size(chance), WAYS[chance.choice(tuple(WAYS))])
                     for _ in range(chance.choice((1, 1, 1, 2))))
    return Lock(elements, **whose)


def listed(chance, whose):
    flags = chance.choice((0, 0, RESTART_SCANS, RETURN_SINGLE_ENTRY))
    most = 2 if flags & RETURN_SINGLE_ENTRY else 0
    return List(chance.choice(PATTERNS), chance.choice((1, 3, 12, 37)), flags, most=most, **whose)


def asked(chance, whose):
    kind, number = chance.choice(tuple(LAYOUTS))
    room = chance.choice((WHOLE, WHOLE, WHOLE, size_of(LAYOUTS[kind, number])))
    return QueryInfo(number, room, kind, **whose)


def attributed(chance, whose):
    flags = chance.choice((0, 1, 2, 0x20, 0x80))
    return attributes_are(flags, f'{flags:#x}', **whose)


STEPS = {
    Close: lambda chance, whose: Close(chance.random() < 0.5, **whose),
    Write: lambda chance, whose: Write(offset(chance), bytes([chance.randrange(256)]) * min(size(chance), 30), **whose),
    Read: lambda chance, whose: Read(offset(chance), size(chance), chance.choice((0, 0, 0, 1, 20)), **whose),
    Lock: locked, List: listed, QueryInfo: asked,
    Rename: lambda chance, whose: Rename(chance.choice(NAMES[:-1]), chance.random() < 0.5, **whose),
    Flush: lambda chance, whose: Flush(**whose),
    deletes: lambda chance, whose: deletes(chance.random() < 0.7, **whose),
    attributes_are: attributed,
    ends_at: lambda chance, whose: ends_at(size(chance), **whose),
    takes_room: lambda chance, whose: takes_room(size(chance), **whose),
}
