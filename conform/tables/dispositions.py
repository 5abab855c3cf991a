"""A CREATE of each disposition, by what is there and by the options that ask for a directory or a file."""
from conform.steps import STANDARD, Close, Open, QueryInfo, Read, Script, Write, attributes_are
from conform.tables.common import FILE, FOLDER, NOTHING, READONLY, looks_at, makes

DISPOSITIONS = ('SUPERSEDE', 'OPEN', 'CREATE', 'OPEN_IF', 'OVERWRITE', 'OVERWRITE_IF')
OPTIONS = {'any': '0', 'directory': 'DIRECTORY_FILE', 'file': 'NON_DIRECTORY_FILE'}
# What a READONLY file is opened for; and the class that tells what access was granted.
ACCESSES = ('READ_DATA', 'WRITE_DATA', 'APPEND_DATA', 'WRITE_ATTRIBUTES', 'DELETE', 'GENERIC_WRITE', 'GENERIC_ALL',
            'MAXIMUM_ALLOWED')
GRANTED, AFTER = 8, b'after!'


def scripts():
    for access in ('READ_DATA', 'WRITE_DATA'):
        for what in (NOTHING, FILE, FOLDER, READONLY):
            for disposition in DISPOSITIONS:
                for short, options in OPTIONS.items():
                    yield Script('dispositions', f'{disposition}.{what}.as-{short}.{access}', (
                        *makes(what, 'x'), Open('x', access, disposition, options=options), QueryInfo(STANDARD),
                        Close(looks=True), *looks_at('x')))
    yield from with_attributes()
    yield from of_a_readonly_file()


def with_attributes():
    """What attributes a file has by those of the CREATE and those that it had."""
    for disposition in ('SUPERSEDE', 'OPEN_IF', 'OVERWRITE', 'OVERWRITE_IF'):
        for had in ('0', 'HIDDEN', 'SYSTEM'):
            for given in ('0', 'NORMAL', 'READONLY', 'HIDDEN', 'SYSTEM', 'HIDDEN|SYSTEM|ARCHIVE'):
                yield Script('dispositions', f'{disposition}.had-{had}.given-{given}', (
                    Open('x', 'WRITE_DATA', 'CREATE', attributes=had), Close(),
                    Open('x', 'READ_DATA', disposition, attributes=given), Close(looks=True), *looks_at('x')))


def of_a_readonly_file():
    """A READONLY file is opened for each access, by the client that made it and by another; a file becomes READONLY
    while it is open to be written; and one that was READONLY is written."""
    for access in ACCESSES:
        opened = (step for by in 'AB' for step in (
            Open('x', access, by=by), QueryInfo(GRANTED, by=by), Write(0, AFTER, by=by), Close(looks=True, by=by)))
        yield Script('dispositions', f'readonly.opened-for.{access}', (*makes(READONLY, 'x'), *opened, *looks_at('x')))
    yield Script('dispositions', 'readonly.becomes-so', (
        *makes(FILE, 'x'), Open('x', 'WRITE_DATA|WRITE_ATTRIBUTES'), attributes_are(1, 'READONLY'),
        Open('x', 'APPEND_DATA', of='to append', by='B'), Open('x', 'WRITE_DATA', of='to write', by='B'),
        Open('x', 'READ_DATA', by='B'), Write(0, AFTER), Read(0, 9, by='B'), Close(looks=True),
        Close(looks=True, by='B'), *looks_at('x')))
    yield Script('dispositions', 'readonly.was-so', (
        *makes(READONLY, 'x'), Open('x', 'WRITE_ATTRIBUTES'), attributes_are(0x20, 'ARCHIVE'),
        Open('x', 'APPEND_DATA', by='B'), Write(6, AFTER, by='B'), Close(looks=True, by='B'), Close(looks=True),
        *looks_at('x')))
