"""A rename, by what is renamed, what is at the target, whether it replaces, and what is open."""
from conform.steps import Close, List, Open, Rename, Script
from conform.tables.common import FILE, FOLDER, NOTHING, READONLY, looks_at, makes

# What is at the target: another entry of the name `y`, or it is the entry itself.
TARGETS = {NOTHING: 'y', FILE: 'y', FOLDER: 'y', READONLY: 'y', 'itself': 'x', 'itself-in-capitals': 'X'}
# Which open there is besides that of the rename.
NONE, SOURCE, TARGET = 'nothing', 'source', 'target'


def scripts():
    for what in (FILE, FOLDER):
        for there, target in TARGETS.items():
            for replaces in (False, True):
                for is_open in (NONE, SOURCE, TARGET):
                    if is_open == TARGET and target != 'y':
                        continue
                    name = f'{what}-onto-{there}.{"replaces" if replaces else "keeps"}.open-{is_open}'
                    yield Script('renames', name, (
                        *makes(what, 'x'), *(makes(there, target, b'target') if target == 'y' else ()),
                        *opened(is_open), Open('x', 'READ_DATA|DELETE'), Rename(target, replaces), Close(looks=True),
                        *looks_at('x', 'y'), *lists()))
    yield from of_others()


def opened(which):
    if which == NONE:
        return ()
    return (Open('x' if which == SOURCE else 'y', 'READ_DATA', by='B'),)


def lists():
    """A directory of its own is listed, in which the entries are: names are as they were spelled."""
    return (Open('', 'READ_DATA', options='DIRECTORY_FILE', of='all'), List(number=12, of='all'), Close(of='all'))


def of_others():
    """What access a rename takes; into a directory, out of one, beneath itself; with a child that is open."""
    for access in ('READ_DATA', 'WRITE_DATA', 'WRITE_ATTRIBUTES', 'DELETE', 'MAXIMUM_ALLOWED'):
        yield Script('renames', f'access.{access}', (
            *makes(FILE, 'x'), Open('x', access), Rename('y'), Close(), *looks_at('x', 'y')))
    folder = makes(FOLDER, 'd')
    for name, source, target in (('into', 'x', 'd\\x'), ('out-of', 'd\\x', 'y'), ('within', 'd\\x', 'd\\y'),
                                 ('no-directory', 'x', 'e\\x'), ('beneath-a-file', 'd\\x', 'z\\x')):
        yield Script('renames', f'across.{name}', (
            *folder, *makes(FILE, 'z'), *makes(FILE, source), Open(source, 'READ_DATA|DELETE'), Rename(target), Close(),
            *looks_at(source, target)))
    child = (Open('d\\x', 'READ_DATA', 'CREATE', of='child'),)
    for name, steps in (('child', ()), ('open-child', child), ('closed-child', (*child, Close(of='child')))):
        for target in ('e', 'd\\e', 'd\\x\\e'):
            yield Script('renames', f'directory.{name}.to-{target.replace(chr(92), ".")}', (
                *folder, *steps, Open('d', 'READ_DATA|DELETE'), Rename(target), Close(), *looks_at('d', 'e')))
    for share in ('SHARE_READ', 'SHARE_READ|SHARE_WRITE', 'SHARE_DELETE', 'SHARE_READ|SHARE_DELETE'):
        yield Script('renames', f'share.{share}', (
            *makes(FILE, 'x'), Open('x', 'READ_ATTRIBUTES', share=share, by='B'), Open('x', 'READ_DATA|DELETE'),
            Rename('y'), Close(), *looks_at('x', 'y')))
    for name in ('a*', 'a?', 'a<', 'a:b', 'a/b', '"'):
        yield Script('renames', f'named.{name.replace("/", "slash")}', (
            *makes(FILE, 'x'), Open('x', 'READ_DATA|DELETE'), Rename(name), Close(), *looks_at('x')))
