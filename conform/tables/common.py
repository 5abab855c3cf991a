"""What the scripts of several tables begin with."""
from conform.steps import MADE, Close, Open, Write

FILE, FOLDER, READONLY, NOTHING = 'file', 'directory', 'readonly', 'nothing'
# The bytes of a file that is there.
BEFORE = b'before'


def makes(what, name, data=BEFORE):
    """The steps that make a file, a READONLY file or a directory of a name, or nothing."""
    if what == NOTHING:
        return ()
    if what == FOLDER:
        return (Open(name, 'READ_ATTRIBUTES', 'CREATE', options='DIRECTORY_FILE', of=MADE), Close(of=MADE))
    attributes = 'READONLY' if what == READONLY else '0'
    return (Open(name, 'WRITE_DATA', 'CREATE', attributes=attributes, of=MADE), Write(0, data, of=MADE), Close(of=MADE))


def looks_at(*names):
    """The steps that show what is at each name: its attributes and its size, or that it is not there."""
    return tuple(step for name in names for step in (Open(name, 'READ_ATTRIBUTES', of=f'at {name}'),
                                                     Close(of=f'at {name}')))
