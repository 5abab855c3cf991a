"""SET_INFO by what it says and by the access of the open, and what is there then."""
import struct

from conform.steps import (ALLOCATION, BASIC, DISPOSITION, END_OF_FILE, RENAME, Close, Open, Rename, Script, SetInfo,
                           attributes_are, deletes, ends_at, takes_room)
from conform.tables.common import FILE, FOLDER, looks_at, makes

ACCESSES = ('READ_DATA', 'WRITE_DATA', 'APPEND_DATA', 'WRITE_ATTRIBUTES', 'DELETE', 'READ_ATTRIBUTES', 'GENERIC_WRITE',
            'MAXIMUM_ALLOWED')
SAID = {
    'attributes-none': attributes_are(0, 'left'), 'attributes-readonly': attributes_are(1, 'READONLY'),
    'attributes-hidden': attributes_are(2, 'HIDDEN'), 'attributes-normal': attributes_are(0x80, 'NORMAL'),
    'attributes-directory': attributes_are(0x10, 'DIRECTORY'),
    'attributes-of-both': attributes_are(0x22, 'HIDDEN, ARCHIVE'),
    'deletes': deletes(), 'deletes-not': deletes(False),
    'ends-at-0': ends_at(0), 'ends-at-3': ends_at(3), 'ends-at-9': ends_at(9), 'ends-past-all': ends_at(2 ** 63),
    'has-no-room': takes_room(0), 'has-room': takes_room(4_096), 'renames': Rename('y'),
}
# Buffers that are one byte short of the fixed fields, and classes that are none to be set.
SHORT = {BASIC: 39, RENAME: 19, DISPOSITION: 0, ALLOCATION: 7, END_OF_FILE: 7}
UNKNOWN = (0, 1, 5, 18, 34, 77, 200)


def scripts():
    for what in (FILE, FOLDER):
        for access in ACCESSES:
            for name, said in SAID.items():
                yield script(f'{what}.{name}.{access}', what, access, said)
        for number, size in SHORT.items():
            yield script(f'{what}.short.class-{number}', what, 'MAXIMUM_ALLOWED', SetInfo(number, bytes(size)))
        for number in UNKNOWN:
            yield script(f'{what}.unknown.class-{number}', what, 'MAXIMUM_ALLOWED', SetInfo(number, bytes(64)))
        for name, moment in (('minus-1', -1), ('minus-2', -2), ('minus-3', -3), ('1', 1)):
            said = SetInfo(BASIC, struct.pack('<qqqqI4x', moment, moment, moment, moment, 0), f'each time is {moment}')
            yield script(f'{what}.times.{name}', what, 'WRITE_ATTRIBUTES', said)


def script(name, what, access, said):
    return Script('settings', name, (
        *makes(what, 'x'), Open('x', access), said, Close(looks=True), *looks_at('x', 'y')))
