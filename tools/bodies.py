#!/usr/bin/env python3
"""Writes docs/BODIES.md: one request and one reply of each command, field by field.

    python3 tools/bodies.py            writes it
    python3 tools/bodies.py --check    exit status 1 where it is not what would be written

The bytes are those that the tests of crates/smb_layer_tests/src/body compare with; a command that has none there gets the usual value of each
field. The fields' names and widths are those of tools/frame.py, in the order of [MS-SMB2] 2.2.
"""
import pathlib
import re
import sys

from frame import COMMANDS, ERROR, NAMES, REQUESTS, RESPONSES, layout, put_body, table, told

TOP = pathlib.Path(__file__).resolve().parent.parent
TESTS = TOP / 'crates' / 'smb_layer_tests' / 'src' / 'body'
PAGE = TOP / 'docs' / 'BODIES.md'
HEADER = 64
# The place, width and name of each field of an element of a LOCK.
LOCK_ELEMENT = ((0, 8, 'Offset'), (8, 8, 'Length'), (16, 4, 'Flags'), (20, 4, 'Reserved'))
HEAD = """# Bodies, field by field

One request and one reply of each command, by the tables of [MS-SMB2] 2.2, as `smb_body` writes them. This page is
written by `tools/bodies.py`, from the bytes that the tests of `smb_layer_tests` compare with, and the test command
compares the two. All numbers are little-endian; a body is behind the 64 bytes of its header, and offsets of buffers
count from the header's first byte. A reply's fields that the profile gives no value are 0.
"""
SMB1 = """
## SMB_COM_NEGOTIATE

| offset | bytes | field |
|---|---|---|
| 0 | `ff 53 4d 42` | protocol |
| 4 | `72` | command |
| 5 | 27 bytes | ignored |
| 32 | `00` | WordCount 0 |
| 33 | `0b 00` | ByteCount 11 |
| 35 | `02` | a dialect |
| 36 | `53 4d 42 20 32 2e 3f 3f 3f` | its text, `SMB 2.???` |
| 45 | `00` | its end |
"""


def constants(name):
    """The bodies that a file of tests spells, by their names."""
    text = (TESTS / name).read_text(encoding='utf-8')
    found = re.findall(r'const (\w+): \[u8; \d+\] = \[(.*?)\];', text, re.S)
    return {name: bytes(int(it, 16) for it in re.findall(r'0x[0-9a-f]{2}', digits)) for name, digits in found}


def usual_body(command, is_response):
    return b''.join(put_body(command, {}, *layout(command, is_response, 0)))


def spelled(raw):
    return raw.hex(' ')


def value_of(name, width, raw):
    """What a field says: a name, a number, or nothing for one that is longer."""
    if width > 8:
        return ''
    number, names = int.from_bytes(raw, 'little'), told(name, width, raw).split('|')
    if name in NAMES and number and len(names) <= 3:
        return ', '.join(names)
    return f'{number:,}' if number < 100_000 else f'0x{number:0{2 * width}X}' if number > 1 << 40 else f'0x{number:X}'


def buffer_rows(at, kind, name, raw):
    """The rows of a buffer: one, or for the elements of a LOCK one for each of their fields."""
    if kind == 'locks':
        fields = [(at + i + place, width, field) for i in range(0, len(raw), 24) for place, width, field in LOCK_ELEMENT]
        return [row(place, raw[place - at:place - at + width], f'{name}: {field} {value_of(field, width, raw[place - at:place - at + width])}')
                for place, width, field in fields]
    if kind == 'text':
        return [row(at, raw, f'{name}: `{raw.decode("utf-16-le")}` in UTF-16')]
    text = raw.decode('ascii', 'replace')
    return [row(at, raw, f'{name}: `{text}`' if text.isalnum() else name)]


def row(at, raw, text):
    return f'| {at} | `{spelled(raw)}` | {text.strip()} |'


def rows_of(fields, buffers, body):
    """A row for each field, and for each buffer behind them."""
    rows, at = [], 0
    for name, width, *_ in fields:
        raw = body[at:at + width]
        rows.append(row(at, raw, f'{name} {value_of(name, width, raw)}'))
        at += width
    for name, kind, step in buffers:
        padding = -(HEADER + at) % step
        if at + padding < len(body):
            if padding:
                rows.append(row(at, body[at:at + padding], f'zeros up to {HEADER + at + padding}'))
            at += padding
            end = length_of(fields, name, body, kind, at)
            rows += buffer_rows(at, kind, name, body[at:end])
            at = end
    if at < len(body):
        rows.append(row(at, body[at:], 'one byte that counts for the buffer'))
    return rows


def length_of(fields, buffer, body, kind, at):
    """Where a buffer ends: its length or count is a field, or it goes to the end."""
    start = 0
    for name, width, _, _, length in fields:
        if length == buffer:
            return at + int.from_bytes(body[start:start + width], 'little') * {'numbers': 2, 'locks': 24}.get(kind, 1)
        start += width
    return len(body)


def section(title, fields, buffers, body):
    return '\n'.join(['', f'### {title}', '', '| offset | bytes | field |', '|---|---|---|', *rows_of(fields, buffers, body)]) + '\n'


def page():
    requests, replies = constants('requests.rt'), constants('replies.rt')
    text = HEAD + '\n## Requests\n'
    for command in REQUESTS:
        code = COMMANDS.index(command)
        text += section(f'{command} ({code})', *table(REQUESTS[command]), requests.get(command) or usual_body(command, False))
    text += '\n## Replies\n' + section('Error response, of any command', *table(ERROR), bytes([9]) + bytes(8))
    for command in RESPONSES:
        code = COMMANDS.index(command)
        text += section(f'{command} ({code})', *table(RESPONSES[command]), replies.get(command) or usual_body(command, True))
    return text + SMB1


def main():
    if sys.argv[1:] == ['--check']:
        if PAGE.read_text(encoding='utf-8') != page():
            print('docs/BODIES.md is not what tools/bodies.py writes')
            return 1
        return 0
    PAGE.write_text(page(), encoding='utf-8')
    return 0


if __name__ == '__main__':
    sys.exit(main())
