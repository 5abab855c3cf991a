"""Journals of events, as an older program wrote them: made of records, since the program writes none any more."""
import struct

FIRST, OF_RECORD = b'# smbshare journal 1 ', b'# smbshare recording 1 '
MASK = (1 << 64) - 1


def turned(word, count):
    return (word << count | word >> 64 - count) & MASK


def stirred(a, b, c, d):
    """A round of SipHash."""
    a, c = a + b & MASK, c + d & MASK
    b, d = turned(b, 13) ^ a, turned(d, 16) ^ c
    a, c = turned(a, 32) + d & MASK, c + b & MASK
    return a, turned(b, 17) ^ c, turned(c, 32), turned(d, 21) ^ a


def check_of(before, text):
    """The check of a line's text, behind a line of another check: SipHash-1-3 of both, under a key of zeros."""
    data = before.to_bytes(8, 'big') + text
    data += bytes(7 - len(data) % 8) + bytes([len(data) % 256])
    state = tuple(struct.unpack('>4Q', b'somepseudorandomlygeneratedbytes'))
    for word, in struct.iter_unpack('<Q', data):
        a, b, c, d = stirred(*state[:3], state[3] ^ word)
        state = a ^ word, b, c, d
    a, b, c, d = state
    state = a, b, c ^ 0xff, d
    for _ in range(3):
        state = stirred(*state)
    a, b, c, d = state
    return a ^ b ^ c ^ d


def of_record(data):
    """The journal of a record's events: pieces as they are, and on each line a check that goes over the one before."""
    first, *lines = data.removesuffix(b'\n').split(b'\n')
    made, check = [FIRST + first.removeprefix(OF_RECORD) + b'\n'], 0
    for line in lines:
        if line.startswith(b'#'):
            made.append(line + b'\n')
            continue
        piece = b''
        if line.startswith(b'> '):
            _, number, moment, digits = line.split(b' ')
            piece = bytes.fromhex(digits.decode())
            line = b'b %s %s %d %016x' % (number, moment, len(piece), check_of(0, piece))
            piece += b'\n'
        check = check_of(check, line)
        made.append(b'%s %016x\n%s' % (line, check, piece))
    return b''.join(made)
