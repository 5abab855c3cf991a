"""Frames of SMB2 requests. What fields a header has is in tools/frame.py."""
import struct

from tools.frame import HEADER as FIELDS, table

KINDS = {2: 'H', 4: 'I', 8: 'Q', 16: '16s'}
HEADER = struct.Struct('<' + ''.join(KINDS[width] for _, width, *_ in table(FIELDS)[0]))
PROTOCOL_ID, RENAME = 0x424D53FE, 10


def header(command, message_id, next_command=0, session_id=0, tree_id=0, charge=0, credits=31, flags=0):
    return HEADER.pack(PROTOCOL_ID, HEADER.size, charge, 0, command, credits, flags, next_command, message_id, 0,
                       tree_id, session_id, bytes(16))


def charge_of(size):
    """How many MessageIds a request takes in dialect 2.1 that sends or asks for so many bytes."""
    return max(size - 1, 0) // 65_536 + 1


def charge_field(size):
    """The CreditCharge that says it: 0 where that is enough."""
    return charge_of(size) if size > 65_536 else 0


def frame(payload):
    return struct.pack('>I', len(payload)) + payload


def chain(frames):
    """A frame of the requests of some frames, one behind the other, each at a multiple of 8 bytes."""
    joined = b''
    for i, one in enumerate(frames):
        payload = one[4:]
        if i + 1 < len(frames):
            payload += bytes(-len(payload) % 8)
            payload = payload[:20] + struct.pack('<I', len(payload)) + payload[24:]
        joined += payload
    return frame(joined)


def negotiate(message_id=0, dialects=(0x0210,), credits=31):
    body = struct.pack('<HHHHI16sQ', 36, len(dialects), 1, 0, 0, bytes(16), 0)
    return frame(header(0, message_id, credits=credits) + body + struct.pack(f'<{len(dialects)}H', *dialects))


def session_setup(message_id, token=b'a', session_id=0, previous=0):
    """A frame of a SESSION_SETUP, for a new session where none is named; it may end a session before it."""
    body = struct.pack('<HBBIIHHQ', 25, 0, 1, 0, 0, 88, len(token), previous) + token
    return frame(header(1, message_id, session_id=session_id) + body)


def logoff(message_id, session_id):
    """A frame of a LOGOFF."""
    return frame(header(2, message_id, session_id=session_id) + struct.pack('<HH', 4, 0))


def tree_connect(message_id, session_id, path='\\\\s\\data'):
    """A frame of a TREE_CONNECT in a session."""
    units = path.encode('utf-16-le')
    body = struct.pack('<HHHH', 9, 0, 72, len(units)) + units
    return frame(header(3, message_id, session_id=session_id) + body)


def create(message_id, name, access, disposition, options=0, session_id=0, tree_id=0, share=7):
    """A frame of a CREATE, in a session and a tree."""
    units = name.encode('utf-16-le', 'surrogatepass')
    body = struct.pack('<HBBIQQIIIIIHHII', 57, 0, 0, 2, 0, 0, access, 0x80, share, disposition, options, 120,
                       len(units), 0, 0)
    return frame(header(5, message_id, session_id=session_id, tree_id=tree_id) + body + units)


def close(message_id, open_number, session_id=0, tree_id=0):
    """A frame of a CLOSE of an open, in a session and a tree."""
    body = struct.pack('<HHIQQ', 24, 0, 0, open_number, open_number)
    return frame(header(6, message_id, session_id=session_id, tree_id=tree_id) + body)


def read(message_id, open_number, offset, length, session_id=0, tree_id=0):
    """A frame of a READ of an open, in a session and a tree."""
    body = struct.pack('<HBBIQQQIIIHHB', 49, 0, 0, length, offset, open_number, open_number, 0, 0, 0, 0, 0, 0)
    return frame(header(8, message_id, session_id=session_id, tree_id=tree_id, charge=charge_field(length)) + body)


def write(message_id, open_number, offset, buffer, session_id=0, tree_id=0):
    """A frame of a WRITE of bytes to an open, in a session and a tree."""
    body = struct.pack('<HHIQQQIIHHI', 49, 112, len(buffer), offset, open_number, open_number, 0, 0, 0, 0, 0)
    charge = charge_field(len(buffer))
    return frame(header(9, message_id, session_id=session_id, tree_id=tree_id, charge=charge) + body + buffer)


def lock(message_id, open_number, elements, session_id=0, tree_id=0):
    """A frame of a LOCK of an open, in a session and a tree; an element is an offset, a length and flags."""
    body = struct.pack('<HHIQQ', 48, len(elements), 0, open_number, open_number)
    body += b''.join(struct.pack('<QQII', offset, length, flags, 0) for offset, length, flags in elements)
    return frame(header(10, message_id, session_id=session_id, tree_id=tree_id) + body)


def query_info(message_id, open_number, information_class, session_id=0, tree_id=0):
    """A frame of a QUERY_INFO of an open's entry, in a session and a tree."""
    body = struct.pack('<HBBIHHIIIQQ', 41, 1, information_class, 65536, 0, 0, 0, 0, 0, open_number, open_number)
    return frame(header(16, message_id, session_id=session_id, tree_id=tree_id) + body)


def query_directory(message_id, open_number, information_class, flags, pattern, room, session_id=0, tree_id=0):
    """A frame of a QUERY_DIRECTORY of an open's folder."""
    units = pattern.encode('utf-16-le')
    body = struct.pack('<HBBIQQHHI', 33, information_class, flags, 0, open_number, open_number, 96, len(units), room)
    return frame(header(14, message_id, session_id=session_id, tree_id=tree_id) + body + units)


def set_info(message_id, open_number, information_class, buffer, session_id=0, tree_id=0):
    """A frame of a SET_INFO of an open's entry, in a session and a tree."""
    body = struct.pack('<HBBIHHIQQ', 33, 1, information_class, len(buffer), 96, 0, 0, open_number, open_number)
    return frame(header(17, message_id, session_id=session_id, tree_id=tree_id) + body + buffer)


def rename(message_id, open_number, name, session_id=0, tree_id=0, replaces=False):
    """A frame of a SET_INFO that renames an open's entry, and replaces nothing unless it is said."""
    units = name.encode('utf-16-le')
    buffer = struct.pack('<QQI', replaces, 0, len(units)) + units
    return set_info(message_id, open_number, RENAME, buffer, session_id, tree_id)


def replace(message_id, open_number, name, session_id=0, tree_id=0):
    """A frame of a SET_INFO that renames an open's entry, and replaces what has the name."""
    return rename(message_id, open_number, name, session_id, tree_id, True)


def echoes(first, count):
    """A frame of `count` ECHO requests with the MessageIds from `first` on."""
    payload = b''
    for i in range(count):
        last = i == count - 1
        payload += header(13, first + i, 0 if last else 72) + struct.pack('<HH', 4, 0)
        payload += b'' if last else bytes(4)
    return frame(payload)
