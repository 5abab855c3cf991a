"""The events that are played: two clients ask for each command and are refused in each way, a third looks
at what they left, and a fourth is ended by the share.

A line `N: FRAMES` is a piece of connection N's stream. A frame's requests are in the words of tools/frame.py, joined
by ` ; `, and frames by ` & `. `hold K` at a line's end keeps the last K bytes for the next piece of N, which may have
no frame of its own. MessageIds are counted. A request acts in the session and tree connect that TREES has for its
connection, unless it names others; behind `related` it acts in those of the request before it, on the open handed on
to it. A CREATE opens what is there, and is to read it, unless it says otherwise. `payload` begins a payload in the
words of a row. A line that begins with a blank goes on with the one before.
"""
import re
from dataclasses import dataclass

from tools import frame as frame_tool

MOMENT, SECOND = 116_444_736_000_000_000, 10_000_000
# The session and the tree connect of a connection's requests.
TREES = {1: (1, 1), 2: (2, 1), 3: (0, 0), 4: (0, 0)}
WITHOUT_SESSION = ('NEGOTIATE', 'SESSION_SETUP', 'ECHO', 'CANCEL')
UNSUPPORTED = ('IOCTL', 'CHANGE_NOTIFY', 'OPLOCK_BREAK')
NO_FILE_ID = 32 * 'f'
OPENS = {'CreateDisposition': 'OPEN', 'DesiredAccess': 'READ_DATA'}

EVENTS = r"""
# The first client begins by SMB1. The other's NEGOTIATE is refused first; its frames are cut in a body and in a header,
# and a piece has the end of one and the begin of the next. A login and a share's name are refused.
+ 1
+ 2
1: payload ff534d42 72 z27 00 0b00 02 534d4220322e3f3f3f 00
1: NEGOTIATE Dialects=0x202,0x210 Credits=60
1: SESSION_SETUP Buffer=61
2: NEGOTIATE Dialects=0x300
2: NEGOTIATE Dialects=0x210,0x202 Credits=60 hold 50
2: SESSION_SETUP Buffer=61 & TREE_CONNECT Path=\\s\data hold 90
1: SESSION_SETUP Buffer=62
1: TREE_CONNECT Path=\\s\other
1: TREE_CONNECT Path=\\s\data
2: hold 60
2: ECHO

# Files by each disposition: the opens 1 and 2 stay, and have more bytes than any piece behind them.
1: CREATE Name=a CreateDisposition=CREATE DesiredAccess=GENERIC_ALL
1: WRITE FileId=1 Buffer=6000*61
2: CREATE Name=b CreateDisposition=OPEN_IF DesiredAccess=GENERIC_ALL
2: WRITE FileId=2 Buffer=6000*62 hold 3000
2: hold 0
1: CREATE Name=c CreateDisposition=SUPERSEDE DesiredAccess=GENERIC_ALL ; related WRITE Buffer=636363
   ; related CLOSE Flags=1
1: CREATE Name=C CreateDisposition=SUPERSEDE DesiredAccess=GENERIC_ALL ; related CLOSE Flags=1
1: CREATE Name=c CreateDisposition=OVERWRITE DesiredAccess=GENERIC_WRITE FileAttributes=HIDDEN
   ; related WRITE Offset=5000 Buffer=6364 ; related CLOSE Flags=1
1: CREATE Name=c CreateDisposition=OVERWRITE_IF DesiredAccess=GENERIC_ALL
1: WRITE FileId=6 Buffer=09 ; CLOSE FileId=6
1: CREATE Name=d CreateDisposition=CREATE CreateOptions=DIRECTORY_FILE DesiredAccess=GENERIC_ALL
1: CREATE Name=none ; related QUERY_INFO FileInfoClass=18 ; related CLOSE
1: CREATE Name=none CreateDisposition=OVERWRITE
1: CREATE Name=a CreateDisposition=CREATE ; CREATE Name=none\x CreateDisposition=CREATE
   ; CREATE Name=a<b CreateDisposition=CREATE ; CREATE Name=\a ; CREATE Name=a DesiredAccess=0
2: CREATE Name=a CreateOptions=OPEN_BY_FILE_ID
2: CREATE Name=d CreateOptions=NON_DIRECTORY_FILE ; CREATE Name=a CreateOptions=DIRECTORY_FILE
   ; CREATE CreateOptions=DELETE_ON_CLOSE DesiredAccess=DELETE

# An open that shares reading alone keeps writers out and an OVERWRITE, and lets a reader in.
1: CREATE Name=shared CreateDisposition=CREATE DesiredAccess=READ_DATA|WRITE_DATA ShareAccess=SHARE_READ
   ; related WRITE Buffer=40*73
2: CREATE Name=shared DesiredAccess=WRITE_DATA ; related WRITE Buffer=00 ; related CLOSE
2: CREATE Name=shared CreateDisposition=OVERWRITE
2: CREATE Name=shared ; related READ Length=1000 ; related READ Offset=41 Length=10 ; related CLOSE
1: CLOSE FileId=8 Flags=1
2: CREATE Name=shared CreateDisposition=OVERWRITE ; related CLOSE Flags=1

# A file that is deleted on close, by the first of its opens, goes with the second; two frames in a piece.
1: CREATE Name=gone CreateDisposition=CREATE CreateOptions=DELETE_ON_CLOSE DesiredAccess=READ_DATA|DELETE
2: CREATE Name=gone DesiredAccess=READ_DATA|DELETE
1: CLOSE FileId=11
2: CREATE Name=gone
2: CLOSE FileId=12 & CREATE Name=gone

# Locks of both clients on one file.
2: CREATE Name=A DesiredAccess=GENERIC_ALL
1: LOCK FileId=1 Locks=0:10:EXCLUSIVE|FAIL_IMMEDIATELY,100:10:SHARED|FAIL_IMMEDIATELY
2: LOCK FileId=13 Locks=100:5:SHARED ; READ FileId=13 Length=5 ; WRITE FileId=13 Offset=100 Buffer=00
   ; LOCK FileId=13 Locks=105:9:EXCLUSIVE
1: LOCK FileId=1 Locks=0:10:UNLOCK
1: LOCK FileId=1 Locks=0:10:UNLOCK ; LOCK FileId=1 Locks=0:10:7 ; LOCK FileId=1 Locks=18446744073709551615:2:SHARED
2: LOCK FileId=13 Locks=0:5:EXCLUSIVE
1: READ FileId=1 Length=10 ; READ FileId=1 Offset=5 Length=10

# Bytes: past the end, too many, of a directory, of no open; a page is filled and another begun.
1: READ FileId=1 Offset=1000 Length=5000
1: READ FileId=1 Offset=90000 Length=1 ; READ FileId=1 Length=70000 ; READ FileId=7 Length=1
   ; READ FileId=99 Length=1
1: WRITE FileId=1 Offset=16777216 Buffer=00
2: WRITE FileId=2 Offset=8190 Buffer=5000*63 ; FLUSH FileId=2 ; READ FileId=2 Offset=8000 Length=300
2: FLUSH FileId=2
2: FLUSH FileId=99

# What is told of a file and of the file system, and what is refused.
2: QUERY_INFO FileId=2 FileInfoClass=18
2: QUERY_INFO FileId=2 FileInfoClass=4 ; QUERY_INFO FileId=2 FileInfoClass=5
   ; QUERY_INFO FileId=2 FileInfoClass=34 ; QUERY_INFO FileId=2 FileInfoClass=18 OutputBufferLength=101
1: QUERY_INFO InfoType=2 FileInfoClass=1 FileId=1
1: QUERY_INFO InfoType=2 FileInfoClass=3 FileId=1 ; QUERY_INFO InfoType=2 FileInfoClass=5 FileId=1
   ; QUERY_INFO InfoType=2 FileInfoClass=7 FileId=1
1: QUERY_INFO FileId=1 FileInfoClass=99 ; QUERY_INFO FileId=1 FileInfoClass=4 OutputBufferLength=1
   ; QUERY_INFO FileId=1 InfoType=3

# Sizes, times, attributes and marks.
1: SET_INFO FileId=1 size=100
1: SET_INFO FileId=1 size=9000 ; SET_INFO FileId=1 allocation=8192 ; SET_INFO FileId=1 basic=116444736000000007:2
   ; SET_INFO FileId=1 size=16777217
1: SET_INFO FileId=1 FileInfoClass=99 Buffer=00 ; SET_INFO FileId=1 FileInfoClass=20 Buffer=00
   ; SET_INFO FileId=7 size=1 ; SET_INFO FileId=1 basic=9223372036854775808:0
2: SET_INFO FileId=13 mark=1
1: CREATE Name=a ; SET_INFO FileId=1 mark=0

# Renames: a directory with a file open beneath it, into a directory, onto a file that is there.
1: CREATE Name=d\inner CreateDisposition=CREATE DesiredAccess=GENERIC_ALL
1: SET_INFO FileId=7 rename=e ; SET_INFO FileId=7 mark=1 ; SET_INFO FileId=7 rename=D
1: CLOSE FileId=14
1: SET_INFO FileId=7 rename=folder
1: SET_INFO FileId=1 rename=folder\moved
2: SET_INFO FileId=2 rename=folder\moved ; SET_INFO FileId=2 replace=folder\moved ; SET_INFO FileId=2 rename=a<b
   ; SET_INFO FileId=2 rename=none\b ; SET_INFO FileId=2 replace=c
2: SET_INFO FileId=2 rename=b2

# A directory's entries, by patterns, until there are no more.
2: CREATE Name=folder
2: QUERY_DIRECTORY FileId=15 FileInformationClass=37 FileName=*
2: QUERY_DIRECTORY FileId=15 FileInformationClass=37
2: QUERY_DIRECTORY FileId=15 FileInformationClass=12 Flags=1 FileName=m*
   ; QUERY_DIRECTORY FileId=15 FileInformationClass=1 Flags=1 FileName=?nner
   ; QUERY_DIRECTORY FileId=15 FileInformationClass=3 Flags=3 FileName=*
2: QUERY_DIRECTORY FileId=15 FileInformationClass=99
   ; QUERY_DIRECTORY FileId=15 FileInformationClass=1 Flags=1 FileName=zz*
   ; QUERY_DIRECTORY FileId=15 FileInformationClass=12 Flags=1 FileName=* OutputBufferLength=11
   ; QUERY_DIRECTORY FileId=2 FileInformationClass=1

# What nobody waits for, what is not supported, and what lacks a session, a tree connect or an open.
1: ECHO
1: ECHO ; CANCEL MessageId=1 ; ECHO
1: CANCEL MessageId=1
1: IOCTL
1: CHANGE_NOTIFY ; OPLOCK_BREAK ; SESSION_SETUP SessionId=1 Buffer=61 ; CREATE SessionId=9 Name=a
   ; CREATE TreeId=9 Name=a ; related CLOSE ; CLOSE FileId=99
1: TREE_CONNECT Path=\\s\data
1: CREATE TreeId=2 Name=tree CreateDisposition=CREATE DesiredAccess=GENERIC_ALL CreateOptions=DELETE_ON_CLOSE
1: TREE_DISCONNECT TreeId=2

# The first client ends within a frame: its opens and locks are gone. The other comes in anew, in place of itself.
1: CREATE Name=held CreateDisposition=CREATE DesiredAccess=GENERIC_ALL ShareAccess=0 ; related WRITE Buffer=68
   ; related LOCK Locks=0:1:EXCLUSIVE
2: CREATE Name=held DesiredAccess=GENERIC_ALL
1: CREATE Name=never CreateDisposition=CREATE DesiredAccess=GENERIC_ALL hold 20
- 1
2: CREATE Name=held DesiredAccess=GENERIC_ALL ; related LOCK Locks=0:1:EXCLUSIVE ; related READ Length=9
2: LOGOFF
2: SESSION_SETUP Buffer=61 PreviousSessionId=2 ; related TREE_CONNECT Path=\\s\data ; related CREATE Name=held
   ; related LOCK Locks=0:1:EXCLUSIVE ; related FLUSH
2: SESSION_SETUP Buffer=61 PreviousSessionId=4 ; related TREE_CONNECT Path=\\s\data ; related CREATE Name=held
   ; related LOCK Locks=0:1:EXCLUSIVE
1: ECHO

# A third client looks at all that is left; each chain comes in anew, so no number of a session or an open is in it. A
# WRITE without a session comes first, longer than any of them.
+ 3
3: NEGOTIATE Dialects=0x210 Credits=200
3: WRITE FileId=1 Buffer=6000*00
3: SESSION_SETUP Buffer=61 ; related TREE_CONNECT Path=\\s\data ; related CREATE
   ; related QUERY_DIRECTORY FileInformationClass=37 FileName=* ; related CREATE Name=folder
   ; related QUERY_DIRECTORY FileInformationClass=37 FileName=* ; related CREATE Name=d
   ; related QUERY_DIRECTORY FileInformationClass=37 FileName=* ; related QUERY_INFO InfoType=2 FileInfoClass=7
3: SESSION_SETUP Buffer=61 ; related TREE_CONNECT Path=\\s\data ; related CREATE Name=a ; related READ Length=200
   ; related CREATE Name=folder\moved ; related READ Length=200 ; related CREATE Name=b
   ; related READ Offset=5990 Length=4000 ; related CREATE Name=c ; related READ Offset=5990 Length=4000
3: SESSION_SETUP Buffer=61 ; related TREE_CONNECT Path=\\s\data ; related CREATE Name=b2
   ; related READ Offset=5990 Length=4000 ; related CREATE Name=shared ; related READ Length=100
   ; related CREATE Name=held ; related READ Length=100 ; related CREATE Name=new CreateDisposition=CREATE
   ; related QUERY_INFO FileInfoClass=18

# A fourth uses a MessageId twice.
+ 4
4: NEGOTIATE Dialects=0x202 & ECHO & ECHO MessageId=1
4: ECHO
"""


@dataclass(frozen=True)
class Event:
    """An event of a text: its mark, `+`, `>` or `-`, its connection, and of a piece its moment and its bytes."""
    mark: str
    connection: int
    moment: int = 0
    piece: bytes = b''

    def line(self):
        if self.mark != '>':
            return f'{self.mark} {self.connection}\n'
        return f'> {self.connection} {self.moment} {self.piece.hex()}\n'


def set_info(key, value):
    """The words of a SET_INFO that asks for a name, a size, a mark, or a time of creation with attributes."""
    if key in ('rename', 'replace'):
        name = value.encode('utf-16-le')
        code, buffer = 10, bytes([key == 'replace']) + bytes(15) + len(name).to_bytes(4, 'little') + name
    elif key == 'basic':
        created, attributes = map(int, value.split(':'))
        code, buffer = 4, created.to_bytes(8, 'little') + bytes(24) + attributes.to_bytes(8, 'little')
    else:
        code, width = {'mark': (13, 1), 'allocation': (19, 8), 'size': (20, 8)}[key]
        buffer = int(value).to_bytes(width, 'little')
    return [f'FileInfoClass={code}', f'Buffer={buffer.hex()}']


def expanded(word):
    """The words of tools/frame.py that a word stands for."""
    key, _, value = word.partition('=')
    if key in ('rename', 'replace', 'size', 'allocation', 'mark', 'basic'):
        return set_info(key, value)
    times = re.fullmatch(r'(\d+)\*([0-9a-f]+)', value)
    return [f'{key}={int(times[1]) * times[2]}' if times else word]


class Stream:
    """A connection's stream as it is written: its next MessageId, and what is kept for its next piece."""

    def __init__(self, connection):
        self.connection, self.next_id, self.kept = connection, 0, b''

    def request(self, text):
        """The words of tools/frame.py for a request, and its command."""
        words = text.split()
        related = words[0] == 'related'
        command, words = words[related], [it for word in words[related + 1:] for it in expanded(word)]
        named = {it.partition('=')[0] for it in words}
        session, tree = TREES[self.connection]
        usual = {'MessageId': self.next_id, **(OPENS if command == 'CREATE' else {})}
        if related:
            usual.update(HeaderFlags=4, FileId=NO_FILE_ID)
        elif command not in WITHOUT_SESSION:
            usual.update(SessionId=session, TreeId=tree)
        fields = {it[0] for it in frame_tool.table(frame_tool.HEADER)[0] + frame_tool.table(
            frame_tool.REQUESTS.get(command, frame_tool.REQUESTS['ECHO']))[0]}
        words += [f'{key}={value}' for key, value in usual.items() if key in fields - named]
        self.next_id += command != 'CANCEL' and 'MessageId' not in named
        return command, ' '.join(['ECHO' if command in UNSUPPORTED else command, *words])

    def frame(self, text):
        """The bytes of a frame."""
        if text.startswith('payload '):
            found = frame_tool.as_bytes(text.partition(' ')[2])
            self.next_id += 1
            return len(found).to_bytes(4, 'big') + found
        asked = [self.request(it) for it in text.split(' ; ')]
        found = bytearray(frame_tool.as_bytes(frame_tool.write(' ; '.join(words for _, words in asked))))
        at = 4
        for command, _ in asked:
            found[at + 12:at + 14] = frame_tool.COMMANDS.index(command).to_bytes(2, 'little')
            at += int.from_bytes(found[at + 20:at + 24], 'little')
        return bytes(found)

    def piece(self, text):
        """The bytes of a line."""
        frames, _, held = text.partition('hold ')
        stream = self.kept + b''.join(self.frame(it.strip()) for it in frames.split(' & ') if it.strip())
        cut = len(stream) - int(held or 0)
        self.kept = stream[cut:]
        return stream[:cut]


def events(text=EVENTS):
    """The events of a text, each piece a second later than the one before."""
    found, streams = [], {}
    for line in filter(None, text.replace('\n ', ' ').splitlines()):
        if line[0] in '+-':
            found.append(Event(line[0], int(line[2:])))
        elif line[0] != '#':
            connection, _, pieces = line.partition(': ')
            stream = streams.setdefault(int(connection), Stream(int(connection)))
            moment = MOMENT + SECOND * len(found)
            found.append(Event('>', int(connection), moment, stream.piece(pieces)))
    return found
