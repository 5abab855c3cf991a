"""Writes the rows by which the log of a replay is tested: what comes, and each line that is logged of it.

    python3 -m tests.logging.rows [--check]

Of each row it writes log_rows/NAME.replay, a text for `smbshare replay` with the built-in configuration, and NAME.log,
the whole log of it at level `requests`. The lines are set here by hand beside what comes, by the names of the standard
and the statuses and rows of docs/PROFILE.md: none is the program's. With --check it writes nothing, and its status is 1 where a
file is another.
"""
import os
import sys

from tests.logging.made import (FLUSH, Answer, Client, Row, connect, create, flush, in_pieces, login, login_again,
                                login_by, negotiate, query, related, search, set_size, short)
from tests.smb.frames import chain, close, frame, header, lock, read, rename, replace, set_info, write
from tests.words.refusals import ENDINGS, MORE_CREDITS, NEGOTIATE, OLD_DIALECT, smb1

HERE = os.path.dirname(os.path.abspath(__file__))

# Commands, dispositions, options, flags of locks, and classes of information.
LOGOFF, TREE_DISCONNECT, IOCTL, CANCEL, ECHO, CHANGE_NOTIFY, OPLOCK_BREAK = 2, 4, 11, 12, 13, 15, 18
SUPERSEDE, OPEN, CREATE, OPEN_IF, OVERWRITE, OVERWRITE_IF = range(6)
DIRECTORY, NO_DIRECTORY, DELETE_ON_CLOSE, BY_FILE_ID = 1, 0x40, 0x1000, 0x2000
SHARED, EXCLUSIVE, UNLOCK, AT_ONCE = 1, 2, 4, 16
BASIC, STANDARD, DISPOSITION, ALLOCATION, END_OF_FILE = 4, 5, 13, 19, 20
OF_FILE, OF_SHARE, OF_SECURITY = 1, 2, 3
# Rights: to read a file's bytes, to write them, to change its attributes, and to delete it.
READS, WRITES, CHANGES, DELETES = 1, 2, 0x100, 0x10000
# The FileId of a related request that acts on what the one before it named.
INHERITED = (1 << 64) - 1


def session():
    """What a client does in a day."""
    row = Row('A session: a folder and a file in it, and all that is done with them.')
    client = Client(row)
    client.negotiates('NEGOTIATE 2.0.2 2.1 3.0 3.0.2 3.1.1 2.??? 0x1234 0x0000 ..',
                      (0x0202, 0x0210, 0x0300, 0x0302, 0x0311, 0x02FF, 0x1234, 0, 1))
    client.logs_in(1)
    client.connects()
    client.asks('CREATE reports CREATE access=read share=read,write,delete options=directory',
                create, 'reports', READS, CREATE, 7, DIRECTORY)
    client.asks(r'CREATE reports\june.txt OPEN_IF access=read,write,delete share=read,delete options=file',
                create, r'reports\june.txt', READS | WRITES | CHANGES | DELETES, OPEN_IF, 5, NO_DIRECTORY)
    client.asks(r'WRITE reports\june.txt offset=10 length=6', write, 2, 10, b'secret')
    client.asks(r'READ reports\june.txt offset=0 length=65536', read, 2, 0, 65_536, more=16)
    client.asks(r'READ reports\june.txt offset=4294967296 length=0', read, 2, 1 << 32, 0)
    client.asks(r'FLUSH reports\june.txt', flush, 2)
    client.asks(r'QUERY_INFO reports\june.txt FileStandardInformation', query, OF_FILE, 2, STANDARD, more=24)
    client.asks(r'QUERY_INFO reports\june.txt FileFsVolumeInformation', query, OF_SHARE, 2, 1, more=26)
    client.asks('QUERY_DIRECTORY reports june.*', search, 1, 'june.*', more=28)
    client.refused('NO_MORE_FILES', None, 'QUERY_DIRECTORY reports', search, 1, '')
    client.asks(r'SET_INFO reports\june.txt FileBasicInformation', set_info, 2, BASIC, bytes(40))
    client.asks(r'SET_INFO reports\june.txt allocation=8192', set_size, 2, ALLOCATION, 8_192)
    client.asks(r'SET_INFO reports\june.txt size=512', set_size, 2, END_OF_FILE, 512)
    client.asks(r'SET_INFO reports\june.txt delete=yes', set_info, 2, DISPOSITION, b'\x01')
    client.asks(r'SET_INFO reports\june.txt delete=no', set_info, 2, DISPOSITION, b'\x00')
    client.asks(r'SET_INFO reports\june.txt rename to july.txt', rename, 2, 'july.txt')
    client.asks(r'SET_INFO july.txt rename over reports\august.txt', replace, 2, r'reports\august.txt')
    client.asks(r'LOCK reports\august.txt offset=1 length=3 exclusive,at_once offset=9 length=1 shared,at_once',
                lock, 2, [(1, 3, EXCLUSIVE | AT_ONCE), (9, 1, SHARED | AT_ONCE)])
    client.asks(r'LOCK reports\august.txt offset=1 length=3 unlock', lock, 2, [(1, 3, UNLOCK)])
    client.asks(r'LOCK reports\august.txt offset=0 length=1 exclusive,at_once offset=1 length=1 exclusive,at_once '
                'offset=2 length=1 exclusive,at_once offset=3 length=1 exclusive,at_once and 2 more',
                lock, 2, [(place, 1, EXCLUSIVE | AT_ONCE) for place in range(6)])
    client.asks('ECHO', short, ECHO)
    client.asks(r'CLOSE reports\august.txt', close, 2)
    client.refused('FILE_CLOSED', 'P8', 'READ ? offset=0 length=65536', read, 2, 0, 65_536)
    client.asks('CREATE . OPEN access=attributes share=none', create, '', CHANGES, OPEN, 0, 0)
    client.asks('CLOSE .', close, 3)
    client.asks('CLOSE reports', close, 1)
    client.asks('TREE_DISCONNECT', short, TREE_DISCONNECT)
    client.asks('LOGOFF', short, LOGOFF)
    client.user = '-'
    client.leaves()
    return row.texts()


def sessions():
    """Who comes again, and what is left open."""
    row = Row('A session that the same user ends by another one, and what is left open where a replay ends.')
    first = Client(row).comes_in(1)
    first.asks('CREATE june.txt CREATE access=read share=read', create, 'june.txt', READS, CREATE, 1, 0)
    again = Client(row)
    again.negotiates()
    again.logs_in(2, 1)
    again.connects()
    again.sends(again.makes(lambda number, *_: close(number, 1, 1, 1)),
                Answer('CLOSE ?', 'STATUS_USER_SESSION_DELETED', user='-', why='P4'))
    again.asks('CREATE june.txt OPEN access=all,read,write,append,execute,delete share=read,write,delete',
               create, 'june.txt', 0x101F01FF, OPEN, 7, 0)
    again.asks('CREATE july.txt OVERWRITE_IF access=maximum share=none options=delete_on_close',
               create, 'july.txt', 0x02000000, OVERWRITE_IF, 0, DELETE_ON_CLOSE)
    again.asks('CREATE august.txt SUPERSEDE access=read,write,execute share=read,write,delete',
               create, 'august.txt', 0xE0000000, SUPERSEDE, 7, 0)
    first.leaves()
    again.asks('TREE_DISCONNECT', short, TREE_DISCONNECT)
    again.tree = 0
    again.refused('NETWORK_NAME_DELETED', 'P5', 'CREATE june.txt OVERWRITE access=execute share=write',
                  create, 'june.txt', 0x20, OVERWRITE, 2, 0)
    again.asks(r'TREE_CONNECT \\s\DATA', connect, r'\\s\DATA')
    again.tree = 2
    again.asks('CREATE june.txt OVERWRITE access=append share=write', create, 'june.txt', 4, OVERWRITE, 2, 0)
    return row.texts(connections=1, sessions=1, opens=1)


def chains():
    """Requests that act on what the one before them named."""
    row = Row('Chains of related requests, and requests without a body that can be read.')
    client = Client(row).comes_in(1)

    def chained(*requests):
        """A chain of requests, each with its answer, of which all but the first are related."""
        frames = [client.makes(*words) for _, words in requests]
        client.sends(chain(frames[:1] + [related(made) for made in frames[1:]]), *[answer for answer, _ in requests])

    made = (Answer('CREATE june.txt OPEN_IF access=read,write share=read'), (create, 'june.txt', 3, OPEN_IF, 1, 0))
    closed = Answer('CLOSE june.txt'), (close, INHERITED)
    chained(made, closed)
    chained(made, (Answer('WRITE june.txt offset=0 length=3'), (write, INHERITED, 0, b'abc')),
            (Answer('READ june.txt offset=0 length=9', more=3), (read, INHERITED, 0, 9)), closed,
            (Answer('CLOSE ?', 'STATUS_FILE_CLOSED', why='P8'), (close, INHERITED)))
    absent, missing = 'STATUS_OBJECT_NAME_NOT_FOUND', 'CREATE none.txt OPEN access=read share=none'
    chained((Answer(missing, absent, why='C9'), (create, 'none.txt', READS, OPEN, 0, 0)),
            (Answer('READ ? offset=0 length=9', absent, why='P7'), (read, INHERITED, 0, 9)),
            (Answer('CLOSE ?', absent, why='P7'), (close, INHERITED)))
    client.asks('CREATE july.txt CREATE access=read share=none', create, 'july.txt', READS, CREATE, 0, 0)
    chained(made, (Answer('FLUSH july.txt'), (flush, 3)), (Answer('CLOSE july.txt'), (close, INHERITED)),
            (Answer('CLOSE june.txt'), (close, 4)))
    chained((Answer('ECHO'), (short, ECHO)), (Answer('CLOSE ?', 'STATUS_INVALID_PARAMETER', why='P6'), (close, INHERITED)))
    client.refused('FILE_CLOSED', 'P8', 'READ ? offset=0 length=9', read, INHERITED, 0, 9)
    client.row.requests += 1
    client.sends(chain([client.makes(short, ECHO), frame(header(CANCEL, 0, session_id=1) + b'\4\0\0\0')]))
    client.row.answers(1, 'ann', [Answer('ECHO')])
    client.row.logs(1, 'CANCEL', 'ann')
    client.refused('INVALID_PARAMETER', 'P3', 'FLUSH unreadable', short, FLUSH)
    client.refused('INVALID_PARAMETER', 'P3', 'CREATE unreadable', short, 5)
    client.refused('NOT_SUPPORTED', 'P2', 'IOCTL', short, IOCTL)
    client.refused('NOT_SUPPORTED', 'P2', 'CHANGE_NOTIFY', short, CHANGE_NOTIFY)
    client.refused('NOT_SUPPORTED', 'P2', 'OPLOCK_BREAK', short, OPLOCK_BREAK)
    client.refused('INVALID_PARAMETER', 'P1', 'COMMAND 65535', short, 65_535)
    client.leaves()
    return row.texts()


def refusals():
    """What a client may not do."""
    row = Row('Refusals: of logins, shares, names, accesses, locks and numbers.')
    client = Client(row)
    client.negotiates('NEGOTIATE 2.1 0x0000', (0x0210, 0))
    client.refused('LOGON_FAILURE', 'SS5', 'SESSION_SETUP', login_by, b'b')
    client.refused('USER_SESSION_DELETED', 'P4', r'TREE_CONNECT \\server\data', connect, r'\\server\data')
    client.logs_in(2)
    client.refused('BAD_NETWORK_NAME', 'TC2', r'TREE_CONNECT \\server\other', connect, r'\\server\other')
    client.refused('BAD_NETWORK_NAME', 'TC2', 'TREE_CONNECT data', connect, 'data')
    client.connects()
    for status, why, event, words in (
            ('OBJECT_NAME_NOT_FOUND', 'C9', 'none OPEN access=read share=none', ('none', READS, OPEN, 0, 0)),
            ('OBJECT_PATH_NOT_FOUND', 'C7', r'no\where CREATE access=read share=none', (r'no\where', READS, CREATE, 0, 0)),
            ('ACCESS_DENIED', 'C6', 'a OPEN_IF access=none share=none', ('a', 0, OPEN_IF, 0, 0)),
            ('ACCESS_DENIED', 'C6', 'a CREATE access=read share=none options=delete_on_close',
             ('a', READS, CREATE, 0, DELETE_ON_CLOSE)),
            ('INVALID_PARAMETER', 'C1', 'a disposition=6 access=read share=none', ('a', READS, 6, 0, 0)),
            ('INVALID_PARAMETER', 'C2', 'a OPEN access=read share=none options=directory,file',
             ('a', READS, OPEN, 0, DIRECTORY | NO_DIRECTORY)),
            ('NOT_SUPPORTED', 'C4', 'a OPEN access=read share=none options=by_file_id', ('a', READS, OPEN, 0, BY_FILE_ID)),
            ('FILE_IS_A_DIRECTORY', 'C11', '. OPEN access=read share=none options=file', ('', READS, OPEN, 0, NO_DIRECTORY))):
        client.refused(status, why, f'CREATE {event}', create, *words)
    client.asks('CREATE a CREATE access=read share=read', create, 'a', READS, CREATE, 1, 0)
    client.refused('OBJECT_NAME_COLLISION', 'C10', 'CREATE a CREATE access=read share=read', create, 'a', READS, CREATE, 1, 0)
    client.refused('NOT_A_DIRECTORY', 'C12', 'CREATE a OPEN access=read share=read options=directory',
                   create, 'a', READS, OPEN, 1, DIRECTORY)
    client.refused('ACCESS_DENIED', 'WR3', 'WRITE a offset=0 length=6', write, 1, 0, b'secret')
    client.refused('END_OF_FILE', None, 'READ a offset=0 length=1', read, 1, 0, 1)
    client.refused('INVALID_PARAMETER', 'LK2', 'LOCK a offset=0 length=1 none', lock, 1, [(0, 1, 0)])
    client.refused('RANGE_NOT_LOCKED', 'LK6', 'LOCK a offset=0 length=1 unlock', lock, 1, [(0, 1, UNLOCK)])
    client.asks('LOCK a offset=0 length=1 exclusive', lock, 1, [(0, 1, EXCLUSIVE)])
    client.asks('LOCK a offset=0 length=2 shared', lock, 1, [(0, 2, SHARED)])
    client.refused('LOCK_NOT_GRANTED', 'LK5', 'LOCK a offset=0 length=2 exclusive', lock, 1, [(0, 2, EXCLUSIVE)])
    client.refused('INVALID_INFO_CLASS', 'QI4', 'QUERY_INFO a type=1 class=99', query, OF_FILE, 1, 99)
    client.refused('NOT_SUPPORTED', 'QI1', 'QUERY_INFO a SecurityInformation', query, OF_SECURITY, 1, 0)
    client.refused('INVALID_PARAMETER', 'QI2', 'QUERY_INFO a type=9 class=1', query, 9, 1, 1)
    client.refused('ACCESS_DENIED', 'N3', 'SET_INFO a rename to b', rename, 1, 'b')
    client.refused('INVALID_PARAMETER', 'QD1', 'QUERY_DIRECTORY a *', search, 1, '*')
    other = Client(row).comes_in(3)
    other.refused('SHARING_VIOLATION', 'C15', 'CREATE a OPEN access=write share=read', create, 'a', WRITES, OPEN, 1, 0)
    other.refused('FILE_CLOSED', 'P8', 'CLOSE ?', close, 1)
    other.sends(other.makes(lambda number, *_: close(number, 1, 2, 1)),
                Answer('CLOSE ?', 'STATUS_USER_SESSION_DELETED', user='-', why='P4'))
    other.refused('REQUEST_NOT_ACCEPTED', 'SS4', 'SESSION_SETUP', login_again, 3)
    other.leaves()
    client.leaves()
    return row.texts()


# What is logged of payloads that tests/words/refusals.py has before a stream's last frame. The others are ECHOs and
# CANCELs.
BEFORE = {NEGOTIATE: 'NEGOTIATE 2.1', MORE_CREDITS: 'NEGOTIATE 2.1', OLD_DIALECT: 'NEGOTIATE 2.0.2',
          smb1([b'SMB 2.???']): 'NEGOTIATE by SMB1 2.???', smb1([b'SMB 2.002']): 'NEGOTIATE by SMB1 2.0.2'}


def comes_in_by(client, session_id, cuts):
    """A client comes in, and its stream is cut so."""
    frames = [(client.makes(negotiate, (0x0210,)), Answer('NEGOTIATE 2.1')),
              (client.makes(login, 0), Answer('SESSION_SETUP', user='ann'))]
    client.session = session_id
    frames.append((client.makes(connect, r'\\server\data'), Answer(r'TREE_CONNECT \\server\data', user='ann')))
    stream = b''.join(made for made, _ in frames)
    in_pieces(client, frames, cuts(stream))
    client.user = 'ann'
    client.leaves()


def begins_by_smb1(client, texts, event):
    """An SMB_COM_NEGOTIATE as MessageId 0, which the share answers."""
    client.message_id = 1
    client.sends(frame(smb1(texts)), Answer(event))


def passes(client, payload):
    """A payload that the share performs."""
    client.sends(frame(payload))
    if payload[12] == CANCEL and payload not in BEFORE:
        client.row.requests += 1
        client.row.logs(client.number, 'CANCEL')
    else:
        client.row.answers(client.number, '-', [Answer(BEFORE.get(payload, 'ECHO'))])


def streams():
    """Streams that are cut, and each rule by which the share ends a connection."""
    row = Row('Streams that are cut, those that begin by SMB1, and each rule by which the share ends a connection.')
    comes_in_by(Client(row), 1, lambda stream: [stream[place:place + 1] for place in range(len(stream))])
    comes_in_by(Client(row), 2, lambda stream: [stream])
    comes_in_by(Client(row), 3, lambda stream: [stream[:150], stream[150:]])
    old, new = Client(row), Client(row)
    begins_by_smb1(old, [b'SMB 2.002'], 'NEGOTIATE by SMB1 2.0.2')
    old.logs_in(4)
    begins_by_smb1(new, [b'NT LM 0.12', b'SMB 2.???', b'SMB 2.002'], 'NEGOTIATE by SMB1 2.0.2 2.???')
    new.negotiates()
    new.logs_in(5)
    new.is_ended(b'GET / HTTP/1.0\r\n\r\n', "F1, a frame's first byte is not 0")
    for last, before, why in ENDINGS:
        client = Client(row)
        for payload in before:
            passes(client, payload)
        client.is_ended(last, why)
        row.events.append(f'- {client.number}')
    old.leaves()
    return row.texts()


ABSENT, INVALID = 'OBJECT_NAME_NOT_FOUND', 'OBJECT_NAME_INVALID'
WHY = {ABSENT: 'C9', INVALID: 'C5', 'OBJECT_PATH_NOT_FOUND': 'C7', 'INVALID_PARAMETER': 'C3'}
# Names, how the log has them, and what an OPEN of each is answered.
HOSTILE = (
    ('a\n2026-01-01 00:00:00.000\t1\t-\tann\topened\t-\t-',
     r'a\u{A}2026-01-01 00:00:00.000\u{9}1\u{9}-\u{9}ann\u{9}opened\u{9}-\u{9}-', INVALID),
    ('a OPEN access=all\tSTATUS_SUCCESS\t0\r', r'a OPEN access=all\u{9}STATUS_SUCCESS\u{9}0\u{D}', INVALID),
    ('\x1b[2J\x1b]0;a\x07', r'\u{1B}[2J\u{1B}]0;a\u{7}', INVALID),
    ('\x00\x01\x08\x0b\x0c\x0e\x1f', r'\u{0}\u{1}\u{8}\u{B}\u{C}\u{E}\u{1F}', INVALID),
    (' ~\x7f\x80\x84\x85\x9b\x9f\xa0', r' ~\u{7F}\u{80}\u{84}\u{85}\u{9B}\u{9F}' + '\xa0', ABSENT),
    ('\u061b\u061c\u061d', '\u061b\\u{61C}\u061d', ABSENT),
    ('\u200a\u200b\u200c\u200d\u200e\u200f\u2010',
     '\u200a' + r'\u{200B}\u{200C}\u{200D}\u{200E}\u{200F}' + '\u2010', ABSENT),
    ('\u2027\u2028\u2029\u202a\u202b\u202c\u202d\u202e\u202f',
     '\u2027' + r'\u{2028}\u{2029}\u{202A}\u{202B}\u{202C}\u{202D}\u{202E}' + '\u202f', ABSENT),
    ('\u205f\u2060\u2064\u2066\u2067\u2068\u2069\u206a',
     '\u205f' + r'\u{2060}\u{2064}\u{2066}\u{2067}\u{2068}\u{2069}' + '\u206a', ABSENT),
    ('\ufefe\ufeff\uff00', '\ufefe\\u{FEFF}\uff00', ABSENT),
    ('a\ud800', r'a\u{D800}', ABSENT),
    ('\udc00\ud83db', r'\u{DC00}\u{D83D}b', ABSENT),
    ('\udbff\U0001f600\udfff', '\\u{DBFF}\U0001f600\\u{DFFF}', ABSENT),
    ('\U00010000\U0010ffff\ud7ff\ue000', '\U00010000\U0010ffff\ud7ff\ue000', ABSENT),
    (r'a\u{9}', r'a\u{5C}u{9}', 'OBJECT_PATH_NOT_FOUND'),
    (r'a\u9\U{9}\u', r'a\u9\U{9}\u', 'OBJECT_PATH_NOT_FOUND'),
    (r'a\\u{', r'a\\u{5C}u{', INVALID),
    (r'\u{9}', r'\u{5C}u{9}', 'INVALID_PARAMETER'),
    ('a' * 256, 'a' * 256, INVALID),
    ('a' * 1_024, 'a' * 1_024, INVALID),
    ('a' * 1_025, 'a' * 1_024 + r'\u{..}', INVALID),
    ('\xe9' * 600, '\xe9' * 512 + r'\u{..}', INVALID),
    ('\n' * 300, r'\u{A}' * 205 + r'\u{..}', INVALID),
    ('a' * 1_023 + '\U0001f600b', 'a' * 1_023 + '\U0001f600' + r'\u{..}', INVALID),
    (('a' * 200 + '\\') * 5 + 'a' * 30, ('a' * 200 + '\\') * 5 + 'a' * 19 + r'\u{..}', 'OBJECT_PATH_NOT_FOUND'),
)


def hostile():
    """Names that would make lines, fields or more of a log."""
    row = Row('Names that would be lines, fields, escapes or commands to a terminal.')
    client = Client(row).comes_in(1)
    client.refused('BAD_NETWORK_NAME', 'TC2', r'TREE_CONNECT \\a\u{A}b\u{5C}u{9}\u{202E}', connect, '\\\\a\nb\\u{9}\u202e')
    client.asks(r'TREE_CONNECT \\' + 'a' * 1_022 + r'\u{..}', connect, '\\\\' + 'a' * 1_022 + r'\data')
    for name, text, status in HOSTILE:
        client.refused(status, WHY[status], f'CREATE {text} OPEN access=read share=none', create, name, READS, OPEN, 0, 0)
    longest = '\u2028' * 255
    client.asks('CREATE ' + r'\u{2028}' * 128 + r'\u{..} CREATE access=read share=none',
                create, longest, READS, CREATE, 0, 0)
    client.asks('READ ' + r'\u{2028}' * 128 + r'\u{..} offset=0 length=0', read, 1, 0, 0)
    client.asks(r'CREATE \u{202E}fdp.exe CREATE access=read,delete share=none',
                create, '\u202efdp.exe', READS | DELETES, CREATE, 0, 0)
    client.refused(INVALID, 'N2', r'SET_INFO \u{202E}fdp.exe rename to x\u{A}y', rename, 2, 'x\ny')
    client.asks(r'SET_INFO \u{202E}fdp.exe rename to \u{FEFF}', rename, 2, '\ufeff')
    client.asks(r'CLOSE \u{FEFF}', close, 2)
    client.asks('CREATE a OPEN access=all CREATE access=read share=none',
                create, 'a OPEN access=all', READS, CREATE, 0, 0)
    client.asks('CREATE . OPEN access=read share=none', create, '', READS, OPEN, 0, 0)
    client.refused('NO_SUCH_FILE', 'QD6', r'QUERY_DIRECTORY . *\u{9}\u{1B}\u{2066}', search, 4, '*\t\x1b\u2066')
    client.leaves()
    return row.texts()


ROWS = (session, sessions, chains, refusals, streams, hostile)


def texts():
    """All files, by their names."""
    for row in ROWS:
        for kind, text in zip(('replay', 'log'), row()):
            yield os.path.join(HERE, 'log_rows', f'{row.__name__}.{kind}'), text.encode()


def is_written(name, data):
    """Whether a file has these bytes."""
    with open(name, 'rb') as file:
        return file.read() == data


def main():
    if sys.argv[1:] == ['--check']:
        return 0 if all(is_written(name, data) for name, data in texts()) else 1
    for name, data in texts():
        os.makedirs(os.path.dirname(name), exist_ok=True)
        with open(name, 'wb') as file:
            file.write(data)
    return 0


if __name__ == '__main__':
    sys.exit(main())
