"""What the program says of what it refuses: of configurations, accounts, lines, and streams that the share ends."""
import struct

from tests.smb.frames import create, frame, header, negotiate
from tests.smb.ntlm import PASSWORD_HASH as HASH

SHARE_RULE = 'share: a text of 1 to 80 characters from ! to ~, none of them one of " * / : < > ? \\ |'
KEYS_RULE = 'keys: none but share, label, guid, capacity, created, hello, guest, guest_readonly, signing, limits and user'
CAPACITY_RULE = 'capacity: a multiple of 4096 from 4096 to limits.capacity, by default 67108864'
LIMIT_KEYS_RULE = 'limits: no keys but connections, opens, locks, entries, file_bytes and capacity'
FLAG_RULE = 'true or false, where it is given'
TOKEN_RULE = 'user.token: at most 4096 bytes in hex, as a text'
USER_KEYS_RULE = 'user: no keys but name, token and readonly'

# A text of the example, another in its place, and what is said of it.
BROKEN = (
    ('share = "data"', 'share = ""', f'{SHARE_RULE}; line 2: ""'),
    ('share = "data"', 'share = "a:b"', f'{SHARE_RULE}; line 2: "a:b"'),
    ('share = "data"', "'share' = 'a:b'", f"{SHARE_RULE}; line 2: 'a:b'"),
    ('share = "data"', 'share = 1', f'{SHARE_RULE}; line 2: 1'),
    ('share = "data"', f'share = "{"s" * 81}"', f'{SHARE_RULE}; line 2: "{"s" * 60}.."'),
    ('label = "DATA"', 'label = "\\t"',
     'label: a text of at most 32 characters from blank to ~; line 3: "\\t"'),
    ('label = "DATA"', '',
     'label: a text of at most 32 characters from blank to ~; missing, usually: label = "DATA"'),
    ('guid = "00', 'guid = "0',
     'guid: a text of 32 hex digits; line 4: "00102030405060708090a0b0c0d0e0f"'),
    ('guid = "000102030405060708090a0b0c0d0e0f"', '',
     'guid: a text of 32 hex digits; missing, usually: guid = "000102030405060708090a0b0c0d0e0f"'),
    ('guid = "0', 'grid = "0', f'{KEYS_RULE}; line 4: grid'),
    ('capacity = 67108864', 'capacity = 4097',
     f'{CAPACITY_RULE}; line 5: 4097'),
    ('capacity = 67108864', 'capacity = -1',
     f'{CAPACITY_RULE}; line 5: -1'),
    ('capacity = 67108864', 'capacity = 67112960', f'{CAPACITY_RULE}; line 5: 67112960'),
    ('capacity = 67108864', '',
     f'{CAPACITY_RULE}; missing, usually: capacity = 67108864'),
    ('created = 116444736000000000', 'created = -1',
     'created: a number of 0 or more, in units of 100 ns since 1601; line 6: -1'),
    ('created = 116444736000000000', '',
     'created: a number of 0 or more, in units of 100 ns since 1601; missing, usually: created = 116444736000000000'),
    ('hello = ""', 'hello = "0"', 'hello: at most 4096 bytes in hex, as a text; line 7: "0"'),
    ('hello = ""', '', 'hello: at most 4096 bytes in hex, as a text; missing, usually: hello = ""'),
    ('hello = ""', f'hello = "{"00" * 4097}"',
     f'hello: at most 4096 bytes in hex, as a text; line 7: "{"0" * 60}.."'),
    ('guest = false', 'guest = 0', 'guest: true or false; line 8: 0'),
    ('guest = false', '', 'guest: true or false; missing, usually: guest = false'),
    ('guest = false', 'guest = false\nguest_readonly = 1', f'guest_readonly: {FLAG_RULE}; line 9: 1'),
    ('guest = false', 'guest_readonly = "true"\nguest = false', f'guest_readonly: {FLAG_RULE}; line 8: "true"'),
    ('guest = false', 'guest = 0\nguest_readonly = 0', 'guest: true or false; line 8: 0'),
    ('guest = false', 'guest = false\nsigning = true', 'signing: off, offered or required, where it is given; line 9: true'),
    ('guest = false', 'signing = "on"\nguest = false', 'signing: off, offered or required, where it is given; line 8: "on"'),
    ('guest = false', 'guest = false\nsigning = "offered"', 'signing: off, without accounts; line 9: "offered"'),
    ('guest = false', 'guest = false\nguest_read_only = true', f'{KEYS_RULE}; line 9: guest_read_only'),
    ('guest = false', 'guest = false\nreadonly = true', f'{KEYS_RULE}; line 9: readonly'),
    ('guest = false', 'guest = false\nother = 1', f'{KEYS_RULE}; line 9: other'),
    ('guest = false', 'guest', 'file: a text in TOML, no key given twice; line 8'),
    ('guest = false', 'guest = false\nguest = false', 'file: a text in TOML, no key given twice; line 9'),
    ('label = "DATA"', 'label = """\nlabel = 1"""\nlabel = 3', 'file: a text in TOML, no key given twice; line 5'),
    ('label = "DATA"', 'other = """\ncapacity = 1"""', f'{KEYS_RULE}; line 3: other'),
    ('capacity = 67108864', 'label2 = """\nhello = 1"""', f'{KEYS_RULE}; line 5: label2'),
    ('[[user]]', '[user]', 'user: a table [[user]] for each user'),
    ('name = "ann"', 'name = ""', 'user.name: a text of 1 to 256 bytes; user 1; line 11: ""'),
    ('name = "ann"', '', 'user.name: a text of 1 to 256 bytes; user 1; missing'),
    ('token = "61"', 'token = "6"', f'{TOKEN_RULE}; user 1; line 12'),
    ('token = "61"', '', f'{TOKEN_RULE}; user 1; missing'),
    ('token = "61"', 'token = "61"\nother = 1', f'{USER_KEYS_RULE}; user 1; line 13: other'),
    ('token = "61"', 'token = "61"\nguest_readonly = true', f'{USER_KEYS_RULE}; user 1; line 13: guest_readonly'),
    ('token = "61"', 'token = "61"\nreadonly = "62"', f'user.readonly: {FLAG_RULE}; user 1; line 13'),
    ('token = "61"', 'token = "61"\n[[user]]\nname = "bob"\ntoken = "61"',
     'user.token: no two users have the same token; user 2; line 15'),
    ('token = "61"', 'token = "61"\n[[user]]\nname = "bob"\ntoken = "61"\nreadonly = 1',
     f'user.readonly: {FLAG_RULE}; user 2; line 16'),
    ('[[user]]', '[limits]\nopens = 0 # none\n[[user]]', 'limits.opens: 1 to 1048576; line 11: 0'),
    ('[[user]]', '[ "limits" ]\nlocks = "5"\n[[user]]', 'limits.locks: 1 to 4096; line 11: "5"'),
    ('token = "61"', 'token = "61"\n[limits]\nopens = 5\nconnections = -1', 'limits.connections: 1 to 4096; line 15: -1'),
    ('[[user]]', '[limits]\nentries = 4294967296\n[[user]]', 'limits.entries: 1 to 4294967295; line 11: 4294967296'),
    ('[[user]]', '[limits]\nfile_bytes = 4095\n[[user]]', 'limits.file_bytes: 4096 to 8796093022208; line 11: 4095'),
    ('[[user]]', '[limits]\ncapacity = 1e9\n[[user]]', 'limits.capacity: 4096 to 70368744177664; line 11: 1e9'),
    ('[[user]]', '[limits]\ncapacity = 67108863\n[[user]]', f'{CAPACITY_RULE}; line 5: 67108864'),
    ('[[user]]', '[limits]\nopen = 5\n[[user]]', f'{LIMIT_KEYS_RULE}; line 11: open'),
    ('guest = false', 'guest = false\nlimits = 5', 'limits: a table [limits], where it is given; line 9: 5'),
    ('guest = false', 'guest = false\nlimits.opens = 0', 'limits.opens: 1 to 1048576'),
    ('[[user]]', '[[limits]]\nopens = 5\n[[user]]', 'limits: a table [limits], where it is given'),
)
# A file of two accounts.
ACCOUNTS = f"""# who may log in
[[account]]
name = "ann"
nt_hash = "{HASH}"

[[account]]
name = "bob"    # with the same password
nt_hash = "{HASH.upper()}"
"""
ACCOUNT_KEYS_RULE = 'account: no keys but name, nt_hash and readonly'
HASH_RULE = 'account.nt_hash: a text of 32 hex digits'
LENGTH_RULE, CHARACTER_RULE = 'account.name: 1 to 256 bytes', 'account.name: no character but those from blank to ~'
GUEST_RULE = 'account.name: not guest, in any case, which is the name of guests'
TAKEN_RULE = 'account.name: no two accounts have the same name, in any case'

# A text of these accounts, another in its place, and what is said of it.
BROKEN_ACCOUNTS = (
    ('# who may', 'other = 1 # who may', 'keys: none but account; line 1'),
    ('# who may', f'{HASH} = "ann" # who may', 'keys: none but account; line 1'),
    ('# who may', 'account = 1\n#', 'file: a text in TOML, no key given twice; line 3'),
    (ACCOUNTS, 'account = 1', 'account: a table [[account]] for each account; line 1'),
    (ACCOUNTS, f'account = "{HASH}"', 'account: a table [[account]] for each account; line 1'),
    (ACCOUNTS, f'account = [{{name = "a", nt_hash = "{HASH}"}}, 1]',
     'account: a table [[account]] for each account; line 1'),
    ('name = "ann"', 'writes = true\nname = "ann"', f'{ACCOUNT_KEYS_RULE}; account 1; line 3'),
    ('name = "bob"', f'{HASH} = 1 #', f'{ACCOUNT_KEYS_RULE}; account 2; line 7'),
    ('name = "ann"', 'name = "ann"\nreadonly = 1', f'account.readonly: {FLAG_RULE}; account 1; line 4'),
    ('name = "bob"', f'name = ""\nreadonly = "{HASH}" #', f'account.readonly: {FLAG_RULE}; account 2; line 8'),
    ('name = "ann"', '', 'account.name: a text; account 1; missing'),
    ('name = "ann"', 'name = 1', 'account.name: a text; account 1; line 3'),
    ('name = "ann"', f'name = {{nt_hash = "{HASH}"}}', 'account.name: a text; account 1; line 3'),
    (f'"{HASH}"', f'"{HASH}0"', f'{HASH_RULE}; account 1; line 4'),
    (f'"{HASH}"', f'"{HASH[:-1]}"', f'{HASH_RULE}; account 1; line 4'),
    (f'"{HASH}"', f'"{HASH[:-1]}x"', f'{HASH_RULE}; account 1; line 4'),
    (f'"{HASH.upper()}"', '', 'file: a text in TOML, no key given twice; line 8'),
    (f'nt_hash = "{HASH.upper()}"', '', f'{HASH_RULE}; account 2; missing'),
    (f'"{HASH.upper()}"', '16', f'{HASH_RULE}; account 2; line 8'),
    ('name = "ann"', 'name = ""', f'{LENGTH_RULE}; account 1; line 3: ""'),
    ('name = "bob"', f'name = "{"b" * 257}"', f'{LENGTH_RULE}; account 2; line 7: "{"b" * 60}.."'),
    ('name = "bob"', 'name = "b\u00f6b"', f'{CHARACTER_RULE}; account 2; line 7: "b\u00f6b"'),
    ('name = "bob"', 'name = "b\\tb"', f'{CHARACTER_RULE}; account 2; line 7: "b\\tb"'),
    ('name = "bob"', "name = 'Guest'", f"{GUEST_RULE}; account 2; line 7: 'Guest'"),
    ('name = "bob"', 'name = "ANN"', f'{TAKEN_RULE}; account 2; line 7: "ANN"'),
)
BY_NTLM = ("login by NTLM: of the configuration `guest`, `guest_readonly` and `signing` count; its users' tokens are not used, "
           'accounts are in the file of --accounts')
NO_USER = ('no client can log in: the configuration has no user, and its `guest` is false; add a [[user]], or set '
           '`guest`')
NO_ACCOUNT = ("no client can log in: there is no account (--accounts FILE), and the configuration's `guest` is false; "
              '`smbshare account add` adds one')
EVERYONE = "the configuration holds users' tokens, and everyone may write to its file (chmod o-w)"

# Of a configuration that is served whether it has a user, what its `guest` is, and its file's mode; the accounts, or
# None where clients do not log in by NTLM; and the lines that are said.
NOTICES = (
    (True, 'false', 0o600, None, ()),
    (False, 'true', 0o600, None, ()),
    (False, 'false', 0o600, None, (NO_USER,)),
    (True, 'false', 0o602, None, (EVERYONE,)),
    (True, 'false', 0o664, None, ()),
    (False, 'true', 0o666, None, ()),
    (True, 'false', 0o600, ACCOUNTS, (BY_NTLM,)),
    (True, 'false', 0o600, '', (BY_NTLM, NO_ACCOUNT)),
    (False, 'true', 0o600, '', ()),
    (True, 'false', 0o666, '', (BY_NTLM, NO_ACCOUNT, EVERYONE)),
    (True, 'true', 0o602, ACCOUNTS, (BY_NTLM, EVERYONE)),
)
# A line that cannot be read, and how what is said of it begins.
UNREADABLE = (
    (b'+ x', b'+ N: '), (b'+1', b'+ N: '), (b'- ', b'- N: '), (b'> 1 0', b'> N MOMENT HEX: '),
    (b'> 1 0 8', b'> N MOMENT HEX: '), (b'>', b'> N MOMENT HEX: '), (b'?', b'a line that is empty'),
)
# A text whose last line is a bad event, and what is said of it.
BAD_EVENTS = (
    (b'+ 2\n', 'the next to open is 1, and 0 were opened before'),
    (b'+ 1\n- 1\n+ 1\n', 'the next to open is 2, and 1 were opened before'),
    (b'+ 1\n+ 2\n> 3 0 00\n', 'the next to open is 3, and 2 were opened before'),
    (b'+ 1\n' + 100 * b'- 1\n' + b'+ 2\n- 3\n', 'the next to open is 3, and 2 were opened before'),
)


def request(message_id, command=13, body=bytes([4, 0, 0, 0]), **fields):
    """A request, an ECHO unless it is said otherwise, that asks for one credit."""
    return header(command, message_id, credits=1, **fields) + body


def chain(*message_ids):
    """A payload of ECHOs."""
    parts = [request(number, next_command=72) + bytes(4) for number in message_ids[:-1]]
    return b''.join(parts) + request(message_ids[-1])


def smb1(texts):
    listed = b''.join(b'\x02' + text + b'\0' for text in texts)
    return b'\xffSMB\x72' + bytes(28) + struct.pack('<H', len(listed)) + listed


NEGOTIATE, MORE_CREDITS, OLD_DIALECT = (
    negotiate(0, (dialect,), credits)[4:] for dialect, credits in ((0x0210, 1), (0x0210, 31), (0x0202, 1)))
# The last frame of a stream that the share ends, those before it, and why it does.
ENDINGS = (
    (b'\x85', (), "F1, a frame's first byte is not 0"),
    (bytes([0, 16, 0, 1]), (), 'F2, a frame is longer than 1,048,576 bytes'),
    (frame(bytes(63)), (), 'H1, fewer than 64 bytes are left for a header'),
    (frame(bytes(64)), (), 'H2, ProtocolId is not 0xFE and the letters SMB'),
    (frame(request(0).replace(b'\x40', b'\x41', 1)), (), "H3, the header's StructureSize is not 64"),
    (frame(request(1, next_command=4)), (NEGOTIATE,), 'H4, NextCommand is neither 0 nor the place of a next header'),
    (frame(chain(*range(1, 18))), (NEGOTIATE,), 'H5, another request follows the 16th'),
    (frame(request(1, flags=1)), (NEGOTIATE,), 'H6, SERVER_TO_REDIR is set, as in a response'),
    (frame(request(1, flags=4)), (NEGOTIATE,), 'H7, the first request is related to the one before it'),
    (frame(request(0)), (), 'E1, before there is a dialect, a chain is one NEGOTIATE alone'),
    (frame(NEGOTIATE), (NEGOTIATE,), 'E2, a NEGOTIATE, and there is a dialect already'),
    (frame(request(1)), (NEGOTIATE, request(1)), 'E3, MessageId 1 is not in the window'),
    (frame(request(1, charge=2)), (NEGOTIATE,), 'E3, MessageId 2 is not in the window'),
    (frame(request(1, charge=0xFFFF)), (NEGOTIATE,), 'E3, MessageId 2 is not in the window'),
    (frame(request((1 << 64) - 1, charge=3)), (NEGOTIATE,),
     'E3, MessageId 18446744073709551615 is not in the window'),
    (frame(request(2)), (MORE_CREDITS, request(1, charge=3), request(4), request(1, command=12, charge=9)),
     'E3, MessageId 2 is not in the window'),
    (frame(request(2)), (OLD_DIALECT, request(1, charge=3), request(2, charge=0xFFFF)),
     'E3, MessageId 2 is not in the window'),
    (frame(request(1, next_command=72, charge=3) + bytes(4) + request(3)), (MORE_CREDITS,),
     'E4, two requests of a chain use one MessageId'),
    (frame(chain(1, 1)), (NEGOTIATE,), 'E4, two requests of a chain use one MessageId'),
    (frame(smb1([b'SMB 2.002'])), (NEGOTIATE,), 'E6, an SMB_COM_NEGOTIATE is not the first payload'),
    (frame(smb1([b'NT LM 0.12'])), (), 'E7, an SMB_COM_NEGOTIATE lists neither SMB 2.002 nor SMB 2.???'),
    (frame(smb1([b'SMB 2.002'])[:-1]), (), 'E5, an SMB_COM_NEGOTIATE is no list of dialects'),
    (frame(request(1)), (smb1([b'SMB 2.???']),),
     'E1, before there is a dialect, a chain is one NEGOTIATE alone'),
    (frame(request(3)), (smb1([b'SMB 2.002']), request(1), request(1, command=12)),
     'E3, MessageId 3 is not in the window'),
)


def create_of(name):
    """A CREATE of a name under the first session and tree connect of a connection, which asks for a file."""
    return create(3, name, 1, 1, 0, 1, 1)[4:]


# The last request of a client who came in, the status that it gets, and why it is refused.
REFUSED_REQUESTS = (
    (create_of('\\a'), 'INVALID_PARAMETER', 'C3, the name begins with a separator'),
    (create_of('a'), 'OBJECT_NAME_NOT_FOUND', 'C9, the entry is absent, and has to exist'),
    (create_of('a:b\n'), 'OBJECT_NAME_INVALID', 'C5, the name has a component that is not allowed, or more than 32'),
    (request(3, command=0x13), 'INVALID_PARAMETER', 'P1, the command is past 0x12'),
    (request(3, command=11), 'NOT_SUPPORTED', 'P2, the command is IOCTL, CHANGE_NOTIFY or OPLOCK_BREAK, whatever its body'),
    (request(3, command=2), 'USER_SESSION_DELETED', 'P4, SessionId is that of no finished session of this connection'),
)
