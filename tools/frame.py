#!/usr/bin/env python3
"""frame.py: writes frames of SMB2 from named fields, and reads them back, by the names of [MS-SMB2] 2.2.

    frame.py write 'CREATE MessageId=3 SessionId=1 TreeId=1 DesiredAccess=READ_DATA CreateDisposition=OPEN Name=x\\y'
    frame.py write --hex 'ECHO MessageId=1'
    frame.py write --key 000102030405060708090a0b0c0d0e0f 'LOGOFF MessageId=4 SessionId=1'
    frame.py read '00000044 fe534d42 4000 z6 0d00 0100 z8 0100000000000000 z32 0400 0000'
    frame.py check ROWS..

`write` prints the words of a row of smb_rows, and with `--hex` plain hex, as `smbshare replay` takes it. A response
begins with `response` before its command. ` ; ` joins the requests, or the responses, of a chain. A field that is not
named has the value that most messages give it. Numbers are decimal or begin with 0x; names of flags are joined by `|`;
a buffer of bytes is hex, or its text in quotes as tools/lib/demo.py shows it; any other text is ASCII without a blank. `read` prints what `write` takes, without the fields of usual
values. With `--key` `write` signs each message by a session's key, and `read` tells which is not signed by it.
`check` reads each whole frame of rows and writes it again: the bytes must be the same. What is wrong is named
in one line on standard error, and the status is 1. This tool is for people who write rows; nothing that is proved rests
on it.
"""
import ast
import functools
import hashlib
import hmac
import pathlib
import re
import sys

COMMANDS = """NEGOTIATE SESSION_SETUP LOGOFF TREE_CONNECT TREE_DISCONNECT CREATE CLOSE FLUSH READ WRITE LOCK IOCTL
CANCEL ECHO QUERY_DIRECTORY CHANGE_NOTIFY QUERY_INFO SET_INFO OPLOCK_BREAK""".split()

# A field: NAME:WIDTH, =DEFAULT, @BUFFER for the offset of a buffer and #BUFFER for its length or count. Behind `|` the
# buffers: `bytes`, `text` (UTF-16), `numbers` (of 2 bytes) or `locks` (elements of 24 bytes); +8 where it begins at a
# multiple of 8. (A field of the header whose name a body has too begins with `Header`.)
HEADER = """ProtocolId:4=0x424d53fe HeaderStructureSize:2=64 CreditCharge:2 Status:4 Command:2 Credits:2=1 HeaderFlags:4
NextCommand:4 MessageId:8 HeaderReserved:4 TreeId:4 SessionId:8 Signature:16"""
REQUESTS = {
    "NEGOTIATE": """
        StructureSize:2=36 DialectCount:2#Dialects SecurityMode:2=1 Reserved:2 Capabilities:4 ClientGuid:16
        ClientStartTime:8 | Dialects:numbers""",
    "SESSION_SETUP": """
        StructureSize:2=25 Flags:1 SecurityMode:1=1 Capabilities:4 Channel:4 SecurityBufferOffset:2@Buffer
        SecurityBufferLength:2#Buffer PreviousSessionId:8 | Buffer:bytes""",
    "LOGOFF": "StructureSize:2=4 Reserved:2",
    "TREE_CONNECT": "StructureSize:2=9 Reserved:2 PathOffset:2@Path PathLength:2#Path | Path:text",
    "TREE_DISCONNECT": "StructureSize:2=4 Reserved:2",
    "CREATE": """
        StructureSize:2=57 SecurityFlags:1 RequestedOplockLevel:1 ImpersonationLevel:4=2 SmbCreateFlags:8 Reserved:8
        DesiredAccess:4 FileAttributes:4 ShareAccess:4=7 CreateDisposition:4 CreateOptions:4 NameOffset:2@Name
        NameLength:2#Name CreateContextsOffset:4@Contexts CreateContextsLength:4#Contexts | Name:text
        Contexts:bytes+8""",
    "CLOSE": "StructureSize:2=24 Flags:2 Reserved:4 FileId:16",
    "FLUSH": "StructureSize:2=24 Reserved1:2 Reserved2:4 FileId:16",
    "READ": """
        StructureSize:2=49 Padding:1 Flags:1 Length:4 Offset:8 FileId:16 MinimumCount:4 Channel:4 RemainingBytes:4
        ReadChannelInfoOffset:2 ReadChannelInfoLength:2 | Buffer:bytes""",
    "WRITE": """
        StructureSize:2=49 DataOffset:2@Buffer Length:4#Buffer Offset:8 FileId:16 Channel:4 RemainingBytes:4
        WriteChannelInfoOffset:2 WriteChannelInfoLength:2 Flags:4 | Buffer:bytes""",
    "LOCK": "StructureSize:2=48 LockCount:2#Locks LockSequence:4 FileId:16 | Locks:locks",
    "CANCEL": "StructureSize:2=4 Reserved:2",
    "ECHO": "StructureSize:2=4 Reserved:2",
    "QUERY_DIRECTORY": """
        StructureSize:2=33 FileInformationClass:1 Flags:1 FileIndex:4 FileId:16 FileNameOffset:2@FileName
        FileNameLength:2#FileName OutputBufferLength:4=65536 | FileName:text""",
    "QUERY_INFO": """
        StructureSize:2=41 InfoType:1=1 FileInfoClass:1 OutputBufferLength:4=65536 InputBufferOffset:2 Reserved:2
        InputBufferLength:4#Buffer AdditionalInformation:4 Flags:4 FileId:16 | Buffer:bytes""",
    "SET_INFO": """
        StructureSize:2=33 InfoType:1=1 FileInfoClass:1 BufferLength:4#Buffer BufferOffset:2@Buffer Reserved:2
        AdditionalInformation:4 FileId:16 | Buffer:bytes""",
}
RESPONSES = {
    "NEGOTIATE": """
        StructureSize:2=65 SecurityMode:2=1 DialectRevision:2 Reserved:2
        ServerGuid:16=000102030405060708090a0b0c0d0e0f Capabilities:4 MaxTransactSize:4=65536 MaxReadSize:4=65536
        MaxWriteSize:4=65536 SystemTime:8=116444736000000000 ServerStartTime:8 SecurityBufferOffset:2@Buffer
        SecurityBufferLength:2#Buffer Reserved2:4 | Buffer:bytes""",
    "SESSION_SETUP": """
        StructureSize:2=9 SessionFlags:2 SecurityBufferOffset:2@Buffer SecurityBufferLength:2#Buffer | Buffer:bytes""",
    "LOGOFF": "StructureSize:2=4 Reserved:2",
    "TREE_CONNECT": """
        StructureSize:2=16 ShareType:1=1 Reserved:1 ShareFlags:4 Capabilities:4 MaximalAccess:4=0x001f01ff""",
    "TREE_DISCONNECT": "StructureSize:2=4 Reserved:2",
    "CREATE": """
        StructureSize:2=89 OplockLevel:1 Flags:1 CreateAction:4=1 CreationTime:8=116444736000000000
        LastAccessTime:8=116444736000000000 LastWriteTime:8=116444736000000000 ChangeTime:8=116444736000000000
        AllocationSize:8 EndOfFile:8 FileAttributes:4=ARCHIVE Reserved2:4 FileId:16 CreateContextsOffset:4@Contexts
        CreateContextsLength:4#Contexts | Contexts:bytes+8""",
    "CLOSE": """
        StructureSize:2=60 Flags:2 Reserved:4 CreationTime:8 LastAccessTime:8 LastWriteTime:8 ChangeTime:8
        AllocationSize:8 EndOfFile:8 FileAttributes:4""",
    "FLUSH": "StructureSize:2=4 Reserved:2",
    "READ": """
        StructureSize:2=17 DataOffset:1@Buffer Reserved:1 DataLength:4#Buffer DataRemaining:4 Reserved2:4 |
        Buffer:bytes""",
    "WRITE": "StructureSize:2=17 Reserved:2 Count:4 Remaining:4 WriteChannelInfoOffset:2 WriteChannelInfoLength:2",
    "LOCK": "StructureSize:2=4 Reserved:2",
    "ECHO": "StructureSize:2=4 Reserved:2",
    "QUERY_DIRECTORY": "StructureSize:2=9 OutputBufferOffset:2@Buffer OutputBufferLength:4#Buffer | Buffer:bytes",
    "QUERY_INFO": "StructureSize:2=9 OutputBufferOffset:2@Buffer OutputBufferLength:4#Buffer | Buffer:bytes",
    "SET_INFO": "StructureSize:2=2",
}
ERROR = "StructureSize:2=9 ErrorContextCount:1 Reserved:1 ByteCount:4 ErrorData:1"
# The offsets of buffers that stand also where the buffer is empty.
STANDING = {
    "SESSION_SETUP SecurityBufferOffset", "CREATE NameOffset", "NEGOTIATE SecurityBufferOffset", "READ DataOffset",
    "TREE_CONNECT PathOffset", "WRITE DataOffset",
}

STATUSES = {
    "SUCCESS": 0, "BUFFER_OVERFLOW": 0x80000005, "NO_MORE_FILES": 0x80000006, "INVALID_INFO_CLASS": 0xC0000003,
    "INFO_LENGTH_MISMATCH": 0xC0000004, "INVALID_PARAMETER": 0xC000000D, "NO_SUCH_FILE": 0xC000000F,
    "INVALID_DEVICE_REQUEST": 0xC0000010, "END_OF_FILE": 0xC0000011, "MORE_PROCESSING_REQUIRED": 0xC0000016,
    "ACCESS_DENIED": 0xC0000022, "BUFFER_TOO_SMALL": 0xC0000023, "OBJECT_NAME_INVALID": 0xC0000033,
    "OBJECT_NAME_NOT_FOUND": 0xC0000034, "OBJECT_NAME_COLLISION": 0xC0000035, "OBJECT_PATH_NOT_FOUND": 0xC000003A,
    "SHARING_VIOLATION": 0xC0000043, "FILE_LOCK_CONFLICT": 0xC0000054, "LOCK_NOT_GRANTED": 0xC0000055,
    "DELETE_PENDING": 0xC0000056, "LOGON_FAILURE": 0xC000006D, "RANGE_NOT_LOCKED": 0xC000007E, "DISK_FULL": 0xC000007F,
    "INSUFFICIENT_RESOURCES": 0xC000009A, "FILE_IS_A_DIRECTORY": 0xC00000BA, "NOT_SUPPORTED": 0xC00000BB,
    "NETWORK_NAME_DELETED": 0xC00000C9, "BAD_NETWORK_NAME": 0xC00000CC, "REQUEST_NOT_ACCEPTED": 0xC00000D0,
    "DIRECTORY_NOT_EMPTY": 0xC0000101, "NOT_A_DIRECTORY": 0xC0000103, "TOO_MANY_OPENED_FILES": 0xC000011F,
    "CANNOT_DELETE": 0xC0000121, "FILE_CLOSED": 0xC0000128, "INVALID_LOCK_RANGE": 0xC00001A1,
    "USER_SESSION_DELETED": 0xC0000203,
}
ACCESS = {
    "READ_DATA": 1, "WRITE_DATA": 2, "APPEND_DATA": 4, "READ_EA": 8, "WRITE_EA": 0x10, "EXECUTE": 0x20,
    "DELETE_CHILD": 0x40, "READ_ATTRIBUTES": 0x80, "WRITE_ATTRIBUTES": 0x100, "DELETE": 0x10000,
    "READ_CONTROL": 0x20000, "WRITE_DAC": 0x40000, "WRITE_OWNER": 0x80000, "SYNCHRONIZE": 0x100000,
    "MAXIMUM_ALLOWED": 0x02000000, "GENERIC_ALL": 0x10000000, "GENERIC_EXECUTE": 0x20000000,
    "GENERIC_WRITE": 0x40000000, "GENERIC_READ": 0x80000000,
}
NAMES = {
    "Status": STATUSES,
    "DesiredAccess": ACCESS,
    "ShareAccess": {"SHARE_READ": 1, "SHARE_WRITE": 2, "SHARE_DELETE": 4},
    "CreateOptions": {
        "DIRECTORY_FILE": 1, "WRITE_THROUGH": 2, "NON_DIRECTORY_FILE": 0x40, "DELETE_ON_CLOSE": 0x1000,
        "OPEN_BY_FILE_ID": 0x2000,
    },
    "FileAttributes": {"READONLY": 1, "HIDDEN": 2, "SYSTEM": 4, "DIRECTORY": 0x10, "ARCHIVE": 0x20, "NORMAL": 0x80},
    "CreateDisposition": {"SUPERSEDE": 0, "OPEN": 1, "CREATE": 2, "OPEN_IF": 3, "OVERWRITE": 4, "OVERWRITE_IF": 5},
    "DialectRevision": {"SMB_2_0_2": 0x202, "SMB_2_1": 0x210, "SMB_2_WILDCARD": 0x2FF},
    "CreateAction": {"SUPERSEDED": 0, "OPENED": 1, "CREATED": 2, "OVERWRITTEN": 3},
}
CHOICES = ("Status", "CreateDisposition", "CreateAction", "DialectRevision")
LOCK_FLAGS = {"SHARED": 1, "EXCLUSIVE": 2, "UNLOCK": 4, "FAIL_IMMEDIATELY": 16}
# A word of `write`: a buffer in quotes may have blanks in it.
WORD = re.compile(r"""Buffer=(?:'(?:[^'\\]|\\.)*'|"(?:[^"\\]|\\.)*")(?!\S)|\S+""")
# How many bytes a word that repeats some says at most.
LONGEST_WORD = 1 << 24


class Unread(Exception):
    """The bytes are no message that this tool knows, or the words name none."""


@functools.lru_cache(maxsize=None)
def table(text):
    """The fields and the buffers of a table: (name, width, default, offset of, length of), (name, kind, step)."""
    fixed, _, behind = text.partition("|")
    fields = [re.fullmatch(r"(\w+):(\d+)(?:=(\w+))?(?:@(\w+))?(?:#(\w+))?", it).groups() for it in fixed.split()]
    buffers = [re.fullmatch(r"(\w+):(\w+?)(?:\+(\d))?", it).groups() for it in behind.split()]
    return ([(name, int(width), default, at, length) for name, width, default, at, length in fields],
            [(name, kind, int(step or 1)) for name, kind, step in buffers])


def whole(name, width, text):
    """The number of a text, which so many bytes can hold."""
    try:
        value = int(text, 0)
    except ValueError:
        named = " and no name of one" if name in NAMES else ""
        raise Unread(f"{name}: {text!r} is no number{named}") from None
    return held(name, width, value)


def held(name, width, value):
    """The number, which so many bytes can hold."""
    if not 0 <= value < 1 << 8 * width:
        raise Unread(f"{name}: {value} is no number of {width} byte{'s' * (width > 1)}")
    return value


def hex_bytes(name, text):
    """The bytes of a text of hex digits."""
    try:
        return bytes.fromhex(text)
    except ValueError:
        raise Unread(f"{name}: {text!r} is not hex") from None


def number(name, width, text):
    """The bytes of a field's text; a field of 16 bytes is hex, but a FileId, which is a number twice."""
    if width == 16:
        if name == "FileId" and not re.fullmatch(r"[0-9a-f]{32}", text):
            return 2 * whole(name, 8, text).to_bytes(8, "little")
        raw = hex_bytes(name, text) if text != "0" else bytes(16)
        if len(raw) != 16:
            raise Unread(f"{name}: {text!r} is not 16 bytes in hex")
        return raw
    return flags(name, width, text, NAMES.get(name, {})).to_bytes(width, "little")


def flags(name, width, text, known):
    """The number of a text of numbers and names, joined by `|`."""
    value = 0
    for part in text.split("|"):
        value |= known[part] if part in known else whole(name, width, part)
    return value


def told(name, width, raw):
    """The text of a field's bytes."""
    if width == 16:
        both = raw[:8] == raw[8:]
        return str(int.from_bytes(raw[:8], "little")) if name == "FileId" and both else raw.hex()
    value, known = int.from_bytes(raw, "little"), NAMES.get(name, {})
    if name in CHOICES:
        return next((it for it, code in known.items() if code == value), hex(value))
    parts = [it for it, bit in known.items() if value & bit == bit and bit]
    rest = value - sum(known[it] for it in parts)
    return "|".join(parts + [hex(rest)] * bool(rest)) if parts else str(value)


def usual(field):
    name, width, default, _, _ = field
    return number(name, width, default or "0")


def quoted_bytes(name, text):
    """The bytes of a text in quotes."""
    try:
        return ast.literal_eval(text).encode("ascii")
    except (ValueError, SyntaxError):
        raise Unread(f"{name}: {text} is no text of ASCII in quotes") from None


def buffer_bytes(name, kind, text):
    if kind == "bytes":
        return quoted_bytes(name, text) if text[0] in "'\"" else hex_bytes(name, text)
    if kind == "text":
        try:
            return text.encode("utf-16-le")
        except UnicodeEncodeError:
            raise Unread(f"{name}: {text!r} is no text") from None
    if kind == "numbers":
        return b"".join(whole(name, 2, it).to_bytes(2, "little") for it in text.split(","))
    return b"".join(lock_bytes(name, it) for it in text.split(","))


def lock_bytes(name, text):
    """The bytes of an element of a LOCK, OFFSET:LENGTH:FLAGS."""
    parts = text.split(":")
    if len(parts) != 3:
        raise Unread(f"{name}: {text!r} is not OFFSET:LENGTH:FLAGS")
    numbers = [whole(name, 8, parts[0]), whole(name, 8, parts[1]), flags(name, 8, parts[2], LOCK_FLAGS)]
    return b"".join(it.to_bytes(8, "little") for it in numbers)


def buffer_text(kind, raw):
    if kind == "bytes":
        return raw.hex()
    if kind == "text":
        text = raw.decode("utf-16-le", "replace")
        if not text.isascii() or " " in text:
            raise Unread("a text that a word cannot hold")
        return text
    if kind == "numbers":
        return ",".join(hex(int.from_bytes(raw[i:i + 2], "little")) for i in range(0, len(raw), 2))
    parts = [[int.from_bytes(raw[i + j:i + j + 8], "little") for j in (0, 8, 16)] for i in range(0, len(raw), 24)]
    return ",".join(f"{at}:{length}:{kinds}" for at, length, kinds in parts)


def layout(command, is_response, status):
    if is_response and status not in (0, STATUSES["MORE_PROCESSING_REQUIRED"], STATUSES["BUFFER_OVERFLOW"]):
        return table(ERROR)
    tables = RESPONSES if is_response else REQUESTS
    if command not in tables:
        raise Unread(f"no table of {command}")
    return table(tables[command])


def unit(kind):
    return {"numbers": 2, "locks": 24}.get(kind, 1)


def put_body(command, values, fields, buffers):
    """The fields' bytes of a body, one by one, and then its buffers."""
    size, contents, places = sum(it[1] for it in fields), {}, {}
    behind = []
    for name, kind, step in buffers:
        text = values.pop(name, "")
        contents[name] = buffer_bytes(name, kind, text) if text else b""
        at = 64 + size + sum(map(len, behind))
        if contents[name] and at % step:
            behind.append(bytes(step - at % step))
            at += step - at % step
        places[name] = at
        behind.append(contents[name])
    out = []
    for name, width, default, at, length in fields:
        value = number(name, width, values.pop(name, default or "0"))
        if at and not any(value) and (contents[at] or f"{command} {name}" in STANDING):
            value = held(name, width, places[at]).to_bytes(width, "little")
        if length and not any(value):
            kind = next(it[1] for it in buffers if it[0] == length)
            value = held(name, width, len(contents[length]) // unit(kind)).to_bytes(width, "little")
        out.append(value)
    return out + behind


def values_of(words):
    """The texts of the fields that words name, by their names."""
    values = {}
    for word in words:
        name, equals, text = word.partition("=")
        if not equals:
            raise Unread(f"{word!r} has no '='")
        if name in values:
            raise Unread(f"{name} is named twice")
        values[name] = text
    return values


def put_message(words, is_last):
    """The parts of a message: the header's fields, the body's, its buffers, and zeros up to the next message."""
    is_response = words[:1] == ["response"]
    command = "".join(words[is_response:1 + is_response])
    if command not in COMMANDS:
        raise Unread(f"no command {command!r}")
    values = values_of(words[1 + is_response:])
    header, _ = table(HEADER)
    if is_response:
        values["HeaderFlags"] = hex(whole("HeaderFlags", 4, values.get("HeaderFlags", "0")) | 1)
    values["Command"] = str(COMMANDS.index(command))
    status = int.from_bytes(number("Status", 4, values.get("Status", "0")), "little")
    wanted = {name: values.pop(name) for name, *_ in header if name in values}
    body = put_body(command, values, *layout(command, is_response, status))
    if values:
        raise Unread(f"no field {' '.join(values)}")
    length = 64 + sum(map(len, body))
    padding = b"" if is_last else bytes(-length % 8)
    if not is_last:
        wanted.setdefault("NextCommand", str(length + len(padding)))
    head = [number(name, width, wanted.get(name, default or "0")) for name, width, default, _, _ in header]
    return head + body + [padding]


SIGNED = 8


def signature_of(message, key):
    """The signature of a message by a key, whatever it has in the signature's place ([MS-SMB2] 3.1.4.1)."""
    return hmac.new(key, message[:48] + bytes(16) + message[64:], hashlib.sha256).digest()[:16]


def signed(parts, key):
    """The parts of a message, with the flag SIGNED and its signature by a key."""
    names = [name for name, *_ in table(HEADER)[0]]
    flags_at, signature_at = names.index("HeaderFlags"), names.index("Signature")
    flags_set = int.from_bytes(parts[flags_at], "little") | SIGNED
    parts = [flags_set.to_bytes(4, "little") if at == flags_at else it for at, it in enumerate(parts)]
    signature = signature_of(b"".join(parts), key)
    return [signature if at == signature_at else it for at, it in enumerate(parts)]


def is_signed(message, key):
    return message[16] & SIGNED != 0 and message[48:64] == signature_of(message, key)


def write(text, key=None):
    """The words of a frame, whose messages are signed where there is a key."""
    messages = [[]]
    for word in WORD.findall(text):
        if word == ";":
            messages.append([])
        else:
            messages[-1].append(word)
    written = [put_message(it, i + 1 == len(messages)) for i, it in enumerate(messages)]
    parts = [part for it in written for part in (it if key is None else signed(it, key))]
    return as_words([sum(map(len, parts)).to_bytes(4, "big"), *parts])


def as_words(parts):
    """Hex words; zeros that follow one another are one word."""
    words, zeros = [], 0
    for part in parts:
        if not any(part):
            zeros += len(part)
            continue
        words += [f"z{zeros}"] * bool(zeros) + [part.hex()]
        zeros = 0
    return " ".join(words + [f"z{zeros}"] * bool(zeros))


def as_bytes(words, named=()):
    """The bytes of a row's words."""
    return b"".join(word_bytes(word, dict(named)) for word in words.split())


def word_bytes(word, named):
    """The bytes of a row's word."""
    try:
        if word.startswith("$"):
            return named[word[1:]]
        if word.startswith("u:"):
            return word[2:].encode("utf-16-le")
        if word.startswith("z"):
            return repeated(word[1:], b"\0")
        if word.startswith("n"):
            return int(word[1:]).to_bytes(8, "little")
        if "*" in word:
            count, _, digits = word.partition("*")
            return repeated(count, bytes.fromhex(digits))
        return bytes.fromhex(word)
    except (KeyError, ValueError, OverflowError):
        raise Unread(f"{word!r} is neither hex nor another word of a row") from None


def repeated(count, raw):
    if not 0 <= int(count) * len(raw) <= LONGEST_WORD:
        raise ValueError(count)
    return int(count) * raw


def read_fields(raw, fields, start):
    values = {}
    for field in fields:
        name, width, _, at, length = field
        value = raw[start:start + width]
        if len(value) < width:
            raise Unread("its bytes end")
        values[name] = value
        start += width
    return values, start


def read_message(raw):
    """The words of one message."""
    header, _ = table(HEADER)
    head, _ = read_fields(raw, header, 0)
    code = int.from_bytes(head["Command"], "little")
    if head["ProtocolId"] != b"\xfeSMB" or code >= len(COMMANDS):
        raise Unread("no header")
    command, is_response = COMMANDS[code], head["HeaderFlags"][0] & 1 == 1
    fields, buffers = layout(command, is_response, int.from_bytes(head["Status"], "little"))
    body, _ = read_fields(raw, fields, 64)
    words = ["response", command] if is_response else [command]
    if is_response:
        head["HeaderFlags"] = bytes([head["HeaderFlags"][0] - 1]) + head["HeaderFlags"][1:]
    for field in header:
        if field[0] not in ("Command", "NextCommand") and head[field[0]] != usual(field):
            words.append(f"{field[0]}={told(field[0], field[1], head[field[0]])}")
    for field in fields:
        if not field[3] and not field[4] and body[field[0]] != usual(field):
            words.append(f"{field[0]}={told(field[0], field[1], body[field[0]])}")
    at = 64 + sum(it[1] for it in fields)
    for name, kind, step in buffers:
        place = next((int.from_bytes(body[it[0]], "little") for it in fields if it[3] == name), 0) or at
        length = next((int.from_bytes(body[it[0]], "little") for it in fields if it[4] == name), 0) * unit(kind)
        if length:
            words.append(f"{name}={buffer_text(kind, raw[place:place + length])}")
            at = place + length
    return " ".join(words)


def read(raw, key=None):
    """The words of a whole frame, whose messages must be signed by the key where there is one."""
    if len(raw) < 68 or raw[0] or int.from_bytes(raw[:4], "big") != len(raw) - 4:
        raise Unread("no whole frame")
    payload, messages = raw[4:], []
    while payload:
        step = int.from_bytes(payload[20:24], "little") or len(payload)
        messages.append(read_message(payload[:step]))
        if key is not None and not is_signed(payload[:step], key):
            raise Unread(f"message {len(messages)} is not signed by this key")
        payload = payload[step:]
    return " ; ".join(messages)


def frame_of(line, named):
    """The frame of a line of rows, or None; one that the line names is added to those that are named."""
    if line.startswith("times "):
        line = line.partition(" ")[2].partition(" ")[2]
    if line.startswith("let "):
        name, _, words = line[len("let "):].partition(" = ")
        named[name] = as_bytes(words, named)
        return named[name]
    if line.startswith(("> ", "< ")) and "|" not in line:
        return as_bytes(line[2:].partition(" ")[2], named)
    return None


def frames_of(rows):
    """The frames of a file of rows, and those that it names."""
    named = {}
    try:
        lines = pathlib.Path(rows).read_text(encoding="utf-8").splitlines()
    except UnicodeDecodeError:
        raise Unread(f"{rows}: it is no text in UTF-8") from None
    for i, line in enumerate(lines):
        try:
            frame = frame_of(line, named)
        except Unread as why:
            raise Unread(f"{rows}:{i + 1}: {why}") from None
        if frame is not None:
            yield frame


# Words, and the frame that was set by hand for them.
BY_HAND = {
    "NEGOTIATE Credits=31 Dialects=0x202":
        "00000066 fe534d42 4000 z8 1f00 z48 2400 0100 0100 z30 0202",
    "response NEGOTIATE Credits=31 DialectRevision=SMB_2_0_2":
        "00000080 fe534d42 4000 z8 1f00 01000000 z44 4100 0100 0202 0000 000102030405060708090a0b0c0d0e0f 00000000 "
        "00000100 00000100 00000100 00803ed5deb19d01 z8 8000 0000 z4",
    "TREE_CONNECT MessageId=2 SessionId=1 Path=\\\\s\\data":
        "00000058 fe534d42 4000 z6 0300 0100 z8 0200000000000000 z8 0100000000000000 z16 0900 0000 4800 1000 "
        "5c005c0073005c006400610074006100",
    "CREATE MessageId=3 TreeId=1 SessionId=1 DesiredAccess=READ_DATA|WRITE_DATA CreateDisposition=CREATE Name=a":
        "0000007a fe534d42 4000 z6 0500 0100 z8 0300000000000000 z4 01000000 0100000000000000 z16 3900 00 00 02000000 "
        "z16 03000000 00000000 07000000 02000000 00000000 7800 0200 z8 6100",
    "ECHO MessageId=1 ; ECHO MessageId=2":
        "0000008c fe534d42 4000 z6 0d00 0100 z4 48000000 0100000000000000 z32 0400 0000 z4 fe534d42 4000 z6 0d00 0100 "
        "z8 0200000000000000 z32 0400 0000",
    "response CREATE Status=OBJECT_NAME_COLLISION MessageId=3 TreeId=1 SessionId=1":
        "00000049 fe534d42 4000 z2 350000c0 0500 0100 01000000 z4 0300000000000000 z4 01000000 0100000000000000 z16 "
        "0900 z7",
}


# A key, and two messages signed by it.
KEY = "000102030405060708090a0b0c0d0e0f"
BY_KEY = "CREATE MessageId=4 SessionId=1 DesiredAccess=READ_DATA Name=a ; CLOSE MessageId=5 SessionId=1 FileId=1"

# A command and its words, and what is said of the one that is wrong.
WRONG = (
    (("write", ""), "no command ''"),
    (("write", "response"), "no command ''"),
    (("write", "ECHOES MessageId=1"), "no command 'ECHOES'"),
    (("write", "ECHO MessageId=1 ; OTHER"), "no command 'OTHER'"),
    (("write", "ECHO MessageId"), "'MessageId' has no '='"),
    (("write", "ECHO MessageId=1 MessageId=2"), "MessageId is named twice"),
    (("write", "ECHO Name=x"), "no field Name"),
    (("write", "ECHO MessageId=x"), "MessageId: 'x' is no number"),
    (("write", "ECHO MessageId=-1"), "MessageId: -1 is no number of 8 bytes"),
    (("write", "ECHO Credits=65536"), "Credits: 65536 is no number of 2 bytes"),
    (("write", "ECHO Signature=00"), "Signature: '00' is not 16 bytes in hex"),
    (("write", "response ECHO HeaderFlags=x"), "HeaderFlags: 'x' is no number"),
    (("write", "CREATE DesiredAccess=READ_DATA|OTHER"), "DesiredAccess: 'OTHER' is no number and no name of one"),
    (("write", "CREATE Name=" + "x" * 32_768), "NameLength: 65536 is no number of 2 bytes"),
    (("write", "CLOSE FileId=x"), "FileId: 'x' is no number"),
    (("write", "WRITE Buffer=0"), "Buffer: '0' is not hex"),
    (("write", "WRITE Buffer='a"), "Buffer: 'a is no text of ASCII in quotes"),
    (("write", "WRITE Buffer='a'b"), "Buffer: 'a'b is no text of ASCII in quotes"),
    (("write", "NEGOTIATE Dialects=0x202,x"), "Dialects: 'x' is no number"),
    (("write", "LOCK Locks=0:1"), "Locks: '0:1' is not OFFSET:LENGTH:FLAGS"),
    (("write", "LOCK Locks=0:1:OTHER"), "Locks: 'OTHER' is no number"),
    (("write", "IOCTL"), "no table of IOCTL"),
    (("write", "--hex", "ECHO MessageId"), "'MessageId' has no '='"),
    (("write", "--other", "ECHO"), "no command '--other'"),
    (("read", ""), "no whole frame"),
    (("read", "00000044 fe534d42 zz"), "'zz' is neither hex nor another word of a row"),
    (("read", "$name"), "'$name' is neither hex nor another word of a row"),
    (("read", "00000040 fe534d42 z60"), "its bytes end"),
    (("read", "00000044 ff534d42 z64"), "no header"),
    (("write", "--key"), "--key: '' is not 16 bytes in hex"),
    (("read", "--key", KEY, "00000044 fe534d42 4000 z6 0d00 0100 z8 0100000000000000 z32 0400 0000"),
     "message 1 is not signed by this key"),
    (("read", "--key", KEY, "00000044 fe534d42 4000 z6 0d00 0100 08 z7 0100000000000000 z16 16*11 0400 0000"),
     "message 1 is not signed by this key"),
    (("other",), "no command 'other': write, read or check"),
)


def selftest():
    for words, frame in BY_HAND.items():
        raw = as_bytes(frame)
        if as_bytes(write(words)) != raw or read(raw) != words or told_of("write", "--hex", words) != raw.hex():
            raise Unread(f"not as it was set by hand: {words}: {write(words)}: {read(raw)}")
    raw = as_bytes(told_of("write", "--key", KEY, BY_KEY))
    words = told_of("read", "--key", KEY, raw.hex())
    if as_bytes(write(words)) != raw:
        raise Unread(f"not signed as it is read: {words}")
    for words, said in WRONG:
        try:
            found = told_of(*words)
        except Unread as why:
            found = str(why)
        if found != said:
            raise Unread(f"{words}: {found}")


def check(files):
    if not files:
        raise Unread("check takes files of rows")
    selftest()
    well, unread = 0, 0
    for frame in [it for file in files for it in frames_of(file)]:
        try:
            is_well = as_bytes(write(read(frame))) == frame
        except Unread:
            is_well = False
        well, unread = well + is_well, unread + (not is_well)
    print(f"frame.py: {well} frames were written as they were read; "
          f"{unread} are no whole frames, or are none that it writes")
    if well <= 9 * unread:
        raise Unread("too many frames are not written as they were read")


def told_of(verb="", *words):
    """What is printed of the words of a command."""
    is_hex, key = False, None
    while words[:1] == ("--key",) or (verb == "write" and words[:1] == ("--hex",)):
        if words[0] == "--hex":
            is_hex, words = True, words[1:]
        else:
            key, words = number("--key", 16, "".join(words[1:2])), words[2:]
    if verb == "write":
        found = write(" ".join(words), key)
        return as_bytes(found).hex() if is_hex else found
    if verb == "read":
        return read(as_bytes(" ".join(words)), key)
    raise Unread(f"no command {verb!r}: write, read or check")


def main(words):
    try:
        if words[:1] in ([], ["-h"], ["--help"]):
            print(__doc__.strip())
        elif words[0] == "check":
            check(words[1:])
        else:
            print(told_of(*words))
    except Unread as why:
        sys.exit(f"frame.py: {why}")
    except OSError as why:
        sys.exit(f"frame.py: {why.filename}: {why.strerror}")


if __name__ == "__main__":
    main(sys.argv[1:])
