"""Somebody on the path between a client that logs in by a password and a share: he changes the bytes of its requests, cuts
off that they are signed, or sends them twice. No file is changed by it where signing is required.

    python3 -m tests.path [PROGRAM]

Run by hand, with the clients of tests/clients.py. A line for each client and each change: whether the client's work was
done, and which files then had what nobody wrote, or were gone. With `--signing off` some are, which is printed first.
"""
import os
import pathlib
import shutil
import struct
import sys
import tempfile

from tests.clients import ANN, SIGNING, TEXT, clients_of
from tests.smb.between import Between
from tests.smb.frames import create, frame, negotiate, read, tree_connect, write
from tests.smb.ntlm import account, accounts_file
from tests.smb.program import Program
from tests.smb.signed import FLAGS_AT, SIGNED, SigningClient, messages_of, signed, status_of, with_signature

CREATE, WRITE, SET_INFO, COMMAND_AT = 5, 9, 17, 12
ALL_ACCESS, OPEN, OPEN_IF = 0x1F01FF, 1, 3
# The file that ann wrote before, which no client names, and the names that clients name.
KEPT, BEFORE = "k.txt", b"written before"
NAMED = "acstij"


def command_of(message):
    return struct.unpack_from("<H", message, COMMAND_AT)[0]


def other_bytes(message):
    """A WRITE of other bytes."""
    return message.replace(TEXT.encode(), TEXT.upper().encode()) if command_of(message) == WRITE else message


def other_name(message):
    """A CREATE of the file that nobody named."""
    for letter in NAMED if command_of(message) == CREATE else "":
        message = message.replace(f"{letter}.txt".encode("utf-16-le"), KEPT.encode("utf-16-le"))
    return message


def without_flag(message):
    """A message that says that it is not signed."""
    flags = message[FLAGS_AT] & ~SIGNED
    return with_signature(message[:FLAGS_AT] + bytes([flags]) + message[FLAGS_AT + 1:], bytes(16))


def each(change):
    return lambda messages: [b"".join(change(it) for it in messages)]


# What he does with the messages of a frame: which payloads the share gets.
CHANGES = {
    "other bytes are written": each(other_bytes),
    "another file is named": each(other_name),
    "other bytes, unsigned": each(lambda it: without_flag(other_bytes(it))),
    "another file, unsigned": each(lambda it: without_flag(other_name(it))),
    "each frame twice": lambda messages: 2 * [b"".join(messages)],
}


class Path(Between):
    """He who is on the path. He lets the login pass as it is."""

    def __init__(self, port, change):
        super().__init__(port, lambda it: it)
        self.change = change

    def brings(self, client, share, heard):
        try:
            with share:
                while head := client.recv(4, 256):
                    payload = b""
                    while len(payload) < struct.unpack(">I", head)[0]:
                        payload += client.recv(struct.unpack(">I", head)[0] - len(payload))
                    for it in self.payloads(payload):
                        share.sendall(frame(it))
        except OSError:
            pass

    def payloads(self, payload):
        messages = messages_of(payload) if payload[:1] == b"\xfe" else []
        is_let_in = messages and command_of(messages[0]) > 1
        return self.change(messages) if is_let_in else [payload]


class Ann(SigningClient):
    """Ann herself, past him."""

    def __init__(self, share):
        super().__init__(share.port, share.patience)
        self.send(negotiate()).reply()
        self.logs_in()
        self.asks_signed(tree_connect(3, self.session))
        self.next = 4

    def does(self, one, *given):
        self.next += 1
        return self.asks_signed(one(self.next - 1, *given, self.session, 1))

    def opens(self, name, disposition):
        found = self.does(create, name, ALL_ACCESS, disposition, 0)
        return struct.unpack_from("<Q", found, 64 + 64)[0] if status_of(found) == 0 else None

    def bytes_of(self, name):
        number = self.opens(name, OPEN)
        if number is None:
            return None
        found = self.does(read, number, 0, 4096)
        return found[80:] if status_of(found) == 0 else b""


def faults(share):
    """The files that have what nobody wrote, or are gone."""
    ann = Ann(share)
    found = {f"{letter}.txt": ann.bytes_of(f"{letter}.txt") for letter in NAMED}
    wrong = [name for name, has in found.items() if has not in (None, b"", TEXT.encode())]
    return wrong + [KEPT] * (ann.bytes_of(KEPT) != BEFORE)


def tried(program, words, client, change):
    """Whether a client's work was done whose requests were changed so, and the files that were changed by it."""
    with program.serve(*words) as share, tempfile.TemporaryDirectory() as folder:
        ann = Ann(share)
        ann.does(write, ann.opens(KEPT, OPEN_IF), 0, BEFORE)
        ann.end()
        (pathlib.Path(folder) / "a.txt").write_text(TEXT)
        with Path(share.port, change) as path:
            well, _ = client(str(path.port), pathlib.Path(folder))
        return well, faults(share)


def tried_with(program, words, clients):
    """Tries each client with each change, and gives how many changed a file."""
    changed = 0
    for name, needs, client in clients:
        if not shutil.which(needs) and not os.path.exists(needs):
            print(f"{name}: absent", flush=True)
            continue
        for change, does in CHANGES.items():
            well, wrong = tried(program, words, client, does)
            print(f"{name}: {change}: {'works' if well else 'fails'}; changed: {', '.join(wrong) or 'nothing'}", flush=True)
            changed += bool(wrong)
    return changed


def main(words):
    program = Program(*words)
    usual, signing = [[it for it in some if "smbtorture" not in it[0]] for some in (clients_of(*ANN), SIGNING)]
    with tempfile.TemporaryDirectory() as folder:
        served = ("--login", "ntlm", "--accounts", accounts_file(folder, account(ANN[0])), "--signing")
        print("--signing off", flush=True)
        seen = tried_with(program, (*served, "off"), usual)
        print("--signing required", flush=True)
        return 1 if not seen or tried_with(program, (*served, "required"), usual + signing) else 0


if __name__ == "__main__":
    sys.exit(main(sys.argv[1:]))
