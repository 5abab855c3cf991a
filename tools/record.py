"""record.py: records what a client and the share say to each other, as a row of crates/smb_rows.

    python3 -m tools.record [--program PROGRAM] [--guest] [--ann] [--signing MODE] NAME COMMENT COMMAND ..

The share is served with `--login ntlm` and a given seed: to guests with `--guest`, to the account `ann`, whose password
is `Password`, with `--ann`, unsigned where no mode is given. Each moment in it is the start of 1970 (tests/c/odd_system.c), as in a row that names none.
The command is run, with {port} in its words replaced by the port of a proxy that stands between the client and the
share, and hands on whole frames. What the command says goes to standard error. The row goes to standard output: a line
for each frame, in the order in which they came, with the words of tools/frame.py where it has them. It is a row only
where the command's status is 0, and a replay of the client's frames answers what the client got; else the status is 1.
"""
import argparse
import re
import selectors
import socket
import subprocess
import sys
import tempfile

from tests.smb.ntlm import PASSWORD_HASH
from tests.smb.preload import odd_system
from tests.smb.program import PROVED, Program
from tests.smb.rows import SEED, USER, line_of, login_words
from tools import frame as frame_tool

HOST = "127.0.0.1"


class Side:
    """A stream of the proxy, and what has come of it that is no whole frame yet."""

    def __init__(self, stream, number, is_client):
        self.stream, self.number, self.is_client = stream, number, is_client
        self.left, self.other = b"", None

    def frames(self):
        """The whole frames that have come now; None where the stream has ended."""
        try:
            part = self.stream.recv(1 << 20)
        except ConnectionResetError:
            part = b""
        if not part:
            return None
        self.left += part
        found = []
        while len(self.left) >= 4 and len(self.left) >= 4 + int.from_bytes(self.left[1:4], "big"):
            size = 4 + int.from_bytes(self.left[1:4], "big")
            found.append(self.left[:size])
            self.left = self.left[size:]
        return found


class Proxy:
    """Stands between a client and the share at a port, and keeps what each says: a sign, a connection and a frame."""

    def __init__(self, port):
        self.share_port, self.said, self.count = port, [], 0
        self.listener = socket.create_server((HOST, 0))
        self.port = self.listener.getsockname()[1]
        self.waiting = selectors.DefaultSelector()
        self.waiting.register(self.listener, selectors.EVENT_READ)

    def accept(self):
        self.count += 1
        self.said.append(("+", self.count, b""))
        client = Side(self.listener.accept()[0], self.count, True)
        share = Side(socket.create_connection((HOST, self.share_port)), self.count, False)
        client.other, share.other = share, client
        for side in (client, share):
            self.waiting.register(side.stream, selectors.EVENT_READ, side)

    def end(self, side):
        """Ends a connection that one side has ended."""
        self.said.append(("-" if side.is_client else "x", side.number, b""))
        for it in (side, side.other):
            self.waiting.unregister(it.stream)
            it.stream.close()

    def take(self, side):
        """Hands on what has come of a side."""
        frames = side.frames()
        if frames is None:
            self.end(side)
            return
        for frame in frames:
            self.said.append((">" if side.is_client else "<", side.number, frame))
            side.other.stream.sendall(frame)

    def turn(self):
        """Does what there is to do, or waits a moment for it, and tells whether there was anything."""
        ready = self.waiting.select(0.1)
        for key, _ in ready:
            if key.fileobj is self.listener:
                self.accept()
            elif key.fileobj.fileno() >= 0:
                self.take(key.data)
        return bool(ready)


def recorded(program, login, command):
    """What a command and the share say to each other; None where the command fails."""
    with odd_system("clock") as system, program.serve(*login, system=system) as share:
        proxy = Proxy(share.port)
        client = subprocess.Popen([word.replace("{port}", str(proxy.port)) for word in command],
                                  stdin=subprocess.DEVNULL, stdout=sys.stderr)
        while proxy.turn() or client.poll() is None:
            pass
        return proxy.said if client.returncode == 0 else None


def is_repeated(program, login, said):
    """Whether a replay of what came answers what was answered, in its order."""
    text = "".join(line_of(*one) for one in said if one[0] in "+>-")
    status, output, _ = program.run("replay", *login, given=text.encode())
    return (status, output.decode()) == (0, "".join(line_of(*one) for one in said if one[0] in "<x"))


def without_zeros(raw):
    """Bytes, cut where four zeros or more follow one another."""
    return re.split(rb"(\0{4,})", raw) if len(raw) > 16 else [raw]


def fields_of(frame):
    """A frame's length, the fields of its header, and what follows."""
    parts, left = [], frame
    for width in (4, *(field[1] for field in frame_tool.table(frame_tool.HEADER)[0])):
        parts.append(left[:width])
        left = left[width:]
    return [*parts, left]


def words_of(frame):
    """A frame in words of a row: a word for each field, where tools/frame.py knows them all."""
    parts = fields_of(frame)
    try:
        words = frame_tool.write(frame_tool.read(frame))
        if frame_tool.as_bytes(words) == frame:
            parts = [frame_tool.as_bytes(word) for word in words.split()]
    except frame_tool.Unread:
        pass
    return frame_tool.as_words([piece for part in parts for piece in without_zeros(part)])


def row_of(words, said):
    lines = [f"== {words.name}", f"# {words.comment}"]
    if words.guest or words.signing != "off":
        signing = f'\\nsigning = "{words.signing}"' * (words.signing != "off")
        lines.append(f"config guest = false => guest = {'true' if words.guest else 'false'}{signing}")
    lines.append(f"ntlm {SEED}")
    if words.ann:
        lines.append(f"account {USER} {PASSWORD_HASH}")
    for sign, number, frame in said:
        lines.append(f"{sign} {number} {words_of(frame)}" if frame else f"{sign} {number}")
    return "\n".join(lines) + "\n"


def read_words():
    reader = argparse.ArgumentParser(description=__doc__, formatter_class=argparse.RawDescriptionHelpFormatter)
    reader.add_argument("--program", default=PROVED)
    for option in ("--guest", "--ann"):
        reader.add_argument(option, action="store_true")
    reader.add_argument("--signing", default="off")
    reader.add_argument("name")
    reader.add_argument("comment")
    reader.add_argument("command", nargs=argparse.REMAINDER)
    return reader.parse_args()


def main():
    words = read_words()
    program = Program(words.program)
    with tempfile.TemporaryDirectory() as folder:
        login = login_words(folder, words.guest, words.ann, words.signing if words.ann else None)
        said = recorded(program, login, words.command)
        if said is None or not is_repeated(program, login, said):
            sys.exit("record.py: the command failed" if said is None else "record.py: a replay answers otherwise")
    print(row_of(words, said))


if __name__ == "__main__":
    main()
