"""Shows what the share is asked and what it answers, in the names of [MS-SMB2]: `bash tools/serve.sh --demo`.

It replays the stored run of crates/smbshare and the two clients of examples/, and then serves a share on a free port of
127.0.0.1, where a client puts a file, lists the folder and gets the file back. A line `> N` is a frame of client N, a
line `< N` the share's answer; `+ N` and `- N` are where a client comes and goes, `x N` is where the share ends it.
Moments are left out, so what is printed is the same in every run: a test compares it with examples/demo.answers. By
hand it is `python3 -m tools.lib.demo [PROGRAM]`; the status is 1 where an answer is not as it must be.
"""
import os
import pathlib
import re
import signal
import subprocess
import sys

from tests.smb.program import GUEST, TOP as FOLDER, Program
from tools.frame import Unread, as_bytes, read, write


TOP = pathlib.Path(FOLDER)
# What is replayed, the answers that are stored of it, and what it shows.
RUNS = (
    ("crates/smbshare/stdin", "crates/smbshare/stdout", "A client negotiates, and sends an ECHO byte by byte"),
    ("examples/two_clients", "examples/two_clients.answers", "Two clients and one file"),
)
MOMENTS = ("SystemTime", "CreationTime", "LastAccessTime", "LastWriteTime", "ChangeTime")
TEXT = b"hello from a client"
IN_TREE = "SessionId=1 TreeId=1"
# What the client over TCP asks. The listing is of FileNamesInformation, names alone.
FILE_NAMES = 12
ASKED = (
    "NEGOTIATE Credits=31 Dialects=0x202,0x210",
    "SESSION_SETUP",
    "TREE_CONNECT SessionId=1 Path=\\\\127.0.0.1\\data",
    f"CREATE {IN_TREE} DesiredAccess=WRITE_DATA CreateDisposition=CREATE Name=hello.txt",
    f"WRITE {IN_TREE} FileId=1 Buffer={TEXT.hex()}",
    f"CLOSE {IN_TREE} FileId=1",
    f"CREATE {IN_TREE} DesiredAccess=READ_DATA CreateDisposition=OPEN CreateOptions=DIRECTORY_FILE",
    f"QUERY_DIRECTORY {IN_TREE} FileInformationClass={FILE_NAMES} FileId=2 FileName=*",
    f"CLOSE {IN_TREE} FileId=2",
    f"CREATE {IN_TREE} DesiredAccess=READ_DATA CreateDisposition=OPEN Name=HELLO.TXT",
    f"READ {IN_TREE} FileId=3 Length=65536",
    f"CLOSE {IN_TREE} FileId=3",
    f"TREE_DISCONNECT {IN_TREE}",
    "LOGOFF SessionId=1",
)


class Wrong(Exception):
    """The program does not do what it must."""


def buffer_of(words):
    """The bytes of a message's buffer, none where it has none."""
    return next((bytes.fromhex(it[len("Buffer="):]) for it in words if it.startswith("Buffer=")), b"")


def names_in(raw):
    """The names in a listing of FileNamesInformation."""
    names = []
    while raw:
        step, length = int.from_bytes(raw[:4], "little"), int.from_bytes(raw[8:12], "little")
        names.append(raw[12:12 + length].decode("utf-16-le"))
        raw = raw[step:] if step else b""
    return names


def shown(frame):
    """A frame in words that `frame.py write` takes: with each status, without moments, and a buffer as the text that it
    holds. Behind a listing a line has its names."""
    try:
        words = read(frame).split(" ")
    except Unread as why:
        return f"{frame.hex()} ({why})"
    buffer, names = buffer_of(words), ""
    words = [it for it in words if it.partition("=")[0] not in MOMENTS]
    if words[:2] == ["response", "QUERY_DIRECTORY"] and buffer:
        names = f"\n# The names in it: {' '.join(names_in(buffer))}"
    elif buffer and buffer.isascii() and buffer.decode().isprintable():
        words[-1] = f"Buffer={buffer.decode()!r}"
    if words[0] == "response" and not any(it.startswith("Status=") for it in words):
        words.insert(2, "Status=SUCCESS")
    return " ".join(words) + names


def take_frame(stream):
    """The first frame of a stream, which loses it; None where it is not there as a whole."""
    length = 4 + int.from_bytes(stream[1:4], "big")
    if len(stream) < max(5, length):
        return None
    frame = bytes(stream[:length])
    del stream[:length]
    return frame


def answers_of(program, run):
    """What the program prints of a text of events."""
    with open(TOP / run, "rb") as events:
        status, output, _ = program.run("replay", given=events)
    if status:
        raise Wrong(f"the replay of {run} ended with status {status}")
    return output.decode()


def answer_in(line):
    """What a line of answers says: its kind, the client's number, and the frame or none."""
    found = re.fullmatch(r"([<x]) (\d+)(?: ((?:[0-9a-f]{2})+))?", line)
    if not found:
        raise Wrong(f"the program printed {line!r}")
    return found[1], found[2], bytes.fromhex(found[3] or "")


def show_answers(lines, number=None, frame=b""):
    """Prints the next answers, which the lines lose: those to a client's frame, or where there is none, all."""
    while lines:
        kind, to, answer = answer_in(lines[0])
        if number and (to != number or answer and answer[28:36] != frame[28:36]):
            break
        print(f"{kind} {to} {shown(answer)}" if answer else f"{kind} {to}")
        del lines[0]


def play(program, run, stored):
    """Replays a text of events, and prints its frames, each with its answer."""
    answers = answers_of(program, run)
    lines, streams, pieces = answers.splitlines(), {}, {}
    for line in (TOP / run).read_text(encoding="utf-8").splitlines():
        if not line.startswith("> "):
            print(line)
            continue
        _, number, _, digits = line.split()
        stream = streams.setdefault(number, bytearray())
        stream += bytes.fromhex(digits)
        pieces[number] = pieces.get(number, 0) + 1
        frame = take_frame(stream)
        while frame:
            if pieces[number] > 1:
                print(f"# The next frame comes in {pieces[number]} pieces.")
            print(f"> {number} {shown(frame)}")
            show_answers(lines, number, frame)
            pieces[number] = 0
            frame = take_frame(stream)
    show_answers(lines)
    if answers != (TOP / stored).read_text(encoding="utf-8"):
        raise Wrong(f"the answers are not those of {stored}")
    print(f"All answers are those of {stored}, byte for byte.")


def talk(client):
    """Asks the share for all that there is to ask, prints it, and gives the last answer to each command, in words."""
    answers = {}
    for i, words in enumerate(ASKED):
        frame = as_bytes(write(f"{words} MessageId={i}"))
        print(f"> 1 {shown(frame)}")
        payload = client.send(frame).reply()
        answer = len(payload).to_bytes(4, "big") + payload
        print(f"< 1 {shown(answer)}", flush=True)
        answers[words.split()[0]] = read(answer).split(" ")
    client.end()
    return answers


def serve(program):
    """Serves a share for a client that puts a file, lists it and gets it back."""
    with program.serve("--config", GUEST) as share:
        answers = talk(share.client())
    if "hello.txt" not in names_in(buffer_of(answers["QUERY_DIRECTORY"])):
        raise Wrong("the file is not in the listing")
    if buffer_of(answers["READ"]) != TEXT:
        raise Wrong("other bytes came back than were put")
    print("The file was listed, and the bytes that came back are those that were put.")


def demo(program):
    """Plays all there is, and prints it."""
    for run, stored, what in RUNS:
        print(f"== {what}")
        play(program, run, stored)
    print("== A client over TCP puts a file, lists the folder and gets the file back")
    serve(program)


def main(words):
    if len(words) > 1 or words[:1] in (["-h"], ["--help"]):
        sys.exit(__doc__.strip())
    program = Program(*words)
    signal.signal(signal.SIGTERM, lambda *_: sys.exit(143))
    try:
        if not os.path.isfile(program.path):
            raise Wrong(f"there is no program {program.path}: `bash tools/serve.sh --demo` makes one without a proof")
        demo(program)
    except (Wrong, Unread, AssertionError, OSError, subprocess.TimeoutExpired) as why:
        sys.exit(f"demo: {why}")
    except KeyboardInterrupt:
        sys.exit(130)


if __name__ == "__main__":
    main(sys.argv[1:])
