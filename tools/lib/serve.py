"""serve.sh: uses the share without a proof, or once it is proved.

    bash tools/serve.sh                  serves the share `data` to guests on 127.0.0.1:4450, until Ctrl-C
    bash tools/serve.sh --demo           plays stored runs, and a client over TCP, and shows what is asked and answered
    bash tools/serve.sh replay < FILE    does what the program itself does with these words,
    bash tools/serve.sh show < FILE      its standard input and its exit status; so do
    printf %s Password | bash tools/serve.sh account add accounts.toml ann
    bash tools/serve.sh serve --listen 127.0.0.1:4455 --config guest.toml --login ntlm
                                         and every other command of the program, which says itself what it does not know
    bash tools/serve.sh --build          builds the program, and prints its path
    bash tools/serve.sh --proved ..      proves the program first, with any of these words behind it
    bash tools/serve.sh --help           prints this, and what the program says of its words

Without --proved the program is built once by `rt try`, in some 80 seconds, and again where its sources have changed.
What this says of itself goes to standard error.
"""
import errno
import os
import re
import signal
import socket
import subprocess
import sys

import proving
import unproved
from unproved import TOP, say

HOST, PORT = "127.0.0.1", 4450
UNPROVED = ("note: this build is unproved and slow: `rt try` makes it, not optimised and with run-time checks, "
            "30 to 80 times slower than the proved one.")
PROVED = "note: the program is proved first. From nothing that takes most of an hour; what was proved before is kept."
SERVED = f"""The share `data` is served, to guests. In another terminal, at the top of the repository:

    smbclient -N //{HOST}/data -p {PORT} -c ls
    smbclient -N //{HOST}/data -p {PORT} -c 'put README.md'
    smbclient -N //{HOST}/data -p {PORT} -c 'get README.md back.md'

smbclient is Samba's, in Debian's package of that name. Without it, `bash tools/serve.sh --demo` shows a client at work.
Files are held in memory, and are gone when the share ends. Ctrl-C ends it."""


def address_in(words):
    """The IPv4 address and the port that the words of `serve` name; where they name none, port 0."""
    joined = " ".join(words)
    found = re.search(r"(?:^| )--listen[ =](\d+\.\d+\.\d+\.\d+):(\d{1,5})(?: |$)", joined)
    return (found[1], int(found[2])) if found and words[:1] == ["serve"] else (HOST, 0)


def is_taken(host, port):
    """Whether something listens there."""
    with socket.socket() as it:
        it.setsockopt(socket.SOL_SOCKET, socket.SO_REUSEADDR, 1)
        try:
            it.bind((host, port))
        except (OSError, OverflowError) as why:
            return getattr(why, "errno", 0) == errno.EADDRINUSE
    return False


def program_for(is_proved):
    """The path of the program, which is there then."""
    if not is_proved:
        return unproved.build()
    if not proving.prove_and_build("smbshare", say):
        raise unproved.NotBuilt("the program is not proved")
    return str(TOP / "crates" / "smbshare" / "out" / "smbshare")


def become(*words):
    """Runs a program in the place of this one."""
    for it in (signal.SIGPIPE, signal.SIGXFSZ):
        signal.signal(it, signal.SIG_DFL)
    os.execv(words[0], words)


def serve(program):
    """Serves the share until it is ended, and gives the exit status."""
    words = [program, "serve", "--listen", f"{HOST}:{PORT}", "--config", str(TOP / "guest.toml"), "--login", "ntlm"]
    share = subprocess.Popen(words, stdin=subprocess.DEVNULL, stderr=subprocess.PIPE)
    try:
        for line in share.stderr:
            say(line.decode(errors="replace").rstrip("\n"))
            if line.startswith(b"listening on "):
                say(SERVED)
        status = share.wait()
        return status if status >= 0 else 128 - status
    except KeyboardInterrupt:
        say("\nThe share has ended.")
        return 0
    finally:
        share.kill()
        share.wait()


def start(words):
    """Does what the words say, and gives the exit status."""
    is_proved = words[:1] == ["--proved"]
    words = words[is_proved:]
    if words[:1] in (["--demo"], ["--build"]) and words[1:]:
        say(f"{__doc__.strip()}\n\nserve.sh: {words[0]} takes no word, and {words[1]!r} was given")
        return 2
    if words[:1] in (["--help"], ["-h"]):
        say(f"{__doc__.strip()}\n")
    say(PROVED if is_proved else UNPROVED)
    host, port = address_in(words) if words else (HOST, PORT)
    if port and is_taken(host, port):
        say(f"serve.sh: {host}:{port} is in use. End what listens there, or take another port, or 0 for a free one:\n"
            f"    bash tools/serve.sh serve --listen {host}:0 --config guest.toml")
        return 1
    program = program_for(is_proved)
    if words[:1] == ["--demo"]:
        os.chdir(TOP)
        become(sys.executable, "-m", "tools.lib.demo", program)
    if words == ["--build"]:
        print(program)
        return 0
    if words:
        become(program, *words)
    return serve(program)


def main(words):
    unproved.end_on_signals()
    try:
        sys.exit(start(words))
    except unproved.NotBuilt as why:
        sys.exit(f"serve.sh: {why}")
    except KeyboardInterrupt:
        sys.exit(130)


if __name__ == "__main__":
    main(sys.argv[1:])
