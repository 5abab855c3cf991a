#!/usr/bin/env python3
"""pcap.py: makes of a capture of a port the text that `smbshare replay` takes.

    python3 tools/pcap.py [--port N] CAPTURE > TEXT
    python3 tools/pcap.py [--port N] --answers CAPTURE > ANSWERS

The capture is pcap or pcapng, `-` standard input; the port is 4450 where it is left out. Each connection to the port is
`+ n` where it is opened, n = 1, 2, 3; the bytes that its client sent, in the order of their sequence numbers, are
`> n MOMENT HEX` as soon as they and all before them have come; and `- n` is where the client closed it, or either side
reset it. A line that begins with # says who the client is, and where the server ended the connection.

With --answers it is what the server sent, as `smbshare replay` prints its answers: `< n HEX` for each whole frame, and
`x n` where the server ended the connection before the client did.

What is wrong with the capture is named in one line on standard error; nothing is printed then, and the status is 1.
"""
import argparse
import shutil
import signal
import sys
import tempfile

from lib.connections import convert
from lib.packets import Fault

# The port where none is named, and how much of what is written is kept in memory.
PORT, MOST_KEPT = 4450, 1 << 22


def port(text):
    """The port of a text."""
    if not 1 <= int(text) <= 65_535:
        raise ValueError(text)
    return int(text)


def read_words():
    reader = argparse.ArgumentParser(description=__doc__, formatter_class=argparse.RawDescriptionHelpFormatter)
    reader.add_argument("--port", type=port, default=PORT, metavar="N")
    reader.add_argument("--answers", action="store_true")
    reader.add_argument("capture", metavar="CAPTURE")
    return reader.parse_args()


def main():
    words = read_words()
    signal.signal(signal.SIGPIPE, signal.SIG_DFL)
    try:
        with tempfile.SpooledTemporaryFile(MOST_KEPT) as text:
            with sys.stdin.buffer if words.capture == "-" else open(words.capture, "rb") as stream:
                convert(stream, words.capture, words.port, words.answers, lambda lines: text.write(lines.encode()))
            text.seek(0)
            with open(1, "wb", closefd=False) as output:
                shutil.copyfileobj(text, output)
    except (Fault, OSError) as why:
        sys.exit(f"pcap.py: {words.capture}: {getattr(why, 'strerror', None) or why}")
    except KeyboardInterrupt:
        sys.exit(130)


if __name__ == "__main__":
    main()
