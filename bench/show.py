"""Times `smbshare show` on long streams of requests.

Mixed streams have NEGOTIATE, ECHO in chains of 16, CREATE, READ and WRITE of 4,096 bytes; the others a frame for
each ECHO. The longest is as long as 64 MiB of hex hold. Half the stream should take about half the time.
"""
import filecmp
import os
import struct
import sys
import tempfile

from bench.runs import Replays, written
from tests.smb.frames import create, echoes, frame, header, negotiate

TEXT_LIMIT = 67108864
SIZES = [8 << 20, 16 << 20, (TEXT_LIMIT - (1 << 20)) // 2]
CHAIN = 16
WRITTEN = 4096


def negotiates(first):
    return negotiate(first), [('NEGOTIATE', first)]


def chain(first):
    return echoes(first, CHAIN), [('ECHO', first + i) for i in range(CHAIN)]


def echo(first):
    return echoes(first, 1), [('ECHO', first)]


def creates(first):
    return create(first, f'folder\\file{first % 1000}', 0x0012019F, 3, 0x40), [('CREATE', first)]


def read(first):
    body = struct.pack('<HBBIQ16sIIIHHB', 49, 0x50, 0, 65536, 4096 * first, bytes(16), 1, 0, 0, 0, 0, 0)
    return frame(header(8, first) + body), [('READ', first)]


def write(first):
    body = struct.pack('<HHIQ16sIIHHI', 49, 112, WRITTEN, WRITTEN * first, bytes(16), 0, 0, 0, 0, 0)
    return frame(header(9, first) + body + bytes(WRITTEN)), [('WRITE', first)]


STREAMS = {'mixed': [negotiates, chain, creates, read, write, read, creates, chain], 'ECHO': [echo]}


def stream(kinds, size):
    """Frames of these kinds in turn, up to so many bytes; and the lines that are to be printed."""
    frames, lines, length, first = [], [], 0, 0
    while True:
        bytes_of, requests = kinds[len(frames) % len(kinds)](first)
        if length + len(bytes_of) > size:
            return b''.join(frames), ''.join(lines)
        frames.append(bytes_of)
        length, first = length + len(bytes_of), first + len(requests)
        lines += [f'{len(frames)}.{i} {name} mid={m}\n' for i, (name, m) in enumerate(requests, 1)]


def write_case(name, size, text, want):
    whole, lines = stream(STREAMS[name], size)
    for path, content in ((text, whole.hex()), (want, lines)):
        with open(path, 'w') as out:
            out.write(content)


def measure(replays, name, size):
    with tempfile.TemporaryDirectory() as folder:
        text, want, listing = (os.path.join(folder, part) for part in ('text', 'want', 'listing'))
        written(write_case, name, size, text, want)
        status, seconds, peak = replays.timed(text, listing, 'show')
        if status != 0 or not filecmp.cmp(listing, want, shallow=False):
            sys.exit(f'status {status}, or a wrong listing')
        with open(want) as lines:
            count = sum(1 for _ in lines)
        length = os.path.getsize(text) / 2e6
    print(f'| {name} | {length:.1f} | {count:,} | {seconds:.2f} | {length / seconds:.1f} '
          f'| {peak:.0f} |')


def main(replays):
    print('| frames | MB of stream | requests | seconds | MB/s of stream | peak MiB |')
    print('|---|---|---|---|---|---|')
    for name in STREAMS:
        for size in SIZES:
            measure(replays, name, size)


if __name__ == '__main__':
    main(Replays(*sys.argv[1:2]))
