"""Carries many bytes to the share and back by clients that people use, and compares what came back.

    python3 -m bench.real_clients [--gib N] [--files N] [PROGRAM]

smbclient puts a file of 3 GiB and gets it back; rclone copies 20,000 files of 0 to 4,096 bytes in 100 directories
there, and back into another directory. Both are Debian's packages of these names, and guests by NTLM. What came back is
compared by checksum. A row has the seconds by the clock, with the client's part in them, and the server's own processor
seconds.
"""
import argparse
import hashlib
import os
import pathlib
import random
import signal
import subprocess
import sys
import tempfile
import time

from bench.asking import CONFIG
from bench.exchanging import processor_seconds
from tests.smb.program import PROVED, Program, memory_of

HOST, PATIENCE, BLOCK = '127.0.0.1', 900, 1 << 24


def sum_of(path):
    """The checksum of a file."""
    found = hashlib.sha256()
    with open(path, 'rb') as it:
        while data := it.read(BLOCK):
            found.update(data)
    return found.hexdigest()


def sums_of(folder):
    """The checksums of all files below a folder, by their paths."""
    return {str(it.relative_to(folder)): sum_of(it) for it in folder.rglob('*') if it.is_file()}


def carried(share, name, words, folder):
    """Has a client do it, and prints a row."""
    before, start = processor_seconds(share.process), time.perf_counter()
    ran = subprocess.run(words, cwd=folder, stdin=subprocess.DEVNULL, stdout=subprocess.PIPE, stderr=subprocess.STDOUT,
                         timeout=PATIENCE, check=False)
    took = time.perf_counter() - start
    if ran.returncode != 0:
        sys.exit(f'{name}: {ran.stdout.decode(errors="replace")}')
    spent = processor_seconds(share.process) - before
    print(f'| {name} | {took:.1f} | {spent:.1f} | {memory_of(share) / 2**20:,.0f} |', flush=True)


def by_smbclient(share, folder, gib):
    with open(folder / 'there', 'wb') as out:
        for _ in range(gib * 2**30 // BLOCK):
            out.write(os.urandom(BLOCK))
    words = ['smbclient', '-N', f'//{HOST}/data', '-p', str(share.port), '-t', str(PATIENCE), '-c']
    carried(share, f'smbclient: put a file of {gib} GiB', [*words, 'put there'], folder)
    carried(share, 'smbclient: get it back', [*words, 'get there back'], folder)
    if sum_of(folder / 'there') != sum_of(folder / 'back'):
        sys.exit('smbclient: another file came back')


def by_rclone(share, folder, count):
    sizes = random.Random(1)
    for i in range(count):
        path = folder / 'tree' / f'd{i % 100:02}' / f'f{i:06}.txt'
        path.parent.mkdir(parents=True, exist_ok=True)
        path.write_bytes(os.urandom(sizes.randrange(4_097)))
    hidden = subprocess.run(['rclone', 'obscure', 'secret'], stdout=subprocess.PIPE, check=True).stdout.decode().strip()
    at = f':smb,host={HOST},port={share.port},user=somebody,pass={hidden}:data/tree'
    words = ['rclone', '--config', 'rclone.conf', 'copy']
    carried(share, f'rclone: copy {count:,} files there', [*words, 'tree', at], folder)
    carried(share, 'rclone: copy them back', [*words, at, 'back tree'], folder)
    if sums_of(folder / 'tree') != sums_of(folder / 'back tree'):
        sys.exit('rclone: other files came back')


def main():
    words = argparse.ArgumentParser(prog='bench.real_clients')
    words.add_argument('program', nargs='?', default=PROVED)
    words.add_argument('--gib', type=int, default=3)
    words.add_argument('--files', type=int, default=20_000)
    options = words.parse_args()
    # The server is ended then too.
    signal.signal(signal.SIGTERM, lambda number, _: sys.exit(128 + number))
    print('| client | seconds | processor seconds of the server | MiB of memory then |')
    print('|---|---|---|---|')
    for carry, size in ((by_smbclient, options.gib), (by_rclone, options.files)):
        with tempfile.TemporaryDirectory() as name:
            folder = pathlib.Path(name)
            config = folder / 'share.toml'
            config.write_text(CONFIG, encoding='ascii')
            with Program(options.program).serve('--config', str(config), '--login', 'ntlm') as share:
                carry(share, folder, size)


if __name__ == '__main__':
    main()
