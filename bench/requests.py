"""Counts the requests by which smbclient puts and gets a file of 16 MiB, as a guest by NTLM, in dialect 2.1.

smbclient is Debian's package of that name. A proxy between the two reads each frame of the client: its requests by command, and of the first READ or WRITE the
CreditCharge and the length.
"""
import collections
import os
import pathlib
import socket
import struct
import subprocess
import sys
import tempfile
import threading

from tests.smb.program import GUEST, Program

SIZE, PATIENCE = 16 << 20, 60
CREDIT_CHARGE_AT, COMMAND_AT, NEXT_COMMAND_AT, LENGTH_AT = 6, 12, 20, 68
READ, WRITE = 8, 9


class Counted:
    """What a client sends: how many requests of each command, and of the first READ or WRITE its CreditCharge and length."""

    def __init__(self):
        self.commands, self.first, self.rest = collections.Counter(), None, b''

    def take(self, data):
        self.rest += data
        while len(self.rest) >= 4:
            end = 4 + struct.unpack_from('>I', self.rest)[0]
            if len(self.rest) < end:
                return
            self.take_payload(self.rest[4:end])
            self.rest = self.rest[end:]

    def take_payload(self, payload):
        at, more = 0, payload[:4] == b'\xfeSMB'
        while more:
            command, more = struct.unpack_from('<H', payload, at + COMMAND_AT)[0], struct.unpack_from('<I', payload, at + NEXT_COMMAND_AT)[0]
            self.commands[command] += 1
            if command in (READ, WRITE) and not self.first:
                charge = struct.unpack_from('<H', payload, at + CREDIT_CHARGE_AT)[0]
                self.first = charge, struct.unpack_from('<I', payload, at + LENGTH_AT)[0]
            at += more


def carry(here, there, told):
    """Carries what comes of one stream to another, up to its end."""
    while data := here.recv(1 << 20):
        there.sendall(data)
        told(data)
    there.shutdown(socket.SHUT_WR)


def between(listener, port, counted):
    """Carries one client's stream to the share's port, and back."""
    client, share = listener.accept()[0], socket.create_connection(('127.0.0.1', port))
    back = threading.Thread(target=carry, args=(share, client, len), daemon=True)
    back.start()
    carry(client, share, counted.take)
    back.join()


def counted_of(share, folder, words):
    """What smbclient sends for these words."""
    counted = Counted()
    with socket.create_server(('127.0.0.1', 0)) as listener:
        proxy = threading.Thread(target=between, args=(listener, share.port, counted), daemon=True)
        proxy.start()
        client = ['smbclient', '//127.0.0.1/data', '-N', '-p', str(listener.getsockname()[1]), '-m', 'SMB2_10', '-c', words]
        subprocess.run(client, cwd=folder, check=True, capture_output=True, timeout=PATIENCE)
        proxy.join()
    return counted


def requests(program):
    print('| smbclient | WRITEs | READs | bytes of each | CreditCharge | requests in all |')
    print('|---|---|---|---|---|---|')
    with tempfile.TemporaryDirectory() as folder, program.serve('--config', GUEST, '--login', 'ntlm') as share:
        path = pathlib.Path(folder)
        (path / 'file').write_bytes(os.urandom(SIZE))
        for words in ('put file', 'get file back'):
            it = counted_of(share, folder, words)
            charge, length = it.first
            print(f'| {words} | {it.commands[WRITE]} | {it.commands[READ]} | {length:,} | {charge} | {sum(it.commands.values())} |', flush=True)
        if (path / 'back').read_bytes() != (path / 'file').read_bytes():
            raise AssertionError('another file came back')


if __name__ == '__main__':
    requests(Program(*sys.argv[1:2]))
