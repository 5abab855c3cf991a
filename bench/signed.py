"""Times the proved program beside smbd, where that is installed, with each request and each response signed.

    python3 -m bench.signed [PROGRAM]

As bench/beside.py, but that an account logs in by its password, `--signing required` holds here, and `server signing =
mandatory` there. The client's time, which signs each request and checks no response, is not in the processor time.
"""
import os
import struct
import subprocess
import sys
import tempfile

from bench import beside
from tests.smb import ntlm
from tests.smb.frames import session_setup
from tests.smb.program import Program
from tests.smb.signed import signed

# The user of both: smbd wants one that the system has.
USER, HASH, PORT = 'root', ntlm.PASSWORD_HASH, 44_512


class Account(beside.Guest):
    """A client that logs in by its password, and signs what it sends."""
    key = None

    def asks(self, data, wanted=0):
        is_in = struct.unpack_from('<Q', data, beside.SESSION_AT)[0] != 0
        return super().asks(signed(data, self.key) if self.key and is_in else data, wanted)

    def addressed(self, data, file_at=None):
        return signed(super().addressed(data, file_at), self.key)

    def logs_in(self, by_ntlm):
        first = self.asks(session_setup(self.take(), ntlm.NEGOTIATE), ntlm.MORE_PROCESSING)
        session = struct.unpack_from('<Q', first, beside.SESSION_AT - 4)[0]
        response = ntlm.response_to(first[first.index(ntlm.CHALLENGE) + 24:][:8], USER, bytes.fromhex(HASH))
        self.asks(session_setup(self.take(), ntlm.authenticate(USER, response), session))
        self.key = ntlm.session_key(USER, bytes.fromhex(HASH), response)
        return session


def with_account(folder):
    """smbd's account, in a database of its own."""
    conf = os.path.join(folder, 'smb.conf')
    subprocess.run(['smbpasswd', '-c', conf, '-L', '-s', '-a', USER], input=b'Password\nPassword\n', check=True,
                   stdout=subprocess.DEVNULL)


def main(words):
    program = Program(*words[:1])
    with tempfile.TemporaryDirectory() as folder:
        accounts = ntlm.accounts_file(folder, ntlm.account(USER))
        servers = [beside.Server('smbshare', [program.path, 'serve', '--listen', '127.0.0.1:0', '--login', 'ntlm',
                                              '--accounts', accounts, '--signing', 'required'])]
        try:
            if beside.SMBD:
                servers.append(beside.samba(folder, PORT, 'server signing = mandatory'))
                with_account(folder)
            found = beside.medians(servers, Account)
        finally:
            for server in servers:
                server.end()
    beside.table(found, [server.name for server in servers])


if __name__ == '__main__':
    main(sys.argv[1:])
