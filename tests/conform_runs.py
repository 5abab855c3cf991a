"""A run of the tester of other servers, over a program that serves."""
import contextlib
import io

from conform import __main__ as conform
from conform.login import GUEST as NOBODY, NO_PASSWORD, Server
from conform.side import Side
from tests.smb.between import status_of, with_status
from tests.smb.program import GUEST

DIALECTS = (0x0202, 0x0210)
SHARING_VIOLATION, ACCESS_DENIED = 0xC0000043, 0xC0000022
NEGOTIATE, SESSION_SETUP, READ, WRITE, LOCK, QUERY_DIRECTORY = 0, 1, 8, 9, 10, 14


def other_status(frame):
    """A frame of an answer, with ACCESS_DENIED for SHARING_VIOLATION."""
    return with_status(frame, ACCESS_DENIED) if status_of(frame) == SHARING_VIOLATION else frame


def ran(program, port, *words):
    """The status of a run of the tester, and what it prints on both streams."""
    given = [f'127.0.0.1:{port}', '--share', 'data', '--program', program.path, *words]
    with contextlib.redirect_stdout(io.StringIO()) as output, contextlib.redirect_stderr(io.StringIO()) as errors:
        try:
            status = conform.main(given)
        except SystemExit as end:
            status = end.code
    return status, output.getvalue(), errors.getvalue()


def served(program, *words):
    return program.serve('--config', GUEST, '--login', 'ntlm', *words)


def side_at(port, patience, dialects=DIALECTS):
    """A share, with clients that come in as guests."""
    return Side(Server('a share', '127.0.0.1', port, 'data', NOBODY, NO_PASSWORD, patience), dialects)


def names_at_the_top(share):
    """The names at the top of a share, as a guest finds them."""
    side = side_at(share.port, share.patience)
    _, file_id = side.create('', 'READ_DATA', 'DIRECTORY_FILE')
    names = side.names_in(file_id, 0)
    side.loses_clients()
    return names
