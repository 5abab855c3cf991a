"""The rows of crates/smb_rows, and what is replayed of them: by tools/record.py, and by tests."""
import pathlib
import re

from tests.smb import ntlm
from tests.smb.program import GUEST, TOP
from tools import frame as frame_tool

MOMENT, SEED, USER = 116_444_736_000_000_000, '000102030405060708090a0b0c0d0e0f', 'ann'
# The row whose stream tests cut and change at each byte: it ends with a chain of CREATE, WRITE, READ and two CLOSEs.
BY_HAND = 'chain_of_a_create'


class Rows:
    """The rows: their lines, and the bytes that `let` names."""

    def __init__(self):
        self.named, self.lines = {}, {}
        lines = []
        for line in pathlib.Path(TOP, 'crates', 'smb_rows', 'stdin').read_text(encoding='utf-8').splitlines():
            if line.startswith('let '):
                frame_tool.frame_of(line, self.named)
            elif line.startswith('== '):
                lines = self.lines[line[3:]] = []
            elif line and not line.startswith('#'):
                lines.append(line)

    def events(self, name):
        """The events and the answers of a row: a sign, a connection and a frame."""
        found = []
        for line in self.lines[name]:
            sign, _, rest = line.partition(' ')
            if sign == 'after':
                found = self.events(rest)
            elif sign in ('+', '-', '>', '<', 'x'):
                found.append((sign, int(rest.split()[0]), frame_tool.frame_of(line, self.named) or b''))
            elif sign not in ('config', 'ntlm', 'account'):
                raise ValueError(f'{name}: a line that is not read: {line}')
        return found

    def recorded(self):
        """The names of the rows in which a client logs in by NTLM and is answered."""
        return [name for name, lines in self.lines.items()
                if f'ntlm {SEED}' in lines and any(line.startswith('< ') for line in lines)]


def line_of(sign, number, frame):
    """A line of a replay, or of its answers."""
    moment = f' {MOMENT}' if sign == '>' else ''
    return f'{sign} {number}{moment} {frame.hex()}'.rstrip() + '\n'


def login_words(folder, is_guest, is_user, signing=None):
    """The words of the program by which guests, and the user of an account, log in under the seed."""
    config = ('--config', GUEST) if is_guest else ()
    accounts = ('--accounts', ntlm.accounts_file(folder, ntlm.account(USER))) if is_user else ()
    mode = ('--signing', signing) if signing else ()
    return ('--login', 'ntlm', '--seed', SEED, *config, *accounts, *mode)


def login_words_of(folder, lines):
    """Those of a row, by its lines."""
    text = '\n'.join(lines)
    signing = re.search(r'signing = "(\w+)"', text)
    return login_words(folder, '=> guest = true' in text, '\naccount ' in text, signing and signing[1])
