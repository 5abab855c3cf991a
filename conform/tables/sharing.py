"""Two opens of one file, by two clients: each access, by each way to share, of both."""
from conform.steps import Open, Script

ACCESSES = ('READ_DATA', 'WRITE_DATA', 'APPEND_DATA', 'EXECUTE', 'DELETE', 'READ_ATTRIBUTES', 'READ_DATA|WRITE_DATA',
            'READ_DATA|DELETE', 'WRITE_DATA|READ_ATTRIBUTES')
SHARES = ('SHARE_READ', 'SHARE_WRITE', 'SHARE_DELETE')


def share_modes():
    """The eight ways to share, by short names: `r-d` shares reading and deleting."""
    for bits in range(8):
        shared = [name for i, name in enumerate(SHARES) if bits >> i & 1]
        yield ''.join(letter if bits >> i & 1 else '-' for i, letter in enumerate('rwd')), '|'.join(shared) or '0'


def scripts():
    ways = [(access, short, share) for access in ACCESSES for short, share in share_modes()]
    for access, short, share in ways:
        for access_2, short_2, share_2 in ways:
            yield Script('sharing', f'{access}.{short}+{access_2}.{short_2}', (
                Open('x', access, 'OPEN_IF', share=share), Open('x', access_2, share=share_2, by='B')))
