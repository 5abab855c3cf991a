"""A second machine, by hand: a copy of the journal that follows it, and an address that moves.

    python3 -m tests.second --program PATH [--seconds N] [--seed S] [--part P]

It needs rsync; for the address keepalived, smbclient and the right to make network namespaces; and for a lock that is
asked for late strace. What was seen is printed; the status is 1 where it is not right.
"""
import argparse
import sys

from tests.second import following, late, moving
from tests.smb.program import PROVED, Program
from tests.trials import passed_of

SECONDS, SEED = 4, 20_261_201
PARTS = {'following': following.a_copy_follows, 'moving': moving.an_address_moves,
         'late': late.a_late_one_has_no_nameless_file}


def main():
    """Runs all parts, or one."""
    words = argparse.ArgumentParser(prog='python3 -m tests.second', description=__doc__,
                                    formatter_class=argparse.RawDescriptionHelpFormatter)
    words.add_argument('--program', default=PROVED, metavar='PATH', help='the program smbshare')
    words.add_argument('--seconds', type=float, default=SECONDS, metavar='N', help='how long a server is under load')
    words.add_argument('--seed', type=int, default=SEED, metavar='S', help='what is done by chance is by this')
    words.add_argument('--part', choices=PARTS, help='a part alone')
    given = words.parse_args()
    parts = [part for name, part in PARTS.items() if given.part in (None, name)]
    is_right = passed_of('second', [(part, Program(given.program), given.seconds, given.seed) for part in parts])
    return 0 if is_right else 1


if __name__ == '__main__':
    sys.exit(main())
