"""Runs the tests over programs and captures, by subject, from the top of the repository:

    python3 -m tests.run [SUBJECT ..]

All subjects where none is named; --list says what each tests. Each ends with a line `SUBJECT: N passed, M failed`, and
several with one that counts them all, `tests: N passed, M failed`. The status is 1 where a test failed. The programs
are those that `rt ci` built, unless others are named. With --unproved the program is the one that
`bash tools/serve.sh --build` made, and what no unproved program can be tested for is left out.
"""
import argparse
import importlib
import os
import re
import subprocess
import sys
import tempfile
import time
from concurrent.futures import ThreadPoolExecutor

from tests.smb.program import PROVED, TOP, Program
from tests.trials import passed_of

UNPROVED = os.path.join(TOP, 'out', 'unproved', 'smbshare')
# In the order in which they are told; those that run side by side, of which the longest begin first; and what runs
# alone, since it measures memory and needs the processors.
SUBJECTS = ('serving', 'status', 'signing', 'load', 'hostile', 'memory', 'words', 'keeping', 'logging', 'captures',
            'conform', 'packages')
LONGEST_FIRST = ('keeping', 'hostile', 'serving', 'status', 'signing', 'memory', 'words', 'conform', 'logging',
                 'packages', 'captures')
ALONE = ('load',)


def module_of(subject):
    return importlib.import_module(f'tests.{subject}')


def reader():
    """What the command line may say; a subject adds words of its own."""
    words = argparse.ArgumentParser(prog='python3 -m tests.run', description=__doc__,
                                    formatter_class=argparse.RawDescriptionHelpFormatter)
    words.add_argument('subject', nargs='*', metavar='SUBJECT', help=', '.join(SUBJECTS))
    words.add_argument('--list', action='store_true', help='says what each subject tests')
    words.add_argument('--program', metavar='PATH', help='the program smbshare, where it is another one')
    words.add_argument('--unproved', action='store_true', help='the program is not proved')
    words.add_argument('--jobs', type=int, default=1, metavar='N', help='so many subjects side by side')
    words.add_argument('--seed', type=int, metavar='S', help='keeping, hostile: what is done by chance is by this')
    for subject in SUBJECTS:
        add_words = getattr(module_of(subject), 'add_words', None)
        if add_words:
            add_words(words)
    return words


def run(subject, words):
    """Runs a subject; whether all its tests passed."""
    words.program = Program(words.program or (UNPROVED if words.unproved else PROVED), words.unproved)
    return passed_of(subject, module_of(subject).tests(words))


class Side:
    """A subject that is run in a process of its own: what it printed, how long it took, and its status."""

    def __init__(self, subject, words):
        self.subject, self.words, self.printed = subject, words, tempfile.TemporaryFile()
        self.seconds, self.status = 0, None

    def run(self):
        begin = time.monotonic()
        command = [sys.executable, '-m', 'tests.run', self.subject, *self.words]
        self.status = subprocess.run(command, stdin=subprocess.DEVNULL, stdout=self.printed, stderr=subprocess.STDOUT,
                                     check=False).returncode
        self.seconds = time.monotonic() - begin

    def tell(self):
        """Prints what it printed, and how long it took. Gives how many passed, and how many failed, at least one where
        its status says so."""
        self.printed.seek(0)
        said = self.printed.read().decode(errors='replace')
        print(f'{said}{self.subject} took {self.seconds:.0f} seconds', flush=True)
        counts = re.findall(rf'^{self.subject}: (\d+) passed, (\d+) failed$', said, re.M)
        passed, failed = map(int, counts[-1]) if counts else (0, 1)
        return passed, max(failed, 1) if self.status else failed


def run_all(subjects, words, jobs):
    """Runs subjects side by side, but for those that run alone, and tells of each in turn; whether all tests passed."""
    sides, counts = {subject: Side(subject, words) for subject in subjects}, []
    with ThreadPoolExecutor(jobs) as pool:
        runs = {subject: pool.submit(sides[subject].run) for subject in LONGEST_FIRST if subject in sides}
        for subject in filter(runs.get, subjects):
            runs[subject].result()
            counts.append(sides[subject].tell())
    for subject in filter(sides.get, ALONE):
        sides[subject].run()
        counts.append(sides[subject].tell())
    passed, failed = map(sum, zip(*counts))
    print(f'tests: {passed} passed, {failed} failed', flush=True)
    return failed == 0


def main(given):
    words = reader().parse_intermixed_args(given)
    unknown = [it for it in words.subject if it not in SUBJECTS]
    if unknown:
        sys.exit(f'tests.run: no subject {unknown[0]!r}: {", ".join(SUBJECTS)}')
    if words.list:
        for subject in SUBJECTS:
            about = module_of(subject).__doc__.strip().partition('\n\n')[0].replace('\n', ' ')
            print(f'{subject:9} {about}')
        return 0
    subjects = [it for it in SUBJECTS if it in words.subject or not words.subject]
    if len(subjects) == 1:
        return 0 if run(subjects[0], words) else 1
    options = list(given)
    for subject in words.subject:
        options.remove(subject)
    return 0 if run_all(subjects, options, words.jobs) else 1


if __name__ == '__main__':
    sys.exit(main(sys.argv[1:]))
