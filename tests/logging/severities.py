"""How severe each line on standard error is, where systemd's journal takes it."""
import os
import re
import tempfile

from tests.smb.program import GUEST

STREAM = 'JOURNAL_STREAM'
MARK = re.compile('<[346]>')
ERROR, WARNING, INFORMATIONAL = '<3>', '<4>', '<6>'
SERVES = ('serve', '--listen', '127.0.0.1:0', '--turns', '1')
# The words of runs, and how severe each of their lines is.
RUNS = (((*SERVES, '--log', '-'), [*[INFORMATIONAL] * 2, WARNING, *[INFORMATIONAL] * 3]),
        ((*SERVES, '--config', GUEST, '--log', '/dev/full'), [ERROR, INFORMATIONAL]),
        ((*SERVES, '--config', '/absent', '--explain'), [ERROR, ERROR]))
# What names no stream that standard error is.
OTHERS = ('', 'nothing', '1:', '0:1', '1:' + '9' * 40)


def said(program, words, named):
    """The lines on standard error of a run in whose environment a stream is named; {} is standard error's own."""
    with tempfile.TemporaryFile() as errors:
        found = os.fstat(errors.fileno())
        system = {name: value for name, value in os.environ.items() if name != STREAM}
        if named is not None:
            system[STREAM] = named.format(f'{found.st_dev}:{found.st_ino}')
        program.run(*words, stderr=errors, env=system)
        errors.seek(0)
        return errors.read().decode().splitlines()


def of_no_moment(lines):
    """Lines without the numbers of a moment and a port."""
    return [re.sub(r'\d+', 'N', line) for line in lines]


def severity_of(line):
    """What a line begins with, which is informational where it begins with none."""
    mark = MARK.match(line)
    return mark[0] if mark else INFORMATIONAL


def lines_have_their_severity(program):
    """Where the environment names standard error as the journal's stream; else each is as it is without one."""
    right = []
    for words, wanted in RUNS:
        marked, plain = said(program, words, '{}'), of_no_moment(said(program, words, None))
        others = [of_no_moment(said(program, words, named)) for named in (*OTHERS, '{}1')]
        bare = of_no_moment(MARK.sub('', line, count=1) for line in marked)
        right.append([severity_of(line) for line in marked] == wanted and bare == plain
                     and all(other == plain for other in others) and not any(map(MARK.match, plain)))
        if not right[-1]:
            print(f'  {words}: {marked}, without {plain}', flush=True)
    return all(right)
