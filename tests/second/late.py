"""A second program that opens a journal before FILE.new takes FILE's name, and asks for its lock only after."""
import os
import shutil
import subprocess
import tempfile
import time

from tests.keeping.killing import CLIENTS, Large
from tests.smb.client import PATIENCE
from tests.smb.kept import keeping, killed
from tests.smb.program import GUEST

# By how many microseconds its first lock is late, for how many seconds it is looked then, and what is said of it.
LATE, LOOKED, IN_USE = 3_000_000, 5, 'in use by another program'


def late(program, name, errors):
    """A server that keeps its share in a journal, whose first lock is late; it says so in a file."""
    words = ('serve', '--listen', '127.0.0.1:0', '--config', GUEST, '--journal', name)
    inject = ('-e', 'trace=flock', '-e', f'inject=flock:delay_enter={LATE}:when=1')
    return subprocess.Popen(('strace', '-f', '-D', '-o', '/dev/null', *inject, program.path, *words),
                            stdin=subprocess.DEVNULL, stdout=subprocess.DEVNULL, stderr=errors)


def ends_late(process, file):
    """Whether a late server is refused; or whether it serves, and has the file of the journal's name or another one."""
    try:
        process.wait(LOOKED)
        return 'refused'
    except subprocess.TimeoutExpired:
        of_process = f'/proc/{process.pid}/fd'
        opened = [os.stat(os.path.join(of_process, name)).st_ino for name in os.listdir(of_process)]
        process.kill()
        process.wait(PATIENCE)
        return 'serves with FILE' if os.stat(file).st_ino in opened else 'serves with a file that has no name any more'


def came_late(program, folder, is_link, is_alone):
    """What comes of a late server beside another one that has the journal, or, alone, behind that one's end."""
    file, link = os.path.join(folder, 'journal'), os.path.join(folder, 'link')
    os.symlink(file, link)
    with keeping(program, '--journal', file) as share, open(os.path.join(folder, 'errors'), 'w+b') as errors:
        first, second = os.stat(file).st_ino, late(program, link if is_link else file, errors)
        time.sleep(0.5)
        Large(share, CLIENTS).writes_until(lambda: os.stat(file).st_ino != first)
        if is_alone:
            killed(share)
        came = ends_late(second, file)
        killed(share)
        errors.seek(0)
        return came, errors.read().decode().strip()


def a_late_one_has_no_nameless_file(program, _seconds, _seed):
    """Whether it is refused beside the first, by a link to the journal too, and behind the first's end, or has FILE then."""
    if not shutil.which('strace'):
        print('  left out: there is no strace', flush=True)
        return True
    is_right = True
    for is_link, is_alone in ((False, False), (True, False), (False, True)):
        with tempfile.TemporaryDirectory() as folder:
            came, said = came_late(program, folder, is_link, is_alone)
        where = 'behind the end of' if is_alone else 'beside'
        print(f'  {"by a link" if is_link else "by its name"}, {where} the first: {came}, {said}', flush=True)
        is_refused = came == 'refused' and IN_USE in said
        is_right = is_right and (is_refused or is_alone and came == 'serves with FILE')
    return is_right
