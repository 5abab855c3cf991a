"""A root folder of Debian: what is run in it, and which files it has."""
import contextlib
import ctypes
import os
import shlex
import subprocess
import tempfile

SUITE, WITH = 'bookworm', 'adduser,logrotate'
NEW_MOUNTS, NEW_NETWORK = 0x00020000, 0x40000000
# What changes below these folders is of the system: lists of packages and users, caches, and what is there for a run.
OF_THE_SYSTEM = ('dev', 'proc', 'run', 'sys', 'tmp', 'root', 'var/lib/dpkg', 'var/lib/apt', 'var/cache',
                 'var/log/dpkg.log', 'var/lib/logrotate', 'etc/.pwd.lock', 'etc/passwd', 'etc/group', 'etc/shadow',
                 'etc/gshadow', 'etc/subuid', 'etc/subgid')


def said(line):
    print(line, flush=True)


def ran(*words, given=b'', is_well=True, **how):
    """What a command prints on both streams, which is shown; it has to end with status 0, or with another one."""
    said(f'$ {shlex.join(words)}')
    done = subprocess.run(words, input=given, stdout=subprocess.PIPE, stderr=subprocess.STDOUT, check=False, **how)
    text = done.stdout.decode(errors='replace')
    said(''.join(f'  {line}\n' for line in text.splitlines()) + f'  status {done.returncode}')
    if (done.returncode == 0) != is_well:
        raise OSError(f'{words[0]} ended with status {done.returncode}')
    return text


def leave_the_network():
    """Has what is run from here on a network of its own, with no address but those of the machine itself, and mounts of
    its own: so port 445 is free, and nobody else is served."""
    if ctypes.CDLL(None, use_errno=True).unshare(NEW_MOUNTS | NEW_NETWORK) != 0:
        raise OSError(ctypes.get_errno(), 'unshare')
    ran('mount', '--make-rprivate', '/')
    ran('ip', 'link', 'set', 'lo', 'up')


def make(folder):
    """Makes a root in a folder, by debootstrap."""
    ran('debootstrap', '--variant=minbase', f'--include={WITH}', SUITE, folder)


class Root:
    """A root folder."""

    def __init__(self, path):
        self.path = path

    def at(self, name):
        """Where a file of the root is to who is outside."""
        return os.path.join(self.path, name.lstrip('/'))

    def ran(self, *words, **how):
        """What a command in the root prints."""
        return ran('chroot', self.path, *words, **how)

    def text(self, name):
        with open(self.at(name), encoding='utf-8') as it:
            return it.read()

    def has(self, *names):
        """Whether all of these are there."""
        return all(os.path.lexists(self.at(name)) for name in names)

    def files(self):
        """The names of all files and folders, but for those of the system."""
        found = set()
        for folder, folders, files in os.walk(self.path):
            at = os.path.relpath(folder, self.path)
            names = [os.path.normpath(os.path.join(at, name)) for name in (*folders, *files)]
            found |= {name for name in names if not name.startswith(OF_THE_SYSTEM)}
        return found


@contextlib.contextmanager
def copy_of(folder):
    """A copy of a root, which goes at the end, with a folder /proc that shows processes."""
    with tempfile.TemporaryDirectory(prefix='rooted') as room:
        root = Root(os.path.join(room, 'root'))
        ran('cp', '-a', folder, root.path)
        ran('mount', '-t', 'proc', 'proc', root.at('proc'))
        try:
            yield root
        finally:
            ran('umount', root.at('proc'))
