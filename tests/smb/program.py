"""The program, by its path: what a run of it gives, and what it serves."""
import os
import resource
import signal
import subprocess

from tests.smb.client import PATIENCE, Client

TOP = os.path.dirname(os.path.dirname(os.path.dirname(os.path.abspath(__file__))))
PROVED = os.path.join(TOP, 'crates', 'smbshare', 'out', 'smbshare')
GUEST = os.path.join(TOP, 'guest.toml')


def limits(descriptors=None, memory=None, longest=None):
    """What a new process calls to be limited so. It may write `longest` bytes of a file: a write past them fails."""
    def limit():
        signal.signal(signal.SIGXFSZ, signal.SIG_IGN)
        for kind, most in ((resource.RLIMIT_NOFILE, descriptors), (resource.RLIMIT_AS, memory),
                           (resource.RLIMIT_FSIZE, longest)):
            if most:
                resource.setrlimit(kind, (most, most))

    return limit


def giving_back():
    """The environment in which the run-time checks of an unproved program keep no memory that was given back."""
    return {**os.environ, 'ASAN_OPTIONS': 'quarantine_size_mb=0:thread_local_quarantine_size_kb=0'}


class Program:
    """The program at a path. One that is unproved is slow, and its run-time checks have memory of their own."""

    def __init__(self, path=PROVED, is_unproved=False):
        self.path, self.is_unproved = os.path.abspath(path), is_unproved
        self.patience = 5 * PATIENCE if is_unproved else PATIENCE

    def run(self, *words, given=subprocess.DEVNULL, longest=None, **how):
        """The status, standard output and standard error of a run; what is given is a file, or bytes by a pipe."""
        streams = {'stdout': subprocess.PIPE, 'stderr': subprocess.PIPE, 'timeout': self.patience, **how}
        streams['input' if isinstance(given, bytes) else 'stdin'] = given
        if longest:
            streams['preexec_fn'] = limits(longest=longest)
        done = subprocess.run([self.path, *words], check=False, **streams)
        return done.returncode, done.stdout, done.stderr

    def ran(self, *words, **how):
        """The same, with standard error as a text."""
        status, output, errors = self.run(*words, **how)
        return status, output, errors.decode()

    def begins(self, *words, **how):
        """A process of it."""
        return subprocess.Popen([self.path, *words], **how)

    def serve(self, *words, **how):
        return Served(self, *words, **how)


class Served:
    """A program, serving on a free port."""
    patience = PATIENCE

    def __init__(self, program, *words, descriptors=None, memory=None, longest=None, system=None):
        self.process = program.begins('serve', '--listen', '127.0.0.1:0', *words, stdin=subprocess.DEVNULL,
                                      stdout=subprocess.PIPE, stderr=subprocess.PIPE, env=system,
                                      preexec_fn=limits(descriptors, memory, longest))
        # What a share that is kept says before it listens.
        self.before = []
        self.patience = program.patience
        self.port = int(self.first_line().rsplit(':', 1)[1])

    def first_line(self):
        """The line that says where it listens."""
        for line in iter(self.process.stderr.readline, b''):
            self.before.append(line.decode())
            if self.before[-1].startswith('listening on 127.0.0.1:'):
                return self.before.pop()
        raise AssertionError(f'it does not listen, and says {self.before!r}')

    def __enter__(self):
        return self

    def __exit__(self, *_):
        self.process.kill()
        self.process.communicate()

    def client(self, source=None):
        return Client(self.port, self.patience, source=source)


def memory_of(share):
    """How many bytes of memory the program has."""
    return pages_of(share, 1)


def addresses_of(share):
    """How many bytes of addresses the program has: what its limit of memory counts."""
    return pages_of(share, 0)


def pages_of(share, column):
    with open(f'/proc/{share.process.pid}/statm', encoding='ascii') as it:
        return int(it.read().split()[column]) * resource.getpagesize()


def descriptors_of(share):
    """How many descriptors the program has open."""
    return len(os.listdir(f'/proc/{share.process.pid}/fd'))
