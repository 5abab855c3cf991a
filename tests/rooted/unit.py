"""The service of a root, begun by the words of its unit: what systemd would make for it is made here."""
import os
import re
import shlex
import shutil
import subprocess

from tests.rooted.root import ran, said

FOLDERS = {'STATE_DIRECTORY': '/var/lib/smbshare', 'LOGS_DIRECTORY': '/var/log/smbshare',
           'CREDENTIALS_DIRECTORY': '/run/credentials/smbshare.service'}
# The user of a unit that has `DynamicUser`: one of those that systemd gives.
DYNAMIC = 61_200
RIGHT = 'net_bind_service'


class Service:
    """The service while it serves."""

    def __init__(self, root, unit):
        self.root, self.lines = root, []
        text = root.text(unit).replace('\\\n', ' ')
        self.user = self.user_of(text)
        self.make_folders()
        line = re.search(r'^ExecStart=(.*)$', text, re.MULTILINE)[1]
        words = shlex.split(re.sub(r'\$\{(\w+)\}', lambda found: FOLDERS[found[1]], line))
        self.process = self.begun(words)

    def user_of(self, text):
        """The number of the unit's user."""
        user = re.search(r'^User=(\w+)$', text, re.MULTILINE)
        if not user:
            return DYNAMIC
        return int(re.search(rf'^{user[1]}:[^:]*:(\d+):', self.root.text('/etc/passwd'), re.MULTILINE)[1])

    def make_folders(self):
        """Those of its journal and its log, and its copy of the accounts."""
        for name in FOLDERS.values():
            os.makedirs(self.root.at(name), 0o700, exist_ok=True)
            os.chown(self.root.at(name), self.user, self.user)
        copy = self.root.at(f'{FOLDERS["CREDENTIALS_DIRECTORY"]}/accounts.toml')
        shutil.copy(self.root.at('/etc/smbshare/accounts.toml'), copy)
        os.chmod(copy, 0o400)
        os.chown(copy, self.user, self.user)

    def begun(self, words):
        """Begins it as its user, with the one right that its unit leaves it."""
        as_user = ('setpriv', f'--reuid={self.user}', f'--regid={self.user}', '--clear-groups', '--no-new-privs',
                   f'--inh-caps=-all,+{RIGHT}', f'--ambient-caps=-all,+{RIGHT}', f'--bounding-set=-all,+{RIGHT}')
        known = ('env', '-i', 'PATH=/usr/bin:/bin', *(f'{name}={value}' for name, value in FOLDERS.items()))
        said(f'& {shlex.join(words)}')
        return subprocess.Popen(('chroot', self.root.path, *as_user, *known, *words), stdin=subprocess.DEVNULL,
                                stdout=subprocess.DEVNULL, stderr=subprocess.PIPE)

    def __enter__(self):
        """Waits until it listens, or has ended."""
        for line in self.process.stderr:
            self.lines.append(line.decode().rstrip('\n'))
            said(f'  {self.lines[-1]}')
            if self.lines[-1].startswith('listening on '):
                break
        return self

    def __exit__(self, *_):
        self.process.terminate()
        left = self.process.communicate()[1].decode().splitlines()
        said(''.join(f'  {line}\n' for line in left) + f'  ended, {self.process.returncode}')
        shutil.rmtree(self.root.at('/run/credentials'), ignore_errors=True)

    def status(self):
        """The status with which it ends by itself."""
        return self.process.wait(60)


def client(who, words, folder, **how):
    """What smbclient says that is run outside the root, in a folder."""
    return ran('smbclient', '//127.0.0.1/files', '-U', who, '-c', words, cwd=folder, **how)
