"""What is tried of a package of Debian, and of the tar, each in a root of its own."""
import filecmp
import os
import re
import subprocess

from tests.rooted.root import ran, said
from tests.rooted.unit import Service, client

CONFIG, ACCOUNTS, LOG = '/etc/smbshare/smbshare.toml', '/etc/smbshare/accounts.toml', '/var/log/smbshare/share.log'
DATA, JOURNAL, PASSWORD = 'var/lib/smbshare', '/var/lib/smbshare/journal', b'Password\n'
ANN, BOB = 'ann%Password', 'bob%Password'


class Installed:
    """What is installed in a root: where its unit and its programs are, and what was there before it."""

    def __init__(self, root, folder, unit, programs):
        self.root, self.folder, self.unit, self.programs = root, folder, unit, programs
        self.before = root.files()

    def service(self):
        return Service(self.root, self.unit)

    def put(self, name, text):
        """Makes a file outside the root."""
        with open(os.path.join(self.folder, name), 'w', encoding='utf-8') as it:
            it.write(text)

    def has_back(self, name):
        """Whether a client gets the bytes of a file that one put."""
        client(ANN, f'get {name} back', self.folder)
        return filecmp.cmp(*(os.path.join(self.folder, it) for it in (name, 'back')), shallow=False)

    def left(self):
        """What is there now that was not before."""
        return self.root.files() - self.before


def mode_of(root, name):
    return os.stat(root.at(name)).st_mode & 0o777


def field_of(package, name):
    words = ('dpkg-deb', '--field', package, name)
    return subprocess.run(words, stdout=subprocess.PIPE, check=True).stdout.decode().strip()


def a_package_is_without_faults(_, package):
    """lintian finds no error in it."""
    words = ('lintian', '--allow-root', '--fail-on', 'error', package)
    return 'E: ' not in ran(*words)


def a_package_is_installed(it, package):
    """Its program says the package's version; accounts are root's alone, and the folder of the journal the user's."""
    it.root.ran('dpkg', '--install', package_in(it.root, package))
    version = it.root.ran('smbshare', '--version').split()[1]
    enabled = any(name.endswith('.wants/smbshare.service') for name in it.left())
    return (field_of(package, 'Version').startswith(f'{version}-') and mode_of(it.root, ACCOUNTS) == 0o600
            and mode_of(it.root, DATA) == 0o700 and not enabled)


def package_in(root, package):
    """The name in the root of a copy of a package."""
    name = f'/root/{os.path.basename(package)}'
    ran('cp', package, root.at(name))
    return name


def nothing_is_served_before_it_is_edited(it):
    with it.service() as service:
        return service.status() == 1 and service.lines[0] == 'config: refused'


def an_account_is_added(it, name, *words):
    """By the script beside the program, and it is listed."""
    it.root.ran('smbshare-account', 'add', ACCOUNTS, name, *words, given=PASSWORD)
    return name in it.root.ran('smbshare-account', 'list', ACCOUNTS)


def its_share_is_named(it):
    """In the configuration, which `check` takes then."""
    it.root.ran('sed', '-i', 's/^#share = /share = /', CONFIG)
    words = ('--config', CONFIG, '--login', 'ntlm', '--accounts', ACCOUNTS)
    return 'share: files' in it.root.ran('smbshare', 'check', '--explain', *words)


def it_serves_by_its_unit(it):
    """What ann puts she gets, and a wrong password is refused."""
    it.put('first', 'put before an upgrade\n')
    with it.service():
        client(ANN, 'put first; ls', it.folder)
        refused = client('ann%password', 'ls', it.folder, is_well=False)
        return 'NT_STATUS_LOGON_FAILURE' in refused and it.has_back('first')


def a_reader_only_reads(it):
    """Bob, who was added while it served, from the next start on; what it had is there."""
    with it.service():
        listed = client(BOB, 'ls', it.folder)
        return 'first' in listed and 'ACCESS_DENIED' in client(BOB, 'put first other', it.folder, is_well=False)


def its_log_is_turned_over(it):
    """While it serves: later lines are in a new file, and none is lost."""
    with it.service():
        client(ANN, 'ls', it.folder)
        it.root.ran('logrotate', '--force', '--verbose', '/etc/logrotate.d/smbshare')
        ran('sleep', '2')
        client(ANN, 'ls', it.folder)
        older, newer = it.root.text(f'{LOG}.1'), it.root.text(LOG)
        return '\tann\t' in older + newer and 'started' in older and 'started' not in newer and newer != ''


def it_goes_on_behind_an_upgrade(it, package):
    """With its files, its accounts and the configuration that was edited."""
    config = it.root.text(CONFIG)
    it.root.ran('dpkg', '--force-confold', '--install', package_in(it.root, package))
    version = it.root.ran('smbshare', '--version').split()[1]
    it.put('second', 'put behind an upgrade\n')
    with it.service():
        client(ANN, 'put second; ls', it.folder)
        return (it.has_back('first') and it.has_back('second') and it.root.text(CONFIG) == config
                and field_of(package, 'Version').startswith(f'{version}-'))


def it_is_removed(it):
    """The programs go; configuration, accounts, log and journal stay."""
    it.root.ran('dpkg', '--remove', 'smbshare')
    return not any(it.root.has(name) for name in it.programs) and it.root.has(CONFIG, ACCOUNTS, LOG, JOURNAL)


def its_purge_leaves_its_data(it):
    """And nothing else: the journal and the file of its room."""
    it.root.ran('dpkg', '--purge', 'smbshare')
    left = it.left()
    said(f'  left: {", ".join(sorted(left))}')
    return it.root.has(JOURNAL) and all(name.startswith(DATA) for name in left)


def a_tar_is_installed(it, tar):
    """By its own script, below /usr/local."""
    ran('tar', '-xzf', tar, '-C', it.root.at('/opt'))
    top = next(name for name in os.listdir(it.root.at('/opt')) if name.startswith('smbshare-'))
    it.root.ran('bash', f'/opt/{top}/install.sh')
    return it.root.has(CONFIG, *it.programs) and mode_of(it.root, ACCOUNTS) == 0o600


def script_of(it):
    top = next(name for name in os.listdir(it.root.at('/opt')) if name.startswith('smbshare-'))
    return f'/opt/{top}/install.sh'


def a_tar_is_taken_away(it):
    """But for its configuration, which was edited, the accounts, the log and the journal."""
    it.root.ran('bash', script_of(it), '--uninstall')
    return not any(it.root.has(name) for name in it.programs) and it.root.has(CONFIG, ACCOUNTS, LOG, JOURNAL)


def its_whole_end_leaves_its_data(it):
    it.root.ran('bash', script_of(it), '--purge')
    left = {name for name in it.left() if not re.match(r'opt/smbshare-', name)}
    said(f'  left: {", ".join(sorted(left))}')
    return it.root.has(JOURNAL) and all(name.startswith(DATA) for name in left)


def of_package(it, package, before):
    """The tests of a package, in their order, which comes behind another one where that is named."""
    first = before or package
    return [(a_package_is_without_faults, it, package), (a_package_is_installed, it, first),
            (nothing_is_served_before_it_is_edited, it), (its_share_is_named, it), (an_account_is_added, it, 'ann'),
            (it_serves_by_its_unit, it), (an_account_is_added, it, 'bob', '--readonly'), (a_reader_only_reads, it),
            (its_log_is_turned_over, it), (it_goes_on_behind_an_upgrade, it, package), (it_is_removed, it),
            (its_purge_leaves_its_data, it)]


def of_tar(it, tar):
    """The tests of a tar, in their order."""
    return [(a_tar_is_installed, it, tar), (nothing_is_served_before_it_is_edited, it), (its_share_is_named, it),
            (an_account_is_added, it, 'ann'), (it_serves_by_its_unit, it), (a_tar_is_taken_away, it),
            (its_whole_end_leaves_its_data, it)]
