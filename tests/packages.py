"""What is installed: a Debian package and a tar of the program, the same bytes twice, and what installs it from the
repository and takes it away."""
import functools
import hashlib
import os
import re
import shutil
import subprocess
import tarfile
import tempfile

from tests.smb.program import TOP

TOOLS = ('git', 'strip', 'dpkg-deb')
ROOT = 'root/root'
# The files of the package, and which of them are programs.
PROGRAMS = {'./usr/bin/smbshare', './usr/bin/smbshare-account'}
CONFIGURATION = {'./etc/smbshare/smbshare.toml', './etc/logrotate.d/smbshare'}
DOCUMENTS = {f'./usr/share/doc/smbshare/{name}' for name in (
    'BUILD', 'README.Debian', 'copyright', 'changelog.Debian.gz', 'changelog.gz', 'SERVING.md.gz', 'DATA.md.gz',
    'examples/office.toml', 'examples/device.toml')}
FILES = PROGRAMS | CONFIGURATION | DOCUMENTS | {
    './lib/systemd/system/smbshare.service', './usr/share/man/man1/smbshare.1.gz',
    './usr/share/man/man1/smbshare-account.1.gz'}


def printed(*words, **how):
    """What a command prints."""
    return subprocess.run(words, stdin=subprocess.DEVNULL, stdout=subprocess.PIPE, check=True, **how).stdout.decode()


def is_clone():
    """Whether git tells of which commit this is: it reads no clone that is another user's."""
    return subprocess.run(['git', 'rev-parse', '--verify', 'HEAD'], cwd=TOP, stdout=subprocess.DEVNULL,
                          stderr=subprocess.DEVNULL, check=False).returncode == 0


def left_out(program):
    """Whether no package can be made here, which is said."""
    why = [f'there is no {it}' for it in TOOLS if not shutil.which(it)]
    if not why and not is_clone():
        why.append('this is no clone of the repository that git reads')
    if bytes_of(program.path)[:2] == b'#!':
        why.append('the program is started by a script')
    if why:
        print(f'  left out, since {why[0]}', flush=True)
    return bool(why)


def packaged(program, folder, *words, **others):
    """Makes the packages; gives the paths of the tar and of the package."""
    printed('bash', os.path.join(TOP, 'tools/package.sh'), '--program', program.path, '--out', folder, *words,
            env={**os.environ, **others})
    ends = {name.rpartition('.')[2]: os.path.join(folder, name) for name in os.listdir(folder)}
    return ends['gz'], ends['deb']


@functools.lru_cache(maxsize=None)
def room():
    """A folder for what all tests look at, which goes at the end."""
    return tempfile.TemporaryDirectory()


@functools.lru_cache(maxsize=None)
def made(program):
    """The packages, made once, and the folder that they are in."""
    return (*packaged(program, room().name), room().name)


def bytes_of(path):
    with open(path, 'rb') as it:
        return it.read()


def files_below(folder):
    """The files below a folder, by their names from there."""
    return {os.path.relpath(os.path.join(at, name), folder) for at, _, names in os.walk(folder) for name in names}


def in_deb(program, name):
    """A file of the package."""
    whole = subprocess.run(['dpkg-deb', '--fsys-tarfile', made(program)[1]], stdout=subprocess.PIPE, check=True).stdout
    with tempfile.TemporaryFile() as it:
        it.write(whole)
        it.seek(0)
        return tarfile.open(fileobj=it).extractfile(name).read()


def the_same_bytes_are_made_twice(program):
    """Whatever rights new files have, and in another zone of time; and the digests are theirs."""
    if left_out(program):
        return True
    tar, deb, folder = made(program)
    digests = {os.path.basename(it): hashlib.sha256(bytes_of(it)).hexdigest() for it in (tar, deb)}
    sums = ''.join(f'{digests[name]}  {name}\n' for name in sorted(digests))
    with tempfile.TemporaryDirectory() as other:
        before = os.umask(0o077)
        try:
            again = packaged(program, other, TZ='Asia/Tokyo', LC_ALL='C')
        finally:
            os.umask(before)
        same = [bytes_of(it) for it in again] == [bytes_of(tar), bytes_of(deb)]
    return same and bytes_of(os.path.join(folder, 'SHA256SUMS')).decode() == sums


def the_package_has_its_files(program):
    """All of them root's, with their rights, and of one moment; those of /etc are configuration to dpkg."""
    if left_out(program):
        return True
    rows = [it.split(None, 5) for it in printed('dpkg-deb', '--contents', made(program)[1]).splitlines()]
    files = {row[5]: row[0] for row in rows if row[0][0] != 'd'}
    wanted = {it: '-rwxr-xr-x' if it in PROGRAMS else '-rw-r--r--' for it in FILES}
    configuration = printed('dpkg-deb', '--info', made(program)[1], 'conffiles').split()
    return (files == wanted and {row[1] for row in rows} == {ROOT} and len({tuple(row[3:5]) for row in rows}) == 1
            and {row[0] for row in rows if row[0][0] == 'd'} == {'drwxr-xr-x'}
            and {f'.{it}' for it in configuration} == CONFIGURATION)


def the_package_says_what_it_is(program):
    """Its version is the program's, it needs a C library, and its note has the commit and the program's digest."""
    if left_out(program):
        return True
    fields = printed('dpkg-deb', '--field', made(program)[1])
    version = program.ran('--version')[1].decode().split()[1]
    note = in_deb(program, './usr/share/doc/smbshare/BUILD').decode()
    digest = hashlib.sha256(in_deb(program, './usr/bin/smbshare')).hexdigest()
    words = (f'version: {version}\n', printed('git', 'rev-parse', 'HEAD', cwd=TOP).strip(), digest, 'gate: ', 'kit: ')
    return (f'Version: {version}-1\n' in fields and re.search(r'^Depends: libc6 \(>= 2\.\d+\), ', fields, re.M)
            and all(it in note for it in words))


def the_version_is_one(program):
    """All that the sources name is what the program says of itself."""
    crates = os.path.join(TOP, 'crates')
    texts = [bytes_of(os.path.join(crates, crate, 'src', name)).decode()
             for crate in os.listdir(crates) for name in os.listdir(os.path.join(crates, crate, 'src'))
             if name.endswith('.rt')]
    named = {it for text in texts for it in re.findall(r'(?:\bVERSION: &str = |\.version\()"([^"]*)"', text)}
    return program.ran('--version')[1].decode() == ''.join(f'smbshare {it}\n' for it in named)


def the_scripts_are_scripts(program):
    """Those that dpkg runs, and the unit starts the program that is there."""
    if left_out(program):
        return True
    with tempfile.TemporaryDirectory() as folder:
        printed('dpkg-deb', '--control', made(program)[1], folder)
        for name in ('postinst', 'prerm', 'postrm'):
            printed('sh', '-n', os.path.join(folder, name))
    unit = in_deb(program, './lib/systemd/system/smbshare.service').decode()
    return all(f'\n{it}' in unit for it in ('ExecStart=/usr/bin/smbshare serve', 'User=smbshare\n', 'Group=smbshare\n'))


def a_later_commit_is_newer(program):
    """With --snapshot, than the version itself; and SOURCE_DATE_EPOCH is the moment."""
    if left_out(program):
        return True
    with tempfile.TemporaryDirectory() as folder:
        later = packaged(program, folder, '--snapshot', SOURCE_DATE_EPOCH='4102444800')[1]
        versions = [printed('dpkg-deb', '--field', it, 'Version').strip() for it in (made(program)[1], later)]
        printed('dpkg', '--compare-versions', versions[0], 'lt', versions[1])
        return '+21000101.000000.' in versions[1]


def the_tar_unpacks_and_installs(program):
    """Its program says the same of itself; what install.sh of it puts into a folder, it takes away."""
    if left_out(program):
        return True
    with tempfile.TemporaryDirectory() as folder:
        with tarfile.open(made(program)[0]) as it:
            it.extractall(folder)
        top = os.path.join(folder, *os.listdir(folder))
        same = printed(os.path.join(top, 'smbshare'), '--version') == program.ran('--version')[1].decode()
        return same and installs(os.path.join(top, 'install.sh'))


def installs(script, *words):
    """Whether a script installs into a folder what works there, and takes all away but a configuration that was edited;
    that goes at a purge."""
    with tempfile.TemporaryDirectory() as folder:
        known = {**os.environ, 'DESTDIR': folder}
        config, prefix = os.path.join(folder, 'etc/smbshare/smbshare.toml'), ('--prefix', '/opt/smb')
        printed('bash', script, *words, *prefix, env=known)
        found, unit = files_below(folder), os.path.join(folder, 'opt/smb/lib/systemd/system/smbshare.service')
        well = (b'\nExecStart=/opt/smb/bin/smbshare serve' in bytes_of(unit)
                and printed(os.path.join(folder, 'opt/smb/bin/smbshare'), '--version').startswith('smbshare '))
        with open(config, 'a', encoding='utf-8') as it:
            it.write('# edited\n')
        edited = bytes_of(config)
        printed('bash', script, *words, *prefix, env=known)
        kept = bytes_of(config) == edited and os.path.exists(f'{config}.new')
        printed('bash', script, '--uninstall', *prefix, env=known)
        left = files_below(folder)
        printed('bash', script, '--purge', *prefix, env=known)
        return (well and kept and len(found) == 7 and left == {'etc/smbshare/smbshare.toml'}
                and not files_below(folder))


def the_repository_installs(program):
    """By tools/install.sh, the program that is named."""
    return installs(os.path.join(TOP, 'tools/install.sh'), '--program', program.path)


def nothing_is_served_until_it_is_edited(program):
    """The configuration that is installed is refused, and taken once it names the share."""
    config = os.path.join(TOP, 'examples/smbshare.toml')
    text = bytes_of(config).decode()
    with tempfile.NamedTemporaryFile('w', encoding='utf-8') as it:
        it.write(text.replace('\n#share = ', '\nshare = '))
        it.flush()
        named = program.ran('check', '--config', it.name, '--login', 'ntlm')
    refused = program.ran('check', '--config', config, '--login', 'ntlm', '--explain')
    return named[0] == 0 and b'share: files\n' in named[1] and refused[0] == 1 and 'share: ' in refused[2]


def what_is_no_program_is_refused(program):
    """A script is not packaged, and it is said why; nor is what is not there installed."""
    if left_out(program):
        return True
    script = os.path.join(TOP, 'tools/serve.sh')
    with tempfile.TemporaryDirectory() as folder:
        refused = [subprocess.run(['bash', os.path.join(TOP, 'tools', name), '--program', path, *words], check=False,
                                  env={**os.environ, 'DESTDIR': folder}, stderr=subprocess.PIPE)
                   for name, path, *words in (('package.sh', script, '--out', folder), ('install.sh', '/nowhere'))]
        return ([it.returncode for it in refused] == [1, 1] and b'no program for Linux' in refused[0].stderr
                and refused[1].stderr == b'install.sh: there is no /nowhere\n' and not files_below(folder))


TESTS = (
    the_same_bytes_are_made_twice, the_package_has_its_files, the_package_says_what_it_is, the_version_is_one,
    the_scripts_are_scripts, a_later_commit_is_newer, the_tar_unpacks_and_installs, the_repository_installs,
    nothing_is_served_until_it_is_edited, what_is_no_program_is_refused,
)


def tests(words):
    return [(test, words.program) for test in TESTS]
