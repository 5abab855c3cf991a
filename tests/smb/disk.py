"""A disk of its own, small enough to be filled."""
import contextlib
import os
import subprocess
import tempfile

MIB = 1 << 20


@contextlib.contextmanager
def small_disk(size):
    """A folder on a file system of its own, which has so many bytes; None where there is no right to make one."""
    with tempfile.TemporaryDirectory() as folder:
        mounted = subprocess.run(['mount', '-t', 'tmpfs', '-o', f'size={size}', 'none', folder], check=False,
                                 stderr=subprocess.DEVNULL).returncode == 0
        if not mounted:
            print('  left out: no right to mount a disk', flush=True)
        try:
            yield folder if mounted else None
        finally:
            if mounted:
                subprocess.run(['umount', '-l', folder], check=True)


def fill(folder, leaves=0):
    """Fills a disk but for so many bytes by a file, and gives its name."""
    ballast, disk = os.path.join(folder, 'ballast'), os.statvfs(folder)
    size = disk.f_bavail * disk.f_frsize - leaves
    with open(ballast, 'wb') as it:
        os.posix_fallocate(it.fileno(), 0, size)
    return ballast
