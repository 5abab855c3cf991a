"""The libraries of tests/c, which are loaded before a program."""
import contextlib
import os
import subprocess
import tempfile

from tests.smb.program import TOP


@contextlib.contextmanager
def built(name):
    """The path of a library while it is there, made of tests/c/NAME.c."""
    with tempfile.TemporaryDirectory() as folder:
        library, source = os.path.join(folder, f'{name}.so'), os.path.join(TOP, 'tests', 'c', f'{name}.c')
        subprocess.run(['cc', '-shared', '-fPIC', '-O2', '-o', library, source], check=True)
        yield library


@contextlib.contextmanager
def odd_system(what, **further):
    """The environment in which a program meets a system that does this; with further variables."""
    with built('odd_system') as library:
        yield {**os.environ, 'LD_PRELOAD': library, 'ODD_SYSTEM': what, **further}
