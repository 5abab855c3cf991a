"""An address that moves to a second machine, by keepalived, and a journal that both machines reach."""
import contextlib
import os
import random
import re
import shutil
import socket
import struct
import subprocess
import tempfile
import time

from tests.keeping.killing import CLIENTS, Large
from tests.second.following import run_beside
from tests.second.machines import ADDRESS, NEEDED, PORT, two_machines
from tests.second.states import LARGE_FILE, Followed, files_of_each
from tests.smb.client import PATIENCE, Client
from tests.smb.frames import negotiate, session_setup, tree_connect
from tests.smb.kept import Looking
from tests.smb.ntlm import MORE_PROCESSING, NEGOTIATE, authenticate
from tests.smb.program import GUEST
from tests.smb.working import SESSION_ID_AT, Wrong

# For how long an answer is waited for where the address may be at no machine, how long it is tried, and how long a
# machine lives on that was cut off.
SOON, AT_MOST, LIVES_ON = 0.25, 30, 3
IN_USE = 'in use'


class Place:
    """The share at the address that moves."""

    def client(self, patience=PATIENCE):
        """A client's stream."""
        return Client(PORT, patience, ADDRESS)


class Guest:
    """A client that logs in by NTLM, as a guest."""

    def logs_in(self):
        """Negotiates, and gets a session and a tree."""
        self.asks(negotiate(self.next_id()), 0, None)
        reply = self.asks(session_setup(self.next_id(), NEGOTIATE), MORE_PROCESSING, None)
        self.session = struct.unpack_from('<Q', reply, SESSION_ID_AT)[0]
        self.asks(session_setup(self.next_id(), authenticate('guest'), self.session), 0, None)
        self.asks(tree_connect(self.next_id(), self.session), 0, None)


class GuestAtWork(Guest, Followed):
    """A guest that writes, renames and deletes."""


class GuestLarge(Guest, Large):
    """A guest that writes a large file, so that the journal gets long."""


class GuestLooking(Guest, Looking):
    """A guest that sees all files."""


def waits_for(what, is_so, longest=AT_MOST):
    """Waits until it is so, and gives how many seconds it took."""
    begun = time.monotonic()
    while not is_so():
        if time.monotonic() - begun > longest:
            raise Wrong(f'after {longest} seconds: {what}')
        time.sleep(0.01)
    return time.monotonic() - begun


def answers(place):
    """Whether a new client is answered at the address."""
    with contextlib.suppress(OSError):
        client = place.client(SOON)
        try:
            return client.negotiates()
        finally:
            client.end()
    return False


def listed():
    """The names at the top that smbclient lists at the address."""
    words = ('smbclient', '-N', f'//{ADDRESS}/data', '-p', str(PORT), '-c', 'ls')
    done = subprocess.run(words, stdin=subprocess.DEVNULL, stdout=subprocess.PIPE, stderr=subprocess.STDOUT,
                          timeout=PATIENCE, check=False)
    text = done.stdout.decode()
    if done.returncode != 0:
        raise Wrong(f'smbclient: {text}')
    return sorted(set(re.findall(r'^  (\S.*?) +[A-Z]* +\d+  \w', text, re.M)) - {'.', '..'})


def begun_by_hand(program, machine, file):
    """The status of a server that is begun on a machine with the same file, and what it says."""
    words = (program.path, 'serve', '--listen', '127.0.0.1:0', '--turns', '1', '--config', GUEST, '--journal', file)
    process = machine.runs(*words, stdout=subprocess.PIPE, stderr=subprocess.PIPE)
    _, errors = process.communicate(timeout=PATIENCE)
    return process.returncode, errors.decode().strip()


def tries_by_hand(program, place, machine, file):
    """How often a server is begun by hand on a machine while FILE.new takes the name of FILE, which another one has;
    what those say that are refused, and whether all are."""
    first, found = os.stat(file).st_ino, []
    threads = run_beside((GuestLarge(place, CLIENTS).writes_until, lambda: os.stat(file).st_ino != first))
    while threads[0].is_alive():
        found.append(begun_by_hand(program, machine, file))
    threads[0].join()
    found.append(begun_by_hand(program, machine, file))
    return len(found), {said for status, said in found if status == 1}, {status for status, _ in found} == {1}


def dies(first):
    """The first machine dies at once; gives when."""
    died = time.monotonic()
    first.dies()
    return died


def is_cut_off_and_dies(first, second):
    """The first machine is cut off, lives on for a while, and dies; the second has the address meanwhile, and no share.
    Gives when it died."""
    first.is_cut_off()
    took = waits_for('the second has no address', second.has_address)
    waits_for('the second did not try', lambda: IN_USE in second.said())
    time.sleep(LIVES_ON)
    if 'listening' in second.said():
        raise Wrong(f'the second began while the first had FILE: {second.said()}')
    print(f'    cut off: the second had the address after {took:.1f} seconds, and was refused '
          f'{second.said().count(IN_USE)} times: {second.said().splitlines()[0]}', flush=True)
    return dies(first)


@contextlib.contextmanager
def at_work(place, seed):
    """Clients at work, until they are ended behind it."""
    wrong = []
    clients = [GuestAtWork(place, i, seed, lambda: 0) for i in range(CLIENTS)]
    threads = run_beside(*((client.works_on, wrong) for client in clients))
    try:
        yield clients
    finally:
        for client in clients:
            with contextlib.suppress(OSError):
                client.client.stream.shutdown(socket.SHUT_RDWR)
        for thread in threads:
            thread.join()
    if wrong:
        raise Wrong(wrong[0])


def is_all_there(place, clients, before):
    """Whether nothing is lost that was acknowledged, and smbclient lists what is there; it is told."""
    of_each, after = files_of_each(GuestLooking(place).comes_in().tree()), listed()
    may_be_left = [client.may_be_left() for client in clients]
    happened = sum(found == left[1] != left[0] for found, left in zip(of_each, may_be_left))
    lost = sum(found not in left for found, left in zip(of_each, may_be_left))
    names = sorted([LARGE_FILE] + [name for found in of_each for name in found if '\\' not in name])
    print(f'    {lost} of {CLIENTS} clients lost something, and of {CLIENTS} requests under way {happened} had changed '
          f'something; smbclient listed {len(before)} names before, and {len(after)} after', flush=True)
    return lost == 0 and after == names


def moves(program, folder, first, second, seconds, seed, is_cut_off):
    """Whether nothing is lost that was acknowledged where the address moves from one machine to the other."""
    place, chance, file = Place(), random.Random(seed), os.path.join(folder, 'journal')
    first.begins(program, GUEST, file, 100)
    second.begins(program, GUEST, file, 90)
    waits_for('the first does not answer', lambda: answers(place))
    with at_work(place, seed) as clients:
        time.sleep(chance.uniform(seconds / 4, seconds / 2))
        before, (tried, refused, is_refused) = listed(), tries_by_hand(program, place, second, file)
        time.sleep(chance.uniform(seconds / 4, seconds / 2))
        if not first.has_address() or second.has_address():
            raise Wrong('the address is not at the first')
        print(f'    begun by hand on the second beside the first, {tried} times, also as FILE.new took the name of '
              f'FILE: {"refused" if is_refused else "NOT refused"}, {" and ".join(refused)}', flush=True)
        died = is_cut_off_and_dies(first, second) if is_cut_off else dies(first)
        waits_for('the second does not answer', lambda: answers(place))
        took = time.monotonic() - died
    print(f'    {sum(client.answered for client in clients):,} answers; the second answered {took:.2f} seconds after '
          'the end of the first', flush=True)
    is_right = is_all_there(place, clients, before) and second.has_address()
    return is_right and is_refused and all(IN_USE in said for said in refused)


def an_address_moves(program, seconds, seed):
    """Whether it is so where the first machine dies, and where it is cut off first."""
    absent = [name for name in NEEDED if not shutil.which(name)]
    if absent:
        print(f'  left out: there is no {", ".join(absent)}', flush=True)
        return False
    is_right = True
    for is_cut_off in (False, True):
        with tempfile.TemporaryDirectory() as folder, two_machines(folder) as (first, second):
            print(f'  the first machine {"is cut off, and dies later" if is_cut_off else "dies"}:', flush=True)
            try:
                is_right &= moves(program, folder, first, second, seconds, f'{seed}/{is_cut_off}', is_cut_off)
            except Exception:
                for machine in (first, second):
                    print(machine.said(), machine.said('log'), sep='\n', flush=True)
                raise
    return is_right
