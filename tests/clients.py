"""Which clients log in to a share that is served with `--login ntlm`, as guests and as a user with a password, and put,
list, get, rename and delete a file there; and which are refused, and how.

    python3 -m tests.clients [PROGRAM]
    python3 -m tests.clients --at PORT CLIENT

Run by hand: the clients are Debian's packages smbclient, samba-testsuite, rclone, python3-impacket and python3-smbc,
which the gate does not need. One that is absent is said to be. The program is crates/smbshare/out/smbshare where none
is named. A line for each client, and what it said where it failed: with `--signing off`, `offered` and `required`, and with
the last two those that insist on signing too. With --at one client, by the name in its line, tries
a share that is served already at a port of this machine.
"""
import os
import pathlib
import shutil
import subprocess
import sys
import tempfile

from tests.smb.client import PATIENCE
from tests.smb.ntlm import account, accounts_file
from tests.smb.program import GUEST as SHARE, Program

HOST = "127.0.0.1"
TEXT = "hello from a file\n"
# A guest, the user of an account, and that user with a wrong password.
GUEST, ANN, WRONG = ("somebody", "secret"), ("ann", "Password"), ("ann", "password")

IMPACKET = """
import io, sys
from impacket.smbconnection import SMBConnection
it = SMBConnection(sys.argv[1], sys.argv[1], sess_port=int(sys.argv[2]))
it.login(sys.argv[4], sys.argv[5])
it.putFile('data', 'i.txt', io.BytesIO(sys.argv[3].encode()).read)
assert 'i.txt' in [entry.get_longname() for entry in it.listPath('data', '*')]
got = io.BytesIO()
it.getFile('data', 'i.txt', got.write)
assert got.getvalue() == sys.argv[3].encode()
it.rename('data', 'i.txt', 'j.txt')
it.deleteFile('data', 'j.txt')
it.logoff()
"""

LIBSMBCLIENT = """
import os, sys, smbc
at = f'smb://{sys.argv[1]}:{sys.argv[2]}/data/'
it = smbc.Context(auth_fn=lambda server, share, group, user, password: ('GROUP', sys.argv[4], sys.argv[5]))
file = it.open(at + 's.txt', os.O_RDWR | os.O_CREAT)
file.write(sys.argv[3].encode())
file.close()
assert 's.txt' in [entry.name for entry in it.opendir(at).getdents()]
assert it.open(at + 's.txt').read() == sys.argv[3].encode()
it.rename(at + 's.txt', at + 't.txt', it)
it.unlink(at + 't.txt')
"""


def ran(*words, folder=None):
    """What a command says, and whether it ended well."""
    try:
        it = subprocess.run(words, cwd=folder, stdin=subprocess.DEVNULL, stdout=subprocess.PIPE,
                            stderr=subprocess.STDOUT, timeout=PATIENCE)
    except subprocess.TimeoutExpired:
        return False, "no end within a minute"
    return it.returncode == 0, it.stdout.decode(errors="replace").strip()


def smbclient(port, folder, *who):
    words = "put a.txt; ls; get a.txt b.txt; rename a.txt c.txt; del c.txt"
    well, said = ran("smbclient", *who, f"//{HOST}/data", "-p", port, "-c", words, folder=folder)
    return well and (folder / "b.txt").read_text() == TEXT, said


def is_refused(port, folder, status, *words):
    """Whether smbclient ends with this status."""
    well, said = smbclient(port, folder, *words)
    return not well and status in said, f"is not refused so: {said}"


def rclone(port, folder, user, password):
    hidden = ran("rclone", "obscure", password)[1].splitlines()[-1]
    at = f":smb,host={HOST},port={port},user={user},pass={hidden}:data"
    for words in (("copy", "a.txt", at), ("lsf", at), ("copyto", at + "/a.txt", "b.txt"),
                  ("moveto", at + "/a.txt", at + "/c.txt"), ("deletefile", at + "/c.txt")):
        well, said = ran("rclone", "--config", "rclone.conf", *words, folder=folder)
        if not well:
            return False, f"{words[0]}: {said}"
    return (folder / "b.txt").read_text() == TEXT, said


def torture(port, user, password, test="smb2.connect", *words):
    return ran("smbtorture", "-p", port, f"//{HOST}/data", "-U", f"{user}%{password}", *words, test)


def python(port, program, user, password):
    return ran("/usr/bin/python3", "-c", program, HOST, port, TEXT, user, password)


def clients_of(user, password):
    """The clients with a user's name and password: what is printed of each, what it needs, and a call of it."""
    who = f"{user}%{password}"
    return (
        (f"smbclient -U {who}", "smbclient", lambda port, folder: smbclient(port, folder, "-U", who)),
        (f"smbtorture smb2.connect -U {who}", "smbtorture", lambda port, folder: torture(port, user, password)),
        (f"libsmbclient (python3-smbc), {user}", "/usr/lib/python3/dist-packages/smbc",
         lambda port, folder: python(port, LIBSMBCLIENT, user, password)),
        (f"impacket, {user}", "/usr/lib/python3/dist-packages/impacket",
         lambda port, folder: python(port, IMPACKET, user, password)),
        (f"rclone, {user}", "rclone", lambda port, folder: rclone(port, folder, user, password)),
    )


CLIENTS = (
    ("smbclient -N", "smbclient", lambda port, folder: smbclient(port, folder, "-N")),
    ("smbclient -U%", "smbclient", lambda port, folder: smbclient(port, folder, "-U%")),
    *clients_of(*GUEST),
    *clients_of(*ANN),
)
INSIST = "--option=clientsigning=required"
SIGNS = "it._SMBConnection._Connection['RequireSigning'] = True\n"
# Those that insist on signing.
SIGNING = (
    *((" ".join(("smbclient", *words)), "smbclient",
       lambda port, folder, words=words: smbclient(port, folder, *words, "-U", "%".join(ANN)))
      for words in (("--client-protection=sign",), ("--client-protection=sign", "-m", "SMB2_02"))),
    *((f"smbtorture {test} {INSIST}", "smbtorture", lambda port, folder, test=test: torture(port, *ANN, test, INSIST))
      for test in ("smb2.connect", "smb2.rw.rw1", "smb2.dir.many")),
    ("impacket, which signs", "/usr/lib/python3/dist-packages/impacket",
     lambda port, folder: python(port, IMPACKET.replace("it.login", f"{SIGNS}it.login"), *ANN)),
)
# Words of smbclient by which it does not come in, and the status that it tells.
REFUSED = (
    (("-U", "%".join(WRONG)), "NT_STATUS_LOGON_FAILURE"),
    (("--client-protection=sign", "-N"), "NT_STATUS_ACCESS_DENIED"),
    (("--option=client ntlmv2 auth=no", "-U", "%".join(ANN)), "NT_STATUS_LOGON_FAILURE"),
    (("--use-kerberos=required", "-U", "%".join(ANN)), "NT_STATUS_ACCESS_DENIED"),
    (("--option=client min protocol=SMB3", "-U", "%".join(ANN)), "NT_STATUS_NOT_SUPPORTED"),
)


def refused_by(words, status):
    """What `tried` takes of a client that is to be refused."""
    return " ".join(("smbclient", *words)), "smbclient", lambda port, folder: is_refused(port, folder, status, *words)


def tried(port, clients, outcome="works"):
    """Tries each client, prints a line of it, which says this where it is so, and gives how many failed."""
    failed = 0
    for name, needs, client in clients:
        if not shutil.which(needs) and not os.path.exists(needs):
            print(f"{name}: absent", flush=True)
            continue
        with tempfile.TemporaryDirectory() as folder:
            (pathlib.Path(folder) / "a.txt").write_text(TEXT)
            well, said = client(port, pathlib.Path(folder))
        print(f"{name}: {outcome if well else said}", flush=True)
        failed += not well
    return failed


def tried_with(program):
    """Tries each client with shares of this program, to guests and to an account, and gives how many failed."""
    with tempfile.TemporaryDirectory() as folder:
        accounts = accounts_file(folder, account(ANN[0]))
        return sum(tried_signed(program, accounts, mode) for mode in ("off", "offered", "required"))


def tried_signed(program, accounts, mode):
    """Tries each client with a share whose accounts are signed so."""
    print(f"--signing {mode}", flush=True)
    words = ("--config", SHARE, "--login", "ntlm", "--accounts", accounts, "--signing", mode)
    with program.serve(*words) as share:
        port = str(share.port)
        return (tried(port, CLIENTS) + (mode != "off" and tried(port, SIGNING))
                + sum(tried(port, [refused_by(*it)], f"is refused, {it[1]}") for it in REFUSED))


def main(words):
    if words[:1] == ["--at"] and len(words) == 3:
        named = [it for it in (*CLIENTS, *SIGNING, *(refused_by(*one) for one in REFUSED)) if it[0] == words[2]]
        return 1 if not named or tried(words[1], named) else 0
    return 1 if tried_with(Program(*words)) else 0


if __name__ == "__main__":
    sys.exit(main(sys.argv[1:]))
