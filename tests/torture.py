"""Which tests of smbtorture come out otherwise where each request has to be signed than where nothing is.

    python3 -m tests.torture [PROGRAM [PREFIX]]

Run by hand: smbtorture is of Debian's package samba-testsuite. Each test whose name begins with PREFIX, `smb2.` where none
is given, is run over a share of its own, unsigned and then with `--signing required` and `clientsigning=required`. A
line for each that differs, with its two outcomes, and last how many did not.
"""
import collections
import concurrent.futures
import re
import subprocess
import sys
import tempfile

from tests.clients import ANN, HOST, INSIST
from tests.smb.ntlm import account, accounts_file
from tests.smb.program import Program

PATIENCE, AT_ONCE = 30, 4
LEFT_OUT = ("smb2.bench.", "smb2.hold-", "smb2.multichannel.")


def outcome(program, accounts, mode, name):
    """How a test ends, and where in its source it fails, or that it has no end within half a minute."""
    signing = (INSIST,) if mode == "required" else ()
    with program.serve("--login", "ntlm", "--accounts", accounts, "--signing", mode) as share:
        words = ("smbtorture", "-p", str(share.port), f"//{HOST}/data", "-U", "%".join(ANN), *signing, name)
        try:
            done = subprocess.run(words, stdin=subprocess.DEVNULL, stdout=subprocess.PIPE, stderr=subprocess.STDOUT,
                                  timeout=PATIENCE, check=False)
        except subprocess.TimeoutExpired:
            return "no end"
    said = done.stdout.decode(errors="replace")
    found = re.findall(r"^(success|failure|error|skip): (.*)$", said, re.M)
    why = re.search(r"^failure: .*\[\n(\S+)", said, re.M)
    return ", ".join(kind for kind, _ in found) + (f" ({why[1]})" if why else "") or said.strip().splitlines()[-1]


def main(words):
    program, prefix = Program(*words[:1]), "".join(words[1:2]) or "smb2."
    listed = subprocess.run(["smbtorture", "--list"], stdout=subprocess.PIPE, check=True).stdout.decode().split()
    names = sorted({it for it in listed if it.startswith(prefix) and not it.startswith(LEFT_OUT)})
    kinds = collections.Counter()
    with tempfile.TemporaryDirectory() as folder, concurrent.futures.ThreadPoolExecutor(AT_ONCE) as at_once:
        accounts = accounts_file(folder, account(ANN[0]))
        both = list(at_once.map(lambda it: [outcome(program, accounts, mode, it) for mode in ("off", "required")], names))
    for name, (unsigned, signed) in zip(names, both):
        if unsigned != signed:
            print(f"{name}: {unsigned}; signed: {signed}", flush=True)
        kinds["differ" if unsigned != signed else unsigned.partition(" ")[0]] += 1
    print(", ".join(f"{count} {kind}" for kind, count in kinds.most_common()))
    return 0


if __name__ == "__main__":
    sys.exit(main(sys.argv[1:]))
