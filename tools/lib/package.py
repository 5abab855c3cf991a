"""Makes of the proved program a Debian package and a tar.gz of the same, with their SHA256SUMS, in out/package.

Without --program the program is proved and built first, as `bash tools/serve.sh --proved` does. The version is the one
that the program itself says. The same commit gives the same bytes wherever the compiler, `strip`, `dpkg-deb` and zlib
are the same: the note BUILD in both names the last three.
"""
import argparse
import collections
import hashlib
import os
import pathlib
import re
import shutil
import subprocess
import sys
import tempfile
import time
import zlib

import needs
import proving
from debian import debian_files, write_deb
from proving import TOP
from tarred import tar_files, write_tar

PROVED, OUT, GATE = TOP / "crates" / "smbshare" / "out" / "smbshare", TOP / "out" / "package", TOP / "docs" / "GATE.md"
TOOLS = {"git": "git", "strip": "binutils", "dpkg-deb": "dpkg"}

# What is packaged: the program as it is put in, its version, what it needs, when the commit was made, in seconds since
# 1970 and in words, and the note BUILD.
Made = collections.namedtuple("Made", "program version needs seconds day note")


class NotMade(Exception):
    """There is no package."""


def say(text):
    print(text, file=sys.stderr, flush=True)


def said_by(*words):
    """The first line that a command prints; where it fails there is no package."""
    how = {"cwd": TOP, "stdin": subprocess.DEVNULL, "stdout": subprocess.PIPE, "check": True}
    try:
        done = subprocess.run([str(it) for it in words], **how)
    except (OSError, subprocess.CalledProcessError) as why:
        raise NotMade(f"{' '.join(map(str, words))}: {why}") from why
    return done.stdout.decode(errors="replace").partition("\n")[0]


def version_of(program):
    """The version that a program says is its own."""
    said = said_by(program, "--version")
    found = re.fullmatch(r"smbshare (\d+(?:\.\d+)*)", said)
    if not found:
        raise NotMade(f"{program} --version: {said!r} is no version")
    return found[1]


def commit():
    """The name of the commit, with what is said of changes behind it, and the second at which it was made."""
    name, seconds = said_by("git", "log", "-1", "--format=%H %ct").split()
    changed = " and what was changed since" if said_by("git", "status", "--porcelain") else ""
    return name, changed, int(os.environ.get("SOURCE_DATE_EPOCH") or seconds)


def gate_line(given):
    """The last line of the gate that is given, else that of docs/GATE.md, which says of which commit it is."""
    if given:
        return given
    text = " ".join(GATE.read_text(encoding="utf-8").split())
    of, line = re.search(r"clean clone of (\w+)", text), re.search(r"`(\d+ passed, \d+ failed)`", text)
    if not of or not line:
        raise NotMade("docs/GATE.md has no last line of the gate: --gate LINE gives one")
    return f"{line[1]} (of {of[1]}: docs/GATE.md)"


def without_symbols(program):
    """The bytes of a program without what is there for debuggers alone."""
    with tempfile.TemporaryDirectory() as folder:
        stripped = os.path.join(folder, "smbshare")
        said_by("strip", "--remove-section=.comment", "-o", stripped, program)
        return pathlib.Path(stripped).read_bytes()


def made_of(program, words):
    """What is packaged of a program."""
    built, (name, changed, seconds) = program.read_bytes(), commit()
    try:
        needed = needs.usual_needs_of(built)
    except needs.Odd as why:
        raise NotMade(f"{program}: {why}") from why
    packed, version, moment = without_symbols(program), version_of(program), time.gmtime(seconds)
    if words.snapshot:
        version += time.strftime("+%Y%m%d.%H%M%S.", moment) + name[:7]
    lines = {
        "version": version,
        "commit": f"{name}{changed}, of {time.strftime('%Y-%m-%d %H:%M:%S UTC', moment)}",
        "proved": "not by this: the program was given by --program" if words.program else "yes, before it was built",
        "kit": said_by("rt", "version") if shutil.which("rt") else "not known: there is no rt on the path",
        "gate": gate_line(words.gate),
        "needs": f"Linux on x86-64; glibc {needed.glibc} or later ({', '.join(needed.libraries)})",
        "program as built": f"sha256 {hashlib.sha256(built).hexdigest()}",
        "program as packed": f"sha256 {hashlib.sha256(packed).hexdigest()}, without its symbols",
        "packed by": "; ".join((said_by("strip", "--version"), said_by("dpkg-deb", "--version").rstrip("."),
                                f"zlib {zlib.ZLIB_RUNTIME_VERSION}")),
    }
    note = "".join(f"{it}: {text}\n" for it, text in lines.items())
    return Made(packed, version, needed, seconds, time.strftime("%a, %d %b %Y %H:%M:%S +0000", moment), note)


def write_sums(files, folder):
    """Writes the digests of the files, for `sha256sum -c`."""
    lines = [f"{hashlib.sha256(it.read_bytes()).hexdigest()}  {it.name}\n" for it in sorted(files)]
    (folder / "SHA256SUMS").write_text("".join(lines), encoding="ascii")


def package(words):
    """Makes both, and prints what was made."""
    absent = [f"`{it}` (Debian's package {TOOLS[it]})" for it in TOOLS if not shutil.which(it)]
    if absent:
        raise NotMade(f"there is no {', no '.join(absent)} on the path")
    if not words.program and not proving.prove_and_build("smbshare", say):
        raise NotMade("the program is not proved")
    program, folder = words.program or PROVED, words.out or OUT
    if not program.is_file():
        raise NotMade(f"there is no program {program}")
    made = made_of(program.resolve(), words)
    folder.mkdir(parents=True, exist_ok=True)
    files = [write_deb(made, debian_files(made), folder), write_tar(made, tar_files(made), folder)]
    write_sums(files, folder)
    print((folder / "SHA256SUMS").read_text(encoding="ascii"), end="")


def reader():
    """What the command line may say."""
    words = argparse.ArgumentParser(prog="bash tools/package.sh", description=__doc__,
                                    formatter_class=argparse.RawDescriptionHelpFormatter)
    words.add_argument("--program", type=pathlib.Path, metavar="PATH",
                       help="this program, whatever made it: for trials")
    words.add_argument("--out", type=pathlib.Path, metavar="FOLDER", help="where all goes, in place of out/package")
    words.add_argument("--gate", metavar="LINE", help="the last line of the gate over this commit")
    words.add_argument("--snapshot", action="store_true",
                       help="the version goes on with the commit's moment and name: one of a later commit is newer")
    return words


def main(given):
    words = reader().parse_args(given)
    try:
        package(words)
    except NotMade as why:
        sys.exit(f"package.sh: {why}")
    except KeyboardInterrupt:
        sys.exit(130)


if __name__ == "__main__":
    main(sys.argv[1:])
