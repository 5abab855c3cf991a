"""Builds the program smbshare without any proof, and keeps it as out/unproved/smbshare.

`rt try` compiles the program, not optimised and with run-time checks, and runs it in a folder that it removes. Here it
runs it as a share on a free port, and once that listens the program is taken from there. Where no source that it is
made of has changed since, nothing is built.
"""
import contextlib
import os
import pathlib
import shutil
import signal
import subprocess
import sys
import tempfile
import time

from proving import TOP, below, end_group, hold, libraries, sum_of

CRATE = "smbshare"
KEPT = TOP / "out" / "unproved"
PROGRAM, STAMP = KEPT / CRATE, KEPT / "made-of"
TRIED = ["rt", "try", "--", "serve", "--listen", "127.0.0.1:0"]


class NotBuilt(Exception):
    """There is no program."""


def say(text):
    print(text, file=sys.stderr, flush=True)


def stamp():
    """A sum of all that the program is made from."""
    return sum_of(below(CRATE, libraries()) | {CRATE}, "src")


def is_built(made_of):
    """Whether the program that is kept is made from this."""
    return PROGRAM.is_file() and STAMP.is_file() and STAMP.read_text(encoding="ascii") == made_of


def served_in(room):
    """The program that `rt try` runs below this folder, once it listens; else None."""
    for said in pathlib.Path(room).glob("*/*/stderr"):
        try:
            if said.read_bytes().startswith(b"listening on "):
                return said.with_name("program")
        except OSError:
            pass
    return None


def tried(room, log):
    """Runs `rt try` until it serves, keeps the program, and ends it."""
    begin = told = time.monotonic()
    trying = subprocess.Popen(TRIED, cwd=TOP / "crates" / CRATE, stdin=subprocess.DEVNULL, stdout=log, stderr=log,
                              env={**os.environ, "TMPDIR": room}, start_new_session=True)
    try:
        while True:
            is_over, program = trying.poll() is not None, served_in(room)
            if program:
                keep(program)
                return round(time.monotonic() - begin)
            if is_over:
                log.seek(0)
                raise NotBuilt(f"{log.read().decode(errors='replace')}`rt try` made no program")
            if time.monotonic() - told >= 20:
                told = time.monotonic()
                say(f"  {round(told - begin)} seconds ..")
            time.sleep(0.2)
    finally:
        end_group(trying)


def runs(program):
    """Whether a program runs by itself."""
    how = {"stdin": subprocess.DEVNULL, "stdout": subprocess.DEVNULL, "stderr": subprocess.DEVNULL}
    try:
        return subprocess.run([str(program), "--version"], check=False, **how).returncode == 0
    except OSError:
        return False


def keep(program):
    """Keeps a program, which runs by itself, or where the system's C library is too old for it, by the toolchain's."""
    made = KEPT / "program"
    shutil.copy(program, KEPT / "program.new")
    os.replace(KEPT / "program.new", made)
    if runs(made):
        os.replace(made, PROGRAM)
        return
    doc = subprocess.run(["rt", "doc"], stdout=subprocess.PIPE, stdin=subprocess.DEVNULL, check=True).stdout.decode()
    lib = pathlib.Path(doc.strip()).parent / "toolchain" / "lib"
    loader = f'exec "{lib}/ld-linux-x86-64.so.2" --inhibit-cache --library-path "{lib}" "{made}" "$@"'
    PROGRAM.write_text(f"#!/bin/sh\n{loader}\n", encoding="utf-8")
    PROGRAM.chmod(0o755)


def build():
    """Builds the program where its sources have changed, and gives its path."""
    if not shutil.which("rt"):
        raise NotBuilt("there is no `rt` on the path: the toolchain is not installed")
    lock = hold(KEPT, say)
    try:
        made_of = stamp()
        if not is_built(made_of):
            build_anew(made_of)
    finally:
        os.close(lock)
    return str(PROGRAM)


def build_anew(made_of):
    """Builds the program of sources that have this sum."""
    with contextlib.suppress(FileNotFoundError):
        STAMP.unlink()
    say("The program is built now, without any proof, by `rt try` in crates/smbshare: some 80 seconds of a processor.")
    with tempfile.TemporaryDirectory(prefix="unproved-") as room, tempfile.TemporaryFile() as log:
        seconds = tried(room, log)
    if stamp() == made_of:
        STAMP.write_text(made_of, encoding="ascii")
    say(f"It is built, in {seconds} seconds, and kept as {PROGRAM.relative_to(TOP)}, until its sources change.")


def end_on_signals():
    """Has the process end with its children where it is told to end."""
    for it in (signal.SIGTERM, signal.SIGHUP):
        signal.signal(it, lambda number, _: sys.exit(128 + number))
