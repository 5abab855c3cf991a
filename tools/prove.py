#!/usr/bin/env python3
"""prove.py [CRATE]: proves a crate and those that it stands on, side by side, and builds it where it is a program.
prove.py CRATE --only [--test] PATH..: checks these functions, modules or types of a crate, and nothing else.

The crate is smbshare where none is named. A crate begins once those below it are proved, first the one with the most
work behind it, and as many jobs go on at a time as RT_JOBS says, or as there are processors. `rt` lets one run at a
time work in a crate and in those below it: so each crate is proved in out/proving/NAME, a folder of links to the files,
and what was made there is moved to crates/NAME/out. A line for each crate says how many seconds it took. The first
failure ends all others; what was said of it is printed, and the status is 1.

With --only nothing is proved or built before: the crates below are read as sources. Of them the check of a law reads
definitions and the files of lemmas that its proof cites, and no function: a crate of laws takes a minute or two, as
`prove.py smb_run_laws --only laws_of_runs`. What a function calls is checked with it, down to smb_wire. It says nothing for
the gate.
"""
import shutil
import signal
import sys
import time

from lib.over_sources import check
from lib.proving import libraries, prove_and_build


def main(words):
    is_part = words[1:2] == ["--only"]
    if len(words) > 1 and not is_part or words[:1] in (["-h"], ["--help"]):
        sys.exit(__doc__.strip())
    name = words[0] if words else "smbshare"
    if name not in libraries():
        sys.exit(f"prove.py: crates.txt names no crate {name!r}")
    if not shutil.which("rt"):
        sys.exit("prove.py: there is no `rt` on the path: the toolchain is not installed")
    if is_part:
        sys.exit(check(name, [it for it in words[2:] if it != "--test"], "--test" in words))
    for it in (signal.SIGTERM, signal.SIGHUP):
        signal.signal(it, lambda number, _: sys.exit(128 + number))
    begin = time.monotonic()
    try:
        well = prove_and_build(name, lambda text: print(text, flush=True))
    except KeyboardInterrupt:
        sys.exit(130)
    print(f"prove.py: {round(time.monotonic() - begin)} seconds in all")
    sys.exit(0 if well else 1)


if __name__ == "__main__":
    main(sys.argv[1:])
