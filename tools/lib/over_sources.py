"""Checks functions of a crate over the sources of the crates below it, none of which need be proved or built first."""
import os
import subprocess

from lib.proving import TOP


def uses():
    """The crates of the repository, each with the libraries that it uses, the toolchain's among them."""
    lines = [it.partition("#")[0] for it in (TOP / "crates.txt").read_text(encoding="utf-8").splitlines()]
    return {it.partition(":")[0].split()[0]: it.partition(":")[2].split() for it in lines if ":" in it}


def below(crate, of):
    """The crates of the repository that a crate stands on, lowest first."""
    found = []
    for used in of[crate]:
        if used in of:
            found += [it for it in [*below(used, of), used] if it not in found]
    return found


def words_of(crate, of, kit):
    """The words of the prover that name the crate and all that it stands on."""
    crates = below(crate, of)
    libraries = {"core", "std"} | {used for it in [*crates, crate] for used in of[it] if used not in of}
    root = "lib" if (TOP / "crates" / crate / "src" / "lib.rt").is_file() else "main"
    words = ["--crate-name", crate, f"src/{root}.rt"]
    for library in sorted(libraries):
        words += ["--extern", f"{library}={kit}/rlibs/{library}.rlib"]
    words += ["-L", f"dependency={kit}/rlibs"]
    for it in crates:
        words += ["--lib", f"{it}:{','.join(['core', 'std', *of[it]])}={TOP}/crates/{it}/src/lib.rt"]
    words += ["--antt-project", f"{kit}/rattle/logic/antt-project.json", "--logic-built", f"{kit}/logic_built"]
    return words + ["--incremental", "out/incremental"]


def check(crate, paths, tests):
    """Checks these functions, modules or types of a crate, or all of it where none are named; the prover's status."""
    kit = os.path.dirname(subprocess.run(["rt", "doc"], stdout=subprocess.PIPE, check=True, text=True).stdout.split()[0])
    only = [word for it in paths for word in ("--only", it)]
    folder = TOP / "crates" / crate
    (folder / "out").mkdir(exist_ok=True)
    command = [f"{kit}/bin/rattle", "check", *words_of(crate, uses(), kit), "--progress", *only]
    return subprocess.run(command + ["--test"] * tests, cwd=folder, check=False).returncode
