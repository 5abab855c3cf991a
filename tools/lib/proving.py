"""How a crate is proved, with those below it side by side, and built where it is a program."""
import fcntl
import hashlib
import os
import pathlib
import shutil
import signal
import subprocess
import time

TOP = pathlib.Path(__file__).resolve().parent.parent.parent
ROOMS = TOP / "out" / "proving"
# The most memory that a job of a proof was seen to take, and with how many jobs a crate is proved at most.
JOB_MEMORY, MOST_JOBS = 1_500_000_000, 4


def libraries():
    """The crates of the repository, lowest first, each with those that it uses."""
    lines = [it.partition("#")[0] for it in (TOP / "crates.txt").read_text(encoding="utf-8").splitlines()]
    uses = {it.partition(":")[0].split()[0]: it.partition(":")[2].split() for it in lines if ":" in it}
    return {name: [it for it in used if it in uses] for name, used in uses.items()}


def below(name, uses):
    """The crates that a crate stands on."""
    return {it for used in uses[name] for it in {used} | below(used, uses)}


def files_of(name, *parts):
    """The files of a crate in these of its folders."""
    return sorted(it for part in parts for it in (TOP / "crates" / name / part).rglob("*") if it.is_file())


def sum_of(crates, *parts):
    """A sum of the toolchain, of the list of crates, and of what these folders of crates hold."""
    kit = subprocess.run(["rt", "version"], stdout=subprocess.PIPE, stdin=subprocess.DEVNULL, check=True).stdout
    found = hashlib.sha256(kit + (TOP / "crates.txt").read_bytes())
    for file in (it for crate in sorted(crates) for it in files_of(crate, *parts)):
        found.update(repr((str(file.relative_to(TOP)), file.read_bytes())).encode())
    return found.hexdigest()


def work_behind(wanted, uses):
    """For each crate the size of the longest chain of crates that begins with it."""
    sizes = {name: sum(it.stat().st_size for it in files_of(name, "src", "specs", "proofs")) for name in wanted}
    chains = {}
    while len(chains) < len(wanted):
        for name in wanted:
            above = [it for it in wanted if name in uses[it]]
            if all(it in chains for it in above):
                chains[name] = sizes[name] + max((chains[it] for it in above), default=0)
    return chains


def hold(folder, say):
    """Waits until no other call works in a folder, which is made; gives what keeps others out until it is closed."""
    folder.mkdir(parents=True, exist_ok=True)
    lock = os.open(folder, os.O_RDONLY)
    try:
        fcntl.flock(lock, fcntl.LOCK_EX | fcntl.LOCK_NB)
    except BlockingIOError:
        say(f"note: another call builds in {folder.relative_to(TOP)}; this one goes on once that has ended")
        fcntl.flock(lock, fcntl.LOCK_EX)
    except OSError:
        # Some file systems have no locks.
        pass
    return lock


def link(source, target):
    """Makes the target the same file, or a copy where no link can be made."""
    try:
        os.link(source, target)
    except OSError:
        shutil.copy2(source, target)


def make_room(name, uses):
    """Makes a folder with what the proof of a crate reads; gives the crate's folder in it."""
    room, needed = ROOMS / name, below(name, uses) | {name}
    for crate in needed:
        for part in ("src", "specs", "proofs", "out/rlib") + ("out/incremental",) * (crate == name):
            if (TOP / "crates" / crate / part).is_dir():
                shutil.copytree(TOP / "crates" / crate / part, room / "crates" / crate / part, copy_function=link)
    lines = (TOP / "crates.txt").read_text(encoding="utf-8").splitlines(True)
    lines = [it for it in lines if needed.intersection(it.partition(":")[0].split()[:1])]
    (room / "crates.txt").write_text("".join(lines), encoding="utf-8")
    return room / "crates" / name


def remove(folder):
    """Removes a folder in which a process that was ended may still write for a moment."""
    for _ in range(50):
        shutil.rmtree(folder, ignore_errors=True)
        if not folder.exists():
            return
        time.sleep(0.1)


def take_over(name, is_proved):
    """Moves what was made in a crate's room to the crate, in whose folder no `rt` works meanwhile."""
    made, kept = ROOMS / name / "crates" / name / "out", TOP / "crates" / name / "out"
    parts = ("rlib", "incremental") if is_proved else ("incremental",)
    kept.mkdir(exist_ok=True)
    folder = os.open(kept.parent, os.O_RDONLY)
    try:
        fcntl.flock(folder, fcntl.LOCK_EX if is_proved else fcntl.LOCK_EX | fcntl.LOCK_NB)
    except BlockingIOError:
        parts = ()
    except OSError:
        # Some file systems have no locks.
        pass
    for part in parts:
        if (made / part).is_dir():
            remove(kept / part)
            os.rename(made / part, kept / part)
    os.close(folder)
    remove(ROOMS / name)


def end_group(process):
    """Ends a process with its group where it goes on. The prover, which has a group of its own, ends when `rt` does."""
    if process.poll() is None:
        os.killpg(process.pid, signal.SIGTERM)
        process.wait()


class Proof:
    """A proof that is going on."""

    def __init__(self, name, jobs, uses):
        self.name, self.jobs, self.begin = name, jobs, time.monotonic()
        folder = make_room(name, uses)
        self.log = open(ROOMS / f"{name}.log", "w+", encoding="utf-8", errors="replace")
        words = ["rt", "lib", "--jobs", str(jobs)]
        self.process = subprocess.Popen(words, cwd=folder, stdin=subprocess.DEVNULL, stdout=self.log,
                                        stderr=subprocess.STDOUT, start_new_session=True)

    def seconds(self):
        return round(time.monotonic() - self.begin)

    def said(self):
        self.log.seek(0)
        return self.log.read()

    def end(self):
        """Ends it where it goes on, keeps what was made, and gives whether the crate is proved."""
        end_group(self.process)
        is_proved = self.process.returncode == 0
        take_over(self.name, is_proved)
        return is_proved


def free_memory():
    """The bytes of memory that are free."""
    lines = pathlib.Path("/proc/meminfo").read_text(encoding="ascii").splitlines()
    return next(1024 * int(it.split()[1]) for it in lines if it.startswith("MemAvailable:"))


def lanes_given():
    """How many jobs go on at a time: as many as RT_JOBS says, or as there are processors, and memory that is free."""
    given = os.environ.get("RT_JOBS", "")
    if given.isdigit() and int(given):
        return int(given)
    return max(1, min(len(os.sched_getaffinity(0)), free_memory() // JOB_MEMORY))


def prove(wanted, uses, lanes, say):
    """Proves the libraries that are wanted; whether all are."""
    chains, done, running = work_behind(wanted, uses), set(), []
    left = sorted(wanted, key=lambda it: -chains[it])
    try:
        while left or running:
            ready = [it for it in left if done.issuperset(uses[it])]
            idle = lanes - sum(it.jobs for it in running)
            if ready and idle > 0:
                left.remove(ready[0])
                running.append(Proof(ready[0], min(MOST_JOBS, max(1, idle // len(ready))), uses))
                continue
            time.sleep(0.1)
            for proof in [it for it in running if it.process.poll() is not None]:
                running.remove(proof)
                done.add(proof.name)
                if not proof.end():
                    say(f"{proof.said()}{proof.name}: NOT PROVED, {proof.seconds()} seconds")
                    return False
                say(f"{proof.name}: {proof.seconds()} seconds; {len(done)} of {len(wanted)} libraries are proved")
    finally:
        for proof in running:
            proof.end()
    return True


def build(name, say):
    """Proves and builds a program, over the libraries below it; whether it can be run."""
    begin, words = time.monotonic(), ["rt", "run", "--", "--version"]
    how = {"stdin": subprocess.DEVNULL, "stdout": subprocess.PIPE, "stderr": subprocess.STDOUT, "errors": "replace"}
    building = subprocess.Popen(words, cwd=TOP / "crates" / name, start_new_session=True, **how)
    try:
        said = building.communicate()[0]
    finally:
        end_group(building)
    seconds = round(time.monotonic() - begin)
    if building.returncode:
        say(f"{said}{name}: NOT PROVED OR NOT BUILT, {seconds} seconds")
        return False
    say(f"{name}: {seconds} seconds; it is proved, and built as crates/{name}/out/{name}")
    return True


def stamp_of(name, crates):
    """What is written of a program once it is proved: a sum of what it is made from, and one of itself."""
    program = TOP / "crates" / name / "out" / name
    made = hashlib.sha256(program.read_bytes()).hexdigest() if program.is_file() else "nothing"
    return f"{sum_of(crates, 'src', 'specs', 'proofs')} {made}"


def prove_anew(name, uses, say):
    """Proves a crate with all below it, and builds it where it is a program; whether that was done."""
    is_program = (TOP / "crates" / name / "src" / "main.rt").is_file()
    remove(ROOMS)
    ROOMS.mkdir()
    try:
        wanted = below(name, uses) | (set() if is_program else {name})
        return prove(wanted, uses, lanes_given(), say) and (not is_program or build(name, say))
    finally:
        remove(ROOMS)


def prove_and_build(name, say):
    """Does so, or nothing where the program is proved and its files are as they were then."""
    uses, kept = libraries(), ROOMS.parent / f"proved-{name}"
    lock = hold(ROOMS.parent, say)
    try:
        crates = below(name, uses) | {name}
        before = stamp_of(name, crates)
        if kept.is_file() and kept.read_text(encoding="ascii") == before:
            say(f"{name} is proved and built already, from its files as they are.")
            return True
        well = prove_anew(name, uses, say)
        after = stamp_of(name, crates)
        if well and after.split()[0] == before.split()[0] and not after.endswith("nothing"):
            kept.write_text(after, encoding="ascii")
        return well
    finally:
        os.close(lock)
