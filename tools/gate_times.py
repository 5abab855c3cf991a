#!/usr/bin/env python3
"""gate_times.py COMMAND WORD..: runs the command, which calls `rt ci`, and then prints what each of its tasks took.

A task is a crate's proof, the proof of its tests, or its must-fail edits. Twice a second the prover's processes of the command's
session are looked at, and each is counted for the crate that it names. The table has, for each task, the seconds after the begin at which it began and
ended, and its processor seconds. The exit status is the command's.
"""
import os
import signal
import subprocess
import sys
import threading
import time

PROVER = "/bin/rattle"
KINDS = ("proof", "tests", "edits")
TICKS = os.sysconf("SC_CLK_TCK")


def words_of(pid):
    with open(f"/proc/{pid}/cmdline", "rb") as it:
        return it.read().decode(errors="replace").split("\0")


def task_of(pid):
    """The crate and the kind of task that a process works for, or None."""
    words = words_of(pid)
    if not words or not words[0].endswith(PROVER) or "--crate-name" not in words:
        return None
    crate = words[words.index("--crate-name") + 1]
    if os.path.basename(os.readlink(f"/proc/{pid}/cwd")).startswith("rt-edit-"):
        return crate, "edits"
    if "--test" in words or f"out/{crate}_tests.o" in words:
        return crate, "tests"
    return crate, "proof"


def session_and_seconds_of(pid):
    """The session that a process belongs to, and its processor seconds."""
    with open(f"/proc/{pid}/stat", encoding="ascii", errors="replace") as it:
        fields = it.read().rpartition(")")[2].split()
    return int(fields[3]), (int(fields[11]) + int(fields[12])) / TICKS


class Watch:
    """What was seen: of each process its task and its processor seconds, of each task when it was seen first and last."""

    def __init__(self, session):
        self.session = session
        self.begin = time.monotonic()
        self.processes = {}
        self.spans = {}
        self.ended = threading.Event()

    def look(self):
        now = time.monotonic() - self.begin
        for pid in filter(str.isdigit, os.listdir("/proc")):
            try:
                session, seconds = session_and_seconds_of(pid)
                task = task_of(pid) if session == self.session else None
                if task:
                    self.processes[pid, task] = seconds
                    first, _ = self.spans.get(task, (now, now))
                    self.spans[task] = first, now
            except (OSError, ValueError, IndexError):
                pass

    def run(self):
        while not self.ended.wait(0.5):
            self.look()

    def table(self):
        crates = sorted({crate for crate, _ in self.spans}, key=lambda it: min(self.spans.get((it, kind), (9e9, 0))[0] for kind in KINDS))
        rows = [f"{'':14}" + "".join(f"{kind + ': from':>12} {'to':>6} {'cpu':>6}" for kind in KINDS)]
        for crate in crates:
            cells = [self.cell(crate, kind) for kind in KINDS]
            rows.append(f"{crate:14}" + "".join(cells))
        rows.append(f"{'all':14}" + "".join(f"{'':12} {'':6} {self.cpu(kind=kind):6.0f}" for kind in KINDS))
        return "\n".join(rows)

    def cpu(self, crate=None, kind=None):
        return sum(seconds for (_, task), seconds in self.processes.items() if task[1] == kind and crate in (None, task[0]))

    def cell(self, crate, kind):
        if (crate, kind) not in self.spans:
            return f"{'-':>12} {'':6} {'':6}"
        first, last = self.spans[crate, kind]
        return f"{first:12.0f} {last:6.0f} {self.cpu(crate, kind):6.0f}"


def main(words):
    if not words:
        sys.exit(__doc__)
    command = subprocess.Popen(words, start_new_session=True)
    watch = Watch(command.pid)
    thread = threading.Thread(target=watch.run)
    thread.start()
    try:
        status = command.wait()
    except KeyboardInterrupt:
        os.killpg(command.pid, signal.SIGTERM)
        status = command.wait()
    finally:
        watch.ended.set()
        thread.join()
    print(f"\n{watch.table()}", flush=True)
    return status


if __name__ == "__main__":
    sys.exit(main(sys.argv[1:]))
