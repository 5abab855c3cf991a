"""Keeps processors awake while servers are measured.

A processor that is idle falls asleep, and who wakes it pays for that: a request that comes alone took up to twice as long,
and no two runs were alike. So each processor has a process that spins at idle priority, which gives way to every other; and
all servers share one processor, and their client has another.
"""
import contextlib
import os
import subprocess
import sys


def spins(processor):
    """A process that gives way to every other, and never lets its processor be idle."""
    def prepares():
        os.sched_setaffinity(0, {processor})
        os.sched_setscheduler(0, os.SCHED_IDLE, os.sched_param(0))
    return subprocess.Popen([sys.executable, '-c', 'while True: pass'], preexec_fn=prepares)


@contextlib.contextmanager
def awake(servers):
    """While it lasts no processor sleeps, and servers and client have one each, where there are two."""
    own = sorted(os.sched_getaffinity(0))
    spinners = [spins(it) for it in own]
    try:
        for server in servers:
            os.sched_setaffinity(server.process.pid, {own[-1]})
        os.sched_setaffinity(0, {own[0]})
        yield
    finally:
        os.sched_setaffinity(0, own)
        for it in spinners:
            it.kill()
            it.wait()
