"""Runs of the proved program on replays."""
import multiprocessing
import os
import subprocess
import sys
import tempfile
import time

from tests.smb.program import PROVED

MOMENT = 116444736000000000


def piece(text, number, frame):
    """Writes the line that brings a piece on a connection."""
    text.write(f'> {number} {MOMENT} {frame.hex()}\n')


def succeeds(line):
    """Whether a line is a reply frame, of which the first reply tells SUCCESS."""
    return line.startswith('<') and line.split()[2][24:32] == '00000000'


def written(write, *arguments):
    """Writes files in a process of its own, since the peak of the program counts what its parent holds."""
    writer = multiprocessing.Process(target=write, args=arguments)
    writer.start()
    writer.join()


class Replays:
    """A program, and the words by which it replays."""

    def __init__(self, path=PROVED, *words):
        self.path, self.words = path, words

    def timed(self, text, output, *words):
        """Runs the program on a file, and gives the status, the seconds and the peak in MiB."""
        with open(text) as stdin, open(output, 'w') as stdout:
            start = time.monotonic()
            process = subprocess.Popen([self.path, *(words or self.words)], stdin=stdin, stdout=stdout)
            _, status, usage = os.wait4(process.pid, 0)
            return status, time.monotonic() - start, usage.ru_maxrss / 1024

    def replayed(self, write, arguments, counts, wanted):
        """Replays what write(path, *arguments) writes, and gives the seconds, the peak in MiB and the MB of text.

        Ends the benchmark where the status is not 0, or where not so many lines as wanted count.
        """
        with tempfile.TemporaryDirectory() as folder:
            replay, answers = os.path.join(folder, 'replay'), os.path.join(folder, 'answers')
            written(write, replay, *arguments)
            status, seconds, peak = self.timed(replay, answers)
            with open(answers) as lines:
                found = sum(1 for line in lines if counts(line))
            if status != 0 or found != wanted:
                sys.exit(f'status {status}, {found} lines and not {wanted}')
            return seconds, peak, os.path.getsize(replay) / 1e6
