"""The log of a replay: compared with the rows of log_rows, each a replay and its whole log."""
import glob
import os
import tempfile
from concurrent.futures import ThreadPoolExecutor

from tests.smb.frames import echoes
from tests.smb.kept import bytes_of, keeping, killed
from tests.smb.preload import built

ROWS = os.path.join(os.path.dirname(os.path.abspath(__file__)), 'log_rows')
ALL = ('--log-level', 'requests')
# What is written in place of lines for which no memory was left.
LOST = b'lines were lost for want of memory'
MOST_SAID = 5


def names_of_rows():
    """The names of the rows, without their endings."""
    return sorted(os.path.splitext(os.path.basename(file))[0] for file in glob.glob(os.path.join(ROWS, '*.replay')))


def replay_of(name):
    return os.path.join(ROWS, f'{name}.replay')


def log_of(name):
    return bytes_of(os.path.join(ROWS, f'{name}.log'))


def replayed(program, given, *words, system=None):
    """The status, standard output and standard error of a replay of a file."""
    with open(given, 'rb') as stream:
        return program.ran('replay', *words, given=stream, env=system)


def first_difference(found, wanted):
    """The first lines of two texts that differ."""
    pairs = zip(found.splitlines() + [b'nothing'], wanted.splitlines() + [b'nothing'])
    return next((pair for pair in pairs if pair[0] != pair[1]), (b'', b''))


def is_the_row(program, name):
    """Whether a row's replay answers the same with a log as without, and its log is the row's."""
    with tempfile.TemporaryDirectory() as folder:
        file = os.path.join(folder, 'log')
        with_log = replayed(program, replay_of(name), '--log', file, *ALL)
        without = replayed(program, replay_of(name))
        found = bytes_of(file)
    if with_log != without:
        print(f'  {name}: {with_log[::2]} with a log, {without[::2]} without', flush=True)
        return False
    if found != log_of(name):
        print(f'  {name}: {first_difference(found, log_of(name))}', flush=True)
        return False
    return True


def replays_are_logged_as_their_rows(program):
    """Sessions, chains, refusals, streams that are ended, and names that would forge a line: each line of each."""
    names = names_of_rows()
    found = [is_the_row(program, name) for name in names]
    return len(names) >= 5 and 'hostile' in names and all(found)


def without_times(log, skipped=()):
    """The connection, user, event and status of each line of a log, but for those that begin so."""
    lines = [line.split(b'\t') for line in log.splitlines()[1:]]
    return [(line[1], *line[3:6]) for line in lines if not line[4].startswith(skipped or b'\0')]


def uses_up_turns(share):
    """A client that sends one ECHO after the other until the share has taken its turns: one in which nobody asks for
    anything lasts a second."""
    try:
        client, number = share.client(), 1
        client.negotiates()
        while client.asks(echoes(number, 1)) == 0:
            number += 1
    except ConnectionError:
        pass


def a_recording_is_logged_as_it_was_served(program, works):
    """The log of a record's replay has the lines of that which was written as it was served, with other times and no
    peers."""
    with tempfile.TemporaryDirectory() as folder:
        record, log, again = (os.path.join(folder, name) for name in ('record', 'log', 'again'))
        with keeping(program, '--record', record, '--log', log, *ALL, '--turns', '60', '--idle', '1') as share:
            works(share).client.end()
            uses_up_turns(share)
            share.process.wait(timeout=60)
            killed(share)
        status, output, errors = program.ran('replay', '--recording', record, '--log', again, *ALL)
        wanted, found = (without_times(bytes_of(file), (b'minute', b'started', b'stopped')) for file in (log, again))
    if (status, errors) != (0, '') or not output or found != wanted:
        print(f'  {status} {errors!r}: {found} in place of {wanted}', flush=True)
        return False
    return True


class Refused:
    """A row's replay in which one allocation is refused."""

    def __init__(self, program, library, folder, name):
        self.program, self.library, self.folder, self.name = program, library, folder, name
        self.whole, self.lines = replayed(program, replay_of(name))[1], set(log_of(name).splitlines())

    def at(self, number, is_logged):
        """What the program answers where the allocation of a number is refused: its status, output and log. None where
        there are fewer."""
        log, mark = (os.path.join(self.folder, f'{kind}-{number}-{is_logged}') for kind in ('log', 'refused'))
        words = ('--log', log, *ALL) if is_logged else ()
        found = replayed(self.program, replay_of(self.name), *words,
                         system={'LD_PRELOAD': self.library, 'REFUSE': str(number), 'REFUSED': mark})
        if not os.path.exists(mark):
            return None
        return found[0], found[1], bytes_of(log) if os.path.exists(log) else b''

    def fault_in(self, found):
        """What is wrong with it: it is answered whole, or it ends for want of memory behind what came before; and no
        line of the log is another one."""
        status, output, log = found
        if not (status == 0 and output == self.whole or status == 3 and self.whole.startswith(output)):
            return f'it ends with {status} behind {len(output)} of {len(self.whole)} bytes'
        others = [line for line in log.splitlines() if line not in self.lines and LOST not in line
                  and b'\tminute ' not in line and not self.is_in_part(line)]
        return f'the log has {others[0]}' if others else ''

    def is_in_part(self, line):
        """Whether a line is one of the row's but for its user, which was not kept."""
        fields = line.split(b'\t')
        return any(fields[:3] + fields[4:] == other[:3] + other[4:]
                   for other in (wanted.split(b'\t') for wanted in self.lines))

    def all(self, is_logged):
        """What each refusal comes to, from the first allocation on."""
        found, at_once = [], 4 * os.cpu_count()
        with ThreadPoolExecutor(os.cpu_count()) as pool:
            while None not in found:
                numbers = range(len(found) + 1, len(found) + 1 + at_once)
                found += pool.map(lambda number: self.at(number, is_logged), numbers)
        return found[:found.index(None)]


def each_allocation_beside_a_log(program):
    """Each allocation of a replay that is logged is refused in turn: it is answered as without a log."""
    with built('refuse_allocation') as library, tempfile.TemporaryDirectory() as folder:
        trial = Refused(program, library, folder, 'chains')
        with_log, without = trial.all(True), trial.all(False)
    faults = [(number, fault) for number, fault in enumerate(map(trial.fault_in, with_log), 1) if fault]
    for number, fault in faults[:MOST_SAID]:
        print(f'  {number}: {fault}', flush=True)
    # Before the first answer words are read and files opened, of which there are more with a log.
    ended = [sum(status == 3 and output != b'' for status, output, _ in found) for found in (with_log, without)]
    print(f'  {len(with_log)} refused, {len(faults)} of them wrong; behind an answer it ended at {ended[0]}, without a '
          f'log at {ended[1]}', flush=True)
    return not faults and len(with_log) > len(without) and ended[0] == ended[1] > 0
