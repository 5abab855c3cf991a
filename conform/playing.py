"""Plays scripts on two servers, step by step on both, and compares what is seen; each script stops at its first
difference, so that what only follows from it is not told."""
import collections

from conform.expected import full_name
from conform.login import Refused, speaks
from conform.shrinking import shrunk
from conform.side import ENTRIES, Side
from conform.statuses import name_of
from conform.steps import RANDOM, Frame
from conform.wire import Fault

# How often a server may do what no client can go on from, before a run stops.
MOST_FAULTS = 3

# What differs in a script: which of its steps, the command and the name of the field, what was wanted and what was
# found of it, the steps that came before with their statuses, the last request and both answers to it; and where the
# own program refused it, as Seen has it.
Difference = collections.namedtuple('Difference', 'script at command field wanted found before sent answers refused')


class OwnFault(Exception):
    """The project's own program does what none can go on from: nothing can be compared."""


class Unplayable(Exception):
    """Why a script can't be played on this server, or in a directory of its own."""


class Run:
    """Scripts on a server and on the project's own program; `own` is that one."""

    def __init__(self, server, own, dialects):
        self.tested, self.own = Side(server, dialects), Side(own, dialects)
        self.differences, self.played, self.answers = [], collections.Counter(), 0
        # Whether a script was played, by its name; how many were not, by the reason; which dialects are spoken.
        self.is_played, self.unplayed, self.spoken = {}, collections.Counter(), {}
        # How often the server did what none can go on from; where it did so beside the steps; why the run stopped.
        self.faults, self.beside, self.stopped = 0, [], ''
        # What differs in the script that was played last.
        self.last = None

    def begins(self):
        """Comes in to both, in the dialect that the server chose, and makes a directory there."""
        self.tested.begins_run()
        self.own.dialects = self.tested.dialects
        self.owns(self.own.begins_run)

    def plays_all(self, scripts):
        """Plays scripts, until all are played or the server can't be gone on with."""
        for script in scripts:
            self.plays_one(script)
            if self.stopped:
                break

    def plays_one(self, script):
        """Plays a script, keeps what differs, and counts it."""
        is_played, self.last = True, None
        try:
            self.speaks(script)
            self.plays(script)
            self.keeps(self.shortest(self.last))
        except Fault as fault:
            self.keeps(self.last)
            if self.last is None or self.last.answers[1]:
                self.beside.append(f'{full_name(script)}: {fault}')
                is_played = self.last is not None
            self.meets(fault)
        except Unplayable as why:
            is_played = False
            self.unplayed[str(why)] += 1
        except Refused as why:
            is_played, self.stopped = False, str(why)
        self.played[script.table] += is_played
        self.is_played[full_name(script)] = is_played

    def keeps(self, difference):
        self.differences += [difference] if difference else []

    def speaks(self, script):
        """A script of one dialect is played where the server speaks it."""
        dialect = script.dialect
        if dialect and dialect not in self.spoken:
            self.spoken[dialect] = speaks(self.tested.server, dialect)
        if dialect and not self.spoken[dialect]:
            raise Unplayable(f'{script.table}: the server does not speak dialect {dialect:#06x}')

    def owns(self, doing, *given):
        """What the own program is asked; what it does wrong is no difference."""
        try:
            return doing(*given)
        except (Fault, Refused) as why:
            raise OwnFault(f'the project\'s own program: {why}') from None

    def plays(self, script):
        """Plays a script in a directory of its own on both servers. What differs is `last` then, none where all is
        equal."""
        self.last = None
        self.owns(self.own.begins_script)
        try:
            self.tested.begins_script()
            self.compares(script)
            self.tested.ends_script()
        except Unplayable:
            self.tested.ends_script()
            raise
        finally:
            self.owns(self.own.ends_script)

    def compares(self, script):
        """Plays the steps of a script, up to the first that differs."""
        before = []
        for at, step in enumerate(script.steps):
            wanted = self.owns(self.own.plays, step)
            is_as_stored(step, wanted)
            try:
                found = self.tested.plays(step)
            except Fault as fault:
                told = ('Status', name_of(wanted[0].status), fault.kind)
                self.last = difference_of(script, at, before, told, wanted[0], None)
                raise
            for one, other in zip(wanted, found):
                self.answers += len(other.exchanges)
                different = first_difference(one, other)
                if different:
                    self.last = difference_of(script, at, before, different, one, other)
                    return
            if found:
                before.append((step, ' ; '.join(name_of(it.status) for it in found)))

    def shortest(self, difference):
        """The same difference, of the fewest steps that show it, where a script was made by chance. One that is like
        another that was found is as short as it is."""
        is_known = difference and any(like(difference) == like(it) for it in self.differences)
        if difference is None or difference.script.table != RANDOM or is_known:
            return difference
        answers = self.answers
        found = shrunk(difference, self.plays_again)
        self.answers = answers
        return found

    def plays_again(self, script):
        """What differs in a part of a script."""
        if self.stopped:
            return None
        try:
            self.plays(script)
        except Unplayable:
            return None
        except Fault as fault:
            self.meets(fault)
            return None
        return self.last

    def meets(self, fault):
        """A fault of the server: its clients come in anew, but not for ever."""
        self.faults += 1
        self.tested.loses_clients()
        if self.faults == MOST_FAULTS:
            self.stopped = f'{MOST_FAULTS} times none could go on, the last time since {fault}'
            return
        try:
            self.tested.ends_script()
        except (Fault, Refused) as why:
            self.stopped = f'{self.tested.server.name}: {why}'

    def loses_clients(self):
        """Ends all streams: in one of them an answer may still be owed."""
        self.tested.loses_clients()
        self.own.loses_clients()

    def ends(self):
        """Removes what the run made, and logs off."""
        for side in (self.tested, self.own):
            try:
                side.ends_run()
            except (Fault, Refused):
                side.left += [side.top] if side.top else []
                side.loses_clients()


def is_as_stored(step, wanted):
    """A row is played as far as the own program answers it as it is stored: in a directory, and behind other scripts,
    it may be another one."""
    if isinstance(step, Frame):
        stored = [int.from_bytes(it[8:12], 'little') for it in step.stored if it]
        if stored != [it.status for it in wanted]:
            raise Unplayable('rows: in a directory of its own it is another row')


def difference_of(script, at, before, different, wanted, found):
    """A difference, with the frames of one exchange: of what differs in a listing the first of several."""
    which = -1 if different[0] == 'Status' else 0
    sent, answered = found.exchanges[which] if found else (wanted.exchanges[which][0], b'')
    return Difference(script, at, wanted.command, *different, list(before), sent,
                      (wanted.exchanges[which][1], answered), wanted.refused)


def like(difference):
    """In what two differences are one: the table, the command, its class and the field; and two statuses."""
    is_status = difference.field == 'Status'
    number = getattr(difference.script.steps[difference.at], 'number', None)
    return (difference.script.table, difference.command, number, difference.field,
            *((difference.wanted, difference.found) if is_status else ()))


def first_difference(wanted, found):
    """The first field that differs, with what was wanted and found of it; none where all are equal."""
    if wanted.status != found.status:
        return 'Status', name_of(wanted.status), name_of(found.status)
    for name in (*found.fields, *wanted.fields):
        texts = [seen.fields.get(name, 'nothing') for seen in (wanted, found)]
        if texts[0] != texts[1]:
            return name, *map(shown, texts if name != ENTRIES else only_in_one(*texts))
    return None


def shown(text):
    """A text in which what could make a line, or a command to a terminal, is written as its number."""
    return ''.join(it if it.isprintable() else f'\\u{{{ord(it):x}}}' for it in text)


def only_in_one(wanted, found):
    """Of two listings the entries that only the one has, and those that only the other has."""
    parts = [text.split('; ') for text in (wanted, found)]
    counts = [collections.Counter(filter(None, it)) for it in parts]
    return ['; '.join(sorted((one - other).elements())) or 'no other'
            for one, other in (counts, counts[::-1])]
