"""What a run found, as a text and as data: how much is equal, then the differences by the row of the definition that
decides, most first."""
import collections

from conform.expected import full_name, place_of
from conform.playing import shown
from conform.side import ENTRIES
from conform.steps import MADE, listed, short
from tools import frame as frame_tool

# How many names a text shows of many; and the fields whose texts are others in nearly each script.
NAMES = 5
VARIOUS = (ENTRIES, 'the bytes', 'EndOfFile', 'OutputBufferLength', 'number of entries')
# Where a SET_INFO has its class.
CLASS_AT = 67
# How a script ended, with a letter for it.
OUTCOMES = {'equal': '.', 'meant': 'm', 'differs': 'x', 'not played': '-'}

# Differences that are one but for their scripts, with the row that decides; and all those of one row.
Group = collections.namedtuple('Group', 'row command field wanted found differences')
OfRow = collections.namedtuple('OfRow', 'row groups count')


def words_of(frame):
    """A frame in the words of tools/frame.py; in hex where it has none."""
    try:
        return shown(frame_tool.read(frame))
    except (frame_tool.Unread, StopIteration, IndexError):
        return frame.hex()


class Report:
    """What a run found, beside what is meant; `rows` says which row decided an answer."""

    def __init__(self, run, meant, scripts, seconds, rows):
        self.run, self.scripts, self.seconds, self.rows = run, scripts, seconds, rows
        self.planned = collections.Counter(it.table for it in scripts)
        self.other = [it for it in run.differences if place_of(it) not in meant]
        self.as_meant = [(it, meant[place_of(it)]) for it in run.differences if place_of(it) in meant]
        found = {place_of(it) for it in run.differences}
        played = {full_name(it) for it in scripts if run.is_played.get(full_name(it))}
        self.unused = [it for place, it in meant.items() if place[0] in played and place not in found]

    def is_well(self):
        """Whether all that differs is meant to, and all was played."""
        return not self.other and not self.run.beside and not self.run.stopped

    def row_of(self, it):
        """The row that decides; where the statuses are equal and another field differs it is none that refuses."""
        refused = it.refused if it.field == 'Status' else None
        sets = it.sent[4 + CLASS_AT] if it.command == 'SET_INFO' and len(it.sent) > 4 + CLASS_AT else None
        return self.rows.row_of(it.command, it.wanted, refused, sets)

    def groups(self):
        """The differences that are not meant, by the row and by what differs."""
        found = collections.defaultdict(list)
        for it in self.other:
            texts = ('', '') if it.field in VARIOUS else (it.wanted, it.found)
            found[(self.row_of(it), it.command, it.field, *texts)].append(it)
        groups = [Group(*key, group) for key, group in found.items()]
        return sorted(groups, key=lambda it: (-len(it.differences), it[1:5]))

    def by_row(self):
        """The groups of each row, most differences first."""
        found = collections.defaultdict(list)
        for it in self.groups():
            found[it.row].append(it)
        rows = [OfRow(row, groups, sum(len(it.differences) for it in groups)) for row, groups in found.items()]
        return sorted(rows, key=lambda it: (-it.count, it.row))

    def counts(self):
        """How many scripts were played, are equal, differ and are meant to; and how many answers were compared."""
        played, differ = sum(self.run.played.values()), len(self.run.differences)
        return {'scripts': played, 'equal scripts': played - differ, 'different scripts': differ,
                'meant': len(self.as_meant), 'answers': self.run.answers,
                'equal answers': self.run.answers - sum(bool(it.answers[1]) for it in self.run.differences)}

    def outcomes(self):
        """How each script ended, by its name."""
        found = {full_name(it): 'equal' if self.run.is_played.get(full_name(it)) else 'not played'
                 for it in self.scripts}
        found.update({full_name(it.script): 'meant' for it, _ in self.as_meant})
        found.update({full_name(it.script): 'differs' for it in self.other})
        return found

    def reasons(self):
        """How often which reason is why a difference is meant."""
        return collections.Counter((it.reason, it.why) for _, it in self.as_meant).most_common()

    def notes(self):
        """What is to be said besides, in lines."""
        for (reason, why), count in self.reasons():
            yield f'meant to differ: {count:,}: {reason}, {why}'
        for it in self.unused:
            yield f'named as meant, and no difference: {it.script} {it.field}'
        for why, count in sorted(self.run.unplayed.items()):
            yield f'not played: {count:,} of {why}'
        for text in self.run.beside:
            yield f'beside the steps of a script: {text}'
        for path in self.run.tested.left:
            yield f'left on the server: {shown(path)}'
        if self.run.stopped:
            yield f'stopped: {self.run.stopped}'

    def head(self):
        """What was played where, and how much is equal, in lines."""
        counts = self.counts()
        server, dialect = self.run.tested.server, self.run.tested.dialects[0]
        yield (f'{server.name}, share {server.share}, as {server.user}, dialect {dialect:#06x}, '
               f'{self.seconds:.0f} seconds')
        yield (f'scripts: {counts["scripts"]:,} were played, {counts["equal scripts"]:,} are equal, '
               f'{counts["different scripts"]:,} differ, of which {counts["meant"]:,} are meant to')
        yield f'answers: {counts["answers"]:,} were compared, {counts["equal answers"]:,} are equal'

    def by_table(self):
        differ = collections.Counter(it.script.table for it in self.run.differences)
        for table, planned in self.planned.items():
            played = self.run.played[table]
            rest = f', {planned - played:,} were not played' if played < planned else ''
            yield f'{table}: {played - differ[table]:,} of {played:,} scripts are equal{rest}'

    # As a text.

    def text(self):
        notes = list(self.notes())
        return '\n'.join([*self.head(), *(f'  {it}' for it in self.by_table()), *self.told_rows(),
                          *[''] * bool(notes), *notes]) + '\n'

    def told_rows(self):
        for row, groups, count in self.by_row():
            yield ''
            yield f'{told_row(row)}: {count:,} differ'
            for it in groups:
                yield from told_group(it)

    # As data.

    def data(self):
        """The same as numbers, texts and lists."""
        server = self.run.tested.server
        differ = collections.Counter(it.script.table for it in self.run.differences)
        return {
            'server': server.name, 'share': server.share, 'user': server.user,
            'dialect': f'{self.run.tested.dialects[0]:#06x}', 'seconds': round(self.seconds, 1), **self.counts(),
            'tables': {table: {'scripts': planned, 'played': self.run.played[table], 'different': differ[table]}
                       for table, planned in self.planned.items()},
            'differences': [{**it.row._asdict(), 'command': it.command, 'field': it.field,
                             'scripts': [full_name(one.script) for one in it.differences],
                             'shortest': data_of(shortest(it.differences))}
                            for of_row in self.by_row() for it in of_row.groups],
            'meant to differ': [{**data_of(it), 'reason': reason.reason, 'why': reason.why}
                                for it, reason in self.as_meant],
            'named as meant, and no difference': [f'{it.script} {it.field}' for it in self.unused],
            'not played': dict(self.run.unplayed), 'beside': self.run.beside, 'left': self.run.tested.left,
            'stopped': self.run.stopped,
        }


def told_row(row):
    """A row in one line: what it is called and says, and the section of the standard."""
    return f'{row.title}{f", {row.sentence}" if row.sentence else ""}{f" ({row.section})" if row.section else ""}'


def of_tables(group):
    """How many scripts of which tables a group has."""
    return ', '.join(f'{table} {count:,}' for table, count in
                     collections.Counter(it.script.table for it in group.differences).most_common())


def told_what(group):
    """What differs in a group, in one line."""
    it = shortest(group.differences)
    return (f'{len(group.differences):,} differ in a {group.command}: {group.field}: wanted {short(it.wanted)}, '
            f'found {short(it.found)}')


def told_group(group):
    it = shortest(group.differences)
    yield f'  {told_what(group)} ({of_tables(group)})'
    yield f'    the shortest: {full_name(it.script)}'
    for i, words in enumerate([*told_steps(it.before), it.script.steps[it.at].words()], 1):
        yield f'      {i} {words}'
    yield f'    sent:   {short(words_of(it.sent))}'
    yield f'    wanted: {short(words_of(it.answers[0]))}'
    yield f'    found:  {short(words_of(it.answers[1])) if it.answers[1] else it.found}'
    others = [full_name(one.script) for one in group.differences if one is not it]
    if others:
        more = f' and {len(others) - NAMES:,} more' if len(others) > NAMES else ''
        yield f'    also:   {", ".join(others[:NAMES])}{more}'


def shortest(group):
    """The difference that comes after the fewest steps; of several the first."""
    return min(group, key=lambda it: len(it.before))


def told_steps(before):
    """The steps that came before, in words, with their statuses; what only makes an entry that is there is one line."""
    made, told = [], []
    for step, status in before:
        if step.of != MADE:
            told.append(f'{step.words()}: {status}')
        elif step.command == 'CREATE':
            made.append(step.name + ''.join(f' ({listed(it)})' for it in (step.options, step.attributes) if it != '0'))
    return [f'there are {", ".join(made)}'] * bool(made) + told


def data_of(it):
    return {
        'script': full_name(it.script), 'steps': told_steps(it.before),
        'step': it.script.steps[it.at].words(), 'command': it.command, 'field': it.field, 'wanted': it.wanted,
        'found': it.found, 'sent': words_of(it.sent), 'answers': {
            'wanted': words_of(it.answers[0]), 'found': words_of(it.answers[1]) if it.answers[1] else it.found},
    }
