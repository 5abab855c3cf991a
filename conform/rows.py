"""The row of the definition that decides what the project's own program answers.

The program's log has it for each refusal, as why="C3 the name begins with a separator". Where the log has none it is
the row of docs/PROFILE.md of that command and status, as far as there is one alone.
"""
import collections
import pathlib
import re

from conform.statuses import name_of
from conform.steps import RENAME
from tests.smb.program import TOP
from tools.frame import COMMANDS

# A row: what it is called, what it says, and the section of the standard. A line of a table of docs/PROFILE.md: its
# label, the command, or none where it is of all, the sentence, the status, and the section.
Row = collections.namedtuple('Row', 'title sentence section')
Line = collections.namedtuple('Line', 'label command sentence status section')
# A line of the log: the command, the status, and what it says of the reason.
Refusal = collections.namedtuple('Refusal', 'command status why')

HEADING = re.compile(r'#+ (?P<word>\w+).*?(?P<section>(?:\[MS-\w+\] )?\d+(?:\.\d+)+)?\)?$')
IN_A_TABLE = re.compile(r'\| (?P<label>[A-Z]+\d+[ab]?) \| (?P<sentence>.+) \| (?P<status>[A-Z_]+) \|')
SECTION = re.compile(r'\b(?P<command>[A-Z]+(?:_[A-Z]+)*) \((?P<section>3\.3\.5\.\d+)\)')
# The letters of the rows of a SET_INFO of each class.
OF_CLASS = {4: 'SB', 13: 'SD', 19: 'SZ', 20: 'SZ', RENAME: 'N'}
STANDARD, OF_ALL, NONE = '[MS-SMB2] ', '3.3.5.2', '(none refuses)'


def profile():
    """The lines of the tables of docs/PROFILE.md, and the section of each command."""
    text = pathlib.Path(TOP, 'docs', 'PROFILE.md').read_text(encoding='utf-8')
    return list(lines_of(text)), {it['command']: STANDARD + it['section'] for it in SECTION.finditer(text)}


def lines_of(text):
    """The lines of tables with a label, a condition and a status."""
    command = section = ''
    for line in text.splitlines():
        heading, found = HEADING.match(line), IN_A_TABLE.match(line)
        if heading:
            word, section = heading['word'], heading['section'] or OF_ALL
            section = section if section.startswith('[') else STANDARD + section
            command = {'Renames': 'SET_INFO'}.get(word, word if word in COMMANDS else '')
        if found and section:
            yield Line(found['label'], command, found['sentence'], f'STATUS_{found["status"]}', section)


def refusals_in(log):
    """The refusals of a log, by the number of the connection."""
    found = collections.defaultdict(list)
    for line in log.splitlines():
        fields = line.split('\t')
        if len(fields) < 7 or not fields[1].isdecimal() or fields[5] in ('-', 'STATUS_SUCCESS'):
            continue
        why = re.search(r'(?:^| )why="(.*)"$', fields[-1])
        found[int(fields[1])].append(Refusal(fields[4].split(' ')[0], fields[5], why[1] if why else ''))
    return found


def whys_of(logged, refusals):
    """For each refusal that a client had, in order, what the log says of its reason; the log leaves some out."""
    left, whys = collections.deque(logged), []
    for command, status in refusals:
        is_logged = left and (left[0].command, left[0].status) == (command, name_of(status))
        whys.append(left.popleft().why if is_logged else '')
    return whys


def is_of(line, sets):
    """Whether a line of a table can be that of a SET_INFO of this class; it can where it is none."""
    if sets is None or line.command != 'SET_INFO':
        return True
    return line.label.rstrip('0123456789') in ('SI', OF_CLASS.get(sets))


class Rows:
    """The rows of a run: `log` is the program's, `refusals` are those of each connection, in order."""

    def __init__(self, log='', refusals=()):
        self.lines, self.sections = profile()
        logged = refusals_in(log)
        self.whys = [whys_of(logged[i], it) for i, it in enumerate(refusals, 1)]

    def row_of(self, command, status, refused, sets=None):
        """The row of an answer, by its status, and where it was refused by its connection and number there; `sets` is
        the class that a SET_INFO is of."""
        section = self.sections.get(command, '')
        if refused is None:
            return Row(f'{command} {NONE}', '', section)
        why = self.whys[refused[0]][refused[1]] if refused[0] < len(self.whys) else ''
        if why:
            label, _, sentence = why.partition(' ')
            of_label = next((it for it in self.lines if it.label == label), None)
            return Row(label, sentence or (of_label.sentence if of_label else ''),
                       of_label.section if of_label else section)
        return self.by_status(command, status, section, sets)

    def by_status(self, command, status, section, sets):
        """The row that alone has a status, of a command's and of those of all commands."""
        found = [it for it in self.lines if it.command in (command, '') and it.status == status and is_of(it, sets)]
        if len(found) == 1:
            return Row(found[0].label, found[0].sentence, found[0].section)
        labels = ', '.join(it.label for it in found)
        return Row(f'{command} {status}', f'one of {labels}' if labels else '', section)
