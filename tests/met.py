"""Which refusals and ends the rows of crates/smb_rows meet:

    python3 -m tests.met [--check] [smb_rows]

Plays the rows by the program smb_rows, which `rt ci` built where no other is named, and writes into docs/TESTING.md for each row
of docs/PROFILE.md's tables how many rows of crates/smb_rows meet it, and which one where it is one alone. With --check it writes
nothing, and its status is 1 where the page has another list, or a refusal that a request can meet is met by none.
"""
import os
import re
import subprocess
import sys
import textwrap

from tests.smb.program import TOP
from tools.lib.refusals import rows, tables

PAGE = os.path.join(TOP, 'docs', 'TESTING.md')
ROWS = os.path.join(TOP, 'crates', 'smb_rows')
MARK = r'(<!-- table: met -->\n)(?:.+\n)*'
# Before these P4, P5 or P8 is looked at, of every request.
MET_BY_NONE = ('LO1', 'TC1', 'TD1', 'TD2', 'CL1')
# The sentence of E3 has a number.
NUMBERED = re.compile(r'MessageId \d+ is')


def met(program):
    """The names of the rows that meet each reason, by its label and its sentence."""
    with open(os.path.join(ROWS, 'stdin'), 'rb') as given:
        printed = subprocess.run([program, 'reasons'], stdin=given, stdout=subprocess.PIPE, check=True, text=True).stdout
    found, name = {}, None
    for line in printed.splitlines():
        if line.startswith('== '):
            name = line[3:]
            continue
        label, sentence = line.partition(': ')[2].split(', ', 1)
        names = found.setdefault((label, NUMBERED.sub('a MessageId is', sentence)), [])
        if name not in names:
            names.append(name)
    return found


def item(words):
    """An item of the list, in lines of at most 120 columns."""
    return textwrap.fill(f'- {words}', 120, subsequent_indent='  ') + '\n'


def written(found):
    """The list: the labels that no row meets, those that one meets, by its name, and the others with how many rows meet them."""
    none, one, more = [], {}, []
    for label, sentence in rows(tables()):
        names = found.get((label, sentence), [])
        if not names:
            none.append(label)
        elif len(names) == 1:
            one.setdefault(names[0], []).append(label)
        else:
            more.append(f'{label} {len(names)}')
    of_one = '; '.join(f'{", ".join(labels)} {name}' for name, labels in one.items())
    return item(f'by no row: {", ".join(none)}') + item(f'by one: {of_one}') + item(f'by more: {", ".join(more)}')


def faults(found):
    """The refusals that are met by no row, and could be."""
    return [f'{label}, {sentence}: met by no row' for label, sentence in rows(tables())
            if (label, sentence) not in found and label not in MET_BY_NONE]


def main(words):
    is_check = words[:1] == ['--check']
    program = (words[is_check:] or [os.path.join(ROWS, 'out', 'smb_rows')])[0]
    found = met(program)
    with open(PAGE, encoding='utf-8') as page:
        text = page.read()
    wanted = re.sub(MARK, lambda it: it[1] + written(found), text)
    missed = faults(found)
    print(*missed, f'refusals: {len(rows(tables())) - len(missed) - len(MET_BY_NONE)} met, {len(missed)} not, {len(MET_BY_NONE)} by no request', sep='\n')
    if is_check:
        return int(text != wanted or bool(missed))
    with open(PAGE, 'w', encoding='utf-8') as page:
        page.write(wanted)
    return 0


if __name__ == '__main__':
    sys.exit(main(sys.argv[1:]))
