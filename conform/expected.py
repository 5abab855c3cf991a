"""The differences that are meant: a file of lines TABLE/SCRIPT COMMAND.FIELD REASON WHY.

    locks/shared.empty-inside.then-exclusive-by-B  LOCK.Status  profile  an empty range keeps nobody out here

Each names one field of one script, with a `-` for each blank of the field's name; none stands for several. The
reasons: `profile`, docs/PROFILE.md decides it where the standard leaves a choice; `standard`, the standard says so, and
the other server does otherwise; `own`, what the other server does is a matter of its own. Lines that are empty or begin
with # are passed over.
"""
import collections
import fnmatch
import re

REASONS = ('profile', 'standard', 'own')
LINE = re.compile(rf'(?P<script>[^/\s]+/\S+)\s+(?P<field>[A-Z_]+\.\S+)\s+(?P<reason>{"|".join(REASONS)})'
                  r'\s+(?P<why>\S.*)')

Meant = collections.namedtuple('Meant', 'script field reason why')


class Misread(Exception):
    """A line that names no difference."""


def read(file, is_script):
    """What a file of differences that are meant has, by the script and the field; `is_script` says of a text whether it
    is the name of a script."""
    try:
        with open(file, encoding='utf-8') as it:
            lines = it.read().splitlines()
    except (OSError, UnicodeDecodeError) as why:
        raise Misread(f'{file}: {getattr(why, "strerror", None) or "it is no text in UTF-8"}') from None
    found = {}
    for i, line in enumerate(lines, 1):
        if line.strip() and line.strip()[0] != '#':
            meant = meant_by(f'{file}:{i}', line.strip(), is_script)
            if (meant.script, meant.field) in found:
                raise Misread(f'{file}:{i}: {meant.script} {meant.field} is there twice')
            found[meant.script, meant.field] = meant
    return found


def meant_by(where, line, is_script):
    found = LINE.fullmatch(line)
    if not found:
        raise Misread(f'{where}: not TABLE/SCRIPT, COMMAND.FIELD, one of {", ".join(REASONS)}, and why')
    if not is_script(found['script']):
        several = ': a line names one, and * stands for no other' if '*' in found['script'] else ''
        raise Misread(f'{where}: no script has the name {found["script"]}{several}')
    return Meant(**found.groupdict())


def full_name(script):
    return f'{script.table}/{script.name}'


def is_named(name, pattern):
    """Whether a pattern names a script: `*` is any text, and all else stands for itself."""
    return fnmatch.fnmatchcase(name, re.sub(r'([\[?])', r'[\1]', pattern))


def place_of(difference):
    """The script and the field of a difference, as a line names them."""
    return full_name(difference.script), f'{difference.command}.{difference.field.replace(" ", "-")}'


def proposed(differences):
    """Lines that name differences, whose reasons are to be chosen: one in the place of each `?`."""
    return ''.join(f'{script}  {field}  ?  wanted {it.wanted}, found {it.found}\n'
                   for it in differences for script, field in [place_of(it)])
