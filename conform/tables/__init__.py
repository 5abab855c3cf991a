"""The tables, by name: each gives the scripts that it generates. A new one is a module, and a line of TABLES."""
import functools
import re

from conform.expected import full_name, is_named
from conform.steps import RANDOM, Frame
from conform.tables import (chance, deletes, dispositions, information, listings, locks, renames, settings, sharing,
                            stored)
from tools.frame import COMMANDS

TABLES = {
    'sharing': sharing.scripts, 'dispositions': dispositions.scripts, 'locks': locks.scripts,
    'deletes': deletes.scripts, 'renames': renames.scripts, 'listings': listings.scripts,
    'information': information.scripts, 'settings': settings.scripts, 'rows': stored.scripts,
}


def is_choice(text):
    """Whether a text chooses scripts: a table, TABLE/SCRIPT, or the command that they ask."""
    return text.partition('/')[0] in (*TABLES, RANDOM) or text in COMMANDS


@functools.lru_cache(maxsize=None)
def names():
    """The full name of each script that a table has."""
    return frozenset(full_name(it) for give in TABLES.values() for it in give())


def is_script(text):
    """Whether a text is the full name of a script."""
    return text in names() or re.fullmatch(rf'{RANDOM}/-?\d+\.\d+', text) is not None


def scripts_of(chosen=(), every=1, seed=None, count=0):
    """The scripts that are chosen, all where none are; of each choice the first, and then each so many on. With a seed
    there are so many by chance behind them."""
    made = list(chance.scripts(seed, count)) if seed is not None else []
    found = []
    for choice in chosen or (*TABLES, RANDOM):
        found += chosen_by(choice, made)[::every if choice != RANDOM else 1]
    return found


def chosen_by(choice, made):
    """The scripts that one choice is; `made` are those by chance."""
    table, _, name = choice.partition('/')
    if choice in COMMANDS:
        return [it for each in (*(give() for give in TABLES.values()), made) for it in each if asks(it, choice)]
    if table == RANDOM:
        return made if not name else [chance.script(name)]
    return [it for it in TABLES[table]() if not name or is_named(full_name(it), choice)]


def asks(script, command):
    """Whether a script asks a command."""
    return any(it.command == command or isinstance(it, Frame) and command in it.commands() for it in script.steps)
