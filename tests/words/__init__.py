"""The program's words: which it takes, what it says of a fault, what it does without memory, and the stored demo."""
import contextlib
import difflib
import io
import os
import sys

from tests import met
from tests.smb.program import TOP
from tests.words import accounts, faults, hosts, program, sharing, without_memory
from tools.lib import refusals
from tools.lib.demo import demo

ANSWERS = 'examples/demo.answers'


def the_demo_prints_what_is_stored(it):
    with contextlib.redirect_stdout(io.StringIO()) as printed:
        demo(it)
    with open(os.path.join(TOP, ANSWERS), encoding='utf-8') as stored:
        wanted, found = stored.read().splitlines(True), printed.getvalue().splitlines(True)
    sys.stdout.writelines(difflib.unified_diff(wanted, found, ANSWERS, 'what was printed', n=1))
    return wanted == found


def the_profile_has_the_tables_that_are_printed(_):
    found = refusals.faults()
    print(''.join(f'  {it}\n' for it in found), end='', flush=True)
    return not found


def every_refusal_is_met_by_a_row(_):
    return met.main(['--check']) == 0


def tests(words):
    """The run-time checks of an unproved program have memory of their own: there memory doesn't run out. Nor is smb_rows built."""
    of_built = () if words.program.is_unproved else (*without_memory.TESTS, *sharing.WITHOUT_MEMORY, *hosts.WITHOUT_MEMORY,
                                                     every_refusal_is_met_by_a_row)
    return [(test, words.program) for test in (*of_built, *program.TESTS, *faults.TESTS, *accounts.TESTS, *sharing.TESTS, *hosts.TESTS,
                                             the_demo_prints_what_is_stored,
                                             the_profile_has_the_tables_that_are_printed)]
