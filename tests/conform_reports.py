"""What the tester of other servers writes: the rows that decide, differences that are meant, Markdown and HTML."""
import os
import re
import tempfile

from conform.rows import Rows
from tests.conform_runs import ACCESS_DENIED, QUERY_DIRECTORY, SHARING_VIOLATION, other_status, ran, served
from tests.smb.between import Between, command_of

# A log of two connections, as the program writes it; the end of a listing, and a status that is not the next, are no
# lines of it.
LOG = '\n'.join('\t'.join(it) for it in (
    ('2026-11-28 19:00:00.000', '1', '127.0.0.1:50000', '-', 'opened', '-', '-'),
    ('2026-11-28 19:00:00.001', '1', '127.0.0.1:50000', 'guest', 'CREATE x why="P1 no" OPEN', 'STATUS_ACCESS_DENIED',
     '25 why="C6 no access is asked for"'),
    ('2026-11-28 19:00:00.002', '2', '127.0.0.1:50001', 'guest', 'CREATE x OPEN', 'STATUS_SHARING_VIOLATION', '31'),
    ('2026-11-28 19:00:00.003', '1', '127.0.0.1:50000', 'guest', 'CREATE y OPEN', 'STATUS_ACCESS_DENIED',
     '25 why="C13"'),
    ('2026-11-28 19:00:00.004', '-', '-', '-', 'minute', '-', '-'),
)) + '\n'


def a_row_is_what_the_log_says(_):
    """By the client's connection and how many of its requests were refused before; and what the table says of it."""
    rows = Rows(LOG, [[('CREATE', ACCESS_DENIED), ('QUERY_DIRECTORY', 0x80000006), ('CREATE', ACCESS_DENIED)],
                      [('CREATE', SHARING_VIOLATION)]])
    first, third = (rows.row_of('CREATE', 'STATUS_ACCESS_DENIED', (0, at)) for at in (0, 2))
    return (first == ('C6', 'no access is asked for', '[MS-SMB2] 3.3.5.9')
            and third[0] == 'C13' and third[1].startswith('it is a read-only file') and third[2] == first[2])


def a_row_is_found_without_a_log(_):
    """By the command and the status, where one row alone has it; a success is of no row."""
    rows = Rows()
    several = rows.row_of('CREATE', 'STATUS_ACCESS_DENIED', (0, 0))
    return (rows.row_of('CREATE', 'STATUS_SHARING_VIOLATION', (0, 0)).title == 'C15'
            and several.title == 'CREATE STATUS_ACCESS_DENIED' and several.sentence == 'one of P0a, P0b, C6, C6b, C9b, C13'
            and rows.row_of('SET_INFO', 'STATUS_OBJECT_PATH_NOT_FOUND', (0, 0), 10)[::2] == (
                'N6', '[MS-FSA] 2.1.5.15.11')
            and rows.row_of('READ', '', None) == ('READ (none refuses)', '', '[MS-SMB2] 3.3.5.12'))


def what_is_meant_is_no_fault(program):
    """A file names the differences that are meant, script by script, as --propose writes them but for the reason."""
    with tempfile.TemporaryDirectory() as folder, served(program) as share, \
            Between(share.port, other_status) as server:
        file, lines = os.path.join(folder, 'meant'), os.path.join(folder, 'lines')
        words = ('--only', 'sharing', '--every', '211')
        found = ran(program, server.port, *words, '--propose', lines)
        with open(lines, encoding='utf-8') as it:
            proposed = it.read()
        with open(file, 'w', encoding='utf-8') as it:
            it.write('# all\n\n' + proposed.replace('  ?  ', '  own  it is so there: ')
                     + 'sharing/READ_DATA.---+READ_DATA.--- READ.the-bytes profile x\n')
        status, output, errors = ran(program, server.port, *words, '--expect', file)
        return (found[0] == 1 and (status, errors) == (0, '') and proposed.count('\n') == 16
                and 'meant to differ: 16: own, it is so there' in output
                and 'named as meant, and no difference: sharing/READ_DATA.---+READ_DATA.--- READ.the-bytes' in output)


def a_line_that_names_no_difference_is_refused(program):
    """With its number: one that names several, or no script, that has no reason, or that is there twice."""
    name = 'locks/shared.equal.then-shared-by-A'
    wrong = {
        'locks/* LOCK.Status own it is so': 'no script has the name locks/*: a line names one, and * stands for no '
                                            'other',
        'locks/none LOCK.Status own it is so': 'no script has the name locks/none',
        f'{name} own it is so': 'not TABLE/SCRIPT, COMMAND.FIELD, one of profile, standard, own, and why',
        f'{name} LOCK.Status ? it is so': 'not TABLE/SCRIPT, COMMAND.FIELD, one of profile, standard, own, and why',
        f'{name} LOCK.Status own': 'not TABLE/SCRIPT, COMMAND.FIELD, one of profile, standard, own, and why',
        f'{name} LOCK.Status own a\n{name} LOCK.Status own b': f'{name} LOCK.Status is there twice',
    }
    with tempfile.TemporaryDirectory() as folder, served(program) as share:
        for text, said in wrong.items():
            file = os.path.join(folder, 'meant')
            with open(file, 'w', encoding='utf-8') as it:
                it.write(f'{text}\n')
            found = ran(program, share.port, '--only', name, '--expect', file)
            if found != (2, '', f'conform: {file}:{len(text.splitlines())}: {said}\n'):
                print(f'  {text}: {found}')
                return False
    return True


def evil_names(frame):
    """A listing whose name `Ab` is markup, and `ro` a command to a terminal."""
    if command_of(frame) != QUERY_DIRECTORY:
        return frame
    return frame.replace('Ab'.encode('utf-16-le'), '<b'.encode('utf-16-le')).replace(
        'ro'.encode('utf-16-le'), '\x1b`'.encode('utf-16-le'))


def a_page_has_what_a_server_sent_as_text(program):
    """As Markdown and as HTML: each script is a cell, what differs is told below, and no name is markup."""
    with tempfile.TemporaryDirectory() as folder, served(program) as share, \
            Between(share.port, evil_names) as server:
        files = [os.path.join(folder, name) for name in ('page', 'text')]
        words = ('--only', 'listings', '--every', '20', '--html', files[0], '--markdown', files[1])
        status, output, errors = ran(program, server.port, *words)
        page, text = (open(it, encoding='utf-8').read() for it in files)
    count = int(re.search(r'(\d+) were played', output)[1])
    tags = set(re.findall(r'<(/?\w+)', page)) - {f'{end}{it}' for end in ('', '/') for it in (
        'html', 'head', 'meta', 'title', 'style', 'body', 'h1', 'h2', 'h3', 'p', 'br', 'span', 'div', 'a', 'pre', 'ul',
        'li')}
    return ((status, errors, tags) == (1, '', set()) and '&lt;b EndOfFile' in page and page.count('title="') == count
            and 'href="#d0"' in page and 'id="d0"' in page and '<script' not in page
            and '\x1b' not in page + text + output and '\\u{1b}' in output and '```' in text and '\\<b' in text)


def a_page_of_no_difference_is_whole(program):
    with tempfile.TemporaryDirectory() as folder, served(program) as share:
        file = os.path.join(folder, 'page')
        status, _, _ = ran(program, share.port, '--only', 'CREATE', '--every', '200', '--html', file)
        with open(file, encoding='utf-8') as it:
            page = it.read()
    return (status == 0 and page.startswith('<!DOCTYPE html>') and page.endswith('</body></html>\n')
            and 'class="equal"' in page)


TESTS = (
    a_row_is_what_the_log_says, a_row_is_found_without_a_log, what_is_meant_is_no_fault,
    a_line_that_names_no_difference_is_refused, a_page_has_what_a_server_sent_as_text, a_page_of_no_difference_is_whole,
)
