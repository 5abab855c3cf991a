"""Plays scripts on a server of SMB2 and on this project's own program, and says where their answers differ:

    python3 -m conform HOST:PORT --share data [--user ann --password-file F]

What is compared is the status, and the fields that a server does not choose. Each script is played in a directory of
its own, which is removed at the end. With --seed there are scripts by chance too, which are made as short as they
still differ. The status is 0 where all is equal or meant to differ, 1 where something else differs, and 2 where the
words are wrong, the server can't be reached or lets nobody in, or the run is interrupted.
"""
import argparse
import json
import sys
import tempfile
import time

from conform import expected, own, pages
from conform.login import DIALECTS, GUEST, NO_PASSWORD, Refused, Server
from conform.playing import OwnFault, Run
from conform.report import Report
from conform.rows import Rows
from conform.steps import RANDOM
from conform.tables import TABLES, is_choice, is_script, scripts_of
from conform.wire import Fault

PATIENCE, SCRIPTS = 10, 1_000
SPOKEN = {'2.0.2': DIALECTS[:1], '2.1': DIALECTS[1:]}
# The report in other forms, each written where a word of its name says.
WRITERS = (('json', lambda it: json.dumps(it.data(), indent=1) + '\n'), ('markdown', pages.markdown),
           ('html', pages.page))


class Wrong(Exception):
    """Words of the command line, or a file that they name, of which nothing can be made."""


def address(text):
    """The host and the port of HOST:PORT."""
    host, colon, port = text.rpartition(':')
    if not colon or not host or not port.isdecimal() or not 0 < int(port) < 65_536:
        raise argparse.ArgumentTypeError(f'{text!r} is not HOST:PORT')
    return host.strip('[]'), int(port)


def choice(text):
    """A table, TABLE/SCRIPT, or a command."""
    if not is_choice(text):
        raise argparse.ArgumentTypeError(f'{text!r} is no command and no table: {", ".join((*TABLES, RANDOM))}')
    return text


def positive(kind):
    def read(text):
        number = kind(text)
        if not 0 < number < 1_000_000:
            raise ValueError(text)
        return number

    read.__name__ = 'number'
    return read


def reader():
    words = argparse.ArgumentParser(prog='python3 -m conform', description=__doc__,
                                    formatter_class=argparse.RawDescriptionHelpFormatter)
    words.add_argument('server', type=address, metavar='HOST:PORT', help='the server under test')
    words.add_argument('--share', required=True, metavar='NAME', help='its share, which has to let the user write')
    words.add_argument('--user', metavar='NAME', help='who logs in; a guest where it is left out')
    words.add_argument('--password-file', metavar='FILE', help='the password, in UTF-8, in one line')
    words.add_argument('--only', action='append', type=choice, default=[], metavar='TABLE',
                       help=f'one of {", ".join((*TABLES, RANDOM))}; TABLE/SCRIPT, where * is any text; a command')
    words.add_argument('--every', type=positive(int), default=1, metavar='N',
                       help='of each table the first script, and then each so many on')
    words.add_argument('--seed', type=int, metavar='N', help='scripts by chance too, which are those of this seed')
    words.add_argument('--scripts', type=positive(int), default=SCRIPTS, metavar='K',
                       help=f'so many by chance, {SCRIPTS:,} where it is left out')
    words.add_argument('--dialect', choices=tuple(SPOKEN), help='the only one that is offered to the server')
    words.add_argument('--program', metavar='PATH', help='the program smbshare, where it is another one')
    words.add_argument('--patience', type=positive(float), default=PATIENCE, metavar='SECONDS',
                       help=f'how long an answer may take, {PATIENCE} where it is left out')
    for kind, _ in WRITERS:
        words.add_argument(f'--{kind}', metavar='FILE', help=f'writes the report there too, as {kind}')
    words.add_argument('--expect', metavar='FILE',
                       help='the differences that are meant: lines TABLE/SCRIPT COMMAND.FIELD REASON WHY')
    words.add_argument('--propose', metavar='FILE', help='writes such lines there, of all other differences')
    return words


def who_logs_in(words, program):
    """The name and the NT hash of who logs in."""
    if bool(words.user) != bool(words.password_file):
        raise Wrong('--user and --password-file go together')
    if not words.user:
        return GUEST, NO_PASSWORD
    try:
        with open(words.password_file, 'rb') as file:
            nt_hash = own.hash_of(program, file.read())
    except OSError as why:
        raise Wrong(f'{words.password_file}: {why.strerror}') from None
    if nt_hash is None:
        raise Wrong(f'{words.password_file}: it is no password in UTF-8')
    return words.user, nt_hash


def run_of(words, program, who, scripts):
    """Plays scripts on the server and on the program, and leaves nothing on the server; and which rows decided."""
    host, port = words.server
    server = Server(f'{host}:{port}', host, port, words.share, *who, words.patience)
    with tempfile.TemporaryDirectory() as folder, own.serves(program, folder, *who) as share:
        run = Run(server, own.server_of(share, *who), SPOKEN.get(words.dialect, DIALECTS))
        try:
            run.begins()
            run.plays_all(scripts)
        except KeyboardInterrupt:
            run.loses_clients()
            raise
        finally:
            run.ends()
        with open(own.log_in(folder), encoding='utf-8', errors='replace') as log:
            return run, Rows(log.read(), [it.refusals for it in run.own.came])


def reported(words):
    """The report of a run as the words say, once it is printed and written."""
    program = own.program_at(words.program)
    if program is None:
        raise Wrong(f'{words.program or "out/unproved/smbshare"}: no program; bash tools/serve.sh --build makes one')
    meant = expected.read(words.expect, is_script) if words.expect else {}
    scripts, begin = scripts_of(words.only, words.every, words.seed, words.scripts), time.monotonic()
    if not scripts:
        raise Wrong(f'no script has the name {words.only[0]}')
    run, rows = run_of(words, program, who_logs_in(words, program), scripts)
    report = Report(run, meant, scripts, time.monotonic() - begin, rows)
    sys.stdout.write(report.text())
    for kind, write in (*WRITERS, ('propose', lambda it: expected.proposed(it.other))):
        name = getattr(words, kind)
        if name:
            with open(name, 'w', encoding='utf-8') as file:
                file.write(write(report))
    return report


def main(given):
    words = reader().parse_args(given)
    try:
        return 0 if reported(words).is_well() else 1
    except Fault as fault:
        why = f'{words.server[0]}:{words.server[1]}: {fault}'
    except OSError as fault:
        why = f'{fault.filename}: {fault.strerror}'
    except KeyboardInterrupt:
        why = 'it was interrupted'
    except (Wrong, expected.Misread, Refused, OwnFault, AssertionError) as fault:
        why = str(fault)
    sys.stderr.write(f'conform: {why}\n')
    return 2


if __name__ == '__main__':
    sys.exit(main(sys.argv[1:]))
