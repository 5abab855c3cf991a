"""Runs all of bench/ over the proved program, and writes bench/FIGURES.md and bench/beside.svg.

    (cd crates/smbshare && rt run < stdin > /dev/null)     builds crates/smbshare/out/smbshare
    python3 -m bench.run [SCRIPT ..]
    python3 -m bench.NAME [PROGRAM]                        prints the rows of one script

It takes some ten minutes, and 6 GiB of memory for scale.py. smbd and smbclient are measured beside it where they are installed
(Debian's packages samba and smbclient); without smbclient requests.py is left out, and real_clients.py without that or rclone. Where
scripts are named, as `beside.py`, only these run, and the other sections stay as they are. A section of no script stays too, behind
the others. A section has the day and the machine of its run, and the load of the machine before it: with other work beside it a figure
says less. A script that fails ends the run, with its words and its status; what was written until then stays.
"""
import datetime
import os
import pathlib
import platform
import re
import shutil
import subprocess
import sys

HERE = pathlib.Path(__file__).resolve().parent
PAGE, CHART = HERE / 'FIGURES.md', HERE / 'beside.svg'
PROGRAM = HERE.parent / 'crates' / 'smbshare' / 'out' / 'smbshare'
HEAD = """# Figures

`python3 -m bench.run` writes this page: a section for each script of this directory, which prints its rows. The program is the
proved one. Each section says on which day and machine it ran, and what the machine did beside it.
"""
USUAL = 'Where a section names no machine it is this: '
# In the order of the page: a script, its words behind its name, and what its figures are of.
SCRIPTS = [
    ('beside.py', [PROGRAM, CHART], 'Processor time of a request beside smbd, and beside two limits: a server that answers each request and does '
     'nothing else, and one that keeps bytes and copies those of a READ and a WRITE once (bench/limit.c). smbd has a share for guests in a '
     'folder, at most dialect 2.1. The servers take turns, seven each; a figure is the median. The processor time is the server\'s own, with '
     'the system\'s part in it; the time by the clock has the client\'s, a script in Python, in it. bench/beside.svg shows the first.'),
    ('signed.py', [PROGRAM], 'The same beside smbd with each request and each response signed: an account logs in by its password, with '
     '`--signing required` here and `server signing = mandatory` there.'),
    ('serving.py', [], 'Exchanges over TCP on one machine, and what the program takes while nobody speaks. The client is a script in Python, '
     'whose time is in the figures. A client keeps so many requests in flight. A set-up is a connection that negotiates, sets up a session, '
     'connects to the share and ends. Of as many bytes in flight, long requests cost the program no more for each byte than short ones.'),
    ('recording.py', [], 'What is kept and what is logged, over TCP. One client waits for each answer; medians of five. A record is text, in '
     'hex; a journal has what changes of the files. Without a log nothing is decoded. The last table is of a share that is begun '
     'again from its journal.'),
    ('watched.py', [], 'A share with 50 other clients and 1,000 opens, whose status is asked for, or not. One client waits for each answer; '
     'three servers take turns, and processors are kept awake (bench/awake.py). Medians of 31 of the server\'s own processor time and of '
     'the time by the clock, and the longest wait in all turns.'),
    ('requests.py', [], 'By how many requests smbclient puts and gets a file of 16 MiB, in dialect 2.1; each time 7 or 8 of them are other '
     'requests than READs and WRITEs.'),
    ('pages.py', [], 'READ and WRITE over TCP, one in flight, of a file of 16 MiB that is kept in pages, and the memory that files take. The '
     'processor time is the program\'s own, with the system\'s part in it.'),
    ('logins.py', [], 'Connections that open, negotiate, log in, connect to the share and end, one after the other: three requests by a '
     'token, four by NTLM. Of the accounts the last one logs in, since they are looked through in order. In a replay it is the program alone '
     'that is timed, with its start; over TCP the script\'s own time is in the figures.'),
    ('waits.py', [], 'What another client waits for, beside one that sends a piece of chains of 16 queries, whose pattern matches none of '
     '4,080 names of 255 units, each of which ends in 251 `b`; another one sends ECHO after ECHO.'),
    ('drops.py', [], 'Clients\' ECHOs while the share drops what another client is owed, 30 times each. Where memory runs out the program may '
     'have 24 MiB beside those of its start.'),
    ('most_memory.py', [], '64 clients that take nothing, each owed as much as may be, and full files.'),
    ('worst.py', [], 'Single frames that ask as much as a frame may, while every other client waits.'),
    ('scale.py', [], 'A share at size, under limits of its own. Processor time is the server\'s, with the system\'s part in it: medians of servers '
     'that take turns. A request that is alone waits for the answer before; most of it is the system\'s part, which a chain of 16 has once.'),
    ('real_clients.py', [], 'A file of 3 GiB by smbclient, and 20,000 files of 0 to 4,096 bytes by rclone, there and back, as guests by NTLM. '
     'What came back was the same, by checksum. The seconds are the client\'s too.'),
    ('growth.py', [], 'The same request beside few and many entries or opens; the file that it is of is among others in one directory. The '
     'last column is the second time by the first.'),
    ('allocations.py', [], 'What one request allocates in a replay, counted by a small library that is loaded before the program '
     '(`tests/c/count_allocations.c`), beyond what its line of the text takes. The counts are the same in each run.'),
    ('sessions.py', [], 'Connections that open, negotiate, set up a session, connect a tree and end, beside other open sessions.'),
    ('directories.py', [], 'A directory is listed from the start to its end, by class 37 into 65,536 bytes.'),
    ('information.py', [], 'QUERY_INFO and SET_INFO of a file that is five directories deep, and renames beside other entries.'),
    ('locks.py', [], 'A byte is locked and unlocked beside other locks; and a file is opened and closed beside others that have opens and '
     'locks. Neither a LOCK nor a CLOSE goes through the locks of other files.'),
    ('bytes.py', [], 'READ and WRITE in a replay, whose text in hex is most of the time, and a CREATE of a file with other opens.'),
    ('files.py', [], 'Pairs of CREATE and CLOSE in a replay.'),
    ('echo.py', [], 'ECHOs in a replay. Eight connections take turns, each stream cut into pieces of 1, 7 and 4,096 bytes. The text and the '
     'answers are held whole, which is most of the memory.'),
    ('show.py', [], '`show` on streams of mixed requests, and of a frame for each ECHO.'),
]

# What has to be installed for a script.
WANTED_BY = {'requests.py': ['smbclient'], 'real_clients.py': ['smbclient', 'rclone']}


def folded(text):
    """A paragraph in lines of at most 120 characters."""
    lines = ['']
    for word in text.split():
        if len(lines[-1]) + len(word) >= 120:
            lines.append('')
        lines[-1] += f' {word}' if lines[-1] else word
    return '\n'.join(lines)


def first_line(words):
    """What a command prints first; nothing where there is no such command."""
    if not shutil.which(words[0]):
        return ''
    ran = subprocess.run(words, stdout=subprocess.PIPE, stderr=subprocess.DEVNULL, stdin=subprocess.DEVNULL, check=False)
    return ran.stdout.decode(errors='replace').strip().partition('\n')[0]


def processor():
    """The processor by its name, as the system has it."""
    found = re.search(r'^model name\s*: (.*)$', pathlib.Path('/proc/cpuinfo').read_text(encoding='utf-8'), re.M)
    return found.group(1).strip() if found else platform.machine()


def machine():
    """Where a script runs."""
    kit = first_line(['rt', 'version']).partition(' ')[0]
    beside = [it for it in (first_line(['smbd', '--version']), first_line(['smbclient', '--version'])) if it]
    samba = f'; Samba: {beside[0].replace("Version ", "")}' if beside else ''
    return f'{os.cpu_count()} processors, {processor()}; {platform.system()} {platform.release()}; {kit}{samba}'


def sections_of(page):
    """The sections of the page by the names of their scripts."""
    return {part.partition('\n')[0].strip(): part.partition('\n')[2].strip() for part in re.split(r'^## ', page, flags=re.M)[1:]}


def usual_of(page):
    """The machine of the sections that name none."""
    found = re.search(f'^{USUAL}(.*?)\\.\n\n', page, re.M | re.S)
    return ' '.join(found[1].split()) if found else machine()


def named(section, place):
    """A section with its machine, which is this where it names none."""
    return re.sub(r'^(\d{4}-\d\d-\d\d); (load before)', lambda it: f'{it[1]}; {place}; {it[2]}', section, flags=re.M)


def unnamed(section, place):
    """A section that does not name its machine where that is this."""
    return re.sub(r';\s+'.join(['', *map(re.escape, place.split('; ')), '']).replace('\\ ', r'\s+'), '; ', section)


def page_of(sections, place):
    """The page: the sections of scripts in their order, and behind them those of none; where the machine is this none names it."""
    names = [name for name, _, _ in SCRIPTS if name in sections]
    names += [name for name in sections if name not in names]
    head = f'{HEAD}\n{folded(USUAL + place)}.\n'
    return head + ''.join(f'\n## {name}\n\n{unnamed(sections[name], place)}\n' for name in names)


def section(script, words, about):
    """What a script prints, behind what its figures are of and where it ran."""
    where = f'{datetime.date.today()}; {machine()}; load before it {os.getloadavg()[0]:.1f}.'
    print(f'{script} ..', flush=True)
    command = [sys.executable, '-m', f'bench.{script[:-len(".py")]}', *map(str, words)]
    ran = subprocess.run(command, cwd=HERE.parent, stdout=subprocess.PIPE, stdin=subprocess.DEVNULL, check=False)
    if ran.returncode != 0:
        sys.exit(f'{script} ended with status {ran.returncode}')
    return f'{folded(about)}\n\n{folded(where)}\n\n{ran.stdout.decode().strip()}'


def main(wanted):
    unknown = set(wanted) - {script for script, _, _ in SCRIPTS}
    if unknown or not PROGRAM.is_file():
        sys.exit(f'there is no {unknown.pop()}' if unknown else __doc__)
    page = PAGE.read_text(encoding='utf-8') if PAGE.exists() else HEAD
    place = usual_of(page) if wanted else machine()
    sections = {name: named(it, usual_of(page)) for name, it in sections_of(page).items()}
    for script, words, about in SCRIPTS:
        if script in wanted or not wanted:
            if not all(map(shutil.which, WANTED_BY.get(script, ()))):
                continue
            sections[script] = section(script, words, about)
            PAGE.write_text(page_of(sections, place), encoding='utf-8')


if __name__ == '__main__':
    main(sys.argv[1:])
