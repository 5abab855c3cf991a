"""Hostile streams of bytes, by replays: nobody else is harmed.

Behind each hostile stream a newcomer negotiates and sends an ECHO, and has to get the very frames of the rows. The
first two tests use the stream of a row that was set by hand, cut or changed at each byte; the third the streams of the
real clients that tools/record.py recorded, changed at random. What is done in trial I depends on I and the seed alone;
a failure names both.
"""
import concurrent.futures
import itertools
import os
import random
import subprocess
import tempfile

from tests.smb.chance import some_bytes
from tests.smb.frames import frame as frame_of_payload
from tests.smb.rows import BY_HAND, Rows, line_of, login_words_of
from tools import frame as frame_tool

SEED, COUNT = 20_261_126, 2_000
# Where a frame has a request's CreditCharge, command, NextCommand and MessageId, and a response's flags.
CHARGE_AT, COMMAND_AT, NEXT_COMMAND_AT, MESSAGE_ID_AT, FLAGS_AT, HEADER = 10, 16, 24, 28, 20, 64
EDGES = (0, 1, 2, 7, 8, 63, 64, 65, 72, 0x7FFF, 0x8000, 0xFFFF, 0x10000, 0x10001, 0x80000, 0x80001, 0x100000, 0x100001,
         0x7FFFFFFF, 0x80000000, 0xFFFFFFF8, 0xFFFFFFFF, 1 << 63, (1 << 64) - 8, (1 << 64) - 2, (1 << 64) - 1)


class Session:
    """A recorded session: what came, what answered it, and the words of the program with which it is replayed."""

    def __init__(self, rows, name, folder):
        self.name, events = name, rows.events(name)
        self.come = [event for event in events if event[0] in '+>-']
        self.answers = [line_of(*event) for event in events if event[0] == '<']
        if len(self.answers) != sum(event[0] == '>' for event in self.come):
            raise ValueError(f'{name}: not each frame has one answer')
        where = os.path.join(folder, name)
        os.mkdir(where)
        self.words = login_words_of(where, rows.lines[name])
        words = frame_tool.read(next(frame for sign, _, frame in events if sign == '<' and b'NTLM' not in frame))
        hello, is_required = words.partition(' Buffer=')[2], 'SecurityMode=3' in words
        mode = 'SecurityMode=3 ' * is_required
        negotiated = f'response NEGOTIATE Credits=31 {mode}DialectRevision=SMB_2_0_2 Buffer={hello}'
        self.newcomer = Newcomer(rows, frame_tool.as_bytes(frame_tool.write(negotiated)))
        self.next = 1 + max(number for _, number, _ in events)


class Newcomer:
    """A client that comes behind a hostile one: what it sends, and what it has to get."""

    def __init__(self, rows, negotiated):
        self.sent = (rows.named['negotiate'], rows.named['echo'])
        self.got = (negotiated, rows.named['echoed'])

    def comes(self, number):
        return [('+', number, b''), *(('>', number, frame) for frame in self.sent), ('-', number, b'')]

    def is_answered(self, number):
        return [line_of('<', number, frame) for frame in self.got]


def text_of(come):
    return ''.join(line_of(*event) for event in come if event[0] != '>' or event[2])


def replayed(program, come, words=()):
    """The status, the lines of standard output and the standard error of a replay; no status where it does not end."""
    try:
        status, output, errors = program.ran('replay', *words, given=text_of(come).encode())
    except subprocess.TimeoutExpired:
        return None, [], f'no end within {program.patience} seconds'
    return status, output.decode().splitlines(keepends=True), errors


def all_well(trial, numbers):
    """Whether some trials are well; they are played side by side, and what is wrong with one is printed."""
    def fault_of(number):
        try:
            return trial(number)
        except Exception as error:
            return f'{number}: {error!r}'

    with concurrent.futures.ThreadPoolExecutor(os.cpu_count()) as pool:
        faults = [why for why in pool.map(fault_of, numbers) if why]
    for why in faults[:10]:
        print(f'  {why}', flush=True)
    return not faults


def by_hand():
    """The stream of the row set by hand, where each of its frames ends, the answers, and a newcomer."""
    rows = Rows()
    events = rows.events(BY_HAND)
    frames = [frame for sign, _, frame in events if sign == '>']
    answers = [frame for sign, _, frame in events if sign == '<']
    ends = list(itertools.accumulate(map(len, frames)))
    return b''.join(frames), ends, answers, Newcomer(rows, rows.named['negotiated'])


def a_stream_cut_at_each_byte_is_answered_up_to_there(program):
    """Cut there its connection ends: the whole frames before are answered as ever, and a newcomer after it."""
    stream, ends, answers, newcomer = by_hand()

    def wrong_at(at):
        whole = sum(end <= at for end in ends)
        come = [('+', 1, b''), ('>', 1, stream[:at]), ('-', 1, b''), *newcomer.comes(2)]
        said = [line_of('<', 1, frame) for frame in answers[:whole]] + newcomer.is_answered(2)
        found = replayed(program, come)
        return None if found == (0, said, '') else f'cut at {at}: {found}'

    return all_well(wrong_at, range(len(stream) + 1))


def a_stream_with_each_byte_set_harms_no_newcomer(program):
    """Each byte is 0x00, then 0xFF, on a connection of its own in one share; a newcomer comes after each."""
    stream, _, _, newcomer = by_hand()
    changes = [(at, value) for value in (b'\x00', b'\xff') for at in range(len(stream))]
    come = []
    for i, (at, value) in enumerate(changes):
        hostile = stream[:at] + value + stream[at + 1:]
        come += [('+', 2 * i + 1, b''), ('>', 2 * i + 1, hostile), ('-', 2 * i + 1, b''), *newcomer.comes(2 * i + 2)]
    status, output, errors = replayed(program, come)
    said = {}
    for line in output:
        said.setdefault(int(line.split()[1]), []).append(line)
    wrong = [(at, value) for i, (at, value) in enumerate(changes)
             if said.get(2 * i + 2) != newcomer.is_answered(2 * i + 2) or not are_responses(said.get(2 * i + 1, []))]
    for at, value in wrong[:10]:
        print(f'  byte {at} as {value.hex()}: the newcomer is not answered, or what answers the stream is misformed')
    return (status, errors, wrong) == (0, '', [])


def is_a_chain(payload):
    """Whether a payload is one response or more, one behind the other, each at a multiple of 8."""
    at = 0
    while True:
        header = payload[at:at + HEADER]
        if len(header) < HEADER or header[:4] != b'\xfeSMB' or not header[FLAGS_AT - 4] & 1:
            return False
        step = int.from_bytes(header[NEXT_COMMAND_AT - 4:NEXT_COMMAND_AT], 'little')
        if step == 0:
            return True
        if step % 8 or step <= HEADER:
            return False
        at += step


def are_responses(lines):
    """Whether each line is a frame of responses, or the end of a connection, of which no line comes then."""
    ended = set()
    for line in lines:
        sign, number, *digits = line.split()
        if number in ended:
            return False
        if sign == 'x':
            ended.add(number)
            continue
        raw = bytes.fromhex(digits[0])
        if sign != '<' or int.from_bytes(raw[:4], 'big') != len(raw) - 4 or not is_a_chain(raw[4:]):
            return False
    return True


# What is done to the bytes of a frame, by a source of chance.

def put(frame, at, raw):
    return frame[:at] + raw + frame[at + len(raw):]


def set_byte(chance, frame):
    return put(frame, chance.randrange(len(frame)), some_bytes(chance, 1))


def flip_bit(chance, frame):
    at = chance.randrange(len(frame))
    return put(frame, at, bytes([frame[at] ^ 1 << chance.randrange(8)]))


def set_bytes(chance, frame):
    return put(frame, chance.randrange(len(frame)), some_bytes(chance, chance.randint(2, 24)))


def perhaps_framed(chance, raw):
    """The bytes, or with the right length before them, as chance has it."""
    return frame_of_payload(raw[4:]) if chance.random() < 0.6 else raw


def delete_bytes(chance, frame):
    at = chance.randrange(len(frame))
    return perhaps_framed(chance, frame[:at] + frame[at + chance.randint(1, 80):])


def insert_bytes(chance, frame):
    at = chance.randrange(len(frame) + 1)
    return perhaps_framed(chance, frame[:at] + some_bytes(chance, chance.randint(1, 80)) + frame[at:])


def edge(chance, width):
    return (chance.choice(EDGES) & (1 << 8 * width) - 1).to_bytes(width, 'little')


def set_field(chance, frame):
    """Bytes where a field may be, at an even place: offsets and lengths are among them."""
    width = chance.choice((2, 4, 8))
    return put(frame, 2 * chance.randrange(1, max(2, len(frame) // 2)), edge(chance, width))


def set_length(chance, frame):
    length = chance.choice((*EDGES, len(frame) - 5, len(frame) - 3, len(frame) + 68)) & 0xFFFFFFFF
    return put(frame, 0, length.to_bytes(4, 'big'))


def set_next_command(chance, frame):
    near = chance.choice((len(frame) - 4, (len(frame) + 3) & ~7, 64, 72, 80, 88, 96, 120)) & 0xFFFFFFFF
    return put(frame, NEXT_COMMAND_AT, edge(chance, 4) if chance.random() < 0.5 else near.to_bytes(4, 'little'))


def set_message_id(chance, frame):
    old = int.from_bytes(frame[MESSAGE_ID_AT:MESSAGE_ID_AT + 8], 'little')
    near = chance.choice((old + 1, old - 1, old + 31, old + 255, old + 256)) & (1 << 64) - 1
    return put(frame, MESSAGE_ID_AT, edge(chance, 8) if chance.random() < 0.5 else near.to_bytes(8, 'little'))


def set_charge(chance, frame):
    return put(frame, CHARGE_AT, chance.choice((0, 1, 2, 3, 9, 31, 32, 256, 0xFFFF)).to_bytes(2, 'little'))


def set_command(chance, frame):
    return put(frame, COMMAND_AT, chance.randrange(0x14).to_bytes(2, 'little'))


# What is done to a list of events at a frame.

def duplicate_frame(_, come, at):
    return [*come[:at + 1], come[at], *come[at + 1:]]


def drop_frame(_, come, at):
    return [*come[:at], *come[at + 1:]]


def swap_frames(_, come, at):
    """The frame and the next one of its connection; where there is none, nothing."""
    other = next((i for i in range(at + 1, len(come)) if come[i][:2] == come[at][:2]), at)
    found = list(come)
    found[at], found[other] = come[other], come[at]
    return found


def cut_stream(chance, come, at):
    """Nothing comes on the connection behind some byte of the frame, but its end."""
    sign, number, frame = come[at]
    behind = [event for event in come[at + 1:] if event[:2] != (sign, number)]
    return [*come[:at], (sign, number, frame[:chance.randrange(len(frame))]), *behind]


OF_FRAMES = (set_byte, flip_bit, set_bytes, delete_bytes, insert_bytes, set_field, set_field, set_length,
             set_next_command, set_message_id, set_charge, set_command)
OF_STREAMS = (duplicate_frame, swap_frames, drop_frame, cut_stream)


def mutated(chance, come):
    """The events with one change or more, the place of the first that is changed, and what was done."""
    first, done = len(come), []
    for _ in range(chance.choice((1, 1, 1, 2, 4))):
        places = [i for i, event in enumerate(come) if event[0] == '>' and event[2]]
        if not places:
            break
        at, change = chance.choice(places), chance.choice(OF_FRAMES + OF_STREAMS)
        if change in OF_FRAMES:
            sign, number, frame = come[at]
            come = [*come[:at], (sign, number, change(chance, frame)), *come[at + 1:]]
        else:
            come = change(chance, come, at)
        first = min(first, at)
        done.append(f'{change.__name__} at event {at}')
    return come, first, done


def cut_up(chance, come):
    """The same bytes, but what follows one another on a connection is cut into pieces at random places."""
    found = []
    for key, events in itertools.groupby(come, lambda event: event[:2] if event[0] == '>' else None):
        if key is None:
            found += events
            continue
        raw = b''.join(event[2] for event in events)
        places = sorted({0, len(raw), *(chance.randint(0, len(raw)) for _ in range(chance.randint(0, 12)))})
        found += [(*key, raw[begin:end]) for begin, end in zip(places, places[1:])]
    return found


def trial_of(program, sessions, seed, number, is_shown):
    """What is wrong with a trial, which may be shown; None where nothing is."""
    chance = random.Random(f'{seed}/{number}')
    session = chance.choice(sessions)
    come, first, done = mutated(chance, session.come)
    come = come + session.newcomer.comes(session.next)
    pieces = cut_up(chance, come) if chance.random() < 0.25 else None
    if is_shown:
        print(f'{session.name}: {", ".join(done)}\n{text_of(come)}', end='')
    found = status, output, errors = replayed(program, come, session.words)
    again = replayed(program, pieces, session.words) if pieces is not None else found
    before = sum(event[0] == '>' for event in session.come[:first])
    faults = {
        f'status {status}, {errors!r}': (status, errors) != (0, ''),
        'the answers before the change differ': output[:before] != session.answers[:before],
        'the newcomer is not answered': output[-2:] != session.newcomer.is_answered(session.next),
        'an answer is misformed': not are_responses(output),
        'cut into pieces it is answered otherwise': again != found,
    }
    wrong = [fault for fault, is_there in faults.items() if is_there]
    return f'--seed {seed} --only {number}: {session.name}, {", ".join(done)}: {"; ".join(wrong)}' if wrong else None


def changed_streams_of_clients_harm_nobody_else(program, seed, numbers, is_shown=False):
    """What came before the change is answered as ever, and then a newcomer; pieces do not matter."""
    with tempfile.TemporaryDirectory() as folder:
        rows = Rows()
        sessions = [Session(rows, name, folder) for name in rows.recorded()]
        return len(sessions) >= 9 and all_well(lambda it: trial_of(program, sessions, seed, it, is_shown), numbers)


def add_words(reader):
    reader.add_argument('--count', type=int, default=COUNT, metavar='N',
                        help='hostile: in how many ways streams are changed')
    reader.add_argument('--only', type=int, metavar='I', help='hostile: plays trial I alone, and prints what comes')


def tests(words):
    program, seed = words.program, words.seed or SEED
    if words.only:
        return [(changed_streams_of_clients_harm_nobody_else, program, seed, [words.only], True)]
    return [(a_stream_cut_at_each_byte_is_answered_up_to_there, program),
            (a_stream_with_each_byte_set_harms_no_newcomer, program),
            (changed_streams_of_clients_harm_nobody_else, program, seed, range(1, words.count + 1))]
