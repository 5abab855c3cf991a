"""Load on the program over TCP, by clients that check each answer, beside others that misbehave.

Each client has a file of its own and a model of it (tests/smb/working.py); what it does, and the order in which clients
come, is from one seed.
"""
import os
import random
import socket
import struct
import tempfile
import threading
import time

from tests.smb.chance import some_bytes
from tests.smb.client import LONGEST_PIECE, PATIENCE
from tests.smb.frames import frame, negotiate, read, write
from tests.smb.preload import built
from tests.smb.program import addresses_of, descriptors_of, giving_back, memory_of
from tests.smb.working import DELETE_ON_CLOSE, Ended, Working

SEED, PLACES, WORKING, SECONDS, WARM_UP = 20_261_126, 64, 56, 10, 3
MIB = 1 << 20
# How many credits a client may have, and what one request may read or write in dialect 2.1, by how many credits; how
# many READs of as much are sent at once by one that has all credits, how many times, and how many by one that guesses.
ALL_CREDITS, LARGEST, CHARGE, AT_ONCE, ROUNDS, MANY = 256, 524_288, 8, 32, 5, 100
# How much more memory the program may have behind the load than behind the warm-up.
MOST_MORE = 16 * MIB
# How much memory the program may take beside what it has at its start, where it is to run out; and how many clients
# at work meet it there, how many that want to be owed much, and for how many seconds; and how many more on a slow
# machine, until one of them was ended.
ROOMS, AT_WORK, HUNGRY, SHORT, LONGER = (8 * MIB, 12 * MIB), 28, 6, 5, 60


class Load:
    """Clients, each in a thread of its own, until a time has passed; and what went wrong."""

    def __init__(self, share, seed, seconds):
        self.share, self.seed, self.seconds = share, seed, seconds
        self.faults, self.answered, self.ended, self.lock = [], 0, {}, threading.Lock()
        self.is_over, self.threads = threading.Event(), []

    def begin(self, doing, *words):
        self.threads.append(threading.Thread(target=self.run, args=(doing, words)))

    def run(self, doing, words):
        try:
            doing(self, *words)
        except Exception as error:
            with self.lock:
                self.faults.append(repr(error))

    def is_well(self, until_one_is_ended=False):
        """Runs all threads, in an order by chance, and prints what went wrong. Where one has to be ended the load goes on
        until the share ended one."""
        random.Random(self.seed).shuffle(self.threads)
        for thread in self.threads:
            thread.start()
        time.sleep(self.seconds)
        deadline = time.monotonic() + LONGER
        while until_one_is_ended and not self.ended and time.monotonic() < deadline:
            time.sleep(0.1)
        self.is_over.set()
        for thread in self.threads:
            thread.join()
        for fault in self.faults[:10]:
            print(f'  {fault}', flush=True)
        return not self.faults and self.share.process.poll() is None

    def count(self, client, ended=None):
        """Counts a client's answers, and its end as one of this kind where the share ended it."""
        with self.lock:
            self.answered += client.answered
            if ended:
                self.ended[ended] = self.ended.get(ended, 0) + 1


def works_to_the_end(load, client):
    """Works until the time is over; then the file is deleted. That the share ends the client is a fault."""
    before = client.answered
    while not load.is_over.is_set():
        client.works()
    if client.answered == before:
        raise AssertionError(f'client {client.number}: nothing was answered')
    client.goes()
    load.count(client)


# Clients that misbehave: each comes, does something, and goes or is ended.

def asks_for_much(client, pieces):
    """A file of 65,536 bytes, and so many pieces of as many READs of all of it as the client has to send at once."""
    client.asks(write(client.next_id(), client.file, 0, bytes(LONGEST_PIECE), client.session, 1), 0, None)
    for count in pieces:
        reads = [read(client.next_id(), client.file, 0, LONGEST_PIECE, client.session, 1) for _ in range(count)]
        client.client.send(b''.join(reads))


def leaves(client, chance):
    """Closes or resets the stream."""
    client.end() if chance.random() < 0.5 else client.reset()


def resets_in_a_frame(load, chance, number):
    client = Working(load.share, number, chance.random(), DELETE_ON_CLOSE)
    if chance.random() < 0.7:
        client.comes_in()
    whole = chance.choice((negotiate(client.next_id()), write(client.next_id(), 1, 0, bytes(5_000), client.session, 1)))
    client.client.send(whole[:chance.randrange(1, len(whole))])
    load.is_over.wait(chance.uniform(0, 0.05))
    client.client.reset()


def stops_reading(load, chance, number):
    """It is owed up to 26 MB, or in one piece more than may be owed to one client; nothing of it is read."""
    client = Working(load.share, number, chance.random(), DELETE_ON_CLOSE)
    client.comes_in()
    client.client.stream.settimeout(0.5)
    try:
        asks_for_much(client, chance.choice(((400,), (560,), (1, 300, 300, 300, 300))))
    finally:
        load.is_over.wait(chance.uniform(0.05, 1))
        leaves(client.client, chance)


def sends_single_bytes(load, chance, number):
    """A byte a second, or ten, of a NEGOTIATE, or of a request behind a login."""
    client = Working(load.share, number, chance.random(), DELETE_ON_CLOSE)
    if chance.random() < 0.5:
        client.comes_in()
    for byte in negotiate()[:chance.choice((2, 30))]:
        client.client.send(bytes([byte]))
        if load.is_over.wait(chance.choice((0.1, 0.1, 1))):
            break
    leaves(client.client, chance)


def sends_garbage(load, chance, number):
    """Random bytes, in a frame or not, before a login or behind it."""
    client = Working(load.share, number, chance.random(), DELETE_ON_CLOSE)
    if chance.random() < 0.5:
        client.comes_in()
    client.client.stream.settimeout(0.5)
    raw = some_bytes(chance, chance.randint(1, 5_000))
    client.client.send(frame(b'\xfeSMB' + raw) if chance.random() < 0.5 else raw)
    client.client.bytes(1)
    leaves(client.client, chance)


MISBEHAVING = (resets_in_a_frame, stops_reading, sends_single_bytes, sends_garbage)


def misbehaves(load, number):
    """Comes and goes until the time is over; that the share ends it is no fault."""
    chance = random.Random(f'{load.seed}/{number}')
    while not load.is_over.is_set():
        try:
            chance.choice(MISBEHAVING)(load, chance, number)
        except (Ended, ConnectionError, socket.timeout):
            load.is_over.wait(0.01)


def the_next_is_ended(share):
    """Whether others come to all places that are left, and the next one is ended with no byte."""
    others = [share.client() for _ in range(PLACES - WORKING)]
    is_full = all(other.negotiates() for other in others) and share.client().is_ended()
    for other in others:
        other.end()
    return is_full


def is_loaded(share, seed, seconds):
    """Whether clients at work are answered as they have to be, beside others that misbehave."""
    clients = [Working(share, number, seed) for number in range(WORKING)]
    for client in clients:
        client.comes_in()
    if not the_next_is_ended(share):
        return False
    load = Load(share, seed, seconds)
    for client in clients:
        load.begin(works_to_the_end, client)
    for number in range(WORKING, PLACES):
        load.begin(misbehaves, number)
    is_well = load.is_well()
    print(f'  {load.answered:,} answers were checked in {seconds} seconds', flush=True)
    return is_well


def descriptors_without_clients(share):
    """How many descriptors the program has where nobody is connected. It opens one after it says that it listens."""
    client = share.client()
    if not client.is_served():
        raise AssertionError('a client is not served')
    descriptors = descriptors_of(share) - 1
    client.end()
    return descriptors


def is_left(share, descriptors):
    """Whether the program comes to have so many descriptors again: all clients are gone then."""
    deadline = time.monotonic() + PATIENCE
    while descriptors_of(share) != descriptors:
        if time.monotonic() > deadline:
            return False
        time.sleep(0.01)
    return True


def keeps_no_memory(share, descriptors, before):
    """Whether the program has its descriptors again, and no more memory than before but what is allowed."""
    left = is_left(share, descriptors)
    more = memory_of(share) - before
    print(f'  {more:,} bytes of memory more than before, {descriptors_of(share)} descriptors', flush=True)
    return left and more <= MOST_MORE


def sixty_clients_are_answered_beside_others_that_misbehave(program):
    """After a warm-up the load takes no descriptor and at most 8 MiB of memory that it does not give back."""
    with program.serve(system=giving_back()) as share:
        descriptors = descriptors_without_clients(share)
        if not is_loaded(share, SEED + 1, WARM_UP) or not is_left(share, descriptors):
            return False
        before = memory_of(share)
        print(f'  {before:,} bytes of memory behind the warm-up', flush=True)
        return is_loaded(share, SEED, SECONDS) and keeps_no_memory(share, descriptors, before)


# Clients that ask by several credits.

def with_credits(frame, charge, credits):
    """A frame of a request that takes so many MessageIds, and asks for so many credits."""
    return frame[:10] + struct.pack('<H', charge) + frame[12:18] + struct.pack('<H', credits) + frame[20:]


class Large:
    """A client with 256 credits, and a file of 524,288 bytes that it wrote by one request."""

    def __init__(self, share):
        self.client = Working(share, 0, SEED, DELETE_ON_CLOSE)
        self.client.comes_in()
        frame, status, body = self.client.looks()
        self.client.asks(with_credits(frame, 1, ALL_CREDITS), status, body)
        self.data = some_bytes(random.Random(SEED), LARGEST)
        frame = write(self.next_ids(), self.client.file, 0, self.data, self.client.session, 1)
        written = struct.pack('<HHIII', 17, 0, LARGEST, 0, 0)
        self.client.asks(with_credits(frame, CHARGE, CHARGE), 0, written)
        self.client.bytes[:] = self.data

    def next_ids(self):
        """The first of as many MessageIds as a request takes."""
        self.client.message_id += CHARGE
        return self.client.message_id - CHARGE

    def reads(self, count, credits):
        """So many READs of the whole file, each of which asks for so many credits; and what has to answer each."""
        body = struct.pack('<HBBIII', 17, 80, 0, LARGEST, 0, 0) + self.data
        frames = [read(self.next_ids(), self.client.file, 0, LARGEST, self.client.session, 1) for _ in range(count)]
        return [(with_credits(frame, CHARGE, credits), 0, body) for frame in frames]


def all_credits_are_used_at_once(program):
    """32 READs of 524,288 bytes by all 256 credits, in one piece, are answered whole; over and over."""
    with program.serve() as share:
        large = Large(share)
        for _ in range(ROUNDS):
            large.client.ask_at_once(large.reads(AT_ONCE, CHARGE))
        client = large.client
        print(f'  {ROUNDS * AT_ONCE * LARGEST:,} bytes were read', flush=True)
        client.works()
        client.goes()
        return True


def long_answers_are_owed_one_by_one(program):
    """100 READs of 524,288 bytes in one piece, by MessageIds that their own answers grant, are answered whole: each is
    performed alone, and the next one waits until its answer was taken. All at once would be more than may be owed."""
    with program.serve() as share:
        large = Large(share)
        large.client.ask_at_once(large.reads(MANY, CHARGE))
        large.client.works()
        large.client.goes()
        return True


def who_has_no_more_credits_is_ended(program):
    """A client with 256 credits is granted one for each READ that takes eight: 36 are answered, the next ends it."""
    with program.serve() as share:
        large, answered = Large(share), ALL_CREDITS // (CHARGE - 1)
        requests = large.reads(answered + 4, 1)
        large.client.client.send(b''.join(frame for frame, _, _ in requests))
        for request in requests[:answered]:
            large.client.takes(*request)
        return large.client.client.is_ended() and share.client().is_served()


# Clients of a share whose memory runs out: who meets it is ended, and comes back.

def works_again(load, number):
    """Works until the time is over. Where the share ends the client, its file is gone, and it comes again."""
    while not load.is_over.is_set():
        client, is_ended = None, False
        try:
            client = Working(load.share, number, f'{load.seed}/{time.monotonic()}', DELETE_ON_CLOSE)
            client.comes_in()
            while not load.is_over.is_set():
                client.works()
        except (Ended, ConnectionError):
            is_ended = True
            load.is_over.wait(0.01)
        if client is not None:
            client.client.end()
            load.count(client, is_ended and 'at work')


def is_hungry(load, number):
    """Asks over and over for 3 to 26 MB at once, less than may be owed to one client, and takes it."""
    chance = random.Random(f'{load.seed}/{number}')
    while not load.is_over.is_set():
        client, is_ended = None, False
        try:
            client = Working(load.share, number, chance.random(), DELETE_ON_CLOSE)
            client.comes_in()
            count = chance.randint(50, 400)
            asks_for_much(client, (count,))
            for _ in range(count):
                reply, is_whole = client.reply()
                if not is_whole:
                    raise Ended
                if reply[-LONGEST_PIECE:] != bytes(LONGEST_PIECE):
                    raise AssertionError(f'client {number}: a READ is answered wrongly')
        except (Ended, ConnectionError):
            is_ended = True
        if client is not None:
            client.client.end()
            load.count(client, is_ended and 'owed much')


def runs_out(share, seed, seconds):
    """Clients at work beside hungry ones: the load, where all answers are right and some clients ended; or None."""
    load = Load(share, seed, seconds)
    for number in range(AT_WORK):
        load.begin(works_again, number)
    for number in range(PLACES - HUNGRY, PLACES):
        load.begin(is_hungry, number)
    is_well = load.is_well(until_one_is_ended=True)
    print(f'  {load.answered:,} answers were checked; clients that were ended: {load.ended}', flush=True)
    return load if is_well and load.ended and load.answered > 0 else None


def writable(share):
    """How many times a client that is alone writes 65,536 bytes to a file until memory runs out or the file is full."""
    client, count = Working(share, AT_WORK, SEED, DELETE_ON_CLOSE), 0
    try:
        client.comes_in()
        while count < (16 * MIB // LONGEST_PIECE):
            frame = write(client.next_id(), client.file, count * LONGEST_PIECE, bytes(LONGEST_PIECE), client.session, 1)
            client.asks(frame, 0, None)
            count += 1
    except Ended:
        pass
    client.client.end()
    return count


def goes_on_without_memory(share):
    """Whether the share serves behind a load in which its memory ran out, and most of the memory is to be had again."""
    descriptors, before = descriptors_without_clients(share), writable(share)
    if not runs_out(share, SEED, SHORT) or not is_left(share, descriptors):
        return False
    after = writable(share)
    print(f'  a client alone writes 64 KiB {before} times before, {after} times behind it', flush=True)
    newcomer = Working(share, 1, SEED)
    newcomer.comes_in()
    newcomer.works()
    newcomer.goes()
    return 4 * after >= 3 * before and is_left(share, descriptors)


def those_who_meet_no_memory_are_closed_alone(program):
    """The program may have 8 MiB, then 12, beside those of its start. Nobody breaks a rule, but some are ended."""
    with program.serve() as share:
        start = addresses_of(share)
    for room in ROOMS:
        with program.serve(memory=start + room) as share:
            if not goes_on_without_memory(share):
                return False
    return True


# Behind which allocation one in so many is refused: by then the program listens.
AT_ITS_START, ONE_IN = 3_000, (5_000, 50)


def those_whose_allocations_are_refused_are_closed_alone(program):
    """One allocation in 5,000 is refused, then one in 50. Each ends at most one client; others get right answers."""
    with built('refuse_allocation') as library:
        return all(fewer_end_than_are_refused(program, library, one_in) for one_in in ONE_IN)


def fewer_end_than_are_refused(program, library, one_in):
    """Whether so is a load beside which one allocation in so many is refused; the file REFUSED has a byte for each."""
    with tempfile.TemporaryDirectory() as folder:
        refused = os.path.join(folder, 'refused')
        words = {'LD_PRELOAD': library, 'REFUSE': str(AT_ITS_START), 'REFUSE_ONE_IN': str(one_in), 'REFUSED': refused}
        with program.serve(system={**os.environ, **words}) as share:
            descriptors = descriptors_without_clients(share)
            load = runs_out(share, SEED, SHORT)
            if not load or not is_left(share, descriptors):
                return False
            count = os.path.getsize(refused)
            print(f'  {count} allocations were refused', flush=True)
            return sum(load.ended.values()) <= count


TESTS = (sixty_clients_are_answered_beside_others_that_misbehave, all_credits_are_used_at_once,
         long_answers_are_owed_one_by_one, who_has_no_more_credits_is_ended)
TESTS_OF_MEMORY = (those_who_meet_no_memory_are_closed_alone, those_whose_allocations_are_refused_are_closed_alone)


def tests(words):
    """The run-time checks of an unproved program need more addresses than a limit leaves them, and have memory of their
    own: there memory doesn't run out."""
    return [(test, words.program) for test in TESTS + (() if words.program.is_unproved else TESTS_OF_MEMORY)]
