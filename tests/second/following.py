"""A copy of a journal that follows it, and the second machine that begins with it where the first one dies.

What rsync leaves of FILE at the second machine, where FILE.new takes FILE's name while it runs:

- A copy that ends well is FILE as it was when rsync opened it: the old file, which rsync still has open, or the new
  one. A batch that was being written may be cut.
- A copy that is broken off, without --inplace, is thrown away: the one before it is left, and is whole.
- A copy that is broken off, with --inplace, is the beginning of the new FILE, and behind it what the old copy has
  there. The old end is never taken for whole batches: each batch is chained by a seed of 64 bits to the one before it,
  the new file's batches are numbered from 1 again, and a batch of another seed is not read
  (crates/smb_changes/specs/Chains.antt). So it is refused, `damaged behind ..`; but where the old copy ends before the
  batch does that was being copied, that looks like a lost end (`is_cut` of specs/Batches.antt), as does a new FILE
  whose end is missing. Such a beginning is no state that the share ever had: a new FILE has first what all files are,
  one by one. So its first line says how many bytes it had when it got its name, and a copy that has not all of them is
  refused, `.. of its first .. bytes are missing`. The copy before it is lost then.
- By --append it is the old copy as long as FILE is shorter, and then an old beginning with a new end, which is refused.
"""
import os
import random
import subprocess
import tempfile
import threading
import time

from tests.keeping.journal import batches_of
from tests.keeping.killing import CLIENTS, Large
from tests.second.states import LARGE_FILE, Followed, files_of_each, last_moment
from tests.smb.client import ALL_ACCESS
from tests.smb.frames import write
from tests.smb.kept import Looking, bytes_in, bytes_of, keeping, killed, put, tree_in
from tests.smb.working import CREATE, Wrong

# How rsync is called: as over a network it sends what differs alone; and how many seconds it rests in between.
RSYNC, IN_PLACE, PAUSE = ('rsync', '-a', '--no-whole-file'), '--inplace', 0.05
# Within how many seconds behind the moment at which FILE.new takes FILE's name the server is killed, where it is so.
WITHIN = 0.5
# How many files of how many bytes a journal has of which copies are broken off, at how many places; and how fast one is
# copied by rsync, which sends each byte of it, in KiB each second, for so many seconds.
FILES, SIZE, PLACES, SLOW, SHORTLY = 60, 1_000, 12, 8_192, 0.7


class Shipping:
    """What carries a journal to another machine, again and again."""

    def __init__(self, file, copy, *words):
        self.file, self.command = file, (*RSYNC, *words, file, copy)
        # When the last copy that was finished was begun, and of which file it is, as all of them were; how many there
        # were; of which file the one is that is under way.
        self.begun, self.shipped, self.shipped_of, self.count = 0, None, set(), 0
        self.under_way, self.is_ended, self.process = None, False, None

    def ships(self):
        """Makes one copy; it counts where it ends well."""
        begun, self.under_way = time.monotonic(), os.stat(self.file).st_ino
        self.process = subprocess.Popen(self.command, stderr=subprocess.PIPE)
        if self.is_ended:
            self.process.kill()
        self.process.communicate()
        if self.process.returncode == 0:
            self.begun, self.shipped, self.count = begun, self.under_way, self.count + 1
            self.shipped_of.add(self.shipped)

    def ships_on(self):
        """Makes one after the other until the first machine dies."""
        while not self.is_ended:
            self.ships()
            time.sleep(PAUSE)

    def dies(self):
        """Ends rsync at the first machine; the one at the second ends by itself."""
        self.is_ended = True
        if self.process:
            self.process.kill()


def is_refusal(said):
    """Whether this is what a start says that is refused since a copy was broken off."""
    return 'damaged behind' in said or 'bytes are missing' in said


def started(program, file):
    """What a client sees of the share that begins with a file, None where it is refused; what the start says; and how
    many seconds it took to the first answer."""
    begun = time.monotonic()
    try:
        with keeping(program, '--journal', file) as share:
            share.client().negotiates()
            took, seen = time.monotonic() - begun, tree_in(share)
            killed(share)
            return seen, ''.join(share.before), took
    except AssertionError as refused:
        return None, str(refused), time.monotonic() - begun


def way_of(words):
    """How copies are made, as it is told."""
    return ' '.join(words) or 'by another name'


def run_beside(*calls):
    """Threads that are begun, one for each call: a function, and what it is given."""
    threads = [threading.Thread(target=call, args=given) for call, *given in calls]
    for thread in threads:
        thread.start()
    return threads


def dies_under_load(share, clients, shipping, chance, seconds, is_at_once):
    """Kills a server after some seconds under load, or shortly after its journal's name is that of the new file; gives
    when."""
    wrong, first = [], os.stat(shipping.file).st_ino
    threads = run_beside(*((client.works_on, wrong) for client in clients), (shipping.ships_on,))
    end = time.monotonic() + chance.uniform(seconds / 2, seconds)
    Large(share, CLIENTS).writes_until(lambda: os.stat(shipping.file).st_ino != first)
    time.sleep(chance.uniform(0, WITHIN) if is_at_once else max(0, end - time.monotonic()))
    share.process.kill()
    shipping.dies()
    killed(share)
    died = time.monotonic()
    for thread in threads:
        thread.join()
    if wrong:
        raise Wrong(wrong[0])
    return died


def follows(program, folder, seconds, seed, words, is_at_once):
    """Whether the second machine begins with what the share had at a moment since the last whole copy; it is told."""
    one, two = (os.path.join(folder, name) for name in ('one', 'two'))
    os.mkdir(one)
    os.mkdir(two)
    file, copy = os.path.join(one, 'journal'), os.path.join(two, 'journal')
    shipping, chance = Shipping(file, copy, *words), random.Random(seed)
    with keeping(program, '--journal', file) as share:
        clients = [Followed(share, i, seed, lambda: shipping.begun) for i in range(CLIENTS)]
        died = dies_under_load(share, clients, shipping, chance, seconds, is_at_once)
    is_other = shipping.under_way != shipping.shipped
    seen, said, took = started(program, copy)
    print(f'  {way_of(words)}: {sum(client.answered for client in clients):,} answers, {shipping.count} copies of '
          f'{len(shipping.shipped_of)} files, {"one" if is_other else "none"} of another file was under way; '
          f'{os.path.getsize(copy):,} bytes', flush=True)
    if seen is None:
        print(f'    refused: {said}', flush=True)
        return bool(words) and is_other and is_refusal(said)
    moment = last_moment(clients, files_of_each(seen), shipping.begun, died)
    if moment is None:
        print(f'    not what was there since the last whole copy: {list(seen)}', flush=True)
        return False
    left_out = said.strip().rpartition(': ')[2] or 'nothing is left out'
    print(f'    answered after {took:.2f} seconds, {left_out}; its files are of {died - moment:.3f} seconds before the '
          f'end; the last whole copy was begun {died - shipping.begun:.3f} before it', flush=True)
    return True


def make_renewed(program, folder):
    """A journal that was written anew, copies of it from before, an early one and a long one, and all its files."""
    file, copies = os.path.join(folder, 'journal'), {}
    with keeping(program, '--journal', file) as share:
        client, first = Looking(share).comes_in(), os.stat(file).st_ino
        client.ends(client.opens(LARGE_FILE, ALL_ACCESS, CREATE))
        for i in range(FILES):
            number = client.opens(f'0 {i}', ALL_ACCESS, CREATE)
            client.asks(write(client.next_id(), number, 0, bytes([1 + i]) * SIZE, client.session, 1), 0, None)
            client.ends(number)
        copies['early'] = bytes_of(file)

        def is_anew():
            if 'long' not in copies and os.path.exists(f'{file}.new'):
                copies['long'] = bytes_of(file)
            return os.stat(file).st_ino != first

        Large(share, CLIENTS).writes_until(is_anew)
        killed(share)
    seen, _, _ = started(program, file)
    return bytes_of(file), copies['early'], copies['long'], bytes_in(seen)


def without_large(files):
    """All of them but the large one, which is written while copies are made."""
    return {name: data for name, data in files.items() if name != LARGE_FILE}


def outcome(program, file, files):
    """What comes of a start with a copy that was broken off; the small files had been whole long before."""
    seen, said, _ = started(program, file)
    if seen is None:
        return 'refused' if is_refusal(said) else f'refused otherwise: {said}'
    if without_large(bytes_in(seen)) == without_large(files):
        return 'right'
    return 'a part of the files, and a line' if said else 'a part of the files, and no line'


def outcomes(program, folder, new, old, places, files):
    """How often what comes of copies that are broken off at some places, with the old one's end behind them."""
    found = {}
    for place in places:
        came = outcome(program, put(os.path.join(folder, 'broken'), new[:place] + old[place:]), files)
        found[came] = found.get(came, 0) + 1
    return found


def broken_by_rsync(folder, new, old, *words):
    """What rsync leaves that is broken off: after how many bytes of the new file, and whether what it leaves is the old
    copy, or the new beginning with the old end behind it."""
    source, copy = put(os.path.join(folder, 'source'), new), put(os.path.join(folder, 'copy'), old)
    shipping = Shipping(source, copy, *words, '--whole-file', f'--bwlimit={SLOW}')
    threads = run_beside((shipping.ships,))
    time.sleep(SHORTLY)
    shipping.dies()
    threads[0].join()
    found = bytes_of(copy)
    if found in (old, new):
        return 'the old copy' if found == old else 'all of the new file', copy
    place = next(i for i in range(0, len(new), 1_024) if found[i:i + 1_024] != new[i:i + 1_024])
    behind = found[place + 1_024:]
    with_end = ', and the old end behind' if behind and behind == old[place + 1_024:] else ''
    return f'{place // 1_024} KiB of the new file{with_end}', copy


def appended(program, folder, new, old, files, word):
    """What comes of a copy to which rsync has added what is new by this word, and that it says has ended well."""
    source, copy = put(os.path.join(folder, 'source'), new), put(os.path.join(folder, 'copy'), old)
    subprocess.run((*RSYNC, word, source, copy), check=True)
    return 'the old copy' if bytes_of(copy) == old else outcome(program, copy, files)


def broken_off(program, folder, chance):
    """Whether a copy of a FILE that was written anew leaves a whole one where it is broken off, and no old end is read
    behind the new beginning; a part of a copy is refused."""
    new, early, long, files = make_renewed(program, folder)
    ends = batches_of(new)
    print(f'  FILE was written anew: {len(long):,} bytes before, {len(new):,} now, in {len(ends)} batches', flush=True)
    is_right = True
    for words in ((), (IN_PLACE,)):
        for name, old in (('a long', long), ('an early', early)):
            left, copy = broken_by_rsync(folder, new, old, *words)
            came = outcome(program, copy, files)
            print(f'    {way_of(words)}, broken off over {name} copy, rsync leaves {left}: {came}', flush=True)
            is_right = is_right and (came == 'right' or bool(words) and came == 'refused')
    places = [chance.randrange(1, len(new)) for _ in range(PLACES)]
    at_ends = chance.sample(ends[:-1], min(PLACES, len(ends) - 1))
    over_long = outcomes(program, folder, new, long, places + at_ends, files)
    print(f'    in place over a long copy, at {len(places + at_ends)} places: {over_long}', flush=True)
    alone = [outcomes(program, folder, new, b'', some, files) for some in (places, at_ends)]
    print(f'    its beginning alone: {alone[0]}, and where a batch ends {alone[1]}', flush=True)
    for word in ('--append', '--append-verify'):
        print(f'    {word}: over a long copy {appended(program, folder, new, long, files, word)}, over an early copy '
              f'{appended(program, folder, new, early, files, word)}', flush=True)
    return is_right and set(over_long) == {'refused'} and {*alone[0], *alone[1]} <= {'refused', 'right'}


def a_copy_follows(program, seconds, seed):
    """Whether a second machine begins rightly with each copy, made by another name or in place."""
    is_right, chance = True, random.Random(seed)
    for i, (words, is_at_once) in enumerate((((), False), ((), True), ((IN_PLACE,), False), ((IN_PLACE,), True))):
        with tempfile.TemporaryDirectory() as folder:
            is_right = follows(program, folder, seconds, f'{seed}/{i}', words, is_at_once) and is_right
    with tempfile.TemporaryDirectory() as folder:
        return broken_off(program, folder, chance) and is_right
