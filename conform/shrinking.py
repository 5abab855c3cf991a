"""Makes a script that differs shorter: parts of its steps are left out, and what they ask for is made plain, as long as
the same still differs."""
import dataclasses

from conform.steps import ALL

# How many scripts are tried for one at most; and what is plain in a step.
MOST_TRIES = 150
PLAIN = {'share': ALL, 'options': '0', 'attributes': '0', 'replaces': False, 'least': 0}


def shrunk(difference, plays):
    """The same difference of the fewest steps that were found to show it (delta debugging: first halves are left out,
    then smaller parts, at last single steps). `plays` gives what differs in a script. Which differs is the same where
    its command and its field are, and both statuses."""
    shrinking = Shrinking(difference, plays)
    shrinking.leaves_out()
    shrinking.makes_plain()
    return shrinking.best


class Shrinking:
    """The shortest difference up to now, and how many scripts were tried."""

    def __init__(self, difference, plays):
        self.best, self.plays, self.tries = difference, plays, 0

    @property
    def steps(self):
        """The steps up to the first that differs."""
        return self.best.script.steps[:self.best.at + 1]

    def leaves_out(self):
        size = len(self.steps) // 2
        while size and self.tries < MOST_TRIES:
            size = size if self.leaves_out_parts(size) else size // 2

    def leaves_out_parts(self, size):
        """Leaves out parts of so many steps, the last ones first, but never the last step; whether any was."""
        known, at = len(self.steps), len(self.steps) - 1 - size
        while at > -size and self.tries < MOST_TRIES:
            begin, end = max(at, 0), min(at + size, len(self.steps) - 1)
            if begin < end:
                self.tries_steps(self.steps[:begin] + self.steps[end:])
            at -= size
        return len(self.steps) < known

    def makes_plain(self):
        """Makes each step as plain as the same still differs."""
        for at in range(len(self.steps)):
            for name, plain in PLAIN.items():
                if at < len(self.steps) and getattr(self.steps[at], name, plain) != plain and self.tries < MOST_TRIES:
                    step = dataclasses.replace(self.steps[at], **{name: plain})
                    self.tries_steps(self.steps[:at] + (step,) + self.steps[at + 1:])

    def tries_steps(self, steps):
        self.tries += 1
        found = self.plays(self.best.script._replace(steps=steps))
        if found and is_same(found, self.best):
            self.best = found


def is_same(one, other):
    """Whether the same differs in two scripts."""
    if (one.command, one.field) != (other.command, other.field):
        return False
    return one.field != 'Status' or (one.wanted, one.found) == (other.wanted, other.found)
