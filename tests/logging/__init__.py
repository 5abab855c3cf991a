"""What `--log` writes of a share that is served or replayed: who came or was kept out, what was refused, why a client ended, and how
severe the lines on standard error are."""
from tests.logging import kept_out, replayed, served, severities


def tests(words):
    """No allocation of an unproved program is refused: it has checks before them."""
    of_proved = () if words.program.is_unproved else (replayed.each_allocation_beside_a_log,)
    more = (replayed.replays_are_logged_as_their_rows, severities.lines_have_their_severity, *of_proved)
    return [(test, words.program) for test in (*served.TESTS, *kept_out.TESTS, *more)]
