"""What tools/pcap.py makes of captures that the tests write: texts, and faults. It needs no program."""
from tests.captures import faults, texts


def tests(_):
    return [(test,) for test in (*texts.TESTS, *faults.TESTS)]
