"""What tools/pcap.py says of captures that it does not take, and of its words."""
import os
import random
import struct
import subprocess
import sys
import tempfile

from tests.captures.making import (ACK, CLIENT, CLIENT_6, FIN, FRAMES, PORT, RST, SERVER, SERVER_6, STREAM, Talk,
                                   all_made, block, cooked, enhanced, ethernet, events_of, interface, ip, made, pcap,
                                   pcapng, section, session, simple, tcp, text, time_of)
from tests.smb.program import TOP
from tools.lib import connections as tool

PROGRAM = os.path.join(TOP, "tools", "pcap.py")
PATIENCE, TRIALS = 60, 1_000
# Runs a script in a little more memory than Python itself has.
LIMITED = """
import resource, runpy, sys
with open("/proc/self/statm") as it:
    most = int(it.read().split()[0]) * resource.getpagesize() + (24 << 20)
resource.setrlimit(resource.RLIMIT_AS, (most, most))
del sys.argv[0]
runpy.run_path(sys.argv[0], run_name="__main__")
"""
NAME = "connection 1 (10.0.0.2:50000 to 10.0.0.1:4450)"
NO_CAPTURE = "it is no capture: it begins neither as pcap nor as pcapng"
NOT_OPENED = "no connection to port 4450 is opened in it"
NO_SYN = "is of a connection whose opening (SYN) is not in the capture"
LOST = f"{NAME}: packets were lost: the capture has no sequence numbers "


def files_that_are_no_captures_are_named():
    def cases():
        packets = session(Talk())
        for begin in (b"", b"\xd4\xc3\xb2", b"#!/bin/sh\n", b"\x1f\x8b\x08\0" + bytes(99),
                      b"\x34\xcd\xb2\xa1" + bytes(99)):
            yield begin, begin, NO_CAPTURE
        yield "version", pcap(packets, version=(2, 3)), "it is pcap of version 2.3, not 2.4"
        yield "link", pcap(packets, 105), "it is of link type 105, which is not read"
        broken = "it is no capture behind 0 whole packets: "
        head, packet, wrong = section() + interface(101), enhanced(packets[0], 0), bytes(4)
        long = struct.pack("<IIII", 0, 0, 300_000, 300_000)
        for name, capture, said in (
                ("a long packet", pcap([]) + long, broken + "a packet of 300000 bytes"),
                ("the link of an interface", section() + interface(147) + packet,
                 "packet 1 is of link type 147, which is not read"),
                ("an order", section()[:8] + wrong + section()[12:], broken + "a section of neither byte order"),
                ("a short block", head + packet[:4] + b"\x08\0\0\0", broken + "a block of 8 bytes"),
                ("an odd block", head + packet[:4] + b"\x41\0\0\0", broken + "a block of 65 bytes"),
                ("a long block", head + packet[:4] + b"\x04\0\0\1", broken + "a block of 16777220 bytes"),
                ("two lengths", head + packet[:-4] + wrong, broken + "a block with two lengths"),
                ("no interface", section() + packet, broken + "a packet of interface 0, which is not described"),
                ("a packet in a block", head + block(6, struct.pack("<5I", 0, 0, 0, 9, 9) + bytes(8)),
                 broken + "a packet that is longer than its block"),
                ("a block of a packet", head + block(6, bytes(16)), broken + "a block that is too short"),
                ("a resolution", section() + block(1, struct.pack("<HHIHHI", 1, 0, 0, 9, 2, 6)),
                 broken + "a block that is too short"),
                ("a moment", section() + interface(101, offset=-(1 << 40)) + packet,
                 "packet 1 has a moment before 1601 or past 2^64")):
            yield name, capture, said
    return all_made(cases())


def a_capture_may_be_cut_off_at_each_byte():
    """It is named where that is in mid packet; else it is the capture of the packets before."""
    def cases():
        packets = [ethernet(it) for it in session(Talk(), [STREAM])]
        for kind, parts in (
                (pcap, [pcap([]), *(pcap([it])[24:] for it in packets)]),
                (pcapng, [section() + interface(),
                          *(enhanced(it, time_of(i) // 1_000) for i, it in enumerate(packets))])):
            capture, at = kind(packets), 0
            for whole, part in enumerate(parts):
                wanted = [f"it is cut off behind {max(0, whole - 1)} whole packets"] * len(part)
                if whole:
                    wanted[0] = made(kind(packets[:whole - 1]))
                else:
                    wanted[:4] = [NO_CAPTURE] * 4
                if whole == 0 and kind is pcapng:
                    wanted[len(section())] = NOT_OPENED
                for i, said in enumerate(wanted):
                    yield (kind.__name__, at + i), capture[:at + i], said
                at += len(part)
    return all_made(cases())


def connections_that_are_not_whole_are_named():
    def cases():
        talk, other = Talk(), Talk(CLIENT_6, SERVER_6)
        opened, end = talk.opened(), 1 + len(STREAM)
        came, closed = talk.says(1, STREAM), talk.says(end, b"", FIN | ACK)
        for name, packets, said in (
                ("none", [], NOT_OPENED),
                ("another port", session(Talk(CLIENT, ("10.0.0.1", 445))), NOT_OPENED),
                ("not opened", opened[:2], NOT_OPENED),
                ("refused", [opened[0], talk.hears(0, b"", RST | ACK, 1)], NOT_OPENED),
                ("no SYN", [*opened, other.says(1)], f"packet 4 {NO_SYN}: [fe80::2]:50000 to [fe80::1]:4450"),
                ("no SYN, of the server", opened[1:], f"packet 1 {NO_SYN}: 10.0.0.2:50000 to 10.0.0.1:4450"),
                ("a gap", [*opened, talk.says(1, STREAM[:9]), talk.says(12, STREAM[11:]), closed],
                 LOST + "1010 to 1011"),
                ("the first bytes", [*opened, talk.says(2, STREAM[1:])], LOST + "1001 to 1001"),
                ("the last bytes", [*opened, came, talk.says(end + 9, b"", FIN | ACK)],
                 f"{LOST}{1_000 + end} to {1_008 + end}"),
                ("before a reset", [*opened, talk.says(end, b"", RST)], f"{LOST}1001 to {999 + end}"),
                ("before an empty segment", [*opened, talk.says(end)], f"{LOST}1001 to {999 + end}"),
                ("what was acknowledged", [*opened, talk.hears(1, acknowledged=end)], f"{LOST}1001 to {999 + end}"),
                ("before the server's reset", [*opened, talk.hears(1, b"", RST | ACK, 5)], f"{LOST}1001 to 1004")):
            yield name, pcap(packets, 101), said
        talk = Talk(first=-5)
        yield "over the wrap", pcap([*talk.opened(), talk.says(9, STREAM)], 101), f"{LOST}{(1 << 32) - 4} to 3"
        talk = Talk()
        again = [*talk.opened(), talk.hears(1, acknowledged=end), *Talk(first=77_000).opened()]
        yield "before another connection", pcap(again, 101), f"{LOST}1001 to {999 + end}"
    return all_made(cases())


def what_waits_for_lost_bytes_is_bounded():
    """A gap is named once too many bytes wait behind it at a time; what is no longer waited for does not count."""
    talk, most = Talk(), tool.MOST_HELD
    packets = [*talk.opened(), *(talk.says(2 + i * 100, bytes(100)) for i in range(12)), talk.says(1, STREAM[:1])]
    pieces = [talk.says(1 + i, STREAM[i:i + 1]) for i in range(len(STREAM))]
    swapped = [*talk.opened(), *(it for pair in zip(pieces[1::2], pieces[::2]) for it in pair)]
    tool.MOST_HELD = 1_000
    try:
        return made(pcap(packets, 101)) == LOST + "1001 to 1001" and made(pcap(swapped, 101)).count("\n> 1") > 99
    finally:
        tool.MOST_HELD = most


def cut_packets_are_named():
    """By a snap length: where bytes of the client, or headers, are left out, and not where the server's bytes are."""
    def cases():
        for head, talk in ((74, Talk(CLIENT_6, SERVER_6)), (54, Talk())):
            packets = [ethernet(it) for it in (*talk.opened(), talk.sends(FRAMES[0]))]
            whole = len(packets[3])
            for most in (head - 6, head - 1, head, head + 1, whole - 1):
                said = ("packet 4 is cut: it was captured with a snap length that leaves out "
                        f"{whole - max(head, most)} of its bytes")
                yield most, pcap(packets, most=most), said
                yield most, pcapng(packets, most=most), said
        for most in (13, 14, 33, 34, 47):
            said = f"packet 1 is cut before its headers end: it was captured with a snap length of {most}"
            yield most, pcap(packets, most=most), said
            yield most, section() + interface(most=most) + b"".join(simple(it, most=most) for it in packets), said
        said = "packet 1 is cut before its headers end: it was captured with a snap length of 47"
        yield "options of IPv6", pcap([ip(CLIENT_6[0], SERVER_6[0], bytes(20), headers=((0, b"\0" + bytes(6)),))], 101,
                                      most=47), said
        answer = ethernet(talk.answers(bytes(300)))
        yield "of the server", pcap([*packets, answer], most=whole), text([talk], [("+", 1), (">", 1, 3, FRAMES[0])])
    return all_made(cases())


def fragments_and_other_headers_are_named():
    """Of packets of the port, whichever side sent them."""
    def cases():
        talk, talk_6 = Talk(), Talk(CLIENT_6, SERVER_6)
        yield "fragment", pcap([*talk.opened(), talk.says(1, STREAM, fragment=0x2000)], 101), (
            "packet 4 is a fragment, which is not read")
        answer = ip(SERVER[0], CLIENT[0], tcp(PORT, CLIENT[1], 0, 0, ACK), fragment=0x2000)
        yield "of the server", pcap([answer], 101), "packet 1 is a fragment, which is not read"
        for kind, rest, said in ((44, b"\5\0\1" + bytes(4), "is a fragment"),
                                 (43, b"\0" + bytes(6), "has an extension header of kind 43"),
                                 (51, b"\4" + bytes(22), "has an extension header of kind 51"),
                                 (135, b"\1" + bytes(14), "has an extension header of kind 135")):
            packets = [*talk_6.opened(), talk_6.says(1, STREAM, headers=((0, b"\0" + bytes(6)), (kind, rest)))]
            yield kind, pcap(packets, 101), f"packet 4 {said}, which is not read"
    return all_made(cases())


def a_first_payload_that_is_not_smb_is_named():
    """Wherever its first bytes are cut; the beginning of one is taken, and so is what may come later."""
    def cases():
        for begin in (b"\x81\0\0\x44 CKFD", b"GET / HT", b"\0\0\0\x44\xfdSMB", b"\0\0\0\x44\xfeSMb"):
            wrong = next(i for i in range(1, 9) if not any(
                (b"\0" + begin[1:4] + magic).startswith(begin[:i]) for magic in (b"\xfeSMB", b"\xffSMB")))
            for at in range(1, 8):
                talk = Talk()
                told = begin[:at] if wrong <= at else begin
                yield begin, pcap(session(talk, [begin[:at], begin[at:] + STREAM]), 101), (
                    f"{NAME}: its first payload is not SMB: it begins with {told.hex()}")
        for pieces in ([b"\0"], [b"\0\1\2\3\xfeS"], [b"\0\0\0\x23\xffSMB"], [*FRAMES, b"GET /"]):
            talk = Talk()
            yield pieces, pcap(session(talk, pieces), 101), text([talk], events_of(pieces))
        one, two = Talk(), Talk(CLIENT_6, SERVER_6)
        yield "the second", pcap([*session(one), *session(two, [b"SSH-2.0-"])], 101), (
            f"connection 2 ({two.peers()}): its first payload is not SMB: it begins with {b'SSH-2.0-'.hex()}")
    return all_made(cases())


def damaged_captures_become_a_text_or_a_fault():
    """Whichever bytes of a capture are others, there is no other failure."""
    chance = random.Random(20_261_126)
    whole = [kind(map(cooked, session(Talk())), 113) for kind in (pcap, pcapng)]
    for _ in range(TRIALS):
        capture = bytearray(chance.choice(whole))
        for _ in range(chance.randint(1, 6)):
            capture[chance.randrange(len(capture))] = chance.choice((0, 1, 4, 0x7F, 0x80, 0xFF, chance.randrange(256)))
        if chance.random() < 0.2:
            at = chance.randrange(len(capture))
            del capture[at:at + chance.randint(1, 40)]
        for is_answers in (False, True):
            made(bytes(capture), is_answers)
    return True


def ran(*words, given=b"", **others):
    """The status, standard output and standard error of a run."""
    done = subprocess.run([sys.executable, PROGRAM, *words], input=given, timeout=PATIENCE, check=False,
                          **{"stdout": subprocess.PIPE, "stderr": subprocess.PIPE, **others})
    return done.returncode, done.stdout, done.stderr


def the_program_prints_a_text_or_a_fault():
    """From a file and from standard input, of a port that is named; a fault at the end leaves standard output empty."""
    talk = Talk()
    packets = session(talk)
    wanted = text([talk], events_of()).encode()
    with tempfile.TemporaryDirectory() as folder:
        name, none, port = (os.path.join(folder, it) for it in ("a\n.pcap", "none", "port"))
        for file, capture in ((name, pcap(packets, 101)), (port, pcap(session(Talk(CLIENT, (SERVER[0], 445))), 101))):
            with open(file, "wb") as it:
                it.write(capture)
        found = [ran(name), ran("-", given=pcap(packets, 101)), ran("--port", "445", port), ran("--answers", name),
                 ran("-", given=pcap(packets[:5] + packets[7:], 101)), ran(none), ran("-")]
    line = f"pcap.py: -: {LOST}".encode()
    said = f"pcap.py: {none}: No such file or directory\n".encode()
    at_445 = wanted.replace(b"port 4450 in 'a'", f"port 445 in {port!a}".encode()).replace(b":4450", b":445")
    return (found[0] == (0, wanted.replace(b"'a'", ascii(name).encode()), b"")
            and found[1] == (0, wanted.replace(b"'a'", b"'-'"), b"") and found[2] == (0, at_445, b"")
            and found[3] == (0, b"", b"") and found[4][:2] == (1, b"") and found[4][2].startswith(line)
            and found[4][2].count(b"\n") == 1 and found[5] == (1, b"", said)
            and found[6] == (1, b"", f"pcap.py: -: {NO_CAPTURE}\n".encode()))


def wrong_words_and_what_is_not_written_fail():
    wrong = [ran(*words)[:2] for words in ((), ("a", "b"), *(("--port", it, "-") for it in ("0", "65536", "x")))]
    with open("/dev/full", "wb") as full:
        unwritten = ran("-", given=pcap(session(Talk()), 101), stdout=full)
    return wrong == [(2, b"")] * 5 and unwritten[::2] == (1, b"pcap.py: -: No space left on device\n")


def a_capture_is_read_packet_by_packet():
    """One of 32 MiB is read where the program may have 24 MiB more than Python has when it begins."""
    pieces = [STREAM, *(bytes(32_768) for _ in range(1_024))]
    talk = Talk()
    capture = pcap([*talk.opened(), *map(talk.sends, pieces)], 101)
    done = subprocess.run([sys.executable, "-c", LIMITED, PROGRAM, "-"], input=capture, timeout=PATIENCE, check=False,
                          stdout=subprocess.PIPE, stderr=subprocess.PIPE, cwd=os.path.dirname(PROGRAM))
    return (done.returncode, done.stderr) == (0, b"") and done.stdout.count(b"\n") == 3 + len(pieces)


TESTS = (
    files_that_are_no_captures_are_named, a_capture_may_be_cut_off_at_each_byte,
    connections_that_are_not_whole_are_named, what_waits_for_lost_bytes_is_bounded, cut_packets_are_named,
    fragments_and_other_headers_are_named, a_first_payload_that_is_not_smb_is_named,
    damaged_captures_become_a_text_or_a_fault, the_program_prints_a_text_or_a_fault,
    wrong_words_and_what_is_not_written_fail, a_capture_is_read_packet_by_packet,
)
