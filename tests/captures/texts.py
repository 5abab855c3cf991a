"""What tools/pcap.py makes of captures.

The bytes of the share's answers, and of the sessions that were recorded, are those of rows of crates/smb_rows.
"""
import itertools
import random

from tests.captures.making import (ACK, CLIENT, CLIENT_6, FIN, LINKS, OTHER, PORT, RST, SECOND, SERVER, SERVER_6,
                                   STREAM, SYN, WORLD, Talk, all_made, block, enhanced, ethernet, events_of, interface,
                                   ip, made, moment_of, old_packet, pcap, pcapng, section, session, simple, tcp, text,
                                   time_of)
from tests.smb.rows import Rows, line_of
from tools.lib import connections as tool

TRIALS = 400


def each_link_type_is_read():
    def cases():
        for link, wrapped, version in LINKS:
            for talk in (Talk(), Talk(CLIENT_6, SERVER_6)):
                if version in (0, 6 if ":" in talk.client[0] else 4):
                    yield link, pcap(map(wrapped, session(talk)), link), text([talk], events_of())
    return all_made(cases())


def both_orders_and_resolutions_are_read():
    def cases():
        for order, parts in itertools.product("<>", (1_000_000, SECOND)):
            talk = Talk()
            yield order, pcap(map(ethernet, session(talk)), 1, order, parts), text([talk], events_of())
        talk = Talk()
        packets = [*talk.opened(), talk.sends(STREAM)]
        odd = text([talk], [("+", 1), (">", 1, 3, STREAM)]).replace(str(moment_of(3)), str(moment_of(3) + 4_321))
        yield "ns", pcap(packets, 101, "<", SECOND, times=lambda i: time_of(i) + 432_199), odd
        # The upper bits of the link type say how long the checksums behind the frames are.
        for talk in (Talk(), Talk(CLIENT_6, SERVER_6)):
            packets = [ethernet(it) + b"sums" for it in (*talk.opened(), talk.sends(STREAM))]
            yield "checksums", pcap(packets, 0x24000001), text([talk], [("+", 1), (">", 1, 3, STREAM)])
    return all_made(cases())


def pcapng_is_read():
    """In both orders, with other blocks in between, two interfaces, two sections, and the older block of packets."""
    def cases():
        for order in "<>":
            talk = Talk()
            capture = pcapng(map(ethernet, session(talk)), 1, order)
            yield order, capture, text([talk], events_of(), "pcapng 1.0")
            other = block(5, bytes(12), order) + block(0x80000001, b"what", order) + block(4, b"", order)
            packets = [ethernet(it) for it in session(Talk())]
            blocks = [other + enhanced(packet, time_of(i) // 1_000, order) for i, packet in enumerate(packets)]
            yield "others", section(order) + other + interface(1, order) + b"".join(blocks), text(
                [talk], events_of(), "pcapng 1.0")
            half = len(packets) // 2
            older = [old_packet(it, time_of(i) // 1_000, order) for i, it in enumerate(packets[:half])]
            newer = [enhanced(it, time_of(i + half) // 1_000, ">", 1)
                     for i, it in enumerate(session(Talk())[half:])]
            mixed = [section(order), interface(1, order), *older, section(">"), interface(147, ">"),
                     interface(101, ">"), *newer]
            yield "sections", b"".join(mixed), text([talk], events_of(), "pcapng 1.0")
    return all_made(cases())


def clocks_of_interfaces_are_kept():
    """A resolution by powers of ten and of two, an offset in seconds; a simple packet has the moment of one before."""
    def cases():
        talk = Talk()
        packets = [*talk.opened(), talk.sends(STREAM)]
        wanted = text([talk], [("+", 1), (">", 1, 3, STREAM)], "pcapng 1.0")
        for resolution, offset, ticks in (
                (None, None, 10 ** 6), (6, 0, 10 ** 6), (9, None, SECOND), (3, -7, 1_000), (0, 10 ** 9, 1),
                (0x80, 5, 1), (0x94, None, 1 << 20), (12, 1_764_000_000, 10 ** 12)):
            counts = [(time_of(i) - (offset or 0) * SECOND) * ticks // SECOND for i in range(4)]
            blocks = [enhanced(it, counts[i], ">") for i, it in enumerate(packets)]
            moment = 116_444_736_000_000_000 + (offset or 0) * 10 ** 7 + counts[3] * 10 ** 7 // ticks
            yield resolution, section(">") + interface(101, ">", resolution, offset) + b"".join(blocks), wanted.replace(
                str(moment_of(3)), str(moment))
        head = section() + interface(101)
        simples = b"".join(map(simple, packets))
        yield "simple", head + simples, wanted.replace(str(moment_of(3)), "116444736000000000")
        before = enhanced(b"", time_of(3) // 1_000)
        yield "simple behind another", head + before + simples, wanted
    return all_made(cases())


def recorded_sessions_become_what_was_recorded():
    """What each recorded client sent becomes its lines, and what the share answered the lines of a replay's answers."""
    rows = Rows()
    names = rows.recorded()
    for name in names:
        events, talks, packets, come, said = rows.events(name), {}, [], [], []
        for sign, number, frame in events:
            if sign == "+":
                talk = talks[number] = Talk((CLIENT[0], 50_000 + number), first=7_777 * number)
                packets += talk.opened()
                come.append((sign, number))
            elif sign == ">":
                come.append((sign, number, len(packets), frame))
                packets.append(talks[number].sends(frame))
            elif sign == "<":
                packets += [talks[number].answers(frame[at:at + 1_460]) for at in range(0, len(frame), 1_460)]
                said.append(line_of(sign, number, frame))
            else:
                packets += talks[number].closed()
                come.append((sign, number))
        capture = pcap(map(ethernet, packets))
        if made(capture) != text(list(talks.values()), come) or made(capture, True) != "".join(said) or not said:
            print(f"  {name} becomes something else")
            return False
    return len(names) >= 9


def a_stream_may_be_cut_at_each_byte():
    """Into two segments at each byte, and into segments of one byte each."""
    def cases():
        for at in range(1, len(STREAM)):
            pieces = [STREAM[:at], STREAM[at:]]
            yield at, pcap(session(Talk(), pieces), 101), text([Talk()], events_of(pieces))
        pieces = [bytes([byte]) for byte in STREAM]
        yield "each byte", pcap(session(Talk(), pieces), 101), text([Talk()], events_of(pieces))
    return all_made(cases())


def runs_of(segments, start):
    """What becomes known of a stream by segments, a place and bytes each: the index of a segment, and the bytes."""
    known, at = {}, 1
    for i, (place, data) in enumerate(segments):
        for j, byte in enumerate(data):
            known.setdefault(place + j, byte)
        run = bytearray()
        while at in known:
            run.append(known[at])
            at += 1
        if run:
            yield ">", 1, start + i, bytes(run)


def in_segments(segments, first):
    """The capture of a connection whose client sends these segments, and the text that it must become."""
    talk = Talk(first=first)
    packets = [*talk.opened(), *(talk.says(place, data) for place, data in segments)]
    return pcap(packets, 101), text([talk], [("+", 1), *runs_of(segments, 3)])


def segments_may_come_in_each_order():
    sizes = (7, 1, 40, 100, len(STREAM) - 148)
    places = [1, *(1 + it for it in itertools.accumulate(sizes[:-1]))]
    segments = [(place, STREAM[place - 1:place - 1 + size]) for place, size in zip(places, sizes)]
    return all_made((order, *in_segments(order, 77)) for order in itertools.permutations(segments))


def segments_may_overlap_and_come_again():
    """Each byte in one segment at least, others anywhere, in any order, and the sequence numbers wrap somewhere."""
    def cases():
        chance = random.Random(20_261_126)
        for trial in range(TRIALS):
            stream = STREAM[:chance.randint(9, len(STREAM))]
            cuts = sorted({0, len(stream), *(chance.randrange(len(stream)) for _ in range(chance.randrange(9)))})
            segments = [(begin + 1, stream[begin:end]) for begin, end in zip(cuts, cuts[1:])]
            for _ in range(chance.randrange(9)):
                begin = chance.randrange(len(stream))
                segments.append((begin + 1, stream[begin:begin + chance.randint(1, 80)]))
            if chance.random() < 0.8:
                chance.shuffle(segments)
            yield trial, *in_segments(segments, -chance.randint(0, len(stream) + 1))
    return all_made(cases())


def sequence_numbers_may_wrap_at_each_byte():
    pieces = [(1 + at, STREAM[at:at + 30]) for at in range(0, len(STREAM), 30)]
    swapped = [it for pair in zip(pieces[1::2], pieces[::2]) for it in pair] + pieces[len(pieces) & ~1:]
    return all_made((first, *in_segments(swapped, -first)) for first in range(len(STREAM) + 3))


def the_world_of_sequence_numbers_may_be_passed():
    """A stream past 2^32 bytes is counted on."""
    stream, passed = tool.Stream(5), 3 * WORLD - 10
    stream.next = stream.acknowledged = 5 + passed
    taken = [stream.take((5 + passed + at) % WORLD, data) for at, data in ((10, b"kl"), (0, b"abcdefghij"))]
    stream.finish((5 + passed + 12) % WORLD)
    return taken == [b"", b"abcdefghijkl"] and stream.is_ended() and stream.gap() is None


def probes_change_nothing():
    """Keep-alives with and without a byte, and probes of a closed window: a byte that comes again with the next."""
    talk, half = Talk(), len(STREAM) // 2
    packets = [*talk.opened(), talk.says(0, b"\0"), talk.says(1, STREAM[:half]), talk.says(half, b"\0"),
               talk.says(half), talk.says(1 + half, STREAM[half:half + 1]), talk.says(1 + half, STREAM[half:]),
               talk.hears(0, b"\0")]
    return all_made([("probes", pcap(packets, 101), text([talk], [
        ("+", 1), (">", 1, 4, STREAM[:half]), (">", 1, 7, STREAM[half:half + 1]), (">", 1, 8, STREAM[half + 1:])]))])


def what_is_behind_a_fin_is_not_of_the_stream():
    def cases():
        end = 1 + len(STREAM)
        ended = [("+", 1), (">", 1, 3, STREAM), ("-", 1)]
        later = [("+", 1), (">", 1, 3, STREAM[:9]), (">", 1, 5, STREAM[9:]), ("-", 1)]
        for name, said, events in (
                ("with bytes", [(1, STREAM, FIN)], ended),
                ("again", [(1, STREAM, 0), (end, b"", FIN), (end, b"", FIN), (1, STREAM, FIN), (end + 1, b"", 0)],
                 ended),
                ("bytes behind it", [(1, STREAM, FIN), (end, b"more", 0), (end + 1, b"more", 0)], ended),
                ("before the last bytes", [(1, STREAM[:9], 0), (end, b"", FIN), (10, STREAM[9:], 0)], later),
                ("with the last bytes, early", [(1, STREAM[:9], 0), (20, STREAM[19:], FIN), (10, STREAM[9:40], 0)],
                 later),
                ("bytes over it, before it", [(1, STREAM[:9], 0), (end - 9, STREAM[-9:] + b"more", 0)]
                 + [(end, b"", FIN), (10, STREAM[9:], 0)], [*later[:2], (">", 1, 6, STREAM[9:]), ("-", 1)]),
                ("bytes over it, behind it", [(1, STREAM[:9], 0), (end, b"", FIN), (10, STREAM[9:] + b"more", 0)],
                 later),
                *(("two", [(1, STREAM[:9], 0), (first, b"", FIN), (2 * end + 5 - first, b"", FIN), (10, STREAM[9:], 0)],
                   [*later[:2], (">", 1, 6, STREAM[9:]), ("-", 1)]) for first in (end, end + 5)),
                ("one that bytes went past", [(1, STREAM, 0), (5, b"", FIN), (end, STREAM, 0)],
                 [*ended[:2], (">", 1, 5, STREAM)])):
            talk = Talk()
            said = [talk.says(place, data, flags | ACK) for place, data, flags in said]
            yield name, pcap([*talk.opened(), *said], 101), text([talk], events)
    return all_made(cases())


def resets_and_what_the_server_ends():
    """An RST ends a connection; one that the server is past does not, and one behind missing bytes does later."""
    def cases():
        end = 1 + len(STREAM)
        open_, ended = [("+", 1), (">", 1, 3, STREAM)], [("+", 1), (">", 1, 3, STREAM), ("-", 1)]
        talk = Talk()
        came, got = talk.says(1, STREAM), talk.hears(1, acknowledged=end)
        for name, packets, events in (
                ("reset", [came, got, talk.says(end, b"", RST), talk.says(end, b"", RST | ACK)], ended),
                ("with a text", [came, talk.says(end, b"why", RST | ACK), talk.says(end, b"more")], ended),
                ("not before what was acknowledged", [came, talk.hears(1, acknowledged=9), talk.says(9, b"", RST)],
                 ended),
                ("before what was acknowledged", [came, got, talk.hears(1, acknowledged=5),
                                                  talk.says(9, STREAM + b"more", RST)], open_),
                ("early", [talk.says(end, b"", RST), came], [("+", 1), (">", 1, 4, STREAM), ("-", 1)]),
                ("by the server", [came, talk.hears(1, b"", RST | ACK, end), talk.says(end, b"more")],
                 [*open_, ("reset", 1), ("-", 1)]),
                ("by the server, which acknowledges nothing", [came, talk.hears(1, b"", RST, end + 9)],
                 [*open_, ("reset", 1), ("-", 1)]),
                ("by the server, behind a gap", [talk.says(9, STREAM[8:]), talk.hears(1, b"", RST | ACK, 1)],
                 [("+", 1), ("reset", 1), ("-", 1)]),
                ("closed by the server", [came, talk.hears(1, b"", FIN | ACK, end), talk.hears(1, b"", FIN | ACK, end),
                                          talk.says(end, b"", FIN | ACK)], [*open_, ("closed", 1), ("-", 1)]),
                ("closed by both", [came, talk.says(end, b"", FIN | ACK), talk.hears(1, b"", FIN | ACK, end + 1)],
                 ended)):
            yield name, pcap([*talk.opened(), *packets], 101), text([talk], events)
    return all_made(cases())


def connections_are_numbered_as_they_are_opened():
    """Two that come together, with a third that is never opened, and others that are not of the port."""
    one, two, three = Talk(), Talk(OTHER, first=-3), Talk(("10.0.0.4", 50_000))
    other, back = Talk(CLIENT, ("10.0.0.1", 445)), Talk(SERVER, (CLIENT[0], 9))
    first, second = one.opened(), two.opened()
    aborted = [three.says(9, b"", RST), three.says(1, b"", RST)]
    refused = Talk((CLIENT[0], 1))
    packets = [first[0], second[0], *three.opened()[:2], *aborted, three.opened()[1], aborted[1], three.says(1),
               second[0], *second[1:], refused.opened()[0], refused.hears(0, b"", RST | ACK, 1), *first[1:],
               one.sends(STREAM[:5]), *session(other)[:5], two.sends(STREAM), one.sends(STREAM[5:]), *session(back),
               *two.closed()]
    at = packets.index(first[2])
    events = [("+", 1), ("+", 2), (">", 2, at + 1, STREAM[:5]), (">", 1, at + 7, STREAM),
              (">", 2, at + 8, STREAM[5:]), ("-", 1)]
    return all_made([("together", pcap(packets, 101), text([two, one], events))])


def an_opening_may_be_captured_in_another_way():
    """Again, without the client's first segment, or beside answers that are to another SYN."""
    def cases():
        talk = Talk()
        opened, came = talk.opened(), talk.says(1, STREAM)
        for name, packets, events in (
                ("again", [*opened, came, opened[0], came, talk.says(1 + len(STREAM), b"", FIN | ACK)],
                 [(">", 1, 3, STREAM), ("-", 1)]),
                ("later bytes first", [*opened[:2], talk.says(10, STREAM[9:]), talk.says(1, STREAM[:9])],
                 [(">", 1, 3, STREAM)]),
                ("one side", [opened[0], opened[2], came], [(">", 1, 2, STREAM)]),
                ("others refused", [opened[0], talk.hears(0, b"", RST | ACK, 77), talk.hears(0, b"", RST, 1),
                                    *opened[1:], came], [(">", 1, 5, STREAM)])):
            yield name, pcap(packets, 101), text([talk], [("+", 1), *events])
    return all_made(cases())


def peers_may_have_one_connection_after_another():
    """After a close, and where the client gave the one before up; what comes late of the first changes nothing."""
    def cases():
        one, two = Talk(), Talk(first=5_000_000, server_first=7)
        packets = [*session(one, [STREAM]), *two.opened(), one.says(1, STREAM), two.sends(STREAM), *two.closed()]
        again = [("+", 2), (">", 2, 12, STREAM), ("-", 2)]
        yield "behind a close", pcap(packets, 101), text([one, two], [*events_of([STREAM]), *again])
        one, two = Talk(), Talk(first=-40)
        packets = [*one.opened(), one.sends(STREAM), *two.opened()[:1] * 2, one.says(one.sent), *two.opened()[1:],
                   two.sends(STREAM)]
        yield "given up", pcap(packets, 101), text([one, two], [
            ("+", 1), (">", 1, 3, STREAM), ("-", 1), ("+", 2), (">", 2, 9, STREAM)])
        one, two = Talk(), Talk(first=-40)
        begun = [*one.opened(), one.says(1, STREAM[:9]), two.opened()[0]]
        for name, packet, more in (("refused", two.hears(0, b"", RST | ACK, 1), ("-", 1)),
                                   ("aborted", two.says(1, b"", RST), (">", 1, 6, STREAM[9:]))):
            yield name, pcap([*begun, packet, one.says(10, STREAM[9:])], 101), text([one], [
                ("+", 1), (">", 1, 3, STREAM[:9]), more])
        talk, same = Talk((CLIENT[0], PORT)), Talk((SERVER[0], PORT), (CLIENT[0], PORT))
        yield "of the port itself", pcap(session(talk), 101), text([talk], events_of())
        yield "of the port, back", pcap(session(same), 101), text([same], events_of())
    return all_made(cases())


def bytes_may_come_with_a_syn():
    """They are the first bytes of the stream, once the connection is open."""
    talk = Talk()
    opened = talk.opened()
    packets = [talk.says(0, STREAM[:20], SYN), opened[0], *opened[1:], talk.says(1, STREAM)]
    return all_made([("bytes", pcap(packets, 101), text([talk], [
        ("+", 1), (">", 1, 3, STREAM[:20]), (">", 1, 4, STREAM[20:])]))])


def headers_of_ip_are_passed_over():
    """Options of IPv4; options for each hop and for the end of IPv6; lengths of 0, as where the system cuts later."""
    def cases():
        jumbo = ((0, b"\x00\xc2\x04\0\1\0\0"),)
        for name, client, server, more in (
                ("options", CLIENT, SERVER, {"options": b"\x94\x04\0\0\1\1\1\0"}),
                ("no length", CLIENT, SERVER, {"total": 0}),
                ("hop by hop", CLIENT_6, SERVER_6, {"headers": ((0, b"\0\1\4" + bytes(4)),)}),
                ("both", CLIENT_6, SERVER_6, {"headers": ((0, b"\0\1\4" + bytes(4)), (60, b"\1" + bytes(14)))}),
                ("jumbo", CLIENT_6, SERVER_6, {"headers": jumbo, "total": 0})):
            talk = Talk(client, server)
            packets = [*talk.opened(), talk.says(1, STREAM, **more)]
            yield name, pcap(packets, 101), text([talk], [("+", 1), (">", 1, 3, STREAM)])
    return all_made(cases())


def what_is_not_of_the_port_is_passed_over():
    """ARP, UDP, fragments of others, broken packets, and packets of no bytes."""
    talk = Talk()
    opened, segment = talk.opened(), tcp(50_000, PORT, 0, 0, ACK, b"xx")
    odd = [ip(CLIENT[0], SERVER[0], segment, 17), ip(CLIENT[0], SERVER[0], segment, 17, fragment=0x2000),
           ip(CLIENT[0], SERVER[0], segment, fragment=0x2003), ip(CLIENT[0], SERVER[0], segment[:9]),
           ip(CLIENT[0], SERVER[0], tcp(50_000, 445, 0, 0, ACK), fragment=0x2000), b"\x45", b"\x35" + bytes(50),
           ip(CLIENT[0], SERVER[0], segment[:12] + b"\x40" + segment[13:]),
           ip(CLIENT[0], SERVER[0], tcp(1, PORT, 0, 0, FIN)),
           ip(CLIENT[0], SERVER[0], segment, total=12), ip(CLIENT[0], SERVER[0], tcp(50_000, PORT, 0, 0, RST)),
           ip(CLIENT_6[0], SERVER_6[0], segment, headers=((44, b"\0\0\x08" + bytes(4)),)),
           ip(CLIENT_6[0], SERVER_6[0], segment, 58), ip(CLIENT_6[0], SERVER_6[0], segment, 50)]
    frames = [b"", b"\1", bytes(12) + b"\x08\x06" + bytes(46), bytes(12) + b"\x00\x26" + bytes(46),
              *map(ethernet, [*odd, *opened, *odd])]
    count = 4 + len(odd)
    packets = [*frames, ethernet(talk.sends(STREAM))]
    return all_made([("others", pcap(packets), text([talk], [("+", 1), (">", 1, count * 2 - 1, STREAM)]))])


def answers_are_those_of_the_server():
    """Whole frames alone; `x n` where the server ends it first, whatever comes of the client then."""
    def cases():
        reply = Rows().named["negotiated"]
        line = f"< 1 {reply.hex()}\n"
        talk = Talk()
        opened, end = talk.opened(), 1 + len(reply)
        cut = [talk.hears(1 + at, reply[at:at + 40]) for at in range(0, len(reply), 40)]
        for name, packets, wanted in (
                ("in order", [*cut, talk.hears(end, reply[:9])], line),
                ("in another order", [*cut[::-1], *cut], line),
                ("two at once", [talk.hears(1, reply * 2)], line * 2),
                ("closed", [*cut, talk.hears(end, b"", FIN | ACK), talk.says(1, b"", FIN | ACK)], line + "x 1\n"),
                ("closed second", [talk.says(1, b"", FIN | ACK), *cut, talk.hears(end, b"", FIN | ACK)], line),
                ("reset", [*cut, talk.hears(end, b"", RST | ACK), talk.hears(end, reply)], line + "x 1\n")):
            yield name, pcap([*opened, *packets], 101), wanted
        other = Talk(first=5_000)
        yield "refused", pcap([*opened, *cut, other.opened()[0], other.hears(0, b"", RST | ACK, 1),
                               talk.hears(end, reply)], 101), line
        wrong = talk.hears(0, b"", SYN | ACK, 77)
        yield "an answer to another SYN", pcap([*opened[:2], wrong, opened[2], *cut], 101), line
        lost = "connection 1 (10.0.0.2:50000 to 10.0.0.1:4450): packets were lost: the capture has no sequence numbers "
        yield "lost", pcap([*opened, *cut[1:]], 101), lost + "9001 to 9040"
        talk.answered = end
        yield "lost at the end", pcap([*opened, *cut[:1], talk.says(1)], 101), f"{lost}9041 to {9_000 + len(reply)}"
        yield "one side", pcap([opened[0], opened[2]], 101), (
            "connection 1 (10.0.0.2:50000 to 10.0.0.1:4450): the server's SYN is not in the capture")
    return all_made(cases(), True)


TESTS = (
    each_link_type_is_read, both_orders_and_resolutions_are_read, pcapng_is_read, clocks_of_interfaces_are_kept,
    recorded_sessions_become_what_was_recorded, a_stream_may_be_cut_at_each_byte, segments_may_come_in_each_order,
    segments_may_overlap_and_come_again, sequence_numbers_may_wrap_at_each_byte,
    the_world_of_sequence_numbers_may_be_passed, probes_change_nothing, what_is_behind_a_fin_is_not_of_the_stream,
    resets_and_what_the_server_ends, connections_are_numbered_as_they_are_opened,
    an_opening_may_be_captured_in_another_way, peers_may_have_one_connection_after_another, bytes_may_come_with_a_syn,
    headers_of_ip_are_passed_over, what_is_not_of_the_port_is_passed_over, answers_are_those_of_the_server,
)
