"""Exchanges with the proved program over TCP, timed."""
import struct
import time

ROOM = memoryview(bytearray(1 << 24))


def processor_seconds(process):
    """The program's processor seconds so far."""
    with open(f'/proc/{process.pid}/schedstat', encoding='ascii') as it:
        return int(it.read().split()[0]) / 1e9


def take(client, count):
    """So many bytes of a client's stream, at most as many as there is room for."""
    found = 0
    while found < count:
        more = client.stream.recv_into(ROOM[found:count])
        if more == 0:
            raise AssertionError('an answer is missing')
        found += more
    return ROOM[:count]


def take_reply(client):
    take(client, struct.unpack('>I', take(client, 4))[0])


def seconds_for(client, frames, in_flight):
    """How long it takes until each of some frames is answered, with so many in flight."""
    waiting = 0
    start = time.perf_counter()
    for frame in frames:
        if waiting == in_flight:
            take_reply(client)
            waiting -= 1
        client.send(frame)
        waiting += 1
    for _ in range(waiting):
        take_reply(client)
    return time.perf_counter() - start
