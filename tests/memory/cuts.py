"""What a list of events is where memory ran out in one of them: the first requests of its piece, and then the end of
its connection; or without the opening that found none. It works on the bytes alone."""
from dataclasses import replace

from tests.memory.events import Event

FIRST_BYTES, HEADER = 4, 64
SMB1 = b'\xffSMB'


def frames_of(stream):
    """The whole frames of a stream."""
    found = []
    while len(stream) >= FIRST_BYTES:
        end = FIRST_BYTES + int.from_bytes(stream[1:FIRST_BYTES], 'big')
        if end > len(stream):
            break
        found.append(stream[:end])
        stream = stream[end:]
    return found


def unread(stream):
    """What is behind the whole frames of a stream."""
    return stream[sum(map(len, frames_of(stream))):]


def messages_of(frame):
    """The requests, or the responses, of a frame."""
    payload, found = frame[FIRST_BYTES:], []
    if payload.startswith(SMB1):
        return [payload]
    while payload:
        end = int.from_bytes(payload[20:24], 'little') or len(payload)
        found.append(payload[:end])
        payload = payload[end:]
    return found


def frame_without_others(frame, count):
    """A frame with the first requests of a chain alone, one or more of them."""
    asked = messages_of(frame)[:count]
    if count and not asked[-1].startswith(SMB1):
        asked[-1] = asked[-1][:20] + bytes(4) + asked[-1][24:]
    payload = b''.join(asked)
    return len(payload).to_bytes(FIRST_BYTES, 'big') + payload


def stream_cut(stream, count):
    """The frames with the first requests of a stream, and none behind them."""
    found = b''
    for frame in frames_of(stream):
        length = len(messages_of(frame))
        if count:
            found += frame if count >= length else frame_without_others(frame, count)
        count -= min(count, length)
    return found


def stream_at(events, place):
    """What is unread of the stream of an event's connection once that event's piece came."""
    connection = events[place].connection
    return unread(b''.join(it.piece for it in events[:place] if it.connection == connection)) + events[place].piece


def requests_at(events, place):
    """The requests that the frames have which are whole once an event came, frame by frame."""
    return [messages_of(it) for it in frames_of(stream_at(events, place))] if events[place].mark == '>' else []


def without_last(numbered, connection, count):
    """Events with their places, without the last bytes of a connection's stream."""
    found = []
    for place, event in reversed(numbered):
        if event.mark == '>' and event.connection == connection and count:
            left = event.piece[:max(0, len(event.piece) - count)]
            count -= len(event.piece) - len(left)
            event = replace(event, piece=left)
        if event.mark != '>' or event.piece:
            found.append((place, event))
    return found[::-1]


def without_opening(events, place):
    """The events where an opening is refused: its connection's are left out, and those that open later have another
    number."""
    gone = events[place].connection
    return [(i, replace(it, connection=it.connection - (it.connection > gone)))
            for i, it in enumerate(events) if it.connection != gone]


def cut(events, place, done):
    """The events of a share that performs the first requests of an event, so many, and then ends its connection, each
    with the place of the event that it comes from; None for that end."""
    event, numbered = events[place], list(enumerate(events))
    if event.mark == '+':
        return without_opening(events, place)
    stream = stream_at(events, place)
    found = without_last(numbered[:place], event.connection, len(stream) - len(event.piece))
    piece = stream_cut(stream, done)
    if piece:
        found.append((place, replace(event, piece=piece)))
    return found + [(None, Event('-', event.connection))] + numbered[place + 1:]
