"""The framed file of `smcr trace`: all messages of a history in their own spelling.

It begins with `SMCT` and 1. A frame is entry 4, post 1, kind 1, side 1, slot 1, group 4, incarnation 4,
socket 4 and length 2 bytes, big-endian, then the message. The file ends with an entry of 0 and the
number of frames, 4 bytes each.
"""

import struct
from dataclasses import dataclass

from history import Refused

MAGIC = b"SMCT\x01"
HEAD = struct.Struct(">IBBBBIIIH")
CLC, LLC, CDC, WRITE = 1, 2, 3, 4
LENGTHS = {CLC: (52, 68, 28), LLC: (44,), CDC: (44,), WRITE: (16,)}
CLC_LENGTHS = {1: 52, 2: 68, 3: 68, 4: 28}
# By the type of a message, the places of bytes that are 0.
CLC_RESERVED = {1: ((38, 40), (45, 48)), 2: ((51, 52), (60, 61)), 3: ((51, 52), (60, 61)), 4: ((20, 24),)}
LLC_RESERVED = {1: ((2, 3), (35, 44)), 2: ((10, 12), (36, 44)), 3: ((2, 3), (6, 8), (40, 44)), 4: ((2, 3), (9, 44))}
LLC_RESERVED |= {6: ((2, 3), (43, 44)), 7: ((2, 3), (20, 44)), 9: ((2, 3), (6, 8), (40, 44))}
CDC_RESERVED = ((8, 10), (16, 18), (26, 44))
# By the type of an LLC message, the flags that it may have, and where it counts up to how many.
LLC_FLAGS = {1: 0x80, 2: 0xC0, 3: 0x80, 4: 0xE0, 6: 0xB0, 7: 0x80, 9: 0xA0}
LLC_COUNTS = {3: (5, 2), 6: (4, 2), 9: (4, 8)}


class NoTrace(Refused):
    """What is wrong with a file, and where that frame begins."""

    def __str__(self):
        fault, place = self.args
        return f"no trace: {fault} at byte {place}"


@dataclass(frozen=True)
class Frame:
    """One post: a message or a remote write."""

    entry: int
    post: int
    kind: int
    side: int  # 0 for A, 1 for B
    slot: int
    group: int
    incarnation: int
    socket: int
    message: bytes

    @property
    def link(self):
        return self.group, self.slot, self.incarnation


def is_field(frame, length):
    """Whether post, kind, side, link, socket and length are allowed together."""
    if not 1 <= frame.post <= 6 or frame.kind not in LENGTHS or frame.side > 1:
        return False
    is_link = 1 <= frame.slot <= 8 and frame.group and frame.incarnation
    has_none = frame.kind == CLC and frame.link == (0, 0, 0)
    return bool((is_link or has_none) and (frame.kind == CLC or not frame.socket) and length in LENGTHS[frame.kind])


def is_zero(data, places):
    """Whether all bytes at these places are 0."""
    return not any(any(data[start:end]) for start, end in places)


def is_clc(data):
    """Whether bytes are the one spelling of a CLC message: only its first Accept or Confirm, or a Decline
    that is out of synch, has the mark."""
    kind, marks = data[4], (0x10,) if data[4] == 1 else (0x10, 0x18)
    return (
        data[:4] == data[-4:] == b"\xe2\xd4\xc3\xd9"
        and CLC_LENGTHS.get(kind) == len(data) == int.from_bytes(data[5:7], "big")
        and data[7] in marks
        and is_zero(data, CLC_RESERVED[kind])
    )


def is_llc(data):
    """Whether bytes are the one spelling of an LLC message: an ADD LINK has a reason only where it rejects."""
    kind, flags = data[0], data[3]
    if kind not in LLC_RESERVED or data[1] != 44 or flags & ~LLC_FLAGS[kind] or not is_zero(data, LLC_RESERVED[kind]):
        return False
    if kind == 2:
        return data[2] < (16 if flags & 0x40 else 1) and data[32] < 16
    place, most = LLC_COUNTS.get(kind, (0, 44))
    return data[place] <= most


def is_message(frame):
    """Whether the bytes are the one spelling of a message of the kind."""
    data = frame.message
    if frame.kind == CLC:
        return is_clc(data)
    if frame.kind == LLC:
        return is_llc(data)
    return frame.kind == WRITE or (data[:2] == b"\xfe\x2c" and is_zero(data, CDC_RESERVED))


def frame_at(data, place, last):
    """The frame that begins at a place, behind the one before it."""
    head = data[place : place + HEAD.size]
    if len(head) < HEAD.size:
        raise NoTrace("a frame is cut short", place)
    *fields, length = HEAD.unpack(head)
    frame = Frame(*fields, data[place + HEAD.size : place + HEAD.size + length])
    if len(frame.message) < length:
        raise NoTrace("a frame is cut short", place)
    if not is_field(frame, length):
        raise NoTrace("a frame has a field that is not allowed", place)
    if not is_message(frame):
        raise NoTrace("a frame holds no message of its kind", place)
    if (frame.entry, frame.post) <= last:
        raise NoTrace("a frame is out of order", place)
    return frame


def frames_in(data):
    """The frames of a file, in order."""
    if data[:5] != MAGIC:
        raise NoTrace("it does not begin so", 0)
    frames, place, last = [], 5, (0, 0)
    while data[place : place + 4] != bytes(4):
        frame = frame_at(data, place, last)
        frames.append(frame)
        place, last = place + HEAD.size + len(frame.message), (frame.entry, frame.post)
    if len(data) < place + 8:
        raise NoTrace("its end is cut short", place)
    if data[place + 4 :] != len(frames).to_bytes(4, "big"):
        raise NoTrace("its end does not give the number of frames", place)
    return frames
