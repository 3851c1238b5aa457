"""The trace of a history, made from its text: what `smcr trace` gives for the scene of the history.

usage: encode.py SCENE OUT > FILE

OUT is what `smcr run` gives for SCENE; where that refuses the scene, `smcr trace` gives the same text.
tools/check feeds tools/to-pcapng with traces, and scenes/check compares those of the program. Settings
are the defaults but for the number of links, and the size and A's subnet that a scene sets; sockets are
numbered in the order in which the entries name them. docs/definitions.md has the numbers of keys, tokens
and queue pairs, and the codecs' specifications the layouts.
"""

import os
import re
import struct
import sys

sys.dont_write_bytecode = True
sys.path.insert(0, os.path.join(os.path.dirname(os.path.abspath(__file__)), ".."))
from facts import Facts  # noqa: E402
from history import NoHistory, read_history, socket_of  # noqa: E402
from trace import CDC, CLC, HEAD, LLC, MAGIC, WRITE  # noqa: E402

EYE = b"\xe2\xd4\xc3\xd9"
KINDS = {"clc": CLC, "llc": LLC, "cdc": CDC, "write": WRITE}
LLC_TYPES = {"confirm link": 1, "add link": 2, "add keys": 3, "delete link": 4, "confirm rkey": 6, "test link": 7}
LLC_TYPES["delete rkey"] = 9
ANSWERS = {None: 0, "reply": 0x80, "reject": 0xC0, "retry": 0x90}
MTU = 5


def mac(side, port):
    return bytes([2, 0, 0, 0, 0x0A if side == "A" else 0x0B, port])


def gid(side, port):
    return b"\xfe\x80" + bytes(12) + bytes([0x0A if side == "A" else 0x0B, port])


def peer_id(side):
    return b"\0\1" + mac(side, 1)


def clc(kind, flags, body):
    return EYE + struct.pack(">BHB", kind, len(body) + 12, 0x10 | flags) + body + EYE


def number(text):
    return int(text or 0)


class Encoder:
    """What the messages hold beside what their text says."""

    def __init__(self, links, first_socket, scene):
        self.links = links
        self.first_socket = first_socket
        size = re.search(r"^set size (\d+)$", scene, re.M)
        self.size = int(size[1]) if size else 0
        subnet = re.search(r"^set subnet A (\d+)\.(\d+)\.(\d+)\.(\d+)/(\d+)$", scene, re.M)
        self.subnet = bytes(map(int, subnet.groups())) if subnet else bytes([10, 0, 0, 0, 24])
        self.facts = Facts()
        self.made = {"A": 0, "B": 0}  # queue pairs
        self.pairs = {}  # by side and slot, the latest
        self.rmb_of = {}  # by side and key
        self.sockets = {}
        self.last_request = {}  # by flow, its body

    def pair(self, side, slot, is_new):
        if is_new:
            self.made[side] += 1
            self.pairs[side, slot] = 16 * self.made[side] + slot
        return self.pairs[side, slot].to_bytes(3, "big")

    def message(self, post, entry, is_new_link):
        return getattr(self, post.kind)(post, entry, is_new_link)

    def clc(self, post, entry, is_new_link):
        side, fields = post.side, post.fields
        if fields["step"]:
            area = bytes(2) + self.subnet + bytes(3)
            return clc(1, 0, peer_id(side) + gid(side, 1) + mac(side, 1) + area)
        if fields["refusal"]:
            return clc(4, 8 if fields["out"] else 0, peer_id(side) + struct.pack(">II", number(fields["diagnosis"]), 0))
        group, slot, _ = (int(part) for part in fields["link"].split("."))
        first = fields["contact"] == "first"
        key, rmb = number(fields["key"]), number(fields["rmb"])
        self.rmb_of[side, key] = rmb
        body = peer_id(side) + gid(side, slot) + mac(side, slot) + self.pair(side, slot, first)
        element = number(fields["index"]), number(fields["token"])
        body += struct.pack(">IBIBBQB", key, *element, self.size << 4 | MTU, 0, rmb << 32, 0)
        return clc(2 if fields["offer"] == "accept" else 3, 8 if first else 0, body + group.to_bytes(3, "big"))

    def llc(self, post, entry, is_new_link):
        flow, answer = post.fields["flow"], post.fields["answer"]
        make = getattr(self, flow.replace(" ", "_"))
        body = make(post, entry, is_new_link)
        reason = 1 if answer == "reject" else 0
        return bytes([LLC_TYPES[flow], 44, reason, ANSWERS[answer]]) + body.ljust(40, b"\0")

    def confirm_link(self, post, entry, is_new_link):
        group = int(post.link.split(".")[0])
        ends = mac(post.side, post.slot) + gid(post.side, post.slot) + self.pair(post.side, post.slot, False)
        return ends + struct.pack(">BIB", post.slot, group, self.links)

    def add_link(self, post, entry, is_new_link):
        slot, group = post.about, int(post.link.split(".")[0])
        if post.fields["answer"] == "reject":
            return bytes(27) + bytes([slot])
        is_new = is_new_link if post.fields["answer"] else entry.words[0] == "grow"
        ends = mac(post.side, slot) + bytes(2) + gid(post.side, slot) + self.pair(post.side, slot, is_new)
        return ends + bytes([slot, MTU]) + group.to_bytes(3, "big")

    def add_keys(self, post, entry, is_new_link):
        pairs = pairs_of(post)
        body = bytes([post.about, len(pairs), 0, 0])
        for old, new in pairs:
            rmb = self.rmb_of[post.side, old]
            self.rmb_of[post.side, new] = rmb
            body += struct.pack(">IIQ", old, new, rmb << 32)
        return body

    def delete_link(self, post, entry, is_new_link):
        return struct.pack(">BI", post.about, 0x10000)

    def confirm_rkey(self, post, entry, is_new_link):
        if post.fields["answer"]:
            return self.last_request["confirm rkey"]
        pairs = pairs_of(post)
        body = b""
        for at, (slot, key) in enumerate(pairs):
            self.rmb_of[post.side, key] = post.about
            body += struct.pack(">BIQ", slot if at else len(pairs) - 1, key, post.about << 32)
        self.last_request["confirm rkey"] = body
        return body

    def delete_rkey(self, post, entry, is_new_link):
        keys = [int(key) for key in post.fields["about"].split(",")]
        return struct.pack(f">BBH{len(keys)}I", len(keys), 0, 0, *keys)

    def test_link(self, post, entry, is_new_link):
        return post.about.to_bytes(4, "big")

    def cdc(self, post, entry, is_new_link):
        fields, flags = post.fields, post.flags
        state = sum(bit for flag, bit in (("done", 0x80), ("closed", 0x40), ("abort", 0x20)) if flag in flags)
        places = [int(n) for count in ("told", "read") for n in fields[count].split("/")]
        cursors = struct.pack(">HHIHHI", 0, *places[:2], 0, *places[2:])
        head = struct.pack(">BBHI", 0xFE, 44, number(fields["sequence"]), number(fields["token"]))
        return head + cursors + bytes([8 if "valid" in flags else 0, state]) + bytes(18)

    def write(self, post, entry, is_new_link):
        return struct.pack(">IQI", *(number(post.fields[name]) for name in ("key", "address", "length")))

    def frames(self, entry):
        if name := socket_of(entry):
            self.sockets.setdefault(name, self.first_socket + len(self.sockets))
        links = len(self.facts.links)
        self.facts.take(entry)
        for post in entry.posts:
            message = self.message(post, entry, len(self.facts.links) > links)
            link = post.link or post.fields.get("link") or "0.0.0"
            group, slot, incarnation = (int(part) for part in link.split("."))
            socket = self.sockets[post.socket] if post.socket else 0
            ends = ("A", "B").index(post.side), slot, group, incarnation, socket
            yield HEAD.pack(post.entry, post.number, KINDS[post.kind], *ends, len(message)) + message


def pairs_of(post):
    """`513=514,515=516` behind the first number of an LLC message."""
    words = post.fields["about"].replace(" ", ",").split(",")
    return [tuple(map(int, word.split("="))) for word in words if "=" in word]


def trace_of(history, links=1, first_socket=0, scene=""):
    encoder = Encoder(links, first_socket, scene)
    frames = [frame for entry in history.entries for frame in encoder.frames(entry)]
    return MAGIC + b"".join(frames) + bytes(4) + len(frames).to_bytes(4, "big")


def main():
    scene, told = (open(path, encoding="utf-8").read() for path in sys.argv[1:])
    try:
        data = trace_of(read_history(told), scene=scene)
    except NoHistory:
        data = told.encode()
    sys.stdout.buffer.write(data)


if __name__ == "__main__":
    main()
