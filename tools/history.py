"""The text of a history, as `smcr run` prints it, read into entries and posts.

A line an entry, `NUMBER ACTOR EVENT: REPLY`, a line with two spaces before it a post; then lines of
sockets, of awaits that gave up, and the end. docs/definitions.md says what each line means.
"""

import re
import signal
import sys
from dataclasses import dataclass, field

NUMBER = r"(?:0|[1-9][0-9]*)"
NAME = r"[a-z][a-z0-9_]{0,15}"
LINK = rf"{NUMBER}\.{NUMBER}\.{NUMBER}"
RUN = rf"[0-9a-f]{{2}}(?:\*{NUMBER})?"
BYTES = rf"(?:-|{RUN}(?:,{RUN})*)"

EVENT = re.compile(
    rf"open {NAME}|raw {NAME} {BYTES}|write [AB]\.{NAME} {BYTES}|read [AB]\.{NAME} {NUMBER}"
    rf"|(?:finish|close|abort|move|await) [AB]\.{NAME}|clc {NAME} [AB]"
    rf"|(?:deliver|complete|swallow) {NUMBER} [AB]|(?:cut|heal) {NUMBER}"
    rf"|(?:report|test) [AB] {NUMBER}|grow|trim [AB]"
)
# Causes are left open: what none of the scripts knows is printed as it is.
REPLY = re.compile(
    r"opened|name used|no socket|full|empty|end|not yet|ended|done|idle|established|fell back"
    rf"|wrote {NUMBER}|data {BYTES}|(?:landed|completed) {NUMBER}\.[1-9]|moved {NUMBER} {NUMBER}"
    rf"|group ended {NUMBER}|dropped {NUMBER}|(?:reset|held|sent|declined) [a-z0-9 ]+"
)
ENTRY = re.compile(rf"({NUMBER}) (main|{NAME}) ([^:]+): (.*)")
FLAG = "(?:valid|done|closed|abort)"
POST = [
    re.compile(
        rf"(?P<kind>write) (?P<side>[AB]) (?P<link>{LINK})"
        rf" (?P<message>key (?P<key>{NUMBER}) at (?P<address>{NUMBER}) len (?P<length>{NUMBER}))"
    ),
    re.compile(
        rf"(?P<kind>cdc) (?P<side>[AB]) (?P<link>{LINK})"
        rf" (?P<message>token (?P<token>{NUMBER}) number (?P<sequence>{NUMBER})"
        rf" told (?P<told>{NUMBER}/{NUMBER}) read (?P<read>{NUMBER}/{NUMBER})"
        rf" (?P<flags>-|{FLAG}(?:,{FLAG})*))"
    ),
    re.compile(
        rf"(?P<kind>llc) (?P<side>[AB]) (?P<link>{LINK})"
        r" (?P<message>(?P<flow>(?:confirm|add|delete|test) link|add keys|(?:confirm|delete) rkey)"
        r"(?: (?P<answer>reply|reject|retry))?(?: (?P<about>[0-9][-0-9=, ]*))?)"
    ),
    re.compile(
        rf"(?P<kind>clc) (?P<side>[AB]) (?P<socket>{NAME}) (?P<message>(?P<step>proposal)"
        rf"|(?P<offer>accept|confirm) (?P<contact>first|later) (?P<link>{LINK}) key (?P<key>{NUMBER})"
        rf" rmb (?P<rmb>{NUMBER}) index (?P<index>{NUMBER}) token (?P<token>{NUMBER})"
        rf"|(?P<refusal>decline) (?P<diagnosis>{NUMBER})(?P<out> out of synch)?)"
    ),
]
SOCKET = re.compile(rf"socket {NAME} A wrote {NUMBER} read {NUMBER} B wrote {NUMBER} read {NUMBER}")
GAVE_UP = re.compile(rf"gave up (?:main|{NAME}) [AB]\.{NAME}")
SPENT = re.compile(rf"spent (?:entries|bytes) {NUMBER}")
REFUSED = re.compile(r"line [0-9]+: [a-z ]+|too long|usage: .*")


class Refused(Exception):
    """Why a script does not do what it was asked."""


class NoHistory(Refused):
    """Why a text is no history."""

    def __str__(self):
        return f"no history: {self.args[0]}"


@dataclass(frozen=True)
class Post:
    """One message or remote write, as its sender posted it."""

    entry: int
    number: int
    kind: str  # clc, llc, cdc or write
    side: str  # the sender's
    link: str  # GROUP.SLOT.INCARNATION; empty for a CLC message
    socket: str  # of a CLC message, else empty
    message: str  # what stands behind the sender and the link or socket
    fields: dict = field(compare=False, repr=False)

    @property
    def name(self):
        return f"{self.entry}.{self.number}"

    @property
    def slot(self):
        return int(self.link.split(".")[1])

    @property
    def flags(self):
        return self.fields["flags"].split(",")

    @property
    def about(self):
        """The first number of an LLC message: the slot that it is about, or an RMB."""
        return int(re.match("[0-9]+", self.fields["about"] or "0")[0])

    def __str__(self):
        return f"{self.kind} {self.side} {self.link or self.socket} {self.message}"


@dataclass(frozen=True)
class Entry:
    """One event, with what its actor was told and what the managers posted because of it."""

    number: int
    actor: str
    event: str
    reply: str
    posts: list

    @property
    def words(self):
        return self.event.split()

    def is_told(self, *replies):
        return any(self.reply == reply or self.reply.startswith(reply + " ") for reply in replies)

    def __str__(self):
        return f"{self.number} {self.actor} {self.event}: {self.reply}"


@dataclass
class History:
    """The entries, and the lines behind them."""

    entries: list
    rest: list

    @property
    def posts(self):
        return {post.name: post for entry in self.entries for post in entry.posts}


def peer(side):
    return "B" if side == "A" else "A"


def acting_side(entry):
    """The side at which an entry stands, None for what concerns the path between them."""
    words = entry.words
    if words[0] in ("open", "raw"):
        return "A"
    if words[0] in ("clc", "deliver"):
        return peer(words[-1])
    if words[0] in ("cut", "heal"):
        return None
    sides = [word[0] for word in words[1:] if word[0] in "AB"]
    return sides[0] if sides else "B"


def socket_of(entry):
    """The socket that an event names, empty where it names none."""
    words = entry.words
    if words[0] in ("open", "raw", "clc"):
        return words[1]
    return words[1][2:] if len(words) > 1 and words[1][1:2] == "." else ""


def read_post(line, entry, number):
    for form in POST:
        if found := form.fullmatch(line[2:]):
            fields = found.groupdict()
            link = "" if fields["kind"] == "clc" else fields["link"]
            return Post(
                entry, number, fields["kind"], fields["side"], link, fields.get("socket") or "",
                fields["message"], fields,
            )
    return None


def read_entry(line, number):
    found = ENTRY.fullmatch(line)
    if not found or int(found[1]) != number:
        return None
    if not EVENT.fullmatch(found[3]) or not REPLY.fullmatch(found[4]):
        return None
    return Entry(number, found[2], found[3], found[4], [])


def read_line(line, entries):
    """Takes a line of an entry or a post to the entries before it; whether it is one."""
    is_post = line.startswith("  ")
    if is_post and not entries:
        return False
    into = entries[-1].posts if is_post else entries
    number = len(into) + 1
    found = read_post(line, entries[-1].number, number) if is_post else read_entry(line, number)
    if found:
        into.append(found)
    return found is not None


def is_end(rest, count):
    """Whether lines are those behind the entries: sockets, awaits that gave up, the end."""
    if not rest or not (rest[-1] == f"ok {count}" or SPENT.fullmatch(rest[-1])):
        return False
    forms = "".join(
        "s" if SOCKET.fullmatch(line) else "g" if GAVE_UP.fullmatch(line) else "?"
        for line in rest[:-1]
    )
    return bool(re.fullmatch("s*g*", forms))


def read_history(text):
    """The history whose whole text this is."""
    lines = text.split("\n")
    if lines.pop():
        raise NoHistory("its last line has no end")
    if lines and REFUSED.fullmatch(lines[0]):
        raise NoHistory(f"the program said `{lines[0]}`")
    entries, at = [], 0
    while at < len(lines) and read_line(lines[at], entries):
        at += 1
    if not is_end(lines[at:], len(entries)):
        raise NoHistory(f"line {at + 1} is none that comes there" if at < len(lines) else "no end")
    return History(entries, lines[at:])


def bytes_in(path):
    """What a file holds, or standard input where no file is named."""
    try:
        if path is None:
            return sys.stdin.buffer.read()
        with open(path, "rb") as file:
            return file.read()
    except OSError as fault:
        raise Refused(f"{path}: {fault.strerror}") from fault


def history_in(path):
    """The history in a file, or at standard input where no file is named."""
    return read_history(bytes_in(path).decode("latin-1"))


def run(main):
    """Runs a script; what it refuses is one line at standard error and status 1."""
    signal.signal(signal.SIGPIPE, signal.SIG_DFL)
    try:
        main()
    except Refused as fault:
        sys.exit(str(fault))
