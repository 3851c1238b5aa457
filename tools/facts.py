"""What a history shows after some of its entries: links, groups, requests, lendings and ends.

Only what entries and posts say is kept here, each fact with the entry that shows it. A history whose
landings and completions are not those of the posts before them is refused.
"""

from dataclasses import dataclass, field

from history import NoHistory, Post, acting_side, peer

KEY_FLOWS = ("confirm rkey", "delete rkey")


def both(make):
    return field(default_factory=lambda: {"A": make(), "B": make()})


@dataclass
class Link:
    """A link, with the entries at which it was made, cut, and became live or was reported."""

    name: str
    slot: int
    made: int
    cut: int = 0  # the entry of the cut, 0 while it is not cut
    live: dict = field(default_factory=dict)  # by side, the entry since which
    reported: dict = field(default_factory=dict)
    waiting: dict = both(list)  # by sender, the posts that have not landed
    landed: dict = both(list)  # by sender, those that landed and have not completed

    def is_live(self, side):
        return side in self.live and side not in self.reported

    @property
    def dead(self):
        """The entry since which nothing lands on it, 0 where it is not dead."""
        return min((at for at in (self.cut, *self.reported.values()) if at), default=0)


@dataclass
class Group:
    """A group at one side, from its first offer there until it ends there."""

    number: int
    begun: Post
    first_contact: bool = True
    ended: int = 0


@dataclass
class Lending:
    """An element that is lent to a socket, by an Accept or a Confirm."""

    side: str
    post: Post
    group: int
    ended: int = 0

    @property
    def socket(self):
        return self.post.socket

    @property
    def token(self):
        return int(self.post.fields["token"])


@dataclass
class Adding:
    """A link that a side is adding: the last message of the flow that it posted."""

    slot: int
    post: Post
    left: bool = False  # its new link was reported meanwhile


@dataclass
class End:
    """One end of a socket. Numbers are those of entries, 0 for not yet."""

    side: str
    socket: str
    made: int
    is_raw: bool = False
    established: int = 0
    fell_back: int = 0
    reset: int = 0  # in its handshake
    wrote: int = 0
    read: int = 0
    calls: dict = field(default_factory=dict)  # finish, close, abort: the first that was done
    posted: list = field(default_factory=list)  # its CDC messages
    taken: list = field(default_factory=list)  # the peer's that landed, with their entries
    completed: list = field(default_factory=list)  # its own that completed, with their entries
    over: set = field(default_factory=set)  # "own" and "peer", as the last message came through

    @property
    def name(self):
        return f"{self.side}.{self.socket}"


@dataclass
class Fate:
    """What became of a post: landed, dropped or swallowed, or a CLC message taken, at an entry."""

    how: str
    at: int


class Facts:
    """What the entries taken so far show."""

    def __init__(self):
        self.count = 0
        self.down = {}  # the slots whose path is down: the entry of the cut
        self.links = []
        self.latest = {}  # by slot
        self.group = {"A": None, "B": None}
        self.old_groups = []  # (side, group), ended
        self.outstanding = {"A": {}, "B": {}}  # requests by (flow, slot or 0)
        self.answers = {"A": {}, "B": {}}  # the last answer to a key request: (post, entry)
        self.adding = {"A": None, "B": None}
        self.lendings = []
        self.lending_of = {}  # by side and token, and by side and socket
        self.ends = {}  # by name
        self.streams = {}  # by (socket, sender), the CLC messages that were not taken
        self.entries = []
        self.posts = []
        self.fates = {}  # by the name of a post
        self.opened = {}  # by socket, the entry

    # -- taking an entry

    def take(self, entry):
        self.count = entry.number
        self.entries.append(entry)
        after = getattr(self, "after_" + entry.words[0], self.after_call)
        after(entry, *entry.words[1:])
        for post in entry.posts:
            self.posts.append(post)
            getattr(self, "posted_" + post.kind)(post)

    def after_open(self, entry, socket):
        if entry.reply == "name used":
            return
        self.opened[socket] = entry.number
        for side in "AB":
            end = End(side, socket, entry.number)
            end.fell_back = 0 if entry.reply == "opened" else entry.number
            self.ends[end.name] = end

    def after_raw(self, entry, socket, data):
        if entry.reply != "name used" and socket not in self.opened:
            self.opened[socket] = entry.number
            self.ends["B." + socket] = End("B", socket, entry.number, is_raw=True)

    def after_clc(self, entry, socket, sender):
        end = self.ends.get(f"{peer(sender)}.{socket}")
        if not end or entry.is_told("idle", "held", "sent confirm rkey"):
            return
        waiting = self.streams.get((socket, sender), [])
        if waiting and not entry.is_told("reset bad message"):
            self.fates[waiting.pop(0).name] = Fate("taken", entry.number)
        if entry.reply == "established":
            end.established = entry.number
        elif entry.is_told("fell back", "declined"):
            end.fell_back = entry.number
            self.give_back(end)
        elif entry.is_told("reset"):
            end.reset = entry.number
            self.give_back(end)

    def after_deliver(self, entry, slot, sender):
        if entry.is_told("landed", "dropped"):
            post = self.front("waiting", slot, sender, entry)
            self.fates[post.name] = Fate(entry.reply.split()[0], entry.number)
            if post.kind != "llc":
                self.latest[int(slot)].landed[sender].append(post)
            if entry.is_told("landed") and post.kind != "write":
                getattr(self, "landed_" + post.kind)(post, peer(sender))

    def after_complete(self, entry, slot, sender):
        if entry.is_told("completed"):
            self.completed(self.front("landed", slot, sender, entry))

    def after_swallow(self, entry, slot, sender):
        if entry.is_told("completed"):
            post = self.front("waiting", slot, sender, entry)
            self.fates[post.name] = Fate("swallowed", entry.number)
            self.completed(post)

    def after_cut(self, entry, slot):
        if entry.reply == "done":
            self.down[int(slot)] = entry.number
            if link := self.latest.get(int(slot)):
                link.cut = link.cut or entry.number

    def after_heal(self, entry, slot):
        if entry.reply == "done":
            self.down.pop(int(slot), None)

    def after_report(self, entry, side, slot):
        if entry.is_told("done", "group ended"):
            if int(slot) not in self.latest:
                raise NoHistory(f"entry {entry.number} reports a link that was not made")
            self.report(self.latest[int(slot)], side)

    def after_call(self, entry, *words):
        """A call on an end."""
        end = self.ends.get(words[0]) if words else None
        if not end:
            return
        if entry.is_told("wrote"):
            end.wrote += int(entry.reply.split()[1])
        elif entry.is_told("data"):
            end.read += length(entry.reply.split()[1])
        elif entry.reply == "done" and entry.words[0] in ("finish", "close", "abort"):
            end.calls.setdefault(entry.words[0], entry.number)

    # -- the fabric

    def front(self, queue, slot, sender, entry):
        """Takes the post that comes next on a wire; a reply that names another is no history's."""
        link = self.latest.get(int(slot))
        posts = getattr(link, queue)[sender] if link else []
        told = entry.reply.split()[1]
        if not posts or told not in (posts[0].name, posts[0].fields.get("token")):
            raise NoHistory(f"entry {entry.number} names no post that comes next")
        return posts.pop(0)

    def make_link(self, name):
        group, slot, _ = (int(part) for part in name.split("."))
        link = Link(name, slot, self.count, cut=self.count if slot in self.down else 0)
        self.links.append(link)
        self.latest[slot] = link

    def named(self, name):
        """The link of a name, None before it was made."""
        return next((link for link in reversed(self.links) if link.name == name), None)

    def report(self, link, side):
        """A side holds a link for lost; where none is live there, its group ends."""
        link.reported[side] = self.count
        requests = self.outstanding[side]
        self.outstanding[side] = {k: post for k, post in requests.items() if post.link != link.name}
        self.leave_adding(link, side)
        if self.group[side] and not any(each.is_live(side) for each in self.latest.values()):
            self.end_group(side)

    def leave_adding(self, link, side):
        """What the report of a link makes of the adding of one."""
        adding = self.adding[side]
        if not adding:
            return
        is_new = adding.slot == link.slot
        if side == "A" and is_new or adding.post.fields["flow"] == "confirm link" and is_new:
            self.adding[side] = None
        elif adding.left and adding.post.link == link.name:
            self.adding[side] = None
        elif is_new:
            adding.left = True

    def end_group(self, side):
        group, self.group[side] = self.group[side], None
        group.ended = self.count
        self.old_groups.append((side, group))
        for link in self.latest.values():
            link.reported.setdefault(side, self.count)
        for lending in self.lent(side):
            lending.ended = self.count
        self.outstanding[side].clear()
        self.answers[side].clear()
        self.adding[side] = None

    # -- posts

    def posted_clc(self, post):
        self.streams.setdefault((post.socket, post.side), []).append(post)
        if post.fields["offer"]:
            group = int(post.fields["link"].split(".")[0])
            self.lend(Lending(post.side, post, group))
            if post.fields["contact"] == "first":
                self.group[post.side] = Group(group, post)
                if post.side == "A":
                    self.make_link(post.fields["link"])

    def posted_llc(self, post):
        self.join(post)
        flow, answer, side = post.fields["flow"], post.fields["answer"], post.side
        if not answer:
            self.outstanding[side][request(flow, post)] = post
            if self.adds(flow, side):
                left = self.adding[side].left if self.adding[side] else False
                self.adding[side] = Adding(post.about, post, left)
        elif flow == "confirm link":
            self.live(post, side)
        elif flow == "add link" and answer == "reply":
            self.accept_link(post)
        elif flow == "add keys" and self.adding[side]:
            self.adding[side].post = post

    def adds(self, flow, side):
        """Whether a request of B belongs to the adding of a link."""
        first = self.group[side] and self.group[side].first_contact
        return flow in ("add link", "add keys") or flow == "confirm link" and not first

    def accept_link(self, post):
        """A accepts a link: it is made, unless it stands and the reply is given again."""
        latest = self.latest.get(post.about)
        if not latest or latest.reported:
            incarnation = int(latest.name.split(".")[2]) + 1 if latest else 1
            self.make_link(f"{post.link.split('.')[0]}.{post.about}.{incarnation}")
        self.adding["A"] = Adding(post.about, post)

    def posted_cdc(self, post):
        self.join(post)
        if end := self.end_told_by(post):
            self.ends[f"{post.side}.{end.socket}"].posted.append(post)

    def posted_write(self, post):
        self.join(post)

    def join(self, post):
        """Puts a post behind those under way on its link."""
        link = self.named(post.link)
        if not link:
            raise NoHistory(f"post {post.name} is on a link that was not made")
        link.waiting[post.side].append(post)

    # -- landings

    def landed_llc(self, post, side):
        flow, answer = post.fields["flow"], post.fields["answer"]
        if answer:
            asked = self.outstanding[side].pop(request(flow, post), None)
            if asked and flow == "confirm link":
                self.live(post, side)
            if flow in KEY_FLOWS:
                self.answers[side][flow] = (post, self.count)
            self.answered(flow, answer, side)
        elif flow == "delete link":
            self.lose_link(post, side)

    def answered(self, flow, answer, side):
        """What an answer that landed makes of the adding of a link at B."""
        adding = self.adding[side]
        if side == "B" and adding and flow in ("add link", "add keys"):
            if adding.left or answer == "reject":
                self.adding[side] = None

    def live(self, post, side):
        """CONFIRM LINK came through at a side: the link is live there, and first contact is over."""
        link = self.named(post.link)
        if side not in link.reported:
            link.live.setdefault(side, self.count)
        group, adding = self.group[side], self.adding[side]
        if group and group.first_contact and group.begun.fields["link"] == post.link:
            group.first_contact = False
            self.ends[f"{side}.{group.begun.socket}"].established = self.count
        elif adding and adding.slot == post.about:
            self.adding[side] = None

    def lose_link(self, post, side):
        """DELETE LINK counts as a report where the link stands here and its sender reported it."""
        link = self.latest.get(post.about)
        if link and side not in link.reported and peer(side) in link.reported:
            self.report(link, side)

    def landed_cdc(self, post, side):
        if (end := self.end_told_by(post)) and "valid" not in post.flags:
            end.taken.append((post, self.count))
            if is_last(post):
                end.over.add("peer")
                self.close_over(end)

    def completed(self, post):
        if post.kind == "cdc" and "valid" not in post.flags and (told := self.end_told_by(post)):
            end = self.ends[f"{post.side}.{told.socket}"]
            end.completed.append((post, self.count))
            if is_last(post):
                end.over.add("own")
                self.close_over(end)

    # -- lendings and ends

    def close_over(self, end):
        if end.over == {"own", "peer"}:
            self.give_back(end)

    def give_back(self, end):
        lending = self.lending_of.get((end.side, end.socket))
        if lending and not lending.ended:
            lending.ended = self.count

    def lend(self, lending):
        self.lendings.append(lending)
        self.lending_of[lending.side, lending.token] = lending
        self.lending_of[lending.side, lending.socket] = lending

    def lent(self, side):
        """The elements of a side that are lent now."""
        return [each for each in self.lendings if each.side == side and not each.ended]

    def lending_ended(self, end):
        """The entry at which an end's element was given back, 0 where it was not."""
        lending = self.lending_of.get((end.side, end.socket))
        return lending.ended if lending else 0

    def end_told_by(self, post):
        """The end whose token a CDC message names."""
        side = peer(post.side)
        lending = self.lending_of.get((side, int(post.fields["token"])))
        return self.ends[f"{side}.{lending.socket}"] if lending else None

    def group_ended(self, side, number):
        """The entry at which a group ended at a side, 0 where it did not."""
        ended = [old.ended for where, old in self.old_groups if where == side and old.number == number]
        return ended[-1] if ended else 0

    def under_way(self):
        """The posts that have neither landed nor been lost, each with the entry that killed its link."""
        for link in self.links:
            for posts in link.waiting.values():
                yield from ((post, link.dead) for post in posts)


def is_last(post):
    return "closed" in post.flags or "abort" in post.flags


def request(flow, post):
    """Under which name a request is outstanding: by slot, or one of its kind alone."""
    if flow == "test link":
        return flow, post.slot
    return flow, post.about if flow in ("confirm link", "delete link") else 0


def length(text):
    """How many bytes `61*3,62` spells."""
    items = [] if text == "-" else text.split(",")
    return sum(int(item[3:] or 1) for item in items)


def facts_after(entries):
    facts = Facts()
    for entry in entries:
        facts.take(entry)
    return facts
