#!/usr/bin/env -S python3 -B
"""Gives packets that were changed to a node and to a clearinghouse in each of their states, and looks that none does what it may not.

Usage: tests/changed_packets.py [PLAY] [--count N] [--seed S] [--kind KIND], by default the built play, 10000 packets, a seed of its own and all
kinds.

The packets are those of a run with requests for work, a crash and a departure. Each is changed as a seed says: bits, bytes, its length, a
count, its front or its back. With --kind, as in `--kind Piece`, only those of that kind are changed; one Piece in fifty is then one with 65,536
bytes of an Offer, and two more nodes get them: one that keeps a part of the same Offer, and one that has taken it. Then

- what `decode` of the program reads is what a reader of this script's own reads, which is made of docs/FORMATS.md: the same packet, field by
  field, or the same number, E30 to E36;
- a node that joins, is a member, holds work, leaves or has ended, and a clearinghouse with and without outcome, refuse what is no packet
  with just that number, ignore what is of another job or for another one, and are then as before: what they hold, what is ready there,
  and all that they would send again;
- else they answer what the packet's kind allows, and the same packet once more fills nothing;
- a clearinghouse that is stopped answers E72 to all.

The last line counts; the status is 1 where anything failed.
"""
import argparse
import collections
import os
import random
import re
import subprocess
import sys
from concurrent.futures import ThreadPoolExecutor

from common import TOP

LIMIT = 600
# So many packets are given to one run of the program.
PART = 2500
FIB = (
    "thread main(k, n) { if n < 2 { send_argument(k, n); } else { spawn_next sum(k, ?x, ?y); spawn main(x, n - 1); spawn main(y, n - 2); } } "
    "thread sum(k, x, y) { send_argument(k, x + y); }"
)
JOB, NODE = 7, 4
# The address of the clearinghouse of any epoch, and the name of that of the first one.
ANY_HOUSE = 1 << 63
HOUSE = ANY_HOUSE + 1
MOST = 1_048_576
# A part of an offer has so many bytes, the last one at most so many.
PART_OF_OFFER = 65_536
# Where Pieces alone are changed, each of so many has a part of all those bytes.
LONG = 50


# What bytes say, by docs/FORMATS.md.

Packet = collections.namedtuple("Packet", "kind to job said words")


class Refused(Exception):
    """Bytes are no packet, for the reason of a number."""


class Fields:
    """The fields of a packet, taken from the front of its bytes; and of those that were taken, the words, and where counts of items and fields
    of eight bytes stand."""

    def __init__(self, content):
        self.content, self.at = content, 0
        self.said, self.counts, self.longs = {}, [], []

    def number(self, size):
        end = self.at + size
        if end > len(self.content):
            raise Refused(31)
        if size == 8:
            self.longs.append(self.at)
        value = int.from_bytes(self.content[self.at:end], "big")
        self.at = end
        return value

    def checked(self, size, is_right):
        value = self.number(size)
        if not is_right(value):
            raise Refused(35)
        return value

    def say(self, name, words):
        self.said[name] = words

    def signed(self):
        value = self.number(8)
        return value - (1 << 64) if value >> 63 else value

    def count(self, size, most):
        """A count of items, at most so many."""
        self.counts.append((self.at, size, most))
        return self.checked(size, lambda it: it <= most)

    def counted(self):
        return self.checked(8, lambda it: it >= 1)

    def worker(self):
        return self.checked(8, lambda it: 1 <= it < ANY_HOUSE)

    def other_worker(self, own):
        return self.checked(8, lambda it: 1 <= it < ANY_HOUSE and it != own)

    def actor(self):
        return self.checked(8, lambda it: it not in (0, ANY_HOUSE))

    def raised(self):
        return self.checked(4, lambda it: it >= 1)

    def below(self, bound):
        return self.checked(4, lambda it: it < bound)

    def grant(self):
        minter = self.actor()
        return minter, self.counted()

    def tag(self, most):
        return self.checked(1, lambda it: it <= most)

    def outcome(self):
        return self.outcome_of(self.checked(1, lambda it: it in (1, 2)))

    def outcome_of(self, tag):
        return str(self.signed()) if tag == 1 else "deep"

    def thread(self):
        return self.checked(1, lambda it: it < 64)

    def place(self):
        return ".".join(str(self.tag(8)) for _ in range(self.count(2, 1024))) or "-"

    def numbers(self):
        return ",".join(str(self.signed()) for _ in range(self.count(1, 8))) or "-"

    def slots(self):
        return ",".join(str(self.signed()) if self.tag(1) else "_" for _ in range(self.count(1, 8))) or "-"

    def goes_to(self, bound):
        if self.tag(1) == 0:
            return "whole"
        frame = self.below(bound)
        return f"{frame}.{self.tag(7)}"

    def task(self):
        place, thread, numbers = self.place(), self.thread(), self.numbers()
        return place, thread, numbers

    def part(self, is_last):
        """The bytes of a part of an offer; several that are all the same as one of them and how many there are."""
        self.counts.append((self.at, 4, PART_OF_OFFER))
        count = self.checked(4, lambda it: 1 <= it <= PART_OF_OFFER if is_last else it == PART_OF_OFFER)
        if self.at + count > len(self.content):
            raise Refused(31)
        part = self.content[self.at:self.at + count]
        self.at += count
        return f"{part[:1].hex()}*{count}" if count > 1 and len(set(part)) == 1 else part.hex()

    def members(self):
        shown, last = [], 0
        for _ in range(self.count(2, 4096)):
            last = self.checked(8, lambda it: last < it < ANY_HOUSE)
            tag = self.tag(2)
            shown.append(f"{last}:" + (f"left:{self.other_worker(last)}" if tag == 2 else ("live", "dead")[tag]))
        return ",".join(shown) or "-"

    def frames(self, most, bound):
        shown, last = [], -1
        for _ in range(self.count(4, most)):
            last = self.checked(4, lambda it: last < it < bound)
            place, thread, slots = self.place(), self.thread(), self.slots()
            shown.append(f" frame={last};{place};{thread};{slots};{self.goes_to(bound)}")
        return "".join(shown)

    def records(self, most, bound):
        shown, last = [], (0, 0)
        for _ in range(self.count(4, most)):
            grant = self.grant()
            if grant <= last:
                raise Refused(35)
            last = grant
            holder, frame = self.worker(), self.below(bound)
            place, thread, numbers = self.task()
            shown.append(f" record={grant_words(grant)};{holder};{frame};{place};{thread};{numbers};{self.goes_to(bound)}")
        return "".join(shown)

    def saved_place(self):
        """The steps of a place whose value is saved."""
        self.counts.append((self.at, 2, 23))
        count = self.checked(2, lambda it: 1 <= it <= 23)
        return [self.checked(1, lambda it, least=at == count: least <= it <= 8) for at in range(1, count + 1)]

    def saved_values(self):
        shown, last = [], []
        self.counts.append((self.at, 1, 64))
        for _ in range(self.checked(1, lambda it: 1 <= it <= 64)):
            place = self.saved_place()
            if (len(place), place) <= (len(last), last):
                raise Refused(35)
            last = place
            shown.append(f"{'.'.join(map(str, place))}:{self.signed()}")
        return ",".join(shown)

    def say_task(self):
        place, thread, numbers = self.task()
        self.say("thread", str(thread))
        self.say("at", place)
        self.say("on", numbers)


def actor_words(word):
    return f"house:{word - ANY_HOUSE}" if word > ANY_HOUSE else "house" if word == ANY_HOUSE else str(word)


def grant_words(grant):
    return f"{actor_words(grant[0])}/{grant[1]}"


def say_workers_count(name):
    def reads(it):
        it.say("from", str(it.worker()))
        it.say(name, str(it.counted()))

    return reads


def say_join(it):
    it.say("from", str(it.worker()))


def say_roster(it):
    it.say("epoch", str(it.checked(8, lambda number: 1 <= number < ANY_HOUSE)))
    it.say("version", str(it.counted()))
    it.say("members", it.members())


def say_grant(it):
    it.say("seq", str(it.counted()))
    it.say("grant", grant_words(it.grant()))
    it.say_task()


def say_refuse(it):
    it.say("seq", str(it.counted()))


def say_result(it):
    it.say("from", str(it.worker()))
    it.say("grant", grant_words(it.grant()))
    it.say("outcome", it.outcome())


def say_named(it):
    it.say("grant", grant_words(it.grant()))


def say_offer(it):
    it.say("from", str(it.worker()))
    it.say("grant", grant_words(it.grant()))
    it.say("hop", str(it.raised()))
    it.say("parent", actor_words(it.actor()))
    tag = it.tag(2)
    it.say("progress", it.outcome_of(tag) if tag else "active")
    it.say_task()
    bound = it.raised()
    most = 0 if tag else (1 << 32) - 1
    frames = it.frames(most, bound)
    it.say("next", f"{bound}{frames}{it.records(most, bound)}")


def say_offer_ack(it):
    it.say("from", str(it.worker()))
    it.say("grant", grant_words(it.grant()))
    it.say("hop", str(it.number(4)))


def say_leave(it):
    own = it.worker()
    it.say("from", str(own))
    it.say("heir", str(it.other_worker(own)))


def say_piece(it):
    it.say("from", str(it.worker()))
    it.say("grant", grant_words(it.grant()))
    it.say("hop", str(it.raised()))
    pieces = it.checked(2, lambda count: 2 <= count <= 16_384)
    it.say("pieces", str(pieces))
    number = it.checked(2, lambda number: number < pieces)
    it.say("number", str(number))
    it.say("bytes", it.part(number == pieces - 1))


def say_save(it):
    it.say("from", str(it.worker()))
    it.say("at", it.place())
    it.say("value", str(it.signed()))


def say_saved_grant(it):
    say_grant(it)
    it.say("saved", it.saved_values())


def is_any_house(to):
    return to == ANY_HOUSE


def is_house(to):
    return to > ANY_HOUSE


def is_worker(to):
    return 1 <= to < ANY_HOUSE


def is_actor(to):
    return to not in (0, ANY_HOUSE)


# The kinds from 1 on: their names, whom they go to, and their fields.
KINDS = (
    ("Join", is_any_house, say_join),
    ("Roster", is_worker, say_roster),
    ("Steal", is_actor, say_workers_count("seq")),
    ("Grant", is_worker, say_grant),
    ("Refuse", is_worker, say_refuse),
    ("Result", is_actor, say_result),
    ("ResultAck", is_worker, say_named),
    ("Offer", is_worker, say_offer),
    ("OfferAck", is_worker, say_offer_ack),
    ("Leave", is_house, say_leave),
    ("Abort", is_worker, say_named),
    ("Beat", is_house, say_workers_count("version")),
    ("Piece", is_worker, say_piece),
    ("Save", is_house, say_save),
    ("SavedGrant", is_worker, say_saved_grant),
)
# The versions of packets, and the kinds of each.
VERSIONS = {1: range(1, 13), 2: range(13, 16)}


def taken(it):
    """The packet that fields say, taken to their end."""
    if it.number(2) != 0x434E:
        raise Refused(32)
    version = it.number(1)
    if version not in VERSIONS:
        raise Refused(33)
    kind = it.number(1)
    if kind not in VERSIONS[version]:
        raise Refused(34)
    name, suits, say = KINDS[kind - 1]
    job, to = it.number(8), it.checked(8, suits)
    say(it)
    if it.at < len(it.content):
        raise Refused(36)
    words = " ".join([name, *(f"{name}={words}" for name, words in it.said.items()), f"to={actor_words(to)}", f"job={job}"])
    return Packet(name, to, job, it.said, words)


def read(content):
    """The packet of bytes, or the number with which they are refused."""
    if len(content) > MOST:
        return 30
    try:
        return taken(Fields(content))
    except Refused as refused:
        return refused.args[0]


# The run whose packets are changed.

ALL = "3:live,4:live,5:live,6:live,7:live,8:live"
HOUSES = [
    f"house program {FIB}",
    "house input 6",
    "house job 7",
]
NODES = [
    f"program {FIB}",
    "input 6",
    "job 7",
]
# A clearinghouse with six members, of which worker 3 has the root's grant.
OPENED = [
    "disk new",
    "store format 7",
    "house open 500",
    *(f"house hear Join from={worker} to=house job=7" for worker in range(3, 9)),
    "house hear Steal from=3 seq=1 to=house:1 job=7",
]
# Worker 4 joins, and asks worker 3 for work.
ASKING = [
    "start 4",
    f"give 4 Roster epoch=1 version=7 members={ALL} to=4 job=7",
    "ask 4 3",
]
# It holds two tasks of worker 3 and one of worker 5. Of the first one a frame is ready, and workers 5 and 6 have others; worker 7 has the
# second one's only frame; the third one is finished. It has asked worker 7.
HOLDING = [
    *ASKING,
    "give 4 Grant seq=1 grant=3/1 thread=0 at=2 on=4 to=4 job=7",
    "run 4",
    "give 4 Steal from=5 seq=1 to=4 job=7",
    "exec 4 3/1 2",
    "give 4 Steal from=6 seq=1 to=4 job=7",
    "ask 4 3",
    "give 4 Grant seq=2 grant=3/2 thread=0 at=1 on=5 to=4 job=7",
    "give 4 Steal from=7 seq=1 to=4 job=7",
    "ask 4 5",
    "give 4 Grant seq=3 grant=5/1 thread=0 at=2.2.2 on=0 to=4 job=7",
    "exec 4 5/1 0",
    "ask 4 7",
]
# It leaves to worker 8.
LEAVING = [
    *HOLDING,
    "give 4 Refuse seq=4 to=4 job=7",
    "depart 4 8",
]
# It is told that it is dead.
ENDED = [
    *HOLDING,
    "give 4 Roster epoch=1 version=8 members=3:live,4:dead,5:live,6:live,7:live,8:live to=4 job=7",
]
# Worker 7 offers it one of those grants in two Pieces, of which the first one came.
WITH_PART = [*HOLDING, f"give 4 Piece from=7 grant=5/1 hop=2 pieces=2 number=0 bytes=00*{PART_OF_OFFER} to=4 job=7"]
# It has nothing but what worker 3 left to it.
WITH_OFFER = [
    *ASKING,
    "give 4 Offer from=3 grant=house:1/1 hop=1 parent=house:1 progress=active thread=0 at=- on=6 next=1 frame=0;-;0;6;whole to=4 job=7",
]
# Worker 3 has the root's grant, worker 4 work of workers 3, 5 and 7, and others work of worker 4. Worker 6 crashes, workers 7 and 3 leave to
# worker 4, and that one to worker 8. At last a few packets that are told to worker 4 or to the clearinghouse in another turn of events.
RUN = [
    *NODES,
    *HOUSES,
    *OPENED[:3],
    *(line for it in range(3, 9) for line in (f"start {it}", f"house hear Join from={it} to=house job=7")),
    *(f"give {it} Roster epoch=1 version={it - 1} members={ALL[:7 * (it - 2) - 1]} to={it} job=7" for it in range(3, 9)),
    *(line for it in range(3, 9) for line in (f"resend {it}", f"house hear Beat from={it} version={it - 1} to=house:1 job=7")),
    *(f"give {it} Roster epoch=1 version=7 members={ALL} to={it} job=7" for it in range(3, 8)),
    "ask 3 house",
    "house hear Steal from=3 seq=1 to=house:1 job=7",
    "give 3 Grant seq=1 grant=house:1/1 thread=0 at=- on=6 to=3 job=7",
    "ask 8 house",
    "house hear Steal from=8 seq=1 to=house:1 job=7",
    "give 8 Refuse seq=1 to=8 job=7",
    "run 3",
    "ask 4 3",
    "give 3 Steal from 4",
    "give 4 Grant from 3",
    "run 4",
    "ask 5 4",
    "give 4 Steal from 5",
    "give 5 Grant from 4",
    "exec 4 3/1 2",
    "ask 6 4",
    "give 4 Steal from 6",
    "give 6 Grant from 4",
    "ask 4 3",
    "give 3 Steal from 4",
    "give 4 Grant from 3",
    "ask 7 4",
    "give 4 Steal from 7",
    "give 7 Grant from 4",
    "run 5",
    "ask 4 5",
    "give 5 Steal from 4",
    "give 4 Grant from 5",
    "exec 4 5/1 0",
    "ask 4 7",
    "give 5 Result from 4",
    "run 5",
    "run 5",
    "run 6",
    "crash 6",
    "ask 8 4",
    "house tick 400",
    *(f"house hear Beat from={it} version=7 to=house:1 job=7" for it in (3, 4, 5, 7, 8)),
    "house tick 600",
    "house hear Beat from=4 version=7 to=house:1 job=7",
    "give 4 Roster epoch=1 version=8 members=3:live,4:live,5:live,6:dead,7:live,8:live to=4 job=7",
    "run 7",
    "give 7 Steal from 4",
    "depart 7 4",
    "give 4 Offer from 7",
    "give 7 OfferAck from 4",
    "resend 7",
    "give 4 Grant from 7",
    "give 4 Grant from 7",
    "give 7 OfferAck from 4",
    "house hear Leave from=7 heir=4 to=house:1 job=7",
    "depart 3 4",
    "give 4 Offer from 3",
    "depart 4 8",
    "make Refuse seq=4 to=4 job=7",
    "make Refuse seq=1 to=4 job=7",
    "make ResultAck grant=5/1 to=4 job=7",
    "make Abort grant=3/1 to=4 job=7",
    "make Abort grant=3/2 to=4 job=7",
    *(f"make OfferAck from={it} grant=4/{it - 4} hop=0 to=4 job=7" for it in (5, 6, 7)),
    *(f"make OfferAck from=8 grant={it} hop=1 to=4 job=7" for it in ("3/1", "3/2", "5/1")),
    "make Piece from=7 grant=5/1 hop=2 pieces=2 number=1 bytes=000102 to=4 job=7",
    "make Piece from=3 grant=house:1/1 hop=1 pieces=16384 number=16383 bytes=ff*9 to=4 job=7",
    "make SavedGrant seq=4 grant=7/9 thread=0 at=2 on=3 saved=2.1:1,2.2:-1 to=4 job=7",
    "make SavedGrant seq=2 grant=3/2 thread=0 at=1 on=5 saved=1.2:1,1.0.1:2,1.1.2:3 to=4 job=7",
    "make Save from=4 at=2.1 value=5 to=house:1 job=7",
    "make Result from=7 grant=4/3 outcome=5 to=4 job=7",
    "make Result from=3 grant=house:1/1 outcome=8 to=house:1 job=7",
    "house hear Result from=3 grant=house:1/1 outcome=8 to=house:1 job=7",
    "make Steal from=5 seq=1 to=house:1 job=7",
    "make Join from=9 to=house job=7",
    "make Leave from=3 heir=8 to=house:1 job=7",
]


# How packets are changed. Each change is drawn, of the bytes of a packet and of all packets.


def flipped(draw, content, _others):
    """One to three bits are others."""
    changed = bytearray(content)
    for bit in draw.sample(range(8 * len(content)), draw.randint(1, 3)):
        changed[bit // 8] ^= 1 << bit % 8
    return bytes(changed)


def cut(draw, content, _others):
    return content[:draw.randrange(len(content))]


def longer(draw, content, _others):
    return content + draw.choice((bytes, draw.randbytes))(draw.randint(1, 16))


def fields_in(content):
    it = Fields(content)
    taken(it)
    return it


def fields_of_eight(content):
    """Where the fields of eight bytes stand behind the header."""
    return [at for at in fields_in(content).longs if at >= 20]


def raised(draw, content, others):
    """A count of items is another one, a greater one for the most part."""
    counts = fields_in(content).counts
    if not counts:
        return filled(draw, content, others)
    at, size, most = draw.choice(counts)
    count = int.from_bytes(content[at:at + size], "big")
    greatest = (1 << 8 * size) - 1
    other = draw.choice((count + 1, draw.randint(0, 9), min(most, greatest), min(most + 1, greatest), greatest))
    return content[:at] + other.to_bytes(size, "big") + content[at + size:]


def spliced(draw, content, others):
    """The front of one packet, and the back of another one."""
    other = draw.choice(others)
    at = draw.randrange(20, len(content))
    return content[:at] + other[draw.choice((min(at, len(other)), draw.randrange(20, len(other)))):]


def filled(draw, content, _others):
    """One to eight bytes in a row are 00, 01 or ff."""
    at = draw.randrange(len(content))
    length = min(draw.choice((1, 1, 2, 4, 8)), len(content) - at)
    return content[:at] + bytes([draw.choice((0x00, 0x01, 0xFF))]) * length + content[at + length:]


def renamed(draw, content, others):
    """The front of a packet of another kind, its version and its kind, or its kind alone, stands before the fields."""
    other = draw.choice([it for it in others if it[3] != content[3]])
    return draw.choice((other[:20], content[:2] + other[2:4] + content[4:20], content[:3] + other[3:4] + content[4:20])) + content[20:]


def sent_elsewhere(draw, content, others):
    """Another job, or another address that suits the kind."""
    if draw.random() < 0.5:
        return content[:4] + draw.choice((0, 1, 6, 8, 1 << 56, (1 << 64) - 1)).to_bytes(8, "big") + content[12:]
    words = [it[12:20] for it in others if it[3] == content[3]] + [(HOUSE + 1).to_bytes(8, "big"), (NODE + 1).to_bytes(8, "big")]
    return content[:12] + draw.choice(words) + content[20:]


def exchanged(draw, content, others):
    """A field of eight bytes has what another one has, of this packet or another one."""
    at, other = draw.choice(fields_of_eight(content)), draw.choice(others)
    from_there = draw.choice(fields_of_eight(other))
    return content[:at] + other[from_there:from_there + 8] + content[at + 8:]


SORTS = (flipped, cut, longer, raised, spliced, filled, renamed, sent_elsewhere, exchanged)


def whole_part(piece):
    """The first Piece of the same Offer, with as many bytes as it has to have."""
    return piece[:50] + bytes(2) + PART_OF_OFFER.to_bytes(4, "big") + piece[-1:] * PART_OF_OFFER


def changed_by(draw, sort, content, packets):
    """The name of a change and what it makes of a packet. One that makes nothing else of it gives way to another one."""
    for _ in range(20):
        changed = sort(draw, content, packets)
        if changed != content:
            return sort.__name__, changed
    return flipped.__name__, flipped(draw, content, packets)


def changed_packets(seed, count, packets, kind=None):
    """So many changed packets, each with the name of its change: by turns of each sort, of a kind that is drawn, or of the one that is named.
    The last two have as many bytes as a packet may have, and one more."""
    draw = random.Random(seed)
    kinds = [number for number, (name, _, _) in enumerate(KINDS, 1) if kind in (None, name)]
    # (most are for who is to get them)
    near = [it for it in packets if int.from_bytes(it[12:20], "big") in (NODE, HOUSE, ANY_HOUSE) and it[3] in kinds]
    of_kind = [[it for it in packets + 4 * near if it[3] == number] for number in kinds]

    def chosen(index):
        long = whole_part(draw.choice(near)) if kind == "Piece" and index % LONG == 0 else None
        return long or draw.choice(draw.choice(of_kind))

    drawn = [changed_by(draw, SORTS[index % len(SORTS)], chosen(index), packets) for index in range(count - 2)]
    whole = draw.choice(near)
    return drawn + [("too_long", whole + bytes(length - len(whole))) for length in (MOST, MOST + 1)]


# Playing.


def played(program, lines):
    """What the program `play` answers to each line: the lines behind it, without the numbers of packets."""
    text = "".join(f"{line}\n" for line in lines)
    how = {"stdout": subprocess.PIPE, "stderr": subprocess.PIPE, "timeout": LIMIT, "close_fds": False}
    done = subprocess.run([program], input=text.encode(), **how)
    if done.returncode or done.stderr:
        raise SystemExit(f"play ends with {done.returncode}: {done.stderr.decode(errors='replace')}")
    answers = []
    for line in done.stdout.decode().split("\n")[:-1]:
        if line.startswith("> "):
            answers[-1].append(re.sub(r"^#\d+ ", "", line[2:]))
        else:
            answers.append([])
    if len(answers) != len(lines):
        raise SystemExit(f"play answers to {len(answers)} of {len(lines)} lines")
    return answers


def packets_of_the_run(program):
    """The bytes of all packets of the run, each once, in their order."""
    asked = [f"{words} #{number}" for words in ("hex", "house hex") for number in range(1, 200)]
    answers = played(program, RUN + asked)
    faulty = [f"{line}: {it}" for line, answer in zip(RUN, answers) for it in answer if re.match(r"E\d|\?|malformed|ignored|no packet", it)]
    packets = list(dict.fromkeys(bytes.fromhex(it[0]) for it in answers[len(RUN):] if it != ["malformed"]))
    said = [read(it) for it in packets]
    faulty += [f"{it.hex()} is read as {found}" for it, found in zip(packets, said) if isinstance(found, int)]
    if not faulty:
        words = {it.words for it in said}
        faulty += [f"no {name} is sent" for name, _, _ in KINDS if not any(it.kind == name for it in said)]
        faulty += [f"{line}: no such packet is sent" for line in HOLDING if line.startswith("give ") and line.split(" ", 2)[2] not in words]
    if faulty:
        raise SystemExit("\n".join(["the run isn't as it was to be:", *faulty]))
    return packets


# Who gets the packets, and what they may answer.

# What a node may send, by where it stands and by the kind of the packet; it ignores what isn't here.
NODE_SENDS = {
    "joining": {"Roster": set()},
    "member": {
        "Roster": {"Abort"},
        "Steal": {"Grant", "Refuse"},
        "Grant": {"OfferAck"},
        "SavedGrant": {"OfferAck"},
        "Refuse": set(),
        "Result": {"ResultAck", "Abort", "Result", "Save"},
        "ResultAck": set(),
        "Offer": {"OfferAck", "Abort"},
        "Piece": {"OfferAck"},
        "Abort": {"Abort"},
    },
    "leaving": {"Roster": set(), "Steal": {"Grant", "Refuse"}, "Grant": {"OfferAck"}, "SavedGrant": {"OfferAck"}, "Offer": {"OfferAck"}, "OfferAck": {"Leave"}, "Piece": {"OfferAck"}},
    "ended": {},
}
# The same of a clearinghouse.
HOUSE_SENDS = {"Save": set(), "Join": {"Roster"}, "Steal": {"Grant", "Refuse"}, "Result": {"ResultAck"}, "Leave": {"Roster", "Abort"}, "Beat": {"Roster"}}
# What is answered first, unless a packet is ignored; and the kinds at which nothing may be answered.
FIRST = {
    "Steal": {"Grant", "Refuse"},
    "Grant": {"OfferAck"},
    "SavedGrant": {"OfferAck"},
    "Result": {"ResultAck"},
    "Offer": {"OfferAck"},
    "Piece": {"OfferAck"},
    "Join": {"Roster"},
    "Leave": {"Roster"},
    "Beat": {"Roster"},
}
QUIET = {"Roster", "Grant", "SavedGrant", "Save", "Refuse", "ResultAck", "OfferAck", "Abort", "Beat", "Piece"}

# Somebody who gets packets: the lines that make it, once and each time anew, that show it, and that end it; the words before a packet's bytes;
# which packets are its own; what it may send.
Receiver = collections.namedtuple("Receiver", "name first lines view end hear is_own sends")


def is_of_node(packet):
    return packet.job == JOB and packet.to == NODE


def is_of_house(packet):
    return packet.job == JOB and (packet.to in (HOUSE, ANY_HOUSE) or packet.kind == "Beat")


def is_of_nobody(_packet):
    return False


def node(name, state, lines):
    view = [f"subs {NODE}", f"ready {NODE}", f"resend {NODE}"]
    return Receiver(name, NODES, lines, view, [f"crash {NODE}"], f"give {NODE} bytes ", is_of_node, NODE_SENDS[state])


def house(name, lines, is_own=is_of_house):
    # (a Beat of another epoch is told who is listed, a request that comes again gets its answer again; both change nothing)
    view = ["house outcome", "house hear Beat from=9 version=1 to=house:2 job=7", "house hear Steal from=3 seq=1 to=house:1 job=7"]
    return Receiver(name, HOUSES, lines, view, ["house close", f"store open {JOB}"], "house hear bytes ", is_own, HOUSE_SENDS)


TOLD = "house hear Result from=3 grant=house:1/1 outcome=8 to=house:1 job=7"
STOPPED = "a stopped clearinghouse"
RECEIVERS = [
    node("a joining node", "joining", ["start 4"]),
    node("a member with nothing", "member", ASKING),
    node("a member with work", "member", HOLDING),
    node("a leaving node", "leaving", LEAVING),
    node("an ended node", "ended", ENDED),
    house("a clearinghouse", OPENED),
    house("a clearinghouse with an outcome", [*OPENED, TOLD]),
    # (the first call of the device behind the seven of its opening fails)
    house(STOPPED, [*OPENED[:2], "disk fails 7 -", *OPENED[2:], TOLD], is_of_nobody),
]
# Who gets Pieces besides.
OF_PIECES = [node("a member with a part", "member", WITH_PART), node("a member with an Offer", "member", WITH_OFFER)]


def fields_of(words):
    return dict(it.split("=", 1) for it in words.split(" ")[1:])


def fault_of_sent(packet, sent, sends):
    """What is wrong with packets that are sent for one."""
    for words in sent:
        kind = words.split(" ", 1)[0]
        if kind not in sends[packet.kind] or fields_of(words)["job"] != str(JOB):
            return f"{words} is sent"
    if packet.kind in FIRST:
        first, said = fields_of(sent[0]), packet.said
        whom = said["from"] if "from" in said else said["grant"].split("/")[0]
        if sent[0].split(" ", 1)[0] not in FIRST[packet.kind] or first["to"] != whom:
            return f"{sent[0]} comes first"
        # (a request's grant is the answer's alone)
        if any(first[name] != said[name] for name in ("seq", "grant", "hop") if name in first and name in said):
            return f"{sent[0]} is of something else"
    return None


def fault_of_answer(packet, answer, sends):
    """What is wrong with an answer to a packet of one's own."""
    if answer == ["ignored"]:
        return None
    if packet.kind not in sends or (answer == ["nothing"] and packet.kind not in QUIET):
        return "it may not be answered so"
    if answer == ["nothing"]:
        return None
    fills = [it for it in answer if it.startswith("fill ")]
    sent = [it for it in answer if not it.startswith("fill ")]
    if fills and (packet.kind != "Result" or len(fills) > 1 or fills[0].split(" ")[-1] != packet.said["outcome"]):
        return "it fills"
    if not sent or not all(it.split(" ", 1)[0] in {name for name, _, _ in KINDS} for it in sent):
        return "it is no answer"
    return fault_of_sent(packet, sent, sends)


def outcome_after(packet, before):
    """What a clearinghouse with the root's grant out has to tell of the outcome behind a packet of its own."""
    is_told = packet.kind == "Result" and packet.said["grant"] == "house:1/1" and before == ["outcome none"]
    return [f"outcome {packet.said['outcome']}"] if is_told else before


def fault_at(receiver, found, before, answer, after):
    """What is wrong with an answer to bytes that are read so, and with what is shown then."""
    if receiver.name == STOPPED:
        wanted = ["E72"]
    elif isinstance(found, int):
        wanted = [f"E{found}"]
    elif not receiver.is_own(found):
        wanted = ["ignored"]
    else:
        fault = fault_of_answer(found, answer, receiver.sends)
        if fault is None and answer == ["ignored"] and after != before:
            fault = "it is ignored and changes something"
        if fault is None and receiver.sends is HOUSE_SENDS and after[0] != outcome_after(found, before[0]):
            fault = "it has another outcome"
        return fault
    if answer != wanted:
        return f"{', '.join(wanted)} is wanted"
    return None if after == before else "it changes something"


def stored_outcome(record):
    """The outcome in a checkpoint's record, as a clearinghouse tells it; the number where there is none."""
    return [f"outcome {fields_of(record)['outcome']}"] if record.startswith("record ") else record


def faults_at(program, receiver, drawn):
    """What is wrong where all packets are given to somebody, and how often it answered what."""
    lines = [*receiver.first, *receiver.lines, *receiver.view]
    begin = len(lines) - len(receiver.view)
    for _, content, found in drawn:
        lines += [receiver.hear + (content.hex() or "-"), *receiver.view]
        if isinstance(found, Packet) and receiver.is_own(found):
            lines += [lines[-1 - len(receiver.view)], *receiver.end, *receiver.lines, *receiver.view]
    answers = iter(played(program, lines))
    for _ in range(begin):
        next(answers)

    def next_view():
        return [next(answers) for _ in receiver.view]

    first, counts, faults = next_view(), collections.Counter(), []
    for sort, content, found in drawn:
        answer, after = next(answers), next_view()
        fault = fault_at(receiver, found, first, answer, after)
        counts["ignored" if answer == ["ignored"] else "refused" if re.fullmatch(r"E\d+", answer[0]) else "answered"] += 1
        if isinstance(found, Packet) and receiver.is_own(found):
            again = next(answers)
            ended = [next(answers) for _ in receiver.end]
            for _ in receiver.lines:
                next(answers)
            if fault is None and any(it.startswith("fill ") for it in again):
                fault = f"it fills once more: {again}"
            if fault is None and receiver.sends is HOUSE_SENDS and stored_outcome(ended[-1][0]) != after[0]:
                fault = f"the checkpoint is {ended[-1][0]}"
            if next_view() != first:
                raise SystemExit(f"{receiver.name} isn't made anew as it was")
        if fault is not None:
            faults.append((content, f"{receiver.name}, {sort}: {fault}: {answer} is answered to {found}, behind it {after}"))
    return faults, counts


def faults_of_reading(program, drawn):
    """Where the program reads other packets, or refuses bytes with other numbers."""
    answers = played(program, [f"decode {content.hex() or '-'}" for _, content, _ in drawn])
    wanted = [[f"E{found}" if isinstance(found, int) else found.words] for _, _, found in drawn]
    return [(it[1], f"{it[0]}: {answer} is read, and not {want}") for it, answer, want in zip(drawn, answers, wanted) if answer != want]


def told(counts):
    return ", ".join(f"{count} {name}" for name, count in sorted(counts.items()))


def main():
    words = argparse.ArgumentParser()
    words.add_argument("play", nargs="?", default=f"{TOP}/crates/play/out/play")
    words.add_argument("--count", type=int, default=10_000)
    words.add_argument("--seed", type=int, default=random.SystemRandom().getrandbits(32))
    words.add_argument("--kind", choices=[name for name, _, _ in KINDS])
    words = words.parse_args()
    receivers = RECEIVERS + (OF_PIECES if words.kind == "Piece" else [])
    print(f"seed {words.seed}")
    program = os.path.realpath(words.play)
    drawn = changed_packets(words.seed, words.count, packets_of_the_run(program), words.kind)
    drawn = [(sort, content, read(content)) for sort, content in drawn]
    print(f"{len(drawn)} packets: {told(collections.Counter(sort for sort, _, _ in drawn))}")
    print(f"read: {told(collections.Counter(f'E{it}' if isinstance(it, int) else it.kind for _, _, it in drawn))}")
    parts = [drawn[at:at + PART] for at in range(0, len(drawn), PART)]
    with ThreadPoolExecutor(os.cpu_count()) as pool:
        reading = [pool.submit(faults_of_reading, program, part) for part in parts]
        given = [(it, [pool.submit(faults_at, program, it, part) for part in parts]) for it in receivers]
        faults = [fault for it in reading for fault in it.result()]
        for receiver, tasks in given:
            done = [it.result() for it in tasks]
            faults += [fault for found, _ in done for fault in found]
            print(f"{receiver.name}: {told(sum((counts for _, counts in done), collections.Counter()))}")
    for content, fault in faults[:1]:
        print(f"{content.hex()}\n{fault}", file=sys.stderr)
    tried = len(drawn) * (1 + len(receivers))
    print(f"{tried - len(faults)} passed, {len(faults)} failed")
    return 1 if faults else 0


if __name__ == "__main__":
    sys.exit(main())
