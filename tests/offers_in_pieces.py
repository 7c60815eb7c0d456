#!/usr/bin/env -S python3 -B
"""Gives nodes Offers in Pieces, in each order, repeated and mixed with others, and refuses each growth of memory on the way.

Usage: tests/offers_in_pieces.py PROGRAM [SEED] [COUNT], where PROGRAM is `play`.

A node runs a task until what it holds is spelled in more than 65,536 bytes, and leaves. What it sends has to be all Pieces of one Offer, in
their order. Their bytes are joined and cut anew here, and come to another node, its heir, in so many orders that dice choose (COUNT, 40
where it isn't said, by the word SEED): with parts that come again, parts of other hops, other senders and other counts beside them, and
rosters that show a sender dead. What the heir has to answer is said by a model of the rules in this file, which knows nothing of the
program. In the end the heir holds what it holds by the Pieces that were sent. Then each growth of memory is refused in turn that the last
two Pieces of an Offer meet: that has to be answered E63, and the same Piece then as ever. And one Offer has more than 100,000 frames: of its
Pieces, as they were sent and sent again, one in five is lost and one in five comes twice, in an order that the dice choose.

Beside these stand the two Offers next to the limit, with the sizes that they have to have: after 345 turns one packet goes, after 346 two
Pieces. These two are given to the heir twice each, in every order: it has to hold one live subcomputation then, to have sent one OfferAck as it
took the Offer, and one for each Piece behind that.

The last line counts; the status is 1 where anything failed.
"""
import itertools
import os
import random
import re
import sys
import tempfile
from concurrent.futures import ThreadPoolExecutor

import play_all
from common import Tally, module_in

PROGRAM = (
    "thread main(k, n) { if n < 1 { send_argument(k, 0); } else { spawn_next inc(k, ?x); spawn main(x, n - 1); } } "
    "thread inc(k, x) { send_argument(k, x + 1); }"
)
PART = 65_536
# So many turns are taken before the node leaves: that many frames wait for a value. The Offer of 346 is the first of two parts.
JOINS = (346, 700, 1_000)
MEMBERS = "2..3:live,4:live,5:live"
GRANT = "house:1/1"
# After so many turns one packet goes, of so many bytes; after one more two Pieces, of so many bytes each, with parts of so many.
OF_ONE, ONE = 345, 65_304
OF_TWO, TWO, PARTS = 346, [65_592, 186], [PART, 130]
# So many turns leave more than 100,000 frames: eight more each.
MANY_TURNS = 12_600
MANY_GRANT = "4/1"


def head(joins, number=2000):
    """The lines up to the node's departure, on an input, and those that start its heir."""
    return [
        f"program {PROGRAM}",
        f"input {number}",
        "job 7",
        "start 2",
        f"give 2 Roster epoch=1 version=1 members={MEMBERS} to=2 job=7",
        "ask 2 house",
        f"give 2 Grant seq=1 grant={GRANT} thread=0 at=- on={number} to=2 job=7",
        "brief",
        *["run 2"] * joins,
        "full",
        "start 3",
        f"give 3 Roster epoch=1 version=1 members={MEMBERS} to=3 job=7",
    ]


def offered(played, joins):
    """The lines up to a departure on the input 1000, the packets that go then, as the words of their lines, and the bytes of each in digits."""
    leaves = [*head(joins, 1000), "depart 2 3"]
    sent = [it.split(" ")[1:] for it in played(f"offered-{joins}", leaves) if re.match(r"> #\d+ (?:Offer|Piece) ", it)]
    spelled = played(f"spelled-{joins}", [*leaves, *(f"hex {it[0]}" for it in sent)])
    return leaves, sent, [it[2:] for it in spelled[len(spelled) - len(sent) :]]


def next_to_the_limit(tally, played):
    """The Offers on both sides of the limit: one packet, and two Pieces, twice each in every order."""
    _, sent, spelled = offered(played, OF_ONE)
    tally.tell([it[1] for it in sent] == ["Offer"], f"{OF_ONE} turns: {[it[1] for it in sent]}")
    tally.tell([len(it) // 2 for it in spelled] == [ONE], f"{OF_ONE} turns: {[len(it) // 2 for it in spelled]} bytes")
    leaves, sent, spelled = offered(played, OF_TWO)
    tally.tell([it[1] for it in sent] == ["Piece"] * 2, f"{OF_TWO} turns: {[it[1] for it in sent]}")
    tally.tell([len(it) // 2 for it in spelled] == TWO, f"{OF_TWO} turns: {[len(it) // 2 for it in spelled]} bytes")
    fields = [dict(word.split("=", 1) for word in it[2:]) for it in sent]
    parts = [(it["pieces"], it["number"], len(it["bytes"]) // 2) for it in fields]
    tally.tell(parts == [("2", "0", PARTS[0]), ("2", "1", PARTS[1])], f"{OF_TWO} turns: the Pieces are {parts}")
    # (each turn leaves one frame that waits, and the last one besides one that is ready)
    waiting = ",".join(str(2 * it + 1) for it in range(OF_TWO))
    held = f"> sub {GRANT} hop=1 state=active ready={2 * OF_TWO} waiting={waiting} open=-"
    for order in sorted({*itertools.permutations((0, 0, 1, 1))}):
        said = played(f"order-{order}", [*leaves, *(f"give 3 {sent[it][0]}" for it in order), "subs 3"])
        taken = next(at for at in range(4) if {*order[: at + 1]} == {0, 1})
        told = ["> nothing"] + ["> ignored"] * (taken - 1)
        told += (f"> #{int(sent[-1][0][1:]) + it} OfferAck from=3 grant={GRANT} hop=1 to=2 job=7" for it in range(1, 5 - taken))
        tally.tell(said[-5:] == [*told, held], f"the Pieces in the order {order}: {[it[:80] for it in said[-5:]]}")


def many_given(dice, sent):
    """Of the packets that were sent, those that come, in their order: one in five is lost, and one in five comes twice."""
    fates = [dice.choice((0, 1, 1, 1, 2)) for _ in sent]
    given = [number for number, fate in zip(range(len(sent)), fates) for _ in range(fate)]
    return dice.sample(given, len(given))


def many_frames(dice, played):
    """Whether an Offer of more than 100,000 frames is taken once, as it is where its Pieces come in order; and what is wrong with it."""
    bench = module_in("bench", "pieces")
    leaves = [*bench.BEGUN, *bench.built(1, MANY_TURNS, 10), "full", "depart 2 3", "resend 2", "start 3"]
    leaves.append(f"give 3 Roster epoch=1 version=1 {bench.MEMBERS} to=3 job=7")
    said = [it for it in played("many", leaves) if it.startswith("> #")]
    sent = [it for it in said if " Piece " in it]
    half = len(sent) // 2
    parts = [bytes.fromhex(re.search(r" bytes=([0-9a-f]*)", it).group(1)) for it in sent[:half]]
    names = [it.split()[1] for it in sent]
    if half < 2 or len(sent) != 2 * half:
        return False, f"{len(sent)} Pieces"
    whole = played("many-in-order", [*leaves, *(f"give 3 {it}" for it in names[:half]), "subs 3"])
    frames = sum(1 + numbers.count(",") for numbers in re.findall(r" (?:ready|waiting)=([0-9,]+)", whole[-1]))
    heir, given = Heir(b"".join(parts)), [*many_given(dice, parts), *(half + it for it in many_given(dice, parts)), *range(half)]
    told = [(heir.told(1, 2, half, it % half, parts[it % half]), 2) for it in given]
    got = played("many-given", [*leaves, *(f"give 3 {names[it]}" for it in given), "subs 3"])
    wanted = answers(told, len(said), MANY_GRANT) + whole[-1:]
    differs = next(((a[:80], b[:80]) for a, b in zip(got[-len(wanted) :], wanted) if a != b), None)
    return differs is None and frames > 100_000, f"{frames} frames, {differs}"


class Heir:
    """What the rules say of the heir, as far as Pieces of one grant go."""

    def __init__(self, offer):
        self.offer, self.seen, self.kept, self.version, self.dead = offer, None, None, 1, set()

    def told(self, hop, sender, pieces, number, part):
        """What is answered to a Piece: a word, or the hop that is acknowledged."""
        if self.seen is not None and hop <= self.seen:
            return hop
        if self.kept is None or hop > self.kept["hop"]:
            self.kept = {"hop": hop, "from": sender, "pieces": pieces, "parts": {number: part}}
            return "nothing"
        of = self.kept
        if hop < of["hop"] or sender != of["from"] or pieces != of["pieces"] or number in of["parts"]:
            return "ignored"
        of["parts"][number] = part
        if len(of["parts"]) < pieces:
            return "nothing"
        self.kept = None
        joined = b"".join(of["parts"][it] for it in sorted(of["parts"]))
        if joined != self.offer or (hop, sender) != (1, 2):
            return "ignored"
        self.seen = hop
        return hop

    def shows_dead(self, dead):
        """A newer roster comes, by which a worker is dead."""
        self.version += 1
        self.dead.add(dead)
        if self.kept and self.kept["from"] in self.dead:
            self.kept = None


def strange(dice, parts):
    """The fields of a Piece that is none of the Offer's: its hop, its sender, into how many parts it is cut, its number and its part."""
    hop, sender, pieces = dice.choice(((1, 4, parts), (1, 2, parts + 1), (1, 4, parts + 1), (2, 4, 2), (2, 5, parts)))
    number = dice.randrange(pieces)
    return hop, sender, pieces, number, b"\7" * (10 if number == pieces - 1 else PART)


def walk(dice, offer):
    """Lines for the heir, what it has to answer to each, and the heir behind them."""
    heir, lines, told = Heir(offer), [], []

    def comes(hop, sender, pieces, number, part):
        lines.append(f"give 3 Piece from={sender} grant={GRANT} hop={hop} pieces={pieces} number={number} bytes={part.hex()} to=3 job=7")
        told.append((heir.told(hop, sender, pieces, number, part), sender))

    def dies(dead):
        heir.shows_dead(dead)
        members = ",".join(f"{it}:{'dead' if it in heir.dead else 'live'}" for it in range(2, 6))
        lines.append(f"give 3 Roster epoch=1 version={heir.version} members={members} to=3 job=7")
        told.append(("nothing", dead))

    parts = (len(offer) + PART - 1) // PART
    often = dice.choice((0, 0, 0, 1, 2))
    # (each part comes once more in the end, so that mostly the Offer is taken)
    for number in dice.sample(list(range(parts)) * 2, 2 * parts) + dice.sample(range(parts), parts):
        for _ in range(dice.randrange(often + 1)):
            comes(*strange(dice, parts))
        if often and dice.randrange(3) == 0:
            dies(dice.choice((4, 5)))
        comes(1, 2, parts, number, offer[number * PART : (number + 1) * PART])
    return lines, told, heir


def answers(told, sent, grant=GRANT):
    """The lines that are wanted, where so many packets were sent before."""
    wanted = []
    for what, sender in told:
        if isinstance(what, int):
            sent += 1
            wanted.append(f"> #{sent} OfferAck from=3 grant={grant} hop={what} to={sender} job=7")
        else:
            wanted.append(f"> {what}")
    return wanted


def main(words):
    if not 1 <= len(words) <= 3:
        print(__doc__, file=sys.stderr)
        return 2
    program = os.path.realpath(words[0])
    word = words[1] if len(words) > 1 else "7"
    count = int(words[2]) if len(words) > 2 else 40
    tally = Tally()
    with tempfile.TemporaryDirectory(prefix="offers-in-pieces-") as folder, ThreadPoolExecutor(os.cpu_count()) as pool:

        def file_of(name, lines):
            path = f"{folder}/{name}"
            with open(path, "w", encoding="utf-8") as out:
                out.writelines(f"{it}\n" for it in lines)
            return path

        # what is offered, how many lines the head answers, and what the heir holds by the whole Offer
        offers = []
        for joins in JOINS:
            before = [*head(joins), "depart 2 3"]
            status, printed, fault = play_all.played(program, file_of(f"offer-{joins}", before))
            said = [it for it in printed.decode().split("\n") if it.startswith("> ")]
            sent = [it for it in said if " Piece " in it]
            parts = [bytes.fromhex(re.search(r" bytes=([0-9a-f]*)", it).group(1)) for it in sent]
            offer = b"".join(parts)
            good = (status, fault) == (0, b"") and len(offer) > PART and parts == [offer[it : it + PART] for it in range(0, len(offer), PART)]
            tally.tell(good, f"the Offer of {joins} frames: {status} {fault!r}, {len(offer)} bytes")
            lines = [*before, *(f"give 3 {it.split()[1]}" for it in sent), "subs 3"]
            status, printed, fault = play_all.played(program, file_of(f"taken-{joins}", lines))
            held = printed.decode().rstrip().split("\n")[-1]
            tally.tell((status, fault) == (0, b"") and held != "> nothing held", f"the Offer of {joins} frames is not taken: {status} {fault!r}")
            offers.append((joins, offer, len(said) - len(sent), held))
        tally.tell(len(offers[0][1]) == 65_666, f"the Offer of 346 frames has {len(offers[0][1])} bytes")

        def one(number):
            """Whether the lines of a walk are answered as they have to be, and what isn't."""
            joins, offer, said, held = offers[number % len(offers)]
            lines, told, heir = walk(random.Random(f"{word} {number}"), offer)
            status, printed, fault = play_all.played(program, file_of(f"walk-{number}", [*head(joins), *lines, "subs 3"]))
            got = [it for it in printed.decode().split("\n") if it.startswith("> ")][said:]
            wanted = answers(told, 3) + [held if heir.seen else "> nothing held"]
            differs = next((it for it in zip(got, wanted) if it[0] != it[1]), (len(got), len(wanted)))
            return (status, fault) == (0, b"") and got == wanted, f"walk {number}: {status} {fault!r} {differs}"

        for good, what in pool.map(one, range(count)):
            tally.tell(good, what)

        def played(name, lines):
            """What is answered to these lines."""
            status, printed, fault = play_all.played(program, file_of(name, lines))
            tally.tell((status, fault) == (0, b""), f"{name}: {status} {fault!r}")
            return [it for it in printed.decode().split("\n") if it.startswith("> ")]

        next_to_the_limit(tally, played)
        tally.tell(*many_frames(random.Random(word), played))
        heap = play_all.compiled(folder)
        joins, offer, said, held = offers[0]
        for order in ((0, 1), (1, 0)):
            given = [f"give 3 Piece from=2 grant={GRANT} hop=1 pieces=2 number={it} bytes={offer[it * PART:][:PART].hex()} to=3 job=7" for it in order]
            whole = file_of(f"whole-{order[0]}", head(joins) + given + ["subs 3"])
            first, last = (int(play_all.played(program, file_of(f"part-{order[0]}-{n}", head(joins) + given[:n]), heap)[2]) for n in (0, 2))
            status, wanted, fault = play_all.played(program, whole)
            refused = range(first + 1, last + 1)
            told = 0
            for at, (status, printed, fault) in zip(refused, pool.map(lambda it: play_all.played(program, whole, heap, it), refused)):
                good = (status, fault) in ((0, b""), (3, b"E9\n")) and play_all.is_right(wanted, status, printed, fault)
                told += printed.count(b"> E63\n")
                tally.tell(good, f"growth {at - first} of order {order}: {status} {fault!r}")
            tally.tell(told > 0, f"no growth of order {order} was answered E63")
    return tally.end()


if __name__ == "__main__":
    sys.exit(main(sys.argv[1:]))
