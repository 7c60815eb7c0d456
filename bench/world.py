"""Times of replays of random scripts, by how many events they have; see bench/world. The scripts are made by a seed. A model of
packets and frames (no values) follows what the nodes and the clearinghouse do, so that most events find what they name; where it
counts other packets than the replay, that is told. Where rustc is there, a plain Rust program replays each script beside it; where
that one prints other lines, that is told."""
import copy
import os
import random
import resource
import shutil
import subprocess
import sys
import tempfile

# How many events a script has, and how often each program replays it.
EVENTS = (1_000, 10_000, 100_000)
TRIES = 3
INPUT = 25
PLAIN = os.path.join(os.path.dirname(os.path.abspath(__file__)), "plain", "world.rs")
STARTS = (500, 1_000, 2_000, 4_000)
PLACES = 16
HOUSE = 2**63
RECENT = 40
# The most steps of a place whose value is handed to the clearinghouse to be saved.
MOST_SAVED_STEPS = 23


class Sub:
    """The subcomputation of a task on n: its frames, as (n or None for a sum, level, the frame that waits for it)."""

    def __init__(self, n, level, host):
        self.frames, self.need, self.next, self.level, self.host = {0: (n, level, None)}, {}, 1, level, host
        self.ready, self.records, self.over, self.hop = [0], {}, False, 0

    def fill(self, frame):
        if frame is None:
            self.over = True
            return
        self.need[frame] -= 1
        if self.need[frame] == 0:
            self.ready.append(frame)

    def turn(self, frame):
        n, level, to = self.frames.pop(frame)
        self.ready.remove(frame)
        if n is None or n < 2:
            self.fill(to)
            return
        first, self.next = self.next, self.next + 3
        self.frames.update({first: (None, level, to), first + 1: (n - 1, level + 1, first), first + 2: (n - 2, level + 1, first)})
        self.need[first] = 2
        self.ready += [first + 1, first + 2]


class Node:
    def __init__(self, word):
        self.word, self.roster, self.pending, self.asked, self.minted, self.gone = word, None, None, 0, 0, False
        self.subs, self.replies, self.seen, self.confirmed = {}, {}, {}, set()

    def is_live(self, word):
        return self.roster and self.roster[1].get(word) is True

    def awaited(self):
        """The thieves that haven't confirmed their grants, with these."""
        given = [(a[1], a[2][2]) for _, a in self.replies.values() if a[0] == "Grant" and self.is_live(a[1])]
        return [it for it in given if it not in self.confirmed]


def bearer(live, word):
    """Who has a worker's work: itself, the end of a chain of heirs, or nobody."""
    for _ in range(len(live) + 1):
        status = live.get(word, True)
        if status is True:
            return word
        if status is False:
            return None
        word = status
    return None


class Model:
    """What is sent, as (kind, to, what), by number; the nodes by place; the clearinghouse's members, and when they were heard."""

    def __init__(self, seed):
        self.dice, self.net, self.at, self.todo, self.lines = random.Random(seed), {}, 0, [], ["house-restart"]
        self.nodes, self.words, self.live, self.heard, self.version = {}, 0, {}, {}, 1
        self.moment, self.root, self.minted, self.replies = 0, None, 0, {}

    def send(self, *packet):
        self.net[self.at] = packet
        self.todo.append(self.at)
        self.at += 1

    def result(self, node, grant):
        sub = node.subs[grant]
        if sub.over:
            self.send("Result", sub.host, (node.word, grant))

    def roster(self, word):
        self.send("Roster", word, (self.version, dict(self.live)))

    # at the clearinghouse
    def to_house(self, i):
        self.lines.append(f"house-deliver {i}")
        kind, to, what = self.net.get(i, ("", 0, None))
        if to < HOUSE:
            return
        if kind == "Join":
            if what not in self.live:
                self.live[what], self.version = True, self.version + 1
            self.heard[what] = self.moment
            self.roster(what)
        elif kind == "Steal" and self.live.get(what[0]) is True:
            self.serve_root(*what)
        elif kind == "Beat" and what[0] in self.live:
            self.heard[what[0]] = self.moment
            if what[1] < self.version:
                self.roster(what[0])
        elif kind == "Result":
            self.send("ResultAck", what[0], what[1])
        elif kind == "Leave" and what[0] in self.live:
            self.leave(*what)

    def leave(self, word, heir):
        if self.live[word] is True:
            to = bearer(self.live, heir)
            self.live[word] = to if to not in (None, word) and self.live.get(to) is True else False
            self.version += 1
        self.roster(word)
        self.settle()

    def settle(self):
        if self.root:
            holder = bearer(self.live, self.root)
            if holder is None:
                self.send("Abort", self.root, (HOUSE + 1, self.minted))
            self.root = holder

    def wants_root(self):
        """Whether the root is granted to who asks next."""
        return self.root is None

    def root_task(self):
        return INPUT

    def serve_root(self, thief, seq):
        last, answer = self.replies.get(thief, (0, None))
        if seq < last:
            return
        if seq > last:
            answer = ("Refuse", thief, seq)
            if self.wants_root():
                self.minted, self.root = self.minted + 1, thief
                answer = ("Grant", thief, (seq, HOUSE + 1, (HOUSE + 1, self.minted), self.root_task(), 0))
            self.replies[thief] = (seq, answer)
        self.send(*answer)

    def tick(self, step):
        self.moment += step
        self.lines.append(f"house-tick {self.moment}")
        lost = [it for it, live in self.live.items() if live is True and self.moment - self.heard[it] > 500]
        for it in lost:
            self.live[it] = False
        self.version += bool(lost)
        self.settle()

    # at a node
    def start(self, place):
        self.words += 1
        self.lines.append(f"start {place} {self.words}")
        if place not in self.nodes:
            self.nodes[place] = Node(self.words)
            self.send("Join", HOUSE, self.words)

    def crash(self, place):
        self.lines.append(f"crash {place}")
        self.nodes.pop(place, None)

    def depart(self, place, heir):
        self.lines.append(f"depart {place} {heir}")
        node = self.nodes[place]
        if node.is_live(heir) and not node.pending and heir != node.word and not node.gone:
            node.gone = heir
            self.offers(node)
            self.leaves(node)

    def offers(self, node):
        for grant in sorted(node.subs):
            sub = copy.deepcopy(node.subs[grant])
            sub.hop += 1
            self.send("Offer", node.gone, (node.word, grant, sub))

    def leaves(self, node):
        if not node.subs and not node.awaited():
            self.send("Leave", HOUSE + 1, (node.word, node.gone))

    def ask(self, place, victim):
        self.lines.append(f"ask {place} {'house' if victim is None else victim}")
        node = self.nodes[place]
        if node.roster and not node.pending and not node.gone and (victim is None or node.is_live(victim) and victim != node.word):
            node.asked += 1
            node.pending = (node.asked, HOUSE + 1 if victim is None else victim)
            self.send("Steal", node.pending[1], (node.word, node.asked))

    def resend(self, place):
        self.lines.append(f"resend {place}")
        node = self.nodes[place]
        if node.gone is True:
            return
        if not node.roster:
            self.send("Join", HOUSE, node.word)
            return
        self.send("Beat", HOUSE + 1, (node.word, node.roster[0]))
        if node.gone:
            self.offers(node)
            for thief, grant in sorted(node.awaited(), key=lambda it: it[1]):
                self.send(*node.replies[thief][1])
            self.leaves(node)
            return
        if node.pending:
            self.send("Steal", node.pending[1], (node.word, node.pending[0]))
        for grant in sorted(node.subs):
            self.result(node, grant)

    def turn(self, place):
        node = self.nodes[place]
        ready = [(sub.frames[f][1], g, f) for g, sub in node.subs.items() for f in sub.ready]
        if not ready:
            self.ask(place, self.dice.choice([None, self.dice.randint(1, self.words)]))
            return
        _, grant, frame = max(ready)
        self.lines.append(f"exec {place} {grant[0]} {grant[1]} {frame}")
        if not node.gone:
            node.subs[grant].turn(frame)
            self.result(node, grant)

    def deliver(self, place, i):
        self.lines.append(f"deliver {place} {i}")
        node, (kind, to, what) = self.nodes.get(place), self.net.get(i, ("", 0, None))
        if node and to == node.word and node.gone is not True and (kind == "Roster" or node.roster):
            getattr(self, "on_" + kind.lower(), lambda node, what: None)(node, what)

    def on_roster(self, node, what):
        if node.roster and what[0] <= node.roster[0]:
            return
        node.roster = what
        if what[1].get(node.word) is not True or node.gone and node.subs and not node.is_live(node.gone):
            node.roster, node.subs, node.gone = None, {}, True
            return
        if node.gone:
            return
        self.recover(node, what[1], sorted(node.subs))
        if node.pending and what[1].get(node.pending[1], True) is not True:
            node.pending = None

    def recover(self, node, live, grants):
        for grant in grants:
            node.subs[grant].host = bearer(live, node.subs[grant].host)
            if node.subs[grant].host is None:
                self.on_abort(node, grant)
        records = [(given, sub) for grant in grants if grant in node.subs for sub in [node.subs[grant]] for given in sub.records]
        for given, sub in sorted(records, key=lambda it: it[0]):
            holder, frame, held = sub.records[given]
            to = bearer(live, holder)
            sub.records[given] = (to, frame, held)
            if to is None:
                del sub.records[given]
                sub.frames[frame] = held
                sub.ready.append(frame)
                self.send("Abort", holder, given)

    def on_abort(self, node, grant):
        if grant in node.subs and not node.gone:
            for given, (holder, _, _) in sorted(node.subs.pop(grant).records.items()):
                self.send("Abort", holder, given)

    def on_offer(self, node, what):
        word, grant, sub = what
        if sub.hop > node.seen.get(grant, -1):
            if node.gone or grant in node.subs:
                return
            node.seen[grant] = sub.hop
            node.subs[grant] = copy.deepcopy(sub)
            self.send("OfferAck", word, (node.word, grant, sub.hop))
            self.recover(node, node.roster[1], [grant])
        else:
            self.send("OfferAck", word, (node.word, grant, sub.hop))

    def on_offerack(self, node, what):
        word, grant, hop = what
        if not node.gone:
            return
        if grant in node.subs and hop == node.subs[grant].hop + 1 and word == node.gone:
            del node.subs[grant]
        elif hop == 0 and (word, grant) in node.awaited():
            node.confirmed.add((word, grant))
        else:
            return
        self.leaves(node)

    def on_steal(self, node, what):
        thief, seq = what
        last, answer = node.replies.get(thief, (0, None))
        if not node.is_live(thief) or seq < last:
            return
        if seq > last:
            answer = ("Refuse", thief, seq)
            ready = [] if node.gone else [(-sub.frames[f][1], g, f) for g, sub in node.subs.items() for f in sub.ready]
            if ready:
                _, grant, frame = max(ready)
                sub, node.minted = node.subs[grant], node.minted + 1
                held, given = sub.frames.pop(frame), (node.word, node.minted)
                sub.ready.remove(frame)
                sub.records[given] = (thief, frame, held)
                answer = ("Grant", thief, (seq, node.word, given, held[0], held[1]))
            node.replies[thief] = (seq, answer)
        self.send(*answer)

    def on_grant(self, node, what):
        seq, minter, grant, n, level = what
        if node.pending == (seq, minter) and grant not in node.seen:
            node.pending = None
            node.seen[grant] = 0
            node.subs[grant] = Sub(n, level, minter)
        elif minter < HOUSE and grant in node.seen:
            self.send("OfferAck", minter, (node.word, grant, 0))

    def on_refuse(self, node, seq):
        if node.pending and node.pending[0] == seq:
            node.pending = None

    def on_result(self, node, what):
        if node.gone:
            return
        thief, grant = what
        self.send("ResultAck", thief, grant)
        for own in sorted(node.subs):
            held = node.subs[own].records.pop(grant, None)
            if held:
                node.subs[own].fill(held[2][2])
                self.result(node, own)
                # (a kid has as many steps as its level, and the sum of a task has its value)
                self.saves(node, held[2][1])

    def saves(self, node, steps):
        """The value of a place of so many steps goes to the clearinghouse."""
        if 1 <= steps <= MOST_SAVED_STEPS:
            self.send("Save", HOUSE + 1, node.word)

    def on_resultack(self, node, grant):
        if grant in node.subs and node.subs[grant].over and not node.gone:
            del node.subs[grant]

    # an event at random
    def some_packet(self):
        """Most packets come once, nearly in their order, some are lost, and some come again."""
        if self.todo and self.dice.random() < 0.8:
            return self.todo.pop(self.dice.randrange(min(len(self.todo), 5)))
        return self.at - 1 - min(int(self.dice.expovariate(1 / 6)), RECENT, max(self.at - 1, 0))

    def pass_on(self, i):
        kind, to, _ = self.net.get(i, ("", 0, None))
        # (no Save comes to the clearinghouse, so that each kid is made)
        if to >= HOUSE and kind != "Save":
            return self.to_house(i)
        places = [a for a, node in self.nodes.items() if node.word == to]
        return self.deliver(places[0] if places else self.dice.randrange(PLACES), i)

    def event(self, churn):
        place, luck = self.dice.randrange(PLACES), self.dice.random()
        if place not in self.nodes:
            self.start(place)
        elif luck < churn:
            self.crash(place)
        elif luck < churn * 1.2:
            self.depart(place, self.dice.randint(1, self.words))
        elif luck < 0.03:
            self.tick(self.dice.randint(0, 20))
        elif luck < 0.10:
            self.resend(place)
        elif luck < 0.13:
            self.deliver(place, self.dice.randrange(self.at + 1))
        elif luck < 0.65:
            self.pass_on(self.some_packet())
        else:
            busy = [a for a, node in self.nodes.items() if not node.gone and any(sub.ready for sub in node.subs.values())]
            self.turn(self.dice.choice(busy) if busy and self.dice.random() < 0.85 else place)


def compiled(folder):
    """The plain program, where rustc is there and takes it."""
    if not shutil.which("rustc"):
        return None
    program = f"{folder}/plain"
    ran = subprocess.run(["rustc", "-O", "--edition", "2021", "-o", program, PLAIN])
    return None if ran.returncode else program


def run(words):
    """What a program prints, and its processor time."""
    before = resource.getrusage(resource.RUSAGE_CHILDREN)
    ran = subprocess.run(words, capture_output=True, text=True)
    after = resource.getrusage(resource.RUSAGE_CHILDREN)
    if ran.returncode:
        sys.exit(f"world: {' '.join(words)} ended with status {ran.returncode}: {ran.stderr}")
    return ran.stdout, after.ru_utime + after.ru_stime - before.ru_utime - before.ru_stime


def peak(words):
    """The greatest memory of a program in KiB, where GNU time is installed."""
    if not shutil.which("time"):
        return None
    ran = subprocess.run(["time", "-f", "%M", *words], stdout=subprocess.DEVNULL, stderr=subprocess.PIPE, text=True)
    return int(ran.stderr.split()[-1])


class Replays:
    """Replays of scripts by the program, and by the plain one where it is there."""

    def __init__(self, program, file, folder):
        self.words, self.plain, self.folder = [program, file], compiled(folder), folder

    def of(self, lines):
        """What is printed of a script, the least processor times of the program and of the plain one, and the greatest memory."""
        script = f"{self.folder}/script"
        with open(script, "w") as out:
            out.writelines(line + "\n" for line in lines)
        commands = [[*self.words, script, str(INPUT)]] + ([[self.plain, script, str(INPUT)]] if self.plain else [])
        tries = [[run(words) for words in commands] for _ in range(TRIES)]
        said, least = [it[0] for it in tries[0]], [min(it[i][1] for it in tries) for i in range(len(commands))]
        if said[0] != said[-1]:
            print(f"world: the plain program prints {said[1]!r}, where {said[0]!r} is printed", file=sys.stderr)
        told = dict(line.split(" ", 1) for line in said[0].splitlines())
        return told, least[0], least[1] if self.plain else None, peak(commands[0])


def lines_of(seed, events, churn):
    """A script of so many events, and how many packets the model counts at some of them."""
    model, counts = Model(seed), {}
    while len(model.lines) < events:
        model.event(churn)
        if len(model.lines) in EVENTS:
            counts[len(model.lines)] = model.at
    return model.lines, counts


# How likely the crash of a node is at an event.
MIXES = [("1 crash in 5,000", 0.0002), ("1 crash in 1,000", 0.001)]
COLUMNS = ("script", "events", "starts", "packets", "fills", "seconds", "events/s", "ratio", "peak MiB", "ratio", "plain s", "of plain")


def row(*cells):
    print(f"{cells[0]:16}" + "".join(f"{it:>10}" for it in cells[1:]), flush=True)


def ratio(now, before):
    return f"{now / before:.1f}" if now and before else ""


def show_script(replays, name, lines, before):
    """The row of a script beside the one before, and what the next row stands beside."""
    told, seconds, plain, memory = replays.of(lines)
    events, starts = int(told["events"]), sum(line.startswith("start ") for line in lines)
    numbers = [f"{it:,}" for it in (events, starts, int(told["packets"]), int(told["fills"]))]
    times = f"{seconds:.3f}", f"{events / seconds:,.0f}", ratio(seconds, before[0])
    memories = f"{memory / 1024:.1f}" if memory else "", ratio(memory, before[1])
    row(name, *numbers, *times, *memories, f"{plain:.4f}" if plain else "", ratio(seconds, plain))
    return told, (seconds, memory)


def show(replays, name, lines, counts):
    """The rows of a mix: the first events of its script, and all."""
    before = None, None
    for events in EVENTS:
        told, before = show_script(replays, name, lines[:events], before)
        if int(told["packets"]) != counts[events]:
            print(f"world: the model counts {counts[events]:,} packets", file=sys.stderr)


def show_starts(replays):
    """The rows of scripts in which one node after the other starts, is listed and crashes."""
    before = None, None
    for starts in STARTS:
        lines = [f"start 0 {i + 1}\nhouse-deliver {2 * i}\ncrash 0" for i in range(starts)]
        _, before = show_script(replays, "starts alone", ["house-restart", *lines], before)


def main():
    program, file, seed = sys.argv[1], sys.argv[2], int(sys.argv[3])
    with tempfile.TemporaryDirectory() as folder:
        replays = Replays(program, file, folder)
        row(*COLUMNS)
        show_script(replays, "no event", [], (None, None))
        for name, churn in MIXES:
            show(replays, name, *lines_of(seed, EVENTS[-1], churn))
        show_starts(replays)


if __name__ == "__main__":
    main()
