#!/usr/bin/env -S python3 -B
"""Replays random scripts in which frames are carried out by their whole values, and beside each the same script with turns in their place.

Usage: tests/whole_scripts.py [CILKNOW [NOWSIM [COUNT [SEED]]]], by default bin/cilknow, bin/nowsim, 300 scripts, and 1.

A script is made by dice, as `bench/world` makes its own: nodes start, crash and leave, packets are lost, come twice and late, and what is
ready is carried out by a turn or by its whole value, in as many turns as it takes, in more, or in fewer, or where it isn't ready. The other
script has in the place of each such event the turns of the frame and of all that comes of it, one behind the other in the same node; and
none where it is refused. A model of programs, frames and packets goes along, and knows the numbers that frames have in either script.

Both programs tell the same of each script. The two scripts send the same packets, say the same at each event, but for the numbers of frames,
and come to the same outcome; a whole value is the model's, and takes as many turns as stand in its place; what was counted agrees. Each
refusal is the right one. The last line counts; the status is 1 where anything failed.
"""
import collections
import itertools
import os
import random
import re
import subprocess
import sys
import tempfile
from concurrent.futures import ThreadPoolExecutor

from common import EXAMPLES, TOP, Tally, module_in, read, write

world = module_in("bench", "world")

PROGRAM = sys.argv[1] if len(sys.argv) > 1 else f"{TOP}/bin/cilknow"
REPLAYER = sys.argv[2] if len(sys.argv) > 2 else f"{TOP}/bin/nowsim"
COUNT = int(sys.argv[3]) if len(sys.argv) > 3 else 300
SEED = int(sys.argv[4]) if len(sys.argv) > 4 else 1
PLACES, ROOM, MOST = 3, 1024, 2**64 - 1
# Of what takes more turns than these no turns are written; in so many events a script comes to an end.
LONGEST, EVENTS = 1500, 320

# What the body of a thread comes to: a value; or a successor, in whose numbers None stands for one that it waits for, and a kid for each of
# these, in their order, a thread and numbers.
Sends = collections.namedtuple("Sends", "value")
Joins = collections.namedtuple("Joins", "next kids")


def tail(thread, *numbers):
    return Joins((thread, numbers), [])


def fib(thread, numbers):
    if thread == "sum":
        return Sends(sum(numbers))
    n = numbers[0]
    return Sends(n) if n < 2 else Joins(("sum", (None, None)), [("main", (n - 1,)), ("main", (n - 2,))])


def knary(thread, numbers):
    if thread == "sum":
        return Sends(sum(numbers))
    if thread == "main":
        n, b, r = numbers
        return Sends(0) if n < 1 else tail("one_by_one", n, b, r, 0, 1, 0)
    if thread == "side_by_side":
        n, b, r, kids = numbers
        if kids < 1:
            return Sends(0)
        return Joins(("sum", (None, None)), [("main", (n - 1, b, r)), ("side_by_side", (n, b, r, kids - 1))])
    n, b, r, done, count, last = numbers
    if done < r and done < b:
        return Joins(("one_by_one", (n, b, r, done + 1, count + last, None)), [("main", (n - 1, b, r))])
    return Joins(("sum", (count + last, None)), [("side_by_side", (n, b, r, b - done))])


# Kids of one successor that are more and less, and slots that are given.
MIXED = """thread main(k, n, m) {
  if n < 1 { send_argument(k, m); }
  else { if n % 3 == 0 { spawn_next main(k, n - 1, m * 3 - n); }
  else { spawn_next fold(k, n, ?x, ?y, ?z, m);
         spawn main(x, n - 2, m + 1); spawn fold(y, n, m, 1, 0 - n, 2); spawn main(z, n - 1, 0 - m); } }
}
thread fold(k, a, b, c, d, e) { send_argument(k, a + 2 * b - c + 3 * d - e); }
"""


def mixed(thread, numbers):
    if thread == "fold":
        a, b, c, d, e = numbers
        return Sends(a + 2 * b - c + 3 * d - e)
    n, m = numbers
    if n < 1:
        return Sends(m)
    if n % 3 == 0:
        return tail("main", n - 1, m * 3 - n)
    return Joins(("fold", (n, None, None, None, m)), [("main", (n - 2, m + 1)), ("fold", (n, m, 1, -n, 2)), ("main", (n - 1, -m))])


# Chains at deep places, of which the longer ones are too deep.
DEEP = """thread main(k, n) {
  if n < 1 { send_argument(k, 1); }
  else { if n % 8 == 0 { spawn_next sum(k, ?x, ?y); spawn main(x, n - 1); spawn chain(y, n * 6); }
  else { spawn_next main(k, n - 1); } }
}
thread chain(k, n) { if n < 1 { send_argument(k, 2); } else { spawn_next chain(k, n - 1); } }
thread sum(k, x, y) { send_argument(k, x + y); }
"""


def deep(thread, numbers):
    n = numbers[0]
    if thread == "sum":
        return Sends(sum(numbers))
    if n < 1:
        return Sends(1 if thread == "main" else 2)
    if thread == "main" and n % 8 == 0:
        return Joins(("sum", (None, None)), [("main", (n - 1,)), ("chain", (n * 6,))])
    return tail(thread, n - 1)


class Program:
    """A text, what its bodies come to, and inputs for `main`; and what tasks come to with all that comes of them."""

    def __init__(self, text, body, inputs):
        self.text, self.body, self.inputs, self.known = text, body, inputs, {}

    def whole(self, thread, numbers):
        """What a task gives, in how many turns, of which so many send, and how many places it takes below its own."""
        task = thread, tuple(numbers)
        if task not in self.known:
            self.known[task] = self.evaluated(*task)
        return self.known[task]

    def evaluated(self, thread, numbers):
        came = self.body(thread, numbers)
        if isinstance(came, Sends):
            return came.value, 1, 1, 0
        kids = [self.whole(*kid) for kid in came.kids]
        values = iter([kid[0] for kid in kids])
        after = self.whole(came.next[0], [next(values) if it is None else it for it in came.next[1]])
        parts = [*kids, after]
        return after[0], 1 + sum(it[1] for it in parts), sum(it[2] for it in parts), 1 + max(it[3] for it in parts)


PROGRAMS = {
    "fib": Program(read(f"{EXAMPLES}/fib.ck"), fib, [(9,), (11,), (12,)]),
    "knary": Program(read(f"{EXAMPLES}/knary.ck"), knary, [(3, 3, 1), (4, 2, 0), (3, 4, 2)]),
    "mixed": Program(MIXED, mixed, [(8, 1), (7, -5), (10, 2)]),
    "deep": Program(DEEP, deep, [(120,), (176,), (200,)]),
}


class Ready(list):
    """Frames that are ready, and since when each is. One whose copy is taken over has them in the order of their numbers."""

    moments = itertools.count()

    def __init__(self):
        super().__init__()
        self.since = {}

    def append(self, frame):
        super().append(frame)
        self.since[frame] = next(self.moments)

    def __deepcopy__(self, memo):
        copy = Ready()
        for frame in sorted(self):
            copy.append(frame)
        return copy


class Steps(int):
    """How many steps a place has, and up to the last one that goes to a kid."""

    kept = 0

    def to_successor(self):
        steps = Steps(self + 1)
        steps.kept = self.kept
        return steps

    def to_kid(self):
        steps = Steps(self + 1)
        steps.kept = int(steps)
        return steps


class Sub:
    """A subcomputation: its frames, as (task, level, where its value goes), a task being (thread, numbers, steps of its place). `beside` has the
    number that a frame has in the other script."""

    def __init__(self, task, level, host):
        self.frames, self.next, self.level, self.host = {0: (task, level, None)}, 1, level, host
        self.ready, self.records, self.over, self.hop, self.value = Ready(), {}, False, 0, None
        self.ready.append(0)
        self.beside, self.next_beside = {0: 0}, 1

    def fill(self, to, value):
        """Fills a slot; to whom it goes where it is no slot's."""
        if to is None:
            self.over, self.value = True, value
            return
        frame, slot = to
        numbers = self.frames[frame][0][1]
        numbers[slot] = value
        if None not in numbers:
            self.ready.append(frame)

    def take(self, frame):
        self.ready.remove(frame)
        return self.frames.pop(frame)

    def turn(self, frame, body):
        """Carries a frame out by its turn."""
        (thread, numbers, steps), level, to = self.take(frame)
        came = body(thread, numbers)
        if isinstance(came, Sends):
            self.fill(to, came.value)
            return
        first = self.next
        self.add((came.next[0], list(came.next[1]), steps.to_successor()), level, to)
        slots = [slot for slot, it in enumerate(came.next[1]) if it is None]
        for slot, kid in zip(slots, came.kids):
            self.add((kid[0], list(kid[1]), steps.to_kid()), level + 1, (first, slot))

    def add(self, task, level, to):
        number = self.next
        self.next, self.next_beside = number + 1, self.next_beside + 1
        self.frames[number], self.beside[number] = (task, level, to), self.next_beside - 1
        if None not in task[1]:
            self.ready.append(number)

    def whole(self, frame, program):
        """Carries a frame out by its whole value. The numbers that the frames have in the other script that are carried out there, in their
        order, and how many values they put into slots beside that one."""
        (thread, numbers, _), _, to = self.take(frame)
        value, _, sends, _ = program.whole(thread, numbers)
        turns = self.turns(program, thread, numbers, self.beside[frame])
        self.fill(to, value)
        return turns, sends - 1

    def turns(self, program, thread, numbers, number):
        """The numbers in the other script of a frame and of all that comes of it, each kid carried out to its end before the next one."""
        came = program.body(thread, tuple(numbers))
        if isinstance(came, Sends):
            return [number]
        first = self.next_beside
        self.next_beside += 1 + len(came.kids)
        found, values = [number], []
        for index, kid in enumerate(came.kids):
            found += self.turns(program, *kid, first + 1 + index)
            values.append(program.whole(*kid)[0])
        values = iter(values)
        return found + self.turns(program, came.next[0], [next(values) if it is None else it for it in came.next[1]], first)


# An event, the events in its place in the other script, and what is to be told of it: None for what isn't a frame's.
Pair = collections.namedtuple("Pair", "line others told")


class Model(world.Model):
    """The model of `bench/world` over tasks of any program, with their values, for two scripts at once."""

    def __init__(self, seed, program, inputs):
        super().__init__(seed)
        self.program, self.inputs, self.outcome = program, inputs, None
        self.pairs, self.others, self.told = [Pair("house-restart", ["house-restart"], None)], None, None
        self.fills, self.wholes, self.turns = 0, 0, 0

    # tasks in the place of the numbers of fib, and an outcome
    def to_house(self, i):
        super().to_house(i)
        kind, to, what = self.net.get(i, ("", 0, None))
        if kind == "Result" and to == world.HOUSE + 1 and self.root and what[1] == (to, self.minted):
            self.root, self.outcome = None, what[2]

    def wants_root(self):
        return super().wants_root() and self.outcome is None

    def root_task(self):
        return "main", list(self.inputs), Steps()

    def on_grant(self, node, what):
        seq, minter, grant, task, level = what
        taken = node.pending == (seq, minter) and grant not in node.seen
        super().on_grant(node, what)
        if taken:
            thread, numbers, steps = task
            node.subs[grant] = Sub((thread, list(numbers), steps), level, minter)

    def on_steal(self, node, what):
        thief, seq = what
        last, answer = node.replies.get(thief, (0, None))
        if not node.is_live(thief) or seq < last:
            return
        if seq > last:
            ready = [] if node.gone else [(-sub.frames[f][1], sub.ready.since[f], g, f) for g, sub in node.subs.items() for f in sub.ready]
            answer = self.granted(node, what, *max(ready)[2:]) if ready else ("Refuse", thief, seq)
            node.replies[thief] = seq, answer
        self.send(*answer)

    def granted(self, node, what, grant, frame):
        """A frame is given to a thief: its Grant."""
        sub, node.minted = node.subs[grant], node.minted + 1
        held, given = sub.take(frame), (node.word, node.minted)
        sub.records[given] = what[0], frame, held
        return "Grant", what[0], (what[1], node.word, given, held[0], held[1])

    def result(self, node, grant):
        sub = node.subs[grant]
        if sub.over:
            self.send("Result", sub.host, (node.word, grant, sub.value))

    def on_result(self, node, what):
        if node.gone:
            return
        thief, grant, value = what
        self.send("ResultAck", thief, grant)
        for own in sorted(node.subs):
            held = node.subs[own].records.pop(grant, None)
            if held:
                node.subs[own].fill(held[2][2], value)
                self.result(node, own)
                self.saves(node, held[2][0][2].kept)

    # events
    def turn(self, place):
        node = self.nodes[place]
        ready = [(sub.frames[f][1], g, f) for g, sub in node.subs.items() for f in sub.ready]
        if not ready:
            self.ask(place, self.dice.choice([None, self.dice.randint(1, self.words), *self.busy_words()]))
            return
        if self.dice.random() < 0.05:
            self.refused(place, node)
            return
        _, grant, frame = max(ready) if self.dice.random() < 0.7 else self.dice.choice(ready)
        task = node.subs[grant].frames[frame][0]
        # (a large part of the job is mostly carried out by a turn, so that the script goes on)
        is_large = self.program.whole(*task[:2])[1] * 4 > self.program.whole("main", self.inputs)[1]
        if self.dice.random() < (0.9 if is_large else 0.4):
            self.exec(place, node, grant, frame)
        else:
            self.whole(place, node, grant, frame, self.some_turns(task))

    def busy(self):
        return [a for a, node in self.nodes.items() if not node.gone and any(sub.ready for sub in node.subs.values())]

    def busy_words(self):
        return [self.nodes[place].word for place in self.busy()] * 3

    def some_turns(self, task):
        """How many turns a line gives to a task."""
        turns = self.program.whole(*task[:2])[1]
        luck = self.dice.random()
        if luck < 0.2 or turns > LONGEST:
            return self.dice.choice([0, min(turns, LONGEST) - 1, self.dice.randrange(min(turns, LONGEST))])
        return self.dice.choice([turns, turns, turns + self.dice.randint(1, 9), MOST])

    def refused(self, place, node):
        """What names a frame that isn't ready: one that waits, or none."""
        grant = self.dice.choice(sorted(node.subs))
        sub = node.subs[grant]
        frame = self.dice.choice([*(it for it in sub.frames if it not in sub.ready), sub.next, 2**32])
        self.lines.append(f"whole {place} {grant[0]} {grant[1]} {frame} {self.dice.choice([0, 1, MOST])}")
        self.others, self.told = [], "E40"

    def nowhere(self, place):
        """What names a frame that nobody has, at a place where a node may be up, and joined."""
        self.lines.append(f"whole {place} {world.HOUSE + 1} 1 {2**32} {self.dice.choice([0, 1, MOST])}")
        node = self.nodes.get(place)
        self.others, self.told = [], "nothing" if node is None else "E40" if node.roster else "E60"

    def exec(self, place, node, grant, frame):
        sub = node.subs[grant]
        self.lines.append(f"exec {place} {grant[0]} {grant[1]} {frame}")
        self.others = [f"exec {place} {grant[0]} {grant[1]} {sub.beside[frame]}"]
        if not node.gone:
            sub.turn(frame, self.program.body)
            self.result(node, grant)

    def whole(self, place, node, grant, frame, most):
        sub = node.subs[grant]
        thread, numbers, steps = sub.frames[frame][0]
        self.lines.append(f"whole {place} {grant[0]} {grant[1]} {frame} {most}")
        self.others, self.told = [], "E40"
        if node.gone:
            return
        value, turns, _, places = self.program.whole(thread, numbers)
        if turns > most or places > ROOM - steps:
            self.told = "E41"
            return
        numbers = ", ".join(map(str, numbers))
        self.told = f"{thread}({numbers}) gives {value} in {turns} turn{'' if turns == 1 else 's'}, "
        carried_out, fills = sub.whole(frame, self.program)
        self.others = [f"exec {place} {grant[0]} {grant[1]} {it}" for it in carried_out]
        self.fills, self.wholes, self.turns = self.fills + fills, self.wholes + 1, self.turns + turns
        self.result(node, grant)

    def pass_on(self, i):
        kind, to, _ = self.net.get(i, ("", 0, None))
        # (no Save comes to the clearinghouse, so that each kid is made)
        if to >= world.HOUSE and kind != "Save":
            return self.to_house(i)
        places = [a for a, node in self.nodes.items() if node.word == to]
        return self.deliver(places[0] if places else self.dice.randrange(PLACES), i)

    def event(self, churn):
        place, luck = self.dice.randrange(PLACES), self.dice.random()
        if luck > 0.98:
            self.nowhere(self.dice.randrange(PLACES + 1))
        elif place not in self.nodes:
            self.start(place)
        elif luck < churn or self.nodes[place].gone is True:
            self.crash(place)
        elif luck < 2 * churn:
            self.depart(place, self.dice.choice([node.word for node in self.nodes.values()]))
        elif luck < 0.08:
            self.tick(self.dice.randint(0, 120))
        elif luck < 0.16:
            self.resend(place)
        elif luck < 0.66:
            self.pass_on(self.some_packet())
        else:
            busy = self.busy()
            self.turn(self.dice.choice(busy) if busy and self.dice.random() < 0.6 else place)

    def down(self, turns):
        """One node goes down a tree, turn by turn."""
        for _ in range(turns):
            place = self.busy()[0]
            node = self.nodes[place]
            mains = [(sub.frames[f][0][2], g, f) for g, sub in node.subs.items() for f in sub.ready if sub.frames[f][0][0] == "main"]
            if not mains:
                return
            self.noted(lambda: self.exec(place, node, *max(mains)[1:]))

    def noted(self, event):
        """Makes an event, and notes it for both scripts."""
        before, self.others, self.told = len(self.lines), None, None
        event()
        for line in self.lines[before:]:
            self.pairs.append(Pair(line, [line] if self.others is None else self.others, self.told))


def script_of(seed):
    """A program, its inputs, and a model that has made a script."""
    dice = random.Random(f"whole {seed}")
    name = dice.choice([*PROGRAMS])
    inputs = dice.choice(PROGRAMS[name].inputs)
    model = Model(f"whole {seed}", PROGRAMS[name], inputs)
    events, churn = dice.randint(EVENTS // 4, EVENTS), dice.choice([0, 0.005, 0.01, 0.02])
    is_down = name != "deep"
    while len(model.lines) < events:
        model.noted(lambda: model.event(churn))
        if not is_down and model.busy():
            is_down = True
            model.down(dice.randint(0, inputs[0]))
            events += len(model.lines)
    return name, inputs, model


def asked(*words):
    done = subprocess.run(words, stdin=subprocess.DEVNULL, capture_output=True, text=True, timeout=300)
    return done.returncode, done.stdout, done.stderr


def replayed(files, inputs):
    """What both programs tell of a script, and what was counted; None where they tell other things."""
    status, out, err = asked(PROGRAM, "replay", *files, "--packets", "--stats", "--", *inputs)
    if status or asked(REPLAYER, *files, "--packets", "--", *inputs) != (0, out, ""):
        return None
    lines = out.splitlines()
    return [line.partition("  ")[2] for line in lines[:-4]], lines[-4:], dict(line.rsplit(" ", 1) for line in err.splitlines())


def plain(told):
    """What is told, without the numbers of frames, and of a whole value as of one that is sent."""
    told = re.sub(r"\bframe \d+", "frame", re.sub(r"^(exec \d+ \S+) \d+", r"\1", told))
    return re.sub(r" gives (\S+) in \d+ turns?(?:,( to)|(,))", r" sends \1\2\3", told)


def end_of(told):
    """What is told from the value on that a body sends, or a task gives."""
    return plain(told)[plain(told).index(" sends "):]


def fault_of_pair(pair, told, others):
    """What is wrong with what is told of an event, and of those in its place."""
    if not pair.line.startswith("whole "):
        return None if len(others) == 1 and plain(told) == plain(others[0]) else f"{told}, and {others}"
    said = told.partition(": ")[2]
    if not pair.others:
        return None if said == pair.told else f"{told}, not {pair.told}"
    if not said.startswith(pair.told):
        return f"{told}, not {pair.told}"
    if any(re.search(r": (E\d|nothing|ignored)|; sends", it) for it in others[:-1]) or end_of(said) != end_of(others[-1]):
        return f"{told}, and {others[-1]}"
    return None


def fault_of(model, one, other):
    """What is wrong with what is told of a script, and of the other one; None where nothing is."""
    if one is None or other is None:
        return "the programs tell other things"
    (told, end, counts), (others, other_end, other_counts) = one, other
    at = 0
    for pair, it in zip(model.pairs, told):
        fault = fault_of_pair(pair, it, others[at:at + len(pair.others)])
        if fault:
            return fault
        at += len(pair.others)
    if (len(told), len(others)) != (len(model.pairs), at):
        return f"{len(told)} and {len(others)} events"
    events, packets, fills, outcome = (it.split(" ", 1)[1] for it in end)
    if (packets, outcome) != (str(model.at), "none" if model.outcome is None else f"value {model.outcome}"):
        return f"{end}, and the model counts {model.at} packets, and has the outcome {model.outcome}"
    if other_end != [f"events {at}", f"packets {packets}", f"fills {int(fills) + model.fills}", f"outcome {outcome}"]:
        return f"{end}, and {other_end}"
    return fault_of_counts(model, counts, other_counts)


def fault_of_counts(model, counts, others):
    """What is wrong with what was counted."""
    wholes = int(counts.pop("tasks evaluated whole", 0)), int(counts.pop("turns in them", 0))
    if wholes != (model.wholes, model.turns):
        return f"{wholes} are counted, not {model.wholes, model.turns}"
    if int(counts["turns"]) + model.turns != int(others["turns"]):
        return f"{counts['turns']} and {model.turns} turns, and {others['turns']}"
    same = [it for it in {*counts, *others} if it.startswith(("steals", "tasks", "packets", "subcomputations"))]
    return next((f"{it}: {counts.get(it)}, and {others.get(it)}" for it in same if counts.get(it) != others.get(it)), None)


def tried(folder, seed):
    """What is wrong with the scripts of a seed, their model, and which events `whole` were refused, by what was to be told."""
    name, inputs, model = script_of(seed)
    files = [f"{folder}/{seed}.{it}" for it in ("script", "other")]
    write(files[0], "".join(f"{it.line}\n" for it in model.pairs))
    write(files[1], "".join(f"{line}\n" for it in model.pairs for line in it.others))
    inputs = [str(it) for it in inputs]
    one, other = (replayed([f"{folder}/{name}.ck", it], inputs) for it in files)
    fault = fault_of(model, one, other)
    for it in files:
        os.remove(it)
    refused = collections.Counter(it.told for it in model.pairs if it.line.startswith("whole ") and not it.others)
    if not fault and model.outcome not in (None, PROGRAMS[name].whole("main", model.inputs)[0]):
        fault = f"the outcome is {model.outcome}"
    return f"seed {seed} ({name} {' '.join(inputs)}): {fault}" if fault else None, model, refused


def main():
    sys.setrecursionlimit(20_000)
    checks, refused, wholes, turns, ended = Tally(), collections.Counter(), 0, 0, 0
    with tempfile.TemporaryDirectory(prefix="cilknow-wholes-") as folder, ThreadPoolExecutor(os.cpu_count()) as pool:
        for name, program in PROGRAMS.items():
            write(f"{folder}/{name}.ck", program.text)
        for fault, model, kinds in pool.map(lambda seed: tried(folder, seed), range(SEED, SEED + COUNT)):
            checks.tell(fault is None, fault)
            refused += kinds
            wholes, turns, ended = wholes + model.wholes, turns + model.turns, ended + (model.outcome is not None)
    said = ", ".join(f"{count} refused with {it}" for it, count in sorted(refused.items()) if it.startswith("E"))
    print(f"{wholes} whole values of {turns} turns, {said}, {ended} outcomes")
    if COUNT >= 100:
        # (so that scripts in which nothing is tried are seen)
        checks.tell(min(wholes, turns - wholes, refused["E40"], refused["E41"], refused["E60"], ended) * 10 >= COUNT, "too little is tried")
    return checks.end()


if __name__ == "__main__":
    sys.exit(main())
