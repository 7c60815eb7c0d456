#!/usr/bin/env -S python3 -B
"""Runs jobs on nodes, each on a thread, and looks whether each outcome is the right one and each trace replays to it.

Usage: tests/run_nodes.py [PROGRAM [REPLAYER [HOLDER [WORDS]]]], by default bin/cilknow, bin/nowsim, the built shared_times and 100.
       tests/run_nodes.py --many PROGRAM     a node that leaves with some 100,000 frames alone, which takes gigabytes and up to some minutes

On four nodes, of which two crash and one leaves, one packet in three being lost and one in three coming twice, the
Fibonacci number of 12 is run once for each fault word from 1 on, with one body worker a node and with three. A run that
ends has the value 144, and its trace replays to it; of some, what was counted is the same in the run and in its replay;
at least half of them end, all others have spent their turns, and few nodes leave to a worker that has crashed. Then
come runs under a gate that holds a body until the next one has begun, which only another thread can do, and under one
that holds a body while each node crashes or leaves; nodes that crash with many turns of their body workers on the way;
one node that crashes twice and its log, nodes that leave with more than goes in one packet, nodes that share their
work, tasks that are evaluated whole, with values that evaluations kept which didn't come to their end, and on little
stack, packets that are lost or come twice, a node that leaves, rows of the
examples on one to 64 nodes, runs whose threads can't all be made, one that waits for a thread, and options that are
refused. The last line counts; the status is 1 where anything failed.
"""
import os
import re
import resource
import shutil
import subprocess
import sys
import tempfile
import time

from common import EXAMPLES, TOP, Tally

IS_MANY = sys.argv[1:2] == ["--many"]
if IS_MANY:
    del sys.argv[1]
PROGRAM = sys.argv[1] if len(sys.argv) > 1 else f"{TOP}/bin/cilknow"
REPLAYER = sys.argv[2] if len(sys.argv) > 2 else f"{TOP}/bin/nowsim"
HOLDER = sys.argv[3] if len(sys.argv) > 3 else f"{TOP}/crates/shared_times/out/shared_times"
WORDS = int(sys.argv[4]) if len(sys.argv) > 4 else 100
# The program itself, where PROGRAM is the script that calls it.
BUILT = PROGRAM if len(sys.argv) > 1 else f"{TOP}/crates/cilknow/out/cilknow"
FIB = f"{EXAMPLES}/fib.ck"
# The turns of FIB 20: each call is one, and each sum.
TURNS_OF_20 = 32_836
# A comb: some levels, each with a FIB of 15 beside it, whose kid comes first or last.
COMB = (
    "thread main(k,n){if n<1{send_argument(k,0);}else{spawn_next sum(k,?x,?y);spawn main(%s,n-1);spawn fib(%s,15);}}"
    "thread sum(k,x,y){send_argument(k,x+y);}"
    "thread fib(k,n){if n<2{send_argument(k,n);}else{spawn_next sum(k,?x,?y);spawn fib(x,n-1);spawn fib(y,n-2);}}"
)
# A chain of which each level has six kids beside, which wait while a node takes its newest frame first.
BROAD = (
    "thread main(k,n){if n<1{send_argument(k,1);}else{spawn_next sum(k,?a,?b,?c,?d,?e,?f,?g);"
    "spawn one(a);spawn one(b);spawn one(c);spawn one(d);spawn one(e);spawn one(f);spawn main(g,n-1);}}"
    "thread one(k){send_argument(k,1);}"
    "thread sum(k,a,b,c,d,e,f,g){send_argument(k,a+b+c+d+e+f+g);}"
)
# A tree of so many levels whose frames have eight kids each: more than are ever carried out. The first sum of so many values begins a chain that
# is too deep, which ends a run. Its bodies are so many steps long, so that up to 16 of a level are out at a time, and the kids of all of them
# wait there.
LEVELS, VALUES, STEPS = 950, 8**3, 300
KIDS = "abcdefgh"
TREE = (
    "thread main(k,n){if n<1{send_argument(k,1);}else{let x0=n;"
    + "".join(f"let x{it}=x{it - 1}*{it + 2}+n/{it + 1};" for it in range(1, STEPS))
    + f"let m=n-1+x{STEPS - 1}-x{STEPS - 1};spawn_next sum(k,{','.join(f'?{it}' for it in KIDS)});"
    + "".join(f"spawn main({it},m);" for it in KIDS)
    + f"}}}}thread sum(k,{','.join(KIDS)}){{let s={'+'.join(KIDS)};if s<{VALUES}{{send_argument(k,s);}}else{{spawn_next same(k,?y);spawn deep(y);}}}}"
    "thread deep(k){spawn_next same(k,?y);spawn deep(y);}thread same(k,n){send_argument(k,n);}"
)
# A node that leaves holds at least so many frames of it: some 100,000 on four cores, fewer where threads wait for a core.
MANY = 50_000
# So many turns: a run that takes more ends with E95.
TURNS = "100000000"
# So many bytes of stack.
STACK = 512 * 1024
# A library by which one of the threads that a program makes, told by its number, begins so many seconds late, or is
# refused.
LATE = 6
LIBRARY = """
#define _GNU_SOURCE
#include <dlfcn.h>
#include <errno.h>
#include <pthread.h>
#include <stdlib.h>
#include <unistd.h>

struct body { void *(*call)(void *); void *with; };
static int made;

#ifdef SECONDS
static void *late(void *it) {
    struct body body = *(struct body *)it;
    free(it);
    sleep(SECONDS);
    return body.call(body.with);
}
#endif

int pthread_create(pthread_t *thread, const pthread_attr_t *how, void *(*call)(void *), void *with) {
    int (*create)(pthread_t *, const pthread_attr_t *, void *(*)(void *), void *);
    create = dlsym(RTLD_NEXT, "pthread_create");
    int number = __sync_add_and_fetch(&made, 1);
    if (number < NUMBER || number > LAST) return create(thread, how, call, with);
#ifdef REFUSED
    return EAGAIN;
#else
    struct body *body = malloc(sizeof *body);
    *body = (struct body){call, with};
    return create(thread, how, late, body);
#endif
}
"""

CHECKS = Tally()
tell = CHECKS.tell


def called(*words, seconds=300):
    done = subprocess.run(words, capture_output=True, text=True, timeout=seconds)
    return done.returncode, done.stdout, done.stderr


def called_again(*words):
    """What a program answers within half a minute; it is called again, at most five times, where it doesn't end in that time."""
    for _ in range(5):
        try:
            return called(*words, seconds=30)
        except subprocess.TimeoutExpired:
            pass
    return None, "", "no end"


def replayed(trace, value, job):
    """Whether a trace replays to a value."""
    status, out, _ = called(REPLAYER, FIB, trace, job)
    return status == 0 and out.splitlines()[-1:] == [f"outcome value {value}"]


def counted(trace, told, job):
    """Whether in the replay of a trace the same is counted as was told of its run."""
    status, _, err = called(PROGRAM, "replay", FIB, trace, "--stats", job)
    return status == 0 and err == told and told.startswith("turns ")


def leaves_to_crashed(trace):
    """Whether a node leaves to a worker that has crashed, by its last departure, as those before were refused."""
    up, crashed, answer = {}, set(), None
    with open(trace) as it:
        for event, *words in map(str.split, it):
            if event == "start":
                up[words[0]] = words[1]
            elif event == "crash":
                crashed.add(up[words[0]])
            elif event == "depart":
                answer = words[1] in crashed
    return answer


def faulty(folder, bodies):
    """Runs under faults with so many body workers a node, once for each word."""
    ended, left = 0, []
    for word in range(1, WORDS + 1):
        trace = f"{folder}/{bodies} {word}"
        status, out, err = called(
            PROGRAM, "run", FIB, "--nodes", "4", "--bodies", bodies, "--lose", "3", "--repeat", "3", "--crash", "2", "--depart", "1",
            "--faults", str(word), "--turns", TURNS, "--trace", trace, "--stats", "12")
        if status == 3:
            tell(err == "cilknow: E95\n" and not os.path.exists(trace), f"{bodies} bodies, word {word}: {err}")
            continue
        ended += 1
        left.append(leaves_to_crashed(trace))
        tell((status, out) == (0, "value 144\n"), f"{bodies} bodies, word {word}: {status} {out}{err}")
        tell(replayed(trace, 144, "12"), f"{bodies} bodies, word {word}: the trace has another outcome")
        if word <= 20:
            tell(counted(trace, err, "12"), f"{bodies} bodies, word {word}: the trace has other counts than {err}")
    tell(2 * ended >= WORDS, f"{bodies} bodies: {ended} of {WORDS} runs ended")
    leave, vain = len(left) - left.count(None), left.count(True)
    # (at most two in five; about one in four does, and one in two would where the one that started first were taken)
    tell(5 * vain <= 2 * leave + 10, f"{bodies} bodies: {vain} of {leave} nodes that leave do so to one that has crashed")


def traced(folder, name, value, *words):
    """The lines of the trace of a run that has a value, and replays to it; none where it doesn't."""
    trace = f"{folder}/{name}"
    status, out, err = called(PROGRAM, "run", FIB, "--turns", TURNS, "--trace", trace, *words)
    good = (status, out) == (0, f"value {value}\n")
    tell(good, f"{name}: {status} {out}{err}")
    if not good:
        return []
    tell(replayed(trace, value, words[-1]), f"{name}: the trace has another outcome")
    with open(trace) as it:
        lines = it.read().splitlines()
    tell(lines[:1] == ["# nodes 64"], f"{name}: no line says how many nodes there may be")
    return lines


def held_lines(folder, call, kind, nodes, bodies, value, number):
    """The lines of the trace of a run whose second body is held, which has a value on a number."""
    name = f"{kind} {nodes}"
    status, out, err = call(HOLDER, kind, nodes, bodies)
    tell(status == 0, f"{name}: {status} {err}")
    with open(f"{folder}/{name}", "w") as it:
        it.write(out)
    lines = out.splitlines()
    tell(lines[-1:] == [f"# value {value}"] and replayed(f"{folder}/{name}", value, number), f"{name}: not the value {value}")
    return lines


def held(folder, nodes, bodies):
    """A run in which the second body is held until the third one has begun."""
    lines = held_lines(folder, called, "held", nodes, bodies, 2, "3")
    begun = sum(int(line.split()[2]) for line in lines if line.startswith("# bodies "))
    places = [line.split()[1] for line in lines if line.startswith("exec ")]
    tell(max(3, len(places)) <= begun, f"held {nodes}: {len(places)} frames and {begun} bodies")
    tell(len(set(places)) == int(nodes), f"held {nodes}: frames were carried out at {len(set(places))} places")


def held_faulty(folder, nodes, bodies):
    """A run in which the second body is held while each node crashes or leaves. One in some forty beside other work doesn't end: nothing
    frees the body where this happened before it began, as slow threads may bring about. So it is made again."""
    lines = held_lines(folder, called_again, "faulty", nodes, bodies, 144, "12")
    words = [line.split()[:2] for line in lines]
    gone = [index for index, word in enumerate(words) if word[0] in ("crash", "depart")]
    tell({word[1] for word in words if word[0] in ("crash", "depart")} == {str(place) for place in range(int(nodes))},
         f"faulty {nodes}: not each node crashes or leaves")
    # (fewer bodies began up to there than the one that lets the held one go on: those of frames that were carried out, and of tickets)
    begun = sum(word[0] == "exec" for word in words[:gone[int(nodes) - 1]]) + 4 * int(nodes) * int(bodies) if len(gone) >= int(nodes) else 400
    tell(begun < 400, f"faulty {nodes}: {begun} bodies began before all nodes crashed or left")


def in_flight(folder):
    """Two nodes with eight body workers each that crash and leave with up to sixteen turns on their way: these come back, perhaps more of them
    than their queue has room for, and are refused. How many do depends on the threads' times, so it is run until five did, at most 60 times."""
    stale = 0
    for word in range(1, 61):
        if word > 5 and stale >= 5:
            break
        name = f"in flight {word}"
        lines = traced(folder, name, 610, "--nodes", "2", "--bodies", "8", "--crash", "4", "--depart", "1", "--faults", str(word), "15")
        tell(any(line.startswith("crash ") for line in lines), f"{name}: no node crashes")
        _, out, _ = called(PROGRAM, "replay", FIB, f"{folder}/{name}", "--packets", "15")
        stale += len(re.findall(r"^\d+  exec .*: E(?:40|60)$", out, re.M))
    tell(stale >= 5, f"in flight: {stale} turns came back too late")


def carried_out(trace, job):
    """The lines that the log of a run has: the starts, crashes and departures of its trace that a replay carries out, and
    none that is refused."""
    _, out, _ = called(PROGRAM, "replay", FIB, trace, "--packets", job)
    return [f"[INFO  cilknow] {line}" for line in re.findall(r"^\d+  ((?:start|crash|depart) [^:]*): sends ", out, re.M)]


def leaves_to_leaver(logged):
    """Whether in a log a node leaves to one that leaves or has left."""
    up, gone = {}, set()
    for event, place, *words in (line.split("] ")[1].split() for line in logged):
        if event == "start":
            up[place] = words[0]
        elif event == "depart":
            gone.add(up[place])
            if words[0] in gone:
                return True
    return False


def departures(folder):
    """Nodes that leave, some of them not at once: each departure is logged once, and none that was refused; and none leaves to one that leaves
    or has left, whose work would wait until it is taken for dead."""
    refused = left = 0
    for word in range(1, 21):
        log = f"{folder}/log {word}"
        lines = traced(folder, f"departures {word}", 144, "--nodes", "4", "--depart", "3", "--faults", str(word), "--log", log, "12")
        with open(log) as it:
            logged = it.read().splitlines()
        asked = [line for line in lines if line.split()[0] in ("start", "crash", "depart")]
        tell(logged == carried_out(f"{folder}/departures {word}", "12"), f"departures {word}: the log has {logged}")
        leaves = sum("depart" in line for line in logged)
        tell(leaves <= 3 and not leaves_to_leaver(logged), f"departures {word}: {logged}")
        refused, left = refused + len(asked) - len(logged), left + leaves
    tell(refused > 0 and left > 40, f"departures: {left} nodes left, {refused} events were refused")


def in_pieces(folder):
    """A node that leaves in the midst of a run with more than goes in one packet, under loss and repeats: its Offer goes in Pieces, of which
    some are lost and some come twice or behind later ones, and is accepted. Who holds that much depends on the threads' times, so it is run
    until three did, at most 40 times."""
    file = f"{folder}/broad.ck"
    with open(file, "w") as out:
        out.write(BROAD)
    accepted = 0
    for word in range(1, 41):
        if accepted >= 3:
            break
        trace = f"{folder}/in pieces {word}"
        status, out, err = called(
            PROGRAM, "run", file, "--nodes", "2", "--lose", "5", "--repeat", "5", "--depart", "1", "--after", "700", "--faults", str(word), "--turns",
            TURNS, "--trace", trace, "250")
        tell((status, out) == (0, "value 1501\n"), f"in pieces {word}: {status} {out}{err}")
        _, told, _ = called(PROGRAM, "replay", file, trace, "--packets", "250")
        tell(told.endswith("\noutcome value 1501\n"), f"in pieces {word}: the trace has another outcome")
        left = re.search(r"^\d+  depart \d+ \d+: .*?Piece (\S+) from (\d+) to (\d+): hop (\d+), part 1 of (\d+), 65536 bytes", told, re.M)
        if left:
            grant, sender, heir, hop, parts = left.groups()
            whole = [f"Piece {grant} from {sender} to {heir}: hop {hop}, part {part} of {parts}," in left.string for part in range(1, int(parts) + 1)]
            tell(len(whole) >= 2 and all(whole), f"in pieces {word}: not all {parts} Pieces are sent")
            accepted += bool(re.search(rf"OfferAck {grant} from {heir} to {sender}: hop {hop}$", told, re.M))
    tell(accepted >= 3, f"in pieces: {accepted} Offers are accepted")


def many_in_pieces(folder):
    """The same of a node that leaves with some 100,000 frames, in hundreds of Pieces. Who holds how many depends on the threads' times, so it is
    run until one left with enough, at most 5 times."""
    file = f"{folder}/tree.ck"
    with open(file, "w") as out:
        out.write(TREE)
    seen = []
    for word in range(1, 6):
        if max(seen, default=0) >= MANY:
            break
        trace = f"{folder}/many in pieces {word}"
        status, out, err = called(
            PROGRAM, "run", file, "--nodes", "2", "--bodies", "8", "--lose", "50", "--repeat", "50", "--depart", "1", "--after", "26000",
            "--faults", str(word), "--turns", TURNS, "--trace", trace, str(LEVELS))
        tell((status, out) == (0, "too deep\n"), f"many in pieces {word}: {status} {out}{err}")
        _, told, _ = called(PROGRAM, "replay", file, trace, "--packets", str(LEVELS))
        tell(told.endswith("\noutcome too deep\n"), f"many in pieces {word}: the trace has another outcome")
        left = re.search(r"^\d+  depart (\d+) \d+: .*?Piece (\S+) from (\d+) to (\d+): hop (\d+), part 1 of (\d+), 65536 bytes", told, re.M)
        if left and re.search(rf"OfferAck {left[2]} from {left[4]} to {left[3]}: hop {left[5]}$", told, re.M):
            # (a turn that joins leaves eight frames more, and one that sends one less)
            turns = re.findall(rf"^\d+  exec {left[1]} .*\) (joins sum|sends)", told[:left.start()], re.M)
            seen.append(8 * turns.count("joins sum") - turns.count("sends"))
    tell(max(seen, default=0) >= MANY, f"many in pieces: Offers of {seen} frames are accepted")


def crashes(folder):
    """One node that crashes twice, and its log."""
    log = f"{folder}/log"
    lines = traced(folder, "crashes", 144, "--crash", "2", "--log", log, "12")
    tell(lines.count("crash 0") >= 2, "crashes: they aren't in the trace")
    with open(log) as it:
        logged = it.read().splitlines()
    told = carried_out(f"{folder}/crashes", "12")
    tell(logged == told and len(told) >= 5, f"crashes: the log has {logged}")


def shares(folder):
    """Four nodes that share the work of one, as often as each number from 1 on is the job's: in most runs each executes something."""
    shared = 0
    for job in range(1, 11):
        lines = traced(folder, f"shares {job}", 610, "--nodes", "4", "--job", str(job), "15")
        shared += len({line.split()[1] for line in lines if line.startswith("exec ")}) >= 2
    tell(shared >= 8, f"shares: in {shared} of 10 runs two nodes execute something")


def wholes(folder):
    """Runs that evaluate tasks whole, in at most so many turns each, with and without faults: the more turns, the fewer events; no run takes
    less than all turns of the job, nor, without faults, more; and each trace replays to the same outcome and the same counts."""
    for nodes, bodies in ("1", "2"), ("4", "1"):
        events = []
        for grain in "1", "100", "10000", "1000000":
            name = f"whole {nodes} {grain}"
            lines = traced(folder, name, 6765, "--nodes", nodes, "--bodies", bodies, "--grain", grain, "--job", grain, "20")
            kinds = [line.split()[0] for line in lines]
            events.append(kinds.count("exec") + kinds.count("whole"))
            status, _, err = called(PROGRAM, "replay", FIB, f"{folder}/{name}", "--stats", "20")
            taken = sum(int(found) for found in re.findall(r"^(?:turns|turns in them) (\d+)$", err, re.M))
            tell(status == 0 and taken == TURNS_OF_20, f"{name}: {taken} turns")
        tell(events == sorted(events, reverse=True) and events[-1] < 100 < events[0], f"whole {nodes}: {events} events")
    # nobody waits for a part of what the only body worker of a run evaluates
    lines = traced(folder, "whole alone", 6765, "--grain", "1", "20")
    kinds = [line.split()[0] for line in lines]
    tell((kinds.count("exec"), kinds.count("whole")) == (0, 1), f"whole alone: {kinds}")
    for word in range(1, 21):
        trace = f"{folder}/whole {word}"
        status, out, err = called(
            PROGRAM, "run", FIB, "--nodes", "4", "--bodies", "2", "--lose", "5", "--repeat", "5", "--crash", "1", "--depart", "1", "--grain", "50",
            "--faults", str(word), "--turns", TURNS, "--trace", trace, "15")
        tell((status, out) == (0, "value 610\n"), f"whole {word}: {status} {out}{err}")
        tell(replayed(trace, 610, "15"), f"whole {word}: the trace has another outcome")
        with open(trace) as it:
            tell("\nwhole " in it.read(), f"whole {word}: no task is evaluated whole")


def kept_values(folder):
    """Tasks that take more turns than are allowed: the node uses the values that their evaluations kept, so that few turns are evaluated more
    than once, also where the large ones form a chain, with a small one before or behind each, and where that chain is too deep. The only body
    worker of a run evaluates a job in one go, unless it is too deep."""
    for name, program, grain, most, word, value in (
        ("fib", None, "20000", 1.1, "25", "value 75025"),
        ("fib, less at once", None, "2000", 1.15, "20", "value 6765"),
        ("a comb that is evaluated from behind", ("x", "y"), "20000", 1.5, "900", "value 549000"),
        ("a comb that is evaluated from the front", ("y", "x"), "20000", 1.5, "900", "value 549000"),
        ("a comb that is too deep", ("y", "x"), "20000", 2, "2000", "too deep"),
    ):
        file = FIB
        if program:
            file = f"{folder}/comb.ck"
            with open(file, "w") as out:
                out.write(COMB % program)
        _, _, err = called(PROGRAM, "serial", file, "--stats", word)
        needed = int(re.search(r"^turns (\d+)$", err, re.M).group(1))
        for bodies in "2", "1":
            status, out, err = called(PROGRAM, "run", file, "--bodies", bodies, "--grain", grain, "--turns", TURNS, "--stats", word)
            tell((status, out) == (0, f"{value}\n"), f"kept, {name}: {status} {out}{err}")
            told = dict(line.rsplit(" ", 1) for line in err.splitlines())
            taken = sum(int(told.get(it, 0)) for it in ("turns", "turns in them", "turns evaluated in vain"))
            is_whole = bodies == "1" and value != "too deep"
            tell(taken <= (1 if is_whole else most) * needed, f"kept, {name}: {taken} turns for {needed}")
            tell(is_whole or int(told.get("values kept and used", 0)) > 0, f"kept, {name}: no value that was kept is used")


def asked_for(folder):
    """Nodes that ask for tasks while these are evaluated: few turns are evaluated more than once."""
    lets = "let a0=n;" + "".join(f"let a{it + 1}=a{it}" + "+3*n-5" * 20 + ";" for it in range(20))
    file = f"{folder}/chain.ck"
    with open(file, "w") as out:
        out.write(f"thread main(k,n){{{lets}if n<1{{send_argument(k,0*a20);}}else{{spawn_next second(k,n-1,?x);spawn main(x,n-1);}}}}"
                  "thread second(k,n,x){spawn_next done(k,?y);spawn main(y,n+0*x);}thread done(k,y){send_argument(k,y);}")
    for name, program, most, word, value in ("a chain of heavy bodies", file, 1.5, "10", 0), ("fib", FIB, 2, "23", 28657):
        _, _, err = called(PROGRAM, "serial", program, "--stats", word)
        needed = int(re.search(r"^turns (\d+)$", err, re.M).group(1))
        for _ in range(5):
            status, out, err = called(PROGRAM, "run", program, "--nodes", "4", "--turns", TURNS, "--stats", word)
            told = dict(line.rsplit(" ", 1) for line in err.splitlines())
            taken = sum(int(told.get(it, 0)) for it in ("turns", "turns in them", "turns evaluated in vain"))
            tell((status, out) == (0, f"value {value}\n") and taken <= most * needed, f"asked for, {name}: {status} {out}, {taken} turns for {needed}")


def deep(folder):
    """Tasks nearly as deep as may be, and deeper, are evaluated whole where each thread has 512 KiB of stack."""
    file = f"{folder}/deep.ck"
    with open(file, "w") as out:
        out.write(COMB % ("x", "y"))
    limited = lambda: resource.setrlimit(resource.RLIMIT_STACK, (STACK, STACK))
    for word, value in ("990", "value 603900"), ("1023", "too deep"):
        words = (BUILT, "run", file, "--bodies", "1", "--grain", TURNS, "--turns", "10000000000", word)
        done = subprocess.run(words, capture_output=True, text=True, timeout=300, preexec_fn=limited)
        tell((done.returncode, done.stdout) == (0, f"{value}\n"), f"deep {word}: {done.returncode} {done.stdout}{done.stderr}")


def fates(folder):
    """Packets that are lost or come twice, and a node that leaves."""
    lines = traced(folder, "repeated", 144, "--nodes", "2", "--repeat", "1", "12")
    taken = [line for line in lines if line.startswith(("deliver ", "house-deliver "))]
    twice = sum(taken.count(line) == 2 for line in set(taken))
    tell(twice >= len(set(taken)) // 2 > 0, f"repeated: {twice} of {len(set(taken))} packets come twice")
    lines = traced(folder, "none lost", 144, "--nodes", "2", "12")
    taken = [line for line in lines if line.startswith(("deliver ", "house-deliver "))]
    tell(len(taken) == len(set(taken)) > 0, "none lost: a packet comes twice")
    status, out, err = called(PROGRAM, "run", FIB, "--nodes", "2", "--lose", "1", "--turns", "20000", "12")
    tell((status, out, err) == (3, "", "cilknow: E95\n"), f"all lost: {status} {out}{err}")
    lines = traced(folder, "leaves", 610, "--nodes", "4", "--depart", "1", "15")
    tell(any(line.startswith("depart 3 ") for line in lines), "leaves: no node leaves")


def few_threads(folder):
    """Runs by a user who may have so many threads in all. With enough there is an outcome; with too few the run ends
    within two seconds more, and without an answer where the system holds to that. Only root can become another user here, so else it
    isn't tried."""
    if os.getuid() != 0:
        return
    os.chmod(folder, 0o755)
    for name, path in (("program", BUILT), ("fib.ck", FIB)):
        shutil.copy(path, f"{folder}/{name}")
        os.chmod(f"{folder}/{name}", 0o755)

    def ran(most):
        """What a run wrote that may have so many threads, and how many seconds it took."""
        def becomes():
            os.setgroups([])
            os.setgid(65534)
            os.setuid(65534)
            resource.setrlimit(resource.RLIMIT_NPROC, (most, most))

        words = (f"{folder}/program", "run", f"{folder}/fib.ck", "--nodes", "2", "7")
        began = time.monotonic()
        done = subprocess.run(words, capture_output=True, text=True, timeout=300, preexec_fn=becomes, cwd="/")
        return (done.returncode, done.stdout, done.stderr), time.monotonic() - began

    answered = 0, "value 13\n", ""
    try:
        given, took = ran(64)
        tell(given == answered, f"enough threads: {given}")
        for most in 1, 2, 4, 5:
            given, seconds = ran(most)
            tell(given in ((3, "", "cilknow: E96\n"), answered), f"{most} threads: {given}")
            tell(seconds < took + 2, f"{most} threads: the run takes {seconds:.1f} s, and {took:.1f} s with enough")
    except subprocess.SubprocessError as fault:
        tell(not isinstance(fault, subprocess.TimeoutExpired), "few threads: the run doesn't end")


def with_thread(folder, number, last, *how):
    """A run on two nodes whose threads of these numbers are made as the words say to the C compiler, and how many
    seconds it took; None without a C compiler. Where one of the first four isn't there in time, by the next four it
    tries how many it may have, and the next ones are its own again."""
    cc, library = shutil.which("cc"), f"{folder}/thread.so"
    if cc is None:
        return None
    words = (cc, "-shared", "-fPIC", f"-DNUMBER={number}", f"-DLAST={last}", *how, "-o", library, "-xc", "-", "-ldl")
    made = subprocess.run(words, input=LIBRARY, capture_output=True, text=True)
    tell(made.returncode == 0, f"thread {number}: {made.stderr}")
    words, env = (BUILT, "run", FIB, "--nodes", "2", "7"), {**os.environ, "LD_PRELOAD": library}
    began = time.monotonic()
    done = subprocess.run(words, capture_output=True, text=True, timeout=300, env=env)
    return (done.returncode, done.stdout, done.stderr), time.monotonic() - began


def late_threads(folder, number, last):
    """A run some of whose threads begin some seconds late: all are made anew behind them."""
    ran = with_thread(folder, number, last, f"-DSECONDS={LATE}")
    if ran:
        given, seconds = ran
        tell(given == (0, "value 13\n", ""), f"late threads {number} to {last}: {given}")
        tell(seconds >= LATE, f"late threads {number} to {last}: the run ends after {seconds:.1f} s")


def refused_threads(folder, number, last, answer):
    """A run some of whose threads are refused: it ends by that where it tries how many it may have, and else all are
    made anew."""
    ran = with_thread(folder, number, last, "-DREFUSED")
    if ran:
        given, seconds = ran
        tell(given == answer, f"refused threads {number} to {last}: {given}")
        tell(seconds < LATE, f"refused threads {number} to {last}: the run takes {seconds:.1f} s")


def rows():
    """Rows of the examples on several nodes."""
    row = re.compile(r"//   (.*[0-9]) +(value -?[0-9]+|too deep)$", re.M)
    for nodes, name in ((1, "gcd"), (2, "fib"), (8, "binomial"), (3, "collatz"), (64, "fib")):
        with open(f"{EXAMPLES}/{name}.ck") as it:
            for words, outcome in row.findall(it.read())[:3]:
                status, out, err = called(
                    PROGRAM, "run", f"{EXAMPLES}/{name}.ck", "--nodes", str(nodes), "--repeat", "1000000", "--turns", TURNS, "--", *words.split())
                tell((status, out) == (0, f"{outcome}\n"), f"{name} {words} on {nodes} nodes: {status} {out}{err}")


def refused():
    """Words that disagree, and turns that don't suffice."""
    for words in (("--nodes", "0"), ("--nodes", "65"), ("--bodies", "9"), ("--bodies", "0"), ("--bodies", "x"), ("--nodes", "4", "--depart", "4"),
                  ("--depart", "1"), ("--lose", "-1"), ("--faults", "x"), ("--after", "-1")):
        tell(called(PROGRAM, "run", FIB, *words, "5") == (2, "", "cilknow: usage\n"), f"{' '.join(words)}: no fault of usage")
    tell(called(PROGRAM, "run", FIB, "--nodes", "2", "--turns", "100", "20") == (3, "", "cilknow: E95\n"), "100 turns suffice")
    for option in ("--trace", "--log"):
        tell(called(PROGRAM, "run", FIB, "--nodes", "2", option, "/", "3") == (4, "", "cilknow: file\n"), f"{option}: a folder is written")


if IS_MANY:
    with tempfile.TemporaryDirectory() as folder:
        many_in_pieces(folder)
    sys.exit(CHECKS.end())
with tempfile.TemporaryDirectory() as folder:
    faulty(folder, "1")
    faulty(folder, "3")
    held(folder, "1", "2")
    held(folder, "2", "1")
    held_faulty(folder, "1", "2")
    held_faulty(folder, "3", "3")
    held_faulty(folder, "2", "8")
    in_flight(folder)
    crashes(folder)
    departures(folder)
    in_pieces(folder)
    shares(folder)
    wholes(folder)
    kept_values(folder)
    asked_for(folder)
    deep(folder)
    fates(folder)
    few_threads(folder)
    late_threads(folder, 2, 2)
    late_threads(folder, 3, 6)
    refused_threads(folder, 2, 2, (0, "value 13\n", ""))
    refused_threads(folder, 2, 6, (3, "", "cilknow: E96\n"))
rows()
refused()
sys.exit(CHECKS.end())
