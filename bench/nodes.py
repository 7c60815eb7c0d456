"""What runs on nodes take: see bench/nodes."""
import os
import resource
import subprocess
import sys
import tempfile
import time

PROGRAM, EXAMPLES, *INPUTS = sys.argv[1:]
INPUTS = [int(it) for it in INPUTS] or [10, 15, 18, 20]
TIMES = 3


def timed(*words):
    """Wall and processor time in seconds, and peak memory in MiB, of a command's best run of three."""
    best = None
    for _ in range(TIMES):
        before, start = resource.getrusage(resource.RUSAGE_CHILDREN), time.monotonic()
        child = subprocess.Popen(words, stdout=subprocess.PIPE)
        child.stdout.read()
        _, status, used = os.wait4(child.pid, 0)
        child.returncode = os.waitstatus_to_exitcode(status)
        wall = time.monotonic() - start
        if child.returncode:
            return None
        took = wall, used.ru_utime + used.ru_stime, used.ru_maxrss / 1024
        best = min(best, took) if best else took
    return best


def work(operations):
    """`let`s with about so many operations on `n`, and the name of the last one."""
    lets, last = [], "n"
    for number in range(operations // 60):
        lets.append(f"let a{number}={last}{'+3*n-5' * 20};")
        last = f"a{number}"
    return "".join(lets), last


def chain(operations):
    """A program of which one frame is ready at a time: of a tree of depth n one half is done after the other. Each second body has about
    so many operations, and the others next to none."""
    lets, last = work(operations)
    return (
        f"thread main(k,n){{{lets}if n<1{{send_argument(k,0*{last});}}else{{spawn_next second(k,n-1,?x);spawn main(x,n-1);}}}}"
        "thread second(k,n,x){spawn_next done(k,?y);spawn main(y,n+0*x);}"
        "thread done(k,y){send_argument(k,y);}"
    )


def turns_of(depth):
    """How many turns a chain takes."""
    return 4 * 2**depth - 3


def tree(operations):
    """A program that adds up a tree of n leaves with about so many operations each."""
    lets, last = work(operations)
    return (
        f"thread main(k,n){{if n<2{{{lets}send_argument(k,{last});}}else{{spawn_next sum(k,?x,?y);spawn main(x,n/2);spawn main(y,n-n/2);}}}}"
        "thread sum(k,x,y){send_argument(k,x+y);}"
    )


def idle(folder):
    """How many processors are busy while one frame is ready at a time, turn by turn and where tasks are evaluated whole."""
    print("\n| one frame is ready at a time | each second body | microseconds a turn | processors busy | the same, tasks whole | |\n|---|---|---|---|---|---|")
    for operations, depth in (0, 15), (2_000, 13), (12_000, 11):
        text = f"{folder}/chain"
        with open(text, "w", encoding="utf-8") as out:
            out.write(chain(operations))
        turns = turns_of(depth)
        few, many = (timed(PROGRAM, "serial", text, str(it)) for it in (0, depth))
        body = 2 * (many[1] - few[1]) / turns
        for name, words in (("8 nodes", ["--nodes", "8"]), ("8 body workers of one node", ["--bodies", "8"]), ("one node", ["--nodes", "1"])):
            took = [timed(PROGRAM, "run", text, *words, *grain, str(depth)) for grain in (("--grain", "0"), ())]
            told = " | ".join(f"{it[0] / turns * 1e6:.1f} | {it[1] / it[0]:.2f}" for it in took)
            print(f"| {name} | {body * 1e6:.1f} us | {told} |")


def shared(folder):
    """What several nodes gain on one, by how long a body takes."""
    print("\n| a tree of leaves | leaves | one node, ms | 2 nodes | 3 nodes | 4 nodes |\n|---|---|---|---|---|---|")
    for operations, leaves in (600, 8_000), (2_000, 8_000), (6_000, 3_000), (20_000, 1_000):
        text = f"{folder}/tree"
        with open(text, "w", encoding="utf-8") as out:
            out.write(tree(operations))
        few, many = (timed(PROGRAM, "serial", text, str(it * leaves)) for it in (1, 2))
        took = [timed(PROGRAM, "run", text, "--nodes", str(nodes), "--grain", "0", "--log", os.devnull, str(leaves))[0] for nodes in (1, 2, 3, 4)]
        gained = " | ".join(f"{took[0] / it:.2f}" for it in took[1:])
        print(f"| {(many[0] - few[0]) / leaves * 1e6:.1f} us | {leaves} | {took[0] * 1e3:.0f} | {gained} |")


def events(trace):
    with open(trace, "rb") as it:
        return it.read().count(b"\n") - 1


fib = f"{EXAMPLES}/fib.ck"
print("| input | nodes | ms | processor ms | MiB | events | microseconds an event |\n|---|---|---|---|---|---|---|")
with tempfile.TemporaryDirectory() as folder:
    trace = f"{folder}/trace"
    for n in INPUTS:
        alone = timed(PROGRAM, "run", fib, str(n))
        print(f"| {n} | one evaluator | {alone[0] * 1e3:.0f} | {alone[1] * 1e3:.0f} | {alone[2]:.0f} | | |")
        for nodes in 1, 2, 4, 8:
            took = timed(PROGRAM, "run", fib, "--nodes", str(nodes), "--trace", trace, str(n))
            if took is None:
                print(f"| {n} | {nodes} | no outcome | | | | |")
                continue
            many = events(trace)
            print(f"| {n} | {nodes} | {took[0] * 1e3:.0f} | {took[1] * 1e3:.0f} | {took[2]:.0f} | {many} | {took[0] / many * 1e6:.1f} |")
    idle(folder)
    shared(folder)
