"""How long the gate's proofs take side by side, by the minutes that each took: a simulation of how `rt ci` hands them
out. What it does before and behind them isn't in it, nor edits, nor that memory may be short.

A crate's proof waits for those of the libraries below it, and the proof of its tests too. Of those that may begin the
one with the most lines in the longest chain behind it comes first, and gets the processors that are free then, shared
with those that may begin too: at most four, which it keeps.
"""
import heapq

from common import crates

# So many times as fast is a proof on so many processors: 1.3 to 1.4 was seen on three, and the others are guessed.
FASTER = {1: 1.0, 2: 1.3, 3: 1.4, 4: 1.5}


def libraries_below(known):
    """All libraries that each crate stands on."""
    found = {}
    for name, own in known.items():
        # (a line names crates of lines before it)
        found[name] = set().union(*({it, *found[it]} for it in own if it in found))
    return found


def wall(minutes, lines, processors=4):
    """The minutes until all is proved. `minutes` has of a crate those of its proof and of that with its tests, `lines` its
    lines."""
    below = libraries_below(crates())
    tasks = {}
    for name in sorted(below, key=lambda it: len(below[it])):
        for sort, took in zip(("proof", "tests"), minutes[name]):
            if sort == "proof" or took:
                tasks[name, sort] = took
    behind = dict.fromkeys(tasks, 0)
    for name, sort in reversed(tasks):
        behind[name, sort] += lines[name]
        for it in below[name]:
            behind[it, "proof"] = max(behind[it, "proof"], behind[name, sort])
    left, running, done, now, free = sorted(tasks, key=lambda it: -behind[it]), [], set(), 0.0, processors
    while left or running:
        ready = [it for it in left if below[it[0]] <= done]
        for at, task in enumerate(ready):
            if free > 0:
                given = max(1, min(max(FASTER), free // (len(ready) - at)))
                left.remove(task)
                heapq.heappush(running, (now + tasks[task] / FASTER[given], task, given))
                free -= given
        now, (name, sort), given = heapq.heappop(running)
        free += given
        if sort == "proof":
            done.add(name)
    return now
