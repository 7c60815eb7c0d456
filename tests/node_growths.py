#!/usr/bin/env -S python3 -B
"""Refuses in turn each growth of memory in runs with a theft and a crash, and looks that nodes are then as before.

Usage: tests/node_growths.py PLAY [SCRIPT..], where PLAY is the program `play` and SCRIPT.. are files of examples/scripts in which the clearinghouse is
opened once and never cut off, by default those of one node, of a theft, of packets that come twice, and of a crash.

Each script of events is put into calls of nodes and of a clearinghouse, which `play` makes; it has to come to what examples/scripts/expected
says. Then

- each growth of the whole is refused in turn: as by `tests/play_all.py --growth`, the answers are the right ones, but for refusals of calls that
  are made again, or `play` ends out of memory;
- each growth that a call of a node meets is refused, and the first one of the call that is made again too. Both are answered E63, and what
  the node holds and has ready is then what it was before.

The last line counts; the status is 1 where anything failed.
"""
import collections
import os
import re
import sys
import tempfile
from concurrent.futures import ThreadPoolExecutor

import play_all
from common import EXAMPLES

SCRIPTS = f"{EXAMPLES}/scripts"
USUAL = ("one_node", "steal", "repeated", "crash")
JOB, LIMIT = 1, 500
# The words of clearinghouses begin behind this one.
ANY_HOUSE = 1 << 63

# A line of a text, and the worker whose node it calls; none for what calls no node that is there.
Call = collections.namedtuple("Call", "line worker")


def read(path):
    with open(path, encoding="utf-8") as it:
        return it.read()


def expected(script):
    """The program, the input, and what a script comes to, by its line in examples/scripts/expected."""
    for line in read(f"{SCRIPTS}/expected").splitlines():
        name, *rest = line.split(" | ")
        if name == script:
            (program, *numbers), (_, packets, fills, outcome) = rest[0].split(" "), rest[1].split(" ", 3)
            return program, numbers, (int(packets), int(fills), outcome)
    raise SystemExit(f"{script}: no line in scripts/expected")


def actor(word):
    """An actor of an event, as `play` names it."""
    return f"house:{int(word) - ANY_HOUSE}" if int(word) > ANY_HOUSE else word


class Player:
    """A program `play`, a library that refuses, and a folder for texts."""

    def __init__(self, program, folder):
        self.program, self.heap, self.folder = program, play_all.compiled(folder), folder

    def file_of(self, name, lines):
        path = f"{self.folder}/{name}"
        with open(path, "w", encoding="utf-8") as out:
            out.writelines(f"{line}\n" for line in lines)
        return path

    def answers(self, lines):
        """What is answered to each line."""
        status, printed, fault = play_all.played(self.program, self.file_of("played", lines))
        if (status, fault) != (0, b""):
            raise SystemExit(f"play ends with {status}: {fault.decode(errors='replace')}")
        return answers_of(printed)

    def growths(self, lines):
        """How many growths of memory lines meet."""
        return int(play_all.played(self.program, self.file_of("counted", lines), self.heap)[2])


def answers_of(printed):
    """The answers in what is printed, line by line, without the numbers of packets."""
    answers = []
    for line in printed.decode().splitlines():
        if line.startswith("> "):
            answers[-1].append(re.sub(r"^#\d+ ", "", line[2:]))
        else:
            answers.append([])
    return answers


def call_of(event, workers, packets):
    """What an event is as a call, where these workers' nodes are up by their places, and these packets were sent."""
    kind, *words = event.split(" ")
    if kind == "house-restart":
        return Call(f"house open {LIMIT}", None)
    if kind == "house-tick":
        return Call(f"house tick {words[0]}", None)
    if kind == "house-deliver":
        return Call(f"house hear {packets[int(words[0])]}", None)
    if kind == "start":
        workers[words[0]] = words[1]
        return Call(f"start {words[1]}", None)
    worker = workers[words[0]]
    if kind == "crash":
        return Call(f"crash {worker}", None)
    lines = {
        "deliver": lambda index: f"give {worker} {packets[int(index)]}",
        "ask": lambda victim: f"ask {worker} {victim}",
        "exec": lambda minter, number, frame: f"exec {worker} {actor(minter)}/{number} {frame}",
        "depart": lambda heir: f"depart {worker} {heir}",
        "resend": lambda: f"resend {worker}",
    }
    return Call(lines[kind](*words[1:]), worker)


def run_of(player, path):
    """The calls of a script, behind the lines that set its job. What comes of them has to be as expected."""
    program, numbers, wanted = expected(os.path.basename(path))
    # (as one line, without its comments)
    text = " ".join(re.sub("//.*", "", read(f"{EXAMPLES}/{program}")).split())
    setting = [f"{whose}{line}" for whose in ("house ", "") for line in (f"program {text}", f"input {' '.join(numbers)}", f"job {JOB}")]
    setting += ["disk new", f"store format {JOB}"]
    calls, workers, packets, fills = [], {}, [], 0
    for event in (it for it in read(path).splitlines() if it and not it.startswith("#")):
        calls.append(call_of(event, workers, packets))
        answer = player.answers([*setting, *(it.line for it in calls)])[-1]
        packets += [it for it in answer if re.match("[A-Z][A-Za-z]+ ", it)]
        fills += sum(it.startswith("fill ") for it in answer)
    outcome = player.answers([*setting, *(it.line for it in calls), "house outcome"])[-1]
    came = len(packets), fills, outcome[0].replace("outcome ", "value ")
    if came != wanted:
        raise SystemExit(f"{path}: {came}, not {wanted}")
    return setting, calls, sorted(set(workers.values()))


def views(worker):
    return [f"subs {worker}", f"ready {worker}"]


def whole_refused(player, name, lines, pool):
    """How many growths the whole of a run meets, and of how many the refusal is answered otherwise than it may be."""
    path = player.file_of(name, lines)
    transcript = f"{path}.txt"
    with open(transcript, "wb") as out:
        out.write(play_all.played(player.program, path)[1])
    count, failed, is_counted = play_all.refused_in_turn(player.program, transcript, player.heap, pool)
    return count, failed + (not is_counted)


def fault_of_refused(ran, before, begun, wanted):
    """What is wrong where two growths of a call are refused: of the last three lines the call's, which was to answer so, and what the node
    then shows, which was this before. And whether it was E63."""
    status, printed, fault = ran
    if (status, fault) == (3, b"E9\n") and begun.startswith(printed):
        # (there was no memory to read the call's line, or for its bytes)
        return None, False
    if (status, fault) != (0, b""):
        return f"status {status}, {fault.decode(errors='replace')}", False
    answer, *shown = answers_of(printed)[-3:]
    if set(answer) <= {"E63", "E9", "malformed"}:
        return None if shown == before else f"{answer}, then {shown}, not {before}", answer == ["E63", "E63"]
    return None if [answer, *shown] == wanted else f"{answer}, then {shown}, not {wanted}", False


def calls_refused(player, setting, calls, pool):
    """Each call of a node is refused growth by growth, twice: how many were tried, how many were E63, and what is wrong."""
    tried, out_of_memory, faults = 0, 0, []
    for index, call in enumerate(calls):
        if call.worker is None:
            continue
        lines, shown = [*setting, *(it.line for it in calls[:index])], views(call.worker)
        before = player.answers(lines + shown)[-2:]
        wanted = player.answers([*lines, call.line, *shown])[-3:]
        first, last = player.growths(lines), player.growths([*lines, call.line])
        path = player.file_of("refused", [*lines, call.line, *shown])
        begun = play_all.played(player.program, path)[1]
        runs = pool.map(lambda it: play_all.played(player.program, path, player.heap, it, 2), range(first + 1, last + 1))
        for growth, ran in enumerate(runs, 1):
            fault, is_out_of_memory = fault_of_refused(ran, before, begun, wanted)
            tried, out_of_memory = tried + 1, out_of_memory + is_out_of_memory
            faults += [f"{call.line}: growth {growth}: {fault}"] if fault else []
    return tried, out_of_memory, faults


def main(words):
    if not words:
        print(__doc__, file=sys.stderr)
        return 2
    program = os.path.realpath(words[0])
    passed = failed = 0
    with tempfile.TemporaryDirectory(prefix="node-growths-") as folder, ThreadPoolExecutor(os.cpu_count()) as pool:
        player = Player(program, folder)
        for path in words[1:] or [f"{SCRIPTS}/{name}.script" for name in USUAL]:
            name = os.path.basename(path)
            setting, calls, workers = run_of(player, path)
            lines = [*setting, *(it.line for it in calls), *(view for worker in workers for view in views(worker)), "house outcome"]
            count, wrong = whole_refused(player, name, lines, pool)
            tried, out_of_memory, faults = calls_refused(player, setting, calls, pool)
            print(f"{name}: {count} growths of the whole, {tried} of calls of nodes, {out_of_memory} refused with E63")
            for fault in faults:
                print(f"{name}: {fault}", file=sys.stderr)
            # (so that a library that refuses nothing is seen)
            wrong += len(faults) + (out_of_memory == 0)
            passed, failed = passed + count + tried - wrong, failed + wrong
    print(f"{passed} passed, {failed} failed")
    return 1 if failed or not passed else 0


if __name__ == "__main__":
    sys.exit(main(sys.argv[1:]))
