#!/usr/bin/env -S python3 -B
"""Draws each script of examples/scripts and some longer ones, and looks at the pictures.

Usage: tests/check_pictures.py [PROGRAM], by default bin/cilknow.

Each picture is well-formed XML of ASCII, and comes twice the same. It has a lane for the clearinghouse and one for each place that the
script names; an arrow for each packet that is delivered, a dashed one for each further delivery, and a stub for each packet that isn't, but
for what is all within one fold; fewer kinds of packets with `--work`, and where these would be more than 400; no more than 4,000 pixels of
width; and the outcome. Where it is wide enough, the names of the lanes and the legend stand again, a screen's width from one another. The
title of a turn, of the first 1,000, says of it what `replay --packets` does. A fold has 40 events or more; in none of them does a body run, a
node start, crash or leave, or the clearinghouse start, crash, show a worker dead or record the outcome. Each worker that starts has its start
word, within the picture. The longer scripts are traces of runs on nodes, some of Beats alone, one of so many packets that it is drawn as with
`--work` by itself, and one of more starts at one place than there is room for their words. `-o` writes the same as standard output. The last
line counts; the status is 1 where anything failed.
"""
import re
import subprocess
import sys
import tempfile
import xml.etree.ElementTree as xml

from common import EXAMPLES, TOP, Tally

PROGRAM = sys.argv[1] if len(sys.argv) > 1 else f"{TOP}/bin/cilknow"
SVG = "{http://www.w3.org/2000/svg}"
MOST_ARROWS, MOST_WIDTH, LEAST_FOLD, MOST_TOLD = 400, 4000, 40, 1000
# lengths in tenths of a pixel: a screen, the legend, and a character of a lane's name and of a mark's words
SCREEN, LEGEND, CHAR = 12_000, 9600, 67
# which kinds of packets have arrows: all, with `--work`, and where these are too many still
ALL = {"Join", "Roster", "Steal", "Grant", "Refuse", "Result", "ResultAck", "Offer", "OfferAck", "Leave", "Abort", "Beat", "Piece", "Save", "SavedGrant"}
SHOWN = [ALL, ALL - {"Join", "Roster", "Beat"}, {"Grant", "SavedGrant", "Offer", "Piece", "Result"}, set()]
WORDS = re.compile(r"[\x20-\x7e\n]*")

CHECKS = Tally()
tell = CHECKS.tell


def asked(*words):
    return subprocess.run([PROGRAM, *words], stdin=subprocess.DEVNULL, capture_output=True, timeout=300)


def events_of(script):
    with open(script, encoding="ascii") as it:
        return [line.split(" ") for line in it.read().split("\n") if line and not line.startswith("#")]


def told_of(program, script, inputs):
    """What each event did, in words."""
    told = asked("replay", program, script, "--packets", "--", *inputs).stdout.decode().split("\n")
    return [line.split(": ", 1)[1] for line in told if re.match(r"\d+  ", line)]


def sent_of(told):
    """The event that sends each packet, and its kind."""
    return [(at, found[1]) for at, line in enumerate(told) for found in re.finditer(r"sends \d+ ([A-Z][A-Za-z]+)", line)]


def deliveries_of(events, sent):
    """The packets that come, each as often as it does, by who is up, and the events at which they come."""
    up, used, is_open, come = set(), set(), False, []
    for index, event in enumerate(events):
        words = event[3:] if event[0] == "cut" else event
        there = None
        if words[0] == "start" and words[1] not in up and int(words[2]) not in used and 0 < int(words[2]) < 2**63:
            up.add(words[1])
            used.add(int(words[2]))
        elif words[0] == "crash":
            up.discard(words[1])
        elif words[0] == "deliver" and words[1] in up:
            there = int(words[2])
        elif words[0] == "house-deliver" and is_open:
            there = int(words[1])
        is_there = there is not None and there < len(sent) and sent[there][0] < index
        if is_there:
            come.append((there, index))
        if event[0] == "house-restart":
            is_open = True
        elif event[0] == "house-crash":
            is_open = False
        elif event[0] == "cut":
            applies = is_open != (words[0] == "house-restart") and (words[0] != "house-deliver" or is_there)
            is_open = is_open and not applies
    return come


def folds_of(root):
    """The first and the last event of each fold."""
    titles = [re.fullmatch(r"events (\d+) to (\d+): no body runs", it.text or "") for it in root.iter(f"{SVG}title")]
    return [(int(it[1]) - 1, int(it[2]) - 1) for it in titles if it]


def look_at_folds(name, root, events, told):
    """Whether no event is folded that stands out."""
    dead = {}
    for at, line in enumerate(told):
        for worker in re.findall(r"(\d+) dead", line):
            dead.setdefault(worker, at)
    for first, last in folds_of(root):
        tell(last - first + 1 >= LEAST_FOLD, f"{name}: a fold of {last - first + 1} events")
        tell(f"{last - first + 1} events in which no body runs" in {it.text for it in root.iter(f"{SVG}text")}, f"{name}: the words of a fold")
        for at in range(first, last + 1):
            done = not re.match(r"E\d+$|nothing$|ignored$", told[at])
            stands = events[at][0] in ("exec", "whole", "start", "crash", "depart") and done
            stands = stands or "outcome" in told[at] or at in dead.values()
            tell(not stands, f"{name}: event {at + 1} is folded")


def spot_of(folds, at):
    return next((fold for fold in folds if fold[0] <= at <= fold[1]), at)


def arrows_of(shown, folds, sent, come):
    """How many arrows, dashed ones and stubs there are of these kinds."""
    first, again = set(), 0
    drawn = 0
    for packet, at in come:
        is_again = packet in first
        first.add(packet)
        spot = spot_of(folds, sent[packet][0])
        if sent[packet][1] not in shown or (isinstance(spot, tuple) and spot == spot_of(folds, at)):
            continue
        again += is_again
        drawn += not is_again
    stubs = [packet for packet, (at, kind) in enumerate(sent) if packet not in first and kind in shown and not isinstance(spot_of(folds, at), tuple)]
    return drawn, again, len(stubs)


def look_at_arrows(name, root, events, told, least):
    """Whether the arrows and stubs are those of the most kinds that aren't too many."""
    sent = sent_of(told)
    come, folds = deliveries_of(events, sent), folds_of(root)
    paths = list(root.iter(f"{SVG}path"))
    arrows = sum(has_class(it, "arrow") and not has_class(it, "again") for it in paths)
    again = sum(has_class(it, "arrow") and has_class(it, "again") for it in paths)
    stubs = sum(has_class(it, "stub") for it in paths)
    wanted = next(it for it in (arrows_of(shown, folds, sent, come) for shown in SHOWN[least:]) if sum(it) <= MOST_ARROWS)
    tell((arrows, again, stubs) == wanted, f"{name}: {arrows, again, stubs} arrows, dashed ones and stubs, and {wanted} are wanted")


def has_class(element, word):
    return word in element.get("class", "").split(" ")


def tenths(pixels):
    return round(10 * float(pixels))


def events_end(root):
    """The right end of the events: behind it the picture goes on for the words that stand aslant, by the longest of them."""
    folds = [len(f"{last - first + 1} events in which no body runs") for first, last in folds_of(root)]
    aslant = [it.text for it in root.iter(f"{SVG}text") if has_class(it, "words") and it.get("transform")]
    events = [len(it.split(" ", 1)[1]) + 4 for it in aslant if not it.endswith(" events in which no body runs")]
    return tenths(root.get("width")) - max(600, 31 * max(folds + events, default=0))


def look_at_again(name, root, lanes):
    """Whether the names of lanes and the legend stand again as often as the picture is wide enough for it, and how often the names do."""
    width, right = tenths(root.get("width")), events_end(root)
    names = [it.text for it in root.iter(f"{SVG}text") if has_class(it, "name")]
    left = 260 + CHAR * max(13, *map(len, names))
    screens = [SCREEN * number for number in (1, 2, 3)]
    wanted = [at + 140 for at in screens if right > SCREEN + left and at + 1140 < right]
    again = [tenths(it.get("x")) for it in root.iter(f"{SVG}text") if has_class(it, "again-name")]
    tell(sorted(again) == sorted(wanted * lanes), f"{name}: the names of {lanes} lanes again at {again}, and {wanted} are wanted")
    legends = [tenths(it.get("x")) for it in root.iter(f"{SVG}use") if it.get("href") == "#legend"]
    wanted_legends = [at for at in screens if at + LEGEND < width]
    tell(legends == wanted_legends, f"{name}: the legend again at {legends}, and {wanted_legends} are wanted")
    tell(sum(it.get("id") == "legend" for it in root.iter(f"{SVG}g")) == 1, f"{name}: the legend itself")
    return len(wanted)


def look_at_turns(name, root, events, told):
    """Whether the title of each turn that has one says what came of it."""
    turns = [at for at, event in enumerate(events) if event[0] in ("exec", "whole") and not re.match(r"E\d+$|nothing$", told[at])]
    first = set(turns[:MOST_TOLD])
    for title in root.iter(f"{SVG}title"):
        found = re.match(r"event (\d+): (?:exec|whole) ", title.text or "")
        if found and int(found[1]) - 1 in first:
            did = told[int(found[1]) - 1].split("; ", 1)[0]
            tell(title.text.split(": ", 2)[2] == did, f"{name}: {title.text}, and it was {did}")


def look_at_words(name, root):
    """Whether the words of all marks stand within the picture."""
    width = tenths(root.get("width"))
    for it in root.iter(f"{SVG}text"):
        if has_class(it, "mark") and it.get("text-anchor") is None:
            tell(tenths(it.get("x")) + CHAR * len(it.text) <= width, f"{name}: {it.text} goes on behind the right end")


def look_at(name, program, script, inputs, folder, folds=None):
    drawn = asked("draw", program, script, "--", *inputs)
    told = asked("replay", program, script, "--", *inputs).stdout.decode().split("\n")
    again = asked("draw", program, script, "-o", f"{folder}/out.svg", "--", *inputs)
    with open(f"{folder}/out.svg", "rb") as it:
        written = it.read()
    tell(drawn.returncode == 0 and not drawn.stderr, f"{name}: status {drawn.returncode}, {drawn.stderr!r}")
    tell(again.returncode == 0 and not again.stdout and written == drawn.stdout, f"{name}: it differs the second time")
    tell(WORDS.fullmatch(drawn.stdout.decode("latin-1")), f"{name}: other bytes than those of ASCII")
    root = xml.fromstring(drawn.stdout)
    tell(float(root.get("width")) <= MOST_WIDTH, f"{name}: it is {root.get('width')} wide")
    events = events_of(script)
    places = {event[1] for event in events if not event[0].startswith(("house", "cut"))}
    lanes = sum(has_class(it, "lane") for it in root.iter(f"{SVG}g"))
    tell(lanes == 1 + len(places), f"{name}: {lanes} lanes, and {len(places)} places")
    heading = next(it.text for it in root.iter(f"{SVG}text") if has_class(it, "heading"))
    told = [line.split(" ", 1)[1] for line in told if line]
    tell(heading == "{} events, {} packets, {} fills, outcome {}".format(*told), f"{name}: {heading}")
    words = [it.text or "" for it in root.iter(f"{SVG}text")]
    tell((f"outcome {told[3]}" in words) == (told[3] != "none"), f"{name}: the outcome")
    told = told_of(program, script, inputs)
    for event, did in zip(events, told):
        if event[0] == "start" and did != "nothing":
            tell(any(re.match(f"start {int(event[2])}( at |$)", it) for it in words), f"{name}: worker {event[2]} isn't told")
    look_at_folds(name, root, events, told)
    tell(folds is None or folds_of(root) == folds, f"{name}: the folds {folds_of(root)}")
    look_at_turns(name, root, events, told)
    look_at_words(name, root)
    screens = look_at_again(name, root, lanes)
    look_at_arrows(name, root, events, told, 0)
    work = asked("draw", program, script, "--work", "--", *inputs)
    tell(work.returncode == 0, f"{name}: status {work.returncode} with --work")
    look_at_arrows(f"{name} with --work", xml.fromstring(work.stdout), events, told, 1)
    return screens, work.stdout == drawn.stdout


def beats(count):
    """One node is listed, and beats so many times."""
    lines = ["house-restart", "start 0 3", "house-deliver 0", "deliver 0 1"]
    for packet in range(2, 2 + count):
        lines += ["resend 0", f"house-deliver {packet}"]
    return "".join(line + "\n" for line in lines)


def beats_apart(rounds):
    """One node gets the root task, and beats; so often a start and a crash of another one keep the Beats out of folds."""
    lines = ["house-restart", "start 0 3", "house-deliver 0", "deliver 0 1", "ask 0 house", "house-deliver 2", "deliver 0 3"]
    packet = 4
    for number in range(rounds):
        lines += [f"start 1 {100 + number}", "crash 1"]
        packet += 1
        for _ in range(18):
            lines += ["resend 0", f"house-deliver {packet}"]
            packet += 1
    return "".join(line + "\n" for line in lines)


def starts(count):
    """So many nodes start at one place, and crash."""
    return "".join(f"start 0 {2**62 + number}\ncrash 0\n" for number in range(count))


def main():
    with tempfile.TemporaryDirectory(prefix="cilknow-pictures-") as folder:
        with open(f"{EXAMPLES}/scripts/expected", encoding="ascii") as it:
            rows = [line.split(" | ") for line in it.read().split("\n") if line and not line.startswith("#")]
        for name, job, _ in rows:
            program, *inputs = job.split(" ")
            look_at(name, f"{EXAMPLES}/{program}", f"{EXAMPLES}/scripts/{name}", inputs, folder)
        with open(f"{TOP}/docs/crash.svg", "rb") as it:
            tell(it.read() == asked("draw", f"{EXAMPLES}/fib.ck", f"{EXAMPLES}/scripts/crash.script", "2").stdout, "docs/crash.svg is another picture")
        for count in (100, 390, 1500, 20_000):
            with open(f"{folder}/beats.script", "w", encoding="ascii") as it:
                it.write(beats(count))
            look_at(f"{count} beats", f"{EXAMPLES}/fib.ck", f"{folder}/beats.script", ["2"], folder, [(2, 3 + 2 * count)])
        for name, text, is_between in (("Beats apart", beats_apart(24), True), ("few Beats apart", beats_apart(4), False), ("starts", starts(150), False)):
            with open(f"{folder}/apart.script", "w", encoding="ascii") as it:
                it.write(text)
            screens, is_work = look_at(name, f"{EXAMPLES}/fib.ck", f"{folder}/apart.script", ["2"], folder, [])
            tell(is_work == is_between, f"{name}: whether it is drawn as with --work by itself")
            tell(screens > 0, f"{name}: the names of lanes don't stand again")
        for nodes, crashes, departures, number in ((1, 0, 0, "6"), (4, 1, 1, "8"), (4, 2, 1, "12"), (8, 2, 2, "16")):
            trace = f"{folder}/trace.script"
            faults = ["--crash", str(crashes), "--depart", str(departures), "--lose", "20", "--repeat", "20"]
            ran = asked("run", f"{EXAMPLES}/fib.ck", "--nodes", str(nodes), *faults, "--trace", trace, number)
            tell(ran.returncode == 0, f"a run on {nodes} nodes: {ran.stderr!r}")
            look_at(f"{nodes} nodes", f"{EXAMPLES}/fib.ck", trace, [number], folder)
        with open("/dev/full", "wb") as it:
            full = subprocess.run([PROGRAM, "draw", f"{EXAMPLES}/fib.ck", f"{EXAMPLES}/scripts/crash.script", "2"], stdout=it, stderr=subprocess.PIPE)
        tell((full.returncode, full.stderr) == (4, b"cilknow: file\n"), "a device that is full")
    return CHECKS.end()


if __name__ == "__main__":
    sys.exit(main())
