#!/usr/bin/env -S python3 -B
"""Runs jobs on processes that reach each other over UDP, and the library's calls for C.

Usage: tests/run_machines.py FOLDER PROGRAM [RUNS] [--only ROW], the folder with what machines/Makefile builds, cilknow, and 12.

First each call of the library, also those that are refused; and jobs on actors in one process, whose packets are lost, repeated and come in
any order, and which crash, the clearinghouse too. Then runs of one house and three workers, of whose datagrams a tenth is lost, a tenth comes
twice and a tenth comes late: a worker is killed, one is told to go, one joins late, and in each third run the house is killed and started
again over its file. Each outcome is the right one, and is answered at once by a house that starts over the same file afterwards. Every second
run is of programs that were compiled with sanitizers, and goes on beside the others. Each leaves traces; these are put in one order by
`cilknow merge`, which `cilknow replay --names` replays to the same outcome, with just the packets that the actors say that they sent. Traces
that are changed are refused.

Strangers send what they have, also recorded datagrams a thousand times, cut off, changed, from elsewhere or of other jobs, which changes no
outcome; beside the other rows a network is gone for ten seconds; workers wait for a house that starts late; what is refused is refused with
its number or a plain word; the launchers of examples/machines, what is told on a terminal, and a host that is compiled against what `make
install` wrote. What this machine doesn't have is left out, and said. The last line counts; the status is 1 where anything failed.
"""
import filecmp
import os
import random
import re
import resource
import selectors
import shutil
import signal
import socket
import subprocess
import sys
import tempfile
import threading
import time

from common import EXAMPLES, TOP, Tally, Terminal

FOLDER = os.path.abspath(sys.argv[1])
PROGRAM = os.path.abspath(sys.argv[2])
RUNS = int(sys.argv[3]) if sys.argv[3:4] not in ([], ["--only"]) else 12
ONLY = sys.argv[-1] if sys.argv[-2] == "--only" else None
PLAIN, SANITIZED = FOLDER, f"{FOLDER}/sanitized"
# (an actor's job stays until its process ends)
os.environ["ASAN_OPTIONS"] = "detect_leaks=0"
FIB, INPUT, VALUE = f"{EXAMPLES}/fib.ck", "36", "value 14930352"
STORE = 4360
TENTH = ("--lose", "10", "--repeat", "10", "--late", "10")

CHECKS = Tally()
tell = CHECKS.tell


def leaves_out(what):
    print(f"left out: {what}", flush=True)


def bound():
    """A socket with a port of its own."""
    it = socket.socket(socket.AF_INET, socket.SOCK_DGRAM)
    it.bind(("127.0.0.1", 0))
    return it


def port_of(it):
    return it.getsockname()[1]


def free_port():
    with bound() as it:
        return port_of(it)


class Job:
    """A house and workers of a job, in a folder of their own."""

    def __init__(self, folder, text=FIB, inputs=(INPUT,), faults=(), programs=PLAIN):
        self.folder, self.text, self.inputs, self.faults, self.programs = folder, text, inputs, faults, programs
        self.port, self.key, self.store = free_port(), f"{folder}/key", f"{folder}/store"
        self.started = []
        with open(self.key, "wb") as it:
            it.write(os.urandom(32))

    def begin(self, *words, **how):
        process = subprocess.Popen((f"{self.programs}/cilknow-node", *words), stdout=subprocess.PIPE, stderr=subprocess.PIPE, text=True, **how)
        self.started.append(process)
        return process

    def house(self, *words):
        at = f"127.0.0.1:{self.port}"
        return self.begin("house", self.text, *self.inputs, "--store", self.store, "--listen", at, "--key", self.key, "--stats", *self.faults, *words)

    def worker(self, *words, port=None, **how):
        return self.begin("worker", "--join", f"127.0.0.1:{port or self.port}", "--key", self.key, "--stats", *self.faults, *words, **how)

    def is_up(self):
        """Waits until the house has made its store; it answers then, and hears what it is told."""
        for _ in range(500):
            if os.path.exists(self.store) and os.path.getsize(self.store) == STORE:
                return
            time.sleep(0.02)

    def end(self):
        for process in self.started:
            if process.poll() is None:
                process.kill()
            process.communicate()


def told(process, seconds=60):
    """What a process prints until it ends: its status, and both outputs."""
    try:
        out, err = process.communicate(timeout=seconds)
    except subprocess.TimeoutExpired:
        process.kill()
        out, err = process.communicate()
        return None, out, err
    return process.returncode, out, err


def counted(err, name):
    """What the lines of --stats with this name count, of all workers together."""
    lines = (line.rpartition(" ") for line in err.splitlines())
    return sum(int(number) for before, _, number in lines if before == name)


def answered_again(job):
    """Whether a house that starts over the file answers at once."""
    begun = time.monotonic()
    status, out, err = told(job.house(), 10)
    return (status, out) if time.monotonic() - begun < 2 else (err, "late")


def merged(folder, script):
    """Puts the traces of a folder into one order, as a script; the process that did."""
    return subprocess.run((PROGRAM, "merge", folder, "-o", script), capture_output=True, text=True, timeout=120)


def named(script, text, inputs):
    """Replays a script, whose packets have the names that it tells."""
    return subprocess.run((PROGRAM, "replay", text, script, "--names", *inputs), capture_output=True, text=True, timeout=120)


def names_in(folder):
    """How many packets the traces of a folder tell as sent."""
    return sum(text.count("\n# sent ") for _, text in texts_in(folder))


def texts_in(folder):
    found = []
    for name in sorted(os.listdir(folder)):
        with open(f"{folder}/{name}", encoding="ascii") as it:
            found.append((name, it.read()))
    return found


def replayed(folder, text, inputs, outcome, what):
    """Whether the traces are of one run that the program replays, with just the packets that they tell."""
    with tempfile.TemporaryDirectory() as other:
        done = merged(folder, f"{other}/script")
        if not tell(done.returncode == 0, f"{what}: merged: {done.returncode} {done.stderr}"):
            return
        done = named(f"{other}/script", text, inputs)
    lines = done.stdout.splitlines()
    tell(done.returncode == 0 and f"outcome {outcome}" in lines and f"packets {names_in(folder)}" in lines, f"{what}: replayed: {done.returncode} {done.stdout} {done.stderr}")


def forged():
    """Traces in which a line is left out, changed, or of nobody: they are refused, and it is told whose line it is."""
    with tempfile.TemporaryDirectory() as folder, tempfile.TemporaryDirectory() as other:
        script, text, inputs = f"{other}/script", f"{EXAMPLES}/fib.ck", ("12",)
        words = (f"{PLAIN}/arrays", text, "3", "5", "10", "10", "6", "0", folder, *inputs)
        tell(subprocess.run(words, capture_output=True, timeout=60).returncode == 0, f"{words}")
        whole = dict(texts_in(folder))
        replayed(folder, text, inputs, "value 144", "traces before they are changed")
        node = max((name for name in whole if name != "house.trace"), key=lambda name: len(whole[name]))

        def changed(name, lines, step, status, says, what):
            with open(f"{folder}/{name}", "w", encoding="ascii") as it:
                it.write("".join(lines))
            done = merged(folder, script)
            if step == "replay" and tell(done.returncode == 0, f"{what}: merged: {done.stderr}"):
                done = named(script, text, inputs)
            tell(done.returncode == status and says in done.stderr, f"{what}: {done.returncode} {done.stderr}")
            with open(f"{folder}/{name}", "w", encoding="ascii") as it:
                it.write(whole[name])

        def at(name, word):
            lines = whole[name].splitlines(keepends=True)
            return lines, [k for k, line in enumerate(lines) if line.startswith(word)]

        lines, turns = at(node, "exec ")
        changed(node, lines[:turns[0]] + lines[turns[0] + 1:], "replay", 1, node.removesuffix(".trace"), "a turn is left out")
        lines, taken = at(node, "# take ")
        changed(node, [*lines[:taken[1]], f"# take {'0' * 32}\n", *lines[taken[1] + 1:]], "merge", 1, f"{node} line {taken[1] + 1}: a packet came that nobody sent", "a packet of nobody")
        lines, sent = at("house.trace", "# sent ")
        changed("house.trace", [*lines[:sent[-1]], f"# sent {'0' * 32}\n", *lines[sent[-1] + 1:]], "replay", 1, f"house tells in line {sent[-1] + 1}", "a packet that wasn't sent")
        lines, sent = at(node, "# sent ")
        changed(node, lines[:sent[0]] + lines[sent[0] + 1:], "merge", 1, "house.trace line", "the sending of a Join is left out")
        changed(node, [*lines, "work 5\n"], "merge", 1, f"{node} line {len(lines) + 1}: it is no line of a trace", "a line of nothing")
        changed(node, [*lines, "house-tick 7\n"], "merge", 1, f"{node} line {len(lines) + 1}: it is no event of this actor", "a moment of a node")
        changed(node, [*lines, "deliver 0 0\n"], "merge", 1, f"{node} line {len(lines) + 1}: it is no event of this actor", "a delivery by its number")
        # (the beginning of a line that an actor left which was killed)
        with open(f"{folder}/{node}", "a", encoding="ascii") as it:
            it.write("# sen")
        replayed(folder, text, inputs, "value 144", "the beginning of a line")
        done = merged(other, f"{other}/new.script")
        tell(done.returncode == 1 and "no trace" in done.stderr and not os.path.exists(f"{other}/new.script"), f"a folder without traces: {done.returncode} {done.stderr}")
        done = merged(f"{other}/none", script)
        tell(done.returncode == 4 and "No such file" in subprocess.run((PROGRAM, "merge", f"{other}/none", "--explain"), capture_output=True, text=True, timeout=60).stderr, f"no folder: {done.returncode} {done.stderr}")
        done = merged(folder, f"{folder}/{node}")
        tell(done.returncode == 2 and dict(texts_in(folder))[node].startswith(whole[node]), f"a script over a trace: {done.returncode} {done.stderr}")


def library():
    for programs in (PLAIN, SANITIZED):
        done = subprocess.run((f"{programs}/calls",), capture_output=True, text=True, timeout=60)
        tell(done.returncode == 0 and done.stdout, f"calls: {done.stderr}")
    for name, inputs, outcome in (("fib", ("15",), "value 610"), ("queens", ("5",), "value 10"), ("too_deep", ("1025",), "too deep")):
        for seed in range(1, 9):
            grain, programs = "0" if seed % 2 else "50", SANITIZED if seed == 8 else PLAIN
            with tempfile.TemporaryDirectory() as folder:
                words = (f"{programs}/arrays", f"{EXAMPLES}/{name}.ck", "3", str(seed), "10", "10", "6", grain, folder, *inputs)
                done = subprocess.run(words, capture_output=True, text=True, timeout=120)
                tell((done.returncode, done.stdout) == (0, f"{outcome}\n"), f"{words}: {done.returncode} {done.stdout} {done.stderr}")
                replayed(folder, f"{EXAMPLES}/{name}.ck", inputs, outcome, f"{name} {seed}")


def disturbed(number):
    """A run in which workers and the house end and begin."""
    with tempfile.TemporaryDirectory() as folder, tempfile.TemporaryDirectory() as traces:
        job = Job(folder, faults=(*TENTH, "--seed", str(number), "--trace", traces), programs=PLAIN if number % 2 else SANITIZED)
        chance = random.Random(number)
        try:
            house = job.house("--silence", "1")
            workers = [job.worker("--grain", "2000") for _ in range(3)]
            job.is_up()
            time.sleep(chance.uniform(0.1, 0.4))
            workers[0].kill()
            time.sleep(chance.uniform(0, 0.2))
            workers[1].send_signal(signal.SIGTERM)
            if number % 3 == 0:
                house.kill()
                told(house)
                time.sleep(chance.uniform(0, 0.3))
                house = job.house("--silence", "1")
            late = job.worker("--grain", "2000")
            status, out, err = told(house)
            tell((status, out) == (0, f"{VALUE}\n"), f"run {number}: the house: {status} {out} {err}")
            status, _, err = told(workers[1])
            tell(status == 0, f"run {number}: who was told to go: {status} {err}")
            for name, worker in (("the third worker", workers[2]), ("who came late", late)):
                # (what says that the job is over may be lost, each time, until the house is gone)
                status, _, err = told(worker, 3)
                tell(status in (0, None), f"run {number}: {name}: {status} {err}")
            tell(answered_again(job) == (0, f"{VALUE}\n"), f"run {number}: the outcome isn't there any more")
            job.end()
            replayed(traces, FIB, (INPUT,), VALUE, f"run {number}")
        finally:
            job.end()


def plain_runs():
    for number in range(1, RUNS + 1, 2):
        disturbed(number)


def sanitized_runs():
    for number in range(2, RUNS + 1, 2):
        disturbed(number)


class Between:
    """A network between workers and a house: it keeps what goes by, and keeps back the outcome of the root while it is told to."""

    def __init__(self, house, greets=()):
        # (what it sends to a worker before anything else comes to that)
        self.house, self.greets = ("127.0.0.1", house), greets
        # Where workers join, and for each, by its address, the socket from which the house hears it.
        self.door, self.ways = bound(), {}
        # What went to the house, each with the worker that sent it, and what came to which worker.
        self.seen, self.holds, self.ends = [], False, False
        self.carrier = threading.Thread(target=self.carries, daemon=True)
        self.carrier.start()

    def carries(self):
        with selectors.DefaultSelector() as ready:
            ready.register(self.door, selectors.EVENT_READ)
            while not self.ends:
                for key, _ in ready.select(0.05):
                    datagram, at = key.fileobj.recvfrom(2048)
                    if key.fileobj is not self.door:
                        self.passes(datagram, False, key.data)
                        continue
                    if at not in self.ways:
                        self.ways[at] = bound()
                        ready.register(self.ways[at], selectors.EVENT_READ, at)
                        for it in self.greets:
                            self.door.sendto(it, at)
                    self.passes(datagram, True, at)

    def passes(self, datagram, to_house, worker):
        self.seen.append((datagram, to_house, worker))
        if not (self.holds and to_house and is_outcome(datagram)):
            self.sends(datagram, to_house, worker)

    def sends(self, datagram, to_house, worker):
        """As it came: from where the house, or the worker, hears it always."""
        if to_house:
            self.ways[worker].sendto(datagram, self.house)
        else:
            self.door.sendto(datagram, worker)

    def kept(self, to_house, worker=None, most=4):
        """Datagrams that went to the house, or came to a worker: at most so many of a sort."""
        found, sorts = [], {}
        for datagram, way, at in [*self.seen]:
            if way == to_house and worker in (None, at) and (datagram, at) not in found:
                sort = sort_of(datagram)
                sorts[sort] = sorts.get(sort, 0) + 1
                if sorts[sort] <= most:
                    found.append((datagram, at))
        return found

    def end(self):
        self.ends = True
        self.carrier.join()
        for it in (self.door, *self.ways.values()):
            it.close()


# How datagrams and packets are laid out: machines/host/wire.c, docs/FORMATS.md. A packet stands behind the tag, its kind and 28 bytes.
TAG, PACKET, RESULT = 16, 45, 6


def sort_of(datagram):
    kind = datagram[TAG:TAG + 1]
    return (kind, datagram[PACKET + 3:PACKET + 4] if kind == b"P" else b"")


def is_outcome(datagram):
    """Whether it is a Result that goes to the clearinghouse, which is that of the root."""
    return sort_of(datagram) == (b"P", bytes([RESULT])) and datagram[TAG + 1] & 0x80 != 0


def is_joining(datagram):
    """Whether its tag is by the key file alone: what a worker says that joins, and the answer."""
    return datagram[TAG:TAG + 1] in (b"J", b"T")


def drained(port):
    """Waits until a process has read all that came to its port."""
    for _ in range(3000):
        with open("/proc/net/udp", encoding="ascii") as it:
            rows = [line.split() for line in it][1:]
        if not any(int(row[4].partition(":")[2], 16) for row in rows if row[1].endswith(f":{port:04X}")):
            return
        time.sleep(0.0005)


def recorded(job, *words):
    """What goes by in a run of a job, to the house and to its worker."""
    net = Between(job.port)
    try:
        house = job.house(*words)
        job.is_up()
        worker = job.worker(port=port_of(net.door))
        status, out, err = told(house)
        tell(status == 0 and told(worker)[0] == 0, f"a run that is recorded: {status} {out} {err}")
    finally:
        job.end(), net.end()
    sorts = {sort[0] for sort in map(sort_of, (it for it, _, _ in net.seen))}
    tell({b"J", b"T", b"P", b"O", b"A"} <= sorts, f"a run that is recorded: {sorts}")
    return [it for it, _ in net.kept(True)], [it for it, _ in net.kept(False)]


class Runs:
    """Functions that run at once, and what each gives."""

    def __init__(self, *functions):
        self.gave = [None] * len(functions)
        self.threads = [threading.Thread(target=self.run, args=it) for it in enumerate(functions)]
        for it in self.threads:
            it.start()
        for it in self.threads:
            it.join()

    def run(self, number, function):
        self.gave[number] = function()


def of_other_jobs(job, folder):
    """Datagrams of other runs: those whose key is the same, of another job, program or input, and those of another key. Each as a pair: what
    went to the house, and what came to the worker."""
    with open(f"{folder}/other.ck", "w", encoding="utf-8") as other, open(FIB, encoding="utf-8") as it:
        # (a program is the same where only blanks or comments differ)
        other.write(re.sub(r"\bsum\b", "plus", it.read()))
    made = []
    for name, text, inputs, words in (("number", FIB, job.inputs, ("--job", "2")), ("program", f"{folder}/other.ck", job.inputs, ()),
                                      ("input", FIB, ("29",), ()), ("key", FIB, job.inputs, ())):
        os.mkdir(f"{folder}/other_{name}")
        one = Job(f"{folder}/other_{name}", text=text, inputs=inputs)
        if name != "key":
            shutil.copy(job.key, one.key)
        made.append(lambda one=one, words=words: recorded(one, *words))
    return Runs(*made).gave


def spoiled(datagram, chance):
    """A datagram cut off at several lengths, and with one byte changed."""
    for length in (0, 1, TAG - 1, TAG, TAG + 1, len(datagram) // 2, len(datagram) - 1):
        yield datagram[:length]
    for at in (0, TAG - 1, TAG, TAG + 1, len(datagram) // 2, len(datagram) - 1):
        yield datagram[:at] + bytes([datagram[at] ^ chance.randrange(1, 256)]) + datagram[at + 1:]


def noise(chance):
    for _ in range(200):
        yield chance.randbytes(chance.randrange(1, 1500))
        yield b"\0" * TAG + b"P" + chance.randbytes(60)


class Stranger:
    """Who sends what isn't theirs, as often as it is said, and no faster than it is read."""

    def __init__(self, net):
        # How often it repeated what went to whom, and what that has to drop.
        self.net, self.own, self.count, self.repeated, self.dropped = net, bound(), 0, {}, {}

    def paces(self, port):
        self.count += 1
        if self.count % 100 == 0:
            drained(port)

    def repeats(self, datagram, to_house, worker, times):
        """As if the network did it."""
        to = self.net.house if to_house else worker
        for _ in range(times):
            self.net.sends(datagram, to_house, worker)
            self.paces(to[1])
        self.repeated[to] = self.repeated.get(to, 0) + times

    def sends(self, datagrams, to, is_dropped):
        """From a port of its own. Where they are to be dropped, they are counted."""
        for datagram in datagrams:
            self.own.sendto(datagram, to)
            self.paces(to[1])
            if is_dropped:
                self.dropped[to] = self.dropped.get(to, 0) + 1
        drained(to[1])


def attacks(net, workers, others):
    """All of it, on the house and on the workers; how often datagrams were repeated to each of them, and how many it has to drop."""
    chance, stranger = random.Random(1), Stranger(net)
    targets = [(net.house, net.kept(True)), *((it, net.kept(False, it)) for it in workers)]
    for (to, genuine), is_house in zip(targets, (True, False, False)):
        tell(len(genuine) >= 2, f"strangers: {len(genuine)} datagrams were recorded")
        for datagram, worker in genuine:
            stranger.repeats(datagram, is_house, worker, 1000)
        drained(to[1])
        # (from another port, also what went to another one: whom it answers is told anew by the next one that comes from the right port)
        for _, of_one in targets:
            stranger.sends([it for it, _ in of_one] * 3, to, False)
        for datagram, _ in genuine:
            stranger.sends(spoiled(datagram, chance), to, True)
        for number, of_other in enumerate(others):
            datagrams = of_other[0] + of_other[1]
            # (by the key file alone who joins is answered, whatever the job is)
            is_other_key = number == len(others) - 1
            stranger.sends([it for it in datagrams if is_joining(it)], to, is_other_key)
            stranger.sends([it for it in datagrams if not is_joining(it)], to, True)
        stranger.sends(noise(chance), to, True)
    stranger.own.close()
    return stranger.repeated, stranger.dropped


def strangers():
    """Datagrams that are none of this run's, or come where or when they shouldn't: the outcome is the right one, and the certificate is taken."""
    with tempfile.TemporaryDirectory() as folder, tempfile.TemporaryDirectory() as traces:
        os.mkdir(f"{folder}/job")
        job = Job(f"{folder}/job", inputs=("33",), faults=("--trace", traces))
        others = of_other_jobs(job, folder)
        of_key = Job(folder)
        of_key.port = job.port
        # (whoever joins hears of other jobs first)
        greets = [it for _, to_worker in others for it in to_worker if is_joining(it)]
        net = Between(job.port, greets)
        net.holds = True
        try:
            house = job.house("--silence", "30")
            job.is_up()
            outsider = of_key.worker("--patience", "3")
            workers = [job.worker("--grain", "5000", port=port_of(net.door)) for _ in range(2)]
            for _ in range(200):
                if len(net.ways) == 2 and all(len(net.kept(False, it)) >= 5 for it in [*net.ways]):
                    break
                time.sleep(0.01)
            repeated, dropped = attacks(net, [*net.ways], others)
            tell(house.poll() is None, "strangers: the house ends before the outcome comes")
            net.holds = False
            status, out, err = told(house)
            tell((status, out) == (0, "value 3524578\n"), f"strangers: {status} {out} {err}")
            # (who has another key is dropped, too, when it asks)
            tell(0 <= counted(err, "datagrams dropped") - dropped[net.house] < 50, f"strangers: the house: {err} of {dropped[net.house]}")
            tell(counted(err, "datagrams that came") >= repeated.pop(net.house), f"strangers: the house: {err}")
            # (of what it hears when it joins, only what another key has tagged)
            of_greets = sum(is_joining(it) for it in others[-1][1])
            told_dropped = []
            for worker in workers:
                status, _, err = told(worker)
                tell(status == 0 and counted(err, "datagrams that came") >= min(repeated.values()), f"strangers: a worker: {status} {err}")
                told_dropped.append(counted(err, "datagrams dropped"))
            wanted = [count + of_greets for to, count in dropped.items() if to != net.house]
            tell(sorted(told_dropped) == sorted(wanted), f"strangers: the workers dropped {told_dropped}, and {wanted} were sent")
            tell(told(outsider)[0] == 3, "strangers: who has another key gets no job")
            job.end()
            replayed(traces, FIB, job.inputs, "value 3524578", "strangers")
        finally:
            job.end(), of_key.end(), net.end()


def late_house():
    """Workers that wait for a house; several bodies in one command; a house that is asked to end."""
    with tempfile.TemporaryDirectory() as folder:
        job = Job(folder)
        try:
            workers = job.worker("--bodies", "3")
            time.sleep(0.3)
            house = job.house()
            status, out, err = told(house)
            tell((status, out) == (0, f"{VALUE}\n"), f"late house: {status} {out} {err}")
            tell(told(workers)[0] == 0, "late house: the workers")
        finally:
            job.end()
    with tempfile.TemporaryDirectory() as folder:
        job = Job(folder)
        try:
            house = job.house()
            job.is_up()
            house.send_signal(signal.SIGTERM)
            status, out, err = told(house, 5)
            tell((status, out) == (3, ""), f"a house that is asked to end: {status} {out} {err}")
            alone = job.worker()
            time.sleep(0.5)
            alone.send_signal(signal.SIGTERM)
            tell(told(alone, 5)[0] == 0, "a worker that is told to go before it has a job")
        finally:
            job.end()


def full_disk():
    """A store that can't be written whole: the run ends, and says so; where there is room the next one goes on."""
    with tempfile.TemporaryDirectory() as folder:
        job = Job(folder, inputs=("10",))

        def limited():
            signal.signal(signal.SIGXFSZ, signal.SIG_IGN)
            resource.setrlimit(resource.RLIMIT_FSIZE, (1000, 1000))

        words = ("house", FIB, "10", "--store", job.store, "--listen", f"127.0.0.1:{job.port}", "--key", job.key)
        done = subprocess.run((f"{PLAIN}/cilknow-node", *words), capture_output=True, text=True, timeout=30, preexec_fn=limited)
        tell(done.returncode == 3 and "the store: File too large" in done.stderr and not done.stdout, f"a full disk: {done}")
        try:
            house, worker = job.house(), job.worker()
            status, out, err = told(house)
            tell((status, out) == (0, "value 55\n"), f"a disk that has room again: {status} {out} {err}")
            tell(told(worker)[0] == 0, "a disk that has room again: the worker")
        finally:
            job.end()


def without_network():
    """A worker that holds work and that nothing reaches for longer than the others wait: it is taken for dead, and starts anew."""
    with tempfile.TemporaryDirectory() as folder:
        job = Job(folder, inputs=("36",))
        try:
            house = job.house("--silence", "1", "--linger", "5")
            deaf = job.worker("--deaf", "0.3-2.5")
            other = job.worker()
            status, out, err = told(house)
            tell((status, out) == (0, "value 14930352\n"), f"without a network: {status} {out} {err}")
            status, _, err = told(other)
            tell(status == 0, f"without a network: the other worker: {status} {err}")
            status, _, err = told(deaf, 10)
            tell(status in (0, None), f"without a network: who was deaf: {status} {err}")
        finally:
            job.end()


def link(way):
    subprocess.run(("ip", "link", "set", "lo", way), check=True, timeout=10)


def has_heard(traces, count):
    """Waits until so many workers have heard of the house, as their traces tell."""
    for _ in range(1000):
        if sum("\n# take " in text for name, text in texts_in(traces) if name != "house.trace") >= count:
            return
        time.sleep(0.02)


def cut_off():
    """A network that is gone for ten seconds, in a namespace of its own: where the house waits for two, all who were silent are dead to it, and who
    hears so starts anew; where it waits for a minute, all go on."""
    link("up")
    folders = [tempfile.TemporaryDirectory() for _ in range(4)]
    jobs, outcome = [], "value 39088169"
    try:
        for folder, traces, silence in zip(folders[:2], folders[2:], ("2", "60")):
            job = Job(folder.name, inputs=("38",), faults=("--trace", traces.name))
            jobs.append((job, traces.name, silence, job.house("--silence", silence), [job.worker() for _ in range(3)]))
        for _, traces, *_ in jobs:
            has_heard(traces, 3)
        time.sleep(0.1)
        link("down")
        time.sleep(10)
        tell(all(house.poll() is None for _, _, _, house, _ in jobs), "cut off: a run was over too early, or none of it outlives its network")
        link("up")
        for job, traces, silence, house, workers in jobs:
            what = f"cut off, silence {silence}"
            status, out, err = told(house, 100)
            tell((status, out) == (0, f"{outcome}\n"), f"{what}: the house: {status} {out} {err}")
            ended = [told(it, 10) for it in workers]
            tell([it[0] for it in ended] == [0] * 3, f"{what}: the workers: {ended}")
            starts = sum(counted(it[2], "starts") for it in ended)
            tell(starts == 3 if silence == "60" else starts > 3, f"{what}: {starts} starts")
            replayed(traces, FIB, job.inputs, outcome, what)
    finally:
        for job, *_ in jobs:
            job.end()
        for it in folders:
            it.cleanup()


def on_terminal():
    """What takes longer than two seconds tells on a terminal how far it has come, in one line, which is taken away; what is shorter tells nothing."""
    line, wiped = rb"\r(\d+) events, \d+ a second, (\d+) packets", rb"\r\x1b\[K"
    with tempfile.TemporaryDirectory() as folder:
        job = Job(folder, inputs=("70",))
        of_house, of_workers = Terminal(), Terminal()
        at = ("--listen", f"127.0.0.1:{job.port}", "--key", job.key)
        try:
            house = subprocess.Popen((f"{PLAIN}/cilknow-node", "house", FIB, "70", "--store", job.store, *at), stdout=of_house.given, stderr=of_house.given)
            workers = subprocess.Popen((f"{PLAIN}/cilknow-node", "worker", "--join", at[1], *at[2:], "--bodies", "2", "--grace", "1"), stderr=of_workers.given)
            job.started += [house, workers]
            time.sleep(1.5)
            tell(not of_house.told and not of_workers.told, f"on a terminal: too early: {of_house.told} {of_workers.told}")
            time.sleep(2.5)
            workers.terminate()
            tell(workers.wait(20) == 0, "on a terminal: workers that are told to go")
            house.terminate()
            tell(house.wait(20) == 3, "on a terminal: a house that is told to go")
        finally:
            job.end()
        told_there = of_house.ended()
        tell(re.fullmatch(rb"(?:" + line + rb", 2 workers seen\x1b\[K)+" + wiped + rb"cilknow-node: there is no outcome yet[^\r]*\r\n", told_there), f"on a terminal: the house: {told_there}")
        told_there = of_workers.ended()
        tell(re.match(rb"(?:" + line + rb"\x1b\[K)+" + wiped, told_there) and told_there.count(b"\n") <= 2, f"on a terminal: the workers: {told_there}")
        events = [int(it[0]) for it in re.findall(line, told_there)]
        tell(events and 0 < events[0] and events == sorted(events), f"on a terminal: {events}")
        # a run that is short
        os.remove(job.store), os.remove(f"{job.store}.job")
        shown = Terminal()
        house = subprocess.Popen((f"{PLAIN}/cilknow-node", "house", FIB, "10", "--store", job.store, *at), stdout=shown.given, stderr=shown.given)
        job.started.append(house)
        worker = job.worker()
        tell(house.wait(20) == 0 and told(worker)[0] == 0, "on a terminal: a short run")
        told_there = shown.ended()
        tell(told_there == b"value 55\r\n", f"on a terminal: a short run: {told_there}")


def flags_of(root):
    """How a program is compiled against what lies below a folder, by pkg-config where it is there, and else as its file says."""
    folder = f"{root}/usr/local/lib/pkgconfig"
    if shutil.which("pkg-config"):
        at = {**os.environ, "PKG_CONFIG_LIBDIR": folder, "PKG_CONFIG_SYSROOT_DIR": root}
        done = subprocess.run(("pkg-config", "--cflags", "--libs", "cilknow"), env=at, capture_output=True, text=True, timeout=20)
        tell(done.returncode == 0, f"pkg-config: {done.returncode} {done.stderr}")
        return done.stdout.split()
    leaves_out("pkg-config, which isn't here: its file is read without it")
    with open(f"{folder}/cilknow.pc", encoding="ascii") as it:
        lines = dict(re.findall(r"(?m)^(prefix|Cflags|Libs)(?:=|: )(.*)$", it.read()))
    return f"{lines['Cflags']} {lines['Libs']}".replace("${prefix}", root + lines["prefix"]).split()


def installed():
    """What `make install` writes, and a host that is compiled against it."""
    with tempfile.TemporaryDirectory() as folder:
        root, smallest = f"{folder}/root", f"{EXAMPLES}/machines/smallest.c"
        # (the archive is taken as it is)
        words = ("make", "-s", "-C", f"{TOP}/machines", "-o", f"{FOLDER}/libcilknow.a", f"OUT={FOLDER}", f"DESTDIR={root}", "PREFIX=/usr/local", "install")
        done = subprocess.run(words, capture_output=True, text=True, timeout=120)
        tell(done.returncode == 0, f"make install: {done.returncode} {done.stdout} {done.stderr}")
        for name, source, mode in (("include/cilknow.h", f"{TOP}/machines/cilknow.h", 0o644), ("lib/libcilknow.a", f"{FOLDER}/libcilknow.a", 0o644),
                                   ("lib/pkgconfig/cilknow.pc", f"{FOLDER}/cilknow.pc", 0o644), ("bin/cilknow-node", f"{FOLDER}/cilknow-node", 0o755)):
            path = f"{root}/usr/local/{name}"
            tell(os.path.exists(path) and filecmp.cmp(path, source, shallow=False) and os.stat(path).st_mode & 0o777 == mode, f"make install: {name}")
        flags = flags_of(root)
        words = ("cc", "-std=c11", "-Wall", "-Wextra", "-Werror", "-o", f"{folder}/smallest", smallest, *flags)
        done = subprocess.run(words, capture_output=True, text=True, timeout=60)
        tell(done.returncode == 0, f"{words}: {done.stderr}")
        for inputs, outcome in ((("20",), (0, "value 6765\n")), (("1", "2"), (1, ""))):
            done = subprocess.run((f"{folder}/smallest", FIB, *inputs), capture_output=True, text=True, timeout=60)
            tell((done.returncode, done.stdout) == outcome, f"smallest {inputs}: {done.returncode} {done.stdout} {done.stderr}")
        done = subprocess.run((f"{root}/usr/local/bin/cilknow-node", "--help"), capture_output=True, text=True, timeout=20)
        tell(done.returncode == 0 and done.stdout.startswith("usage: cilknow-node house FILE") and not done.stderr, f"--help: {done.returncode} {done.stderr}")
        if not shutil.which("c++"):
            return leaves_out("a host in C++: there is no c++")
        with open(f"{folder}/host.cc", "w", encoding="ascii") as it:
            it.write("#include <cilknow.h>\nint main() { uint8_t d[32] = {}; return cilknow_digest(d, 0, d, 31) == CILKNOW_SHORT ? 0 : 1; }\n")
        words = ("c++", "-Wall", "-Wextra", "-Werror", "-o", f"{folder}/host", f"{folder}/host.cc", *flags)
        done = subprocess.run(words, capture_output=True, text=True, timeout=60)
        tell(done.returncode == 0 and subprocess.run((f"{folder}/host",), timeout=20).returncode == 0, f"{words}: {done.stderr}")


def described():
    """The scripts are ones of bash, and the units and the file for HTCondor are taken by the programs that they are for, where these are here."""
    folder = f"{EXAMPLES}/machines"
    for name in ("by_ssh", "slurm.sbatch", "while_idle"):
        done = subprocess.run(("bash", "-n", f"{folder}/{name}"), capture_output=True, text=True, timeout=20)
        tell(done.returncode == 0 and not done.stderr and os.access(f"{folder}/{name}", os.X_OK), f"{name}: {done.stderr}")
    with tempfile.TemporaryDirectory() as home:
        os.makedirs(f"{home}/.local/bin"), os.makedirs(f"{home}/run")
        shutil.copy(f"{folder}/while_idle", f"{home}/.local/bin")
        for name, kind in (("cilknow-worker", ("--user",)), ("cilknow-worker-system", ())):
            if not shutil.which("systemd-analyze"):
                leaves_out(f"{name}.service: there is no systemd-analyze")
                continue
            with open(f"{folder}/{name}.service", encoding="utf-8") as unit, open(f"{home}/{name}.service", "w", encoding="utf-8") as it:
                it.write(unit.read().replace("/usr/local/lib/cilknow", f"{home}/.local/bin"))
            at = {**os.environ, "HOME": home, "XDG_RUNTIME_DIR": f"{home}/run"}
            done = subprocess.run(("systemd-analyze", "verify", *kind, f"{home}/{name}.service"), env=at, capture_output=True, text=True, timeout=60)
            tell(done.returncode == 0 and name not in done.stderr, f"{name}.service: {done.returncode} {done.stderr}")
        if not shutil.which("condor_submit"):
            return leaves_out("htcondor.sub: there is no condor_submit")
        words = ("condor_submit", "-dry-run", f"{home}/job", "house=127.0.0.1:7700", "count=3", f"{folder}/htcondor.sub")
        done = subprocess.run(words, capture_output=True, text=True, timeout=60, cwd=home)
        tell(done.returncode == 0, f"{words}: {done.stdout} {done.stderr}")


def by_slurm():
    """The script for Slurm with a command in place of srun, which starts two workers: to its end, and told that its time is over."""
    with tempfile.TemporaryDirectory() as folder:
        with open(f"{folder}/srun", "w", encoding="ascii") as it:
            it.write('#!/bin/bash\nshift\n"$@" & one=$!\n"$@" & two=$!\ntrap "kill $one $two" TERM\nwait $one; wait $one; wait $two\n')
        os.chmod(f"{folder}/srun", 0o755)
        jobs = []
        for name in ("done", "late"):
            os.mkdir(f"{folder}/{name}")
            at = {"PATH": f"{folder}:{PLAIN}:{os.environ['PATH']}", "PORT": str(free_port()), "STORE": f"{folder}/{name}/store", "SLURMD_NODENAME": "127.0.0.1"}
            words = (f"{EXAMPLES}/machines/slurm.sbatch", FIB, "20" if name == "done" else "70")
            jobs.append(subprocess.Popen(words, env=at, cwd=f"{folder}/{name}", stdout=subprocess.PIPE, stderr=subprocess.PIPE, text=True))
        time.sleep(1)
        jobs[1].terminate()
        for job, wanted in zip(jobs, ((0, "value 6765\n"), (3, ""))):
            status, out, err = told(job)
            tell((status, out) == wanted, f"slurm.sbatch: {status} {out} {err}")


def by_htcondor():
    """What the file for HTCondor describes, started as its manual says: each job in a folder of its own, with a copy of the files that are
    transferred alone. One of three is told that its machine is wanted back: it hands its work on and ends in its time, with the status by
    which it leaves the queue; a fourth one, which stands still, is killed behind it."""
    described = {}
    with open(f"{EXAMPLES}/machines/htcondor.sub", encoding="ascii") as it:
        for line in it:
            name, equals, value = line.partition("=")
            if equals and not line.startswith("#"):
                described[name.strip()] = value.strip()
            elif line.startswith("queue"):
                described["queue"] = line.removeprefix("queue").strip()
    given = {"house": "", "count": "4"}

    def filled(name, **own):
        return re.sub(r"\$\((\w+)\)", lambda it: {**given, **own}[it[1]], described[name])

    with tempfile.TemporaryDirectory() as folder:
        job = Job(folder, inputs=("39",))
        given["house"] = f"127.0.0.1:{job.port}"
        house = job.house()
        job.is_up()
        tell(described["executable"] == "/usr/local/bin/cilknow-node", f"htcondor.sub: {described['executable']} isn't what `make install` writes")
        end, grace, jobs = getattr(signal, described["kill_sig"]), float(described["job_max_vacate_time"]), []
        for number in range(int(filled("queue"))):
            scratch = f"{folder}/{number}"
            os.mkdir(scratch)
            for file in described["transfer_input_files"].split(","):
                shutil.copy(f"{folder}/{file.strip()}", scratch)
            with open(f"{scratch}/{filled('error', Process=str(number))}", "w", encoding="utf-8") as err:
                words = (f"{PLAIN}/{os.path.basename(described['executable'])}", *filled("arguments", Process=str(number)).split())
                jobs.append(subprocess.Popen(words, cwd=scratch, env={}, stdin=subprocess.DEVNULL, stdout=subprocess.DEVNULL, stderr=err))
        time.sleep(0.5)
        jobs[3].send_signal(signal.SIGSTOP)
        jobs[0].send_signal(end)
        # (one that takes longer is killed)
        tell(told(jobs[0], grace)[0] == 0, f"htcondor.sub: a worker that is told to go ends with {jobs[0].returncode}")
        jobs[3].kill()
        status, out, err = told(house, 120)
        tell((status, out) == (0, "value 63245986\n"), f"htcondor.sub: {status} {out} {err}")
        # (who leaves the queue is not started again)
        tell(described["on_exit_remove"] == "ExitCode =?= 0", f"htcondor.sub: {described['on_exit_remove']}")
        ended = [told(it)[0] for it in jobs]
        tell(ended == [0, 0, 0, -signal.SIGKILL], f"htcondor.sub: {ended}")


def launchers():
    """The scripts that start workers, with other commands in place of those that reach a machine."""
    described()
    with tempfile.TemporaryDirectory() as folder:
        words = {"PATH": f"{PLAIN}:{os.environ['PATH']}", "PORT": str(free_port()), "HERE": "127.0.0.1", "SSH": f"{folder}/ssh", "SCP": "true"}
        with open(f"{folder}/ssh", "w", encoding="ascii") as it:
            # (as if on that machine: there the key lies as it was copied)
            it.write('#!/bin/sh\ncp key cilknow.key; shift; exec sh -c "$*"\n')
        os.chmod(f"{folder}/ssh", 0o755)
        done = subprocess.run((f"{EXAMPLES}/machines/by_ssh", "one", "--", FIB, "20"), env={**words, "STORE": f"{folder}/store"}, cwd=folder,
                              capture_output=True, text=True, timeout=120)
        tell((done.returncode, done.stdout) == (0, "value 6765\n"), f"by_ssh: {done.returncode} {done.stdout} {done.stderr}")
    with tempfile.TemporaryDirectory() as folder:
        job = Job(folder)
        with open(f"{folder}/who", "w", encoding="ascii") as it:
            it.write(f"#!/bin/sh\ncat {folder}/users 2> /dev/null; true\n")
        os.chmod(f"{folder}/who", 0o755)
        words = {"PATH": f"{PLAIN}:{os.environ['PATH']}", "EVERY": "0.2", "WHO": f"{folder}/who", "BODIES": "2"}
        idle = subprocess.Popen((f"{EXAMPLES}/machines/while_idle", f"127.0.0.1:{job.port}", job.key), env=words)
        try:
            with open(f"{folder}/users", "w", encoding="ascii") as it:
                it.write("somebody\n")
            house = job.house()
            time.sleep(0.6)
            tell(house.poll() is None, "while_idle: somebody is logged in")
            os.remove(f"{folder}/users")
            status, out, err = told(house)
            tell((status, out) == (0, f"{VALUE}\n"), f"while_idle: {status} {out} {err}")
        finally:
            idle.terminate()
            tell(idle.wait(60) == 0, "while_idle ends")
            job.end()


def refused(job, words, status, what):
    done = subprocess.run((f"{job.programs}/cilknow-node", *words), capture_output=True, text=True, timeout=30)
    tell(done.returncode == status and what in done.stderr and not done.stdout, f"{words}: {done.returncode} {done.stdout} {done.stderr}")


def refusals():
    with tempfile.TemporaryDirectory() as folder, socket.socket(socket.AF_INET, socket.SOCK_DGRAM) as taken:
        job = Job(folder)
        taken.bind(("127.0.0.1", 0))
        at, in_use = f"127.0.0.1:{job.port}", f"127.0.0.1:{taken.getsockname()[1]}"
        own = ("--store", job.store, "--listen", at, "--key", job.key)
        with open(f"{folder}/wrong.ck", "w", encoding="utf-8") as it:
            it.write("thread main(k, n) { send_argument(k, 1) }\n")
        with open(f"{folder}/short", "w", encoding="utf-8") as it:
            it.write("short")
        with open(f"{folder}/none", "w", encoding="utf-8") as it:
            it.write("this is no store" * 400)
        for words, status, what in (
            ((), 2, "usage"),
            (("nobody",), 2, "neither `house` nor `worker`"),
            (("house", *own), 2, "FILE is missing"),
            (("house", FIB, INPUT, "--listen", at, "--key", job.key), 2, "--store PATH is missing"),
            (("house", FIB, INPUT, "--store", job.store, "--listen", at), 2, "--key FILE is missing"),
            (("house", FIB, INPUT, "--store", job.store, "--key", job.key), 2, "--listen ADDR:PORT is missing"),
            (("worker", "--key", job.key), 2, "--join ADDR:PORT is missing"),
            (("worker", FIB, "--join", at, "--key", job.key), 2, "takes no FILE"),
            (("worker", "--join", at, "--key", job.key, "--bodies", "0"), 2, "doesn't fit"),
            (("worker", "--join", at, "--key", job.key, "--store", job.store), 2, "not for a worker"),
            (("house", FIB, INPUT, *own, "--grain", "5"), 2, "not for a house"),
            (("house", FIB, "x", *own), 2, "no number"),
            (("house", FIB, "9223372036854775808", *own), 2, "no number"),
            (("house", FIB, *own, "--", "--job"), 2, "no number"),
            (("house", FIB, *("1",) * 65, *own), 2, "more than 64 inputs"),
            (("house", FIB, INPUT, *own, "--job"), 2, "no such option"),
            (("house", FIB, INPUT, *own, "--silence", "0.1"), 2, "doesn't fit"),
            (("house", FIB, INPUT, *own, "--none"), 2, "no such option"),
            (("house", f"{folder}/absent.ck", INPUT, *own), 4, "No such file"),
            (("house", f"{folder}/wrong.ck", INPUT, *own), 1, "E2"),
            (("house", FIB, *own), 1, "E21"),
            (("house", FIB, INPUT, "--store", job.store, "--listen", in_use, "--key", job.key), 4, "in use"),
            (("house", FIB, INPUT, "--store", job.store, "--listen", "nowhere", "--key", job.key), 4, "no ADDR:PORT"),
            (("worker", "--join", "no.such.host.invalid:7", "--key", job.key), 4, "no.such.host.invalid:7"),
            (("worker", "--join", at, "--key", f"{folder}/absent"), 4, "No such file"),
            (("worker", "--join", at, "--key", f"{folder}/short"), 4, "16 to 65,536 bytes"),
            (("worker", "--join", at, "--key", job.key, "--patience", "0.3"), 3, "nothing comes from"),
            (("house", FIB, INPUT, "--store", f"{folder}/none", "--listen", at, "--key", job.key), 3, "E71"),
            (("house", FIB, INPUT, "--store", f"{folder}/no/where", "--listen", at, "--key", job.key), 4, "No such file"),
        ):
            refused(job, words, status, what)
        # a store of this job, which another run has, and which other jobs don't get
        try:
            small = ("house", FIB, "10", *own)
            house = job.begin(*small)
            job.is_up()
            refused(job, ("house", FIB, "10", "--store", job.store, "--listen", f"127.0.0.1:{free_port()}", "--key", job.key), 4, "another run has it")
            worker = job.worker()
            tell(told(house, 20)[:2] == (0, "value 55\n"), "a small job")
            tell(told(worker, 20)[0] == 0, "its worker")
            refused(job, ("house", FIB, "11", *own), 3, "E70")
            refused(job, ("house", f"{EXAMPLES}/gcd.ck", "10", "4", *own), 3, "E70")
            refused(job, ("house", FIB, "10", *own, "--job", "2"), 3, "E70")
            tell(told(job.begin(*small), 20)[:2] == (0, "value 55\n"), "a small job again")
            # inputs below 0, also behind options and `--`
            for words in (("-3", *own), (*own, "-3"), (*own, "--", "-3")):
                os.remove(job.store), os.remove(f"{job.store}.job")
                house, worker = job.begin("house", FIB, *words), job.worker()
                tell(told(house, 20)[:2] == (0, "value -3\n") and told(worker, 20)[0] == 0, f"an input below 0: {words}")
        finally:
            job.end()


# So many seconds a row beside the others may take.
LONGEST = 1800


class Beside:
    """A row that runs beside the others, in a process of its own, which another command may start."""

    def __init__(self, row, *before):
        words = (*before, sys.executable, "-B", os.path.abspath(__file__), FOLDER, PROGRAM, str(RUNS), "--only", row.__name__)
        self.row, self.process = row.__name__, subprocess.Popen(words, stdout=subprocess.PIPE, text=True)

    def end(self):
        status, out, _ = told(self.process, LONGEST)
        counts = re.fullmatch(r"(?s)(.*\n)?(\d+) passed, (\d+) failed\n", out)
        if tell(counts and (status == 0) == (counts[3] == "0"), f"{self.row}: {status} {out}"):
            print(counts[1] or "", end="", flush=True)
            CHECKS.passed += int(counts[2])
            CHECKS.failed += int(counts[3])


def has_namespaces():
    if not shutil.which("unshare") or not shutil.which("ip"):
        return False
    return subprocess.run(("unshare", "-rn", "ip", "link", "set", "lo", "up"), capture_output=True, timeout=20).returncode == 0


def main():
    beside = [Beside(sanitized_runs), Beside(on_terminal), Beside(by_slurm), Beside(by_htcondor)]
    if has_namespaces():
        beside.append(Beside(cut_off, "unshare", "-rn"))
    else:
        leaves_out("a network that is gone for ten seconds: no namespaces are allowed here")
    for row in ROWS:
        row()
    for it in beside:
        it.end()


ROWS = (library, forged, plain_runs, strangers, late_house, without_network, full_disk, installed, launchers, refusals)
if ONLY:
    {it.__name__: it for it in (*ROWS, sanitized_runs, on_terminal, by_slurm, by_htcondor, cut_off)}[ONLY]()
else:
    main()
sys.exit(CHECKS.end())
