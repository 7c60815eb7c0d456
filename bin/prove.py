"""Proves and builds a program and the libraries below it: libraries side by side, the one with the longest chain of
others behind it first, each with its share of the processors that are free, and then the program. (`rt run` proves
one after the other.) What is proved stays where this is broken off.

usage: bin/prove.py PROGRAM, as bin/proved does; or that of a static library, as bin/library does, which proves and
builds the libraries below it alone

It says at its start about how long it will take, by what each crate took last (docs/times.tsv), and then as each one
is done. It goes by the toolchain's own parts and takes the locks that `rt all` takes, so that no other `rt` works on
these crates meanwhile. A library that another clone on this machine has proved, from the same files over the same
libraries, is taken from there, where the toolchain keeps such work. What each proof printed stands in the crate's
out/build.log.

Where the program is proved, out/PROGRAM.proved says which file it is, so that another one in its place isn't taken
for it. The status is 5 where a proof fails.
"""
import importlib.machinery
import importlib.util
import os
import shutil
import subprocess
import sys
import threading
import time
from concurrent.futures import FIRST_COMPLETED, ThreadPoolExecutor, wait

sys.dont_write_bytecode = True
TOP = os.path.dirname(os.path.dirname(os.path.realpath(__file__)))
TIMES = f"{TOP}/docs/times.tsv"
# a library's proof takes one to four gigabytes
MEMORY = 4_000_000
FAILED = 5
# Processor minutes of a crate of which none are known, for a thousand lines.
MINUTES = 4
# So often a proof that goes on is told, in seconds.
EVERY = 300


def toolchain():
    """Loads what `rt` is made of, and has it take over what other clones have proved."""
    command = load_command()
    # (earlier releases of the toolchain take over nothing from other clones)
    if hasattr(command, "share_work"):
        command.share_work(True)
    remember_sums(command.rtlib)
    return command.rtlib


def load_command():
    """Loads the command `rt`."""
    if shutil.which("rt") is None:
        print("missing: the command `rt`, of the toolchain", file=sys.stderr)
        sys.exit(2)
    page = subprocess.run(["rt", "doc"], stdout=subprocess.PIPE, check=True, text=True).stdout.strip()
    loader = importlib.machinery.SourceFileLoader("rt_command", f"{os.path.dirname(page)}/bin/rt")
    command = importlib.util.module_from_spec(importlib.util.spec_from_loader("rt_command", loader))
    sys.modules["rt_command"] = command
    loader.exec_module(command)
    command.rtlib.guarded()
    return command


def remember_sums(rtlib):
    """Has a crate's sum take those of the libraries below from memory: earlier releases make one for each path that
    leads to a library. These files are locked meanwhile; a crate's own are read anew each time, so that a change
    while it is proved is seen."""
    whole, sums, asked = rtlib.Crate.stamp, {}, threading.local()

    def stamp(crate):
        is_below = getattr(asked, "inside", False)
        if not is_below or crate.folder not in sums:
            asked.inside = True
            try:
                sums[crate.folder] = whole(crate)
            finally:
                asked.inside = is_below
        return sums[crate.folder]

    rtlib.Crate.stamp = stamp


def free_lanes():
    """How many processors may be used: all, or fewer where memory is short."""
    with open("/proc/meminfo", encoding="utf-8") as it:
        memory = dict(line.split(":") for line in it)["MemAvailable"]
    return max(1, min(len(os.sched_getaffinity(0)), int(memory.split()[0]) // MEMORY))


def minutes_of(crates):
    """The processor minutes that each crate's proof took last; by its lines, where that isn't known."""
    took = {}
    if os.path.isfile(TIMES):
        with open(TIMES, encoding="utf-8") as it:
            rows = [line.rstrip("\n").split("\t") for line in it if not line.startswith("#")]
        took = {row[0]: float(row[1]) for row in rows if len(row) > 1 and row[1]}
    return {name: took.get(name, crate.count(rb"\n") * MINUTES / 1000) for name, crate in crates.items()}


class Chain:
    """The crates that a program is made of, itself the last one: what each takes, what it stands on, and what is left
    to prove."""

    def __init__(self, crates, lanes):
        self.crates, self.lanes, self.minutes = crates, lanes, minutes_of(crates)
        self.below = {name: {it.name for it in crate.below()} for name, crate in crates.items()}
        self.done = set()
        # (what stands on more comes later, so it is known first from behind)
        self.order = sorted(crates, key=lambda it: len(self.below[it]))
        self.left = list(self.order)

    def behind(self):
        """The minutes of the longest chain from each crate on upwards, of those that are left."""
        long = {}
        for name in reversed(self.order):
            above = [long[it] for it in self.order if name in self.below[it]]
            long[name] = (0 if name in self.done else self.minutes[name]) + max(above, default=0)
        return long

    def estimate(self):
        """About how many minutes what is left will take: no less than its longest chain, nor than its share of each
        processor."""
        whole = sum(self.minutes[it] for it in self.crates if it not in self.done)
        return max(whole / self.lanes, max(self.behind().values(), default=0))


def build(rtlib, crate, jobs):
    """Proves and builds a crate; its status."""
    os.makedirs(f"{crate.folder}/out", exist_ok=True)
    with open(f"{crate.folder}/out/build.log", "w", encoding="utf-8", errors="replace") as crate.out:
        if not crate.is_program:
            return crate.build_rlib(["--jobs", str(jobs)], anew=False)
        crate.held = []
        # (it is run too, and may end with any status; that it is proved is what its stamp says)
        crate.run(["--jobs", str(jobs)], ["--version"])
        return 0 if is_stamped(rtlib, crate) else FAILED


def is_stamped(rtlib, crate):
    """Whether the toolchain's own stamp says that the program is proved, from the files that are there."""
    program = f"{crate.folder}/out/{crate.name}"
    stamp = rtlib.text_of(f"{program}.stamp")
    linked = "".join(map(rtlib.sum_of, crate.c_code()))
    return stamp is not None and os.path.isfile(program) and stamp == crate.stamp() + linked + rtlib.sum_of(program)


def told(minutes):
    return "less than a minute" if minutes < 1 else f"about {minutes:.0f} min"


def say(text):
    print(text, file=sys.stderr, flush=True)


def prove(rtlib, chain):
    """Builds what is left, and returns the first crate whose proof fails, if one does."""
    begun, running, count = time.time(), {}, len(chain.left)
    with ThreadPoolExecutor(chain.lanes) as pool:
        while chain.left or running:
            behind = chain.behind()
            ready = sorted((it for it in chain.left if chain.below[it] <= chain.done), key=lambda it: -behind[it])
            for at, name in enumerate(ready):
                idle = chain.lanes - sum(jobs for _, jobs in running.values())
                if idle > 0:
                    # (those that take much less don't count: a crate can't have more jobs once it has begun)
                    rivals = sum(chain.minutes[it] * 4 >= chain.minutes[name] for it in ready[at:])
                    jobs = max(1, min(4, idle // rivals))
                    chain.left.remove(name)
                    running[pool.submit(build, rtlib, chain.crates[name], jobs)] = name, jobs
            ended = wait(running, timeout=EVERY, return_when=FIRST_COMPLETED).done
            if not ended:
                say(f"after {(time.time() - begun) / 60:.0f} min: at {', '.join(name for name, _ in running.values())}")
            for it in ended:
                name, _ = running.pop(it)
                if it.result():
                    pool.shutdown(wait=False, cancel_futures=True)
                    return name
                chain.done.add(name)
                left = f"{told(chain.estimate())} left" if chain.left or running else "all"
                number = count - len(chain.left) - len(running)
                say(f"proved {number} of {count} after {(time.time() - begun) / 60:.0f} min: {name}; {left}")
    return None


def mark(program):
    """Says beside a program that it is the proved one."""
    of_file = os.stat(program)
    with open(f"{program}.proved", "w", encoding="utf-8") as it:
        it.write(f"{of_file.st_ino} {of_file.st_size} {int(of_file.st_mtime)}\n")


def stamp_libraries(name):
    """Says of each library below a crate that it is proved from the files that are there. To be called behind `rt ci`,
    which has just proved and built it in this place, and leaves it without the stamp by which `rt lib` knows that."""
    rtlib = toolchain()
    of_name = {it.name: it for it in rtlib.crates_below(f"{TOP}/crates")}
    for crate in of_name[name].below():
        if os.path.isfile(f"{crate.rlib}/format"):
            with open(f"{os.path.dirname(crate.rlib)}/stamp", "w", encoding="utf-8") as it:
                it.write(crate.stamp())


def main(words):
    if len(words) != 1 or words[0].startswith("-"):
        print(__doc__, file=sys.stderr)
        return 2
    rtlib, (program,) = toolchain(), words
    os.chdir(f"{TOP}/crates")
    whole = {it.name: it for it in rtlib.crates_below(os.getcwd())}
    if program not in whole or not (whole[program].is_program or whole[program].is_static):
        say(f"there is no program {program}")
        return 2
    top = [whole[program]] if whole[program].is_program else []
    crates = {it.name: whole[it.name] for it in [*whole[program].below(), *top]}
    chain = Chain(crates, free_lanes())
    held = rtlib.lock(list(crates.values()))
    for name in chain.order:
        crate = crates[name]
        if chain.below[name] <= chain.done and (is_stamped(rtlib, crate) if crate.is_program else crate.is_built()):
            chain.done.add(name)
            chain.left.remove(name)
    if chain.left:
        count, and_it = len(chain.left) - (program in chain.left), " and the program" if top else ""
        say(f"{program}: {count} of {len(crates) - len(top)} libraries{and_it} have to be proved on {chain.lanes} "
            f"processors, by what they took last in {told(chain.estimate())}, or more where these have other work")
        failed = prove(rtlib, chain)
        if failed:
            say(f"the proof of {failed} failed: {crates[failed].folder}/out/build.log")
            os._exit(FAILED)
    if top:
        mark(f"{crates[program].folder}/out/{program}")
    del held
    return 0


if __name__ == "__main__":
    try:
        sys.exit(main(sys.argv[1:]))
    except KeyboardInterrupt:
        os._exit(130)
