#!/usr/bin/env -S python3 -B
"""Tries the examples in the help of each command, and compares what docs/COMMANDS.md says of its options with its help.

Usage: tests/check_help.py [CILKNOW [NOWSIM]], by default bin/cilknow and bin/nowsim.

Each command's help has two examples or more. They are run in their order in a folder with examples/fib.ck and examples/traces, those of
`run` and `merge` first, since they write the files that others read; each has to end with status 0. In docs/COMMANDS.md the lines under `## Use` name each command with its
options, which have to be those of its help, beside `--explain`. The last line counts; the status is 1 where anything failed.
"""
import os
import re
import shutil
import subprocess
import sys
import tempfile

from common import EXAMPLES, TOP, Tally

PROGRAMS = {"cilknow": f"{TOP}/bin/cilknow", "nowsim": f"{TOP}/bin/nowsim"}
PROGRAMS.update(zip(PROGRAMS, map(os.path.abspath, sys.argv[1:])))
COMMANDS = [["cilknow", it] for it in ("run", "check", "print", "serial", "merge", "replay", "draw", "store")] + [["nowsim"]]
# (those of every command stand in the page's text)
EVERYWHERE = {"--explain", "--help", "--version"}

CHECKS = Tally()
tell = CHECKS.tell


def called(words, folder=None):
    return subprocess.run([PROGRAMS[words[0]], *words[1:]], cwd=folder, stdin=subprocess.DEVNULL, capture_output=True, text=True, timeout=60)


def used():
    """The options that docs/COMMANDS.md names for each command."""
    with open(f"{TOP}/docs/COMMANDS.md", encoding="utf-8") as it:
        part = it.read().split("\n## Use\n\n")[1].split("\n\n")[0]
    found = {}
    for entry in re.split(r"\n +(?=bin/)", "\n" + part)[1:]:
        words = entry.split()
        name = (words[0].removeprefix("bin/"), words[1]) if words[0] == "bin/cilknow" else (words[0].removeprefix("bin/"),)
        found[name] = {*re.findall(r"--[a-z]+", entry.replace("[-o ", "[--out "))}
    return found


def main():
    said = used()
    tell({*said} == {tuple(it) for it in COMMANDS}, f"docs/COMMANDS.md has the commands {sorted(said)}")
    with tempfile.TemporaryDirectory() as folder:
        shutil.copy(f"{EXAMPLES}/fib.ck", folder)
        shutil.copytree(f"{EXAMPLES}/traces", f"{folder}/traces")
        for command in COMMANDS:
            name = " ".join(command)
            ran = called([*command, "--help"])
            tell(ran.returncode == 0 and not ran.stderr, f"{name} --help: {ran.returncode} {ran.stderr}")
            options = {*re.findall(r"--[a-z]+", ran.stdout.split("Examples:")[0])} - EVERYWHERE
            tell(options == said.get(tuple(command), set()), f"{name}: docs/COMMANDS.md has {said.get(tuple(command))}, its help {options}")
            tell("\nStatus:\n" in ran.stdout, f"{name}: no statuses")
            examples = re.findall(rf"^  ({command[0]} .*)$", ran.stdout.split("Examples:")[-1], re.M)
            tell(len(examples) >= 2, f"{name}: {len(examples)} examples")
            for example in examples:
                ran = called(example.split(), folder)
                tell(ran.returncode == 0 and (ran.stdout or " -o " in example) and not ran.stderr, f"{example}: {ran.returncode} {ran.stdout}{ran.stderr}")
    return CHECKS.end()


if __name__ == "__main__":
    sys.exit(main())
