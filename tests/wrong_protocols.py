"""Tries wrong protocols: edits of definitions, each a way to break the protocol, which the proof of a law has to
refuse.

usage: bin/wrong_protocols [NAME..]            tries the edits wrong-protocols/NAME.edit, all where none is named
       bin/wrong_protocols --right CRATE LAW   tries a law without any edit, as `checkpoint laws::a_commit_at_any_moment`
       bin/wrong_protocols --look              looks whether each edit can be made, and names what is there

An edit has lines `what:` (what is broken), `law:` (a crate and its function whose contract is the law), one or more
`fails:` (the files of lemmas of which one has to fail), and then lines `file:`, `old:` and `new:` as an edit of
must-fail/ has them, by paths from the top of the repository on.

It is tried in a copy of the sources that goes away at the end. The prover reads the libraries below from their
sources, so nothing has to be proved before, and code that doesn't meet the changed definition doesn't matter: what is
looked at is the law. It takes some minutes. For each edit a line says

  refused      a lemma fails in a file that the edit names; that is told
  ELSEWHERE    lemmas fail in other files alone
  NOT REFUSED  the law is still proved
  NO ANSWER    neither: what the prover said last is told

The last line counts; the status is 0 only where each is refused.
"""
import os
import re
import shutil
import signal
import subprocess
import sys
import tempfile
import time

from common import CRATES, TOP, Tally, crates, files_in, module_in, read, write

FOLDER = f"{TOP}/wrong-protocols"
REFUSED, ELSEWHERE, NOT_REFUSED, NO_ANSWER = SORTS = "refused", "ELSEWHERE", "NOT REFUSED", "NO ANSWER"
PARTS = ("src", "specs", "proofs")


class Edit:
    """What an edit says: the law, the files that have to fail, and the pairs of texts by file. `fault` says why it
    can't be made."""

    def __init__(self, path):
        self.name = os.path.basename(path).removesuffix(".edit")
        self.pairs, self.fails, self.law, self.what = [], [], "", ""
        file = old = ""
        for line in read(path).splitlines():
            word, _, text = line.partition(": ")
            if word == "old":
                old = text
            elif word == "new":
                self.pairs.append((file, old, text))
            elif word == "file":
                file = text
            elif word == "fails":
                self.fails.append(text)
            elif word in ("law", "what"):
                setattr(self, word, text)
        self.fault = self.why_not()

    def why_not(self):
        """Why it can't be made; none where it can."""
        crate, _, law = self.law.partition(" ")
        code = "".join(map(read, files_in(f"{CRATES}/{crate}/src", ".rt")))
        if not self.what or not re.search(rf"\bfn {law.split('::')[-1]}\b", code):
            return f"it names no law that is there: {self.law or 'none'}"
        missing = [it for it in self.fails if not os.path.isfile(f"{TOP}/{it}")]
        if missing or not self.fails:
            return f"it names no file of lemmas that is there: {' '.join(missing) or 'none'}"
        texts = {}
        for file, old, new in self.pairs:
            if not re.fullmatch(r"crates/\w+/specs/[\w/]+\.antt", file) or not os.path.isfile(f"{TOP}/{file}"):
                return f"{file} is no file of definitions"
            text = texts.setdefault(file, read(f"{TOP}/{file}"))
            if text.count(old) != 1:
                return f"a text to be replaced stands {text.count(old)} times in {file}: {old}"
            texts[file] = text.replace(old, new)
        return None if texts else "it changes nothing"

    def make(self, room):
        """Makes the edit in a copy."""
        for file, old, new in self.pairs:
            write(f"{room}/{file}", read(f"{room}/{file}").replace(old, new))

    def undo(self, room):
        for file, _, _ in self.pairs:
            shutil.copyfile(f"{TOP}/{file}", f"{room}/{file}")


def copied(room):
    """Puts a copy of all sources into a folder."""
    for name in ("crates.txt", "HANDLES"):
        shutil.copy(f"{TOP}/{name}", room)
    for name in crates():
        for part in PARTS:
            if os.path.isdir(f"{CRATES}/{name}/{part}"):
                shutil.copytree(f"{CRATES}/{name}/{part}", f"{room}/crates/{name}/{part}")


def check(rtlib, room, law):
    """What the prover says of a law over the sources in a folder: its status, and the lines."""
    crate, _, path = law.partition(" ")
    os.chdir(f"{room}/crates")
    found = {it.name: it for it in rtlib.crates_below(os.getcwd())}[crate]
    with open(os.devnull, "w", encoding="utf-8") as found.out:
        words = found.words(["--jobs", "2", "--only", path], as_source=True)
    # (what one edit doesn't touch needn't be checked again for the next one)
    words += ["--incremental", f"{room}/kept-{crate}"]
    how = {"cwd": found.folder, "stdin": subprocess.DEVNULL, "stdout": subprocess.PIPE, "stderr": subprocess.STDOUT}
    ran = subprocess.run([*rtlib.guarded(), rtlib.RATTLE, "check", *words], encoding="utf-8", errors="replace", **how)
    os.chdir(TOP)
    return ran.returncode, ran.stdout


def failing(said, room, crate):
    """The files of lemmas in which the prover says that something fails, by paths from the top on."""
    found = []
    for path in re.findall(r"(?m)^(\S+\.antt):\d+:\d+: error", said):
        whole = os.path.normpath(os.path.join(room, "crates", crate, path))
        found.append(os.path.relpath(whole, room))
    return [*dict.fromkeys(found)]


def tried(rtlib, room, edit):
    """What comes of an edit in a copy: its sort, and why."""
    if edit.fault:
        return NO_ANSWER, edit.fault
    edit.make(room)
    status, said = check(rtlib, room, edit.law)
    edit.undo(room)
    files = failing(said, room, edit.law.split(" ")[0])
    if os.environ.get("WRONG_PROTOCOLS_LOG"):
        with open(f"{os.environ['WRONG_PROTOCOLS_LOG']}/{edit.name}.log", "w", encoding="utf-8") as it:
            it.write(said)
    there = [it for it in files if it in edit.fails]
    if there:
        return REFUSED, f"in {' '.join(there)}"
    if status == 0:
        return NOT_REFUSED, ""
    return (ELSEWHERE, " ".join(files)) if files else (NO_ANSWER, (said.strip().splitlines() or ["nothing"])[-1])


def edits_of(names):
    paths = files_in(FOLDER, ".edit")
    return [Edit(it) for it in paths if not names or os.path.basename(it).removesuffix(".edit") in names]


def look():
    tally = Tally()
    for edit in edits_of([]):
        tally.tell(edit.fault is None, f"wrong-protocols/{edit.name}.edit: {edit.fault}")
    return tally.end()


def main(words):
    if words == ["--look"]:
        return look()
    is_right = words[:1] == ["--right"] and len(words) == 3
    edits = [] if is_right else edits_of(words)
    if not is_right and (not edits or len(edits) < len({*words})):
        print(__doc__, file=sys.stderr)
        return 2
    rtlib, sorts = module_in("bin", "prove").toolchain(), []
    with tempfile.TemporaryDirectory(prefix="wrong-protocols-") as room:
        room = os.path.realpath(room)
        copied(room)
        if is_right:
            status, said = check(rtlib, room, " ".join(words[1:]))
            print(said[-2000:])
            return status
        for edit in edits:
            began = time.time()
            sort, why = tried(rtlib, room, edit)
            sorts.append(sort)
            print(f"{sort:11} {(time.time() - began) / 60:5.1f} min  {edit.name}: {why}", flush=True)
    print(", ".join(f"{sorts.count(it)} {it}" for it in SORTS))
    return 0 if {*sorts} == {REFUSED} else 1


if __name__ == "__main__":
    # so that the copy goes away then too
    signal.signal(signal.SIGTERM, lambda *_: sys.exit(143))
    sys.exit(main(sys.argv[1:]))
