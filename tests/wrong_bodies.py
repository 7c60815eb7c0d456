"""Tries wrong bodies: edits of the sources, each a planted bug that a contract of the crate has to refuse.

usage: bin/wrong_bodies [--base REV] [NAME..]
                                 tries edits: NAME is a crate, for those of its wrong-bodies/ and must-fail/, or
                                 CRATE/EDIT
       bin/wrong_bodies --state [NAME..]
                                 tells of each crate how many of its edits are tried, stale and not tried, and which
       bin/wrong_bodies --look   looks whether docs/wrong-bodies.txt has a line for each edit, and no other, and whether
                                 each edit can be applied
       bin/wrong_bodies --write  gives it such lines
       bin/wrong_bodies --of LOG sorts the edits in what `rt must-fail` or `rt ci` wrote, as far as that shows it

With no NAME it takes each crate that has changed since the revision REV, which is HEAD where it is left out (so the
changes that aren't committed), and each crate above those by crates.txt.

An edit is a file as in must-fail/ (`rt help`). It is tried by `rt check` in a copy of the tree that goes away at the
end, over a copy of the crates' out/: nothing changes here. One check runs at a time; edits of different functions go
into one check, since each function is refused by its own goals, and an edit that isn't refused so is tried again
alone. For each edit a line says what refuses it:

  clause       a goal that names a clause: what a call ensures or needs, or an invariant of a type or a loop
  safety       a goal that a number fits, an index is within, a divisor isn't 0, or that a loop or a recursion ends
  NO CLAUSE    no goal: a proof file names what the edit took away, or it doesn't compile. It shows nothing
  NOT REFUSED  the crate is still proved
  NOT APPLIED  a text to be replaced doesn't stand just once in its file

The last line counts each sort. The status is 0 only where a goal refuses each edit.

What came of an edit of wrong-bodies/ when it was last tried is kept in docs/wrong-bodies.txt: its sort, the goal that
refused it, and a sum of the edit, of its crate's src/, specs/ and proofs/, and of those that it stands on, whose
bodies and proofs are left out; comments and blanks don't count. Where that sum is another one now, the edit is stale.
(Those of must-fail/ are tried by each gate.)
"""
import functools
import hashlib
import os
import re
import shutil
import signal
import subprocess
import sys
import tempfile
import time

import contracts
from common import CRATES, TOP, Tally, files_in, read, write

TABLE = f"{TOP}/docs/wrong-bodies.txt"
TABLE_HEAD = """\
# What came of each edit beside the gate when it was last tried: its crate and name, what refused it, a sum of the
# sources that it was tried on, and the goal. `bin/wrong_bodies` writes this file, and `bin/wrong_bodies --state`
# tells which are stale.
"""
SORTS = "clause", "safety", "NO CLAUSE", "NOT REFUSED", "NOT APPLIED"
CLAUSE, SAFETY, NO_CLAUSE, NOT_REFUSED, NOT_APPLIED = SORTS
NOT_TRIED = "not tried"
# It was tried on other sources than stand here now.
STALE = "stale"
# The parts of a crate that a check reads, and those of out/ that it goes on from.
PARTS = ("src", "specs", "proofs", "out/incremental", "out/rlib")
# So many edits go into one check.
AT_ONCE = 12

# How a check tells of a goal that is left, of the function that has those just told of, and of an answer that doesn't
# prove its goal, or that (as an invariant may too) names what is no longer there.
OPEN = re.compile(r"note: \S+:\d+:\d+: it is not proved that .*?\(`([^`]+)")
LEFT = re.compile(r"\w+ \w+::(\S+): (?:not proved|no proof(?:: .*`search` did not prove (.*))?)")
ANSWER = re.compile(r"(?:\./)?proofs/(\S+)/(Answers|Proof|Invariants)\.antt:\d+:\d+: error: `([^`]+)`: (.*)")
LOST = re.compile(r"has no field|is not in scope|has no `|was not admitted")
IS_SAFETY = re.compile(r"(^|-)(overflow_|bounds-|slice_bounds-|offset_bounds-|nonzero_|smaller$)")
IS_CLAUSE = re.compile(r"(^|-)(returns|requires|invariant_of|init|preserved)(-|$)")
KINDS = "fn|const|static|struct|enum|impl|trait|type|use|mod|macro_rules!"
ITEM = re.compile(rf" *(?:(?:pub(?:\([^)]*\))?|const(?= fn)|unsafe|default|final) )*({KINDS})\b *(\w*)")


def sort_of(goal):
    return SAFETY if IS_SAFETY.search(goal) else CLAUSE if IS_CLAUSE.search(goal) else NO_CLAUSE


def refusals(log):
    """The goals that a check left open: the sort of each, whether by an answer in proofs/, its name, its function."""
    found, lost, goals = set(), set(), []
    for line in log.splitlines():
        goal, left, answer = OPEN.match(line), LEFT.match(line), ANSWER.match(line)
        if goal:
            goals.append(goal[1])
        elif left:
            goals += re.findall(r"`([^`]+)`", left[2] or "")
            found |= {(sort_of(it), "", it, left[1]) for it in goals}
            goals = []
        elif answer:
            function, name = answer[1].replace("/", "::"), answer[3]
            if answer[2] == "Invariants":
                # without its invariant, a goal of the function may be open for that alone
                lost.add((function.partition("+")[0], ""))
            elif LOST.search(answer[4]):
                lost.add((function, name))
            else:
                found.add((sort_of(name), ", by its answer", name, function))
    # (a cycle of calls has its proofs in a folder +NAME)
    is_lost = lambda goal: any(goal[3].startswith(it) and (not name or name == goal[2]) for it, name in lost)
    return sorted(it for it in found if it[0] != NO_CLAUSE and not is_lost(it))


def edited(edit, folder):
    """What an edit makes of the files of a crate, by path, and where: each file with the function that it changes
    there, or None where it changes more. Or, if it can't be applied, nothing and why."""
    path, old, texts, places = "", "", {}, set()
    for line in read(edit).split("\n"):
        if line.startswith("file: "):
            path = line[len("file: "):].strip()
            if os.path.normpath(path) != path or not path.startswith(("src/", "specs/", "proofs/")):
                return {}, f"{path} is no file below src/, specs/ or proofs/"
        elif line.startswith("old: "):
            old = line[len("old: "):]
        elif line.startswith("new:"):
            if not path or not old:
                return {}, "a line new: stands before any file: or old:"
            if path not in texts:
                if not os.path.isfile(f"{folder}/{path}"):
                    return {}, f"there is no file {path}"
                texts[path] = read(f"{folder}/{path}")
            if texts[path].count(old) != 1:
                return {}, f"a text to be replaced stands {texts[path].count(old)} times in {path}"
            above = texts[path][: texts[path].index(old) + len(old)].split("\n")
            item = next((it for it in map(ITEM.match, reversed(above)) if it), None)
            # (a new head of a function may change what others are)
            is_inside = item and item[1] == "fn" and not ITEM.match(above[-1])
            places.add((path, item[2] if is_inside else None))
            new = line[len("new:"):]
            texts[path], old = texts[path].replace(old, new[1:] if new.startswith(" ") else new), ""
    return (texts, places) if texts else ({}, "it has no lines old: and new:")


def write_all(folder, texts):
    for path, text in texts.items():
        with open(f"{folder}/{path}", "w", encoding="utf-8") as file:
            file.write(text)


def check(folder):
    """Whether the crate in the folder is proved, and what the check wrote."""
    ran = subprocess.run(["rt", "check"], cwd=folder, stdin=subprocess.DEVNULL, stdout=subprocess.PIPE,
                         stderr=subprocess.STDOUT, encoding="utf-8", errors="replace")
    return ran.returncode == 0, ran.stdout


def checked_with(edits, folder):
    """What a check says with these edits in the crate's copy."""
    before = {}
    for edit in edits:
        # (each is applied to what the ones before it made)
        texts, _ = edited(edit, folder)
        before = {**{path: read(f"{folder}/{path}") for path in texts}, **before}
        write_all(folder, texts)
    said = check(folder)
    write_all(folder, before)
    return said


def batches(edits, folder):
    """Edits that can be tried at once: each of one function, no two of one name."""
    alone, left = [], {}
    for edit in edits:
        places = edited(edit, folder)[1]
        if len(places) == 1 and [*places][0][1]:
            left[edit] = [*places][0]
        else:
            alone.append([edit])
    made = []
    for edit, place in left.items():
        is_free = lambda it: len(it) < AT_ONCE and place[1] not in [name for _, name in it.values()]
        room = next(filter(is_free, made), None)
        if room is None:
            made.append({edit: place})
        else:
            room[edit] = place
    return [*map(list, made), *alone]


def is_of(goal, place):
    """Whether the goal is one of a function of that name. (A method is told by the module of its type, wherever it
    stands.) The goals of a cycle of calls begin with the function's name."""
    _, is_cycle, _ = goal[3].partition("+")
    return goal[2].startswith(f"{place[1]}-") if is_cycle else goal[3].split("::")[-1] == place[1]


def tried(edits, folder):
    """Each edit with its sort, what refuses it, and its part of the time; of the edits together, then alone where
    needed."""
    start = time.time()
    is_proved, log = checked_with(edits, folder)
    took, goals = (time.time() - start) / len(edits), refusals(log)
    told = lambda goal: (goal[0], f"{goal[2]} of {goal[3]}{goal[1]}", took)
    if len(edits) == 1:
        errors = [it for it in log.splitlines() if re.search(r"\berror\b[\[:]|^rt: (?!chose)", it)]
        lines = errors or log.splitlines()[-1:]
        why = told(goals[0]) if goals else (NO_CLAUSE, "".join(lines[:1]), took)
        return {edits[0]: (NOT_REFUSED, "", took) if is_proved else why}
    found = {}
    for edit in edits:
        place = [*edited(edit, folder)[1]][0]
        own = [it for it in goals if is_of(it, place)]
        if own:
            found[edit] = told(own[0])
    left = [it for it in edits if it not in found]
    for part in [left] if found and left else [left[: len(left) // 2], left[len(left) // 2 :]]:
        found.update(tried(part, folder) if part else {})
    return found


def libraries(text):
    """The crates in lines of crates.txt, each with what it stands on."""
    lines = [line.partition("#")[0].partition(":") for line in text.splitlines()]
    return {name.split()[0]: below.split() for name, _, below in lines if name.strip()}


def git(*words):
    return subprocess.run(["git", "-C", TOP, *words], stdout=subprocess.PIPE, encoding="utf-8", check=True).stdout


def changed(base, below):
    """The crates that have changed since a revision, and those above one whose sources have."""
    files = f"{git('diff', '--name-only', base, '--')}\n{git('ls-files', '--others', '--exclude-standard')}".split("\n")
    found = {file.split("/")[1] for file in files if file.startswith("crates/")}
    sources = {file.split("/")[1] for file in files if re.match(r"crates/\w+/(src|specs|proofs)/", file)}
    if "crates.txt" in files:
        were = libraries(git("show", f"{base}:crates.txt"))
        sources |= {name for name in below if below[name] != were.get(name)}
    return [name for name in below if name in found or sources & standing([name], below)]


def standing(names, below):
    """The crates named and all that they stand on."""
    found = {*names}
    while any(not found.issuperset({*below[name]} & {*below}) for name in found):
        found |= {it for name in found for it in below[name] if it in below}
    return found


def try_crate(name, folder, chosen=None):
    """Tries a crate's edits in its copy, or the chosen ones, prints a line for each, and returns their sorts."""
    began, sorts, sums = time.time(), [], {it: sum_of(name, it) for it in edits_of(name)}
    edits = [it for it in all_edits(name) if chosen is None or name_of(it) in chosen]
    is_proved, log = check(folder) if edits else (True, "")
    if not is_proved:
        print(f"{name} isn't proved as it stands, so none of its edits was tried:\n{log[-600:]}", flush=True)
        return [NOT_APPLIED] * len(edits)

    def show(edit, sort, why, took):
        print(f"{sort:11} {took:4.0f} s  {name}/{name_of(edit)}: {why[:300]}", flush=True)
        sorts.append(sort)
        if name_of(edit) in sums and f"/{name}/wrong-bodies/" in edit:
            keep(name, name_of(edit), sort, sums[name_of(edit)], why)

    for edit in edits:
        if not edited(edit, folder)[0]:
            show(edit, NOT_APPLIED, edited(edit, folder)[1], 0)
    for some in batches([it for it in edits if edited(it, folder)[0]], folder):
        for edit, told in tried(some, folder).items():
            show(edit, *told)
    print(f"{name}: {len(edits)} edits, {(time.time() - began) / 60:.1f} minutes", flush=True)
    return sorts


def try_crates(names, below, chosen):
    with tempfile.TemporaryDirectory(prefix="wrong-bodies-") as room:
        copied = standing(names, below)
        lines = [line for line in read(f"{TOP}/crates.txt").splitlines() if {*libraries(line)} <= copied]
        write_all(room, {"crates.txt": "\n".join(lines) + "\n"})
        if os.path.isfile(f"{TOP}/HANDLES"):
            shutil.copy(f"{TOP}/HANDLES", room)
        for name in copied:
            os.makedirs(f"{room}/crates/{name}")
            for part in PARTS:
                if os.path.isdir(f"{TOP}/crates/{name}/{part}"):
                    shutil.copytree(f"{TOP}/crates/{name}/{part}", f"{room}/crates/{name}/{part}")
        return [sort for name in names for sort in try_crate(name, f"{room}/crates/{name}", chosen.get(name))]


def name_of(edit):
    return os.path.basename(edit).removesuffix(".edit")


def all_edits(crate):
    """The files of a crate's edits, those of the gate first."""
    return [it for part in ("must-fail", "wrong-bodies") for it in files_in(f"{CRATES}/{crate}/{part}", ".edit")]


def edits_of(crate):
    """The names of a crate's edits beside the gate."""
    return [name_of(it) for it in files_in(f"{CRATES}/{crate}/wrong-bodies", ".edit")]


def digest(texts):
    whole = hashlib.sha256()
    for text in texts:
        whole.update(" ".join(text.split()).encode() + b"\0")
    return whole.hexdigest()


@functools.cache
def whole_sum(crate):
    """A sum of a crate's sources, definitions and proofs."""
    code = [contracts.NO_CODE.sub(contracts.kept, read(it)) for it in files_in(f"{CRATES}/{crate}/src", ".rt")]
    return digest([*code, *texts_of(crate, "specs"), *texts_of(crate, "proofs")])


def texts_of(crate, part):
    """The files of definitions or proofs of a crate, without comments."""
    return ["\n".join(contracts.without_comments(read(it))) for it in files_in(f"{CRATES}/{crate}/{part}", ".antt")]


@functools.cache
def public_sum(crate):
    """A sum of what others see of a crate: its definitions, and its code without the bodies of functions."""
    code = [contracts.without_bodies(read(it)) for it in files_in(f"{CRATES}/{crate}/src", ".rt")]
    return digest([*code, *texts_of(crate, "specs")])


def sum_of(crate, edit):
    """A sum of an edit and of all that it is tried on."""
    below = sorted(standing([crate], libraries(read(f"{TOP}/crates.txt"))) - {crate})
    text = read(f"{CRATES}/{crate}/wrong-bodies/{edit}.edit")
    return digest([text, whole_sum(crate), *(f"{it} {public_sum(it)}" for it in below)])[:16]


def kept_table():
    """The lines of the table: of each crate and edit its sort, its sum and its goal."""
    if not os.path.exists(TABLE):
        return {}
    rows = [line.split("\t") for line in read(TABLE).splitlines() if line and not line.startswith("#")]
    return {row[0]: tuple(row[1:]) for row in rows}


def write_table(table):
    """Writes the table, with a line for each edit that is there."""
    names = sorted(f"{it}/{edit}" for it in os.listdir(CRATES) for edit in edits_of(it))
    rows = ("\t".join([it, *table.get(it, (NOT_TRIED,))]) for it in names)
    write(TABLE, TABLE_HEAD + "".join(f"{row}\n" for row in rows))


def keep(crate, edit, sort, its_sum, why):
    """Notes in the table what came of an edit."""
    goal = why.replace("\t", " ").partition("\n")[0][:120]
    write_table({**kept_table(), f"{crate}/{edit}": (sort, its_sum, goal) if goal else (sort, its_sum)})


def look():
    """Whether the table is one, and has a line for each edit and no other; and whether each edit can be applied."""
    tally, table = Tally(), kept_table()
    there = {f"{it}/{edit}" for it in os.listdir(CRATES) for edit in edits_of(it)}
    for name in sorted(there | {*table}):
        row = table.get(name, ())
        is_told = len(row) in (2, 3) and row[0] in SORTS and re.fullmatch("[0-9a-f]{16}", row[1])
        good = name in there and (is_told or row == (NOT_TRIED,))
        tally.tell(good, f"{name}: {row or 'no line'}; `bin/wrong_bodies --write` gives each edit a line")
    for crate in sorted(os.listdir(CRATES)):
        for edit in all_edits(crate):
            texts, why = edited(edit, f"{CRATES}/{crate}")
            tally.tell(texts, f"{crate}/{name_of(edit)}: {why}")
    return tally.end()


def state_of(table, crate, edit):
    """What came of an edit, where it was tried on what stands here now; whether it was tried before, or wasn't."""
    row = table.get(f"{crate}/{edit}", (NOT_TRIED,))
    return NOT_TRIED if row == (NOT_TRIED,) else row[0] if row[1] == sum_of(crate, edit) else STALE


def state(names):
    """Tells which edits were tried on what stands here now, which before, and which weren't."""
    table, counts = kept_table(), {}
    for crate in names:
        for edit in edits_of(crate):
            sort = state_of(table, crate, edit)
            counts.setdefault(crate, {}).setdefault(sort, []).append(edit)
    for crate, found in counts.items():
        print(f"{crate}: {', '.join(f'{len(edits)} {sort}' for sort, edits in sorted(found.items()))}")
        for sort, edits in sorted(found.items()):
            # (where all are alike, their names tell nothing)
            if sort not in (CLAUSE, SAFETY) and len(found) > 1:
                print(f"    {sort}: {' '.join(edits)}")
    return 0


def read_log(log):
    """Sorts the edits in what `rt must-fail` or `rt ci` wrote."""
    sorts = []
    for edit, said in re.findall(r"^(?:rt: )?must-fail (\S+)\.edit: (.*)", read(log), re.M):
        goal, answer = OPEN.search(said), ANSWER.search(said)
        lost = "(only because a proof file names" in said or answer and LOST.search(answer[4])
        name = "" if lost else goal[1] if goal else answer[3] if answer else ""
        is_left = NOT_REFUSED if said.startswith("NOT REFUSED") else sort_of(name)
        sort = NOT_APPLIED if said.startswith("BAD EDIT") else is_left
        print(f"{sort:11} {edit}: {said if sort not in (CLAUSE, SAFETY) else name}")
        sorts.append(sort)
    return sorts


def chosen_of(words):
    """The crates that words name, each with the edits that are named of it; none where all are."""
    found = {}
    for word in words:
        crate, slash, edit = word.partition("/")
        found[crate] = [*(found.get(crate) or []), edit] if slash and found.get(crate, []) is not None else None
    return found


def are_there(chosen, below):
    for crate, edits in chosen.items():
        there = {name_of(it) for it in all_edits(crate)}
        if crate not in below or not {*(edits or [])} <= there:
            return False
    return True


def main(words):
    below = libraries(read(f"{TOP}/crates.txt"))
    base, names = (words[1], words[2:]) if words[:1] == ["--base"] and words[1:] else ("HEAD", words)
    if words == ["--look"]:
        return look()
    if words == ["--write"]:
        write_table(kept_table())
        return look()
    if words[:1] == ["--state"] and {*words[1:]} <= {*below}:
        return state(words[1:] or below)
    if words[:1] == ["--of"] and len(words) == 2:
        sorts = read_log(words[1])
    elif are_there(chosen_of(names), below):
        chosen = chosen_of(names or changed(base, below))
        none = f"none, since no crate has changed since {base}"
        print(f"trying the edits of: {' '.join(chosen) or none}", flush=True)
        sorts = try_crates([*chosen], below, chosen)
    else:
        print(__doc__, end="", file=sys.stderr)
        return 2
    if sorts and words[:1] != ["--of"]:
        # (into the page)
        print("docs/wrong-bodies.txt has what came of them; `bin/count --write` takes it over", file=sys.stderr)
    print(", ".join(f"{sorts.count(sort)} {sort}" for sort in SORTS))
    return 0 if {*sorts} <= {CLAUSE, SAFETY} else 1


if __name__ == "__main__":
    # so that the copy goes away then too
    signal.signal(signal.SIGTERM, lambda *_: sys.exit(143))
    sys.exit(main(sys.argv[1:]))
