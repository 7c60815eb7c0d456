"""Reads contracts and definitions: the public calls of a crate with their clauses, and what its specs/ declare.

A public call is a function that a crate passes on in its lib.rt, a method of a type or trait that it passes on, or
one in a public module. A definition is what stands in a file of specs/. A clause names it by a `ghost use` of its
file, as `Keeps` or, where the whole file has a name, as `calls.tick`.
"""
import collections
import functools
import os
import re

from common import CRATES, TOP, files_in, in_tree, read

# What is no code of a file of sources: comments, texts and characters. (A lifetime has no second quote.)
NO_CODE = re.compile(r"//[^\n]*|b?\"(?:\\.|[^\"\\])*\"|b?'(?:\\.|[^'\\\n])'", re.S)
USE = re.compile(r"ghost use Rattle\.([\w.]+?)(?:\.\{([^}]*)\}|(?: as (\w+))?)\s*;", re.S)
PASSED = re.compile(r"^pub use Rattle\.([\w.]+)\.\{([^}]*)\}", re.M)
# A place at which something begins that is looked at.
POINT = re.compile(r"ghost use Rattle\.|(?P<pub>\bpub )?\bfn (?P<fn>\w+)|\b(?P<kind>impl|trait)\b|[{}]")
CLAUSE = re.compile(r"\b(requires|ensures)\b\*?\s*(\w*)\s*\{|[{;]")
WORD = re.compile(r"[^\W\d]\w*(?:\.[^\W\d]\w*)*")
# Where a declaration begins in a file of specs/: its indentation, its words and its name.
NO_NAME = r"(?!pub\b|abbrev\b|mod\b|use\b|infix|module\b|--)"
ITEM = re.compile(rf"( *)((?:pub |abbrev |unfoldable )*)(record |data |)({NO_NAME}\S+)( .*|$)")
OTHER = re.compile(r"( *)(?:use |pub use |pub mod |mod |module |infix[lr]? )")

# A public call: its crate, its file, the type or trait that it is of, its name, what stands before its clauses, and
# these: each with its word, its name and its text. And what the lines before it bring: names with the module that
# each is of.
Call = collections.namedtuple("Call", "crate file of name head clauses brings")
# A declaration of a file: its name, its lines as they stand there without comments, and those of the blocks around it.
Item = collections.namedtuple("Item", "name lines around")


def behind(text, at):
    """The place behind the bracket that closes the one at a place."""
    depth = 0
    for found in re.compile(r"[{}]").finditer(text, at):
        depth += 1 if found[0] == "{" else -1
        if depth == 0:
            return found.end()
    return len(text)


def clauses(text, at):
    """What stands of a function between its name and its clauses, these, and the place of its body."""
    found, head = [], None
    while True:
        next_one = CLAUSE.search(text, at)
        end = next_one.start() if next_one else len(text)
        head = text[at:end] if head is None else head
        if next_one is None or not next_one[1]:
            return head, found, end
        at = behind(text, next_one.end() - 1)
        found.append((next_one[1], next_one[2], text[next_one.end():at - 1]))


def imports(module, names, short):
    """The names that a line brings, each with the module that it is of and its name there, which a module itself
    hasn't."""
    if names is None:
        return {short or module.rsplit(".", 1)[-1]: (module, None)}
    brought = {}
    for name in filter(None, (part.strip() for part in names.split(","))):
        own, _, given = name.partition(" as ")
        brought[(given or own).strip()] = (module, own.strip())
    return brought


def named(clause, scope):
    """The definitions that a clause names, as modules and names."""
    for word in WORD.findall(clause):
        parts = word.split(".")
        module, name = scope.get(parts[0], (None, None))
        if module and name:
            yield module, name
        elif module and len(parts) > 1:
            yield module, parts[1]
    for name, (module, own) in scope.items():
        signs = [sign for sign in name.split("◌") if sign] if "◌" in name else []
        if signs and all(sign in re.split(r"[\s()]+", clause) for sign in signs):
            yield module, own


def passed_on(crate):
    """The names that a crate passes on, and its public modules; of a program all are, which has no lib.rt."""
    root = f"{CRATES}/{crate}/src/lib.rt"
    if not os.path.exists(root):
        return set(), {file.removesuffix(".rt") for file in os.listdir(os.path.dirname(root))}
    text = NO_CODE.sub(" ", read(root))
    names = set()
    for line in re.findall(r"pub use ([^;]+);", text):
        names.update(re.findall(r"\w+", line))
    return names, set(re.findall(r"pub mod (\w+);", text))


def calls(crate):
    """The public calls of a crate."""
    names, modules = passed_on(crate)
    for path in files_in(f"{CRATES}/{crate}/src", ".rt"):
        top = os.path.relpath(path, f"{CRATES}/{crate}/src").split(os.sep)[0].removesuffix(".rt")
        yield from calls_in(crate, path, names, top in modules or top == "lib")


def calls_in(crate, path, names, is_open):
    """The same of a file. `is_open` tells that the file is a public module."""
    text, blocks, at = NO_CODE.sub(" ", read(path)), [Block()], 0
    while True:
        point = POINT.search(text, at)
        if point is None:
            return
        at = point.end()
        if point[0].startswith("ghost use"):
            line = USE.match(text, point.start())
            blocks[-1].brings.update(imports(*line.groups()))
            at = line.end()
        elif point[0] == "{":
            blocks.append(Block())
        elif point[0] == "}":
            blocks.pop()
        elif point["kind"]:
            head = re.compile(r"[^{;]*").match(text, at)
            blocks.append(Block(*owner(point["kind"], head[0])))
            at = head.end() + 1
        else:
            head, found, at = clauses(text, at)
            of = blocks[-1].of
            if (point["pub"] or blocks[-1].is_public) and (is_open or (of or point["fn"]) in names):
                brought = {name: pair for block in blocks for name, pair in block.brings.items()}
                yield Call(crate, in_tree(path), of, point["fn"], f"fn {point['fn']}{head}", found, brought)
            # The lines in a body come behind its clauses, and bring nothing to these.
            if text[at:at + 1] == "{":
                at = behind(text, at)


class Block:
    """What stands between two brackets: the type or trait that it is of, whether all functions in it are public, and
    what its lines bring."""

    def __init__(self, of=None, is_public=False):
        self.of, self.is_public, self.brings = of, is_public, {}


def owner(kind, head):
    """The type or trait of an `impl` or `trait`, and whether all functions in it are as public as it is."""
    head = re.sub(r"<[^<>]*>", "", re.sub(r"<[^<>]*>", "", re.sub(r"<[^<>]*>", "", head)))
    trait, _, of = head.rpartition(" for ")
    word = re.search(r"\w+", of if kind == "impl" else head)
    return (word[0] if word else None), kind == "trait" or bool(trait)


def declaration(crate, module, name):
    """The file in which a definition stands, and its name there: a constructor's is its type, and a name that is
    passed on is looked for where it comes from."""
    path, declared, passed = declarations(crate, module)
    if name not in declared and name in passed:
        of, own = passed[name]
        crate, _, module = of.partition(".specs.")
        return declaration(crate, module, own)
    return path, declared.get(name, name)


@functools.cache
def declarations(crate, module):
    """A file of specs/, what it declares (for each name the definition that it is of), and what it passes on."""
    path = os.path.join(CRATES, crate, "specs", *module.split(".")) + ".antt"
    text, passed = read(path) if os.path.exists(path) else "", {}
    for found in PASSED.finditer(text):
        passed.update(imports(found[1], found[2], None))
    return path, declared_in(text), passed


def declared_in(text):
    """What a text declares: each name with the definition that it is of."""
    found, of = {}, None
    for line in text.splitlines():
        item = re.match(r"\s*(?:(?:abbrev|unfoldable) pub|pub (?:record|(data))) (\S+)", line)
        built = re.match(r"\s+((?:\S+ )+):", line)
        if item:
            found[item[2]] = item[2]
            of = item[2] if item[1] else None
        elif of and built:
            found.update((name, of) for name in built[1].split())
    return found


def namings():
    """What public clauses name: the file and the name of a definition, and the call."""
    known = {it for it in os.listdir(CRATES) if os.path.isdir(f"{CRATES}/{it}")}
    for crate in sorted(known):
        for call in calls(crate):
            pairs = {pair for _, _, text in call.clauses for pair in named(text, call.brings)}
            for module, name in pairs:
                own, _, path = module.partition(".specs.")
                if own not in known or path.split(".")[0] in ("declared", "contracts", ""):
                    continue
                file, name = declaration(own, path, name)
                yield in_tree(file), name, f"{crate}: {f'{call.of}::' if call.of else ''}{call.name}"


def definitions():
    """The definitions that public clauses name: pairs of a file and a name."""
    return {(file, name) for file, name, _ in namings()}


def named_definitions():
    """The definitions that public clauses name, each by the path of its file and its name there."""
    found = {(f"{TOP}/{file}", name) for file, name in definitions()}
    return {(path, name) for path, name in found if os.path.exists(path) and name in items(path)}


def without_comments(text):
    """The lines of a file of specs/ without comments, and without those that are blank then."""
    lines = (re.sub(r"(?:^|(?<=\s))--(?: .*|$)", "", line).rstrip() for line in text.splitlines())
    return [line for line in lines if line]


@functools.cache
def items(path):
    """All that a file of specs/ declares, by name; what several lines at several places say of one name stands
    together."""
    found, item, blocks, fixities = {}, None, [], []
    for line in without_comments(read(path)):
        depth = len(line) - len(line.lstrip())
        while blocks and depth <= len(blocks[-1]) - len(blocks[-1].lstrip()):
            blocks.pop()
            item = None
        other, begun = OTHER.match(line), ITEM.match(line)
        level = 2 * len(blocks)
        if line.lstrip().startswith("module "):
            blocks.append(line)
            item = None
        elif other and depth == level:
            item = None
            if "infix" in other[0]:
                fixities.append(line)
        elif begun and depth == level and (begun[2] or begun[3]):
            item = found.setdefault(begun[4], Item(begun[4], [], list(blocks)))
            item.lines.append(line)
        elif item:
            item.lines.append(line)
    for line in fixities:
        for name in line.split()[2:]:
            if name in found:
                found[name].lines.insert(0, line)
    return found


SPEC_USE = re.compile(r"(?m)^(?:pub )?use Rattle\.([\w.]+?)(?:\.\{([^}]*)\}|(?: as (\w+))?)\s*$")


@functools.cache
def scope_of(path):
    """The names that a file of specs/ knows, each with the module that it is of and its name there."""
    crate, _, file = os.path.relpath(path, CRATES).removesuffix(".antt").partition("/specs/")
    found = {}
    for use in SPEC_USE.finditer(read(path)):
        found.update(imports(*use.groups()))
    return {**found, **{name: (f"{crate}.specs.{file.replace(os.sep, '.')}", name) for name in items(path)}}


def origin(module, name):
    """Where a name of a module is declared: a file of specs/ with the name there, or what the module is called."""
    crate, _, file = module.partition(".specs.")
    if not os.path.isdir(f"{CRATES}/{crate}") or file.split(".")[0] in ("declared", "contracts", ""):
        return f"{module}.{name}"
    path, own = declaration(crate, file, name)
    return f"{in_tree(path)}: {own}"


def named_by(path, name):
    """The definitions that one names, as pairs of a file and a name."""
    item, found = items(path)[name], set()
    for module, own in named("\n".join([*item.around, *item.lines]), scope_of(path)):
        crate, _, file = module.partition(".specs.")
        if os.path.isdir(f"{CRATES}/{crate}") and file.split(".")[0] not in ("declared", "contracts", ""):
            there, own = declaration(crate, file, own)
            if os.path.exists(there) and own in items(there):
                found.add((there, own))
    return found


def stood_on(pairs):
    """The definitions of pairs of a file and a name, and all that these stand on, as such pairs."""
    found, left = set(), list(pairs)
    while left:
        pair = left.pop()
        if pair not in found:
            found.add(pair)
            left += named_by(*pair)
    return found


def kept(found):
    """What stays of a match of NO_CODE where comments alone are left out."""
    return " " if found[0].startswith("//") else found[0]


def without_bodies(text):
    """A file of sources without comments, texts and the bodies of functions."""
    text, found, at = NO_CODE.sub(" ", text), [], 0
    while True:
        point = re.compile(r"\bfn \w+").search(text, at)
        if point is None:
            return "".join([*found, text[at:]])
        _, _, end = clauses(text, point.end())
        found.append(text[at:end])
        at = behind(text, end) if text[end:end + 1] == "{" else end
