"""The definitions of crates/*/specs, read once for the tools: each with its place, its text and its comment, and what a file's text names of them.

A definition is a declaration at the top of a file, or in a `module .. where` of it: `NAME : ..` (with `pub`, `abbrev`, `unfoldable`), a `data` or a `record`.
A data type's cases belong to it, and can be imported by their own names; a record's fields are part of it. The types that the prover makes from the
structs and enums of src/ (`specs.declared`) stand in no file of specs.
"""
import collections
import functools
import pathlib
import re

# crate, file and name say which definition it is; cases are a data type's, header is the line of the module that it stands in
Definition = collections.namedtuple("Definition", "crate file name path line end public kind comment text cases header")
Import = collections.namedtuple("Import", "crate part file names alias line")

MARKS = ("abbrev", "unfoldable", "pub")
STARTS = re.compile(r"^(\s*)((?:(?:abbrev|unfoldable|pub) )*)((?:data|record) )?([^\s(){}:;,]+)(?=\s|$)")
SPLIT = re.compile(r"[\s(){}\[\];,]+")
USE = re.compile(r"^(?:ghost )?use Rattle\.(\w+)\.(specs|proofs)\.([\w.\-+]+?)(?:\.\{([^}]*)\}| as ([\w\-]+))?;?[ \t]*$", re.M)


def files(part, ending="antt"):
    """The files of a part of every crate: specs, proofs or src."""
    return sorted(pathlib.Path("crates").glob(f"*/{part}/**/*.{ending}"))


def module_of(path):
    """A file's crate, and its name in a `use` line."""
    return path.parts[1], ".".join(path.with_suffix("").parts[3:])


def order():
    """The crates in crates.txt's order."""
    found = re.findall(r"^(\w+)(?: +staticlib)?:", pathlib.Path("crates.txt").read_text(), re.M)
    return {crate: at for at, crate in enumerate(found)}


def bare(text, path):
    """The text with each comment blanked, so that places stay where they are."""
    blank = lambda found: " " * len(found.group())
    return re.sub(r"//[^\n]*" if path.suffix == ".rt" else r"(?m)(?:^|(?<=\s))--(?=\s|$)[^\n]*", blank, text)


def imports(text):
    """What a file uses of specs and proofs of crates of the tree, a `use` line each; names are pairs of what it is called there and here."""
    for found in USE.finditer(text):
        crate, part, file, listed, alias = found.groups()
        if not pathlib.Path("crates", crate).is_dir():
            continue
        pairs = [one.split(" as ") for one in re.split(r"\s*,\s*", (listed or "").strip()) if one]
        names = [(pair[0].strip(), pair[-1].strip()) for pair in pairs]
        yield Import(crate, part, file, names, alias, text.count("\n", 0, found.start()) + 1)


def declared(path):
    """The definitions of a file, in its order."""
    lines = path.read_text().splitlines()
    crate, file = module_of(path)
    found, header = [], None
    for at, line in enumerate(lines):
        if not line.strip() or line.lstrip().startswith("--"):
            continue
        indent = len(line) - len(line.lstrip())
        if not indent:
            header = at if line.startswith("module ") else None
        if re.match(r"\s*(?:use|mod|pub mod|module|infix[lr]?) ", line) or not (match := STARTS.match(line)):
            continue
        _, marks, kind, name = match.groups()
        if indent and (header is None or indent > 2):
            continue
        if kind or marks or re.match(rf"\s*{re.escape(name)} :(?:\s|$)", line):
            found.append((at, name, "pub" in marks.split(), (kind or "").strip(), header))
    starts = [first_of(lines, at) for at, *_ in found] + [len(lines)]
    for (at, name, public, kind, header), next_one in zip(found, starts[1:]):
        first, end = first_of(lines, at), min(next_one, *[h for _, _, _, _, h in found if h is not None and h > at], len(lines))
        head = next((i for i in range(first, at) if not lines[i].lstrip().startswith("--")), at)
        own = lines[head:end]
        while own and (not own[-1].strip() or own[-1].lstrip().startswith("--") and len(own[-1]) == len(own[-1].lstrip())):
            own.pop()
        text = "\n".join(own)
        yield Definition(
            crate, file, name, path, at + 1, head + len(own), public, kind, "\n".join(lines[first:head]), text, cases(kind, own), header and lines[header]
        )


def first_of(lines, at):
    """Where a declaration begins: with the comment right above it, and an operator's precedence."""
    while at and (lines[at - 1].lstrip().startswith("--") or lines[at - 1].startswith("infix")) and not is_heading(lines, at - 1):
        at -= 1
    return at


def is_heading(lines, at):
    """A line of the comment that a file begins with, which says what the file is for."""
    return all(line.startswith("--") for line in lines[: at + 1])


def cases(kind, lines):
    """The cases of a data type: what stands at the first depth under it."""
    if kind != "data":
        return ()
    depth = len(lines[0]) - len(lines[0].lstrip()) + 2
    return tuple(found.group(1) for line in lines if (found := re.match(rf"^ {{{depth}}}([^\s(){{}}:;,\-][^\s(){{}}:;,]*) :(?:\s|$)", line)))


@functools.cache
def everything():
    """Every definition, by crate, file and name. Where one is declared twice in a file the first stands here."""
    known = {}
    for path in files("specs"):
        for one in declared(path):
            known.setdefault((one.crate, one.file, one.name), one)
    return known


@functools.cache
def exported():
    """Of each file of specs what can be imported from it: names, and the definition that each is of."""
    known = collections.defaultdict(dict)
    for one in everything().values():
        for name in (*one.cases, one.name):
            known[one.crate, one.file][name] = one
    return known


def scope(path):
    """What the names of a file mean: of definitions by their names there, and of whole files by theirs."""
    names, aliases = {}, {}
    for one in imports(path.read_text()):
        if one.part == "specs" and (one.crate, one.file) in exported():
            there = exported()[one.crate, one.file]
            names.update({here: there[name] for name, here in one.names if name in there})
            if one.alias:
                aliases[one.alias] = there
    if path.parts[2] == "specs":
        names.update(exported()[module_of(path)])
    return names, aliases


def named(text, names, aliases):
    """The definitions that a text without comments names. A field behind a dot or before `=` in a record is none."""
    text = re.sub(r"(?m)^(\s+)(?:pub )?[^\s(){}:;,]+ :(?=\s)", r"\1", text)
    text = re.sub(r"([{;]\s*)[^\s(){};,=]+ =(?=\s)", r"\1", text)
    words = {word for word in SPLIT.split(text) if word and not word.startswith(".")}
    for word in words:
        first, dot, rest = word.partition(".")
        if dot and first in aliases and rest.split(".")[0] in aliases[first]:
            yield aliases[first][rest.split(".")[0]]
        elif first in names:
            yield names[first]
    for name, one in names.items():
        if "◌" in name and all(sign in words for sign in name.split("◌") if sign):
            yield one


@functools.cache
def uses(one):
    """The definitions that a definition is made of."""
    names, aliases = scope(one.path)
    code = bare("\n".join(filter(None, (one.header, one.text))), one.path)
    return frozenset(named(code, names, aliases)) - {one}


def reached(roots):
    """These definitions and all that they are made of."""
    seen, left = set(), list(roots)
    while left:
        one = left.pop()
        if one not in seen:
            seen.add(one)
            left += uses(one)
    return seen


def in_order(some):
    """In reading order: crates.txt's, then the order in which a crate's Lib.antt lists its files, then the place in the file."""
    ranks = order()
    return sorted(some, key=lambda one: (ranks.get(one.crate, len(ranks)), listed(one.crate).get(one.file, 99), one.file, one.line))


@functools.cache
def listed(crate):
    lib = pathlib.Path("crates", crate, "specs/Lib.antt")
    found = re.findall(r"^(?:pub )?mod (\S+)", lib.read_text(), re.M) if lib.exists() else []
    return {file: at for at, file in enumerate(found)}


def counted(text):
    """Lines that are neither blank, comment nor `use`."""
    return sum(1 for line in text.splitlines() if line.strip() and not line.lstrip().startswith(("--", "//", "use ", "ghost use ")))
