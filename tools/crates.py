"""crates.txt, read once for the tools: a line a crate, `NAME: what it uses`, or `NAME staticlib: ..`, with comments behind #."""
import functools
import pathlib
import re

ROOT = pathlib.Path(__file__).resolve().parent.parent
LIST = ROOT / "crates.txt"


def lines():
    """Of each crate the number of its line, its name and what it lists, the kit's own libraries among it."""
    for number, line in enumerate(LIST.read_text().splitlines(), 1):
        if found := re.match(r"(\w+)(?: +staticlib)?:([^#]*)", line):
            yield number, found[1], found[2].split()


def static():
    """The crates that are static libraries."""
    return re.findall(r"^(\w+) +staticlib:", LIST.read_text(), re.M)


def brought(text):
    """What the `use` lines of a source file bring: of each name the crate that it is from."""
    found = {}
    for crate, names in re.findall(r"^(?:pub )?use (\w+)::(?:\w+::)*(\w+|\{[^}]*\});", text, re.M):
        found.update(dict.fromkeys(re.findall(r"\w+", names), crate))
    return found


@functools.cache
def listed():
    """The crates and what each one lists."""
    return {name: uses for _, name, uses in lines()}


@functools.cache
def below(name):
    """The crates of the tree that a crate stands on."""
    found = [one for one in listed()[name] if one in listed()]
    return frozenset(found).union(*map(below, found))
