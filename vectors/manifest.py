"""What the makers of this folder share: a manifest is headings and cases, a case is a line of numbers with its text.

A manifest is vectors/NAME.txt. A line `what is given | what it must be    # remark` is a case, a line that starts with
`## ` a heading, which the program prints, and any other line that starts with `#` is for the reader alone.
"""
import pathlib
import sys

ROOT = pathlib.Path(__file__).resolve().parent.parent
WIDTHS = {"byte": 1, "half": 2, "word": 4, "double": 8}
SIGNS = {"unsigned": 0, "signed": 1}
LARGEST = (1 << 64) - 1


class Wrong(Exception):
    """A line of a manifest that cannot be taken: what is wrong, and what would be right."""


class Heading:
    """A heading: in the data and in what the program prints it stands as it is."""

    def __init__(self, text):
        self.text = text

    def data(self):
        return self.text

    printed = data


class Case:
    """One case: its line in the manifest, the given and the wanted numbers in hexadecimal, and the text."""

    def __init__(self, line, given, wanted, text):
        self.line, self.given, self.wanted, self.text = line, given, wanted, text

    def data(self):
        return f"{self.given} = {self.wanted} # {self.text}"

    def printed(self):
        return f"ok {self.given} {self.text}"


def hexadecimal(numbers):
    return " ".join(f"{n:x}" for n in numbers)


def number(text, least, most, what):
    """The whole number that `text` writes, decimal or 0x, from `least` to `most`."""
    try:
        n = int(text, 0)
    except ValueError:
        raise Wrong(f"'{text}' is no {what}: write a whole number, as 10 or 0x1f") from None
    if not least <= n <= most:
        raise Wrong(f"'{text}' is no {what}: write a number from {least} to {most:#x}")
    return n


def choice(text, names, what):
    """What `names` has for `text`."""
    if text not in names:
        raise Wrong(f"'{text}' is no {what}: write one of {', '.join(names)}")
    return names[text]


def parts(text, left, right):
    """What is given, what it must be, and the remark; `left` and `right` say what would be right."""
    body, _, remark = text.partition("#")
    given, bar, wanted = body.partition("|")
    if not bar or not given.strip() or not wanted.strip():
        raise Wrong(f"no '|' with something on both sides: write `{left} | {right}`")
    return tuple(" ".join(part.split()) for part in (given, wanted, remark))


def said(given, wanted, remark):
    """The text of a case, for a reader of what the program prints."""
    return f"{given} | {wanted}" + (f" ({remark})" if remark else "")


def data_path(name):
    return f"crates/test_cases/data/{name}.txt"


def stored(path):
    """The lines of a stored file; none where there is no such file."""
    return (ROOT / path).read_text().split("\n") if (ROOT / path).exists() else []


def complain(name, line, what):
    print(f"vectors/{name}.txt:{line}: {what}", file=sys.stderr)


def read(name, taken):
    """The headings, and what `taken(line number, line)` makes of each case, in order."""
    items, bad = [], 0
    for line, text in enumerate((ROOT / "vectors" / f"{name}.txt").read_text().split("\n"), 1):
        try:
            if not text.isascii():
                raise Wrong("not ASCII: the program prints bytes")
            if text.startswith("## "):
                items.append(Heading(text[1:]))
            elif text.strip() and not text.startswith("#"):
                items.append(taken(line, text))
        except Wrong as wrong:
            complain(name, line, wrong)
            bad += 1
    if bad:
        sys.exit(1)
    return items


def once(name, items):
    """The items, of which no case may stand twice."""
    seen, bad = {}, 0
    for case in items:
        if isinstance(case, Case):
            if case.given in seen:
                complain(name, case.line, f"the same as line {seen[case.given]}: take one of the two out")
                bad += 1
            seen.setdefault(case.given, case.line)
    if bad:
        sys.exit(1)
    return items
