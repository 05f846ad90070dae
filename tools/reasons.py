"""Why the checker refused an edit: for a fact that no longer holds, or only for its shape. Reads the log of one check.

The checker's complaints are of three kinds here.
- A fact: two types, numbers or terms that differ, an inequality with a counterexample, a promise that is not proved. FACTS has the
  wordings; a complaint that none of them fits counts as no fact, so that a new wording is looked at before it is let pass.
- Shape: a name, a field or a path that does not exist, or a text that cannot be read. What else the checker says of that declaration
  comes of it, and counts for nothing; and where it is said of no declaration, what it says of that file.
- A rewrite that finds nothing to rewrite. It is no fact, since the edit may only have moved what the proof looks for; but it says
  nothing against the other complaints.
"""
import dataclasses
import re

FACTS = re.compile(
    "|".join(
        [
            r"as printed, the two types (?:first )?differ",
            r"computed as far as they go, the two types (?:first )?differ",
            r"expected type `.*(?:\n.*)*?but this has type",
            r"≟ `.*(?:\n.*)*?does not hold",  # two terms, compared where a `_` had to be found first
            r"the goal does not follow from what it read",
            r"what it leaves must be a path whose two ends are equal",
            r"`cc` met a bound of its own before the equations had joined",
            r"`search`: no proof of",
            r"it is not proved that",
        ]
    )
)
SHAPE = re.compile(
    "|".join(
        [
            r"has no field",
            r"is not in scope",
            r"has no `[^`]*` that can be named",
            r"no module, record or data type",
            r"does not define it",
            r"is still open",
            r"is no name|operand is missing|expected the end|cannot continue",
            r"error\[",
        ]
    )
)
# A complaint starts with its place; the lines below it that are indented belong to it. Only its first line tells a shape: below it may
# stand that a name "is not in scope here, so what is shown does not paste back".
COMPLAINT = re.compile(r"^(?:note: )?(?P<file>[^\s:]+):(?P<place>\d+:\d+): (?P<text>(?:error|it is not proved that).*(?:\n[ \t]+.*)*)", re.M)
# What is said of a declaration begins with its name.
DECLARATION = re.compile(r"(`[^`]+`): ")
PARTS = re.compile(r"(?:.*/)?((?:src|specs|proofs)/.*)")


@dataclasses.dataclass
class Outcome:
    passes: bool
    reason: str

    def short(self, most=300):
        """The reason in a line: where the two types differ once they are computed, if the prover says so, or else the line that says
        what does not hold. The prover's terms can run to thousands of characters, and the log has them."""
        first, *rest = self.reason.split("\n")
        computed = [line for line in rest if line.startswith("  computed as far as they go")]
        telling = computed or ([] if FACTS.search(first) else [line for line in rest if FACTS.search(line)])
        line = f"{first.split(': `')[0]}: {telling[0].strip()}" if telling else first
        return line if len(line) <= most else line[:most] + " .."


def complaints(log):
    """Of each complaint its file, as the crate names it, its place and its text."""
    for found in COMPLAINT.finditer(log):
        file = PARTS.fullmatch(found["file"])
        yield file[1] if file else found["file"], found["place"], found["text"].removeprefix("error: ")


def facts(said):
    """Those of the complaints that refuse a fact."""
    unfit = {(file, declaration(text)) for file, _, text in said if SHAPE.search(text.split("\n")[0])}
    fits = lambda file, text: not unfit & {(file, None), (file, declaration(text))}
    return [(file, place, text) for file, place, text in said if fits(file, text) and FACTS.search(text)]


def declaration(text):
    found = DECLARATION.match(text)
    return found and found[1]


def said_by_rt(line):
    """Whether rt ci's line of an edit, which has the first of the checker's complaints, or its beginning, names a fact."""
    found = re.fullmatch(r"refused, as it must be: (.*)", line)
    return bool(found and facts(list(complaints(found[1]))))


def judged(log, status=1, about=None):
    """What came of an edit, by the check's log and exit status. Where the check was of several edits, `about` says of a complaint's file
    and place whether it is about what this one changed, and no other complaint counts."""
    if status == 0 or re.search(r"^logic=proved", log, re.M):
        return Outcome(False, "NOT REFUSED: the crate is still proved with this edit")
    if status != 1 or not re.search(r"^logic=not-proved", log, re.M):
        first = next((line for line in log.splitlines() if line.strip()), "(it said nothing)")
        return Outcome(False, f"BAD EDIT: it did not reach the prover, which would say whether a fact fails: {first}")
    said = [(file, place, text) for file, place, text in complaints(log) if about is None or about(file, place)]
    if refused := facts(said):
        file, place, text = refused[0]
        return Outcome(True, f"refused: {file}:{place}: {text}")
    file, place, text = said[0] if said else ("(no file)", "0:0", "(no complaint with a place)")
    return Outcome(False, f"SHAPE ONLY: no fact is refused, the proof only no longer fits; first {file}:{place}: {text}")
