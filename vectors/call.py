"""The cases of the public calls: from vectors/instruction.txt and the other manifests that MAKERS names.

A case is `[WORD ..] CALL | ANSWER`: a hart, a page map and a memory, the call, and what comes of it. The words are

    NAME=VALUE                   a part of the hart, as in vectors/hart.py; what is not named is as in BASE
    memory=LENGTH                how many bytes memory has; 0x1000 where it is not said
    b@ADDRESS=NUMBER             one byte of it by its physical address; h@, w@ and d@ for 2, 4 and 8 bytes, the lowest first;
                                 code@ADDRESS=WORD,WORD,.. for words in a row, program@ADDRESS=NAME for those of
                                 vectors/programs/NAME.s. What is not named is 0
    page=NUMBER:LEAF             an entry of the map, as in vectors/place.py
    made=COUNT@PAGE:LEAF         that many entries, of rising pages and rising frames, before those of page=
    words=NUMBER,NUMBER,..       words of the map as they are, after the entries
    a name                       the words of a line `let NAME = WORD ..` above it

CALL is `step`, `word WORD` (the step that is given its word) or `run BUDGET`. An ANSWER is `refused NUMBER`, or words for
what changes, in the hart and in memory, in the same form; everything else stays, and the program compares all of it:

    next                         pc rises by 4
    nothing                      nothing changes
    count=NUMBER                 the steps taken; a step's 1 is not written
    traps MODE CAUSE TVAL        the call trapped, to M or S. It stands for the fields that rules 6.2 to 6.4 of docs/HART.md name:
                                 pc is that of mtvec or stvec, and what was pc, mode, the interrupt enable and ELP is saved
    from=PC                      the pc that such a trap saves, where steps were taken before it
    trapped=CAUSE                the call trapped, and each field that changed is named

A line of the data is `call argument length hart made page leaf words word .. offset content .. = refusal count trapped cause
hart offset content ..`: crates/test_scene/src/lib.rt and crates/test_calls/src/lib.rt say what each is. Nothing is computed here but where a field lies and
what a trap saves where: the answers are the manifest's.
"""
import re

import hart
import manifest
import programs
from hart import FIELDS, PARTS, START, with_settings
from manifest import LARGEST, Wrong, choice, hexadecimal, number, parts, said
from place import entries

# What the program has room for: crates/test_lines/src/line.rt and file.rt (`LONGEST`), and crates/test_scene/src/lib.rt.
MOST_NUMBERS, MOST_BYTES, MOST_MADE, MOST_WORDS, MOST_MEMORY = 192, 2105344, 66, 28, 1052672
FIRST_ADDRESS = 0x80000000
CALLS = {"step": 0, "word": 1, "run": 2}
SIZES = {"b": 1, "h": 2, "w": 4, "d": 8}
# Every part that can be is not 0, and no two are the same, so that a part that changes or is taken for another shows.
BASE = {**START, "pc": 0x80000100, **{f"x{n}": 0x100 + n for n in range(1, 32)}, "ssp": 0x7F8,
        "stvec": 0x200, "sscratch": 0x501, "sepc": 0x204, "scause": 0x502, "stval": 0x503,
        "mtvec": 0x300, "mscratch": 0x601, "mepc": 0x304, "mcause": 0x602, "mtval": 0x603}
# Of a trap to M and to S: tvec, epc, cause, tval, and in mstatus the mode's, the enable's, its copy's and ELP's field.
SAVED = {"M": ("mtvec", "mepc", "mcause", "mtval", "MPP", "MIE", "MPIE", "MPELP"),
         "S": ("stvec", "sepc", "scause", "stval", "SPP", "SIE", "SPIE", "SPELP")}


def stored(text):
    """The bytes of `w@0x80000000=0x..`, by offset; None for a word of another form."""
    found = re.fullmatch(r"(b|h|w|d|code|program)@(\w+)=(\S+)", text)
    if not found:
        return None
    size = SIZES.get(found[1], 4)
    at = number(found[2], FIRST_ADDRESS, FIRST_ADDRESS + MOST_MEMORY - size, "physical address") - FIRST_ADDRESS
    values = found[3].split(",") if found[1] == "code" else [found[3]]
    if found[1] == "program":
        values = [str(word) for word in programs.words(found[3])]
    there = {}
    for i, value in enumerate(values):
        n = number(value, 0, (1 << 8 * size) - 1, f"number of {size} bytes")
        there.update({at + i * size + k: n >> 8 * k & 255 for k in range(size)})
    return there


def made(text):
    """How many entries, the first page and the first leaf, of `made=COUNT@PAGE:LEAF`."""
    count, at, rest = text.partition("@")
    if not at:
        raise Wrong(f"'made={text}': write `made=COUNT@PAGE:LEAF`, as made=65@0x10:VRA@0x80000")
    return [number(count, 0, MOST_MADE, "number of entries")] + entries(rest)


def pairs(there, length, which):
    """Each offset that is a multiple of 8 and has a byte in `which`, with the eight bytes there."""
    offsets = sorted({at - at % 8 for at in which})
    if offsets and offsets[-1] + 8 > length:
        raise Wrong(f"{offsets[-1] + FIRST_ADDRESS:#x} and the 7 bytes after it are not all in a memory of {length:#x} bytes")
    return [n for at in offsets for n in (at, sum(there.get(at + k, 0) << 8 * k for k in range(8)))]


class Given:
    """What the left side of a case says."""

    def __init__(self, text, names):
        words = []
        for word in text.split():
            words += names.get(word, [word])
        at = next((i for i, word in enumerate(words) if word in CALLS), None)
        if at is None:
            raise Wrong(f"'{text}' has no call: write one of {', '.join(CALLS)}")
        self.call = words[at]
        wanted = {"step": 0, "word": 1, "run": 1}[self.call]
        if len(words) != at + 1 + wanted:
            raise Wrong(f"'{self.call}' is the last word, or the last but one where it has an argument")
        most = 0xFFFFFFFF if self.call == "word" else LARGEST
        self.argument = number(words[-1], 0, most, "argument of the call") if wanted else 0
        self.length, self.made, self.map, self.bytes = 0x1000, [0, 0, 0], [], {}
        settings = []
        for word in words[:at]:
            self.take(word, settings)
        self.hart = with_settings(BASE, self.last(settings), False)
        if len(self.map) > MOST_WORDS:
            raise Wrong(f"{len(self.map)} words of the map, and the program has room for {MOST_WORDS}: use made=")

    @staticmethod
    def last(settings):
        """The settings, of which a later one of the same name counts: a case may differ from what a name stands for."""
        return [f"{name}={text}" for name, text in {w.partition("=")[0]: w.partition("=")[2] for w in settings}.items()]

    def take(self, word, settings):
        there = stored(word)
        if there is not None:
            self.bytes.update(there)
        elif word.startswith("memory="):
            self.length = number(word[7:], 0, MOST_MEMORY, "length of memory")
        elif word.startswith("page="):
            self.map += entries(word[5:])
        elif word.startswith("made="):
            self.made = made(word[5:])
        elif word.startswith("words="):
            self.map += [number(n, 0, LARGEST, "word of a map") for n in word[6:].split(",")]
        elif "=" in word:
            settings.append(word)
        else:
            raise Wrong(f"'{word}' is no word of a case, and no name that a `let` line above it gives")

    def numbers(self):
        return ([CALLS[self.call], self.argument, self.length] + [self.hart[part] for part in PARTS] + self.made
                + [len(self.map)] + self.map + pairs(self.bytes, self.length, self.bytes))


def field(name, state):
    low, bits = FIELDS["mstatus"][name]
    return state["mstatus"] >> low & (1 << bits) - 1


def put(name, value, state):
    low, bits = FIELDS["mstatus"][name]
    state["mstatus"] = state["mstatus"] & ~(((1 << bits) - 1) << low) | value << low


def trap(state, to, cause, tval, pc):
    """The state with what a trap saves, and the mode and the pc that it goes on with."""
    tvec, epc, xcause, xtval, mode, enable, copy, elp = SAVED[to]
    after = {**state, "pc": state[tvec], epc: pc, xcause: cause, xtval: tval, "mode": 3 if to == "M" else 1, "elp": 0}
    put(mode, state["mode"], after)
    put(copy, field(enable, state), after)
    put(enable, 0, after)
    put(elp, state["elp"], after)
    return after


class Wanted:
    """What the right side of a case says."""

    def __init__(self, text, given):
        self.refusal, self.trapped, self.cause = 0, 0, 0
        self.count = None if given.call == "run" else 1
        self.hart, self.bytes, self.changed = dict(given.hart), dict(given.bytes), {}
        words = text.split()
        if words[0] == "refused" and len(words) == 2:
            self.refusal, self.count = number(words[1], 1, 4, "refusal"), 0
            return
        self.take(words, given)
        if self.count is None:
            raise Wrong("how many steps? write count=NUMBER")

    def take(self, words, given):
        settings, pc = [], given.hart["pc"]
        for word in words:
            if word.startswith("from="):
                pc = number(word[5:], 0, LARGEST, "pc")
        rest = iter(words)
        for word in rest:
            there = stored(word)
            if there is not None:
                self.changed.update(there)
            elif word == "next":
                self.hart["pc"] = (given.hart["pc"] + 4) & LARGEST
            elif word == "traps":
                to = choice(next(rest, ""), {"M": "M", "S": "S"}, "mode that a trap goes to")
                cause, tval = (number(next(rest, ""), 0, LARGEST, what) for what in ("cause", "tval"))
                self.trapped, self.cause, self.hart = 1, cause, trap(given.hart, to, cause, tval, pc)
            elif word.startswith("trapped="):
                self.trapped, self.cause = 1, number(word[8:], 0, LARGEST, "cause")
            elif word.startswith("count="):
                self.count = number(word[6:], 0, LARGEST, "count")
            elif "=" in word and not word.startswith("from="):
                settings.append(word)
            elif word != "nothing" and not word.startswith("from="):
                raise Wrong(f"'{word}' is no word of an answer")
        with_settings(given.hart, settings, True)
        self.hart = with_settings(self.hart, settings, False)
        same = [at for at, byte in self.changed.items() if given.bytes.get(at, 0) == byte]
        if len(same) == len(self.changed) and same:
            raise Wrong("memory is so before: name only what changes")
        self.bytes.update(self.changed)

    def numbers(self, given):
        changed = [at for at, byte in self.changed.items() if given.bytes.get(at, 0) != byte]
        return ([self.refusal, self.count, self.trapped, self.cause] + [self.hart[part] for part in PARTS]
                + pairs(self.bytes, given.length, changed))


def case(line, before, after, text):
    """The case of these given and wanted numbers, which a line must have room for."""
    if len(before) + len(after) > MOST_NUMBERS:
        raise Wrong(f"{len(before) + len(after)} numbers, and a line has room for {MOST_NUMBERS}: use less memory or map")
    return hart.HartCase(line, hexadecimal(before), hexadecimal(after), text)


def fitting(name, items):
    """The items of a manifest, which the program must have room for."""
    if sum(len(item.data()) + 1 for item in items) > MOST_BYTES:
        raise SystemExit(f"vectors/{name}.txt: its data are over {MOST_BYTES} bytes: make two files of it")
    return items


class Maker:
    """The maker of one manifest."""

    def __init__(self, name):
        self.name, self.names = name, {}

    def let(self, text):
        name, equals, words = text.partition("=")
        if not equals or not re.fullmatch(r"let \w+", " ".join(name.split())):
            raise Wrong("write `let NAME = WORD ..`")
        self.names[name.split()[1]] = [w for word in words.split() for w in self.names.get(word, [word])]

    def case(self, line, text):
        if text.startswith("let "):
            return self.let(text)
        left, right, remark = parts(text, "x1=2 x2=3 word 0x002081B3", "next x3=5")
        given = Given(left, self.names)
        wanted = Wanted(right, given)
        return case(line, given.numbers(), wanted.numbers(given), said(left, right, remark))

    def items(self):
        """The headings and the cases, in order."""
        return fitting(self.name, [item for item in manifest.read(self.name, self.case) if item is not None])


# In the order in which the program runs them.
MAKERS = [Maker(name) for name in ["instruction", "control", "shadow", "pad", "fault", "run", "refusal", "program"]]
