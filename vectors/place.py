"""The place cases: from vectors/place.txt, an access, the hart's mode and CSRs and a page map, to the place or the fault.

A line of the data is `kind width mode mprv mpp sv39 sum mxr sse senvcfg.pmm menvcfg.pmm mseccfg.pmm address memory-length
map-word .. = answer`, and the answer is `0 physical-address 0` or `1 cause tval`. Nothing is computed here but the layout
of a leaf: the answers are the manifest's.
"""
import re

import manifest
from manifest import LARGEST, WIDTHS, Case, Wrong, choice, hexadecimal, number, parts, said

# The kinds; of those whose width is always the same, that width.
KINDS = {"fetch": (0, 4), "load": (1, None), "store": (2, None), "push": (3, 8), "pop": (4, 8), "swap": (5, None)}
MODES = {"U": 0, "S": 1, "M": 3}
SATPS = {"bare": 0, "sv39": 1}
FLAGS = ["mprv", "sum", "mxr", "sse"]
PMMS = ["senvcfg.pmm", "menvcfg.pmm", "mseccfg.pmm"]
PMM_VALUES = {"0": 0, "2": 2, "3": 3}
CAUSES = {str(cause): cause for cause in (0, 1, 4, 5, 6, 7, 12, 13, 15)}
BITS = {letter: bit for bit, letter in enumerate("VRWXUGAD")}
FORM = "load double U sv39 at=0x5008 page=5:VRUA@0x80000"


def leaf(text):
    """A leaf: letters of bits 0 to 7, bits above by number, and a frame, as VRWUAD+54@0x80000; or the word itself."""
    if re.match(r"\d", text):
        return number(text, 0, LARGEST, "leaf word")
    form = re.fullmatch(r"([A-Z]*)((?:\+\d+)*)@(\w+)", text)
    if not form or len(set(form[1])) != len(form[1]) or not set(form[1]) <= set(BITS):
        raise Wrong(f"'{text}' is no leaf: write letters of VRWXUGAD, each once, and @ with a frame number, as VRUA@0x80000")
    word = sum(1 << BITS[letter] for letter in form[1]) | number(form[3], 0, (1 << 44) - 1, "frame number") << 10
    for bit in form[2].split("+")[1:]:
        word |= 1 << number(bit, 8, 63, "bit of a leaf")
    return word


def entries(text):
    """The two words of a page, or of each page from FIRST to LAST, whose frames then rise with them."""
    numbers, colon, rest = text.partition(":")
    if not colon:
        raise Wrong(f"'page={text}': write `page=NUMBER:LEAF`, as page=5:VRUA@0x80000")
    first, dots, last = numbers.partition("..")
    low = number(first, 0, (1 << 27) - 1, "page number")
    high = number(last, low, (1 << 27) - 1, "last page number") if dots else low
    return [word for i in range(high - low + 1) for word in (low + i, leaf(rest) + (i << 10))]


class Access:
    """What the left side of a line says."""

    def __init__(self, text):
        words = text.split()
        self.kind, self.width = choice(words.pop(0), KINDS, "kind of access")
        if self.width is None:
            self.width = choice(words.pop(0) if words else "", WIDTHS, "width")
        self.mode = choice(words.pop(0) if words else "", MODES, "mode")
        self.satp = choice(words.pop(0) if words else "", SATPS, "satp mode")
        self.keys = {"mpp": 0, "memory": 1 << 20, **dict.fromkeys(FLAGS + PMMS, 0)}
        self.map, named = [], set()
        for word in words:
            key, _, value = word.partition("=")
            if key in named and key != "page":
                raise Wrong(f"'{key}' is given twice")
            named.add(key)
            self.take(word, key, value)
        if "at" not in self.keys:
            raise Wrong("no address: write `at=0x5008`")

    def take(self, word, key, value):
        if word in FLAGS:
            self.keys[word] = 1
        elif key == "page":
            self.map += entries(value)
        elif key == "mpp":
            self.keys[key] = choice(value, MODES, "mode")
        elif key in PMMS:
            self.keys[key] = choice(value, PMM_VALUES, "PMM")
        elif key == "at":
            self.keys[key] = number(value, 0, LARGEST, "address")
        elif key == "memory":
            self.keys[key] = number(value, 0, 1 << 20, "memory length")
        else:
            raise Wrong(f"'{word}' is no word of a case: write {', '.join(FLAGS)}, mpp=, {'=, '.join(PMMS)}=, at=, memory= or page=")

    def numbers(self):
        of = self.keys
        return ([self.kind, self.width, self.mode, of["mprv"], of["mpp"], self.satp, of["sum"], of["mxr"], of["sse"]]
                + [of[pmm] for pmm in PMMS] + [of["at"], of["memory"]] + self.map)


def answer(text):
    if form := re.fullmatch(r"at (\w+)", text):
        return [0, number(form[1], 0, LARGEST, "physical address"), 0]
    if form := re.fullmatch(r"cause (\w+) tval (\w+)", text):
        return [1, choice(form[1], CAUSES, "cause"), number(form[2], 0, LARGEST, "tval")]
    raise Wrong(f"'{text}' is no answer: write `at PHYSICAL-ADDRESS` or `cause NUMBER tval ADDRESS`")


def case(line, text):
    given, wanted, remark = parts(text, FORM, "at 0x80000008")
    return Case(line, hexadecimal(Access(given).numbers()), hexadecimal(answer(wanted)), said(given, wanted, remark))


def items():
    """The headings and the cases, in order."""
    return manifest.read("place", case)
