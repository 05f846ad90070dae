"""The refused cases: from vectors/refused.txt, the length of a memory or the words of a page map, and whether the call is refused.

A line of the data is `2 length = refused` for refusal 2 and `3 word .. = refused` for refusal 3, 1 for refused and 0 for accepted.
"""
import manifest
from manifest import LARGEST, Case, Wrong, choice, hexadecimal, number, parts, said

ANSWERS = {"accepted": 0, "refused": 1}
# What stands in the second word of each page of `map pages`; no refusal looks at it.
LEAF = 0x200000CF
FORM = "`memory LENGTH`, `map words WORD ..`, `map pages PAGE FIRST..LAST ..` or `map empty`"


def pages(text):
    """A page number, or all from FIRST to LAST."""
    first, dots, last = text.partition("..")
    low = number(first, 0, LARGEST, "page number")
    return range(low, 1 + (number(last, low, LARGEST, "last page number") if dots else low))


def given(text):
    words = text.split()
    if words[0] == "memory" and len(words) == 2:
        return [2, number(words[1], 0, LARGEST, "length")]
    if words == ["map", "empty"]:
        return [3]
    if words[:2] == ["map", "words"] and len(words) > 2:
        return [3] + [number(word, 0, LARGEST, "word") for word in words[2:]]
    if words[:2] == ["map", "pages"] and len(words) > 2:
        return [3] + [word for part in words[2:] for page in pages(part) for word in (page, LEAF)]
    raise Wrong(f"'{text}': write {FORM}")


def case(line, text):
    left, right, remark = parts(text, "memory 4096", "accepted")
    return Case(line, hexadecimal(given(left)), hexadecimal([choice(right, ANSWERS, "answer")]), said(left, right, remark))


def items():
    """The headings and the cases, in order."""
    return manifest.read("refused", case)
