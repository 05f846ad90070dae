"""The HEX cases: from vectors/hex.txt, a text of Intel HEX, and what a load answers and leaves of a memory that is filled with EE.

A line of the data is `memory-length text-length number .. = refusal line given start byte ..`: the text goes eight bytes to a number,
the first lowest, and a byte that is not EE afterwards is 256 times its place and the byte, in rising order.
"""
import re

import manifest
from manifest import LARGEST, Case, Wrong, hexadecimal, number, parts, said

FORM = "`memory 4096: :0200000480007A LF :00000001FF`"
ANSWER = "`refused 2`, `refused 6 line 3` or `taken start 0x80000000 0=1305A002`"
ENDS = {"LF": b"\n", "CRLF": b"\r\n", "CR": b"\r", "nothing": b""}
FILLING = 0xEE
# As crates/test_hexed and crates/test_lines have it.
MOST_TEXT, MOST_NUMBERS = 1440, 192


def word(text):
    """The bytes of one word."""
    if text in ENDS:
        return ENDS[text]
    taken = re.sub(r"\\x([0-9A-F]{2})", lambda found: chr(int(found[1], 16)), text)
    if "\\" in taken:
        raise Wrong(f"'{text}': write a byte as \\x and two digits, as \\x0D")
    return taken.encode("latin-1")


def given(text):
    form = re.fullmatch(r"memory (\w+): (.+)", text)
    if not form:
        raise Wrong(f"'{text}': write {FORM}")
    content = b"".join(word(one) for one in form[2].split())
    if len(content) > MOST_TEXT:
        raise Wrong(f"a text of {len(content)} bytes: write at most {MOST_TEXT}")
    numbers = [int.from_bytes(content[at : at + 8], "little") for at in range(0, len(content), 8)]
    return [number(form[1], 0, LARGEST, "length"), len(content), *numbers]


def bytes_at(text):
    """The bytes of `PLACE=BYTES`, each with its place."""
    form = re.fullmatch(r"([0-9A-F]+)=((?:[0-9A-F]{2})+)", text)
    if not form:
        raise Wrong(f"'{text}': write {ANSWER}")
    stored = bytes.fromhex(form[2])
    if FILLING in stored:
        raise Wrong(f"'{text}': EE is what memory is filled with")
    return [(int(form[1], 16) + at) * 256 + byte for at, byte in enumerate(stored)]


def wanted(text):
    if form := re.fullmatch(r"refused (2|6 line (\w+))", text):
        return [6, number(form[2], 1, LARGEST, "line"), 0, 0] if form[2] else [2, 0, 0, 0]
    form = re.fullmatch(r"taken(?: start (\w+))?((?: \w+=\w+)*)", text)
    if not form:
        raise Wrong(f"'{text}': write {ANSWER}")
    start = [1, number(form[1], 0, 0xFFFFFFFF, "start address")] if form[1] else [0, 0]
    stored = [one for part in form[2].split() for one in bytes_at(part)]
    if stored != sorted(set(stored)):
        raise Wrong(f"'{text}': write the places in rising order")
    return [0, 0, *start, *stored]


def case(line, text):
    left, right, remark = parts(text, FORM.strip("`"), "taken")
    numbers, right_numbers = given(left), wanted(right)
    if len(numbers) + len(right_numbers) > MOST_NUMBERS:
        raise Wrong(f"{len(numbers)} and {len(right_numbers)} numbers: a line has at most {MOST_NUMBERS}")
    return Case(line, hexadecimal(numbers), hexadecimal(right_numbers), said(left, right, remark))


def items():
    """The headings and the cases, in order."""
    return manifest.read("hex", case)
