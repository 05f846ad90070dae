"""The bytes cases: from vectors/bytes.txt, a store, a load, or a store and then a load, and what they give and leave.

A line of the data is `store-width store-at store-value load-width load-at load-signed byte .. = loaded byte ..`: a width is
in bytes, 0 where there is no store or no load, and what is loaded is then 0. The bytes are the whole memory, before and after.
"""
import re

import manifest
from manifest import LARGEST, SIGNS, WIDTHS, Case, Wrong, choice, hexadecimal, number, parts, said

FORM = "`store half 0x1234 at 2 of 00 11 22 33`, `load half signed at 0 of 00 80`, or `store .. at 2, load .. at 0 of ..`"
MOST = 64


def octets(text):
    """Bytes, two digits each."""
    if not re.fullmatch(r"[0-9A-Fa-f]{2}( [0-9A-Fa-f]{2})*", text):
        raise Wrong(f"'{text}': write bytes as two hexadecimal digits each, with blanks between them")
    return [int(byte, 16) for byte in text.split()]


def at(text, width, memory):
    place = number(text, 0, LARGEST, "place")
    if place + width > len(memory):
        raise Wrong(f"{width} bytes at {place} do not lie in a memory of {len(memory)}: give more bytes, or another place")
    return place


def given(text):
    """The six numbers, and the bytes of the memory."""
    before, of, memory = text.partition(" of ")
    form = re.fullmatch(r"(?:store (\w+) (\w+) at (\w+))?(?:, )?(?:load (\w+) (\w+) at (\w+))?", before)
    if not of or not form or before.startswith(",") or before.endswith(", "):
        raise Wrong(f"'{text}': write {FORM}")
    memory = octets(memory)
    if len(memory) > MOST:
        raise Wrong(f"{len(memory)} bytes: write at most {MOST}")
    store, load = [0, 0, 0], [0, 0, 0]
    if form[1]:
        width = choice(form[1], WIDTHS, "width")
        store = [width, at(form[3], width, memory), number(form[2], 0, LARGEST, "value")]
    if form[4]:
        width = choice(form[4], WIDTHS, "width")
        load = [width, at(form[6], width, memory), choice(form[5], SIGNS, "kind of load")]
    return store, load, memory


def wanted(text, store, load, memory):
    """What is loaded, and the bytes of the memory afterwards, which a load alone leaves as they were."""
    form = re.fullmatch(r"(?:leaves ([0-9A-Fa-f ]+))?(?:, )?(?:gives (\w+))?", text)
    if not form or bool(form[1]) != bool(store[0]) or bool(form[2]) != bool(load[0]):
        raise Wrong(f"'{text}': write `leaves BYTES` for a store, `gives NUMBER` for a load, `leaves BYTES, gives NUMBER` for both")
    after = octets(form[1].strip()) if form[1] else memory
    if len(after) != len(memory):
        raise Wrong(f"'{text}' has {len(after)} bytes: write all {len(memory)} of the memory")
    return [number(form[2], 0, LARGEST, "number") if form[2] else 0] + after


def case(line, text):
    left, right, remark = parts(text, "load half signed at 0 of 00 80", "gives 0xFFFFFFFFFFFF8000")
    store, load, memory = given(left)
    return Case(line, hexadecimal(store + load + memory), hexadecimal(wanted(right, store, load, memory)), said(left, right, remark))


def items():
    """The headings and the cases, in order."""
    return manifest.read("bytes", case)
