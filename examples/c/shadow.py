#!/usr/bin/env python3
"""shadow.py: shadow stack pushes and pop-checks for the assembly that GCC writes, which knows no Zicfiss before version 15.

    riscv64-unknown-elf-gcc -S -O2 -fno-shrink-wrap ... program.c -o - | shadow.py > program.s

A function that calls others saves ra on its stack and loads it back before it leaves. A push goes before the save (sd ra,N(sp)), a
pop-check behind each load (ld ra,N(sp)), which is where clang puts them too. A function that does not save ra returns by the
register that the call left, and needs none.

It is right only if each way through a function saves ra once before it loads it once, and ra is used for nothing else. So it looks
at every function, and refuses one in which something else writes ra, ra is saved or loaded in more than one place of the stack, or
a label or a jump stands before the save. longjmp leaves frames without their pop-checks: such programs need a compiler that knows
Zicfiss."""
import re
import sys

PUSH = "\t.word\t0xce104073\t# sspush ra"
CHECK = "\t.word\t0xcdc0c073\t# sspopchk ra"
LABEL = re.compile(r"^([A-Za-z_.$][\w.$]*):")
TYPE = re.compile(r"^\s*\.type\s+([\w.$]+),\s*@function")
MOVE = re.compile(r"^\s*(sd|ld)\s+(?:ra|x1),\s*(-?\d+)\((?:sp|x2)\)\s*(?:#.*)?$")
# Instructions whose first operand is a source and not what they write.
READERS = re.compile(r"^(s[bhwd]|b\w+|j|jr|ret|tail|csrw|fs[wd])$")
CALLS = re.compile(r"^(call|jal|jalr)$")
JUMPS = re.compile(r"^\s*(b\w+|j|jr|jal|jalr|call|tail|ret)\s|^\.L\d+:")


def refuse(function, line, why):
    sys.exit(f"shadow.py: in {function}: {why}: '{line.strip()}'; compile this file with a compiler that knows Zicfiss")


def writes_ra(line):
    """Whether an instruction that is no call and no load from the stack writes ra."""
    words = line.split("#")[0].replace(",", " ").split()
    if not words or words[0].startswith(".") or words[0].endswith(":") or CALLS.match(words[0]):
        return False
    return len(words) > 1 and words[1] in ("ra", "x1") and not READERS.match(words[0])


def function_lines(name, lines):
    """The lines of one function with its pushes and pop-checks."""
    place, jumped, told = None, False, []
    for line in lines:
        move = MOVE.match(line)
        jumped = jumped or bool(JUMPS.match(line))
        if re.match(r"^\s*sd\s+(ra|x1),", line):
            if not move or place is not None or jumped:
                refuse(name, line, "ra is stored twice, not on the stack, or behind a label or a jump")
            place = move[2]
            told += [PUSH, line]
        elif move:
            if move[2] != place:
                refuse(name, line, "ra is loaded from where it was not saved before")
            told += [line, CHECK]
        elif writes_ra(line):
            refuse(name, line, "ra is written otherwise than by a call")
        else:
            told.append(line)
    return told


def main():
    functions, name, body, told = set(), None, [], []
    for line in sys.stdin.read().splitlines():
        label = LABEL.match(line)
        declared = TYPE.match(line)
        if declared:
            functions.add(declared[1])
        if label and label[1] in functions:
            name = label[1]
        if name is None:
            told.append(line)
            continue
        body.append(line)
        if re.match(rf"^\s*\.size\s+{re.escape(name)},", line):
            told += function_lines(name, body)
            name, body = None, []
    if name is not None:
        refuse(name, "", "the function has no end (.size)")
    print("\n".join(told))


main()
