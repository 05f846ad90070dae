"""The cases on a hart: from vectors/access.txt, csr.txt, enable.txt, regime.txt, legal.txt, trap.txt and returns.txt.

A case is `[SETTING ..] OPERATION | ANSWER`: the hart of the file with these settings, what is done, and what comes of it.
A line of the data is `operation first second hart = no value hart`: the operation's number and its two arguments (0 where
it has none), the hart before, 1 for illegal or refused, the value that comes out (0 where none does), and the hart after.
A hart is 52 numbers: pc, x0 to x31, mode, elp, ssp, and the CSRs in the order of CSRS. Nothing is computed here but where
a field lies: the answers are the manifest's, and what an answer does not name stays.
"""
import re

import manifest
from manifest import LARGEST, Case, Wrong, choice, hexadecimal, number, parts, said

CSRS = ["stvec", "senvcfg", "sscratch", "sepc", "scause", "stval", "satp", "mstatus",
        "medeleg", "mtvec", "menvcfg", "mscratch", "mepc", "mcause", "mtval", "mseccfg"]
REGISTERS = [f"x{n}" for n in range(32)]
PARTS = ["pc"] + REGISTERS + ["mode", "elp", "ssp"] + CSRS
# The fields of chapter 5 of docs/HART.md: of each its lowest bit and how many bits it has.
ENVCFG = {"LPE": (2, 1), "SSE": (3, 1), "PMM": (32, 2)}
FIELDS = {
    "mstatus": {"SIE": (1, 1), "MIE": (3, 1), "SPIE": (5, 1), "MPIE": (7, 1), "SPP": (8, 1), "MPP": (11, 2), "MPRV": (17, 1),
                "SUM": (18, 1), "MXR": (19, 1), "SPELP": (23, 1), "UXL": (32, 2), "SXL": (34, 2), "MPELP": (41, 1)},
    "menvcfg": ENVCFG,
    "senvcfg": ENVCFG,
    "mseccfg": {"MLPE": (10, 1), "PMM": (32, 2)},
    "satp": {"MODE": (60, 4)},
}
ADDRESSES = {"ssp": 0x011, "sstatus": 0x100, "stvec": 0x105, "senvcfg": 0x10A, "sscratch": 0x140, "sepc": 0x141,
             "scause": 0x142, "stval": 0x143, "satp": 0x180, "mstatus": 0x300, "medeleg": 0x302, "mtvec": 0x305,
             "menvcfg": 0x30A, "mscratch": 0x340, "mepc": 0x341, "mcause": 0x342, "mtval": 0x343, "mseccfg": 0x747}
MODES = {"U": 0, "S": 1, "M": 3}
# Whose value may be written as the letter of a mode.
OF_MODES = ["mode", "mstatus.SPP", "mstatus.MPP"]

START = {**dict.fromkeys(PARTS, 0), "mode": 3, "mstatus": 0xA_0000_0000}
# Every part that can be is not 0, and no two are the same, so that a part that changes or is taken for another shows.
MARKED = {**START, "pc": 0x80000400, **{f"x{n}": 0x100 + n for n in range(1, 32)}, "ssp": 0x7F8,
          "stvec": 0x200, "senvcfg": 0x3_0000_0008, "sscratch": 0x501, "sepc": 0x204, "scause": 0x502, "stval": 0x503,
          "satp": 8 << 60, "medeleg": 0x40, "mtvec": 0x300, "menvcfg": 0x2_0000_0008, "mscratch": 0x601, "mepc": 0x304,
          "mcause": 0x602, "mtval": 0x603, "mseccfg": 0x3_0000_0000}

# The operations: of each its number, its arguments, and which answers it can have.
OPERATIONS = {
    "read": (0, ["csr"], "shown"),
    "write": (1, ["csr", "value"], "written"),
    "legal": (2, [], "verdict"),
    "trap": (3, ["cause", "tval"], "changed"),
    "mret": (4, [], "changed"),
    "sret": (5, [], "changed"),
    "shadow": (6, [], "switch"),
    "swap": (7, [], "legality"),
    "pad": (8, [], "switch"),
    "regime": (9, ["access"], "regime"),
}
KINDS = {"fetch": 0, "load": 1, "store": 2, "push": 3, "pop": 4, "swap": 5}
# What a regime says, and what each counts in the value that comes out.
REGIME = {"mode": 1, "sv39": 4, "sum": 8, "mxr": 16, "sse": 32, "masked": 64}
NO_OR_VALUE = {
    "verdict": {"accepted": [0, 0], "refused": [1, 0]},
    "switch": {"off": [0, 0], "on": [0, 1]},
    "legality": {"legal": [0, 0], "illegal": [1, 0]},
}


def named(text):
    """The part that a name names, and which bits of it: `mode`, `mstatus.MPP`, or a bit by its number, `mstatus.63`."""
    part, dot, field = text.partition(".")
    if part not in PARTS:
        raise Wrong(f"'{part}' is no part of a hart: write pc, x0 to x31, mode, elp, ssp or one of {', '.join(CSRS)}")
    if not dot:
        return part, 0, 64
    if re.fullmatch(r"[0-9]+", field):
        return part, number(field, 0, 63, "bit"), 1
    if field not in FIELDS.get(part, {}):
        known = ", ".join(FIELDS[part]) if part in FIELDS else "no fields"
        raise Wrong(f"'{field}' is no field of {part}: it has {known}; a bit is written by its number, as {part}.0=1")
    return part, *FIELDS[part][field]


def settings(words):
    """Each `NAME=VALUE` as a word, a name and a text; `x1..x31=VALUE` is one for each of these registers."""
    for word in words:
        name, equals, text = word.partition("=")
        first, dots, last = name.partition("..")
        if not equals:
            raise Wrong(f"'{word}': write NAME=VALUE, as mode=S, mstatus.MPP=U or mepc=0x304")
        if not dots:
            yield word, name, text
        elif first in REGISTERS and last in REGISTERS[REGISTERS.index(first) :]:
            yield from ((word, register, text) for register in REGISTERS[REGISTERS.index(first) : REGISTERS.index(last) + 1])
        else:
            raise Wrong(f"'{name}' is no row of registers: write it as x1..x31")


def with_settings(hart, words, must_change):
    """The hart with each setting; where `must_change`, each must be another value than before."""
    after, taken = dict(hart), dict.fromkeys(PARTS, 0)
    for word, name, text in settings(words):
        part, low, bits = named(name)
        most = (1 << bits) - 1
        if name in OF_MODES and text.isalpha():
            value = choice(text, {mode: n for mode, n in MODES.items() if n <= most}, f"value of {name}")
        else:
            value = number(text, 0, most, f"value of {name}")
        mask = ((1 << bits) - 1) << low
        if taken[part] & mask:
            raise Wrong(f"'{word}' says again what was said of {part}: say it once")
        taken[part] |= mask
        if must_change and hart[part] & mask == value << low:
            raise Wrong(f"'{word}' is so before: name only what changes")
        after[part] = after[part] & ~mask | value << low
    return after


def csr(text):
    """A CSR by its name, or any address."""
    if text in ADDRESSES:
        return ADDRESSES[text]
    if text.startswith("0x"):
        return number(text, 0, 0xFFF, "CSR address")
    raise Wrong(f"'{text}' is no CSR: write an address from 0x000 to 0xFFF, or one of {', '.join(ADDRESSES)}")


def arguments(name, words):
    """The operation's two numbers; 0 for one that it does not have."""
    wanted = OPERATIONS[name][1]
    if len(words) != len(wanted):
        raise Wrong(f"'{name}' with {len(words)} words after it: write `{' '.join([name] + [w.upper() for w in wanted])}`")
    readers = {"csr": csr, "access": lambda word: choice(word, KINDS, "kind of access")}
    numbers = [readers[what](word) if what in readers else number(word, 0, LARGEST, what) for what, word in zip(wanted, words)]
    return (numbers + [0, 0])[:2]


def regime(text):
    """The value of `mode=S sv39=1 sum=0 mxr=0 sse=1 masked=7`: every part, in this order."""
    words = [word.partition("=") for word in text.split()]
    if [name for name, _, _ in words] != list(REGIME):
        raise Wrong(f"'{text}' is no regime: write `mode=S sv39=1 sum=0 mxr=0 sse=1 masked=7`, each part and in this order")
    values = [choice(value, MODES, "mode") if name == "mode" else number(value, 0, 16 if name == "masked" else 1, name)
              for name, _, value in words]
    return sum(value * weight for value, weight in zip(values, REGIME.values()))


def answer(kind, text, hart):
    """What comes of an operation: the two numbers, and the hart after."""
    if kind in NO_OR_VALUE:
        return choice(text, NO_OR_VALUE[kind], "answer here"), hart
    if kind == "regime":
        return [0, regime(text)], hart
    if text == "illegal" and kind != "changed":
        return [1, 0], hart
    if kind == "shown":
        return [0, number(text, 0, LARGEST, "value that a read shows, nor 'illegal'")], hart
    if text == "nothing changes":
        return [0, 0], hart
    if "=" not in text:
        raise Wrong(f"'{text}' is no answer here: write what changes as NAME=VALUE .., or `nothing changes`"
                    + (", or `illegal`" if kind == "written" else ""))
    return [0, 0], with_settings(hart, text.split(), True)


class HartCase(Case):
    """A case on a hart: the program prints its text alone, for nobody reads 55 numbers."""

    def printed(self):
        return f"ok {self.text}"


class Maker:
    """The maker of one manifest: its name, the hart that its cases start from, the operations that stand in it, and a case."""

    def __init__(self, name, hart, operations, example):
        self.name, self.hart, self.operations, self.example = name, hart, operations, example

    def case(self, line, text):
        given, wanted, remark = parts(text, *self.example)
        words = given.split()
        at = next((i for i, word in enumerate(words) if "=" not in word), len(words))
        if at == len(words) or words[at] not in self.operations:
            found = f"'{words[at]}' is no operation" if at < len(words) else "no operation after the settings"
            raise Wrong(f"{found}: write one of {', '.join(self.operations)}")
        name = words[at]
        operation, _, kind = OPERATIONS[name]
        before = with_settings(self.hart, words[:at], False)
        values, after = answer(kind, wanted, before)
        numbers = [operation] + arguments(name, words[at + 1 :]) + [before[part] for part in PARTS]
        right = values + [after[part] for part in PARTS]
        return HartCase(line, hexadecimal(numbers), hexadecimal(right), said(given, wanted, remark))

    def items(self):
        """The headings and the cases, in order."""
        return manifest.read(self.name, self.case)


# In the order in which the program runs them.
MAKERS = [
    Maker("access", MARKED, ["read", "write"], ("mode=S read 0x105", "0x200")),
    Maker("csr", MARKED, ["read", "write"], ("mstatus.MPP=S write mstatus 0x1008", "mstatus.MIE=1")),
    Maker("enable", START, ["shadow", "swap", "pad"], ("mode=S menvcfg.SSE=1 shadow", "on")),
    Maker("regime", START, ["regime"], ("mode=S satp.MODE=8 regime load", "mode=S sv39=1 sum=0 mxr=0 sse=0 masked=0")),
    Maker("legal", START, ["legal"], ("mode=2 legal", "refused")),
    Maker("trap", MARKED, ["trap"], ("mode=U medeleg=0x0 trap 8 0", "pc=0x300 mode=M mepc=0x80000400 mcause=8 mtval=0")),
    Maker("returns", MARKED, ["mret", "sret"], ("mstatus.MPP=U mret", "pc=0x304 mode=U mstatus.MPIE=1")),
]
