"""The cases of the M extension and of what is here of Zbb: from vectors/arithmetic.txt.

A line is `CALL INSTRUCTION; .. | WORD ..`: what is executed, and on what. CALL is `word` or `step`, a case for each instruction,
which is given or fetched, or `run`, one case of them all in a row. A WORD is

    REGISTER=VALUE,VALUE,..      a case for each value, with each value of the other registers. A VALUE is a number, a negative one
                                 for its 64 bits, or 1<<FIRST..LAST for each bit from FIRST to LAST alone
    NAME=VALUE, page=..          as in vectors/call.py; a fetched word lies at pc, so a page map takes each page to itself

and `let NAME = TEXT` puts TEXT for the word NAME in the lines below it.

Answers are not in the manifest but worked out here from the manual's text with Python's integers (MEANING): no code of the project is
asked. The words are the assembler's, as vectors/decode.txt has them. The data are those of the public calls, as vectors/call.py says.
"""
import itertools
import re

import call
import decode
import manifest
from hart import PARTS, REGISTERS
from manifest import LARGEST, Wrong, choice, number, parts

NAME = "arithmetic"
CALLS = ["word", "step", "run"]


def signed(n, bits):
    """The number that these bits are with a sign."""
    return n - (1 << bits) if n >> bits - 1 else n


def quotient(a, b):
    """Rounded towards zero; by zero all bits are set."""
    if b == 0:
        return -1
    return abs(a) // abs(b) if (a < 0) == (b < 0) else -(abs(a) // abs(b))


def remainder(a, b):
    """The dividend less divisor times quotient, so that its sign is the dividend's; by zero it is the dividend."""
    return a if b == 0 else a - b * quotient(a, b)


def leading(bits):
    return lambda n: bits - n.bit_length()


def trailing(bits):
    """The lowest bit alone has one bit more than zeros stand behind it."""
    return lambda n: (n & -n).bit_length() - 1 if n else bits


def ones(n):
    return bin(n).count("1")


# Of each instruction how many of an operand's bits it reads and how many its result has, whether each operand has a sign (s) or none
# (u), and the result, of which those bits are taken. A result of 32 bits is sign-extended to 64, an unsigned one too.
MEANING = {
    "mul": (64, "uu", lambda a, b: a * b),
    "mulh": (64, "ss", lambda a, b: a * b >> 64),
    "mulhsu": (64, "su", lambda a, b: a * b >> 64),
    "mulhu": (64, "uu", lambda a, b: a * b >> 64),
    "div": (64, "ss", quotient),
    "divu": (64, "uu", quotient),
    "rem": (64, "ss", remainder),
    "remu": (64, "uu", remainder),
    "mulw": (32, "uu", lambda a, b: a * b),
    "divw": (32, "ss", quotient),
    "divuw": (32, "uu", quotient),
    "remw": (32, "ss", remainder),
    "remuw": (32, "uu", remainder),
    "min": (64, "ss", min),
    "minu": (64, "uu", min),
    "max": (64, "ss", max),
    "maxu": (64, "uu", max),
    "clz": (64, "u", leading(64)),
    "ctz": (64, "u", trailing(64)),
    "cpop": (64, "u", ones),
    "clzw": (32, "u", leading(32)),
    "ctzw": (32, "u", trailing(32)),
    "cpopw": (32, "u", ones),
}


def result(name, operands):
    """The 64 bits that an instruction makes of its operands' 64 bits."""
    bits, signs, work = MEANING[name]
    low = [n % (1 << bits) for n in operands]
    read = [signed(n, bits) if sign == "s" else n for n, sign in zip(low, signs)]
    return signed(work(*read) % (1 << bits), bits) % (1 << 64)


class Instruction:
    """One instruction: its text, its name, rd, the registers that it reads, and its word."""

    def __init__(self, text):
        self.text = " ".join(text.split())
        self.name, _, rest = self.text.partition(" ")
        self.rd, *self.operands = rest.split(", ")
        signs = choice(self.name, MEANING, "instruction of these cases")[1]
        if len(self.operands) != len(signs) or not {self.rd, *self.operands} <= set(REGISTERS):
            raise Wrong(f"'{self.text}': write it as {self.name} {', '.join(['x3', 'x1', 'x2'][:1 + len(signs)])}")
        if self.text not in decode.words():
            raise Wrong(f"'{self.text}' has no word: add it to vectors/decode.txt, for which the assembler makes it")
        self.word = decode.words()[self.text]

    def execute(self, hart):
        """Changes rd, and tells what it becomes."""
        value = result(self.name, [hart[register] for register in self.operands])
        if self.rd == "x0":
            return f"{self.name} x0"
        hart[self.rd] = value
        return f"{self.name} {self.rd}={shown(value)}"


def shown(n):
    return f"0x{n:X}"


def values(text):
    """The numbers that the text of a register's values names."""
    found = []
    for part in text.split(","):
        bits = re.fullmatch(r"1<<(\d+)\.\.(\d+)", part)
        if bits:
            found += [1 << k for k in range(number(bits[1], 0, 63, "bit"), number(bits[2], 0, 63, "bit") + 1)]
        else:
            found.append(number(part, -(1 << 63), LARGEST, "value of a register") % (1 << 64))
    return found


def case(line, how, code, settings):
    """The case of these instructions, in a row, on a hart with these settings."""
    argument = {"word": f" {code[0].word:#x}", "step": "", "run": f" {len(code)}"}[how]
    given = call.Given(f"{' '.join(settings)} {how}{argument}", {})
    if how != "word":
        words = ",".join(f"{instruction.word:#x}" for instruction in code)
        given.bytes.update(call.stored(f"code@{given.hart['pc']:#x}={words}"))
    after = dict(given.hart)
    told = [instruction.execute(after) for instruction in code]
    after["pc"] += 4 * len(code)
    wanted = [0, len(code), 0, 0] + [after[part] for part in PARTS]
    return call.case(line, given.numbers(), wanted, f"{' '.join(settings)} {how} | {' '.join(told)}")


class Reader:
    """Reads the lines, with what the `let` lines among them have said so far."""

    def __init__(self):
        self.names = {}

    def replaced(self, text):
        return re.sub(r"\b[a-z]+\b", lambda word: self.names.get(word[0], word[0]), text)

    def let(self, text):
        found = re.fullmatch(r"let ([a-z]+) = (.+)", text)
        if not found or found[1] in [*MEANING, *CALLS]:
            raise Wrong("write `let NAME = TEXT`, with a name of small letters that is no instruction and no call")
        self.names[found[1]] = self.replaced(found[2])

    def cases(self, line, text):
        """The cases of a line; none of a `let`."""
        if text.startswith("let "):
            self.let(text)
            return []
        left, right, _ = parts(self.replaced(text), "run mul x3, x1, x2; div x4, x1, x2", "x1=0,1,-1 x2=7")
        how, _, rest = left.partition(" ")
        choice(how, dict.fromkeys(CALLS), "call")
        code = [Instruction(one) for one in rest.split(";")]
        lists, others = {}, []
        for word in right.split():
            name, _, after = word.partition("=")
            if name in REGISTERS:
                lists[name] = values(after)
            else:
                others.append(word)
        return [case(line, how, some, others + [f"{register}={shown(n)}" for register, n in zip(lists, chosen)])
                for chosen in itertools.product(*lists.values())
                for some in ([code] if how == "run" else [[one] for one in code])]


def items():
    """The headings and the cases, in order."""
    found = manifest.read(NAME, Reader().cases)
    return call.fitting(NAME, [item for some in found for item in (some if isinstance(some, list) else [some])])
