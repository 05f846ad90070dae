"""The decode cases: words that the GNU assembler makes of vectors/decode.txt, and what each must be read as.

It needs riscv64-unknown-elf-as, -nm and -objcopy, of Debian's package binutils-riscv64-unknown-elf, and installs
nothing. The words come from the assembler and the readings from the manifest, so neither is taken from the decoder
that they test. Where the assembler is missing, the words are those of the stored data, and the manifest may not have
changed since those were made.

A line of the data is a word, '=', nine numbers and the text: the instruction's eight, as include/sporhulma.h lays them out, and the
word that writing them gives: the word itself, or 0 for what is illegal, which is refused.
"""
import functools
import pathlib
import re
import shutil
import subprocess
import sys
import tempfile

import manifest
from manifest import Case, Wrong, choice, hexadecimal, number, parts

NAME = "decode"
PACKAGE = "binutils-riscv64-unknown-elf"
# What the hart lacks is here too, so that the assembler knows the words that must be illegal.
MARCH = "rv64imafdc_zicsr_zifencei_zihintpause_zicbom_zba_zbb_zbc_zbkb_zbs_svinval"


def key(funct7, rs2, funct3):
    """An operation's number, as the manual's listings have its bits."""
    return funct7 << 8 | rs2 << 3 | funct3


CONDITIONS = {"equal": 0b000, "not-equal": 0b001, "less": 0b100, "not-less": 0b101, "less-unsigned": 0b110, "not-less-unsigned": 0b111}
SHIFTS = {"sll": key(0, 0, 0b001), "srl": key(0, 0, 0b101), "sra": key(0b0100000, 0, 0b101)}
COUNTS = {name: key(0b0110000, rs2, 0b001) for rs2, name in enumerate(["clz", "ctz", "cpop"])}
OPERATIONS = {"add": 0, "sub": key(0b0100000, 0, 0), "slt": 0b010, "sltu": 0b011, "xor": 0b100, "or": 0b110, "and": 0b111, **SHIFTS, **COUNTS,
              **{name: key(0b0000001, 0, i) for i, name in enumerate(["mul", "mulh", "mulhsu", "mulhu", "div", "divu", "rem", "remu"])},
              **{name: key(0b0000101, 0, 4 + i) for i, name in enumerate(["min", "minu", "max", "maxu"])}}
WORD_OPERATIONS = {name: OPERATIONS[name] for name in ["add", "sub", *SHIFTS, "mul", "div", "divu", "rem", "remu", *COUNTS]}
LOADS = {"signed": {"byte": 0b000, "half": 0b001, "word": 0b010, "double": 0b011}, "unsigned": {"byte": 0b100, "half": 0b101, "word": 0b110}}
STORES = LOADS["signed"]
SWAPS = {"word": key(0b0100100, 0, 0b010), "double": key(0b0100100, 0, 0b011)}
CSR_REGISTERS = {"write": 0b001, "set": 0b010, "clear": 0b011}
CSR_IMMEDIATES = {"write": 0b101, "set": 0b110, "clear": 0b111}

# The least and the largest value of each key.
RANGES = {
    "rd": (0, 31), "rs1": (0, 31), "rs2": (0, 31), "n": (0, 31), "number": (0, 31), "csr": (0, 0xFFF),
    "fm": (0, 15), "pred": (0, 15), "succ": (0, 15), "aq": (0, 1), "rl": (0, 1), "imm": (-1 << 31, (1 << 31) - 1),
}


def numbers(family, operation=0, rd=0, rs1=0, rs2=0, imm=0, first=0, second=0):
    return [family, operation, rd, rs1, rs2, imm % (1 << 64), first, second]


def load(width, sign):
    return choice(width, choice(sign, LOADS, "kind of load"), "width")


# Of each family: how many names follow it, the keys that it must have, and its eight numbers.
FAMILIES = {
    "illegal": (0, "", lambda w, k: numbers(0)),
    "lui": (0, "rd imm", lambda w, k: numbers(1, **k)),
    "auipc": (0, "rd imm", lambda w, k: numbers(2, **k)),
    "jal": (0, "rd imm", lambda w, k: numbers(3, **k)),
    "jalr": (0, "rd rs1 imm", lambda w, k: numbers(4, **k)),
    "branch": (1, "rs1 rs2 imm", lambda w, k: numbers(5, choice(w[0], CONDITIONS, "condition"), **k)),
    "load": (2, "rd rs1 imm", lambda w, k: numbers(6, load(*w), **k)),
    "store": (1, "rs1 rs2 imm", lambda w, k: numbers(7, choice(w[0], STORES, "width"), **k)),
    "op-imm": (1, "rd rs1 imm", lambda w, k: numbers(8, choice(w[0], OPERATIONS, "operation"), **k)),
    "op-imm-32": (1, "rd rs1 imm", lambda w, k: numbers(9, choice(w[0], WORD_OPERATIONS, "word operation"), **k)),
    "op": (1, "rd rs1 rs2", lambda w, k: numbers(10, choice(w[0], OPERATIONS, "operation"), **k)),
    "op-32": (1, "rd rs1 rs2", lambda w, k: numbers(11, choice(w[0], WORD_OPERATIONS, "word operation"), **k)),
    "fence": (0, "fm pred succ rs1 rd", lambda w, k: numbers(
        12, k["fm"], k["rd"], k["rs1"], first=k["pred"], second=k["succ"])),
    "ecall": (0, "", lambda w, k: numbers(13)),
    "ebreak": (0, "", lambda w, k: numbers(14)),
    "sret": (0, "", lambda w, k: numbers(15)),
    "mret": (0, "", lambda w, k: numbers(16)),
    "csr-register": (1, "rd rs1 csr", lambda w, k: numbers(
        17, choice(w[0], CSR_REGISTERS, "CSR operation"), k["rd"], k["rs1"], first=k["csr"])),
    "csr-immediate": (1, "rd number csr", lambda w, k: numbers(
        17, choice(w[0], CSR_IMMEDIATES, "CSR operation"), k["rd"], k["number"], first=k["csr"])),
    "read-ssp": (0, "rd", lambda w, k: numbers(18, **k)),
    "push": (0, "rs2", lambda w, k: numbers(19, **k)),
    "pop": (0, "rs1", lambda w, k: numbers(20, **k)),
    "swap": (1, "rd rs1 rs2 aq rl", lambda w, k: numbers(
        21, choice(w[0], SWAPS, "width"), k["rd"], k["rs1"], k["rs2"], first=k["aq"], second=k["rl"])),
    "mop-r": (0, "n rd rs1", lambda w, k: numbers(22, k["n"], k["rd"], k["rs1"])),
    "mop-rr": (0, "n rd rs1 rs2", lambda w, k: numbers(23, k["n"], k["rd"], k["rs1"], k["rs2"])),
}


def value(key, text):
    if key not in RANGES:
        raise Wrong(f"'{key}' is no key: write one of {', '.join(RANGES)}")
    return number(text, *RANGES[key], key)


def reading(text):
    """The eight numbers of a reading, as `op-imm add rd=10 rs1=0 imm=-1`."""
    words = text.split()
    if not words or words[0] not in FAMILIES:
        raise Wrong(f"'{text}' starts with no family: write one of {', '.join(FAMILIES)}")
    names, keys, make = FAMILIES[words[0]]
    given = {}
    for word in words[1 + names:]:
        key, equals, number = word.partition("=")
        if not equals:
            raise Wrong(f"'{word}' is no key=number; '{words[0]}' is followed by {names} names and the keys: {keys}")
        if key in given:
            raise Wrong(f"'{key}' is given twice")
        given[key] = value(key, number)
    if set(given) != set(keys.split()) or len(words) < 1 + names:
        raise Wrong(f"'{words[0]}' must be followed by {names} names and exactly the keys: {keys or 'none'}")
    return make(words[1:1 + names], given)


class Word:
    """One line of the manifest: what to assemble, the bit to flip or None, the reading and the remark."""

    def __init__(self, line, text):
        self.line = line
        self.code, right, self.remark = parts(text, "what to assemble", "what it must be read as")
        self.flip = None
        flipped = re.fullmatch(r"\^ (\d+) (.+)", self.code)
        if flipped:
            self.flip, self.code = int(flipped[1]), flipped[2]
        if self.flip is not None and self.flip > 31:
            raise Wrong(f"a word has no bit {self.flip}: write `^ BIT instruction` with a bit from 0 to 31")
        if self.code.startswith("^"):
            raise Wrong("nothing to assemble: write an instruction, or `^ BIT instruction`")
        self.numbers = reading(right)
        self.legal = self.numbers[0] != 0

    def text(self):
        flip = "" if self.flip is None else f", bit {self.flip} flipped"
        return self.code + flip + (f" ({self.remark})" if self.remark else "")

    def case(self, word):
        return Case(self.line, f"{word:08x}", hexadecimal(self.numbers + [word if self.legal else 0]), self.text())


def complain(line, what):
    manifest.complain(NAME, line, what)


def tool(name):
    return shutil.which("riscv64-unknown-elf-" + name)


def assembled(words):
    """What each line is assembled to, before its flip. A label at each shows which line is not four bytes."""
    source = [".text", ".option norvc"]
    for word in words:
        compressed = word.code.startswith("c.")
        source += [f"case_{word.line}: .option {'rvc' if compressed else 'norvc'}",
                   f'# {word.line} "vectors/{NAME}.txt"', "\t" + word.code]
    source += ["case_end:", ""]
    with tempfile.TemporaryDirectory() as folder:
        path = pathlib.Path(folder)
        (path / "a.s").write_text("\n".join(source))
        made = subprocess.run([tool("as"), f"-march={MARCH}", "-mabi=lp64", "-mno-relax", "-o", path / "a.o", path / "a.s"])
        if made.returncode:
            sys.exit("vectors/make: the assembler does not take the lines above; write a word it does not know as `.word 0x..`")
        subprocess.run([tool("objcopy"), "-O", "binary", "-j", ".text", path / "a.o", path / "a.bin"], check=True)
        symbols = subprocess.run([tool("nm"), path / "a.o"], check=True, capture_output=True, text=True).stdout
        code = (path / "a.bin").read_bytes()
    places = {m[2]: int(m[1], 16) for m in re.finditer(r"^([0-9a-f]+) \w (case_\w+)$", symbols, re.M)}
    starts = [places[f"case_{word.line}"] for word in words] + [places["case_end"]]
    for word, start, end in zip(words, starts, starts[1:]):
        if end - start != 4:
            complain(word.line, f"'{word.code}' is {end - start} bytes: write one instruction of 4, or two of 2")
            sys.exit(1)
    return [int.from_bytes(code[i:i + 4], "little") for i in starts[:-1]]


def flipped(words, before):
    """The word of each line. A flip starts at a word that is legal here."""
    legal = {n for word, n in zip(words, before) if word.flip is None and word.legal}
    after, bad = [], 0
    for word, n in zip(words, before):
        if word.flip is not None and n not in legal:
            complain(word.line, f"'{word.code}' ({n:08x}) is no legal case of this file: add it, or flip one that is")
            bad += 1
        after.append(n if word.flip is None else n ^ 1 << word.flip)
    if bad:
        sys.exit(1)
    return after


def stored(words):
    """The word of each line as the stored data have it, for a machine without the assembler."""
    lines = [line for line in manifest.stored(manifest.data_path(NAME)) if line and not line.startswith("#")]
    print(f"vectors/make: riscv64-unknown-elf-as is not here: {manifest.data_path(NAME)} keeps its words"
          f" (to assemble them anew install the Debian package {PACKAGE})", file=sys.stderr)
    for word, line in zip(words, lines):
        if word.case(int(line.split()[0], 16)).data() != line:
            complain(word.line, f"has changed since {manifest.data_path(NAME)} was made, which wants the assembler")
            sys.exit(1)
    if len(words) != len(lines):
        sys.exit(f"vectors/make: vectors/{NAME}.txt has {len(words)} cases and {manifest.data_path(NAME)} {len(lines)}:"
                 " only the assembler can make them anew")
    return [int(line.split()[0], 16) for line in lines]


@functools.cache
def read():
    """The headings and the lines, in order, each line with its word."""
    found = manifest.read(NAME, Word)
    lines = [item for item in found if isinstance(item, Word)]
    made = iter(flipped(lines, assembled(lines)) if tool("as") else stored(lines))
    return [(item, next(made) if isinstance(item, Word) else None) for item in found]


def items():
    """The headings and the cases, in order."""
    return [item if word is None else item.case(word) for item, word in read()]


def words():
    """Of each instruction that is a case as it stands its word."""
    return {item.code: word for item, word in read() if word is not None and item.flip is None}
